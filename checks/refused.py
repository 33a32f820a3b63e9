"""Refuses each allocation in turn: in the crates' tests that ask for it by a comment, and in sessions of the program.

    python3 -m checks.refused PROGRAM TEST    # at the top of the repository: one test of a built test program
"""

import re
import subprocess
import sys
import tempfile
from dataclasses import dataclass
from pathlib import Path

from tools.building import build_c_library
from tools.cases import SMALL_STORE, Case, Outcome, Programs, differs
from tools.failures import ANSWERS, DEVICE, NO_MEMORY, REFUSE, REFUSED, TEXT, refuse_each, refusing, wrong_session
from tools.log.reading import BadStore, read_store
from tools.model import OrderedMap
from tools.processes import TOP, Command, abbreviate, new_folder, run

TESTS = TOP / "tests"
REQUEST = "each allocation refused in turn"  # in a comment before a test
COMMENTED_TEST = re.compile(r"((?:^//.*\n)+)#\[test\]\n(?:#.*\n)*fn (\w+)", re.MULTILINE)
LANES = 4  # cases per test, each with a share of the allocations
SESSION_BUDGET = 20  # seconds for a session's hundreds of runs


def requested_tests(crate: str) -> list[str]:
    source = TESTS / crate
    names = []
    for path in sorted(source.rglob("*.rt.in")):
        module = "::".join(path.relative_to(source).with_suffix("").with_suffix("").parts)
        for comment, name in COMMENTED_TEST.findall(path.read_text()):
            if REQUEST in re.sub(r"\s*\n//\s*", " ", comment):
                names.append(f"{module}::{name}")
    return names


def leave_out(crate: str) -> Outcome:
    return Outcome(left_out=f"the tests of {crate} are not built")


def cases_of(crate: str, program: Path | None, library: Path) -> list[Case]:
    names = requested_tests(crate)
    if program is None:
        return [Case(crate, leave_out, (crate,))] if names else []
    lanes = range(1, LANES + 1)
    return [Case(f"{crate} {name}, part {lane} of {LANES}", refuse_each, ([program, name], library, lane, LANES)) for name in names for lane in lanes]


def asks_of(text: bytes) -> list[list[list[bytes]]]:
    """Returns the batches and orders of a text: each is a list of lines, and each line a list of words."""
    asks: list[list[list[bytes]]] = []
    pending: list[list[bytes]] = []
    for line in [*text.splitlines(), b""]:
        words = line.replace(b"%41", b"A").split()
        if words and words[0] in COMMANDS:
            pending.append(words)
            continue
        if pending or words == [b"go"]:
            asks.append(pending)
            pending = []
        if words and words != [b"go"]:
            asks.append([words])
    return asks


COMMANDS = {b"put": "put", b"add": "add", b"get": "get", b"del": "delete", b"scan": "scan", b"wipe": "wipe"}


def replies(held: OrderedMap, batch: list[list[bytes]]) -> list[bytes]:
    lines = []
    for name, *words in batch:
        bounds = [b"" if word == b"%" else None if word == b"*" else word for word in words[:2]]
        arguments = [*bounds, int(words[2])] if name == b"scan" else bounds if name == b"wipe" else words
        lines += getattr(held, COMMANDS[name])(*arguments)
    return lines


def play(session: "RefusedSession", refused: int) -> list[tuple[bytes, "Pairs | None"]]:
    """Returns the possible outputs of a stream in which this batch or order is refused, each with the pairs that the file then has. A refused flush
    may have cleaned the log before."""
    is_cleaning = "--clean-when-full" in session.words
    kept = dict(session.states[0] or {}) if session.states else {}
    held = OrderedMap(kept)
    sequence = 18 if is_cleaning else 2 if session.old else 1
    lines: list[bytes] = []
    for number, ask in enumerate(asks_of(session.text)):
        name = ask[0][0] if ask else b"go"
        if number == refused:
            lines.append(b"fault 6 NoMemory")
        elif not ask or name in COMMANDS:
            lines += replies(held, ask)
        elif name == b"verify":
            lines.append(b"ok 1 1 %d" % len(held.pairs))
        else:
            is_cleaned = is_cleaning and held.is_touched
            sequence += (held.is_touched or name == b"upgrade") + is_cleaned
            kept, held.is_touched = dict(held.pairs), False
            lines += [b"cleaned 1"] * is_cleaned + [b"%s %d" % (b"upgraded" if name == b"upgrade" else b"flushed", sequence)]
    out = b"".join(line + b"\n" for line in lines)
    cleaned = out.replace(b"new\nfault 6 NoMemory\n", b"new\ncleaned 1\nfault 6 NoMemory\n")
    return [(out, kept), *([(cleaned, kept)] if is_cleaning else [])]


EXPLANATION = re.compile(rb"([^\n]+\n)?")  # follows a fault: a line, or nothing if its allocation was refused
FLUSHED = re.compile(rb"^flushed ", re.MULTILINE)  # begins a flush's answer

Pairs = dict[bytes, bytes]


@dataclass(frozen=True)
class RefusedSession:
    """`old` has the batch file and the answers of the session that makes the file. `states` has the file's pairs before the session (None: no file)
    and after each flush."""

    name: str
    words: tuple[str, ...]
    text: bytes
    answers: bytes
    old: tuple[bytes, bytes] | None = None
    states: tuple[Pairs | None, ...] = ()

    def wrong(self, ran: subprocess.CompletedProcess[bytes]) -> str | None:
        if "--stream" in self.words:
            return self.wrong_stream(ran)
        return wrong_session(ran, self.answers, self.is_fault)

    def wrong_stream(self, ran: subprocess.CompletedProcess[bytes]) -> str | None:
        """A stream answers at most one batch or order with fault 6, continues with the store as it was before, and ends with status 0. Or its store
        is not opened, or its disk in memory fails, which ends it."""
        err = ran.stderr.replace(REFUSED, b"")
        if (ran.returncode, ran.stdout) == (4, b"") and self.is_fault(err):
            return None
        if ran.returncode == 4 and not self.states and err.startswith(DEVICE) and ran.stdout.endswith(DEVICE):
            return None if self.answers.startswith(ran.stdout.removesuffix(DEVICE)) else ran.stdout.decode()
        is_quiet = not err or "--explain" in self.words and EXPLANATION.fullmatch(err) is not None
        is_right = ran.returncode == 0 and is_quiet and ran.stdout in self.outputs()
        return None if is_right else f"status {ran.returncode}, output {abbreviate(ran.stdout)}, errors {abbreviate(err)}"

    def outputs(self) -> dict[bytes, Pairs | None]:
        """Returns the possible outputs of a stream in which at most one batch or order is refused, each with the pairs that the file then has."""
        return {out: pairs for refused in range(-1, len(asks_of(self.text))) for out, pairs in play(self, refused)}

    def is_fault(self, err: bytes) -> bool:
        """A refused allocation is fault 6 or, for a store in memory, fault 9 of the disk."""
        fault = next((fault for fault in (NO_MEMORY, DEVICE) if err.startswith(fault)), None)
        if fault is None or fault == DEVICE and self.states:
            return False
        return err == fault or "--explain" in self.words and EXPLANATION.fullmatch(err, len(fault)) is not None

    def wrong_file(self, ran: subprocess.CompletedProcess[bytes], path: Path) -> str | None:
        """The file has the last flush that was answered, or the next one if its answer could not be allocated. Before the first flush, a new file
        may have no pairs."""
        flushes = len(FLUSHED.findall(ran.stdout))
        if "--stream" in self.words and ran.returncode == 0:
            kept = dict(read_store(path.read_bytes()).pairs)
            return None if kept == self.outputs()[ran.stdout] else f"output {abbreviate(ran.stdout)}, and the file holds {kept}"
        is_next = FLUSHED.match(self.answers, len(ran.stdout)) is not None
        expected = [self.states[flushes], *self.states[flushes + 1 : flushes + 1 + is_next]]
        if self.states[flushes] is None:
            expected.append({})
        try:
            found = dict(read_store(path.read_bytes()).pairs) if path.exists() else None
        except BadStore:
            found = None
        return None if found in expected else f"output {abbreviate(ran.stdout)}, and the file holds {found}, where one of {expected} was expected"


FULL = 17 * b"put a 0123456789abcdef\nflush\n"  # after these, another flush would leave no free segment
FULL_OUT = b"new\nflushed 2\n" + b"".join(b"replaced\nflushed %d\n" % number for number in range(3, 19))
FULL_PAIRS = {b"a": b"0123456789abcdef"}

STAT = b"stat sequence 2 head 0 tail %d segments 1 of %d pages %d pairs %d\n"
OLD = (b"put a 1\nflush\n", b"new\nflushed 2\n")
FLUSHING = b"get a\nput b 2\nflush\nput a 3\ngo\nput c 4\nflush\nput d 5\nscan % * 2\n"
FLUSHING_OUT = b"value 1\nnew\nflushed %d\nreplaced\nnew\nflushed %d\nnew\nrows 2\na 3\nb 2\n"
FLUSHING_STATES = ({b"a": b"1"}, {b"a": b"1", b"b": b"2"}, {b"a": b"3", b"b": b"2", b"c": b"4"})
MAKING_STATES = (None, {b"a": b"1"}, {b"a": b"3", b"b": b"2", b"c": b"4"})
MAKING = b"put a 1\nflush\nput a 3\nput b 2\nput c 4\nflush\n"
MAKING_OUT = b"new\nflushed 2\nreplaced\nnew\nnew\nflushed 3\n"
CLEANING = b"put b 1\nflush\nget a\n"
CLEANING_OUT = b"new\ncleaned 1\nflushed 20\nvalue 0123456789abcdef\n"
CLEANING_STATES = (FULL_PAIRS, {**FULL_PAIRS, b"b": b"1"})
# The second batch is executed on a map of all pairs.
BY_MAP = b"".join(b"put %02d v\n" % key for key in range(60)) + b"go\n" + 20 * b"wipe % *\nput 00 v\n"
BY_MAP_OUT = 60 * b"new\n" + b"wiped 60\nnew\n" + 19 * b"wiped 1\nnew\n"

OPTIONS: list[tuple[str, ...]] = [(), ("--explain",), ("--stream",), ("--stream", "--explain")]
SESSIONS = [
    *(RefusedSession("in memory", words, TEXT, ANSWERS) for words in OPTIONS),
    RefusedSession("in memory", ("--stat",), TEXT, ANSWERS + STAT % (95, 64, 1, 0)),
    RefusedSession("in memory", ("--clean-when-full", *SMALL_STORE), FULL + CLEANING, FULL_OUT + CLEANING_OUT),
    RefusedSession("in memory, with many wipes", ("--fan=4", "--chain=2"), BY_MAP, BY_MAP_OUT),
    *(RefusedSession("on a file", words, FLUSHING, FLUSHING_OUT % (3, 4), OLD, FLUSHING_STATES) for words in OPTIONS),
    RefusedSession("on a file", ("--stat",), b"get a\n", b"value 1\n" + STAT % (55, 4, 1, 1), OLD, FLUSHING_STATES),
    RefusedSession("on a file", ("--stream", "--clean-when-full", "--explain"), CLEANING, CLEANING_OUT, (FULL, FULL_OUT), CLEANING_STATES),
    RefusedSession("that makes its file", ("--stream", "--create", *SMALL_STORE), MAKING, MAKING_OUT, None, MAKING_STATES),
]


def refuse_session(programs: Programs, library: Path, number: int) -> Outcome:
    session = SESSIONS[number]
    with new_folder() as folder:
        path, old = Path(folder) / "store", Path(folder) / "old"
        if session.old:
            wrong = differs(run([programs.store, "--create", "--disk", old, *SMALL_STORE], session.old[0]), 0, session.old[1])
            if wrong:
                return Outcome(f"the file was not made: {wrong}")
        before = old.read_bytes() if session.old else None

        def prepare() -> None:
            path.unlink(missing_ok=True)
            if before is not None:
                path.write_bytes(before)

        def wrong_run(ran: subprocess.CompletedProcess[bytes]) -> str | None:
            return session.wrong(ran) or (session.wrong_file(ran, path) if session.states else None)

        on_file: Command = ["--disk", path] if session.states else []
        return refuse_each([programs.store, *session.words, *on_file], library, 1, 1, SESSION_BUDGET, session.text, wrong_run, prepare)


# The first two orders end batches that are skipped. An order reads keys, so that allocations for it can be refused.
SKIPPED = b"frob\n.back a b 5\nget a\nfrob\n.prefix a 5\nget a\n.back a b 5\nget a\ngo\n"
SKIPPED_LINES = [b"line 1: unknown command", b"rows 0", b"line 4: unknown command", b"rows 0", b"missing", b"rows 0", b"missing"]


def wrong_skipped(ran: subprocess.CompletedProcess[bytes]) -> str | None:
    """Each batch and each order has one line, also an order that ends a skipped batch. The refusal of an allocation is one of these lines."""
    err, fault = ran.stderr.replace(REFUSED, b""), NO_MEMORY.strip()
    if (ran.returncode, ran.stdout) == (4, b"") and err in (NO_MEMORY, DEVICE):
        return None
    lines = ran.stdout.splitlines()
    others = [line for line in lines if line != fault]
    expected = [line for line, found in zip(SKIPPED_LINES, lines) if found != fault]
    is_right = (ran.returncode, err, len(lines)) == (0, b"", len(SKIPPED_LINES)) and others == expected and lines.count(fault) <= 1
    return None if is_right else f"status {ran.returncode}, output {abbreviate(ran.stdout)}, errors {abbreviate(err)}"


def refuse_skipped(programs: Programs, library: Path) -> Outcome:
    return refuse_each([programs.store, "--stream"], library, 1, 1, SESSION_BUDGET, SKIPPED, wrong_skipped)


def refuse_first(programs: Programs, library: Path) -> Outcome:
    for words in (["--frob"], ["--help"]):
        ran = run([programs.store, *words], TEXT, environment=refusing(library, 1))
        wrong = differs(ran, 4, b"", REFUSED + NO_MEMORY) or (f"it read {ran.read} bytes" if ran.read else None)
        if wrong:
            return Outcome(f"{words}: {wrong}")
    return Outcome()


def cases(programs: Programs, library: Path) -> list[Case]:
    crates = sorted(path.name for path in TESTS.iterdir() if path.is_dir() and path.name[0] not in "_.")
    of_tests = [case for crate in crates for case in cases_of(crate, programs.tests.get(crate), library)]
    names = [" ".join(["a session", session.name, *(word for word in session.words if word not in SMALL_STORE)]) for session in SESSIONS]
    of_sessions = [Case(name, refuse_session, (programs, library, number)) for number, name in enumerate(names)]
    skipped = Case("orders that end skipped batches", refuse_skipped, (programs, library))
    return [*of_tests, *of_sessions, skipped, Case("the words of the command line", refuse_first, (programs, library))]


def main() -> None:
    with tempfile.TemporaryDirectory() as folder:
        outcome = refuse_each(sys.argv[1:], build_c_library(REFUSE, Path(folder)), 1, 1, budget=float("inf"))
    print(outcome.wrong or f"{outcome.measured}, one allocation refused in each: none failed")
    sys.exit(outcome.wrong is not None)


if __name__ == "__main__":
    main()
