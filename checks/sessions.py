"""Runs the sessions of `checks/sessions/`, each in a folder of its own, and long sessions that are generated here.

    session NAME        begins a session, which is a list of steps
    $ bwsh WORDS        begins a step: the program is run with these words; if several such lines follow one another, once for each of them
    < LINE              a line of input
    > LINE              a line of standard output; `! LINE`, one of standard error. Their order is free
    exit N              the status, if it is not 0
    file NAME N         afterwards this file has N bytes; with `none`, there is no such file; with `kept`, it is unchanged
    zeros NAME N        before the next step, N zeros are written to this file; with `cut NAME N`, it is cut to this length

In a line, \\t, \\r and \\xFF are bytes, and \\ at its end means that no line feed follows. `<*3 LINE` is three such lines, and `<a-q LINE` one for
each letter, which replaces the @. Empty lines and lines that begin with # are comments.
"""

import re
import shlex
from collections.abc import Callable
from dataclasses import dataclass, field
from pathlib import Path

from tools.cases import SMALL_STORE, Case, Outcome, Programs, differs
from tools.processes import new_folder, run

FOLDER = Path(__file__).resolve().parent / "sessions"
ESCAPE = re.compile(rb"\\(t|r|x[0-9A-F]{2})")
NAMED = {b"t": b"\t", b"r": b"\r"}
TEXT = re.compile(r"([<>!])(?:\*(\d+)|([a-z])-([a-z]))?(?: (.*))?")
CHANGE = re.compile(r"(zeros|cut) (\S+) (\d+)")
FILE = re.compile(r"file (\S+) (\d+|none|kept)")


@dataclass
class Step:
    line: int
    changes: list[tuple[str, str, int]]
    words: list[list[str]] = field(default_factory=list)
    text: bytes = b""
    out: bytes = b""
    err: bytes = b""
    status: int = 0
    files: list[tuple[str, str]] = field(default_factory=list)

    def is_begun(self) -> bool:
        return bool(self.text or self.out or self.err or self.status or self.files)


@dataclass
class WrittenSession:
    name: str
    steps: list[Step] = field(default_factory=list)


def bytes_of(line: str) -> bytes:
    body = line.encode().removesuffix(b"\\")
    if b"\\" in ESCAPE.sub(b"", body):
        raise ValueError(f"an unknown escape: {line}")
    text = ESCAPE.sub(lambda found: NAMED.get(found[1]) or bytes([int(found[1][1:], 16)]), body)
    return text if line.endswith("\\") else text + b"\n"


def lines_of(found: re.Match[str]) -> bytes:
    _, times, first, last, line = found.groups(default="")
    if first:
        return b"".join(bytes_of(line.replace("@", chr(letter))) for letter in range(ord(first), ord(last) + 1))
    return bytes_of(line) * int(times or 1)


class SessionFileReader:
    def __init__(self, path: Path) -> None:
        self.sessions: list[WrittenSession] = []
        self.changes: list[tuple[str, str, int]] = []
        for number, line in enumerate(path.read_text().splitlines(), 1):
            if line and not line.startswith("#") and not self.take(number, line):
                raise ValueError(f"{path.name}: line {number} does not belong to a session: {line}")

    def take(self, number: int, line: str) -> bool:
        """Returns whether the line is valid."""
        if line.startswith("session "):
            self.sessions.append(WrittenSession(line.removeprefix("session ")))
            return not self.changes
        if not self.sessions:
            return False
        if found := CHANGE.fullmatch(line):
            self.changes.append((found[1], found[2], int(found[3])))
            return True
        steps = self.sessions[-1].steps
        if line.startswith("$ bwsh"):
            if not steps or steps[-1].is_begun() or self.changes:
                steps.append(Step(number, self.changes))
                self.changes = []
            steps[-1].words.append(shlex.split(line)[2:])
            return True
        return bool(steps) and take_in_step(steps[-1], line)


def take_in_step(step: Step, line: str) -> bool:
    if found := TEXT.fullmatch(line):
        name = {"<": "text", ">": "out", "!": "err"}[found[1]]
        setattr(step, name, getattr(step, name) + lines_of(found))
    elif found := re.fullmatch(r"exit (\d)", line):
        step.status = int(found[1])
    elif found := FILE.fullmatch(line):
        step.files.append((found[1], found[2]))
    else:
        return False
    return True


def change_file(change: str, path: Path, length: int) -> None:
    path.write_bytes(bytes(length) if change == "zeros" else path.read_bytes()[:length])


def wrong_file(path: Path, expected: str, before: bytes | None) -> str | None:
    now = path.read_bytes() if path.exists() else None
    if expected == "kept":
        return None if now == before and now is not None else f"{path.name} has other bytes"
    length = "none" if now is None else str(len(now))
    return None if length == expected else f"the length of {path.name} is {length}, where {expected} was expected"


def run_step(programs: Programs, step: Step, folder: Path) -> str | None:
    for change, name, length in step.changes:
        change_file(change, folder / name, length)
    for words in step.words:
        before = {name: (folder / name).read_bytes() for name, expected in step.files if expected == "kept"}
        ran = run([programs.store, *words], step.text, folder=folder)
        wrong = differs(ran, step.status, step.out, step.err)
        for name, expected in step.files:
            wrong = wrong or wrong_file(folder / name, expected, before.get(name))
        if wrong:
            return f"line {step.line}, {' '.join(words) or 'without words'}: {wrong}"
    return None


def run_session(programs: Programs, session: WrittenSession) -> Outcome:
    with new_folder() as folder:
        for step in session.steps:
            if wrong := run_step(programs, step, Path(folder)):
                return Outcome(wrong)
    return Outcome()


def read_sessions() -> list[tuple[str, WrittenSession]]:
    return [(path.stem, session) for path in sorted(FOLDER.glob("*.session")) for session in SessionFileReader(path).sessions]


# ---- Generated sessions.

KEYS = 1_000
IN_A_BATCH = 10


def grow_and_shrink() -> tuple[bytes, bytes]:
    """The step is coprime with the count, so each key comes once."""
    puts = [b"put %d v\n" % (place * 389 % KEYS) for place in range(KEYS)]
    deletes = [b"get %d\ndel %d\n" % (key, key) for key in range(KEYS)]
    lines = [line + (b"go\n" if at % IN_A_BATCH == IN_A_BATCH - 1 else b"") for at, line in enumerate(puts + deletes)]
    return b"".join(lines), KEYS * b"new\n" + KEYS * b"value v\ndeleted\n"


def full_log() -> tuple[bytes, bytes]:
    """Fills the log of worked example 15, so that the eighteenth flush is refused."""
    out = b"new\nflushed 2\n" + b"".join(b"replaced\nflushed %d\n" % number for number in range(3, 19)) + b"replaced\n"
    return 18 * b"put a 0123456789abcdef\nflush\n", out


LONG_SESSIONS: dict[str, tuple[tuple[str, ...], Callable[[], tuple[bytes, bytes]], int, bytes]] = {
    "a_tree_grows_and_shrinks": (("--fan=4",), grow_and_shrink, 0, b""),
    "a_tree_grows_and_shrinks, four workers": (("--fan=4", "--workers=4", "--grain=1"), grow_and_shrink, 0, b""),
    "a_full_log_ends_the_session": (SMALL_STORE, full_log, 4, b"fault 10 Full\n"),
    "the_longest_value": ((), lambda: (b"put a " + 256 * b"v", b"new\n"), 0, b""),
    "a_long_value_is_refused": ((), lambda: (b"put a " + 257 * b"v", b""), 4, b"fault 3 ValueTooLong 0\n"),
}


def run_long(programs: Programs, name: str) -> Outcome:
    words, make, status, err = LONG_SESSIONS[name]
    text, out = make()
    return Outcome(differs(run([programs.store, *words], text), status, out, err))


ENTRIES = 50


def open_folder(programs: Programs) -> Outcome:
    """The entries make the folder's size exceed the front of a store."""
    with new_folder() as folder:
        for number in range(ENTRIES):
            (Path(folder) / f"entry {number}").touch()
        found = run([programs.store, "--fan=65", "--disk=."], b"get a\n", folder=Path(folder))
        made = run([programs.store, *SMALL_STORE, "--create", "--disk=."], b"get a\n", folder=Path(folder))
        return Outcome(differs(found, 4, b"", b"fault 9 Device\n") or differs(made, 4, b"", b"fault 9 Device\n"))


def cases(programs: Programs) -> list[Case]:
    made = [*(Case(name, run_long, (programs, name)) for name in LONG_SESSIONS), Case("a_folder_holds_no_store", open_folder, (programs,))]
    return made + [Case(f"{name}: {session.name}", run_session, (programs, session)) for name, session in read_sessions()]
