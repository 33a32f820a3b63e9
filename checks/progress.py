"""`--progress`: a line on standard error that is rewritten about once a second. All else must be the same as without it."""

import re
import subprocess
import time
from dataclasses import replace
from pathlib import Path

from tools.cases import Case, Outcome, Programs, differs
from tools.failures import ANSWERS, BUDGET, DEVICE, NO_MEMORY, TEXT, FailingCalls, refuse_each, wrong_session
from tools.processes import PATIENCE, Command, Dialog, Limits, PipedProgram, RunResult, new_folder, run

START, END = b"\r", b"\x1b[K"
ERASED = START + END
ORDER_RUN = START + b"1 of 1 orders run" + END  # printed if a slow session's last command ends a second after the last progress
LINE = re.compile(rb"\r(\d+) of (\d+) orders run\x1b\[K")
INTERVAL = 1.1  # seconds between two updates
VERIFIES = 300  # of a session that takes some seconds
PAIRS = 60_000  # of its store
LONGEST = 50  # seconds that the session may take
SLOW = FailingCalls("none", wait=300)  # each read or write takes 0.3 s more
WIDE = ("--seg-size=512", "--max-key=16", "--max-value=16", "--fan=8")  # settings with which these pairs fill twelve segments
LOADED = b"".join(b"put key%03d value%d\n" % (number, number) for number in range(200))

# Options, input, status, output, errors, and whether the file is opened. Without --stream a bad line is found first.
SESSIONS = [
    ((), b"get a\nput b 2\nflush\n", 0, b"value 1\nnew\nflushed 3\n", b"", True),
    (("--stream",), b"get a\nput b 2\nflush\n", 0, b"value 1\nnew\nflushed 3\n", b"", True),
    ((), b"get a\nfrob\n", 3, b"", b"line 2: unknown command\n", False),
    (("--stream",), b"get a\ngo\nfrob\n", 0, b"value 1\nline 3: unknown command\n", b"", True),
    (("--explain",), b"clean\nget a\n", 4, b"", b"fault 11 NothingToClean\nline 1: The log is in one segment, so there is nothing to clean.\n", True),
    (("--grain=0",), b"get a\n", 4, b"", b"fault 5 BadCrew\n", False),
    (("--stat",), b"", 0, b"stat sequence 2 head 0 tail 55 segments 1 of 64 pages 1 pairs 1\n", b"", True),
]


def progress_of(*texts: bytes) -> bytes:
    return b"".join([*(START + text + END for text in texts), ERASED])


def make(programs: Programs, path: Path) -> None:
    wrong = differs(run([programs.store, "--disk", path, "--create"], b"put a 1\nflush\n"), 0, b"new\nflushed 2\n")
    if wrong:
        raise ValueError(f"the file was not made: {wrong}")


def compare_sessions(programs: Programs, number: int) -> Outcome:
    words, text, status, out, err, is_opened = SESSIONS[number]
    with new_folder() as folder:
        path, other = Path(folder) / "file", Path(folder) / "other"
        make(programs, path)
        other.write_bytes(path.read_bytes())
        opening = progress_of(f"opening {path}".encode()) if is_opened else b""
        wrong = differs(run([programs.store, *words, "--disk", other], text), status, out, err)
        wrong = wrong or differs(run([programs.store, *words, "--progress", "--disk", path], text), status, out, opening + err)
        return Outcome(wrong or (None if path.read_bytes() == other.read_bytes() else "the files differ"))


def print_nothing(programs: Programs) -> Outcome:
    """Short sessions in memory print no progress, but opening a missing file does."""
    words: Command = [programs.store, "--progress"]
    wrong = differs(run(words, b"put a 1\n"), 0, b"new\n")
    wrong = wrong or differs(run([*words, "--version"]), 0, b"bwsh 0.2.0 bytes 1\n")
    help_run, refused = run([*words, "--help"]), run([*words, "--flan"])
    if help_run.status or help_run.err or (refused.status, refused.out) != (2, b"") or START in refused.err:
        wrong = wrong or f"help: {help_run.describe()}; refused words: {refused.describe()}"
    with new_folder() as folder:
        path = Path(folder) / "none"
        opening = progress_of(f"opening {path}".encode())
        return Outcome(wrong or differs(run([*words, "--disk", path], b"get a\n"), 4, b"", opening + DEVICE))


def run_without_errors(programs: Programs, way: str) -> Outcome:
    """Answers and file must not change."""
    with new_folder() as folder:
        path, other = Path(folder) / "file", Path(folder) / "other"
        make(programs, path)
        other.write_bytes(path.read_bytes())
        text = b"put b 2\nflush\n"
        whole = run([programs.store, "--disk", other], text)
        command: Command = [programs.store, "--progress", "--disk", path]
        ran = run_piped(programs, path, text) if way == "pipe" else run(command, text, Limits(redirections=way))
        wrong = differs(whole, 0, b"new\nflushed 3\n") or differs(ran, 0, b"new\nflushed 3\n")
        return Outcome(wrong or (None if path.read_bytes() == other.read_bytes() else "the files differ"))


def run_piped(programs: Programs, path: Path, text: bytes) -> RunResult:
    session = PipedProgram([programs.store, "--progress", "--disk", path])
    session.errors.close()
    session.send(text)
    session.input.close()
    out = session.output.read()
    return RunResult(session.process.wait(PATIENCE), out, b"", 0, 0)


def count_orders(programs: Programs) -> Outcome:
    """Lines are at least a second apart, their counts increase, and the order of --stat is counted, too."""
    puts = b"".join(b"put k%d v\n" % number + b"go\n" * (number % 1_000 == 999) for number in range(PAIRS))
    text = puts + VERIFIES * b"verify\n"
    start = time.monotonic()
    ran = run([programs.store, "--progress", "--stat"], text)
    seconds = time.monotonic() - start
    if seconds > LONGEST:
        return Outcome(left_out=f"the machine is slow: {seconds:.0f} s")
    wrong = differs(run([programs.store, "--stat"], text), 0, ran.out)
    lines = LINE.findall(ran.err)
    counts = [int(done) for done, read in lines if int(read) == PAIRS // 1_000 + VERIFIES + 1]
    is_right = ran.err == b"".join(START + b"%s of %s orders run" % line + END for line in lines) + ERASED * bool(lines)
    is_rising = counts == sorted(set(counts)) and len(counts) == len(lines) <= seconds
    if ran.status or not is_right or not is_rising:
        wrong = wrong or f"{ran.describe()} in {seconds:.1f} s, with {counts}"
    return Outcome(wrong, measured=f"{len(lines)} lines in {seconds:.1f} s")


def count_each_order(programs: Programs, library: Path) -> Outcome:
    """The seven orders are four batches, which `go`, a flush or the end ends, two flushes, and the order of --stat. The file's calls take so long
    that the fifth order ends more than a second after the line of the third."""
    with new_folder() as folder:
        path = Path(folder) / "file"
        make(programs, path)
        text, slower = b"get a\ngo\nput a 2\nflush\nput a 3\nflush\nget a\n", replace(SLOW, wait=600)
        ran = run([programs.store, "--progress", "--stat", "--disk", path], text, environment=slower.environment(library, path))
        lines = LINE.findall(ran.err)
        counts = [int(done) for done, _ in lines]
        is_right = ran.status == 0 and 5 in counts and counts == sorted(set(counts)) and {of for _, of in lines} == {b"7"}
        return Outcome(None if is_right else f"{ran.describe()}, with {lines}")


def count_lines(programs: Programs) -> Outcome:
    """A stream shows its counts at the first batch after a second, and at the 256th line after a batch."""
    dialog = Dialog(programs.store, "--progress")
    dialog.send(b"put a 1\ngo\nput a 2\nflush\n")
    answers = [dialog.read_line(), dialog.read_line(), dialog.read_line()]
    time.sleep(INTERVAL)
    dialog.send(b"# nothing\nget a\ngo\nverify\n")
    answers += [dialog.read_line(), dialog.read_line()]
    time.sleep(INTERVAL)
    dialog.send(600 * b"get a\n" + b"frob\n")
    ended = dialog.finish()
    err = progress_of(b"7 lines read, 3 batches run", b"256 lines read, 3 batches run")
    right = [b"new\n", b"replaced\n", b"flushed 2\n", b"value 2\n", b"ok 1 1 1\n"]
    return Outcome(None if (answers, ended) == (right, (0, b"line 609: unknown command\n", err)) else f"{answers}, and the session ended with {ended}")


def kill(programs: Programs) -> Outcome:
    with new_folder() as folder:
        path = Path(folder) / "file"
        make(programs, path)
        dialog = Dialog(programs.store, "--progress", "--disk", path)
        dialog.send(b"put a 2\nflush\n")
        answers = [dialog.read_line(), dialog.read_line()]
        time.sleep(INTERVAL)
        dialog.send(b"put a 3\ngo\n")
        answers.append(dialog.read_line())
        dialog.process.kill()
        _, err = dialog.finish_unread()
        is_right = answers == [b"replaced\n", b"flushed 3\n", b"replaced\n"] and err.startswith(START + f"opening {path}".encode() + END)
        wrong = None if is_right else f"{answers}, and {err!r}"
        return Outcome(wrong or differs(run([programs.store, "--disk", path], b"get a\n"), 0, b"value 2\n"))


def make_copy(programs: Programs) -> Outcome:
    with new_folder() as folder:
        path, first, second = (Path(folder) / name for name in ("file", "first", "second"))
        make(programs, path)
        words: Command = [programs.store, "--progress", "--copy-to"]
        wrong = differs(run([*words, first], b"put a 1\n"), 0, b"new\n", progress_of(f"copying to {first}".encode()))
        err = progress_of(f"opening {path}".encode(), f"copying to {second}".encode())
        wrong = wrong or differs(run([*words, second, "--disk", path, "--stream"], b"get a\n"), 0, b"value 1\n", err)
        wrong = wrong or differs(run([*words, second], b"get a\n"), 4, b"", b"fault 9 Device\n")
        refused = run([*words, Path(folder) / "third", "--fan=65"], b"get a\n")
        return Outcome(wrong or differs(refused, 4, b"", b"fault 1 BadSettings fan\n"))


def wrong_segments(ran: RunResult, path: Path, first: bytes, done: bytes, segments: int) -> str | None:
    """Segment counts increase, to at most `segments`."""
    text = first + str(path).encode()
    counts = [int(count) for count in re.findall(rb"\r" + re.escape(text) + rb", (\d+) segments " + done, ran.err)]
    lines = progress_of(text, *(text + b", %d segments " % count + done for count in counts))
    err = ran.err.replace(ORDER_RUN, b"")
    is_right = (ran.status, err) == (0, lines) and 2 <= len(set(counts)) and counts == sorted(counts) and counts[-1] <= segments
    return None if is_right else f"{ran.describe()}, where at most {segments} segments were expected"


def run_slow(programs: Programs, library: Path, words: tuple[str, ...]) -> Outcome:
    with new_folder() as folder:
        path, copy = Path(folder) / "file", Path(folder) / "copy"
        ran = run([programs.store, *WIDE, "--stat", "--create", "--disk", path], LOADED + b"flush\n")
        segments = int(ran.out.split()[-7])
        words = (*words, "--progress")
        opened = run([programs.store, *words, "--disk", path], b"get key000\n", environment=SLOW.environment(library, path))
        wrong = wrong_segments(opened, path, b"opening ", b"read", segments)
        copied = run([programs.store, *WIDE, *words, "--copy-to", copy], LOADED, environment=SLOW.environment(library, copy))
        wrong = wrong or wrong_segments(copied, copy, b"copying to ", b"written", segments + 1)
        rows = run([programs.store, "--disk", copy], b"scan % * 999\n").out
        is_same = rows == run([programs.store, "--disk", path], b"scan % * 999\n").out and rows.startswith(b"rows 200\n")
        wrong = wrong or (None if opened.out == b"value value0\n" and copied.out == b"new\n" * 200 and is_same else "other answers")
        return Outcome(wrong, measured=f"{segments} segments: {opened.err.count(START)} and {copied.err.count(START)} lines")


def full(programs: Programs) -> Outcome:
    words = ["--max-key=16", "--max-value=16", "--seg-size=512", "--segments=3", "--fan=4"]
    text = b"".join(b"put a %d\nflush\n" % number for number in range(200))
    plain = run([programs.store, *words], text)
    ran = run([programs.store, "--progress", *words], text)
    return Outcome(differs(ran, 4, plain.out, plain.err) or (None if plain.err == b"fault 10 Full\n" else plain.describe()))


def wrong_refused(ran: subprocess.CompletedProcess[bytes]) -> str | None:
    return wrong_session(ran, ANSWERS, lambda err: err in (NO_MEMORY, DEVICE))


def cases(programs: Programs, library: Path, failing: Path) -> list[Case]:
    refusals = ([programs.store, "--progress"], library, 1, 1, BUDGET, TEXT, wrong_refused)
    return [
        Case("a session of some seconds", count_orders, (programs,)),
        Case("each allocation of a session refused", refuse_each, refusals),
        Case("which orders are counted", count_each_order, (programs, failing)),
        Case("a stream", count_lines, (programs,)),
        Case("a kill between two batches", kill, (programs,)),
        *(Case(f"beside a session, {number}", compare_sessions, (programs, number)) for number in range(len(SESSIONS))),
        Case("where nothing is to be shown", print_nothing, (programs,)),
        Case("a copy", make_copy, (programs,)),
        *(Case(f"a slow file {' '.join(words)}", run_slow, (programs, failing, words)) for words in ((), ("--stream",), ("--workers=4",))),
        Case("a full log", full, (programs,)),
        *(Case(f"standard error that can't be written, {way}", run_without_errors, (programs, way)) for way in ("2>&-", "2>/dev/full", "pipe")),
    ]
