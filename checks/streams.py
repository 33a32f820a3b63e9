"""Sessions with closed standard streams. A file that is opened then gets a stream's descriptor, and must not get its output."""

import re
from collections.abc import Iterator
from dataclasses import dataclass, replace
from pathlib import Path

from tools.answers import READ_ALL, Ending, answer_to_read_all
from tools.cases import Case, Outcome, Programs, differs, first_difference
from tools.failures import DEVICE
from tools.log.reading import read_store
from tools.processes import Command, Limits, RunResult, new_folder, run

CLOSED = (">&-", "<&-", "2>&-", ">&- 2>&-", "<&- >&-", "<&- 2>&-", "<&- >&- 2>&-")
OLD = b"put a 1\nflush\nput a 2\nput b 3\nflush\n"
IN_PLACE = re.compile(rb"\r[^\r\n]*\x1b\[K")  # a line of --progress
OLD_PAIRS = [(b"a", b"2"), (b"b", b"3")]
OLD_ANSWER = answer_to_read_all(OLD_PAIRS, 1, 1)


@dataclass(frozen=True)
class StreamSession:
    name: str
    words: tuple[str, ...]
    text: bytes
    ending: Ending  # with open streams
    copied: list[tuple[bytes, bytes]] | None = None  # the pairs of its copy

    def command(self, program: Path, path: Path) -> Command:
        return [program, *self.words, f"--disk={path}", *([f"--copy-to={copy_of(path)}"] if self.copied is not None else [])]


SESSIONS = [
    StreamSession("a session that flushes", (), b"put c 4\nflush\n", (0, b"new\nflushed 4\n", b"")),
    StreamSession("a session that only reads", (), READ_ALL, (0, OLD_ANSWER, b"")),
    StreamSession("a session without a line", (), b"", (0, b"", b"")),
    StreamSession("a clean that is refused", (), b"clean\n", (4, b"", b"fault 11 NothingToClean\n")),
    StreamSession("a session that upgrades", (), b"put c 4\nupgrade\n", (0, b"new\nupgraded 4\n", b"")),
    StreamSession("a bad line", (), b"x\n", (3, b"", b"line 1: unknown command\n")),
    StreamSession("--create over the file", ("--create",), b"put d 5\nflush\n", (0, b"new\nflushed 2\n", b"")),
    StreamSession("a stream that flushes", ("--stream",), b"put c 4\nflush\n", (0, b"new\nflushed 4\n", b"")),
    StreamSession("a stream that only reads", ("--stream",), READ_ALL, (0, OLD_ANSWER, b"")),
    StreamSession("a stream with a bad line", ("--stream",), b"x\n", (0, b"line 1: unknown command\n", b"")),
    StreamSession(
        "a stream that explains a refusal",
        ("--stream", "--explain"),
        b"clean\nput c 4\nflush\n",
        (0, b"fault 11 NothingToClean\nnew\nflushed 4\n", b"line 1: The log is in one segment, so there is nothing to clean.\n"),
    ),
    StreamSession(
        "a stream that explains, and a copy",
        ("--stream", "--explain"),
        b"clean\nput c 4\n",
        (0, b"fault 11 NothingToClean\nnew\n", b"line 1: The log is in one segment, so there is nothing to clean.\n"),
        [*OLD_PAIRS, (b"c", b"4")],
    ),
    StreamSession("a stream with --create over the file", ("--stream", "--create"), b"put d 5\nflush\n", (0, b"new\nflushed 2\n", b"")),
    StreamSession("progress", ("--progress",), b"put c 4\nflush\n", (0, b"new\nflushed 4\n", b"")),
    StreamSession("progress of a stream", ("--progress", "--stream"), b"put c 4\nflush\n", (0, b"new\nflushed 4\n", b"")),
    StreamSession("progress to a bad line", ("--progress",), b"x\n", (3, b"", b"line 1: unknown command\n")),
    StreamSession("a copy", (), b"get b\n", (0, b"value 3\n", b""), OLD_PAIRS),
    StreamSession("a copy with progress", ("--progress",), b"put c 4\nflush\n", (0, b"new\nflushed 4\n", b""), [*OLD_PAIRS, (b"c", b"4")]),
    StreamSession("a copy after a stream", ("--stream",), b"put c 4\n", (0, b"new\n", b""), [*OLD_PAIRS, (b"c", b"4")]),
]


def copy_of(path: Path) -> Path:
    return path.with_suffix(".copy")


def run_on(programs: Programs, session: StreamSession, path: Path, closed: str = "") -> RunResult:
    ran = run(session.command(programs.store, path), session.text, Limits(redirections=closed))
    return replace(ran, err=IN_PLACE.sub(b"", ran.err)) if "--progress" in session.words else ran


def wrong_copy(session: StreamSession, path: Path, is_done: bool) -> str | None:
    copy = copy_of(path)
    made = copy.read_bytes() if copy.exists() else b""
    if session.copied is None or not is_done:
        return f"a copy of {len(made)} bytes" if made else None
    found = read_store(made).pairs
    return None if found == session.copied else f"the copy holds {found}"


def make_old_file(programs: Programs, path: Path) -> bytes:
    made = run([programs.store, "--disk", path, "--create"], OLD)
    wrong = differs(made, 0, b"new\nflushed 2\nreplaced\nnew\nflushed 3\n")
    if wrong:
        raise ValueError(f"the file was not made: {wrong}")
    return path.read_bytes()


def wrong_ending(ran: RunResult, session: StreamSession, closed: str) -> str | None:
    """A bad line is found before a closed output, except with --stream. With only standard error closed, the session may continue or end with fault
    9."""
    status, out, err = session.ending
    if closed == "2>&-" and (ran.status, ran.out) == (4, b""):
        return None
    if closed != "2>&-" and (status != 3 or "<&-" in closed or ">&-" in closed.split() and "--stream" in session.words):
        status, out, err = 4, b"", DEVICE
    is_explained = "--explain" in session.words and err == DEVICE and ran.err.startswith(DEVICE)
    return differs(replace(ran, err=DEVICE) if is_explained else ran, status, out, b"" if "2>&-" in closed else err)


def close(programs: Programs, number: int, closed: str) -> Outcome:
    session = SESSIONS[number]
    with new_folder() as folder:
        path, other = Path(folder) / "file", Path(folder) / "other"
        before = make_old_file(programs, path)
        other.write_bytes(before)
        whole = run_on(programs, session, other)
        ran = run_on(programs, session, path, closed)
        after = path.read_bytes()
        wrong = differs(whole, *session.ending) or wrong_ending(ran, session, closed)
        is_done = ran.status == session.ending[0] and closed == "2>&-"
        wrong = wrong or wrong_copy(session, other, whole.status == 0) or wrong_copy(session, path, is_done and ran.status == 0)
        if wrong is None and after != (other.read_bytes() if is_done else before):
            at = first_difference(before, after)
            wrong = f"{ran.describe()}, and the file has other bytes from {at} on: {after[at : at + 40]!r}"
        return Outcome(wrong)


def close_and_create(programs: Programs, words: tuple[str, ...], closed: str) -> Outcome:
    with new_folder() as folder:
        path = Path(folder) / "file"
        ran = run([programs.store, *words, "--disk", path], b"put d 5\nflush\n", Limits(redirections=closed))
        if path.exists() and (closed != "2>&-" or ran.status):
            return Outcome(f"{ran.describe()}, and there is a file of {path.stat().st_size} bytes")
        session = StreamSession("", words, b"", (0, b"new\nflushed 2\n", b""))
        return Outcome(wrong_ending(ran, session, closed))


def all_cases(programs: Programs) -> Iterator[Case]:
    for closed in CLOSED:
        for number, session in enumerate(SESSIONS):
            yield Case(f"{session.name}, {closed}", close, (programs, number, closed))
        for words in (("--create",), ("--stream", "--create")):
            yield Case(f"{' '.join(words)} where there is no file, {closed}", close_and_create, (programs, words, closed))


def cases(programs: Programs) -> list[Case]:
    return list(all_cases(programs))
