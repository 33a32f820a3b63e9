"""Concurrent sessions on one file, files that are not writable, and files that cannot be created."""

import contextlib
import os
import shutil
import subprocess
import tempfile
from collections.abc import Iterator
from pathlib import Path

from tools.answers import READ_ALL, answer_to_read_all, rows_of
from tools.cases import Case, Outcome, Programs, differs
from tools.processes import Limits, RunResult, new_folder, pipe_of, run, stalled, start

FAULT = "fault 9 Device"
NOBODY = 65534  # a user that owns no file
TIMES, GROUPS = 100, 4  # how often two sessions are started together
CHANGES = 150  # flushes of a session
KEYS = 10
ROOMY = ["--segments", "1024"]
SCAN = b"scan % * 4294967295\n"

Pairs = dict[bytes, bytes]


def changes(writer: int, time: int) -> list[tuple[bytes, bytes]]:
    return [(b"w%d.%d" % (writer, number % KEYS), b"%d.%d" % (time, number)) for number in range(CHANGES)]


def batch_file(puts: list[tuple[bytes, bytes]]) -> bytes:
    return b"".join(b"put %s %s\nflush\n" % put for put in puts)


def rows(pairs: Pairs) -> bytes:
    return rows_of(sorted(pairs.items()))


def make(programs: Programs, path: Path, text: bytes, *words: str) -> None:
    made = run([programs.store, "--disk", path, "--create", *words], text)
    if made.status:
        raise ValueError(f"the file was not made: {made.describe()}")


def after_writer(ran: RunResult, puts: list[tuple[bytes, bytes]], pairs: Pairs) -> tuple[Pairs, str | None]:
    """Returns the pairs afterwards, and an error. The session must do everything, or be refused and do nothing."""
    if ran.is_fault(FAULT) and not ran.out:
        return pairs, None
    lines = ran.out.splitlines()
    is_reported = len(lines) == 2 * len(puts) and all(line.startswith(b"flushed ") for line in lines[1::2])
    if ran.status or ran.err or not is_reported:
        return pairs, f"a session that writes ended with {ran.describe()}"
    return pairs | dict(puts), None


def after_readers(readers: list[RunResult], moments: list[Pairs]) -> str | None:
    for ran in readers:
        is_refused = ran.is_fault(FAULT) and not ran.out
        is_right = ran.status == 0 and any(ran.out == rows(pairs) for pairs in moments)
        if not is_refused and not is_right:
            return f"a session that reads ended with {ran.describe()}"
    return None


def run_together(programs: Programs, path: Path, time: int, pairs: Pairs) -> tuple[Pairs, int, str | None]:
    first, second = changes(0, time), changes(1, time)
    texts = [batch_file(first), SCAN, batch_file(second), SCAN]
    with tempfile.TemporaryDirectory(dir=path.parent) as folder:
        places = range(4) if time % 2 else reversed(range(4))
        started = {at: start([programs.store, "--disk", path], texts[at], Path(folder) / str(at)) for at in places}
        ends = [started[at].wait() for at in range(4)]
    one, wrong = after_writer(ends[0], first, pairs)
    other, also_wrong = after_writer(ends[2], second, pairs)
    both, _ = after_writer(ends[2], second, one)
    wrong = wrong or also_wrong or after_readers([ends[1], ends[3]], [pairs, one, other, both])
    return both, sum(ran.is_fault(FAULT) for ran in ends), wrong


def run_together_often(programs: Programs, group: int) -> Outcome:
    pairs, refused = {b"first": b"1"}, 0
    with new_folder() as folder:
        path = Path(folder) / "file"
        make(programs, path, b"put first 1\nflush\n", *ROOMY)
        for time in range(TIMES // GROUPS):
            pairs, more, wrong = run_together(programs, path, time, pairs)
            refused += more
            ran = run([programs.store, "--disk", path], READ_ALL)
            wrong = wrong or (None if ran.status == 0 and ran.out.startswith(rows(pairs)) else f"the file has {ran.describe()}")
            if wrong:
                return Outcome(f"time {time} of group {group}: {wrong}")
    return Outcome(measured=f"{refused} of {TIMES // GROUPS * 4} sessions refused")


MUCH = b"get x\ngo\n" * 60_000  # more replies than a pipe holds


def run_beside(programs: Programs) -> Outcome:
    """A session that writes locks its file until it ends."""
    with new_folder() as folder:
        path = Path(folder) / "file"
        make(programs, path, b"put a 1\nflush\n")
        with stalled([programs.store, "--disk", path], b"flush\n" + MUCH):
            before = path.read_bytes()
            for session in (READ_ALL, b"put b 2\nflush\n", b"clean\n", b"upgrade\n"):
                wrong = differs(run([programs.store, "--disk", path], session), 4, b"", f"{FAULT}\n".encode())
                if wrong:
                    return Outcome(f"beside it {session!r}: {wrong}")
            wrong = differs(run([programs.store, "--disk", path, "--create"], b""), 4, b"", f"{FAULT}\n".encode())
            if wrong or path.read_bytes() != before:
                return Outcome(f"--create beside it: {wrong or 'the file has other bytes'}")
        ran = run([programs.store, "--disk", path], b"put b 2\nget a\nflush\n")
        return Outcome(None if ran.out.startswith(b"new\nvalue 1\nflushed ") else f"after it was killed: {ran.describe()}")


def run_beside_reader(programs: Programs) -> Outcome:
    """A session that writes nothing releases its lock before it prints, and answers from memory."""
    with new_folder() as folder:
        path = Path(folder) / "file"
        make(programs, path, b"put x 1\nflush\n")
        with stalled([programs.store, "--disk", path], MUCH) as reader:
            wrong = differs(run([programs.store, "--disk", path], READ_ALL), 0, answer_to_read_all([(b"x", b"1")], 1, 1))
            wrong = wrong or differs(run([programs.store, "--disk", path], b"put x 2\nflush\n"), 0, b"replaced\nflushed 3\n")
            wrong = wrong or differs(run([programs.store, "--disk", path, "--create"], b""), 0, b"")
            out = pipe_of(reader.stdout).read()
        return Outcome(wrong or (None if b"v" + out == b"value 1\n" * 60_000 else f"the reader answered {out[:100]!r}"))


def as_nobody() -> list[str] | None:
    """Returns a command prefix that drops root: empty if it is not needed, None if it is impossible."""
    if os.geteuid():
        return []
    setpriv = shutil.which("setpriv")
    if setpriv is None:
        return None
    words = [setpriv, f"--reuid={NOBODY}", f"--regid={NOBODY}", "--clear-groups"]
    return None if subprocess.run([*words, "true"], capture_output=True).returncode else words


def read_only(programs: Programs) -> Outcome:
    user = as_nobody()
    if user is None:
        return Outcome(left_out="no program can be started as another user here")
    with new_folder() as folder:
        path, program = Path(folder) / "file", Path(folder) / "program"
        shutil.copy(programs.store, program)
        make(programs, path, b"put a 1\nflush\n")
        program.chmod(0o755)
        path.chmod(0o444)
        Path(folder).chmod(0o555)
        before = path.read_bytes()
        read = run([*user, program, "--disk", path], READ_ALL)
        written = run([*user, program, "--disk", path], b"put b 2\nflush\n")
        made = run([*user, program, "--disk", path, "--create"], b"")
        Path(folder).chmod(0o755)
        refused = (4, b"", f"{FAULT}\n".encode())
        wrong = differs(read, 0, answer_to_read_all([(b"a", b"1")], 1, 1)) or differs(written, *refused) or differs(made, *refused)
        return Outcome(wrong or (None if path.read_bytes() == before else "the file was written"))


OLD = [("an empty file", 0), ("a short file", 100), ("a file of the same length", 512 + 64 * 65_536), ("a longer file", 6_000_000)]
BLOCKS = 256  # 512-byte blocks, fewer than a default store takes


def fail_to_create(programs: Programs, length: int | None) -> Outcome:
    """An old file keeps its bytes; a new file is empty or missing."""
    with new_folder() as folder:
        path = Path(folder) / "file"
        before = b"" if length is None else b"\xa5" * length
        if length is not None:
            path.write_bytes(before)
        ran = run([programs.store, "--create", "--disk", path], b"put a 1\nflush\n", Limits(file_blocks=BLOCKS))
        after = path.read_bytes() if path.exists() else b""
        wrong = differs(ran, 4, b"", f"{FAULT}\n".encode())
        return Outcome(wrong or (None if after == before else f"a file of {len(before)} bytes became one of {len(after)}, or other bytes"))


@contextlib.contextmanager
def small_device(size: int) -> Iterator[Path | None]:
    """Yields the folder of a small tmpfs, or None if mounting is not permitted."""
    with new_folder() as folder:
        mount = ["mount", "-t", "tmpfs", "-o", f"size={size}", "tmpfs", folder]
        is_mounted = bool(shutil.which("mount")) and subprocess.run(mount, capture_output=True).returncode == 0
        try:
            yield Path(folder) if is_mounted else None
        finally:
            if is_mounted:
                subprocess.run(["umount", folder], check=True)


def fill(path: Path) -> None:
    with contextlib.suppress(OSError), open(path, "wb", buffering=0) as file:
        while file.write(bytes(4096)):
            pass


def full_device(programs: Programs) -> Outcome:
    refused = f"{FAULT}\n".encode()
    with small_device(1 << 20) as folder:
        if folder is None:
            return Outcome(left_out="no file system in memory may be mounted here")
        path, new = folder / "file", folder / "new"
        make(programs, path, b"put a 1\nflush\n")
        fill(folder / "filler")
        made = run([programs.store, "--create", "--disk", new], b"put a 1\nflush\n")
        many = b"".join(b"put k%d %s\n" % (number, b"v" * 200) for number in range(1_000)) + b"flush\n"
        full = run([programs.store, "--disk", path], many)
        back = run([programs.store, "--disk", path], READ_ALL)
        wrong = differs(made, 4, b"", refused) or differs(full, 4, b"new\n" * 1_000, refused)
        return Outcome(wrong or differs(back, 0, answer_to_read_all([(b"a", b"1")], 1, 1)))


def cases(programs: Programs) -> list[Case]:
    lengths = [("no file", None), *OLD]
    return [
        *[Case(f"two sessions at once, {TIMES // GROUPS} times, {group}", run_together_often, (programs, group)) for group in range(1, GROUPS + 1)],
        Case("sessions beside one that writes", run_beside, (programs,)),
        Case("sessions beside one that reads", run_beside_reader, (programs,)),
        Case("a file that may only be read", read_only, (programs,)),
        *[Case(f"--create in vain over {name}", fail_to_create, (programs, length)) for name, length in lengths],
        Case("a full device", full_device, (programs,)),
    ]
