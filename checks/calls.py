"""System calls that fail, are interrupted or transfer one byte, on the store's file and on the standard streams."""

import contextlib
import errno
import fcntl
import os
import subprocess
import time
from collections.abc import Iterator
from dataclasses import dataclass, replace
from pathlib import Path

from tools.cases import SMALL_STORE, Case, Outcome, Programs, differs
from tools.failures import ALWAYS, DEVICE, FailingCalls
from tools.processes import NO_VARIABLES, PATIENCE, Command, Dialog, Limits, RunResult, new_folder, pipe_of, run

CREW = ("--workers=2", "--grain=1")
OTHER = ("--fan=65", *CREW)  # an invalid --fan, which must not matter for an old file
LENGTH = 1_536  # bytes of a small store's file
EXAMPLES = ("sessions", "inverted_index", "queue", "cache")
NONE = FailingCalls("none")


@dataclass(frozen=True)
class FailingStore:
    program: Path
    library: Path
    file: Path

    def run(self, fails: FailingCalls, text: bytes, *words: str) -> RunResult:
        return run([self.program, *words], text, environment=fails.environment(self.library, self.file))

    def make(self, text: bytes, out: bytes) -> None:
        wrong = differs(run([self.program, *self.create_words()], text), 0, out)
        if wrong:
            raise ValueError(f"the file was not made: {wrong}")

    def create_words(self) -> tuple[str, ...]:
        return (*SMALL_STORE, *CREW, "--create", f"--disk={self.file}")

    def open_words(self) -> tuple[str, ...]:
        return (*OTHER, f"--disk={self.file}")


@contextlib.contextmanager
def failing_store(programs: Programs, library: Path) -> Iterator[FailingStore]:
    with new_folder() as folder:
        yield FailingStore(programs.store, library, Path(folder) / "store")


def status_for(err: bytes) -> int:
    return 4 if err.startswith(b"fault") else 3 if err else 0


# ---- The standard streams.

PUT_AND_GET = b"put a 1\ngo\nget a\n"
BOTH = b"new\nvalue 1\n"

# Failing calls, input, exit status, output, errors. An empty write comes first; it tests whether the output is open.
STREAMS = {
    "the input fails": [
        (FailingCalls("input"), b"put a 1\ngo\n", 4, b"", DEVICE),
        (FailingCalls("input", 1), b"put a 1\ngo\n", 4, b"", DEVICE),
        (FailingCalls("input", 1), b"frob\n", 4, b"", DEVICE),  # the partial line is not parsed
        (FailingCalls("input", 0, 1, errno.EINTR), PUT_AND_GET, 0, BOTH, b""),
        (FailingCalls("input", 1, 1, errno.EINTR), PUT_AND_GET, 0, BOTH, b""),
    ],
    "the output fails": [
        (FailingCalls("output"), b"", 4, b"", DEVICE),
        (FailingCalls("output"), PUT_AND_GET, 4, b"", DEVICE),
        (FailingCalls("output", 1), PUT_AND_GET, 4, b"", DEVICE),
        (FailingCalls("output", 2), PUT_AND_GET, 4, b"new\n", DEVICE),
    ],
    "the output fails once": [
        (FailingCalls("output", 0, 1), PUT_AND_GET, 4, b"", DEVICE),
        (FailingCalls("output", 1, 1), PUT_AND_GET, 4, b"", DEVICE),
        (FailingCalls("output", 2, 1), PUT_AND_GET, 4, b"new\n", DEVICE),
        (FailingCalls("output", 0, 1, errno.EINTR), PUT_AND_GET, 0, BOTH, b""),
        (FailingCalls("output", 2, 1, errno.EINTR), PUT_AND_GET, 0, BOTH, b""),
    ],
    "standard error fails": [
        (FailingCalls("error"), b"frob\n", 3, b"", b""),
        (FailingCalls("error", 0, 1, errno.EINTR), b"frob\n", 3, b"", b"line 1: unknown command\n"),
    ],
    "a byte at a time": [
        (replace(NONE, cuts=True), b"put a 1\r\ngo\nget a\n", 0, BOTH, b""),
        (replace(NONE, cuts=True), b"frob\n", 3, b"", b"line 1: unknown command\n"),
    ],
}


def fail_streams(programs: Programs, library: Path, name: str) -> Outcome:
    with failing_store(programs, library) as store:
        for fails, text, status, out, err in STREAMS[name]:
            wrong = differs(store.run(fails, text), status, out, err)
            if wrong:
                return Outcome(f"{fails} on {text!r}: {wrong}")
    return Outcome()


# ---- Making a store in an old file.

# Failing calls, the number of old bytes that remain, and the file's length. The rest is zeros.
ON_CREATE = [
    (FailingCalls("open"), LENGTH, LENGTH),
    (FailingCalls("hold"), LENGTH, LENGTH),
    (FailingCalls("length"), LENGTH, LENGTH),
    (FailingCalls("cut"), LENGTH, LENGTH),
    (FailingCalls("cut", 1), LENGTH, LENGTH + 1),
    (FailingCalls("cut", 2), 0, 0),
    (FailingCalls("write"), 0, LENGTH),
]


def fail_to_create(programs: Programs, library: Path) -> Outcome:
    """If only zeros follow the old store, it can still be opened."""
    with failing_store(programs, library) as store:
        for fails, kept, length in ON_CREATE:
            store.make(b"put a 1\nflush\n", b"new\nflushed 2\n")
            due = store.file.read_bytes()[:kept].ljust(length, b"\0")
            wrong = differs(store.run(replace(fails, cuts=True), b"", *store.create_words()), 4, b"", DEVICE)
            if wrong is None and store.file.read_bytes() != due:
                wrong = f"the file has other bytes than its first {kept}, and zeros up to {length}"
            if wrong is None and kept:
                wrong = differs(run([store.program, *store.open_words()], b"get a\n"), 0, b"value 1\n")
            if wrong:
                return Outcome(f"{fails}: {wrong}")
    return Outcome()


def fail_to_sync_folder(programs: Programs, library: Path) -> Outcome:
    """A store or a copy in a new file fails if the name of the file can't be made durable. A store that is there stays as it is."""
    with failing_store(programs, library) as store:
        store.make(b"put a 1\nflush\n", b"new\nflushed 2\n")
        before, copy = store.file.read_bytes(), store.file.with_name("copy")
        environment = FailingCalls("sync").environment(library, store.file.parent)
        wrong = differs(run([store.program, *store.create_words()], b"get a\n", environment=environment), 4, b"", DEVICE)
        copied = run([store.program, "--stream", *store.open_words()], b".copy %s\nget a\n" % os.fsencode(copy), environment=environment)
        wrong = wrong or differs(copied, 0, DEVICE + b"value 1\n")
        copied = run([store.program, "--disk", store.file, *SMALL_STORE, "--copy-to", copy], b"get a\n", environment=environment)
        wrong = wrong or differs(copied, 4, b"", DEVICE)
        return Outcome(wrong or (None if store.file.read_bytes() == before and not copy.stat().st_size else "a file was written"))


EMPTIED = [FailingCalls("length"), FailingCalls("cut"), FailingCalls("cut", 2), FailingCalls("write"), FailingCalls("sync")]


def stay_empty(programs: Programs, library: Path, name: str) -> Outcome:
    program = programs.examples / name
    if not program.is_file():
        return Outcome(left_out="it is not built")
    with new_folder() as folder:
        file = Path(folder) / "store"
        # The last is the sync of the folder.
        for fails, of in [*((fails, file) for fails in EMPTIED), (FailingCalls("sync"), folder)]:
            file.write_bytes(b"")
            environment = replace(fails, cuts=True).environment(library, of)
            ran = run([program, file], b"", Limits(stack=256), environment=environment)
            wrong = differs(ran, 1, b"", f"Error: {file}: Input/output error (os error 5).\n".encode())
            if wrong or file.stat().st_size:
                return Outcome(f"{fails}: {wrong or f'the file has {file.stat().st_size} bytes'}")
    return Outcome()


# An example that opens its store when it starts.
OPENS, LINE, ANSWER = "put_then_get", b"a one\n", b"a is one\n"
# Each read transfers a byte, so a later number fails a later read.
OPENING = [*(FailingCalls(call) for call in ("open", "hold", "length", "sync", "read")), FailingCalls("read", 70), FailingCalls("read", 200)]


def fail_to_open(programs: Programs, library: Path) -> Outcome:
    """The example must report the failure, and must not change a file that has a store or zeros."""
    program = programs.examples / OPENS
    if not program.is_file():
        return Outcome(left_out="it is not built")
    with new_folder() as folder:
        file = Path(folder) / "store"
        if wrong := differs(run([program, file], LINE, Limits(stack=256)), 0, ANSWER):
            return Outcome(wrong)
        for before in (file.read_bytes(), bytes(1_536)):
            file.write_bytes(before)
            for fails in OPENING:
                environment = replace(fails, cuts=True).environment(library, file)
                ran = run([program, file], LINE, Limits(stack=256), environment=environment)
                wrong = differs(ran, 1, b"", f"Error: {file}: Input/output error (os error 5).\n".encode())
                if wrong or file.read_bytes() != before:
                    return Outcome(f"{fails}: {wrong or 'the file has other bytes'}")
            if wrong := differs(run([program, file], LINE, Limits(stack=256)), 0, ANSWER):
                return Outcome(wrong)
    return Outcome()


# ---- An old file.

READS, ANSWERS = b"get a\nput b 2\nverify\n", b"value 1\nnew\nok 1 1 2\n"
NO_SYNC, READ_ONLY = errno.EINVAL, errno.EROFS

# Failing calls, lines, answers, and the fault, if any. Reading sessions need no exclusive lock, and tolerate a file that cannot be synced.
ON_OLD_FILE = [
    (FailingCalls("open"), READS, ANSWERS, b""),
    (FailingCalls("hold"), READS, ANSWERS, b""),
    (FailingCalls("cut"), READS, ANSWERS, b""),
    (FailingCalls("write"), READS, ANSWERS, b""),
    (FailingCalls("share"), READS, b"", DEVICE),
    (FailingCalls("read"), READS, b"", DEVICE),
    (FailingCalls("length"), READS, b"", DEVICE),
    (FailingCalls("sync"), READS, b"", DEVICE),
    (FailingCalls("sync", error=NO_SYNC), READS, ANSWERS, b""),
    (FailingCalls("sync", error=READ_ONLY), READS, ANSWERS, b""),
    (FailingCalls("open"), b"flush\n", b"", DEVICE),
    (FailingCalls("open"), b"clean\n", b"", DEVICE),
    (FailingCalls("hold"), b"flush\n", b"", DEVICE),
    (FailingCalls("length"), b"flush\n", b"", DEVICE),
    (FailingCalls("sync"), b"flush\n", b"", DEVICE),
    (FailingCalls("sync", error=NO_SYNC), b"clean\n", b"", DEVICE),
    (FailingCalls("hold"), b"upgrade\n", b"", DEVICE),
    (FailingCalls("write"), b"upgrade\n", b"", DEVICE),
    (FailingCalls("write"), b"put b 2\nflush\n", b"new\n", DEVICE),
]


def fail_on_old_file(programs: Programs, library: Path, fails: FailingCalls, text: bytes, out: bytes, err: bytes) -> Outcome:
    with failing_store(programs, library) as store:
        store.make(b"put a 1\nflush\n", b"new\nflushed 2\n")
        before = store.file.read_bytes()
        ran = store.run(replace(fails, cuts=True), text, *store.open_words())
        return Outcome(differs(ran, status_for(err), out, err) or (None if store.file.read_bytes() == before else "the file has other bytes"))


def fail_third(programs: Programs, library: Path, call: str) -> Outcome:
    """An interrupted call must be repeated. Each call transfers one byte."""
    with failing_store(programs, library) as store:
        for error, err in ((errno.EINTR, b""), (errno.EIO, DEVICE)):
            fails = FailingCalls(call, 2, 1, error, cuts=True)
            store.make(b"put a 1\nflush\nput a 2\nflush\n", b"new\nflushed 2\nreplaced\nflushed 3\n")
            whole = store.file.read_bytes()
            store.make(b"put a 1\nflush\n", b"new\nflushed 2\n")
            ran = store.run(fails, b"put a 2\nflush\n", *store.open_words())
            out = b"replaced\nflushed 3\n" if not err else b"replaced\n" if call == "write" else b""
            wrong = differs(ran, status_for(err), out, err)
            if wrong is None and not err and store.file.read_bytes() != whole:
                wrong = "the file has other bytes than without it"
            if wrong:
                return Outcome(f"{fails}: {wrong}")
    return Outcome()


def cut_file(programs: Programs, library: Path, words: tuple[str, ...]) -> Outcome:
    """A read past the end of a truncated file must be a fault, which answers the clean and ends the stream, and is explained by its own reason."""
    with failing_store(programs, library) as store:
        changes = b"".join(b"put a 0123456789abcdef\nflush\n" for _ in range(9))
        store.make(changes, b"new\nflushed 2\n" + b"".join(b"replaced\nflushed %d\n" % number for number in range(3, 11)))
        dialog = Dialog(programs.store, f"--disk={store.file}", *words)
        dialog.send(b"verify\n")
        first = dialog.read_line()
        with store.file.open("rb+") as file:
            file.truncate(7)
        dialog.send(b"clean\n")
        ended = dialog.finish()
        err = DEVICE + f"{store.file}: failed to fill whole buffer.\n".encode() * bool(words)
        return Outcome(None if (first, ended) == (b"ok 1 1 1\n", (4, DEVICE, err)) else f"{first!r}, and then {ended}")


# Whether the store is new, lines, and syncs: two when the store is made, one when it is opened, and three for a flush or an upgrade that writes.
SYNCS = [
    (True, b"", 2),
    (False, b"get a\n", 1),
    (False, b"flush\n", 1),
    (True, b"put a 1\nflush\n", 5),
    (True, b"upgrade\n", 5),
    (False, b"upgrade\n", 1),
]


def count_syncs(programs: Programs, library: Path) -> Outcome:
    with failing_store(programs, library) as store:
        for is_new, text, count in SYNCS:
            words = store.create_words() if is_new else store.open_words()
            ran = [store.run(FailingCalls("sync", first), text, *words) for first in range(20)]
            ends = [each.err == DEVICE for each in ran]
            if ends != [True] * count + [False] * (20 - count):
                return Outcome(f"{text!r} on {'a new' if is_new else 'an old'} file makes {ends.count(True)} syncs, where {count} were expected")
    return Outcome()


# ---- Threads: one fewer than the workers, if there is enough work.

ENDED = 99  # status of a session that is ended when it starts a thread
LEAVES = 100

# Leaves of a batch, options, and whether threads are started.
HELPED = [
    (LEAVES, "", False),  # one worker
    (LEAVES, "--workers=1 --grain=1", False),
    (LEAVES, "--workers=8 --grain=65535", False),
    (64, "--workers=8", False),  # a grain of 64
    (65, "--workers=8", True),
    (2, "--workers=8 --grain 2", False),
    (3, "--workers 8 --grain=2", True),
]


def count_helpers(store: FailingStore, leaves: int, words: str) -> int:
    """The first of two batches makes leaves of four pairs, and the second overwrites all pairs."""
    puts = b"".join(b"put %06d v\n" % number for number in range(4 * leaves))
    for first in range(ALWAYS):
        ran = store.run(FailingCalls("thread", first, error=ENDED), puts + b"go\n" + puts, *SMALL_STORE, *words.split())
        if ran.status != ENDED:
            wrong = differs(ran, 0, 4 * leaves * b"new\n" + 4 * leaves * b"replaced\n")
            if wrong:
                raise ValueError(wrong)
            return first
    return ALWAYS


def count_threads(programs: Programs, library: Path) -> Outcome:
    with failing_store(programs, library) as store:
        for leaves, words, is_helped in HELPED:
            count = count_helpers(store, leaves, words)
            if (count > 0) != is_helped:
                return Outcome(f"with {words or 'no words'} {count} threads were started for {leaves} leaves")
        two, eight = (count_helpers(store, LEAVES, f"--workers={workers} --grain=1") for workers in (2, 8))
        return Outcome(None if 0 < two and eight == 7 * two else f"two workers started {two} threads, and eight {eight}")


# ---- Locks.

LOCKED = [b"put a 1\nflush\n", b"clean\n", b"upgrade\n"]


def lock(programs: Programs, library: Path) -> Outcome:
    with failing_store(programs, library) as store:
        store.make(b"", b"")
        before = store.file.read_bytes()
        for how, read in ((fcntl.LOCK_EX, (4, b"", DEVICE)), (fcntl.LOCK_SH, (0, b"missing\n", b""))):
            with store.file.open("rb") as other:
                fcntl.flock(other, how)
                wrong = differs(store.run(NONE, b"get a\n", *store.open_words()), *read)
                for text in LOCKED:
                    wrong = wrong or differs(store.run(NONE, text, *store.open_words()), 4, b"", DEVICE)
                wrong = wrong or differs(store.run(NONE, b"", *store.create_words()), 4, b"", DEVICE)
            if wrong or store.file.read_bytes() != before:
                return Outcome(f"{'held' if how == fcntl.LOCK_EX else 'shared'}: {wrong or 'the file has other bytes'}")
        return Outcome(differs(store.run(NONE, b"put a 1\nflush\n", *store.open_words()), 0, b"new\nflushed 2\n"))


def is_free(file: Path) -> bool:
    with file.open("rb") as other:
        try:
            fcntl.flock(other, fcntl.LOCK_EX | fcntl.LOCK_NB)
        except BlockingIOError:
            return False
        return True


def hold_while_reading(programs: Programs, library: Path) -> Outcome:
    """A session that writes nothing shares its file until it has read the store. Each read of the file takes half a second."""
    with failing_store(programs, library) as store:
        store.make(b"put a 1\nflush\n", b"new\nflushed 2\n")
        environment, pipe = replace(NONE, wait=500).environment(library, store.file), subprocess.PIPE
        command: Command = [store.program, f"--disk={store.file}", "--wait=60"]
        with subprocess.Popen(command, stdin=pipe, stdout=pipe, stderr=pipe, env=environment) as child:
            pipe_of(child.stdin).write(b"get a\n")
            pipe_of(child.stdin).close()
            held, end = 0, time.monotonic() + PATIENCE / 4
            while child.poll() is None and time.monotonic() < end:
                held += not is_free(store.file)
                time.sleep(0.02)
            ended = pipe_of(child.stdout).read(), pipe_of(child.stderr).read(), child.wait(PATIENCE)
    is_right = held >= 3 and ended == (b"value 1\n", b"", 0)
    return Outcome(None if is_right else f"held {held} times, and the session ended with {ended}", measured=f"{held} times")


def full_pipe() -> tuple[int, int]:
    reader, writer = os.pipe()
    os.set_blocking(writer, False)
    with contextlib.suppress(BlockingIOError):
        while os.write(writer, bytes(4096)):
            pass
    os.set_blocking(writer, True)
    return reader, writer


def close_first(programs: Programs, library: Path) -> Outcome:
    """Checks that a session closes its file before it writes a fault, so that the line cannot reach the file through a reused descriptor. Standard
    error is a full pipe, so the write blocks."""
    with failing_store(programs, library) as store:
        store.make(b"", b"")
        reader, writer = full_pipe()
        command: Command = [store.program, f"--disk={store.file}"]
        pipe = subprocess.PIPE
        with subprocess.Popen(command, stdin=pipe, stdout=pipe, stderr=writer, env=NO_VARIABLES) as child, open(reader, "rb") as errors:
            os.close(writer)
            pipe_of(child.stdin).write(b"get a\ngo\nclean\n")
            pipe_of(child.stdin).close()
            first, end = pipe_of(child.stdout).readline(), time.monotonic() + PATIENCE / 4
            while not (free := is_free(store.file)) and time.monotonic() < end:
                time.sleep(0.01)
            is_waiting = child.poll() is None
            err = errors.read().lstrip(b"\0")
    found = (first, free, is_waiting, err, child.returncode)
    return Outcome(None if found == (b"missing\n", True, True, b"fault 11 NothingToClean\n", 4) else f"found was {found}")


def cases(programs: Programs, library: Path) -> list[Case]:
    arguments = (programs, library)
    return [
        *(Case(name, fail_streams, (*arguments, name)) for name in STREAMS),
        Case("making anew fails", fail_to_create, arguments),
        Case("the folder of a new file cannot be synced", fail_to_sync_folder, arguments),
        *(Case(f"a file without its new store is empty, {name}", stay_empty, (*arguments, name)) for name in EXAMPLES),
        Case(f"a file whose store is not opened stays, {OPENS}", fail_to_open, arguments),
        *(
            Case(f"calls of a file fail: {fails.call}, error {fails.error}, on {text!r}", fail_on_old_file, (*arguments, fails, text, out, err))
            for fails, text, out, err in ON_OLD_FILE
        ),
        *(Case(f"the third {call} is interrupted or fails", fail_third, (*arguments, call)) for call in ("read", "write")),
        Case("a file is cut while a session holds it", cut_file, (*arguments, ())),
        Case("a file is cut while a session holds it, --explain", cut_file, (*arguments, ("--explain",))),
        Case("how many syncs a session makes", count_syncs, arguments),
        Case("how many threads a session starts", count_threads, arguments),
        Case("a file is held or shared", lock, arguments),
        Case("a file is shared while it is read", hold_while_reading, arguments),
        Case("a file is closed before a fault is written", close_first, arguments),
    ]
