"""The server makes its log larger: the order of the system calls, calls that fail, kills before each call, the lock, and an old FILE.larger."""

import itertools
import re
import shutil
import subprocess
from collections.abc import Sequence
from pathlib import Path

from tools.cases import Case, Outcome
from tools.failures import FailingCalls
from tools.processes import NO_VARIABLES, new_folder
from tools.serving import Client, Pairs, Server, Word, read_all, serving

BATCHES, ROWS = 30, 1_000  # all of them have no room in the smallest log
SMALLEST = ("--segments", "3")
HEADER, SEGMENT = 512, 2**20  # bytes
MOST_KILLS = 6  # for each kind of call
KILLED = 137  # the status
STARTED = 10  # seconds after which a server that has not ended has started
KEYS, LARGE = 3_500, 1_000  # of a request that is almost as long as may be: keys, and bytes of a value


def batch(number: int) -> Pairs:
    return {b"%04d:%03d" % (number, row): b"%03d" % row * 30 for row in range(ROWS)}


def put_batches(client: Client) -> int:
    """Puts all batches, each by one request. Returns how many were answered before the connection ended."""
    answered = 0
    try:
        for number in range(BATCHES):
            client.ask("MSET", *(word for pair in batch(number).items() for word in pair))
            answered += 1
    except (OSError, ValueError):
        pass
    return answered


def wrong_recovery(program: Path, path: Path, answered: int) -> str | None:
    """A server that is started again must have the batches that were answered, or one more, and nothing else."""
    with serving(program, path) as server, server.client() as client:
        found = read_all(client)
    whole = len(found) // ROWS
    expected = {key: value for number in range(whole) for key, value in batch(number).items()}
    if found != expected or whole not in (answered, answered + 1):
        return f"{answered} batches were answered, and {len(found)} pairs were recovered, of {whole} batches"
    return None


def wrong_start(program: Path, path: Path, reasons: Sequence[bytes], environment: dict[str, str] = NO_VARIABLES) -> str | None:
    """A server that is started now must end with status 1, and print these reasons."""
    try:
        words: list[str | Path] = [program, path, "--port", "0"]
        ran = subprocess.run(words, env=environment, stdin=subprocess.DEVNULL, capture_output=True, timeout=STARTED)
    except subprocess.TimeoutExpired:
        return "the server has started"
    is_right = ran.returncode == 1 and not ran.stdout and all(reason in ran.stderr for reason in reasons)
    return None if is_right else f"status {ran.returncode}, {ran.stdout!r}, {ran.stderr!r}"


# ---- The order of system calls.

CALL = re.compile(r"\b(write|pwrite64|sendto|fdatasync|fsync|rename)\((.*)")


def events_of(trace: str, folder: str) -> list[str]:
    events = []
    for line in trace.splitlines():
        found = CALL.search(line)
        if not found:
            continue
        call, rest = found[1], found[2]
        target = rest.split("<", 1)[-1].split(">", 1)[0]
        if call == "rename":
            events.append("rename")
        elif call in ("fdatasync", "fsync"):
            events.append("sync of the folder" if target == folder else "sync" if target.endswith(".larger") else "sync of another file")
        elif target.endswith(".larger"):
            events.append("write")
        elif target.startswith("TCP"):
            events.append("reply")
    return events


def wrong_order(events: list[str]) -> str | None:
    """In a growth, these must follow one another: the last write of FILE.larger, its sync, the rename, the sync of the folder, a reply."""
    if "rename" not in events:
        return "nothing was renamed"
    while "rename" in events:
        at = events.index("rename")
        begin = events.index("write") if "write" in events else at
        copied, then = events[begin:at], events[at + 1 :]
        if not copied or copied[-1] != "sync" or "reply" in copied:
            return f"before the rename: {copied[-5:]}"
        if then[:1] != ["sync of the folder"]:
            return f"after the rename: {then[:3]}"
        events = then
    return None if "reply" in events else "no reply after the growth"


def trace_growth(program: Path) -> Outcome:
    if shutil.which("strace") is None:
        return Outcome(left_out="there is no strace on this machine")
    with new_folder() as folder:
        trace, calls = Path(folder) / "trace", "trace=write,pwrite64,sendto,fdatasync,fsync,rename"
        tracer = ["strace", "-f", "-yy", "-e", calls, "-s", "8", "-o", str(trace)]
        with serving(program, Path(folder) / "store", *SMALLEST, before=tracer) as server, server.client() as client:
            answered = put_batches(client)
            server.stop()
        wrong = wrong_order(events_of(trace.read_text(errors="replace"), folder))
    return Outcome(wrong or (None if answered == BATCHES else f"{answered} answered"))


# ---- Calls that fail.


def fail_folder_at_start(program: Path, library: Path) -> Outcome:
    """The name of the store's file isn't durable, so the server does not start."""
    with new_folder() as folder:
        failing = FailingCalls("sync").environment(library, folder)
        return Outcome(wrong_start(program, Path(folder) / "store", (b"folder", b"Input/output error"), failing))


def fail_growth(program: Path, library: Path, call: str, first: int, at_folder: bool, reason: bytes) -> Outcome:
    """The server prints why the growth failed, and ends. The file has what was answered, and FILE.larger is removed."""
    with new_folder() as folder:
        path = Path(folder) / "store"
        failing = FailingCalls(call, first=first).environment(library, folder if at_folder else f"{path}.larger")
        with serving(program, path, *SMALLEST, environment=failing) as server:
            with server.client() as client:
                answered = put_batches(client)
            if answered == BATCHES:
                return Outcome("the server went on")
            status, errors = server.wait()
        left = [entry.name for entry in Path(folder).iterdir() if entry.name != "store"]
        if status != 1 or reason not in errors or left:
            return Outcome(f"status {status}, {errors!r}, left {left}")
        return Outcome(wrong_recovery(program, path, answered), measured=f"{answered} answered")


def kill_in_growth(program: Path, library: Path, call: str, first: int, at_folder: bool = False) -> Outcome:
    """Ends the server before each of these calls in a growth, in one run each. Nothing that was answered may be lost."""
    for number in itertools.count(first):
        with new_folder() as folder:
            path = Path(folder) / "store"
            ending = FailingCalls(call, first=number, error=KILLED, ends=True).environment(library, folder if at_folder else f"{path}.larger")
            server = Server(program, path, *SMALLEST, environment=ending)
            with server.client() as client:
                answered = put_batches(client)
            server.kill()
            is_over = answered == BATCHES
            wrong = wrong_recovery(program, path, answered)
        if wrong or is_over or number - first == MOST_KILLS:
            runs = number - first
            return Outcome(wrong and f"before call {number}: {wrong}" or (None if runs else "there was no such call"), measured=f"{runs} kills")
    raise AssertionError


# ---- The larger log.


def lock_after_growth(program: Path) -> Outcome:
    """A second server finds the lock of the larger log."""
    with new_folder() as folder:
        path = Path(folder) / "store"
        with serving(program, path, *SMALLEST) as server, server.client() as client:
            put_batches(client)
            if not client.numbers()["log_growths"]:
                return Outcome("the log did not grow")
            return Outcome(wrong_start(program, path, (b"has locked the file",)))


def overwrite_larger(program: Path) -> Outcome:
    """Whatever FILE.larger held is overwritten: the new file has its own length, and zeros where nothing was written."""
    with new_folder() as folder:
        path = Path(folder) / "store"
        Path(f"{path}.larger").write_bytes(b"\xff" * (40 * SEGMENT))
        with serving(program, path, *SMALLEST) as server, server.client() as client:
            put_batches(client)
            segments = client.numbers()["log_segments"]
            found = path.read_bytes()
        is_right = segments > 3 and len(found) == HEADER + segments * SEGMENT and not any(found[-SEGMENT // 2 :])
        return Outcome(None if is_right else f"{segments} segments, {len(found)} bytes, which end with {found[-4:]!r}")


def grow_at_once(program: Path) -> Outcome:
    """If a log that is twice as large has no room either, a larger one is made."""
    rows = [{b"%d:%05d" % (part, row): b"v" * LARGE for row in range(KEYS)} for part in range(3)]
    requests: list[list[Word]] = [["MSET", *(word for pair in part.items() for word in pair)] for part in rows]
    with new_folder() as folder:
        path = Path(folder) / "store"
        with serving(program, path, *SMALLEST) as server, server.client() as client:
            client.send(["MULTI"], *requests, ["EXEC"])
            replies = [client.read() for _ in range(len(requests) + 2)]
            numbers = client.numbers()
        if replies[-1] != [b"OK"] * len(requests) or (numbers["log_growths"], numbers["log_segments"]) != (1, 12):
            return Outcome(f"{str(replies)[:200]}, {numbers}")
        with serving(program, path) as server, server.client() as client:
            is_right = read_all(client) == {key: value for part in rows for key, value in part.items()}
    return Outcome(None if is_right else "pairs are lost")


def cases(program: Path, failing: Path) -> list[Case]:
    copied, folder = b"can't be copied into a larger log", b"folder"
    return [
        Case("the order of calls in a growth", trace_growth, (program,)),
        Case("the folder's sync fails at the start", fail_folder_at_start, (program, failing)),
        Case("the folder's sync fails in a growth", fail_growth, (program, failing, "sync", 1, True, folder)),
        *(Case(f"a growth fails: {call}", fail_growth, (program, failing, call, 0, False, copied)) for call in ("write", "sync")),
        Case("a growth fails: rename", fail_growth, (program, failing, "rename", 0, False, b"the place of")),
        *(Case(f"killed in a growth: {call}", kill_in_growth, (program, failing, call, 0)) for call in ("open", "cut", "write", "sync", "rename")),
        Case("killed in a growth: sync of the folder", kill_in_growth, (program, failing, "sync", 1, True)),
        Case("one server a file after a growth", lock_after_growth, (program,)),
        Case("a growth over an old FILE.larger", overwrite_larger, (program,)),
        Case("a log grows more than twofold", grow_at_once, (program,)),
    ]
