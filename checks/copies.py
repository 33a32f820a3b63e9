"""`--copy-to`: what a copy contains, when none is made, and what its file contains then."""

import fcntl
import os
import subprocess
import time
from collections import Counter
from dataclasses import replace
from pathlib import Path

from tools.cases import SMALL_STORE, Case, Outcome, Programs, differs
from tools.failures import DEVICE, NO_MEMORY, REFUSED, FailingCalls, refusing
from tools.log.reading import read_store
from tools.log.writing import Settings
from tools.model import FULL
from tools.processes import NO_VARIABLES, PATIENCE, Command, Dialog, Limits, new_folder, run
from tools.soak.copied import file_of_copy, segments_for_copy

LANES = 4  # cases, each with a share of the allocations
LARGE = ("--fan=8", "--chain=1", "--max-key=32", "--max-value=16", "--seg-size=1024", "--segments=8")
LARGE_LENGTH = 512 + 8 * 1024
PUTS, PUT = b"put a 1\nput b 2\nput c 3\n", b"new\nnew\nnew\n"
SCAN, SCANNED = b"scan % * 9\n", b"rows 3\na 1\nb 2\nc 3\n"
KILLS = 25  # of copies of one store

# A redirection to the copy's file, the options, and the file's first bytes.
REDIRECTED: list[tuple[str, tuple[str, ...], bytes]] = [
    (">", (), b"replaced\n" * 3),
    (">", ("--stream",), b"replaced\n" * 3),
    ("2>", ("--progress",), b"\ropening "),
    (">>", ("--explain",), b"replaced\n" * 3),
]


def wrong_store(programs: Programs, path: Path, scanned: bytes = SCANNED, length: int | None = None) -> str | None:
    ran = run([programs.store, "--disk", path], SCAN + b"verify\n")
    if ran.status or ran.err or not ran.out.startswith(scanned + b"ok "):
        return f"the copy has {ran.describe()}"
    if length is not None and path.stat().st_size != length:
        return f"the copy has {path.stat().st_size} bytes, where {length} were expected"
    return None


def is_empty(path: Path) -> str | None:
    if not path.is_file():
        return f"{path.name} is no file"
    return f"{path.name} has {path.stat().st_size} bytes" if path.stat().st_size else None


def make(programs: Programs, path: Path, *words: str) -> bytes:
    wrong = differs(run([programs.store, *SMALL_STORE, *words, "--create", "--disk", path], PUTS + b"flush\n"), 0, PUT + b"flushed 2\n")
    if wrong:
        raise ValueError(f"the file was not made: {wrong}")
    return path.read_bytes()


# ---- Copies that are made.


def copy_all(programs: Programs, words: tuple[str, ...]) -> Outcome:
    """Copies a store in memory and one in a file, with other settings. A reading session does not write to its file."""
    with new_folder() as folder:
        store, memory, file, last, again = (Path(folder) / name for name in ("store", "memory", "file", "last", "again"))
        wrong = differs(run([programs.store, *words, *LARGE, "--copy-to", memory], PUTS), 0, PUT)
        wrong = wrong or wrong_store(programs, memory, length=LARGE_LENGTH)
        before = make(programs, store)
        wrong = wrong or differs(run([programs.store, *words, *LARGE, "--disk", store, "--copy-to", file], b"get b\n"), 0, b"value 2\n")
        wrong = wrong or wrong_store(programs, file, length=LARGE_LENGTH) or (None if store.read_bytes() == before else "the store has other bytes")
        # Only the copy has the unflushed pairs.
        wrong = wrong or differs(run([programs.store, *words, *LARGE, "--disk", store, "--copy-to", last], b"del c\n"), 0, b"deleted\n")
        wrong = wrong or wrong_store(programs, last, b"rows 2\na 1\nb 2\n") or wrong_store(programs, store)
        wrong = wrong or differs(run([programs.store, *words, *SMALL_STORE, "--disk", last, "--copy-to", again], b""), 0, b"")
        wrong = wrong or wrong_store(programs, again, b"rows 2\na 1\nb 2\n", 1_536)
        wrong = wrong or differs(run([programs.store, "--disk", last], b"put d 4\nflush\n"), 0, b"new\nflushed 3\n")
        return Outcome(wrong)


def copy_with_numbers(programs: Programs) -> Outcome:
    """--stat prints the store's numbers before the copy."""
    with new_folder() as folder:
        copy = Path(folder) / "copy"
        ran = run([programs.store, *SMALL_STORE, "--stat", "--copy-to", copy])
        wrong = differs(ran, 0, b"stat sequence 1 head 0 tail 33 segments 1 of 4 pages 1 pairs 0\n")
        return Outcome(wrong or wrong_store(programs, copy, b"rows 0\n", 1_536))


def copy_many(programs: Programs) -> Outcome:
    """The copy of a store with many empty pages has fewer pages."""
    puts = b"".join(b"put k%05d v%d\n" % (number, number) for number in range(20_000)) + b"wipe k15000 *\n"
    with new_folder() as folder:
        copy = Path(folder) / "copy"
        ran = run([programs.store, "--workers=4", "--grain=1", "--stat", "--copy-to", copy], puts)
        numbers = ran.out.splitlines()[-1].split()
        copy_read = run([programs.store, "--disk", copy, "--stat"], b"get k14999\nget k15000\nscan k00000 k00002 9\nverify\n")
        lines = copy_read.out.splitlines()
        copied = lines[-1].split()
        is_right = (ran.status, copy_read.status, lines[:5]) == (0, 0, [b"value v14999", b"missing", b"rows 2", b"k00000 v0", b"k00001 v1"])
        is_right &= numbers[-1] == copied[-1] == b"15000" and int(copied[-3]) < int(numbers[-3])
        wrong = None if is_right else f"{ran.describe()}, and the copy has {copy_read.describe()}"
        return Outcome(wrong, measured=f"{numbers[-3].decode()} pages became {copied[-3].decode()}")


def copy_of_stream(programs: Programs) -> Outcome:
    """Until the stream ends, the copy's file is locked and empty."""
    with new_folder() as folder:
        copy = Path(folder) / "copy"
        dialog = Dialog(programs.store, *SMALL_STORE, f"--copy-to={copy}")
        dialog.send(PUTS + b"go\n")
        answers = b"".join(dialog.read_line() for _ in range(3))
        wrong = None if answers == PUT else f"answered was {answers!r}"
        wrong = wrong or is_empty(copy)
        wrong = wrong or differs(run([programs.store, "--copy-to", copy]), 4, b"", DEVICE)
        ended = dialog.finish()
        return Outcome(wrong or (None if ended == (0, b"", b"") else f"the session ended with {ended}") or wrong_store(programs, copy))


# ---- Copies from full logs, and into logs that are just large enough.


def words_of(settings: Settings) -> list[str]:
    numbers = {"fan": settings.fan, "chain": settings.chain, "max-key": settings.max_key, "max-value": settings.max_value}
    numbers |= {"seg-size": settings.seg_size, "segments": settings.segments}
    return [f"--{name}={number}" for name, number in numbers.items()]


def copy_exactly(programs: Programs, count: int) -> Outcome:
    """The copy's file has the bytes that docs/FORMAT.md defines, in the smallest log that has room. A log with one segment fewer is refused."""
    pairs = {b"%d" % number: b"v" * (number % 17) for number in range(count)}
    puts = b"".join(b"put %s %s\n" % (key, value or b"%") for key, value in pairs.items())
    settings = Settings(16, 4, 16, 16, 1_024, 3)
    settings = replace(settings, segments=segments_for_copy(settings, pairs))
    with new_folder() as folder:
        copy, small = Path(folder) / "copy", Path(folder) / "small"
        wrong = differs(run([programs.store, "--copy-to", copy, *words_of(settings)], puts), 0, count * b"new\n")
        wrong = wrong or (None if copy.read_bytes() == file_of_copy(settings, pairs) else "the copy has other bytes")
        if settings.segments > 3:
            words = words_of(replace(settings, segments=settings.segments - 1))
            wrong = wrong or differs(run([programs.store, "--copy-to", small, *words], puts), 4, count * b"new\n", FULL) or is_empty(small)
        return Outcome(wrong)


def copy_to_same_log(programs: Programs) -> Outcome:
    """Copies a store that uses 14 of the 16 segments of its log. Its 9 leaves have 16 pairs and 11 changes each; a segment has room for the pairs of
    one leaf, or for the changes of two. The copy has 16 leaves with a segment each, so it needs 17."""
    settings = Settings(16, 1, 8, 100, 2_048, 16)
    value = b"v" * 75
    first = [b"%04d" % (100 * leaf + place) for leaf in range(9) for place in range(16)]
    later = [b"%04d" % (100 * leaf + place) for leaf in range(9) for place in range(16, 27)]
    text = b"".join(b"put %s %s\n" % (key, value) for key in first) + b"flush\n"
    text += b"".join(b"put %s %s\n" % (key, value) for key in later) + b"flush\n"
    pairs = {key: value for key in first + later}
    with new_folder() as folder:
        store, copy = Path(folder) / "store", Path(folder) / "copy"
        out = len(first) * b"new\n" + b"flushed 2\n" + len(later) * b"new\n" + b"flushed 3\n"
        wrong = differs(run([programs.store, "--create", "--disk", store, *words_of(settings)], text), 0, out)
        before = store.read_bytes()
        wrong = wrong or differs(run([programs.store, "--disk", store, "--copy-to", copy, *words_of(settings)]), 4, b"", FULL) or is_empty(copy)
        larger = replace(settings, segments=17)
        wrong = wrong or differs(run([programs.store, "--disk", store, "--copy-to", copy, *words_of(larger)]), 0, b"")
        wrong = wrong or (None if copy.read_bytes() == file_of_copy(larger, pairs) else "the copy has other bytes")
        return Outcome(wrong or (None if store.read_bytes() == before else "the store has other bytes"))


def queue_batch(first: int, count: int) -> bytes:
    puts = b"".join(b"put q%07d %s\n" % (first + 1_000 + number, b"v" * 20) for number in range(count))
    return puts + b"".join(b"del q%07d\n" % (first + number) for number in range(count)) + b"flush\n"


def copy_full_queue(programs: Programs) -> Outcome:
    """A queue of 1,000 pairs fills its log without cleans. The next batch does not fit, even with --clean-when-full, because nearly all of the log is
    live pages without pairs. The store can be read. Its copy with the same settings is small, holds the same pairs, and does not become full."""
    settings = words_of(Settings(64, 4, 8, 100, 16_384, 100))
    with new_folder() as folder:
        path, copy = Path(folder) / "store", Path(folder) / "copy"
        puts = b"".join(b"put q%07d %s\n" % (number, b"v" * 20) for number in range(1_000))
        filled = run([programs.store, "--disk", path, "--create", *settings], puts + b"".join(queue_batch(500 * at, 500) for at in range(100)))
        flushed = filled.out.count(b"flushed ") - 1
        full = path.read_bytes()
        words: Command = [programs.store, "--disk", path, "--clean-when-full"]
        again = run(words, queue_batch(500 * flushed, 500))
        is_right = (filled.status, filled.err, again.status, again.err) == (4, FULL, 4, FULL) and path.read_bytes() == full
        if not is_right or b"cleaned " in again.out:
            return Outcome(f"{filled.describe()}, then {again.describe()}")
        rows = run([programs.store, "--disk", path], b"scan % * 4294967295\n").out
        wrong = differs(run([programs.store, "--disk", path, "--copy-to", copy, *settings]), 0, b"")
        wrong = wrong or differs(run([programs.store, "--disk", copy], b"scan % * 4294967295\nverify\n"), 0, rows + b"ok 17 2 1000\n")
        ran = run([programs.store, "--disk", copy, "--clean-when-full"], b"".join(queue_batch(500 * (flushed + at), 500) for at in range(100)))
        is_right = not ran.status and not ran.err and ran.out.count(b"flushed ") == 100 and rows.startswith(b"rows 1000\n")
        return Outcome(wrong or (None if is_right else ran.describe()), measured=f"full after {flushed} flushes")


# ---- What is at the path of the copy.

# Bytes that begin like those of an unfinished attempt: zeros and another byte, and a settings block with bad settings.
LOOK_UNFINISHED = [bytes(9_999) + b"\1", bytes(4_096) + b"\1" + bytes(4_096), b"\0WBATCH1\0\3\0\4" + bytes(1_524), b"\0 precious"]


def hidden_stores(programs: Programs, path: Path) -> list[bytes]:
    """Returns the bytes of stores after two, three and four flushes, which have sequence numbers 3, 4 and 5, with 0 as the first byte."""
    hidden = []
    for flushes in (2, 3, 4):
        text = b"".join(b"put a %d\nflush\n" % number for number in range(flushes))
        if run([programs.store, *SMALL_STORE, "--create", "--disk", path], text).status:
            raise ValueError("a store was not made")
        hidden.append(b"\0" + path.read_bytes()[1:])
    return hidden


def copy_over(programs: Programs) -> Outcome:
    """A file with bytes, even the store's own, keeps them and nothing is run; an empty one becomes the copy."""
    with new_folder() as folder:
        store, copy = Path(folder) / "store", Path(folder) / "copy"
        before = make(programs, store)
        wrong = None
        on_store = ("--disk", str(store))
        for text in (b"\1", b"0123456789", *LOOK_UNFINISHED, *hidden_stores(programs, Path(folder) / "old")):
            copy.write_bytes(text)
            for words in (on_store, (*on_store, "--stream"), (*on_store, "--create"), ()):
                ran = run([programs.store, *words, "--copy-to", copy], b"put z 1\nflush\n")
                wrong = wrong or differs(ran, 4, b"", DEVICE)
            wrong = wrong or (None if copy.read_bytes() == text else "the file has other bytes")
        for words in ((), ("--create",), ("--stream",)):
            wrong = wrong or differs(run([programs.store, *words, "--disk", store, "--copy-to", store], b"put z 1\nflush\n"), 4, b"", DEVICE)
        wrong = wrong or (None if store.read_bytes() == before else "the store has other bytes")
        copy.write_bytes(b"")
        return Outcome(wrong or differs(run([programs.store, "--disk", store, "--copy-to", copy]), 0, b"") or wrong_store(programs, copy))


def copy_over_unfinished(programs: Programs) -> Outcome:
    """A file that an unfinished attempt left becomes the copy, with no byte of what it had."""
    with new_folder() as folder:
        store, copy, other = Path(folder) / "store", Path(folder) / "copy", Path(folder) / "other"
        before = make(programs, store)
        wrong = differs(run([programs.store, *SMALL_STORE, "--disk", store, "--copy-to", other]), 0, b"")
        whole = other.read_bytes()
        for text in (b"\0", bytes(1_536), bytes(100_000), b"\0" + before[1:], b"\0" + before[1:64], b"\0" + before[1:] + b"more" * 999):
            copy.write_bytes(text)
            wrong = wrong or differs(run([programs.store, *SMALL_STORE, "--disk", store, "--copy-to", copy]), 0, b"")
            wrong = wrong or (None if copy.read_bytes() == whole else f"the copy over {len(text)} bytes has other bytes")
        return Outcome(wrong or (None if store.read_bytes() == before else "the store has other bytes"))


def create_over_copy(programs: Programs) -> Outcome:
    """Nothing is run if the store and its copy have the same file."""
    with new_folder() as folder:
        new, link = Path(folder) / "new", Path(folder) / "link"
        link.symlink_to(new)
        wrong = None
        for path, other in ((new, new), (new, Path(folder) / "." / "new"), (link, new), (new, link)):
            ran = run([programs.store, *SMALL_STORE, "--explain", "--create", "--disk", path, "--copy-to", other], PUTS + b"flush\n")
            is_right = (ran.status, ran.out) == (4, b"") and ran.err.startswith(DEVICE + b"%s: " % os.fsencode(path)) and b"--copy-to" in ran.err
            wrong = wrong or (None if is_right else ran.describe()) or is_empty(new)
        return Outcome(wrong)


def copy_to_no_file(programs: Programs) -> Outcome:
    with new_folder() as folder:
        pipe = Path(folder) / "pipe"
        os.mkfifo(pipe)
        reasons: list[tuple[str | Path, bytes]] = [("/no/such/copy", b"No such file or directory"), (folder, b"Is a directory")]
        reasons += [(pipe, b"Invalid argument"), ("/dev/null", b"Invalid argument")]
        for path, why in reasons:
            for words in ((), ("--stream",)):
                ran = run([programs.store, "--explain", *words, "--copy-to", path], PUTS)
                is_right = (ran.status, ran.out) == (4, b"") and ran.err.startswith(DEVICE + os.fsencode(path) + b": " + why)
                if not is_right or not ran.err.endswith(b". Nothing was run.\n"):
                    return Outcome(f"{path}: {ran.describe()}")
        return Outcome()


def copy_too_long(programs: Programs) -> Outcome:
    with new_folder() as folder:
        copy = Path(folder) / "copy"
        ran = run([programs.store, *LARGE, "--copy-to", copy], PUTS, Limits(file_blocks=8))
        return Outcome(differs(ran, 4, b"", DEVICE) or is_empty(copy))


def copy_over_locked(programs: Programs) -> Outcome:
    with new_folder() as folder:
        copy = Path(folder) / "copy"
        copy.write_bytes(b"")
        wrong = None
        for how in (fcntl.LOCK_EX, fcntl.LOCK_SH):
            with copy.open("rb") as other:
                fcntl.flock(other, how)
                wrong = wrong or differs(run([programs.store, "--copy-to", copy], PUTS), 4, b"", DEVICE)
        return Outcome(wrong or is_empty(copy) or differs(run([programs.store, "--copy-to", copy], PUTS), 0, PUT) or wrong_store(programs, copy))


def redirect_to_copy(programs: Programs, stream: str, words: tuple[str, ...], begins: bytes) -> Outcome:
    """If the file is not empty when the copy starts, it keeps its bytes."""
    with new_folder() as folder:
        store, copy = Path(folder) / "store", Path(folder) / "copy"
        make(programs, store)
        ran = run([programs.store, *words, "--disk", store, "--copy-to", copy], PUTS, Limits(redirections=f"{stream} {copy}"))
        text = copy.read_bytes()
        is_right = ran.status == 4 and text.startswith(begins) and len(text) < 200
        return Outcome(None if is_right else f"{ran.describe()}, and the file has {text[:200]!r} of {len(text)} bytes")


def write_to_copy(programs: Programs) -> Outcome:
    """The file keeps what another process writes without a lock."""
    with new_folder() as folder:
        copy = Path(folder) / "copy"
        dialog = Dialog(programs.store, "--copy-to", copy)
        dialog.send(PUTS + b"go\n")
        answers = b"".join(dialog.read_line() for _ in range(3))
        copy.write_bytes(b"precious")
        ended = dialog.finish()
        is_right = (answers, ended, copy.read_bytes()) == (PUT, (4, b"", DEVICE), b"precious")
        found = f"the answers are {answers!r}, the session ended with {ended}, and the file has {copy.read_bytes()[:99]!r}"
        return Outcome(None if is_right else found)


# ---- Sessions without a copy.

# Options, input, exit status, output and errors.
END_EARLY = [
    ((), b"put a 1\nclean\nput b 2\n", 4, b"new\n", b"fault 11 NothingToClean\n"),
    (("--disk", "/no/such/store"), b"get a\n", 4, b"", DEVICE),
]


def end_early(programs: Programs, words: tuple[str, ...], text: bytes, status: int, out: bytes, err: bytes) -> Outcome:
    """The session ends as without --copy-to, and nothing is copied."""
    with new_folder() as folder:
        copy = Path(folder) / "copy"
        wrong = differs(run([programs.store, *words], text), status, out, err)
        return Outcome(wrong or differs(run([programs.store, *words, "--copy-to", copy], text), status, out, err) or is_empty(copy))


# Input, output, and the pairs of the copy.
GO_ON = [
    (b"put a 1\nclean\nput b 2\n", b"new\nfault 11 NothingToClean\nnew\n", [(b"a", b"1"), (b"b", b"2")]),
    (b"put a 1\nflush\nput b 2\nfrob\nput c 3\n", b"new\nflushed 2\nline 4: unknown command\n", [(b"a", b"1")]),
]


def copy_after_refusals(programs: Programs, text: bytes, out: bytes, pairs: list[tuple[bytes, bytes]]) -> Outcome:
    """A stream continues after a fault and after a bad line, and copies the store at its end."""
    with new_folder() as folder:
        copy = Path(folder) / "copy"
        wrong = differs(run([programs.store, "--stream", "--copy-to", copy], text), 0, out)
        found = read_store(copy.read_bytes()).pairs
        return Outcome(wrong or (None if found == pairs else f"the copy holds {found}"))


def refuse_before_copy(programs: Programs) -> Outcome:
    with new_folder() as folder:
        store, copy = Path(folder) / "store", Path(folder) / "copy"
        before = make(programs, store)
        wrong = None
        for words in ((), ("--disk", str(store))):
            command: Command = [programs.store, *words, "--copy-to", copy]
            wrong = wrong or differs(run(command, b"put a 1\nfrob\n"), 3, b"", b"line 2: unknown command\n")
            for stream in ((), ("--stream",)):
                wrong = wrong or differs(run([*command, *stream, "--grain=0"], PUTS), 4, b"", b"fault 5 BadCrew\n")
                wrong = wrong or differs(run([*command, *stream, "--fan=65"], PUTS), 4, b"", b"fault 1 BadSettings fan\n")
                wrong = wrong or differs(run([*command, *stream], PUTS, Limits(redirections=">&-")), 4, b"", DEVICE)
            wrong = wrong or differs(run([*command, "--version"], PUTS), 0, b"bwsh 0.2.0 bytes 1\n")
        wrong = wrong or (None if store.read_bytes() == before else "the store has other bytes")
        return Outcome(wrong or ("a file was made" if copy.exists() else None))


# ---- Copies that are refused.

LONG_KEY = b"put 0123456789abcdef0 1\n"
MANY = b"".join(b"put sixteen_bytes_%d sixteen_bytes_v1\n" % pair for pair in range(10, 60))

# Input, answers, fault, and the explanation's text about the copy.
REFUSED_COPIES = [
    (LONG_KEY, b"new\n", b"fault 2 KeyTooLong 0\n", b"A key is too long for the copy. Use a larger --max-key."),
    (PUTS + LONG_KEY, PUT + b"new\n", b"fault 2 KeyTooLong 0\n", b"A key is too long for the copy. Use a larger --max-key."),
    (
        PUTS + b"put d 0123456789abcdef0\n",
        PUT + b"new\n",
        b"fault 3 ValueTooLong 3\n",
        b"A value is too long for the copy. Use a larger --max-value.",
    ),
    (MANY, 50 * b"new\n", b"fault 10 Full\n", b"The log of the copy has no room for all pairs. Use more --segments or a larger --seg-size."),
]


def refuse_copy(programs: Programs, text: bytes, out: bytes, err: bytes, end: bytes) -> Outcome:
    """All answers are printed, the copy's file is empty, and the store is unchanged."""
    with new_folder() as folder:
        store, copy = Path(folder) / "store", Path(folder) / "copy"
        made = run([programs.store, "--create", "--disk", store], text + b"flush\n")
        wrong = differs(made, 0, out + b"flushed 2\n")
        before = store.read_bytes()
        words: Command = [programs.store, *SMALL_STORE, "--disk", store, "--copy-to", copy]
        for stream in ((), ("--stream",)):
            wrong = wrong or differs(run([*words, *stream], b"get zz\n"), 4, b"missing\n", err) or is_empty(copy)
        explained = run([*words, "--explain"], b"get zz\n")
        line = err + os.fsencode(copy) + b": " + end + b" All orders are done, but there is no copy.\n"
        wrong = wrong or differs(explained, 4, b"missing\n", line) or is_empty(copy)
        return Outcome(wrong or (None if store.read_bytes() == before else "the store has other bytes"))


# ---- Calls that fail.

# Failing calls on the copy's file, whether all answers come first, and the file's length afterwards.
CALLS = [
    (FailingCalls("open"), False, None),
    (FailingCalls("hold"), False, 0),
    (FailingCalls("hold", 1), True, 0),
    (FailingCalls("length"), False, 0),
    (FailingCalls("length", 1), False, 0),
    (FailingCalls("length", 2), True, 0),
    (FailingCalls("cut"), False, 0),
    (FailingCalls("cut", 1, 1), False, 1_536),
    (FailingCalls("cut", 2, 1), True, 0),
    (FailingCalls("cut", 3, 1), True, 1_536),
    (FailingCalls("cut", 4, 1), True, 0),
    (FailingCalls("write"), True, 0),
    (FailingCalls("write", 1, 1), True, 0),
    (FailingCalls("sync"), True, 0),
    (FailingCalls("sync", 1, 1), True, 0),
    (FailingCalls("sync", 3, 1), True, 0),
    (FailingCalls("sync", 4, 1), True, 0),
]


def fail_calls(programs: Programs, library: Path, fails: FailingCalls, is_done: bool, length: int | None) -> Outcome:
    """The store's file never changes, and the copy's file is emptied if possible."""
    with new_folder() as folder:
        store, copy = Path(folder) / "store", Path(folder) / "copy"
        make(programs, store)
        for words in ((), ("--stream",)):
            copy.unlink(missing_ok=True)
            command: Command = [programs.store, *SMALL_STORE, "--explain", *words, "--disk", store, "--copy-to", copy]
            ran = run(command, b"get a\n", environment=fails.environment(library, copy))
            end = b". All orders are done, but there is no copy.\n" if is_done else b". Nothing was run.\n"
            is_right = (ran.status, ran.out) == (4, b"value 1\n" if is_done else b"")
            if not is_right or not ran.err.startswith(DEVICE + os.fsencode(copy) + b": ") or not ran.err.endswith(end):
                return Outcome(ran.describe())
            size = copy.stat().st_size if copy.exists() else None
            if size != length:
                return Outcome(f"the file has {size} bytes, where {length} were expected")
        return Outcome(wrong_store(programs, store))


def fail_reads(programs: Programs, library: Path, number: int) -> Outcome:
    """If the file cannot be read, it keeps its zeros and nothing is run."""
    with new_folder() as folder:
        store, copy = Path(folder) / "store", Path(folder) / "copy"
        make(programs, store)
        copy.write_bytes(bytes(1_536))
        command: Command = [programs.store, *SMALL_STORE, "--explain", "--disk", store, "--copy-to", copy]
        ran = run(command, b"get a\n", environment=FailingCalls("read", number, 1).environment(library, copy))
        is_right = (ran.status, ran.out) == (4, b"") and ran.err.startswith(DEVICE + os.fsencode(copy) + b": Input/output error")
        if not is_right or copy.read_bytes() != bytes(1_536):
            return Outcome(ran.describe())
        return Outcome(differs(run(command, b"get a\n"), 0, b"value 1\n") or wrong_store(programs, copy))


def refuse_allocations(programs: Programs, library: Path, lane: int) -> Outcome:
    """The copy is complete if the session succeeds; otherwise its file is empty or missing."""
    with new_folder() as folder:
        store, copy = Path(folder) / "store", Path(folder) / "copy"
        before = make(programs, store)
        runs, text = 0, b"get a\n" + SCAN
        answers = b"value 1\n" + SCANNED
        for number in range(lane, 10_000, LANES):
            copy.unlink(missing_ok=True)
            ran = run([programs.store, *SMALL_STORE, "--disk", store, "--copy-to", copy], text, environment=refusing(library, number))
            err = ran.err.replace(REFUSED, b"")
            is_first = answers.startswith(ran.out) and (not ran.out or ran.out.endswith(b"\n"))
            is_done = (ran.status, ran.out, err) == (0, answers, b"")
            if not is_done and not (ran.status == 4 and err in (NO_MEMORY, DEVICE) and is_first):
                return Outcome(f"{number}: {ran.describe()}")
            wrong = wrong_store(programs, copy) if is_done else is_empty(copy) if copy.exists() else None
            if wrong or store.read_bytes() != before:
                return Outcome(f"{number}: {ran.describe()}: {wrong or 'the store has other bytes'}")
            if REFUSED not in ran.err:
                return Outcome(measured=f"{runs} runs")
            runs += 1
        return Outcome("no run without a refused allocation")


# ---- Streams that are closed, and kills.


def close(programs: Programs, closed: str) -> Outcome:
    """The copy's file may get the descriptor of a closed stream. It must contain only the store, or be empty or missing."""
    with new_folder() as folder:
        store, copy = Path(folder) / "store", Path(folder) / "copy"
        make(programs, store)
        ran = run([programs.store, *SMALL_STORE, "--disk", store, "--copy-to", copy], b"get a\n", Limits(redirections=closed))
        wrong = wrong_store(programs, store)
        if ran.status == 0:
            return Outcome(wrong or wrong_store(programs, copy))
        return Outcome(wrong or (is_empty(copy) if copy.exists() else None) or (None if ran.status == 4 else ran.describe()))


def closed_pipe(programs: Programs) -> Outcome:
    with new_folder() as folder:
        copy = Path(folder) / "copy"
        dialog = Dialog(programs.store, *SMALL_STORE, "--copy-to", copy)
        dialog.send(b"put a 1\ngo\n")
        first = dialog.read_line()
        dialog.output.close()
        dialog.send(b"get a\ngo\n")
        dialog.input.close()
        found = (first, *dialog.finish_unread())
        return Outcome((None if found in ((b"new\n", 4, DEVICE), (b"new\n", -13, b"")) else f"found was {found}") or is_empty(copy))


def check_killed(programs: Programs, copy: Path, pairs: int) -> tuple[str | None, str]:
    """Returns an error, and what the file is: empty, no store, or the copy."""
    if not copy.exists() or copy.stat().st_size == 0:
        return None, "no bytes"
    ran = run([programs.store, "--disk", copy, "--stat"])
    if ran.err == b"fault 12 NotAStore\n" and ran.status == 4:
        return None, "no store"
    if ran.status == 0 and ran.out.split()[-1:] == [b"%d" % pairs]:
        return None, "all pairs"
    return ran.describe(), ""


def copy_again(programs: Programs, store: Path, copy: Path, what: str) -> str | None:
    """The next copy to the same path succeeds, unless the killed one is whole."""
    again = run([programs.store, "--disk", store, "--copy-to", copy])
    wrong = differs(again, 4, b"", DEVICE) if what == "all pairs" else differs(again, 0, b"")
    return wrong or (None if check_killed(programs, copy, 60_000) == (None, "all pairs") else "the next copy is not whole")


def kill(programs: Programs) -> Outcome:
    puts = b"".join(b"put k%06d v%d\n" % (number, number) for number in range(60_000)) + b"flush\n"
    found: Counter[str] = Counter()
    with new_folder() as folder:
        store, copy = Path(folder) / "store", Path(folder) / "copy"
        run([programs.store, "--create", "--disk", store], puts)
        before = store.read_bytes()
        begin = time.monotonic()
        wrong = differs(run([programs.store, "--disk", store, "--copy-to", copy]), 0, b"")
        whole = time.monotonic() - begin
        for number in range(KILLS):
            copy.unlink(missing_ok=True)
            child = subprocess.Popen([programs.store, "--disk", store, "--copy-to", copy], stdin=subprocess.DEVNULL, env=NO_VARIABLES)
            time.sleep(whole * (number + 1) / KILLS)
            child.kill()
            child.wait(PATIENCE)
            wrong_copy, what = check_killed(programs, copy, 60_000)
            found[what] += 1
            wrong = wrong or wrong_copy or copy_again(programs, store, copy, what)
            wrong = wrong or (None if store.read_bytes() == before else "the store has other bytes")
    return Outcome(wrong, measured=", ".join(f"{count} with {what}" for what, count in found.items()))


def cases(programs: Programs, refusing: Path, failing: Path) -> list[Case]:
    arguments, lanes = (programs,), range(1, LANES + 1)
    return [
        Case("kills while a store is copied", kill, arguments),
        *(Case(f"allocations of a copy refused, part {lane} of {LANES}", refuse_allocations, (programs, refusing, lane)) for lane in lanes),
        Case("copies what a session leaves", copy_all, (programs, ())),
        Case("copies what a stream leaves", copy_all, (programs, ("--stream",))),
        Case("copies after the numbers", copy_with_numbers, arguments),
        Case("copies many pairs", copy_many, arguments),
        Case("copies at the end of a dialog", copy_of_stream, arguments),
        *(Case(f"the bytes of a copy of {count} pairs", copy_exactly, (programs, count)) for count in (0, 1, 16, 17, 400, 4_096)),
        Case("copies into a log with more segments", copy_to_same_log, arguments),
        Case("copies a queue that has filled its log", copy_full_queue, arguments),
        Case("replaces nothing", copy_over, arguments),
        Case("replaces what an unfinished attempt left", copy_over_unfinished, arguments),
        Case("no copy in the file of the store", create_over_copy, arguments),
        Case("no copy where no file can be", copy_to_no_file, arguments),
        Case("no copy in a file that may not be so long", copy_too_long, arguments),
        Case("no copy in a file that another has", copy_over_locked, arguments),
        *(
            Case(f"no copy in a file that gets bytes meanwhile, {stream} {' '.join(words)}", redirect_to_copy, (programs, stream, words, begins))
            for stream, words, begins in REDIRECTED
        ),
        Case("no copy in a file that another fills meanwhile", write_to_copy, arguments),
        *(Case(f"a copy after what a stream goes on after, {number}", copy_after_refusals, (programs, *row)) for number, row in enumerate(GO_ON)),
        *(Case(f"no copy after {row[4].decode().strip()}, {' '.join(row[0])}", end_early, (programs, *row)) for row in END_EARLY),
        Case("no file of a copy before all is admitted", refuse_before_copy, arguments),
        *(Case(f"a copy is refused: {row[2].decode().strip()} of {len(row[0])} bytes", refuse_copy, (programs, *row)) for row in REFUSED_COPIES),
        *(Case(f"calls of a copy fail: {row[0].call} from {row[0].first} on", fail_calls, (programs, failing, *row)) for row in CALLS),
        *(Case(f"reads of a copy's file fail: {number}", fail_reads, (programs, failing, number)) for number in range(2)),
        *(Case(f"a copy beside closed streams, {closed}", close, (programs, closed)) for closed in ("<&-", "2>&-", "<&- 2>&-")),
        Case("a copy after a closed pipe", closed_pipe, arguments),
    ]
