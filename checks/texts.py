"""Malicious and large batch files, each run with a small stack."""

import random
from collections.abc import Callable
from dataclasses import dataclass

from tools.answers import Ending, token
from tools.cases import SLOW, Case, Outcome, Programs, differs
from tools.drawn_batches import drawn_batches
from tools.processes import MEGABYTE, run

SMALL_MEMORY = 100 * MEGABYTE


@dataclass(frozen=True)
class HostileText:
    name: str
    make: Callable[[], bytes]
    ending: Ending
    words: tuple[str, ...] = ()
    seconds: float | None = None  # None: in proportion to the length
    memory: int | None = None


def bad_line(why: str, line: int = 1) -> Ending:
    return 3, b"", f"line {line}: {why}\n".encode()


def fault(what: str) -> Ending:
    return 4, b"", f"fault {what}\n".encode()


NOTHING = (0, b"", b"")
LONG = b"a" * MEGABYTE
MILLION = 1_000_000

STREAM = ("--stream",)
MOST = 16_384  # bytes of a line of a stream, unless it is a comment
HUGE = 50 * MEGABYTE
FEW = 12 * MEGABYTE  # memory of a session that keeps no long line
TOO_LONG = b"line 1: line too long\n"

TURNS, STEP = 1_000, 5  # alternating wipes and scans, and the pairs that each wipe removes


MANY = 20_000  # pairs, and rows that a batch may ask for
ROWS = ("--stream", f"--max-rows={MANY}", "--fan=64", "--chain=16")
ALL_PAIRS = b"scan % * 4294967295\n"
REFUSED_SCAN = b"line %d: too many rows\n" % (MANY + 2)


def bounded_scans() -> bytes:
    return puts(MANY) + 20 * (b"scan % * 10000\n" * 2 + b"go\n")


def answers_to_bounded_scans() -> bytes:
    return 40 * (b"rows 10000\n" + b"".join(b"%06d v\n" % number for number in range(10_000)))


def puts(count: int) -> bytes:
    return b"".join(b"put %06d v\n" % number for number in range(count)) + b"go\n"


def wipes_and_scans(lo: bytes) -> bytes:
    """Each scan begins at `lo` or, if it is empty, where the wipe before it began."""
    ends = [(b"%06d" % (STEP * turn), b"%06d" % (STEP * (turn + 1))) for turn in range(TURNS)]
    return puts(TURNS * STEP) + b"".join(b"wipe %s %s\nscan %s * 3\n" % (lo or first, last, lo or first) for first, last in ends)


def answers_to_wipes_and_scans() -> bytes:
    ends = [STEP * (turn + 1) for turn in range(TURNS)]
    rows = [[b"%06d v\n" % number for number in range(end, min(end + 3, TURNS * STEP))] for end in ends]
    return b"new\n" * (TURNS * STEP) + b"".join(b"wiped %d\nrows %d\n" % (STEP, len(found)) + b"".join(found) for found in rows)


PAIRS = 65_535  # as many as a batch may have commands


@dataclass(frozen=True)
class Costly:
    """A batch that repeats lines with each key, after a batch that puts all keys."""

    name: str
    lines: tuple[bytes, ...]
    answer: Callable[[int], bytes]  # to the lines with the key of this number

    def text(self) -> bytes:
        keys = [b"%06d" % number for number in range(PAIRS // len(self.lines))]
        return puts(PAIRS) + b"".join(line.replace(b"KEY", key) for key in keys for line in self.lines)

    def answers(self) -> bytes:
        return b"new\n" * PAIRS + b"".join(self.answer(number) for number in range(PAIRS // len(self.lines)))


COSTLY = [
    Costly("deletes and scans", (b"del KEY\n", b"scan % * 1\n"), lambda number: b"deleted\nrows 1\n%06d v\n" % (number + 1)),
    Costly(
        "deletes, adds and scans",
        (b"del KEY\n", b"add KEY v\n", b"scan % * 2\n"),
        lambda number: b"deleted\nadded\nrows 2\n000000 v\n000001 v\n",
    ),
    Costly("wipes and scans", (b"wipe % KEY\n", b"scan % * 1\n"), lambda number: b"wiped %d\nrows 1\n%06d v\n" % (number > 0, number)),
    Costly(
        "puts and wipes of all",
        (b"put KEY v\n", b"wipe % *\n"),
        lambda number: b"new\nwiped 1\n" if number else b"replaced\nwiped %d\n" % PAIRS,
    ),
    Costly(
        "puts, deletes and scans on one page",
        (b"put -KEY v\n", b"del -KEY\n", b"scan % * 1\n"),
        lambda number: b"new\ndeleted\nrows 1\n000000 v\n",
    ),
]

SMALL = 200_000  # batches of one command
PER_ORDER = 100  # bytes of memory per batch, besides its text

TEXTS = [
    HostileText("no bytes", lambda: b"", NOTHING),
    HostileText("a line of 1 MB", lambda: LONG, bad_line("unknown command")),
    HostileText("a comment of 1 MB", lambda: b"#" + LONG, NOTHING),
    HostileText("1 MB of spaces", lambda: b" " * MEGABYTE, NOTHING),
    HostileText("a million words", lambda: b"put" + b" a" * MILLION, bad_line("wrong number of words")),
    HostileText("a key of 1 MB", lambda: b"put " + LONG + b" 1\n", fault("2 KeyTooLong 0")),
    HostileText("a value of 1 MB", lambda: b"put a " + LONG + b"\n", fault("3 ValueTooLong 0")),
    HostileText("a token of 1 MB of percent signs", lambda: b"get " + b"%" * MEGABYTE, bad_line("bad token")),
    HostileText("a number of 1 MB of zeros", lambda: b"scan % * " + b"0" * MEGABYTE + b"1", (0, b"rows 0\n", b"")),
    HostileText("a number of 1 MB of nines", lambda: b"scan % * " + b"9" * MEGABYTE, bad_line("bad number")),
    HostileText("1 MB of zero bytes", lambda: bytes(MEGABYTE), bad_line("unknown command")),
    HostileText("a million empty lines", lambda: b"\n" * MILLION, NOTHING),
    HostileText("a million lines of CR LF", lambda: b"\r\n" * MILLION, NOTHING),
    HostileText("a million go", lambda: b"go\n" * MILLION, NOTHING),
    HostileText("a bad line after a million", lambda: b"\n" * MILLION + b"x", bad_line("unknown command", MILLION + 1)),
    HostileText("a batch of 65,536 commands", lambda: b"get a\n" * 65_536, fault("4 BatchTooLong")),
    HostileText("a batch of 65,535 commands", lambda: b"get a\n" * 65_535, (0, b"missing\n" * 65_535, b"")),
    HostileText("a bound of 1 MB", lambda: b"get a\nwipe a " + LONG + b"\n", fault("2 KeyTooLong 1")),
    HostileText("65,535 wipes of nothing", lambda: b"wipe a *\n" * 65_535, (0, b"wiped 0\n" * 65_535, b"")),
    HostileText("a wipe of all", lambda: puts(65_535) + b"wipe % *\nscan % * 9\n", (0, b"new\n" * 65_535 + b"wiped 65535\nrows 0\n", b"")),
    HostileText("wipes and scans in turn, each where the last one ended", lambda: wipes_and_scans(b""), (0, answers_to_wipes_and_scans(), b"")),
    HostileText("wipes and scans in turn, from the first key on", lambda: wipes_and_scans(b"%"), (0, answers_to_wipes_and_scans(), b"")),
    *[
        HostileText(
            f"{batch.name} in turn, {settings}",
            batch.text,
            (0, batch.answers(), b""),
            words,
            seconds=3,
            memory=100 * MEGABYTE,
        )
        for batch in COSTLY
        for settings, words in (("default settings", ()), ("fan 64, chain 16", ("--fan", "64", "--chain", "16")))
    ],
    HostileText("a put of 50 MB in a stream", lambda: b"put a " + b"b" * HUGE + b"\nput b 1\ngo\nget b\n", (0, TOO_LONG + b"missing\n", b""), STREAM, memory=FEW),
    HostileText("50 MB without a command in a stream", lambda: b"a" * HUGE + b"\nflush\n", (0, TOO_LONG + b"flushed 1\n", b""), STREAM, memory=FEW),
    HostileText("a comment of 50 MB in a stream", lambda: b" # " + b"put a 1 " * (HUGE // 8) + b"\nget a\n", (0, b"missing\n", b""), STREAM, memory=FEW),
    HostileText("50 MB that no line feed ends, in a stream", lambda: b"get a\n" + b"b" * HUGE, (0, b"missing\n", b""), STREAM, memory=FEW),
    HostileText("the longest line of a stream", lambda: b"get a".ljust(MOST) + b"\n", (0, b"missing\n", b""), STREAM),
    HostileText("the longest line of a stream, with CR LF", lambda: b"get a".ljust(MOST) + b"\r\n", (0, b"missing\n", b""), STREAM),
    HostileText("the longest line of a stream, and a carriage return", lambda: b"get a".ljust(MOST) + b"\r\r\n", (0, TOO_LONG, b""), STREAM),
    HostileText("a byte more than the longest line of a stream", lambda: b"get a".ljust(MOST + 1) + b"\n", (0, TOO_LONG, b""), STREAM),
    HostileText("two bytes more", lambda: b"get a".ljust(MOST + 2) + b"\n", (0, TOO_LONG, b""), STREAM),
    HostileText("three bytes more", lambda: b"get a".ljust(MOST + 3) + b"\n", (0, TOO_LONG, b""), STREAM),
    HostileText("a comment after many blanks in a stream", lambda: b"#".rjust(MOST) + LONG + b"\nget a\n", (0, b"missing\n", b""), STREAM),
    HostileText("a comment after too many blanks in a stream", lambda: b"#".rjust(MOST + 1) + b"\nget a\n", (0, TOO_LONG, b""), STREAM),
    HostileText(
        "a long line in a batch of a stream",
        lambda: b"put a 1\nput b " + LONG + b"\nput c 3\ngo\nscan % * 9\n",
        (0, b"line 2: line too long\nrows 0\n", b""),
        STREAM,
    ),
    HostileText("scans of all pairs in a bounded stream", lambda: puts(MANY) + ALL_PAIRS * MANY + b"go\n", (0, MANY * b"new\n" + REFUSED_SCAN, b""), ROWS, memory=FEW),
    HostileText("batches of as many rows as are allowed", bounded_scans, (0, MANY * b"new\n" + answers_to_bounded_scans(), b""), ROWS, memory=FEW),
    HostileText("the same line in a text", lambda: b"put a 1\nput b " + LONG + b"\n", fault("3 ValueTooLong 1")),
    HostileText(
        "batches of one command",
        lambda: b"get a\ngo\n" * SMALL,
        (0, b"missing\n" * SMALL, b""),
        memory=SMALL * (PER_ORDER + 9) + 5 * MEGABYTE,
    ),
]


def run_text(programs: Programs, number: int) -> Outcome:
    text = TEXTS[number]
    made = text.make()
    ran = run([programs.store, *text.words], made)
    most = text.seconds or SLOW * max(1.0, len(made) / MEGABYTE)
    slow = f"{ran.seconds:.2f} s of the processor, where at most {most:.2f} were expected" if ran.seconds > most else None
    is_large = text.memory is not None and ran.memory > text.memory
    large = f"{ran.memory / MEGABYTE:.0f} MB, where at most {(text.memory or 0) / MEGABYTE:.0f} were expected" if is_large else None
    return Outcome(differs(ran, *text.ending) or slow or large, measured=f"{ran.seconds:.2f} s, {ran.memory / MEGABYTE:.0f} MB")


def ending_of_line(byte: int) -> Ending:
    return NOTHING if byte in b" \t\r\n#" else bad_line("unknown command")


def ending_of_word(byte: int) -> Ending:
    if byte in b" \t\r\n":
        return bad_line("wrong number of words")
    return (0, b"missing\n", b"") if 0x21 <= byte <= 0x7E else bad_line("bad token")


def run_bytes(programs: Programs) -> Outcome:
    for byte in range(256):
        as_line = run([programs.store], bytes([byte]) + b"\n")
        as_word = run([programs.store], b"get " + bytes([byte]) + b"\n")
        wrong = differs(as_line, *ending_of_line(byte)) or differs(as_word, *ending_of_word(byte))
        if wrong:
            return Outcome(f"byte {byte}: {wrong}")
    return Outcome()


def run_escapes(programs: Programs) -> Outcome:
    puts = b"".join(b"put %%%02x %%%02X%%%02x\n" % (byte, byte, 255 - byte) for byte in range(256))
    rows = b"".join(token(bytes([byte])) + b" " + token(bytes([byte, 255 - byte])) + b"\n" for byte in range(256))
    ran = run([programs.store], puts + b"scan % * 4294967295\n")
    return Outcome(differs(ran, 0, b"new\n" * 256 + b"rows 256\n" + rows))


def run_drawn(programs: Programs, workers: int) -> Outcome:
    text, answers = drawn_batches(random.Random(workers), batches=60, most=4_000, keys=20_000)
    ran = run([programs.store, "--fan", "4", "--chain", "2", "--workers", str(workers), "--grain", "7"], text)
    return Outcome(differs(ran, 0, answers), measured=f"{ran.seconds:.2f} s")


def run_in_memory(programs: Programs) -> Outcome:
    ran = run([programs.store, "--segments", "65536"], b"put a 1\n")
    dear = None
    if ran.seconds > SLOW or ran.memory > SMALL_MEMORY:
        dear = f"{ran.seconds:.2f} s of the processor and {ran.memory / MEGABYTE:.0f} MB for one put"
    return Outcome(differs(ran, 0, b"new\n") or dear, measured=f"{ran.seconds:.2f} s, {ran.memory / MEGABYTE:.1f} MB")


def cases(programs: Programs) -> list[Case]:
    return [
        *[Case(text.name, run_text, (programs, number)) for number, text in enumerate(TEXTS)],
        Case("each byte as a line and as a word", run_bytes, (programs,)),
        Case("keys and values of all bytes", run_escapes, (programs,)),
        *[Case(f"drawn batches, {workers} workers", run_drawn, (programs, workers)) for workers in (1, 4)],
        Case("a store in memory with 65,536 segments", run_in_memory, (programs,)),
    ]
