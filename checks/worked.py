"""Compares files with docs/EXAMPLES.md and docs/FORMAT.md: the frames, and the slots of the last two commits.

Each store is created in a file of bytes 0xff that is shorter or longer than the store.
"""

from dataclasses import dataclass
from pathlib import Path

from tools.cases import SMALL_STORE, Case, Outcome, Programs, differs, first_difference
from tools.log.writing import Settings, Slot, delta_index, delta_leaf, disk_with, free, full_index, full_leaf, segments_of, shared_index, shared_leaf
from tools.processes import new_folder, run

S = Settings(fan=4, chain=2, max_key=16, max_value=16, seg_size=256, segments=4)
WORDS = (*SMALL_STORE, "--workers=2", "--grain=1", "--create", "--disk=store")
LONG = b"0123456789abcdef"


@dataclass(frozen=True)
class WorkedExample:
    number: str
    held: int
    text: bytes
    ending: tuple[int, bytes, bytes]
    frames: list[bytes]
    slots: list[Slot]

    def disk(self) -> bytes:
        return disk_with(S, self.slots, segments_of(S, self.frames))


def ones(letters: bytes) -> dict[bytes, bytes]:
    return {bytes([letter]): b"1" for letter in letters}


PUT_FIVE = b"put a 1\nput b 2\nput c 3\nput d 4\nput e 5\n"
PUT_LONG = b"put a 0123456789abcdef\nflush\n"

# The empty leaf of a new store, and the pages of example 4.
NEW = full_leaf(0, b"", {})
LEFT = full_leaf(0, b"", {b"a": b"1", b"b": b"2"})
RIGHT = full_leaf(1, b"c", {b"c": b"3", b"d": b"4", b"e": b"5"})
ROOT = full_index(2, b"", {b"": 0, b"c": 1})
FOUR = [NEW, LEFT, RIGHT, ROOT]

# The pages of example 5.
FIVE = [
    NEW,
    full_leaf(0, b"", ones(b"abc")),
    full_leaf(1, b"d", ones(b"def")),
    full_leaf(2, b"g", ones(b"ghij")),
    full_leaf(3, b"k", ones(b"klm")),
    full_leaf(4, b"n", ones(b"nopq")),
    full_index(5, b"", {b"": 0, b"d": 1}),
    full_index(6, b"g", {b"g": 2, b"k": 3, b"n": 4}),
    full_index(7, b"", {b"": 5, b"g": 6}),
]

# A run of page 0 that gives key a a value of sixteen bytes, and a base with that value.
LONG_RUN = delta_leaf(0, {b"a": LONG})
LONG_BASE = full_leaf(0, b"", {b"a": LONG, b"b": b"2"})

EXAMPLES = [
    WorkedExample("1", 8, b"go\nflush\n", (0, b"flushed 1\n", b""), [NEW], [Slot(1, 0, 33, 0, 1)]),
    WorkedExample(
        "4, 9, 10",
        1_536,
        PUT_FIVE + b"flush\ndel a\ndel b\ndel c\ndel d\ndel e\ngo\nput a 1\ngo\ndel a\nflush\n" + PUT_FIVE + b"flush\n",
        (0, 5 * b"new\n" + b"flushed 2\n" + 5 * b"deleted\n" + b"new\ndeleted\nflushed 3\n" + 5 * b"new\n" + b"flushed 4\n", b""),
        [*FOUR, NEW, free(1), free(2), LEFT, RIGHT, ROOT],
        [Slot(3, 0, 179, 0, 1), Slot(4, 0, 310, 2, 2)],
    ),
    WorkedExample(
        "5, 13",
        1_535,
        b"".join(b"put %c 1\n" % letter for letter in b"abcdefghijklmnopq") + b"flush\ndel d\ndel e\ndel f\ngo\nput d 1\ngo\ndel d\nflush\n",
        (0, 17 * b"new\n" + b"flushed 2\n" + 3 * b"deleted\n" + b"new\ndeleted\nflushed 3\n", b""),
        [*FIVE, full_leaf(0, b"", ones(b"abc")), free(1), delta_index(5, {b"d": None})],
        [Slot(2, 0, 399, 7, 3), Slot(3, 0, 466, 7, 3)],
    ),
    WorkedExample(
        "12",
        1_537,
        PUT_FIVE + b"go\nput a 9\nflush\n",
        (0, 5 * b"new\n" + b"replaced\nflushed 2\n", b""),
        [NEW, LEFT, delta_leaf(0, {b"a": b"9"}), RIGHT, ROOT],
        [Slot(1, 0, 33, 0, 1), Slot(2, 0, 158, 2, 2)],
    ),
    WorkedExample(
        "14",
        4_000,
        b"put a 123456789\nput b 123456789\nput c 123456789\nflush\n"
        + b"".join(b"put %c123456789abcdef 0123456789abcdef\n" % letter for letter in b"defg")
        + b"flush\nclean\n",
        (4, 3 * b"new\n" + b"flushed 2\n" + 4 * b"new\n" + b"flushed 3\n", b"fault 11 NothingToClean\n"),
        [
            NEW,
            delta_leaf(0, dict.fromkeys((b"a", b"b", b"c"), b"123456789")),
            delta_leaf(0, {b"%c123456789abcdef" % letter: LONG for letter in b"defg"}),
        ],
        [Slot(2, 0, 93, 0, 1), Slot(3, 0, 256, 0, 1)],
    ),
    WorkedExample(
        "16",
        0,
        PUT_FIVE + b"flush\n" + 4 * PUT_LONG + b"put z 9\nclean\nclean\n",
        (
            4,
            5 * b"new\n" + b"flushed 2\n" + b"".join(b"replaced\nflushed %d\n" % number for number in range(3, 7)) + b"new\ncleaned 1\n",
            b"fault 11 NothingToClean\n",
        ),
        [*FOUR, LONG_RUN, LONG_RUN, LONG_BASE, LONG_RUN, LONG_BASE, LONG_RUN, RIGHT, ROOT],
        [Slot(6, 0, 309, 2, 2), Slot(7, 1, 464, 2, 2)],
    ),
    WorkedExample(
        "15.1, and then a run",
        1_536,
        PUT_FIVE + b"flush\nupgrade\nput a 9\nflush\n",
        (0, 5 * b"new\n" + b"flushed 2\nupgraded 3\nreplaced\nflushed 4\n", b""),
        [
            *FOUR,
            shared_leaf(0, b"", {b"a": b"1", b"b": b"2"}),
            shared_leaf(1, b"c", {b"c": b"3", b"d": b"4", b"e": b"5"}),
            shared_index(2, b"", {b"": 0, b"c": 1}),
            delta_leaf(0, {b"a": b"9"}),
        ],
        [Slot(3, 0, 238, 2, 2, 2), Slot(4, 0, 294, 2, 2, 2)],
    ),
]


def write(programs: Programs, number: int) -> Outcome:
    example = EXAMPLES[number]
    with new_folder() as folder:
        path = Path(folder) / "store"
        path.write_bytes(b"\xff" * example.held)
        wrong = differs(run([programs.store, *WORDS], example.text, folder=Path(folder)), *example.ending)
        expected, now = example.disk(), path.read_bytes()
        if wrong is None and now != expected:
            at = first_difference(now, expected)
            wrong = f"{len(now)} bytes, from {at} on {now[at : at + 40]!r}, where {len(expected)} and {expected[at : at + 40]!r} were expected"
        return Outcome(wrong)


def cases(programs: Programs) -> list[Case]:
    return [Case(f"the bytes of log {example.number}", write, (programs, number)) for number, example in enumerate(EXAMPLES)]
