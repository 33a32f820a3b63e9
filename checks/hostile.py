"""Malicious files, read with a small stack: the answer must be right, with time and memory in proportion to the file size."""

import random
from collections.abc import Callable
from dataclasses import dataclass, replace
from itertools import islice
from pathlib import Path

from tools.answers import READ_ALL, Ending, answer_to_read_all, ending_of_read_all
from tools.cases import SLOW, Case, Outcome, Programs, differs
from tools.log.colliding_ids import colliding_ids
from tools.log.reading import read_settings, read_slot
from tools.log.writing import HEADER, Settings, counted, delta_index, delta_leaf, disk_of, fitting_disk, frame, free, full_index, full_leaf
from tools.log.writing import shared_index, shared_leaf
from tools.processes import MEGABYTE, Command, Limits, RunResult, new_folder, peak_memory, run, stalled

DEEP = 200_000  # runs of a page
RUN = 80  # bytes of memory per run
ROOM = 262_144 * RUN  # bytes of such a page in memory; its capacity doubles
MANY = 100_000  # free frames
LEAVES = 61_680  # empty leaves, with 1 MiB of frames
SLOT, SLOTS = 256, 65_536  # bytes per page in the page table, and the table's capacity, which doubles
TIMES = 10  # greatest memory, in multiples of the file's length
LEVELS = 64  # limit of a tree
CLIMBING = 88  # KB of stack: the 96 that a tree of 64 levels needs at most, without the 8 that the system may take
DAMAGED, PARTS = 400, 8
WIDE = Settings(fan=64, max_key=255)  # the setting with which prefix-compressed keys expand most
KEYS, LONGEST = 64, 255  # such keys per base, and their bytes
SLOWER, LEAST = 2, 0.05  # greatest ratio of the reading times of shared and whole keys, and seconds that are always allowed

EMPTY = full_leaf(0, b"", {})
ONE_PAIR = full_leaf(0, b"", {b"a": b"1"})
SHARED_PAIR = shared_leaf(0, b"", {b"a": b"1"})
LONG_KEYS = 60 * MEGABYTE  # memory of a megabyte of bases after expansion
TOO_DEEP = b"fault 16 BadStructure 7 %d\n"  # rule 7: the depth is above chain
NO_STORE = (4, b"", b"fault 12 NotAStore\n")
LOST_PAGE = (4, b"", b"fault 16 BadStructure 10 1\n")  # rule 10: the tree does not reach the page


@dataclass(frozen=True)
class HostileDisk:
    name: str
    make: Callable[[], bytes]
    ending: Ending  # of READ_ALL
    words: tuple[str, ...] = ()
    is_store: bool = False  # then it is also cleaned and upgraded
    pages: int = 0  # bytes of memory for its pages


def deep_leaf() -> bytes:
    return fitting_disk([ONE_PAIR, *[delta_leaf(0, {b"a": None})] * DEEP])


def deep_leaf_of_many_keys() -> bytes:
    return fitting_disk([ONE_PAIR, *[delta_leaf(0, {b"%07d" % number: None}) for number in range(DEEP)]])


def deep_index() -> bytes:
    leaves = [ONE_PAIR, full_leaf(1, b"c", {b"c": b"3"})]
    root = full_index(2, b"", {b"": 0, b"c": 1})
    return fitting_disk([*leaves, root, *[delta_index(2, {b"d": None})] * DEEP], root=2, height=2)


def deep_leaves() -> bytes:
    lows = {bytes([ord("a") + pid]) if pid else b"": pid for pid in range(8)}
    bases = [full_leaf(pid, low, {}) for low, pid in lows.items()]
    runs = [delta_leaf(pid, {low: None}) for low, pid in lows.items()]
    return fitting_disk([*bases, full_index(8, b"", lows), *runs * (DEEP // 8)], root=8, height=2)


def whole_after_runs() -> bytes:
    return fitting_disk([EMPTY, *[delta_leaf(0, {b"b": None})] * DEEP, ONE_PAIR])


def free_frames(ids: list[int]) -> bytes:
    return fitting_disk([ONE_PAIR, *[free(pid) for pid in ids if pid != 0]])


def colliding() -> bytes:
    return free_frames(list(islice(colliding_ids(), MANY)))


def rising() -> bytes:
    return free_frames(list(range(1, MANY + 1)))


def empty_leaves() -> bytes:
    return fitting_disk([ONE_PAIR, *[full_leaf(pid, b"", {}) for pid in range(1, LEAVES + 1)]])


def colliding_runs() -> bytes:
    """A clean leaves such runs without bases."""
    return fitting_disk([ONE_PAIR, *[delta_leaf(pid, {b"": None}) for pid in islice(colliding_ids(), MANY) if pid != 0]])


def tall_tree() -> bytes:
    left, right = 0, 1
    frames = [full_leaf(left, b"", {b"a": b"1"}), full_leaf(right, b"c", {b"c": b"3"})]
    for pid in range(2, 2 * (LEVELS - 1), 2):
        frames += [full_index(pid, b"", {b"": left}), full_index(pid + 1, b"c", {b"c": right})]
        left, right = pid, pid + 1
    root = right + 1
    return fitting_disk([*frames, full_index(root, b"", {b"": left, b"c": right})], root=root, height=LEVELS)


def many_segments() -> bytes:
    settings = Settings(fan=4, max_key=30, max_value=10, seg_size=256, segments=65_536)
    wide = full_leaf(0, b"", {bytes([key]) * 30: b"v" * 10 for key in range(4)})
    return disk_of(settings, [*[wide] * 65_533, ONE_PAIR])


def key_of(number: int, length: int) -> bytes:
    return b"k" * (length - 1) + bytes([number])


def many_bases(leaf: Callable[..., bytes], length: int) -> list[bytes]:
    """Returns a megabyte of unreachable leaves, full of keys of this length."""
    pairs = {key_of(number, length): b"" for number in range(KEYS)}
    count = MEGABYTE // len(leaf(0, b"", pairs))
    return [leaf(pid, b"", pairs) for pid in range(1, count + 1)]


def long_keys() -> bytes:
    """The leaves expand to fifty times their frames, because each key shares all but its last byte with the one before."""
    return fitting_disk([ONE_PAIR, *many_bases(shared_leaf, LONGEST)], version=2, settings=WIDE)


def long_keys_again() -> bytes:
    """Only the last base of the page is used."""
    again = many_bases(shared_leaf, LONGEST)
    return fitting_disk([again[0]] * len(again) + [shared_leaf(1, b"", {b"a": b"1"})], root=1, version=2, settings=WIDE)


def byte_short() -> bytes:
    return disk_of(Settings(), [ONE_PAIR])[:-1]


def last_length() -> bytes:
    return disk_of(Settings(), [ONE_PAIR, b"\2" + b"\xff" * 16])


ONE_ROW = (0, answer_to_read_all([(b"a", b"1")], 1, 1), b"")
TWO_ROWS = (0, answer_to_read_all([(b"a", b"1"), (b"c", b"3")], 2 * LEVELS - 1, LEVELS), b"")
NO_FRAME = (4, b"", b"fault 15 BadFrame 0 %d\n" % (HEADER + len(ONE_PAIR)))

DISKS = [
    HostileDisk(f"{DEEP:,} runs of a leaf", deep_leaf, (4, b"", TOO_DEEP % 0), pages=ROOM),
    HostileDisk(f"{DEEP:,} runs of a leaf, each of another key", deep_leaf_of_many_keys, (4, b"", TOO_DEEP % 0), pages=ROOM),
    HostileDisk(f"{DEEP:,} runs of a leaf, four workers", deep_leaf, (4, b"", TOO_DEEP % 0), ("--workers", "4"), pages=ROOM),
    HostileDisk(f"{DEEP:,} runs of an index page", deep_index, (4, b"", TOO_DEEP % 2), pages=ROOM),
    HostileDisk(f"{DEEP:,} runs of eight leaves", deep_leaves, (4, b"", TOO_DEEP % 0), pages=ROOM),
    HostileDisk(f"a leaf that is whole again after {DEEP:,} runs", whole_after_runs, ONE_ROW, is_store=True),
    HostileDisk(f"{MANY:,} free frames with colliding ids", colliding, ONE_ROW, is_store=True),
    HostileDisk(f"{MANY:,} free frames with colliding ids, four workers", colliding, ONE_ROW, ("--workers", "4"), is_store=True),
    HostileDisk(f"{MANY:,} free frames with rising ids", rising, ONE_ROW, is_store=True),
    HostileDisk(f"{MANY:,} runs without a base, with colliding ids", colliding_runs, ONE_ROW, is_store=True),
    HostileDisk(f"{LEAVES:,} empty leaves that no tree reaches", empty_leaves, (4, b"", b"fault 16 BadStructure 10 1\n"), pages=SLOT * SLOTS),
    HostileDisk(f"{LEAVES:,} empty leaves, four workers", empty_leaves, LOST_PAGE, ("--workers", "4"), pages=SLOT * SLOTS),
    HostileDisk("a log of 65,534 segments", many_segments, ONE_ROW, is_store=True),
    HostileDisk(f"a tree of {LEVELS} levels", tall_tree, TWO_ROWS),
    HostileDisk("leaves of long keys that share beginnings", long_keys, (4, b"", b"fault 16 BadStructure 10 1\n"), pages=LONG_KEYS),
    HostileDisk("leaves of long keys, four workers", long_keys, (4, b"", b"fault 16 BadStructure 10 1\n"), ("--workers", "4"), pages=LONG_KEYS),
    HostileDisk("a leaf of long keys that is whole again and again", long_keys_again, ONE_ROW, is_store=True),
    HostileDisk("zeros", lambda: bytes(MEGABYTE), NO_STORE),
    HostileDisk("bytes 0xff", lambda: b"\xff" * MEGABYTE, NO_STORE),
    HostileDisk("an empty file", lambda: b"", NO_STORE),
    HostileDisk("a file of 63 bytes", lambda: Settings().block()[:63], NO_STORE),
    HostileDisk("a file of a settings block", lambda: Settings().block(), NO_STORE),
    HostileDisk("a file that is a byte short", byte_short, NO_STORE),
    HostileDisk("a frame of four gibibytes", last_length, NO_FRAME),
]


def small_memory(programs: Programs, folder: Path) -> int:
    path, value = folder / "small", b"v" * 250
    path.write_bytes(disk_of(Settings(), [full_leaf(0, b"", {b"a": value})]))
    with stalled([programs.store, "--disk", path], b"get a\n" * 400) as child:
        return peak_memory(child.pid, programs.store.name)


def wrong_cost(ran: RunResult, least: int, length: int) -> str | None:
    """`least` is the memory that is always allowed, in bytes."""
    seconds = SLOW * max(1.0, length / MEGABYTE)
    memory = least + TIMES * max(length, MEGABYTE)
    if ran.seconds > seconds:
        return f"{ran.seconds:.2f} s of the processor, where {seconds:.2f} may be taken"
    if ran.memory > memory:
        return f"{ran.memory / MEGABYTE:.0f} MB, where {memory / MEGABYTE:.0f} may be taken"
    return None


def read_file(command: Command, path: Path, disk: bytes, ending: Ending) -> tuple[RunResult, str | None]:
    ran = run([*command, "--disk", path], READ_ALL)
    wrong = differs(ran, *ending)
    return ran, wrong or (None if path.read_bytes() == disk else "the session wrote to the file that it only read")


def write_file(command: Command, path: Path, line: bytes, answer: bytes, ending: Ending) -> tuple[RunResult, str | None]:
    ran = run([*command, "--disk", path], line)
    return ran, differs(ran, 0, answer) or differs(run([*command, "--disk", path], READ_ALL), *ending)


def writing_orders(made: bytes) -> list[tuple[str, bytes, bytes]]:
    """Returns each writing command's name, line and answer."""
    upgrade = ("upgraded", b"upgrade\n", b"upgraded 3\n")
    return [("cleaned", b"clean\n", b"cleaned 1\n"), *([] if read_slot(made, read_settings(made)).version else [upgrade])]


def check_disk(programs: Programs, number: int) -> Outcome:
    disk = DISKS[number]
    with new_folder() as folder:
        path, made = Path(folder) / "disk", disk.make()
        least = small_memory(programs, Path(folder))
        path.write_bytes(made)
        command: Command = [programs.store, *disk.words]
        ran, wrong = read_file(command, path, made, disk.ending)
        measured = f"{len(made) / MEGABYTE:.1f} MB: {ran.seconds:.2f} s, {ran.memory / MEGABYTE:.1f} MB (a small store {least / MEGABYTE:.1f})"
        wrong = wrong or wrong_cost(ran, least + disk.pages, len(made))
        for name, line, answer in writing_orders(made) if disk.is_store else []:
            if wrong is None:
                ran, wrong = write_file(command, path, line, answer, disk.ending)
                measured += f"; {name} in {ran.seconds:.2f} s, {ran.memory / MEGABYTE:.1f} MB"
                wrong = wrong or wrong_cost(ran, least + disk.pages, len(made))
        return Outcome(wrong, measured=measured)


def climb(programs: Programs, workers: int) -> Outcome:
    keys = [b"%c%d" % (first, number) for first in b"ac" for number in range(8)]
    put = b"".join(b"put %s 1\n" % key for key in keys) + b"go\nscan % * 100\nflush\n"
    rows = b"rows 18\n" + b"".join(b"%s %s\n" % pair for pair in sorted([(b"a", b"1"), (b"c", b"3"), *[(key, b"1") for key in keys]]))
    lines = [(put, b"new\n" * 16 + rows + b"flushed 2\n"), (b"wipe % *\nscan % * 100\nflush\n", b"wiped 18\nrows 0\nflushed 3\n")]
    with new_folder() as folder:
        path = Path(folder) / "disk"
        path.write_bytes(tall_tree() + bytes(MEGABYTE))
        for text, printed in lines:
            command: Command = [programs.store, "--disk", path, "--workers", str(workers), "--clean-when-full"]
            wrong = differs(run(command, text, Limits(CLIMBING)), 0, printed)
            if wrong:
                return Outcome(wrong)
        return Outcome()


def compare_times(programs: Programs) -> Outcome:
    with new_folder() as folder:
        seconds = []
        kinds: list[tuple[Callable[..., bytes], int]] = [(full_leaf, 1), (shared_leaf, 1), (shared_leaf, LONGEST)]
        for leaf, length in kinds:
            path = Path(folder) / "disk"
            path.write_bytes(fitting_disk([ONE_PAIR, *many_bases(leaf, length)], version=2, settings=WIDE))
            seconds.append(min(run([programs.store, "--disk", path], READ_ALL).seconds for _ in range(5)))
        measured = f"{seconds[0]:.3f} s with whole keys of a byte, {seconds[1]:.3f} and {seconds[2]:.3f} s with shared ones of 1 and {LONGEST}"
        return Outcome(measured if max(seconds) > SLOWER * seconds[0] + LEAST else None, measured=measured)


# Invalid leaves of version 2, for keys of at most 16 bytes: the error, low key, count and entries.
NO_BASES = [
    ("a first key that shares more than its low key", b"ab", 1, "03 01 63 0000"),
    ("a first key that shares fewer bytes than it could", b"ab", 1, "01 02 62 63 0000"),
    ("a key that shares more than the one before", b"", 2, "00 02 6162 0000 03 01 63 0000"),
    ("a key that shares fewer bytes than it could", b"", 2, "00 02 6162 0000 01 02 6263 0000"),
    ("a key twice", b"", 2, "00 02 6162 0000 02 00 0000"),
    ("a key that falls", b"", 2, "00 02 6162 0000 01 01 61 0000"),
    ("a key that begins the one before", b"", 2, "00 02 6162 0000 01 00 0000"),
    ("a key of 17 bytes", b"a" * 16, 1, "10 01 61 0000"),
    ("a rest of 255 bytes", b"", 1, "00 ff" + "61" * 255 + "0000"),
    ("a rest that is cut off", b"", 1, "00 05 61"),
    ("five entries", b"", 5, "00 01 61 0000 00 01 62 0000 00 01 63 0000 00 01 64 0000 00 01 65 0000"),
    ("a value of 17 bytes", b"", 1, "00 01 61 0011" + "00" * 17),
]


def refuse_frames(programs: Programs) -> Outcome:
    """Checks that invalid frames are refused at their place, and valid ones of version 2 in a log of version 1."""
    refused = [(what, frame(6, 0, counted(low) + count.to_bytes(2, "big") + bytes.fromhex(entries)), 2) for what, low, count, entries in NO_BASES]
    refused += [("a shared leaf in a log of version 1", SHARED_PAIR, 0), ("a shared index page there", shared_index(0, b"", {b"": 1}), 0)]
    refused += [("a frame of kind 8", frame(8, 0), 2), ("a shared leaf that is read as an index page", b"\7" + SHARED_PAIR[1:], 2)]
    with new_folder() as folder:
        path, at = Path(folder) / "disk", HEADER + len(ONE_PAIR)
        for what, bad, version in refused:
            for following in (b"", ONE_PAIR, bad, b"\0" * 9, b"\xff" * 20):
                disk = disk_of(replace(SMALL, seg_size=1024), [ONE_PAIR, bad + following], version=version)
                path.write_bytes(disk)
                _, wrong = read_file([programs.store], path, disk, (4, b"", b"fault 15 BadFrame 0 %d\n" % at))
                if wrong or ending_of_read_all(disk)[2] != b"fault 15 BadFrame 0 %d\n" % at:
                    return Outcome(f"{what}: {wrong or 'the rules read it'}")
    return Outcome(measured=f"{len(refused)} frames")


# Frames and their bytes; docs/FORMAT.md explains some of them.
EXAMPLES = [
    (EMPTY, "01 0000000c 0000000000000000 0000 0000"),
    (delta_leaf(0, {b"a": None}), "02 0000000e 0000000000000000 0001 0001 61 00"),
    (delta_leaf(0, {b"a": b"1"}), "02 00000011 0000000000000000 0001 0001 61 01 0001 31"),
    (full_leaf(0, b"", {b"a": b"1", b"b": b"2"}), "01 00000018 0000000000000000 0000 0002 0001 61 0001 31 0001 62 0001 32"),
    (full_index(2, b"", {b"": 0, b"c": 1}), "03 00000021 0000000000000002 0000 0002 0000 0000000000000000 0001 63 0000000000000001"),
    (delta_index(5, {b"d": None}), "04 0000000e 0000000000000005 0001 0001 64 00"),
    (free(1), "05 00000008 0000000000000001"),
    (shared_leaf(0, b"", {b"a": b"1", b"b": b"2"}), "06 00000018 0000000000000000 0000 0002 00 01 61 0001 31 00 01 62 0001 32"),
    (
        shared_leaf(1, b"c", {b"c": b"3", b"d": b"4", b"e": b"5"}),
        "06 0000001e 0000000000000001 0001 63 0003 01 00 0001 33 00 01 64 0001 34 00 01 65 0001 35",
    ),
    (shared_index(2, b"", {b"": 0, b"c": 1}), "07 00000021 0000000000000002 0000 0002 00 00 0000000000000000 00 01 63 0000000000000001"),
    (
        shared_leaf(0, b"ab", {b"abc": b"", b"abcd": b"", b"abd": b""}),
        "06 0000001d 0000000000000000 0002 6162 0003 02 01 63 0000 03 01 64 0000 02 01 64 0000",
    ),
]


def check_writing() -> Outcome:
    wrong = [example for made, example in EXAMPLES if made != bytes.fromhex(example)]
    return Outcome(f"other bytes than {wrong[0]}" if wrong else None)


SMALL = Settings(fan=4, chain=3, max_key=16, max_value=16, seg_size=256, segments=16)


def small_leaf(chance: random.Random, pid: int, low: bytes, end: bytes, leaf: Callable[..., bytes]) -> list[bytes]:
    """Some keys are outside the leaf's range."""
    drawn = [low + bytes([byte]) * chance.choice([1, 1, 2]) for byte in chance.sample(range(256), 6)]
    keys = [low, *[key for key in drawn if key < end or chance.random() < 0.01]]
    pairs = {key: chance.randbytes(chance.randrange(4)) for key in keys[: chance.randrange(5)]}
    runs = [{chance.choice(keys): chance.choice([None, b"", b"new"])} for _ in range(chance.randrange(4))]
    return [leaf(pid, low, pairs), *[delta_leaf(pid, run) for run in runs]]


def small_tree(chance: random.Random, version: int) -> bytes:
    """Makes three levels and obsolete frames. In version 2 some bases have whole keys, as before an upgrade."""
    leaves: list[Callable[..., bytes]] = [full_leaf, shared_leaf][: 1 + bool(version)]
    indexes: list[Callable[..., bytes]] = [full_index, shared_index][: 1 + bool(version)]
    lows = [b"", b"c", b"cf", b"k", b"kk", b"t"]
    ends = [*lows[1:], b"\xff" * 9]
    pages = [small_leaf(chance, pid, low, end, chance.choice(leaves)) for pid, (low, end) in enumerate(zip(lows, ends))]
    pages += [[chance.choice(indexes)(6, b"", dict(zip(lows[:3], range(3))))], [chance.choice(indexes)(7, b"k", dict(zip(lows[3:], range(3, 6))))]]
    pages += [[chance.choice(indexes)(8, b"", {b"": 6, b"k": 7})], [chance.choice(leaves)(9, b"", {}), free(9)], [delta_leaf(10, {b"a": None})]]
    chance.shuffle(pages)
    return disk_of(SMALL, [each for page in pages for each in page], root=8, height=3, version=version)


def damage(chance: random.Random, disk: bytes) -> bytes:
    changed, end = bytearray(disk), len(disk.rstrip(b"\0"))
    for _ in range(chance.choice([0, 1, 1, 1, 2, 3])):
        at = chance.randrange(256) if chance.random() < 0.2 else chance.randrange(512, end)
        changed[at] = chance.choice([0, 1, 2, 255, changed[at] ^ 1 << chance.randrange(8), chance.randrange(256)])
    if chance.random() < 0.1:
        start, length, to = chance.randrange(512, end), chance.randrange(1, 60), chance.randrange(512, end)
        changed[to : to + length] = changed[start : start + length]
    return bytes(changed[: chance.randrange(len(disk))] if chance.random() < 0.02 else changed)


def check_damaged(programs: Programs, part: int) -> Outcome:
    chance, stores = random.Random(part), 0
    with new_folder() as folder:
        for number in range(DAMAGED // PARTS):
            disk = damage(chance, small_tree(chance, chance.choice([0, 2])))
            path = Path(folder) / f"disk{number}"
            path.write_bytes(disk)
            ending = ending_of_read_all(disk)
            stores += ending[0] == 0
            _, wrong = read_file([programs.store], path, disk, ending)
            if wrong:
                return Outcome(f"disk {number} of seed {part}: {wrong}")
    return Outcome(measured=f"{DAMAGED // PARTS} disks, {stores} of them stores")


def small_store() -> bytes:
    frames = [shared_leaf(0, b"", {b"a": b"1", b"aa": b"2"}), delta_leaf(0, {b"aaa": b"3", b"a": None})]
    frames += [shared_leaf(1, b"ab", {b"ab": b"", b"abc": b"5"}), full_leaf(2, b"abd", {b"abd": b"6"})]
    frames += [shared_index(3, b"", {b"": 0, b"ab": 1}), delta_index(3, {b"abd": 2}), free(4)]
    return disk_of(SMALL, frames, root=3, height=2, version=2)


def change_each_byte(programs: Programs, part: int) -> Outcome:
    disk, stores, count = small_store(), 0, 0
    places = [*range(64), *range(128, 256), *range(512, len(disk.rstrip(b"\0")) + 2)]
    with new_folder() as folder:
        path = Path(folder) / "disk"
        for at in places[part::PARTS]:
            for byte in {0, 1, 2, 3, 255, disk[at] ^ 1, disk[at] + 1 & 255} - {disk[at]}:
                changed = disk[:at] + bytes([byte]) + disk[at + 1 :]
                path.write_bytes(changed)
                ending = ending_of_read_all(changed)
                stores, count = stores + (ending[0] == 0), count + 1
                _, wrong = read_file([programs.store], path, changed, ending)
                if wrong:
                    return Outcome(f"byte {at} as {byte}: {wrong}")
    return Outcome(measured=f"{count} disks, {stores} of them stores")


def cases(programs: Programs) -> list[Case]:
    forged = [Case(disk.name, check_disk, (programs, number)) for number, disk in enumerate(DISKS)]
    damaged = [Case(f"damaged disks, part {part + 1} of {PARTS}", check_damaged, (programs, part)) for part in range(PARTS)]
    name = "a disk of version 2 with a byte changed"
    changed = [Case(f"{name}, part {part + 1} of {PARTS}", change_each_byte, (programs, part)) for part in range(PARTS)]
    frames = [Case("the frames of docs/FORMAT.md", check_writing), Case("frames of version 2 that are none", refuse_frames, (programs,))]
    climbed = [Case(f"a tree of {LEVELS} levels that is climbed, {workers} workers", climb, (programs, workers)) for workers in (1, 4)]
    return [*frames, *forged, *climbed, *damaged, *changed, Case("whole keys and shared ones, a megabyte of each", compare_times, (programs,))]
