"""Decodes a store's file by docs/RULES.md and docs/FORMAT.md."""

import struct
from dataclasses import dataclass
from typing import cast

from tools.log.writing import HEADER, MOST, Settings, Slot, common_length, header

LEAVES = (1, 2, 6)
FULL = (1, 3, 6, 7)
SHARED = (6, 7)
RUNS = {1: 2, 6: 2, 3: 4, 7: 4, 5: None}  # kind of a page's runs, by that of its first frame
DELTAS = (2, 4)
FREE = 5
KINDS = {0: range(1, 6), 2: range(1, 8)}  # of frames, by log version
LIMITS = ((4, 64), (1, 16), (1, 255), (0, 1024), (256, 1_048_576), (3, 65_536))  # of the settings
Cell = bytes | int | None  # a value, a page id, or None if deleted


class BadStore(Exception):
    """The file's fault, as the program prints it."""


@dataclass(frozen=True)
class Frame:
    kind: int
    pid: int
    low: bytes
    cells: list[tuple[bytes, Cell]]


@dataclass
class LoggedPage:
    base: Frame
    runs: list[Frame]  # oldest first

    def is_leaf(self) -> bool:
        return self.base.kind in LEAVES

    def pairs(self) -> list[tuple[bytes, bytes]]:
        return cast(list[tuple[bytes, bytes]], self.entries())

    def children(self) -> list[tuple[bytes, int]]:
        return cast(list[tuple[bytes, int]], self.entries())

    def entries(self) -> list[tuple[bytes, bytes | int]]:
        found = dict(self.base.cells)
        for run in self.runs:
            found |= dict(run.cells)
        return sorted((key, cell) for key, cell in found.items() if cell is not None)


@dataclass
class StoredState:
    pairs: list[tuple[bytes, bytes]]
    pages: int
    height: int
    slot: Slot


class NoFrame(Exception):
    """The bytes are no frame."""


class FrameReader:
    def __init__(self, text: bytes, at: int, end: int) -> None:
        self.text, self.at, self.end = text, at, end

    def take(self, length: int) -> bytes:
        if self.end - self.at < length:
            raise NoFrame
        self.at += length
        return self.text[self.at - length : self.at]

    def number(self, length: int) -> int:
        return int.from_bytes(self.take(length), "big")

    def counted(self, most: int) -> bytes:
        length = self.number(2)
        if length > most:
            raise NoFrame
        return self.take(length)


def read_settings(disk: bytes) -> Settings:
    if len(disk) < 64:
        raise BadStore("fault 12 NotAStore")
    numbers = struct.unpack_from(">4H2I", disk, 8)
    settings = Settings(*numbers)
    fields = zip(numbers, LIMITS)
    widest = 3 + settings.max_key + max(2 + settings.max_value, 8)
    has_room = 16 + 17 + settings.max_key + settings.fan * widest <= settings.seg_size
    is_in_range = all(low <= number <= high for number, (low, high) in fields) and has_room
    if disk[:64] != settings.block() or not is_in_range or len(disk) < settings.disk_length():
        raise BadStore("fault 12 NotAStore")
    return settings


def read_slot_at(disk: bytes, number: int, settings: Settings) -> Slot | None:
    """Returns None if the slot's gate is shut."""
    text = disk[128 + 64 * number : 192 + 64 * number]
    if text[0] != 1:
        return None
    slot = Slot(*struct.unpack_from(">4Q2I", text, 8))
    offset = slot.tail % settings.seg_size
    tests = [
        slot.bytes() == text,
        1 <= slot.sequence <= MOST and slot.sequence % 2 == number,
        slot.head * settings.seg_size + HEADER < slot.tail <= MOST,
        offset == 0 or offset > HEADER,
        (slot.tail - 1) // settings.seg_size < slot.head + settings.segments,
        1 <= slot.height <= 64,
        slot.version in KINDS,
    ]
    if not all(tests):
        raise BadStore("fault 13 NoSlot")
    return slot


def read_slot(disk: bytes, settings: Settings) -> Slot:
    found = [slot for slot in (read_slot_at(disk, number, settings) for number in (0, 1)) if slot]
    if not found:
        raise BadStore("fault 13 NoSlot")
    return max(found, key=lambda slot: slot.sequence)


def read_cell(reader: FrameReader, kind: int, settings: Settings) -> bytes | int:
    return reader.counted(settings.max_value) if kind in LEAVES else reader.number(8)


def read_key(reader: FrameReader, kind: int, before: bytes, settings: Settings) -> bytes:
    """A prefix-compressed key must share as much as possible with the key before it."""
    if kind not in SHARED:
        return reader.counted(settings.max_key)
    shared, length = reader.number(1), reader.number(1)
    key = before[:shared] + reader.take(length)
    if common_length(key, before) != shared or len(key) > settings.max_key:
        raise NoFrame
    return key


def read_cells(reader: FrameReader, kind: int, low: bytes, settings: Settings) -> list[tuple[bytes, Cell]]:
    count = reader.number(2)
    if count > settings.fan or count == 0 and kind in DELTAS:
        raise NoFrame
    cells: list[tuple[bytes, Cell]] = []
    for _ in range(count):
        key = read_key(reader, kind, cells[-1][0] if cells else low, settings)
        flag = reader.number(1) if kind in DELTAS else 1
        if flag > 1 or cells and key <= cells[-1][0]:
            raise NoFrame
        cells.append((key, read_cell(reader, kind, settings) if flag else None))
    return cells


def read_frame(text: bytes, at: int, end: int, version: int, settings: Settings) -> tuple[Frame, int]:
    reader = FrameReader(text, at, end)
    kind, length = reader.number(1), reader.number(4)
    reader = FrameReader(text, reader.at, reader.at + length)
    if kind not in KINDS[version] or reader.end > end:
        raise NoFrame
    pid = reader.number(8)
    low = reader.counted(settings.max_key) if kind in FULL else b""
    cells = read_cells(reader, kind, low, settings) if kind != FREE else []
    if reader.at != reader.end:
        raise NoFrame
    return Frame(kind, pid, low, cells), reader.end


def read_frames(text: bytes, number: int, end: int, is_last: bool, version: int, settings: Settings) -> list[Frame]:
    if text[:HEADER] != header(number):
        raise BadStore(f"fault 14 BadSegment {number}")
    at, frames = HEADER, []
    while at < end:
        if text[at] == 0 and not is_last and not any(text[at:]):
            break
        try:
            found, at = read_frame(text, at, end, version, settings)
        except NoFrame:
            raise BadStore(f"fault 15 BadFrame {number} {at}") from None
        frames.append(found)
    return frames


def read_log(disk: bytes, slot: Slot, settings: Settings) -> list[Frame]:
    frames: list[Frame] = []
    last = (slot.tail - 1) // settings.seg_size
    for number in range(slot.head, last + 1):
        place = settings.place(number)
        end = slot.tail - last * settings.seg_size if number == last else settings.seg_size
        frames += read_frames(disk[place : place + settings.seg_size], number, end, number == last, slot.version, settings)
    return frames


def page_by_log(frames: list[Frame], pid: int) -> LoggedPage | None:
    starts = [at for at, each in enumerate(frames) if each.kind not in DELTAS]
    if not starts:
        return None
    first, *runs = frames[starts[-1] :]
    if any(run.kind != RUNS[first.kind] for run in runs):
        raise BadStore(f"fault 16 BadStructure 1 {pid}")
    return None if first.kind == FREE else LoggedPage(first, runs)


def pages_by_log(frames: list[Frame]) -> dict[int, LoggedPage]:
    by_pid: dict[int, list[Frame]] = {}
    for each in frames:
        by_pid.setdefault(each.pid, []).append(each)
    pages = {pid: page_by_log(by_pid[pid], pid) for pid in sorted(by_pid)}
    return {pid: page for pid, page in pages.items() if page}


@dataclass(frozen=True)
class PlaceInTree:
    pid: int
    low: bytes
    end: bytes | None

    def covers(self, key: bytes) -> bool:
        return self.low <= key and (self.end is None or key < self.end)

    def children(self, page: LoggedPage) -> list["PlaceInTree"]:
        children = page.children()
        ends = [*(key for key, _ in children[1:]), self.end]
        return [PlaceInTree(pid, key, end) for (key, pid), end in zip(children, ends)]


def rule_broken(place: PlaceInTree, page: LoggedPage | None, level: int, is_root: bool, before: set[int], settings: Settings) -> int | None:
    """Returns the lowest-numbered rule that is broken."""
    if page is None:
        return 2
    entries = page.entries()
    keys = [key for part in (page.base, *page.runs) for key, _ in part.cells]
    broken = {
        3: page.is_leaf() != (level == 1),
        4: page.base.low != place.low,
        5: not all(place.covers(key) for key in keys),
        7: len(page.runs) > settings.chain,
        8: not page.is_leaf() and (not entries or entries[0][0] != page.base.low or is_root and len(entries) < 2),
        9: place.pid in before,
    }
    return next((rule for rule, is_broken in broken.items() if is_broken), None)


def leaves_by_walk(pages: dict[int, LoggedPage], slot: Slot, settings: Settings) -> list[LoggedPage]:
    level, seen = [PlaceInTree(slot.root, b"", None)], set[int]()
    for height in range(slot.height, 0, -1):
        for place in level:
            rule = rule_broken(place, pages.get(place.pid), height, height == slot.height, seen, settings)
            if rule:
                raise BadStore(f"fault 16 BadStructure {rule} {place.pid}")
            seen.add(place.pid)
        if height > 1:
            level = [child for place in level for child in place.children(pages[place.pid])]
    lost = sorted(pages.keys() - seen)
    if lost:
        raise BadStore(f"fault 16 BadStructure 10 {lost[0]}")
    return [pages[place.pid] for place in level]


def read_store(disk: bytes) -> StoredState:
    settings = read_settings(disk)
    slot = read_slot(disk, settings)
    pages = pages_by_log(read_log(disk, slot, settings))
    leaves = leaves_by_walk(pages, slot, settings)
    pairs = [pair for leaf in leaves for pair in leaf.pairs()]
    return StoredState(pairs, len(pages), slot.height, slot)
