"""Encodes a store's file by docs/FORMAT.md."""

import struct
from collections.abc import Iterable
from dataclasses import dataclass, replace
from os.path import commonprefix

BEGIN = 512  # of the segments
HEADER = 16
MOST = 2**62  # of positions and sequence numbers


@dataclass(frozen=True)
class Settings:
    """The defaults are those of `bwsh`."""

    fan: int = 16
    chain: int = 4
    max_key: int = 64
    max_value: int = 256
    seg_size: int = 65_536
    segments: int = 64

    def block(self) -> bytes:
        numbers = (self.fan, self.chain, self.max_key, self.max_value, self.seg_size, self.segments)
        return struct.pack(">8s4H2I40x", b"BWBATCH1", *numbers)

    def disk_length(self) -> int:
        return BEGIN + self.segments * self.seg_size

    def place(self, segment: int) -> int:
        return BEGIN + segment % self.segments * self.seg_size


@dataclass(frozen=True)
class Slot:
    """`head` is the log's first segment, and `tail` its end. `version` is 0 for version 1."""

    sequence: int
    head: int
    tail: int
    root: int
    height: int
    version: int = 0

    def bytes(self, gate: int = 1) -> bytes:
        return struct.pack(">B7x4Q2I16x", gate, self.sequence, self.head, self.tail, self.root, self.height, self.version)

    def place(self) -> int:
        return 128 + 64 * (self.sequence % 2)


def counted(text: bytes) -> bytes:
    return struct.pack(">H", len(text)) + text


def frame(kind: int, pid: int, content: bytes = b"") -> bytes:
    return struct.pack(">BIQ", kind, 8 + len(content), pid) + content


def page_cell(pid: int) -> bytes:
    return struct.pack(">Q", pid)


def full(kind: int, pid: int, low: bytes, cells: list[tuple[bytes, bytes]]) -> bytes:
    entries = b"".join(counted(key) + cell for key, cell in cells)
    return frame(kind, pid, counted(low) + struct.pack(">H", len(cells)) + entries)


def common_length(key: bytes, before: bytes) -> int:
    return len(commonprefix([key, before]))


def shared_key(key: bytes, before: bytes) -> bytes:
    shared = common_length(key, before)
    return struct.pack(">BB", shared, len(key) - shared) + key[shared:]


def shared(kind: int, pid: int, low: bytes, cells: list[tuple[bytes, bytes]]) -> bytes:
    before = [low, *[key for key, _ in cells]]
    entries = b"".join(shared_key(key, last) + cell for (key, cell), last in zip(cells, before))
    return frame(kind, pid, counted(low) + struct.pack(">H", len(cells)) + entries)


def delta(kind: int, pid: int, cells: list[tuple[bytes, bytes | None]]) -> bytes:
    changes = b"".join(counted(key) + (b"\0" if cell is None else b"\1" + cell) for key, cell in cells)
    return frame(kind, pid, struct.pack(">H", len(cells)) + changes)


def full_leaf(pid: int, low: bytes, pairs: dict[bytes, bytes]) -> bytes:
    return full(1, pid, low, [(key, counted(pairs[key])) for key in sorted(pairs)])


def delta_leaf(pid: int, changes: dict[bytes, bytes | None]) -> bytes:
    return delta(2, pid, [(key, None if value is None else counted(value)) for key, value in sorted(changes.items())])


def full_index(pid: int, low: bytes, children: dict[bytes, int]) -> bytes:
    return full(3, pid, low, [(key, page_cell(children[key])) for key in sorted(children)])


def shared_leaf(pid: int, low: bytes, pairs: dict[bytes, bytes]) -> bytes:
    return shared(6, pid, low, [(key, counted(pairs[key])) for key in sorted(pairs)])


def shared_index(pid: int, low: bytes, children: dict[bytes, int]) -> bytes:
    return shared(7, pid, low, [(key, page_cell(children[key])) for key in sorted(children)])


def delta_index(pid: int, changes: dict[bytes, int | None]) -> bytes:
    return delta(4, pid, [(key, None if child is None else page_cell(child)) for key, child in sorted(changes.items())])


def free(pid: int) -> bytes:
    return frame(5, pid)


def header(segment: int) -> bytes:
    return struct.pack(">4s4xQ", b"BWSG", segment)


def segments_of(settings: Settings, frames: Iterable[bytes]) -> list[bytes]:
    """Segments end after their last frame."""
    segments = [bytearray(header(0))]
    for each in frames:
        if len(segments[-1]) + len(each) > settings.seg_size:
            segments.append(bytearray(header(len(segments))))
        segments[-1] += each
    return [bytes(segment) for segment in segments]


def disk_with(settings: Settings, slots: Iterable[Slot], segments: Iterable[bytes]) -> bytes:
    disk = bytearray(settings.disk_length())
    disk[:64] = settings.block()
    for slot in slots:
        disk[slot.place() : slot.place() + 64] = slot.bytes()
    for number, segment in enumerate(segments):
        disk[settings.place(number) : settings.place(number) + len(segment)] = segment
    return bytes(disk)


def disk_of(settings: Settings, frames: Iterable[bytes], root: int = 0, height: int = 1, version: int = 0) -> bytes:
    """Returns a file with one commit."""
    segments = segments_of(settings, frames)
    tail = (len(segments) - 1) * settings.seg_size + len(segments[-1])
    return disk_with(settings, [Slot(1, 0, tail, root, height, version)], segments)


def fitting_disk(frames: list[bytes], root: int = 0, height: int = 1, version: int = 0, settings: Settings = Settings()) -> bytes:
    """Leaves two segments free, for a flush and a clean."""
    used = len(segments_of(settings, frames))
    return disk_of(replace(settings, segments=used + 2), frames, root, height, version)


def append(settings: Settings, disk: bytes, slot: Slot, frames: Iterable[bytes], version: int) -> bytes:
    """Commits frames at the log's end. At least one segment must remain free."""
    now, at = bytearray(disk), slot.tail
    for each in frames:
        segment, offset = at // settings.seg_size, at % settings.seg_size
        if offset and offset + len(each) > settings.seg_size:
            now[settings.place(segment) + offset : settings.place(segment) + settings.seg_size] = bytes(settings.seg_size - offset)
            segment, offset = segment + 1, 0
        written = each if offset else header(segment) + each
        now[settings.place(segment) + offset : settings.place(segment) + offset + len(written)] = written
        at = segment * settings.seg_size + offset + len(written)
    after = replace(slot, sequence=slot.sequence + 1, tail=at, version=version)
    now[after.place() : after.place() + 64] = after.bytes()
    return bytes(now)
