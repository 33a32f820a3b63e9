"""The header of a store's file, which docs/FORMAT.md defines."""

from __future__ import annotations

import struct
from dataclasses import dataclass, fields
from pathlib import Path

SIZE = 256  # bytes
BLOCK = struct.Struct(">8sHHHHII")  # the settings block: a fixed word and the settings
WORD = b"BWBATCH1"
STORE_BYTE = WORD[:1]  # of a new store it is written last
SLOT = struct.Struct(">B7xQQQ")  # gate, sequence number, head, tail
SLOTS_AT = (128, 192)


@dataclass(frozen=True, slots=True)
class Settings:
    """Holds the settings of a store, which were given at its creation."""

    fan: int
    chain: int
    max_key: int
    max_value: int
    seg_size: int
    segments: int


SETTINGS = tuple(field.name for field in fields(Settings))
LEAST = Settings(4, 1, 1, 0, 256, 3)
LARGEST = Settings(64, 16, 255, 1_024, 1_048_576, 65_536)


@dataclass(frozen=True, slots=True)
class Stat:
    """Describes the log of a store.

    `sequence` is the sequence number of the last flush, clean or upgrade. `head` is the number of the first segment,
    and `tail` the position in bytes where the log ends. `in_use` of the `segments` segments are in use; a flush leaves
    one free.
    """

    sequence: int
    head: int
    tail: int
    in_use: int
    segments: int


def _read(path: Path) -> bytes:
    with open(path, "rb") as file:
        return file.read(SIZE)


def read_settings(path: Path) -> Settings:
    """Returns the settings of the store in the file `path`, or the largest settings if it holds none."""
    try:
        word, *numbers = BLOCK.unpack_from(_read(path))
    except (OSError, struct.error):
        return LARGEST
    return Settings(*numbers) if word == WORD else LARGEST


def first_byte(path: Path) -> bytes:
    """Returns the first byte of the file `path`, or no byte if the file is missing, empty or unreadable."""
    try:
        return _read(path)[:1] if path.is_file() else b""
    except OSError:
        return b""


def read_stat(path: Path) -> Stat:
    """Returns the state of the log in the file `path`, which must not be written meanwhile."""
    front = _read(path)
    *_, seg_size, segments = BLOCK.unpack_from(front)
    slots = [SLOT.unpack_from(front, at) for at in SLOTS_AT]
    sequence, head, tail = max(numbers for gate, *numbers in slots if gate == 1)
    return Stat(sequence, head, tail, (tail - 1) // seg_size - head + 1, segments)
