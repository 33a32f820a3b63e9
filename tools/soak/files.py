"""Tracks what a crash may leave of a store's file."""

import random
import struct
from collections import Counter
from collections.abc import Callable, Sequence
from dataclasses import dataclass, replace
from pathlib import Path

from tools.answers import Ending, answer_to_read_all
from tools.failures import DEVICE
from tools.log.reading import BadStore, read_settings, read_store
from tools.log.writing import BEGIN, Settings
from tools.model import StoreState

FIRST_WRITE = 545  # bytes of a new store's first write


@dataclass(frozen=True)
class FileContent:
    state: StoreState | None = None
    ending: Ending = (4, b"", DEVICE)  # of a session of READ_ALL
    is_long: bool = False  # whether the log has several segments


def read_content(disk: bytes) -> FileContent:
    try:
        store = read_store(disk)
    except BadStore as fault:
        return FileContent(ending=(4, b"", f"{fault}\n".encode()))
    slot, last = store.slot, (store.slot.tail - 1) // read_settings(disk).seg_size
    state = StoreState(dict(store.pairs), slot.sequence, slot.head, slot.version)
    return FileContent(state, (0, answer_to_read_all(store.pairs, store.pages, store.height), b""), last > slot.head)


def tear(chance: random.Random, before: bytes, written: bytes, kind: int) -> bytes:
    """Any bytes are possible after a crash; seven kinds are drawn."""
    cut, byte = chance.randint(0, len(written)), chance.choice([0, 1, 255, chance.randrange(256)])
    mixed = b"".join(chance.choice([before, written])[at : at + 512] for at in range(0, len(written), 512))
    whole = [before, written, bytes([byte]) * len(written), chance.randbytes(len(written)), mixed]
    return [*whole, written[:cut] + before[cut:], before[:cut] + written[cut:]][kind]


class CrashingFile:
    def __init__(self, path: Path) -> None:
        self.path, self.synced = path, b""
        self.pending: list[tuple[int, bytes]] = []  # writes since the last sync

    def content(self) -> FileContent:
        return read_content(self.path.read_bytes()) if self.path.exists() else FileContent()

    def read(self) -> bytes:
        return self.path.read_bytes() if self.path.exists() else b""

    def begin(self) -> bytes:
        """Reads the bytes of the pending writes again from the file, since the writes may have failed or been cut off."""
        now = self.read()
        self.pending = [(place, now[place : place + len(written)]) for place, written in self.pending]
        return now

    def follow(self, record: bytes, has_syncs: bool) -> Counter[str]:
        """Applies the record of `c/soak.c`, and counts its letters."""
        at, letters = 0, Counter[str]()
        while at < len(record):
            letter, at = chr(record[at]), at + 1
            letters[letter] += 1
            if letter == "W":
                place, length = struct.unpack_from("<2q", record, at)
                self.pending.append((place, record[at + 16 : at + 16 + length]))
                at += 16 + length
            elif letter == "T":
                (length,) = struct.unpack_from("<q", record, at)
                self.synced, at = self.synced[:length].ljust(length, b"\0"), at + 8
                self.pending = [(place, written) for place, written in self.pending if place + len(written) <= length]
            elif letter == "S" and has_syncs:
                self.synced, self.pending = self.image(lambda _, written: written), []
        return letters

    def image(self, remaining: Callable[[bytes, bytes], bytes]) -> bytes:
        """Applies the pending writes, each as changed by `remaining`."""
        image = bytearray(self.synced)
        for place, written in self.pending:
            image[place : place + len(written)] = remaining(bytes(image[place : place + len(written)]), written)
        return bytes(image)

    def random_crash(self, chance: random.Random) -> bytes:
        kinds: Sequence[int] = [chance.randrange(7)] if chance.random() < 0.5 else range(7)
        return self.image(lambda before, written: tear(chance, before, written, chance.choice(kinds)))

    def crash(self, chance: random.Random) -> None:
        self.synced, self.pending = self.random_crash(chance), []
        self.path.write_bytes(self.synced)


def widen(disk: bytes) -> tuple[bytes, Settings]:
    """Also returns the old settings."""
    settings, slot = read_settings(disk), read_store(disk).slot
    wide = replace(settings, segments=4 * settings.segments + 100)
    image = bytearray(wide.disk_length())
    image[:BEGIN] = wide.block() + disk[64:BEGIN]
    for number in range(slot.head, (slot.tail - 1) // settings.seg_size + 1):
        place, new = settings.place(number), wide.place(number)
        image[new : new + settings.seg_size] = disk[place : place + settings.seg_size]
    return bytes(image), settings


def is_left_by_create(before: bytes, after: bytes, length: int) -> bool:
    """The comment of `FileDisk::of_zeros` lists what a failed `--create` may leave."""
    is_longer = after.startswith(before) and not any(after[len(before) :])
    return is_longer or after == b"" or len(after) == length and not any(after[FIRST_WRITE:])
