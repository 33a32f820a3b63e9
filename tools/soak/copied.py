"""The file of a copy, by docs/RULES.md and docs/FORMAT.md."""

from collections.abc import Sequence
from typing import TypeVar

from tools.log.writing import HEADER, Settings, Slot, append, delta_leaf, disk_of, full_index, full_leaf, segments_of

EMPTY_LEAF = full_leaf(0, b"", {})
MOST_PUTS = 4_096  # in a batch; a copy of more pairs takes several batches
Entry = TypeVar("Entry")


def pieces(fan: int, entries: Sequence[Entry]) -> list[Sequence[Entry]]:
    """Splits entries into the fewest pages of nearly the same length."""
    count = -(-len(entries) // fan)
    return [entries[at * len(entries) // count : (at + 1) * len(entries) // count] for at in range(count)]


def frames_of_copy(fan: int, pairs: dict[bytes, bytes]) -> tuple[list[bytes], int, int]:
    """Returns the frames that the copy's only flush writes, the root's page id and the height. The first page is that of the new store."""
    if len(pairs) > MOST_PUTS:
        raise ValueError(f"a copy of {len(pairs)} pairs takes several batches")
    if len(pairs) <= fan:
        return [delta_leaf(0, dict(pairs))] if pairs else [], 0, 1
    frames: list[bytes] = []
    level: list[tuple[bytes, int]] = []  # low keys and page ids
    for piece in pieces(fan, sorted(pairs)):
        low = piece[0] if level else b""
        level.append((low, len(frames)))
        frames.append(full_leaf(len(frames), low, {key: pairs[key] for key in piece}))
    height = 1
    while len(level) > 1:
        parents = []
        for children in pieces(fan, level):
            parents.append((children[0][0], len(frames)))
            frames.append(full_index(len(frames), children[0][0], dict(children)))
        level, height = parents, height + 1
    return frames, level[0][1], height


def segments_for_copy(settings: Settings, pairs: dict[bytes, bytes]) -> int:
    """Returns the fewest segments of a log that holds the copy. A flush leaves one free."""
    frames, _, _ = frames_of_copy(settings.fan, pairs)
    return max(3, len(segments_of(settings, [EMPTY_LEAF, *frames])) + 1)


def file_of_copy(settings: Settings, pairs: dict[bytes, bytes]) -> bytes:
    """Returns the file of a copy of at most 4,096 pairs, whose log must have room."""
    frames, root, height = frames_of_copy(settings.fan, pairs)
    new = disk_of(settings, [EMPTY_LEAF])
    if not frames:
        return new
    return append(settings, new, Slot(1, 0, HEADER + len(EMPTY_LEAF), root, height), frames, 0)
