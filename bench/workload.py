"""The keys, values and commands of the measurements, and their batch files."""

import base64
import bisect
import itertools
import random
import sys
from collections.abc import Callable, Iterable, Iterator, Sequence
from dataclasses import dataclass
from pathlib import Path
from typing import TextIO

from tools.model import LONGEST_BATCH

LONG = LONGEST_BATCH  # commands
KEY, VALUE = 16, 100  # bytes
LOAD, HALF = "load", "half gets, half puts"  # memory is measured after these phases


@dataclass(frozen=True)
class Phase:
    name: str
    count: int
    batch: int
    commands: Callable[[], Iterable[str]]
    printed: Callable[[], Sequence[int]] | None = None  # the number of lines in each command's reply, if it is not one

    def batches(self) -> list[int]:
        full, rest = divmod(self.count, self.batch)
        return [self.batch] * full + [rest] * (rest > 0)

    def lines(self) -> list[int]:
        if self.printed is None:
            return self.batches()
        printed = iter(self.printed())
        return [sum(itertools.islice(printed, length)) for length in self.batches()]

    def write(self, file: TextIO) -> None:
        commands = iter(self.commands())
        for length in self.batches():
            file.write("\n".join(itertools.islice(commands, length)) + "\ngo\n")


class Workload:
    """The keys and values, in the orders of the phases. Lengths are in bytes."""

    def __init__(self, pairs: int, key_bytes: int = KEY, value_bytes: int = VALUE) -> None:
        self.random = random.Random(1)
        self.value_bytes, self.raw = value_bytes, key_bytes + value_bytes
        self.keys = [self.key(key_bytes) for _ in range(pairs)]
        if len(set(self.keys)) < pairs:
            sys.exit(f"{pairs:,} keys of {key_bytes} bytes are not all different")
        self.shuffled = self.random.sample(self.keys, pairs)
        self.letters = "".join(self.random.choices("abcdefghijklmnopqrstuvwxyz0123456789", k=100_000))

    def key(self, length: int) -> str:
        """Returns a random key: hexadecimal digits, or, if it is short, characters of six random bits, so that a million keys differ."""
        if length < KEY:
            return base64.urlsafe_b64encode(self.random.randbytes(length)).decode()[:length]
        return self.random.randbytes((length + 1) // 2).hex()[:length]

    def value(self, at: int) -> str:
        start = at * 7_919 % (len(self.letters) - self.value_bytes)
        return self.letters[start : start + self.value_bytes]

    def puts(self, keys: Iterable[str], salt: int = 0) -> Iterator[str]:
        return (f"put {key} {self.value(at + salt)}" for at, key in enumerate(keys))

    def half(self, keys: Iterable[str], salt: int) -> Iterator[str]:
        for at, key in enumerate(keys):
            yield f"put {key} {self.value(at + salt)}" if at % 2 else f"get {key}"

    def ranges(self, keys: Iterable[str], rows: int) -> Iterator[tuple[str, str, int]]:
        """Yields a range of `rows` rows from each key: the key, the upper bound (`*` at the end), and the number of rows."""
        rising = sorted(self.keys)
        for key in keys:
            start = bisect.bisect_left(rising, key)
            upper = rising[start + rows : start + rows + 1] or ["*"]
            yield key, upper[0], min(rows, len(rising) - start)

    def scans(self, keys: Iterable[str], rows: int) -> Iterator[str]:
        return (f"scan {lo} {hi} {rows}" for lo, hi, _ in self.ranges(keys, rows))

    def open_scans(self, keys: Iterable[str], rows: int) -> Iterator[str]:
        return (f"scan {key} * {rows}" for key in keys)

    def lines_of_scans(self, keys: Iterable[str], rows: int) -> list[int]:
        return [1 + count for _, _, count in self.ranges(keys, rows)]

    def zipf(self) -> list[str]:
        """Returns keys with Zipf's distribution: the key of rank r has a weight proportional to 1/r."""
        weights = itertools.accumulate(1 / rank for rank in range(1, len(self.keys) + 1))
        return self.random.choices(self.keys, cum_weights=list(weights), k=len(self.keys))


def gets(keys: Iterable[str]) -> Iterator[str]:
    return (f"get {key}" for key in keys)


def dels(keys: Iterable[str]) -> Iterator[str]:
    return (f"del {key}" for key in keys)


def write_phases(path: Path, phases: Iterable[Phase]) -> None:
    """Writes a batch file. The reply to its first batch, of one command, shows that the program has read the input."""
    with open(path, "w") as file:
        file.write("get 0\ngo\n")
        for phase in phases:
            phase.write(file)
