"""Kills sessions, and compares the recovered pairs with the answers."""

import random
import subprocess
import sys
from collections import Counter
from collections.abc import Iterable, Iterator, Sequence
from dataclasses import dataclass
from itertools import zip_longest
from pathlib import Path

from tools.answers import token
from tools.model import OrderedMap
from tools.processes import run_until

# Leaves often split and merge, and every few flushes start a segment.
SETTINGS = "--fan 8 --chain 4 --max-key 16 --max-value 64 --seg-size 1024 --segments 65536".split()
KEYS = 300
MOST = 50_000  # flushes of a store, whose log has room for one more run
READ_BACK = b"scan % * 4294967295\nverify\nflush\n"  # the empty flush prints the last number

Lines = list[bytes]


def changes(number: int) -> dict[bytes, bytes | None]:
    """None deletes a key. The first change is a put, so that each flush writes."""
    keys = [b"k%d" % ((number * 37 + at * 11) % KEYS) for at in range(1 + number % 5)]
    value = b"%d" % number + b"." * (number % 40)
    return {key: value if at == 0 or number // 100 % 2 == 0 else None for at, key in enumerate(keys)}


def wiped_range(number: int) -> tuple[bytes, bytes | None] | None:
    first = number * 7 % KEYS
    if number % 10 != 9:
        return None
    return b"k%d" % first, None if number % 100 == 49 else b"k%d" % (first + 20)


def batch_lines(number: int) -> Iterator[bytes]:
    bounds = wiped_range(number)
    if bounds:
        yield b"wipe %s %s\n" % (bounds[0], bounds[1] or b"*")
    for key, value in changes(number).items():
        yield b"del %s\n" % key if value is None else b"put %s %s\n" % (key, value)


def batch_file(numbers: Iterable[int]) -> bytes:
    return b"".join(b"".join([*batch_lines(number), b"flush\n"]) for number in numbers)


def play(pairs: OrderedMap, number: int) -> Lines:
    """A new store has sequence number 1."""
    bounds = wiped_range(number)
    lines = pairs.wipe(*bounds) if bounds else []
    for key, value in changes(number).items():
        lines += pairs.delete(key) if value is None else pairs.put(key, value)
    return [*lines, b"flushed %d" % (number + 1)]


def map_after(number: int) -> OrderedMap:
    pairs = OrderedMap()
    for each in range(1, number + 1):
        play(pairs, each)
    return pairs


def answers(first: int, last: int) -> Lines:
    pairs = map_after(first - 1)
    return [line for number in range(first, last + 1) for line in play(pairs, number)]


def read_back_after(number: int) -> Lines:
    """Of the report only the number of pairs is compared."""
    pairs = map_after(number).pairs
    rows = [token(key) + b" " + token(pairs[key]) for key in sorted(pairs)]
    return [b"rows %d" % len(rows), *rows, b"ok %d" % len(rows), b"flushed %d" % (number + 1)]


def whole_lines(output: bytes) -> Lines:
    return output.split(b"\n")[:-1]


def count_flushes(output: bytes) -> int:
    return sum(line.startswith(b"flushed") for line in whole_lines(output))


def first_difference(lines: Lines, expected: Lines) -> str:
    at, (line, right) = next((at, pair) for at, pair in enumerate(zip_longest(lines, expected), 1) if pair[0] != pair[1])
    return f"{line!r}, where {right!r} was expected, on line {at} of {len(lines)}"


@dataclass
class KilledStore:
    program: Sequence[Path]
    path: Path
    done: int = 0
    kills: int = 0

    def create(self) -> "KilledStore":
        made = subprocess.run([*self.program, "--disk", self.path, "--create", *SETTINGS], stdin=subprocess.DEVNULL)
        if made.returncode:
            sys.exit(f"{self.path} was not made: status {made.returncode}")
        return self

    def run(self, batches: int, folder: Path, delay: float | None = None) -> tuple[int, bytes, float]:
        """Kills the session `delay` seconds after its first output. Returns status, output and seconds."""
        text, out = folder / "batches", folder / "out"
        text.write_bytes(batch_file(range(self.done + 1, self.done + batches + 1)))
        status, seconds = run_until([*self.program, "--disk", self.path], text, out, delay=delay)
        return status, out.read_bytes(), seconds

    def read_back(self) -> Lines:
        ended = subprocess.run([*self.program, "--disk", self.path], input=READ_BACK, capture_output=True)
        if ended.returncode:
            return [b"status %d: %s" % (ended.returncode, ended.stderr.strip())]
        words = [line.split() for line in ended.stdout.splitlines()]
        return [b" ".join([line[0], line[-1]]) if line[:1] == [b"ok"] else b" ".join(line) for line in words]

    def check(self, batches: int, output: bytes) -> str | None:
        """Returns an error, or sets `done` to the last recovered batch."""
        expected = answers(self.done + 1, self.done + batches)
        lines = whole_lines(output)
        if lines != expected[: len(lines)]:
            return f"the output has {first_difference(lines, expected)}"
        last = self.done + count_flushes(output)
        recovered = self.read_back()
        for self.done in range(last, min(last + 1, self.done + batches) + 1):
            if recovered == read_back_after(self.done):
                return None
        return f"after {last} flushes the file has {first_difference(recovered, read_back_after(last))}"


def time_whole_run(program: Sequence[Path], batches: int, folder: Path) -> float:
    store = KilledStore(program, folder / "whole").create()
    status, output, seconds = store.run(batches, folder)
    wrong = store.check(batches, output) if status == 0 else f"status {status}"
    if wrong or store.done < batches:
        sys.exit(f"without a kill: {wrong or f'{store.done} of {batches} batches were done'}")
    return seconds


@dataclass(frozen=True)
class KillOptions:
    kills: int = 20
    lives: int = 4  # kills of one store
    batches: int = 1_000  # of a session
    seed: int = 1


def kill_often(program: Sequence[Path], options: KillOptions, folder: Path) -> tuple[list[str], Counter[int]]:
    """Returns the errors, and counts by how many flushes recovery was ahead of the last reported one."""
    chance = random.Random(options.seed)
    whole = time_whole_run(program, options.batches, folder)
    print(f"{options.batches} batches take {whole:.2f} s", file=sys.stderr)
    wrongs: list[str] = []
    further: Counter[int] = Counter()
    store, kill = None, 0
    while kill < options.kills:
        if store is None or store.kills == options.lives or store.done > MOST:
            store = KilledStore(program, folder / f"store{kill + 1}").create()
        before, delay = store.done, whole * chance.random()
        status, output, _ = store.run(options.batches, folder, delay)
        wrong = store.check(options.batches, output) if status in (0, -9) else f"status {status}"
        if status == 0 and wrong is None:
            whole *= 0.8  # the session ended before its kill
            continue
        kill += 1
        store.kills += 1
        flushes = count_flushes(output)
        found = wrong or f"{flushes} flushes reported, {store.done - before} recovered"
        print(f"kill {kill} after {delay:.3f} s, {store.path.name} with {before} flushes before: {found}", file=sys.stderr)
        if wrong:
            wrongs.append(f"kill {kill}, {store.path.name}: {wrong}")
            store = None
        else:
            further[store.done - before - flushes] += 1
    return wrongs, further
