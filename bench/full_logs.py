#!/usr/bin/env python3
"""Measures flushes before and after the log is full, and what it takes to find that a log is full of live data, by the length of the log. README.md
describes the measurements."""

import argparse
import random
import statistics
import sys
import tempfile
import time
from collections.abc import Sequence
from dataclasses import dataclass
from pathlib import Path

TOP = Path(__file__).resolve().parent.parent
sys.path[:0] = [str(TOP), str(TOP / "clients/python")]

from bench import plot
from bench.tables import print_table
from taukremil import Put, Refused, Store
from tools import drawing
from tools.processes import PROGRAM, exit_if_missing

SEGMENT = 1_048_576
VALUE = 1_000  # bytes
BATCH = 1_000  # puts, each followed by a flush
SETTINGS = {"fan": 16, "chain": 4, "max_key": 8, "max_value": VALUE, "seg_size": SEGMENT}
FIRST, LAST = 20, 40  # flushes measured in the new log, and at least in the full log
MOST = 50_000  # commands of a batch


@dataclass(frozen=True)
class Measured:
    segments: int
    first: float  # median seconds of a batch and its flush in the new log
    full: float  # mean seconds of a batch and its flush after the first segment was freed
    longest: float
    read: int  # bytes for each flush in the full log


def bytes_read(store: Store) -> int:
    """Returns the bytes that the running program has read."""
    lines = Path(f"/proc/{store.pid}/io").read_text().splitlines()
    return next(int(line.split()[1]) for line in lines if line.startswith("rchar"))


def time_batch(store: Store, chance: random.Random, pairs: int) -> float:
    batch = [Put(b"%07d" % chance.randrange(pairs), chance.randbytes(VALUE)) for _ in range(BATCH)]
    start = time.perf_counter()
    store.batch(batch)
    store.flush()
    return time.perf_counter() - start


def measure(program: Path, segments: int, pairs: int, folder: Path) -> Measured:
    chance = random.Random(1)
    path = folder / f"{segments}.store"
    with Store(path, create=True, program=program, segments=segments, **SETTINGS) as store:
        store.load((b"%07d" % key, chance.randbytes(VALUE)) for key in range(pairs))
        store.flush()
        new = [time_batch(store, chance, pairs) for _ in range(FIRST)]
        while store.stat().head == 0:  # no segment was freed yet
            time_batch(store, chance, pairs)
        laps = max(LAST, segments // 2)
        before = bytes_read(store)
        full = [time_batch(store, chance, pairs) for _ in range(laps)]
        read = (bytes_read(store) - before) // laps
    path.unlink()
    return Measured(segments, statistics.median(new), statistics.mean(full), max(full), read)


FULL = 10  # the fault


def loaded(store: Store, first: int, count: int) -> bool:
    """Puts `count` pairs from the number `first` on, and flushes. Returns whether the log had room."""
    chance = random.Random(first)
    store.load((b"%07d" % key, chance.randbytes(VALUE)) for key in range(first, first + count))
    try:
        store.flush()
    except Refused as refused:
        if refused.number != FULL:
            raise
        store.reopen()
        return False
    return True


def measure_refusal(program: Path, segments: int, folder: Path) -> tuple[int, float]:
    """Fills a log with pairs, puts a new value into every page, and flushes. Returns the pairs, and the seconds until the flush is refused."""
    path, count = folder / f"live-{segments}.store", 32 * segments
    with Store(path, create=True, program=program, segments=segments, **SETTINGS) as store:
        pairs = 0
        while loaded(store, pairs, count):
            pairs += count
        keys = range(0, pairs, SETTINGS["fan"] // 2)
        for first in range(0, len(keys), MOST):
            store.batch([Put(b"%07d" % key, bytes(VALUE)) for key in keys[first : first + MOST]])
        start = time.perf_counter()
        try:
            store.flush()
        except Refused as refused:
            if refused.number != FULL:
                raise
            seconds = time.perf_counter() - start
        else:
            raise ValueError(f"{segments} segments had room")
        store.reopen()
    path.unlink()
    return pairs, seconds


def row(pairs: int, measured: Measured) -> list[str]:
    times = measured.segments * SEGMENT / (pairs * (VALUE + 7))
    figures = [measured.first * 1_000, measured.full * 1_000, measured.longest * 1_000, measured.read / SEGMENT]
    return [f"{measured.segments} MiB, {times:.1f} times", *(f"{figure:.1f}" for figure in figures), f"{measured.first / measured.full:.2f}"]


HEAD = ["log", "new: ms a batch", "full: ms a batch", "longest ms", "MiB read a batch", "rate kept"]
REFUSAL_HEAD = ["log full of live data", "pairs", "s until a flush is refused"]


def measure_all(program: Path, lengths: Sequence[int], pairs: int, folder: Path) -> list[Measured]:
    found = []
    for segments in lengths:
        print(f"{program.name}: {segments} MiB of log", file=sys.stderr, flush=True)
        found.append(measure(program, segments, pairs, folder))
    return found


def measure_refusals(program: Path, lengths: Sequence[int], folder: Path) -> list[list[str]]:
    found = []
    for segments in lengths:
        print(f"{program.name}: {segments} MiB of live data", file=sys.stderr, flush=True)
        pairs, seconds = measure_refusal(program, segments, folder)
        found.append([f"{segments} MiB", f"{pairs:,}", f"{seconds:.2f}"])
    return found


def main() -> None:
    parser = argparse.ArgumentParser(description=__doc__)
    parser.add_argument("--program", type=Path, action="append", help="a program to measure; may be repeated, to compare versions")
    parser.add_argument("--pairs", type=int, default=10_000)
    parser.add_argument("--segments", type=int, nargs="*", default=[20, 32, 64, 160, 512], metavar="MIB")
    parser.add_argument("--live", type=int, nargs="*", default=[11, 64, 256], metavar="MIB", help="logs that are filled with live data")
    parser.add_argument("--svg", type=Path, help="draw the batches in full logs into this file")
    parser.add_argument("--names", nargs="*", help="what the figure calls the programs; default: their files' names")
    options = parser.parse_args()
    if options.svg:
        drawing.exit_if_missing()
    curves = {}
    programs = options.program or [PROGRAM]
    for program, shown in zip(programs, options.names or [program.name for program in programs], strict=True):
        exit_if_missing(program)
        with tempfile.TemporaryDirectory() as folder:
            found = measure_all(program.resolve(), options.segments, options.pairs, Path(folder)) if options.segments else []
            refusals = measure_refusals(program.resolve(), options.live, Path(folder))
        if found:
            print_table(HEAD, (row(options.pairs, measured) for measured in found))
        if refusals:
            print_table(REFUSAL_HEAD, refusals)
        curves[shown] = [(measured.segments, measured.full * 1_000) for measured in found]
    if options.svg:
        plot.full_logs(curves, options.svg)


if __name__ == "__main__":
    main()
