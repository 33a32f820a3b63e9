#!/usr/bin/env python3
"""Measures commands per second from Python: the client compared with sqlite3, LMDB and dbm.gnu. README.md describes the measurement."""

import argparse
import contextlib
import importlib
import json
import random
import sqlite3
import statistics
import sys
import tempfile
import time
from abc import ABC, abstractmethod
from collections.abc import Callable, Iterator, Sequence
from dataclasses import dataclass
from pathlib import Path

TOP = Path(__file__).resolve().parent.parent
sys.path[:0] = [str(TOP), str(TOP / "clients/python")]

from bench.tables import print_table
from taukremil import Get, Put, Reply, Store
from tools.processes import PROGRAM, exit_if_missing

BATCHES = (1, 100, 10_000)
PAIRS = 50_000
CALLS = 2_000  # at most this many batches, so that batches of one command end in time
SETTINGS = {"fan": 64, "chain": 16, "seg_size": 1_048_576, "segments": 256}
MAP_SIZE = 1 << 30  # size of LMDB's map in bytes
Pair = tuple[bytes, bytes]


class PythonStore(ABC):
    """A store in a new folder. With `each`, a batch is durable when its call returns; otherwise all batches are durable after `sync`."""

    @abstractmethod
    def put(self, batch: list[Pair]) -> None:
        ...

    @abstractmethod
    def get(self, batch: list[bytes]) -> Sequence[Reply]:
        ...

    @abstractmethod
    def sync(self) -> None:
        ...

    @abstractmethod
    def close(self) -> None:
        ...


class ClientStore(PythonStore):
    """`bwsh`, used through its client over two pipes."""

    def __init__(self, program: Path, folder: Path, each: bool) -> None:
        self.store, self.each = Store(folder / "store", create=True, program=program, **SETTINGS), each

    def put(self, batch: list[Pair]) -> None:
        self.store.batch([Put(key, value) for key, value in batch])
        if self.each:
            self.store.flush()

    def get(self, batch: list[bytes]) -> Sequence[Reply]:
        return self.store.batch([Get(key) for key in batch])

    def sync(self) -> None:
        self.store.flush()

    def close(self) -> None:
        self.store.close()


class SqliteStore(PythonStore):
    def __init__(self, folder: Path, each: bool) -> None:
        self.database = sqlite3.connect(folder / "pairs.db", isolation_level=None)
        self.database.execute("PRAGMA journal_mode = WAL")
        self.database.execute(f"PRAGMA synchronous = {'FULL' if each else 'NORMAL'}")  # NORMAL syncs only checkpoints
        self.database.execute("CREATE TABLE pairs (key BLOB PRIMARY KEY, value BLOB) WITHOUT ROWID")

    def put(self, batch: list[Pair]) -> None:
        self.database.execute("BEGIN")
        self.database.executemany("INSERT OR REPLACE INTO pairs VALUES (?, ?)", batch)
        self.database.execute("COMMIT")

    def get(self, batch: list[bytes]) -> Sequence[Reply]:
        ask = "SELECT value FROM pairs WHERE key = ?"
        self.database.execute("BEGIN")
        found = [self.database.execute(ask, (key,)).fetchone()[0] for key in batch]
        self.database.execute("COMMIT")
        return found

    def sync(self) -> None:
        self.database.execute("PRAGMA wal_checkpoint(TRUNCATE)")

    def close(self) -> None:
        self.database.close()


class LmdbStore(PythonStore):
    """LMDB through the package `lmdb`, with one transaction per batch."""

    def __init__(self, folder: Path, each: bool) -> None:
        self.environment = importlib.import_module("lmdb").open(str(folder), map_size=MAP_SIZE, sync=each)

    def put(self, batch: list[Pair]) -> None:
        with self.environment.begin(write=True) as transaction:
            for key, value in batch:
                transaction.put(key, value)

    def get(self, batch: list[bytes]) -> Sequence[Reply]:
        with self.environment.begin() as transaction:
            return [transaction.get(key) for key in batch]

    def sync(self) -> None:
        self.environment.sync(True)

    def close(self) -> None:
        self.environment.close()


class DbmStore(PythonStore):
    """GDBM through Python's `dbm.gnu`. It has no batches: a crash may leave a part of one."""

    def __init__(self, folder: Path, each: bool) -> None:
        self.file, self.each = importlib.import_module("dbm.gnu").open(str(folder / "pairs"), "nf"), each

    def put(self, batch: list[Pair]) -> None:
        for key, value in batch:
            self.file[key] = value
        if self.each:
            self.file.sync()

    def get(self, batch: list[bytes]) -> Sequence[Reply]:
        return [self.file[key] for key in batch]

    def sync(self) -> None:
        self.file.sync()

    def close(self) -> None:
        self.file.close()


Open = Callable[[Path, bool], PythonStore]


def measured_stores(program: Path) -> dict[str, Open]:
    found: dict[str, Open] = {
        "bwsh, by its client": lambda folder, each: ClientStore(program, folder, each),
        "sqlite3, WAL": SqliteStore,
    }
    packages: list[tuple[str, str, Open]] = [("LMDB", "lmdb", LmdbStore), ("GDBM", "dbm.gnu", DbmStore)]
    for name, module, store in packages:
        try:
            importlib.import_module(module)
        except ImportError as error:
            print(f"{name} is left out: {error}", file=sys.stderr)
        else:
            found[name] = store
    return found


@dataclass(frozen=True)
class Rates:
    puts: float
    gets: float


def pieces(items: list[Pair], length: int) -> Iterator[list[Pair]]:
    for start in range(0, len(items), length):
        yield items[start : start + length]


def pairs(count: int) -> list[Pair]:
    source = random.Random(2)
    return [(source.randbytes(8).hex().encode(), source.randbytes(50).hex().encode()) for _ in range(count)]


def measure_once(opened: Open, all_pairs: list[Pair], batch: int, each: bool, folder: Path | None) -> Rates:
    used = all_pairs[: batch * CALLS]
    shuffled = random.Random(3).sample(used, len(used))
    with tempfile.TemporaryDirectory(dir=folder) as made, contextlib.closing(opened(Path(made), each)) as store:
        start = time.monotonic()
        for some in pieces(used, batch):
            store.put(some)
        store.sync()
        done = time.monotonic()
        got = [value for some in pieces(shuffled, batch) for value in store.get([key for key, _ in some])]
        end = time.monotonic()
    if got != [value for _, value in shuffled]:
        sys.exit(f"{opened}: other values are read back")
    return Rates(len(used) / (done - start), len(used) / (end - done))


def measure(options: argparse.Namespace) -> dict[str, dict[str, list[float]]]:
    """Returns each store's median rates by mode and batch size. The stores take turns, so that other load affects all equally."""
    all_pairs, found = pairs(options.pairs), measured_stores(options.program)
    taken: dict[tuple[str, bool, int], list[Rates]] = {}
    for _ in range(options.repeats):
        for batch in BATCHES:
            for each in (True, False):
                for name, opened in found.items():
                    rates = measure_once(opened, all_pairs, batch, each, options.folder)
                    taken.setdefault((name, each, batch), []).append(rates)

    def median(name: str, each: bool, of: Callable[[Rates], float]) -> list[float]:
        return [statistics.median(map(of, taken[name, each, batch])) for batch in BATCHES]

    return {
        name: {
            "puts, a flush a batch": median(name, True, lambda rates: rates.puts),
            "puts, a flush at the end": median(name, False, lambda rates: rates.puts),
            "gets": median(name, False, lambda rates: rates.gets),
        }
        for name in found
    }


def show(figures: dict[str, dict[str, list[float]]]) -> None:
    """Prints commands per second; each cell has the figures for batches of 1, 100 and 10,000."""
    ways = list(next(iter(figures.values())))
    rows = [
        [name, *(" · ".join(f"{rate:,.0f}" for rate in rates[way]) for way in ways)] for name, rates in figures.items()
    ]
    print_table(["commands a second", *ways], rows)


def main() -> None:
    parser = argparse.ArgumentParser(description=__doc__)
    parser.add_argument("--program", type=Path, default=PROGRAM, help="path of bwsh")
    parser.add_argument("--pairs", type=int, default=PAIRS, help=f"number of pairs; at most {CALLS} with batches of one command")
    parser.add_argument("--repeats", type=int, default=3, help="runs; the median is reported")
    parser.add_argument("--folder", type=Path, help="folder for the stores, on the disk to be measured")
    parser.add_argument("--figures", type=Path, help="also write the figures to this file, as JSON")
    options = parser.parse_args()
    options.program = options.program.resolve()
    exit_if_missing(options.program)
    figures = measure(options)
    if options.figures:
        options.figures.write_text(json.dumps(figures, indent=1) + "\n")
    show(figures)


if __name__ == "__main__":
    main()
