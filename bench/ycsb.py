#!/usr/bin/env python3
"""Runs the workloads A to E of YCSB on `bwserve`, Redis and SQLite: operations a second, and latencies in milliseconds (50th and 99th percentile).

Records have 1,000 bytes, as in YCSB, and each write is durable before it is answered. Each client is a process that waits for each answer. Redis has no
ordered keys, so its client keeps them in a sorted set too, as YCSB's does. Compare the columns of one run only: Python's clients take a large part of
the time.

Source of the distributions: B. Cooper et al., "Benchmarking Cloud Serving Systems with YCSB", SoCC 2010, and J. Gray et al., "Quickly Generating
Billion-Record Synthetic Databases", SIGMOD 1994."""

import argparse
import contextlib
import multiprocessing
import random
import shutil
import sqlite3
import sys
import tempfile
import time
from collections.abc import Iterator
from dataclasses import dataclass
from pathlib import Path
from typing import Protocol

TOP = Path(__file__).resolve().parent.parent
sys.path.insert(0, str(TOP))

from bench.server import KINDS, PORT
from bench.tables import print_table
from tools.processes import exit_if_missing
from tools.serving import Client, Word

VALUE = 1_000  # bytes
LONGEST_SCAN = 100  # records
BUSY = 60  # seconds that SQLite waits for another writer

# ---- YCSB's distributions.

SKEW = 0.99
FNV_OFFSET, FNV_PRIME, MASK = 0xCBF29CE484222325, 0x100000001B3, 0xFFFFFFFFFFFFFFFF


def scrambled(number: int) -> int:
    """Returns the 64-bit FNV-1a hash of a number, which spreads popular records over all keys."""
    total = FNV_OFFSET
    for byte in number.to_bytes(8, "little"):
        total = (total ^ byte) * FNV_PRIME & MASK
    return total


def key_of(number: int) -> bytes:
    return b"user%020d" % scrambled(number)


class Zipfian:
    """Draws numbers below `count`; 0 is the most popular."""

    def __init__(self, count: int) -> None:
        self.count = count
        self.zeta = sum(1 / (number + 1) ** SKEW for number in range(count))
        self.alpha = 1 / (1 - SKEW)
        self.eta = (1 - (2 / count) ** (1 - SKEW)) / (1 - (1 + 0.5**SKEW) / self.zeta)

    def draw(self, source: random.Random) -> int:
        uniform = source.random()
        scaled = uniform * self.zeta
        if scaled < 1:
            return 0
        if scaled < 1 + 0.5**SKEW:
            return 1
        return min(self.count - 1, int(self.count * (self.eta * uniform - self.eta + 1) ** self.alpha))


@dataclass(frozen=True)
class Workload:
    """Shares of the operations; the rest are reads."""

    name: str
    updates: float = 0
    inserts: float = 0
    scans: float = 0
    reads_latest: bool = False


WORKLOADS = [
    Workload("A: half updates, half reads", updates=0.5),
    Workload("B: 5 % updates, reads", updates=0.05),
    Workload("C: reads", updates=0),
    Workload("D: 5 % inserts, reads of the latest", inserts=0.05, reads_latest=True),
    Workload("E: 5 % inserts, scans", inserts=0.05, scans=0.95),
]

# ---- The stores.


class Store(Protocol):
    def load(self, keys: list[bytes], value: bytes) -> None: ...

    def read(self, key: bytes) -> object: ...

    def update(self, key: bytes, value: bytes) -> None: ...

    def insert(self, key: bytes, value: bytes) -> None: ...

    def scan(self, key: bytes, count: int) -> object: ...


class OrderedServer:
    def __init__(self, port: int) -> None:
        self.client = Client(port)

    def load(self, keys: list[bytes], value: bytes) -> None:
        for start in range(0, len(keys), 1_000):
            self.client.ask("MSET", *[word for key in keys[start : start + 1_000] for word in (key, value)])

    def read(self, key: bytes) -> object:
        return self.client.ask("GET", key)

    def update(self, key: bytes, value: bytes) -> None:
        self.client.ask("SET", key, value)

    def insert(self, key: bytes, value: bytes) -> None:
        self.client.ask("SET", key, value)

    def scan(self, key: bytes, count: int) -> object:
        return self.client.ask("RANGE", b"[" + key, "+", "LIMIT", count)


class Redis(OrderedServer):
    INDEX = b"index"

    def load(self, keys: list[bytes], value: bytes) -> None:
        super().load(keys, value)
        for start in range(0, len(keys), 1_000):
            scored: list[Word] = [word for key in keys[start : start + 1_000] for word in (b"0", key)]
            self.client.ask("ZADD", self.INDEX, *scored)

    def insert(self, key: bytes, value: bytes) -> None:
        self.client.ask_all([["MULTI"], ["SET", key, value], ["ZADD", self.INDEX, 0, key], ["EXEC"]])

    def scan(self, key: bytes, count: int) -> object:
        found = self.client.ask("ZRANGEBYLEX", self.INDEX, b"[" + key, "+", "LIMIT", 0, count)
        return self.client.ask("MGET", *[word for word in found if isinstance(word, bytes)]) if isinstance(found, list) and found else []


class Sqlite:
    def __init__(self, path: Path) -> None:
        self.database = sqlite3.connect(path, timeout=BUSY, isolation_level=None)
        self.database.execute("PRAGMA journal_mode = WAL")
        self.database.execute("PRAGMA synchronous = FULL")
        self.database.execute("CREATE TABLE IF NOT EXISTS pairs (k BLOB PRIMARY KEY, v BLOB) WITHOUT ROWID")

    def load(self, keys: list[bytes], value: bytes) -> None:
        with self.database:
            self.database.execute("BEGIN")
            self.database.executemany("INSERT OR REPLACE INTO pairs VALUES (?, ?)", [(key, value) for key in keys])

    def read(self, key: bytes) -> object:
        return self.database.execute("SELECT v FROM pairs WHERE k = ?", (key,)).fetchone()

    def update(self, key: bytes, value: bytes) -> None:
        self.database.execute("INSERT OR REPLACE INTO pairs VALUES (?, ?)", (key, value))

    def insert(self, key: bytes, value: bytes) -> None:
        self.update(key, value)

    def scan(self, key: bytes, count: int) -> object:
        return self.database.execute("SELECT k, v FROM pairs WHERE k >= ? ORDER BY k LIMIT ?", (key, count)).fetchall()


@dataclass(frozen=True)
class Place:
    """Where a store is: a file of SQLite, or a server's port."""

    name: str
    port: int = 0
    path: Path | None = None

    def open(self) -> Store:
        if self.path is not None:
            return Sqlite(self.path)
        return Redis(self.port) if self.port == PORT else OrderedServer(self.port)


# ---- A run.


@dataclass(frozen=True)
class Run:
    place: Place
    workload: Workload
    records: int
    operations: int  # of each client
    clients: int

    def latencies(self, client: int) -> list[float]:
        """Runs one client. Its new records have numbers that no other client uses."""
        store, source, zipfian = self.place.open(), random.Random(client), Zipfian(self.records)
        value, newest, taken = source.randbytes(VALUE), self.records + client, []
        for _ in range(self.operations):
            drawn, rank, start = source.random(), zipfian.draw(source), time.perf_counter()
            if drawn < self.workload.updates:
                store.update(key_of(rank), value)
            elif drawn < self.workload.updates + self.workload.inserts:
                store.insert(key_of(newest), value)
                newest += self.clients
            elif drawn < self.workload.updates + self.workload.inserts + self.workload.scans:
                store.scan(key_of(rank), source.randint(1, LONGEST_SCAN))
            else:
                store.read(key_of(max(0, newest - self.clients * rank) if self.workload.reads_latest else rank))
            taken.append(time.perf_counter() - start)
        return taken

    def measure(self) -> str:
        start = time.monotonic()
        with multiprocessing.Pool(self.clients) as pool:
            taken = sorted(second for seconds in pool.map(self.latencies, range(self.clients)) for second in seconds)
        rate = len(taken) / (time.monotonic() - start)
        return f"{rate:,.0f} ({1000 * taken[len(taken) // 2]:.2f}, {1000 * taken[len(taken) * 99 // 100]:.2f})"


@contextlib.contextmanager
def places(options: argparse.Namespace, folder: Path) -> Iterator[list[Place]]:
    found = [Place("SQLite", path=folder / "sqlite")]
    with contextlib.ExitStack() as servers:
        for kind in KINDS[:2]:
            if kind.is_ours or shutil.which("redis-server"):
                (folder / kind.name).mkdir()
                found.append(Place(kind.name, port=servers.enter_context(kind.run(options, folder / kind.name))))
        yield found


def main() -> None:
    parser = argparse.ArgumentParser(description=__doc__, formatter_class=argparse.RawDescriptionHelpFormatter)
    parser.add_argument("--program", type=Path, default=TOP / "out/bwserve", help="default: out/bwserve")
    parser.add_argument("--folder", type=Path, help="where the files are made; default: the system's folder for such files")
    parser.add_argument("--allocator", type=Path, metavar="LIBRARY", help="of both servers")
    parser.add_argument("--workers", type=int, default=1, help="of bwserve")
    parser.add_argument("--records", type=int, default=100_000)
    parser.add_argument("--operations", type=int, default=5_000, help="of each client")
    parser.add_argument("--clients", type=int, default=8)
    options = parser.parse_args()
    exit_if_missing(options.program)
    with tempfile.TemporaryDirectory(dir=options.folder) as folder, places(options, Path(folder)) as found:
        for place in found:
            place.open().load([key_of(number) for number in range(options.records)], bytes(VALUE))
        runs = [[Run(place, load, options.records, options.operations, options.clients) for place in found] for load in WORKLOADS]
        print_table(["workload", *(place.name for place in found)], [[row[0].workload.name, *(run.measure() for run in row)] for row in runs])


if __name__ == "__main__":
    main()
