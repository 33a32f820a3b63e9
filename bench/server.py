#!/usr/bin/env python3
"""Measures `bwserve` and `redis-server` with `redis-benchmark`: requests a second, and latencies in milliseconds (50th and 99th percentile).

Both servers run with the same allocator if `--allocator LIBRARY` names one, such as Debian's libjemalloc.so.2: it is loaded in front of the C library.
Compare the columns of one run only. The last two columns have the requests a second of `bwserve` divided by those of Redis, durable before each answer
and once a second. `--full MINUTES` measures a log in steady state, which is cleaned all the time, beside a new log."""

import argparse
import csv
import itertools
import os
import shutil
import subprocess
import sys
import tempfile
import time
from collections.abc import Iterator
from contextlib import contextmanager
from dataclasses import dataclass
from pathlib import Path

TOP = Path(__file__).resolve().parent.parent
sys.path.insert(0, str(TOP))

from bench import plot
from bench.tables import print_table
from tools import drawing
from tools.processes import exit_if_missing
from tools.serving import Client, Server

PORT = 7_399  # of Redis
VALUE, KEYSPACE = 100, 1_000_000  # bytes; keys are random
CONNECTIONS, PIPELINES = (1, 10, 50, 200, 1_000), (1, 16)
DRAWN_CONNECTIONS = (50, 1_000)
FEWEST, MOST = 1_000, 200_000  # requests of a measurement
FULL_KEYS = 50_000


@dataclass(frozen=True)
class Rate:
    """Requests a second, and latencies in milliseconds."""

    requests: float
    median: float
    late: float

    def __str__(self) -> str:
        return f"{self.requests:,.0f} ({self.median:.2f}, {self.late:.2f})"


@dataclass(frozen=True)
class Load:
    command: str  # SET, GET or MIXED: half of the connections each
    connections: int
    pipeline: int = 1
    keys: int = KEYSPACE

    def name(self) -> str:
        return f"{self.command}, {self.connections:,} connections, pipelines of {self.pipeline}"

    def requests(self, scale: float) -> int:
        return int(scale * min(MOST, max(FEWEST, self.connections * self.pipeline * 250)))


def start_benchmark(port: int, command: str, load: Load, connections: int, requests: int) -> "subprocess.Popen[str]":
    numbers = {"-p": port, "-c": connections, "-n": requests, "-P": load.pipeline, "-d": VALUE, "-r": load.keys}
    words = [str(word) for pair in numbers.items() for word in pair]
    return subprocess.Popen(["redis-benchmark", *words, "-t", command.lower(), "--csv"], stdout=subprocess.PIPE, text=True)


def rate_of(benchmark: "subprocess.Popen[str]") -> Rate:
    out, _ = benchmark.communicate()
    row = list(csv.DictReader(out.splitlines()))[-1]
    return Rate(float(row["rps"]), float(row["p50_latency_ms"]), float(row["p99_latency_ms"]))


def measure(port: int, load: Load, scale: float) -> list[Rate]:
    commands = ["SET", "GET"] if load.command == "MIXED" else [load.command]
    share = len(commands)
    connections, requests = max(1, load.connections // share), load.requests(scale) // share
    return [rate_of(started) for started in [start_benchmark(port, command, load, connections, requests) for command in commands]]


# ---- The servers.


@dataclass(frozen=True)
class Kind:
    name: str
    is_ours: bool
    flush: str  # an option's value

    @contextmanager
    def run(self, options: argparse.Namespace, folder: Path, segments: int = 1_024) -> Iterator[int]:
        """Yields the port."""
        environment = {**os.environ, **({"LD_PRELOAD": str(options.allocator)} if options.allocator else {})}
        if self.is_ours:
            words = ["--flush", self.flush, "--segments", str(segments), "--workers", str(options.workers)]
            server = Server(options.program, folder / "store", *words, environment=environment)
            try:
                yield server.port
            finally:
                server.kill()
            return
        policy = ["--appendonly", "yes", "--appendfsync", self.flush, "--save", "", "--auto-aof-rewrite-percentage", "100"]
        words = ["redis-server", "--port", str(PORT), "--bind", "127.0.0.1", "--dir", str(folder), *policy]
        with subprocess.Popen(words, stdout=subprocess.DEVNULL, env=environment) as redis:
            try:
                wait_for(PORT)
                yield PORT
            finally:
                redis.terminate()


def wait_for(port: int) -> None:
    for _ in range(200):
        try:
            Client(port).close()
            return
        except OSError:
            time.sleep(0.05)
    sys.exit("redis-server did not start")


KINDS = [Kind("bwserve", True, "always"), Kind("Redis, always", False, "always")]
KINDS += [Kind("bwserve --flush 1", True, "1"), Kind("Redis, everysec", False, "everysec")]


def measure_kind(kind: Kind, loads: list[Load], options: argparse.Namespace) -> list[list[Rate]]:
    """Measures the loads one after the other on one store, which is empty at the start."""
    with tempfile.TemporaryDirectory(dir=options.folder) as folder, kind.run(options, Path(folder)) as port:
        return [measure(port, load, options.scale) for load in loads]


def requests_in(rates: list[Rate]) -> float:
    return sum(rate.requests for rate in rates)


def row_of(load: Load, by_kind: list[list[Rate]]) -> list[str]:
    ours, always, ours_later, everysec = map(requests_in, by_kind)
    return [load.name(), *("; ".join(map(str, rates)) for rates in by_kind), f"{ours / always:.2f}", f"{ours_later / everysec:.2f}"]


def drawn_rates(measured: dict[Load, tuple[list[Rate], ...]]) -> dict[str, list[tuple[float, float]]]:
    """Returns thousands of requests a second of both servers, by connections and pipeline: of SET, durable at once and later, and of GET."""
    rates = {load: [requests_in(of_kind) / 1_000 for of_kind in by_kind] for load, by_kind in measured.items()}
    found = {}
    for depth, count in itertools.product(PIPELINES, DRAWN_CONNECTIONS):
        puts, gets = (rates[Load(command, count, depth)] for command in ("SET", "GET"))
        found[f"{count:,}, {depth}"] = [(puts[0], puts[1]), (puts[2], puts[3]), (gets[0], gets[1])]
    return found


def measure_full(kind: Kind, options: argparse.Namespace) -> list[list[str]]:
    """Measures short loads one after the other, until the minutes are over. The first ones fill the log, and then it is cleaned. Returns the first
    row and the second half, or all rows if there are few."""
    load, rows = Load("SET", 50, 16, FULL_KEYS), []
    with tempfile.TemporaryDirectory(dir=options.folder) as folder, kind.run(options, Path(folder), segments=64) as port:
        end = time.monotonic() + 60 * options.full
        while time.monotonic() < end:
            rate = measure(port, load, options.scale)[0]
            with Client(port) as client:
                numbers = client.numbers()
            cleans = numbers.get("commits", 0) - numbers.get("flushes", 0)
            rows.append([kind.name, str(rate), f"{cleans:,}", str(numbers.get("log_growths", ""))])
    return rows[:1] + rows[len(rows) // 2 :] if len(rows) > 8 else rows


def main() -> None:
    parser = argparse.ArgumentParser(description=__doc__, formatter_class=argparse.RawDescriptionHelpFormatter)
    parser.add_argument("--program", type=Path, default=TOP / "out/bwserve", help="default: out/bwserve")
    parser.add_argument("--folder", type=Path, help="where the files are made; default: the system's folder for such files")
    parser.add_argument("--allocator", type=Path, metavar="LIBRARY", help="of both servers")
    parser.add_argument("--workers", type=int, default=1, help="of bwserve")
    parser.add_argument("--scale", type=float, default=1.0, help="factor of the number of requests")
    parser.add_argument("--full", type=float, default=0.0, metavar="MINUTES", help="measure a full log for so long")
    parser.add_argument("--plot", type=Path, metavar="FILE", help="draw the requests a second into this file, such as bench/server.svg")
    options = parser.parse_args()
    exit_if_missing(options.program)
    if options.plot:
        drawing.exit_if_missing()
    missing = [name for name in ("redis-benchmark", "redis-server") if shutil.which(name) is None]
    if missing:
        sys.exit(f"{missing[0]} is not installed")
    if options.full:
        print_table(["server", "SET", "cleans so far", "growths"], [row for kind in KINDS[:2] for row in measure_full(kind, options)])
        return
    loads = [Load(command, count, depth) for command in ("SET", "GET", "MIXED") for depth in PIPELINES for count in CONNECTIONS]
    measured = list(zip(*(measure_kind(kind, loads, options) for kind in KINDS), strict=True))
    names = [kind.name for kind in KINDS]
    print_table(["load", *names, "always", "each second"], [row_of(load, list(rates)) for load, rates in zip(loads, measured, strict=True)])
    if options.plot:
        plot.servers(drawn_rates(dict(zip(loads, measured, strict=True))), options.plot)


if __name__ == "__main__":
    main()
