#!/usr/bin/env python3
"""Measures durable commits and recovery of this and other persistent stores, by the clock. README.md describes the measurement."""

import argparse
import base64
import hashlib
import itertools
import json
import os
import random
import shutil
import subprocess
import sys
import tempfile
import time
from collections.abc import Iterable, Iterator, Sequence
from dataclasses import dataclass, fields
from pathlib import Path
from typing import Any

sys.path.insert(0, str(Path(__file__).resolve().parent.parent))

from bench.peer_programs import NATIVE_PEERS, PEER, build_native_peer, build_rust_peer
from bench.stores import StoreProgram, StoreSettings
from bench.tables import print_table
from bench.timing import TimedProgram
from bench.workload import LONG
from tools.processes import PROGRAM, Command, exit_if_missing, pipe_of, processor_seconds, wait_for_end

HERE = Path(__file__).resolve().parent
PAIRS = 500_000
SHORT = 1_000
SPACING = 65  # batches followed by a single flush, to separate the cost of batches from that of flushes
SETTINGS: StoreSettings = {"fan 64, chain 16": (["--fan", "64", "--chain", "16"], 1_048_576), "defaults": ([], 65_536)}
LOGGED = f"{PEER} and a log of commands"
SORTED, RELAXED = "LMDB, batches sorted before", "SQLite, WAL, NORMAL"
PYTHON = [sys.executable, "-I"]
PYTHON_START = "python's start"

Figures = dict[str, Any]  # in the JSON file


@dataclass(frozen=True)
class Commits:
    batch: int
    batches: int = 1

    def name(self) -> str:
        return f"{self.batch:,} a commit" if self.batches == 1 else f"{self.batch:,} a batch, {self.batches} batches a commit"

    def is_flushed(self, number: int, last: int) -> bool:
        return number % self.batches == 0 or number == last


FEW, MANY, SPACED = Commits(LONG), Commits(SHORT), Commits(SHORT, SPACING)
BOTH = (FEW, MANY)


class RandomPairs:
    """Pairs in random order, with keys of 16 bytes and values of 100. Values have six random bits per byte, so that compression (some stores use
    Snappy by default) does not shrink them."""

    def __init__(self, count: int) -> None:
        source = random.Random(2)
        self.keys = [source.randbytes(8).hex() for _ in range(count)]
        self.values = [base64.urlsafe_b64encode(source.randbytes(75)).decode() for _ in range(count)]

    def batches(self, length: int) -> Iterator[list[tuple[str, str]]]:
        for start in range(0, len(self.keys), length):
            yield list(zip(self.keys[start : start + length], self.values[start : start + length]))

    def write(self, path: Path) -> None:
        with open(path, "w") as file:
            file.writelines(f"{key} {value}\n" for key, value in zip(self.keys, self.values))

    def write_text(self, path: Path, commits: Commits) -> bytes:
        """Writes the batch file. Returns the expected output after the first line, which shows that the input was read."""
        printed: list[str] = []
        last = -(-len(self.keys) // commits.batch)
        flushes = 1  # the sequence number of a new store; each flush adds 1
        with open(path, "w") as file:
            file.write("get 0\ngo\n")
            for number, batch in enumerate(self.batches(commits.batch), 1):
                file.writelines(f"put {key} {value}\n" for key, value in batch)
                file.write("flush\n" if commits.is_flushed(number, last) else "go\n")
                printed.append("new\n" * len(batch))
                if commits.is_flushed(number, last):
                    flushes += 1
                    printed.append(f"flushed {flushes}\n")
        return "".join(printed).encode()

    def write_gets(self, path: Path, batch: int) -> int:
        """Writes a file of gets of a missing key in batches of this length. Returns the number of gets."""
        with open(path, "w") as file:
            file.write("get 0\ngo\n")
            for pairs in self.batches(batch):
                file.write("get 0\n" * len(pairs) + "go\n")
        return len(self.keys)


@dataclass
class StoreTimes:
    """Clock and processor seconds of one run: until the input was read and the store was open, until the last commit, and of a new process that
    answers one get. Also the size of the files in bytes."""

    ready: float
    load: float
    load_cpu: float
    recovery: float = 0.0
    recovery_cpu: float = 0.0
    disk: int = 0


class NativeStore:
    """A store that is used through a program of `peers/`, with the arguments described in `pairs.h`."""

    def __init__(self, command: Sequence[str | Path], folder: Path, *last: str) -> None:
        self.command, self.folder, self.last = command, folder, last

    def load(self, texts: "StoreTexts", commits: Commits) -> StoreTimes:
        start = time.monotonic()
        command: Command = [*self.command, "load", self.folder, texts.pairs, str(commits.batch), *self.last]
        with subprocess.Popen(command, stdin=subprocess.DEVNULL, stdout=subprocess.PIPE) as child:
            ready, before = self.until(child, b"ready\n")
            done, taken = self.until(child, b"done\n")
            child.kill()
        return StoreTimes(ready - start, done - ready, taken - before)

    def until(self, child: subprocess.Popen[bytes], line: bytes) -> tuple[float, float]:
        printed = pipe_of(child.stdout).readline()
        if printed != line:
            sys.exit(f"{child.args!r}: the output has {printed!r}, where {line!r} was expected")
        return time.monotonic(), processor_seconds(child.pid)

    def question(self, key: str) -> tuple[Command, bytes]:
        return [*self.command, "get", self.folder, key], b""


class BatchFileStore:
    def __init__(self, program: StoreProgram) -> None:
        self.program, self.folder = program, program.disk.parent

    def load(self, texts: "StoreTexts", commits: Commits) -> StoreTimes:
        start = time.monotonic()
        running = TimedProgram(self.program.create_command(texts.count), texts.batch_files[commits])
        running.phase([1])
        ready = time.monotonic()
        sample = running.phase([texts.printed[commits].count(b"\n")])
        running.finish()
        if sample.digest != hashlib.blake2b(texts.printed[commits]).hexdigest():
            sys.exit(f"{running.command}: prints other lines")
        return StoreTimes(ready - start, sample.wall, sample.cpu)

    def question(self, key: str) -> tuple[Command, bytes]:
        return self.program.open_command(), f"get {key}\n".encode()


class StoreTexts:
    def __init__(self, pairs: RandomPairs, folder: Path) -> None:
        self.pairs, self.count = folder / "pairs", len(pairs.keys)
        self.batch_files: dict[Commits, Path] = {}
        self.printed: dict[Commits, bytes] = {}
        pairs.write(self.pairs)
        for commits in (FEW, MANY, SPACED):
            self.batch_files[commits] = folder / f"session {commits.name()}"
            self.printed[commits] = pairs.write_text(self.batch_files[commits], commits)


MeasuredStore = NativeStore | BatchFileStore


def measured_stores(program: Path, programs: Path, disks: Path) -> dict[str, MeasuredStore]:
    """Returns the measured stores by name. Builds programs into `programs`; the stores' files go into `disks`."""
    found: dict[str, MeasuredStore] = {}
    for name, (settings, seg_size) in SETTINGS.items():
        found[name] = BatchFileStore(StoreProgram([program], settings, seg_size, disks / name / "store"))
    logged = build_rust_peer(programs, "log_peer.rs")
    if logged:
        found[LOGGED] = BatchFileStore(StoreProgram(logged, [], 65_536, disks / LOGGED / "store"))
    for name in NATIVE_PEERS:
        built = build_native_peer(name, programs)
        if built:
            found[name] = NativeStore([built], disks / name)
        if built and name == "LMDB":
            found[SORTED] = NativeStore([built], disks / SORTED, "sorted")
    sqlite: list[str | Path] = [*PYTHON, HERE / "peers" / "sqlite.py"]
    found["SQLite, WAL, FULL"] = NativeStore(sqlite, disks / "SQLite FULL", "FULL")
    found[RELAXED] = NativeStore(sqlite, disks / "SQLite NORMAL", "NORMAL")
    return found


def drop_from_memory(folder: Path) -> None:
    os.sync()
    for path in folder.iterdir():
        with open(path, "rb") as file:
            os.posix_fadvise(file.fileno(), 0, 0, os.POSIX_FADV_DONTNEED)


def time_recovery(store: MeasuredStore, key: str, value: str) -> tuple[float, float]:
    """Times a new process from its start to its end, with the answer to one get, which must be this value. Returns clock and processor seconds."""
    command, asked = store.question(key)
    start = time.monotonic()
    child = subprocess.Popen(command, stdin=subprocess.PIPE, stdout=subprocess.PIPE)
    pipe_of(child.stdin).write(asked)
    pipe_of(child.stdin).close()
    answer = pipe_of(child.stdout).readline()
    took = time.monotonic() - start
    cpu = wait_for_end(child)
    pipe_of(child.stdout).close()
    if child.returncode or answer != f"value {value}\n".encode():
        sys.exit(f"{command!r}: the answer is {answer!r}, where {value} was expected, and the status {child.returncode}")
    return took, cpu


def run_once(store: MeasuredStore, texts: StoreTexts, commits: Commits, pairs: RandomPairs) -> StoreTimes:
    shutil.rmtree(store.folder, ignore_errors=True)
    store.folder.mkdir(parents=True)
    os.sync()
    took = store.load(texts, commits)
    took.disk = sum(path.stat().st_blocks * 512 for path in store.folder.iterdir())
    drop_from_memory(store.folder)
    took.recovery, took.recovery_cpu = time_recovery(store, pairs.keys[-1], pairs.values[-1])
    shutil.rmtree(store.folder)
    return took


def time_printing(program: Path, pairs: RandomPairs, folder: Path) -> dict[str, float]:
    """Returns the seconds in which `bwsh` answers as many gets of a missing key: an upper bound for printing the replies to the puts."""
    text, found = folder / "gets", {}
    for commits in BOTH:
        lines = pairs.write_gets(text, commits.batch)
        running = TimedProgram([program], text)
        running.phase([1])
        found[commits.name()] = running.phase([lines]).wall
        running.finish()
    return found


def python_start(repeats: int) -> float:
    """Returns the start time of Python, which the recovery times of SQLite include."""
    took = []
    for _ in range(repeats):
        start = time.monotonic()
        subprocess.run([*PYTHON, "-c", "import signal, sqlite3"], check=True)
        took.append(time.monotonic() - start)
    return min(took)


def file_system(folder: Path) -> str:
    ran = subprocess.run(["df", "--output=fstype,source", folder], capture_output=True, text=True)
    return " on ".join(ran.stdout.split("\n")[1].split()) if ran.returncode == 0 else "unknown"


def summary(runs: Sequence[StoreTimes]) -> Figures:
    least: Figures = {each.name: min(getattr(took, each.name) for took in runs) for each in fields(StoreTimes)}
    return least | {"loads": [took.load for took in runs], "recoveries": [took.recovery for took in runs]}


def measure(program: Path, count: int, repeats: int, where: str) -> Figures:
    pairs = RandomPairs(count)
    runs: dict[str, dict[str, list[StoreTimes]]] = {}
    with tempfile.TemporaryDirectory() as made, tempfile.TemporaryDirectory(dir=where) as disk:
        folder, disks = Path(made), Path(disk)
        texts = StoreTexts(pairs, folder)
        found = measured_stores(program, folder, disks)
        for _ in range(repeats):
            for commits in (FEW, MANY, SPACED):
                for name, store in found.items():
                    if commits == SPACED and name not in SETTINGS:
                        continue
                    print(f"  {commits.name()}: {name}", file=sys.stderr)
                    runs.setdefault(name, {}).setdefault(commits.name(), []).append(run_once(store, texts, commits, pairs))
        printed, kind = time_printing(program, pairs, folder), file_system(disks)
    taken = {name: {commits: summary(each) for commits, each in by.items()} for name, by in runs.items()}
    figures = {"pairs": count, "repeats": repeats, "file system": kind, "stores": taken}
    return {**figures, "printing at most": printed, PYTHON_START: python_start(repeats)}


def rate(figures: Figures, name: str, commits: Commits) -> float:
    return float(figures["pairs"] / figures["stores"][name][commits.name()]["load"])


def print_rates(figures: Figures) -> None:
    """Prints pairs per second, recovery time and disk space by the clock, and the processor seconds."""
    columns = {"load_cpu": "processor, s", "recovery": "recovery, s", "recovery_cpu": "processor, s"}
    rows = []
    for name, by in figures["stores"].items():
        cells = [by_length(f"{rate(figures, name, commits):,.0f}" for commits in BOTH)]
        for what in columns:
            cells.append(by_length(f"{by[commits.name()][what]:.2f}" for commits in BOTH))
        rows.append([title(name), *cells, by_length(f"{by[commits.name()]['disk'] / 1e6:,.0f}" for commits in BOTH)])
    lengths = by_length(commits.name() for commits in BOTH)
    print_table([lengths, "pairs a second", *columns.values(), "on the disk, MB"], rows)


def by_length(cells: Iterable[str]) -> str:
    return " · ".join(cells)


def title(name: str) -> str:
    return f"bwsh, {name}" if name in SETTINGS else f"{name} (not durable)" if name == RELAXED else name


def print_beside(figures: Figures) -> None:
    rows = []
    for peer, by in figures["stores"].items():
        if peer in SETTINGS:
            continue
        cells = []
        for what, name in itertools.product(("load", "recovery"), SETTINGS):
            took = figures["stores"][name]
            cells.append(by_length(f"{by[commits.name()][what] / took[commits.name()][what]:.2f}" for commits in BOTH))
        rows.append([title(peer), *cells])
    print_table(["times as fast as", *SETTINGS, *(f"recovery, {name}" for name in SETTINGS)], rows)


def print_text(figures: Figures) -> None:
    """Prints the times that the programs' input and output take, apart from the stores."""
    rows = []
    for name in SETTINGS:
        for commits in BOTH:
            took = figures["stores"][name][commits.name()]
            seconds = (took["ready"], figures["printing at most"][commits.name()], took["load"])
            rows.append([f"{name}, {commits.name()}", *(f"{each:.2f}" for each in seconds)])
    print_table(["bwsh, s", "reading the text, in no figure", "printing, at most, in the figure", "the figure"], rows)


def show_stores(figures: Figures) -> None:
    print(f"\n{figures['pairs']:,} pairs of 16 and 100 bytes, {figures['file system']}, the least of {figures['repeats']}")
    print_rates(figures)
    print(f"\nPython's start, which is in SQLite's recovery: {figures[PYTHON_START]:.3f} s")
    for name in SETTINGS:
        print(f"bwsh, {name}, {SPACED.name()}: {rate(figures, name, SPACED):,.0f} pairs a second")


def show_beside(figures: Figures) -> None:
    print_beside(figures)
    print_text(figures)


def main() -> None:
    parser = argparse.ArgumentParser(description=__doc__)
    parser.add_argument("--pairs", type=int, default=PAIRS)
    parser.add_argument("--repeats", type=int, default=3, help="runs of each store; the least time is reported")
    parser.add_argument("--program", type=Path, default=PROGRAM)
    parser.add_argument("--folder", default="/var/tmp", help="folder for the stores, on the disk to be measured (default: /var/tmp)")
    parser.add_argument("--figures", type=Path, help="also write the figures to this file, as JSON")
    options = parser.parse_args()
    exit_if_missing(options.program)
    figures = measure(options.program, options.pairs, options.repeats, options.folder)
    if options.figures:
        options.figures.write_text(json.dumps(figures, indent=1) + "\n")
    show_stores(figures)
    show_beside(figures)


if __name__ == "__main__":
    main()
