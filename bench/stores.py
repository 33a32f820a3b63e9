"""Stores in files: the batch files that make them, and the time and memory of writing and recovering them."""

import hashlib
import os
import subprocess
import sys
import time
from collections.abc import Iterable, Sequence
from dataclasses import dataclass
from itertools import islice
from pathlib import Path
from typing import Protocol, TextIO

from bench.timing import Sample, TimedProgram
from bench.workload import LONG, Workload
from tools.processes import Command, pipe_of, status_bytes, wait_for_end

StoreSettings = dict[str, tuple[list[str], int]]  # by name: the options, and --seg-size
SETTINGS: StoreSettings = {"fan 32, chain 16": (["--fan", "32", "--chain", "16"], 1_048_576), "defaults": ([], 65_536)}
ROOM = 800  # bytes of the log per put; an upper bound
AT_END = sys.maxsize
MARK = "get -\ngo\n"  # prints `missing`, which shows that all commands before it are done
MARKS = 4_000  # print more than the pipe and its reader's buffer hold
PIPE = 4_096  # bytes


class Timed(Protocol):
    @property
    def cpu(self) -> float:
        ...

    @property
    def wall(self) -> float:
        ...


@dataclass
class Seconds:
    cpu: float
    wall: float


def least(samples: Iterable[Timed]) -> Seconds:
    samples = list(samples)
    return Seconds(min(sample.cpu for sample in samples), min(sample.wall for sample in samples))


@dataclass(frozen=True)
class Puts:
    """Puts in long batches, with a flush after every `every` puts and after the last."""

    keys: list[str]
    every: int
    salt: int = 0

    def lengths(self) -> list[int]:
        return [len(self.keys[start : start + LONG]) for start in range(0, len(self.keys), LONG)]

    def is_flushed(self, number: int) -> bool:
        return number % self.every == 0 or number == len(self.lengths())

    def lines(self) -> int:
        return len(self.keys) + sum(self.is_flushed(number) for number in range(1, 1 + len(self.lengths())))

    def write(self, work: Workload, file: TextIO) -> None:
        puts = work.puts(self.keys, self.salt)
        for number, length in enumerate(self.lengths(), 1):
            file.writelines(f"{put}\n" for put in islice(puts, length))
            file.write("flush\n" if self.is_flushed(number) else "go\n")


@dataclass
class StoreText:
    name: str
    puts: list[Puts]

    def count(self) -> int:
        return sum(len(puts.keys) for puts in self.puts)

    def write(self, work: Workload, path: Path) -> None:
        with open(path, "w") as file:
            file.write(MARK)
            for puts in self.puts:
                puts.write(work, file)

    def rows(self, work: Workload) -> str:
        contents = {key: work.value(at + puts.salt) for puts in self.puts for at, key in enumerate(puts.keys)}
        digest = hashlib.blake2b(f"rows {len(contents)}\n".encode())
        for key in sorted(contents):
            digest.update(f"{key} {contents[key]}\n".encode())
        return digest.hexdigest()


@dataclass
class StoreProgram:
    command: Sequence[str | Path]
    settings: Sequence[str]
    seg_size: int
    disk: Path

    def open_command(self) -> Command:
        return [*self.command, "--disk", self.disk]

    def create_command(self, puts: int) -> Command:
        segments = 64 + puts * ROOM // self.seg_size
        return [*self.open_command(), "--create", *self.settings, "--seg-size", str(self.seg_size), "--segments", str(segments)]

    def write(self, store: StoreText, text: Path) -> Sample:
        """Makes the store. The time starts at the reply to the first batch, when the input is read and the file exists, and ends at the last
        flush."""
        os.sync()
        running = TimedProgram(self.create_command(store.count()), text)
        running.phase([1])
        sample = running.phase([sum(puts.lines() for puts in store.puts)])
        running.finish_successfully()
        return sample

    def recover(self) -> Seconds:
        """Times a whole run on an empty batch file. Usually the file is in the page cache."""
        start = time.monotonic()
        child = subprocess.Popen(self.open_command(), stdin=subprocess.DEVNULL)
        cpu = wait_for_end(child)
        wall = time.monotonic() - start
        if child.returncode:
            sys.exit(f"{child.args!r}: ended with status {child.returncode}")
        return Seconds(cpu, wall)

    def recovery_memory(self, text: Path, rows: str) -> tuple[int, int]:
        """Returns the peak memory until recovery and the memory in use after it, in bytes. The replies to many short batches exceed the pipe's
        capacity, so the program blocks soon after recovery and can be measured. Exits unless a scan of all pairs then has the digest `rows`."""
        text.write_text(MARK * MARKS + "scan % * 4294967295\n")
        with open(text, "rb") as file:
            child = subprocess.Popen(self.open_command(), stdin=file, stdout=subprocess.PIPE, pipesize=PIPE)
        output = pipe_of(child.stdout)
        if not output.read(1):
            sys.exit(f"{child.args!r}: ended with status {child.wait()}")
        highest, resident = (status_bytes(child.pid, name) for name in ("VmHWM", "VmRSS"))
        for _ in range(MARKS):
            output.readline()
        if hashlib.blake2b(output.read()).hexdigest() != rows or child.wait():
            sys.exit(f"{child.args!r}: other pairs were recovered")
        return highest, resident


def written_bytes(path: Path) -> int:
    """Returns the length of the file's written part. The file is created with its full length."""
    with open(path, "rb") as file:
        return file.seek(0, os.SEEK_HOLE)
