#!/usr/bin/env python3
"""Measures the flushes of the program with its in-memory disk, or, with `--choices`, what some choices of fan and chain cost. README.md describes the
measurements."""

import argparse
import math
import random
import subprocess
import sys
import tempfile
import time
from dataclasses import dataclass
from pathlib import Path
from typing import IO

sys.path.insert(0, str(Path(__file__).resolve().parent.parent))

from bench.stores import MARK
from bench.tables import print_table
from bench.workload import KEY, LONG, Workload
from tools.processes import PROGRAM, PipedProgram, new_folder, pipe_of, processor_seconds, status_bytes

SETTINGS = "--fan 32 --chain 16 --seg-size 1048576 --segments 256".split()
SEGMENT = 65_536  # bytes; used to measure the length of a flush
AGAIN = 20  # flushes that follow one put each


def write_text(path: Path, work: Workload, again: int = AGAIN) -> None:
    with open(path, "w") as file:
        file.write(MARK)
        for start in range(0, len(work.keys), LONG):
            for at, key in enumerate(work.keys[start : start + LONG], start):
                file.write(f"put {key} {work.value(at)}\n")
            file.write("go\n")
        file.write(MARK + "flush\n" + MARK)
        for at in range(again):
            file.write(f"put {work.keys[at * 7]} {work.value(at)}\ngo\n{MARK}flush\n")


def fits(program: Path, path: Path, segments: int) -> bool:
    settings = f"--fan 32 --chain 16 --seg-size {SEGMENT} --segments {segments}".split()
    with open(path, "rb") as file:
        ended = subprocess.run([program, *settings], stdin=file, stdout=subprocess.DEVNULL, stderr=subprocess.PIPE)
    if ended.returncode and ended.stderr != b"fault 10 Full\n":
        sys.exit(f"{program} ended with {ended.returncode}: {ended.stderr!r}")
    return ended.returncode == 0


def flushed_bytes(program: Path, path: Path, pairs: int) -> int:
    low, high = 0, 2 + 400 * pairs // SEGMENT
    while high - low > 1:
        middle = (low + high) // 2
        low, high = (low, middle) if fits(program, path, middle) else (middle, high)
    return (high - 1) * SEGMENT


def read(out: IO[bytes], expected: str) -> None:
    line = out.readline().decode().rstrip("\n")
    if not line.startswith(expected):
        sys.exit(f"the output has {line!r}, where {expected!r} was expected")


def measure(program: Path, work: Workload, path: Path) -> tuple[float, float, int, float]:
    """Returns the seconds of the load and of the first flush, the memory of the flush in bytes, and the median seconds of a flush after one put."""
    with open(path, "rb") as file:
        process = subprocess.Popen([program, *SETTINGS], stdin=file, stdout=subprocess.PIPE)
    out = pipe_of(process.stdout)
    read(out, "missing")
    times = [time.perf_counter()]
    for _ in work.keys:
        read(out, "new")
    read(out, "missing")
    times.append(time.perf_counter())
    memory = [status_bytes(process.pid, "VmRSS")]
    read(out, "flushed 2")
    times.append(time.perf_counter())
    memory.append(status_bytes(process.pid, "VmRSS"))
    read(out, "missing")
    again = []
    for _ in range(AGAIN):
        read(out, "replaced")
        read(out, "missing")
        start = time.perf_counter()
        read(out, "flushed")
        again.append(time.perf_counter() - start)
    if process.wait() != 0:
        sys.exit(f"{program} ended with {process.returncode}")
    return times[1] - times[0], times[2] - times[1], memory[1] - memory[0], sorted(again)[AGAIN // 2]


# ---- What choices of fan and chain cost.

CHOICES = [(16, 4), (64, 4), (64, 16), (32, 16)]  # the defaults come first
BATCH = 5_000  # commands; their replies fit into a pipe
COMMIT = 1_000  # puts
REPEATS = 3
SMALL, SMALL_COMMITS = 20_000, 40_000  # pairs, and commits of one put
TOGETHER = 200  # small commits that are sent at a time; they fit into a pipe
SLOT = 64 + 2  # bytes that a commit writes beside the log: a slot, whose first byte is written twice more
LEAF_USED = 2  # a leaf is at least half full


@dataclass(frozen=True)
class Text:
    lines: bytes
    replies: int  # lines of the program


def batches(commands: list[str], length: int, order: str = "go", together: int = 1) -> list[Text]:
    """Returns the commands in batches of this length, each followed by an order; so many batches are sent at a time."""
    pieces = [commands[first : first + length] for first in range(0, len(commands), length)]
    texts = ["".join([*piece, f"{order}\n"]) for piece in pieces]
    replies = [len(piece) + (order == "flush") for piece in pieces]
    starts = range(0, len(texts), together)
    return [Text("".join(texts[at : at + together]).encode(), sum(replies[at : at + together])) for at in starts]


class Session(PipedProgram):
    """A stream of the program, without a limit on its log that matters here."""

    def __init__(self, program: Path, choice: tuple[int, int], *words: str) -> None:
        fan, chain = choice
        super().__init__([program, "--stream", f"--fan={fan}", f"--chain={chain}", "--seg-size=1048576", "--segments=8192", *words])

    def run(self, text: Text) -> None:
        """Sends lines, and reads their replies without looking at them."""
        self.send(text.lines)
        missing = text.replies
        while missing > 0:
            found = self.output.read(65_536)
            if not found:
                sys.exit(f"the program ended: {self.errors.read()!r}")
            missing -= found.count(b"\n")

    def seconds(self, texts: list[Text]) -> float:
        """Returns the processor seconds that these take."""
        before = processor_seconds(self.process.pid)
        for text in texts:
            self.run(text)
        return processor_seconds(self.process.pid) - before

    def tail(self) -> int:
        self.send(b".stat\n")
        words = self.read_line().split()
        self.read_line()  # the settings
        return int(words[6])


@dataclass(frozen=True)
class Speeds:
    """Processor seconds of all pairs, and the bytes of memory of a pair."""

    load: float
    gets: float
    updates: float
    memory: float


@dataclass(frozen=True)
class Texts:
    """What is run with each choice. The keys are in random order."""

    load: list[Text]
    gets: list[Text]
    updates: list[Text]
    many: list[Text]  # new pairs, `COMMIT` a commit
    small_load: list[Text]
    small_commits: list[Text]  # values replaced, one a commit


def texts_of(work: Workload) -> Texts:
    puts = [f"put {key} {work.value(at)}\n" for at, key in enumerate(work.keys)]
    updates = [f"put {key} {work.value(at + 7)}\n" for at, key in enumerate(work.shuffled)]
    gets = batches([f"get {key}\n" for key in work.shuffled], BATCH)
    small = random.Random(2).choices(puts[:SMALL], k=SMALL_COMMITS)
    small_load, small_commits = batches(puts[:SMALL], SMALL, "flush"), batches(small, 1, "flush", TOGETHER)
    return Texts(batches(puts, BATCH), gets, batches(updates, BATCH), batches(puts, COMMIT, "flush"), small_load, small_commits)


def measure_speeds(program: Path, choice: tuple[int, int], texts: Texts, pairs: int) -> Speeds:
    session = Session(program, choice)
    session.run(Text(MARK.encode(), 1))
    before = status_bytes(session.process.pid, "VmRSS")
    load = session.seconds(texts.load)
    memory = (status_bytes(session.process.pid, "VmRSS") - before) / pairs
    gets, updates = session.seconds(texts.gets), session.seconds(texts.updates)
    session.kill()
    return Speeds(load, gets, updates, memory)


def bytes_of(program: Path, choice: tuple[int, int], load: list[Text], commits: list[Text], count: int) -> int:
    """Returns the bytes that `count` commits write after a load."""
    with new_folder() as folder:
        session = Session(program, choice, "--disk", f"{folder}/store", "--create")
        for text in load:
            session.run(text)
        before = session.tail()
        for text in commits:
            session.run(text)
        written = session.tail() - before + SLOT * count
        session.kill()
    return written


def bytes_written(program: Path, choice: tuple[int, int], texts: Texts, work: Workload) -> tuple[float, float]:
    """Returns the bytes that are written for each byte of a pair: of new pairs, `COMMIT` a commit, and of values replaced, one a commit."""
    many = bytes_of(program, choice, [], texts.many, len(texts.many)) / (len(work.keys) * work.raw)
    one = bytes_of(program, choice, texts.small_load, texts.small_commits, SMALL_COMMITS) / (SMALL_COMMITS * work.raw)
    return many, one


def advised_log(choice: tuple[int, int], work: Workload) -> float:
    """Returns the bytes of the log for each byte of a pair, computed as in `Settings::for_pairs`: a base, `chain` runs and one more commit, and an
    eighth of each segment is not used."""
    fan, chain = choice
    page = (28 + 2 * KEY) / (fan / LEAF_USED)
    return math.ceil((chain + 2) * 8 / 7) * (5 + work.raw + page) / work.raw


def print_choices(program: Path, work: Workload) -> None:
    texts, rows = texts_of(work), []
    runs = [[measure_speeds(program, choice, texts, len(work.keys)) for choice in CHOICES] for _ in range(REPEATS)]  # in turn
    least = [Speeds(*(min(getattr(run[at], name) for run in runs) for name in Speeds.__annotations__)) for at in range(len(CHOICES))]
    for choice, speeds in zip(CHOICES, least):
        times = [least[0].load / speeds.load, least[0].gets / speeds.gets, least[0].updates / speeds.updates]
        written = [f"{ratio:.1f}" for ratio in bytes_written(program, choice, texts, work)]
        figures = [f"{speeds.memory:.0f}", *written, *(f"{ratio:.2f}" for ratio in times), f"{advised_log(choice, work):.0f}"]
        rows.append([f"{choice[0]}/{choice[1]}", *figures])
    heads = ["fan/chain", "bytes of memory a pair", f"bytes written, {COMMIT:,} puts a commit", "bytes written, one put a commit"]
    print_table([*heads, "loads", "gets", "updates", "log"], rows)


def main() -> None:
    parser = argparse.ArgumentParser(description=__doc__)
    parser.add_argument("--pairs", type=int, default=1_000_000)
    parser.add_argument("--program", type=Path, default=PROGRAM)
    parser.add_argument("--choices", action="store_true", help="print the table of choices of fan and chain, for a tenth of the pairs")
    options = parser.parse_args()
    work = Workload(options.pairs // 10 if options.choices else options.pairs)
    if options.choices:
        print_choices(options.program.resolve(), work)
        return
    with tempfile.TemporaryDirectory() as folder:
        path = Path(folder) / "session"
        write_text(path, work)
        load, first, grown, one = min(measure(options.program, work, path) for _ in range(3))
        write_text(path, work, again=0)
        written = flushed_bytes(options.program, path, options.pairs)
    print(f"load {load:.2f} s; first flush {first:.3f} s, {first / load:.2f} of it; {grown / options.pairs:.0f} bytes a pair")
    print(f"flush after one put {one * 1000:.3f} ms; the first flush writes {written / options.pairs:.1f} bytes a pair")


if __name__ == "__main__":
    main()
