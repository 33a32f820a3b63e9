#!/usr/bin/env python3
"""Measures the speedup by more workers, by the clock. README.md describes the measurement."""

import argparse
import itertools
import subprocess
import sys
import tempfile
import time
from collections.abc import Sequence
from pathlib import Path

sys.path.insert(0, str(Path(__file__).resolve().parent.parent))

from bench import stores
from bench.stores import AT_END, Puts, StoreProgram, StoreText, least
from bench.tables import print_table
from bench.timing import run_phases
from bench.workload import LONG, Phase, Workload, gets, write_phases
from tools.processes import PROGRAM, Command, exit_if_missing

SETTINGS = {"fan 32, chain 16": (32, 16), "defaults": (16, 4)}  # fan and chain
PHASES = {"load": "load", "gets": "gets", "half": "half gets, half puts", "deletes": "deletes of all keys"}
WORKERS = [1, 2, 3, 4, 64]
GRAINS = [1, 8, 64, 512]
MANY = 4  # workers with which the grains are compared
GRAIN = 64  # grain with which the numbers of workers are compared

Crew = tuple[int, int]  # workers and grain


class Clock:
    def __init__(self) -> None:
        self.wall: dict[tuple[str, Crew, str], float] = {}

    def add(self, kind: str, crew: Crew, phase: str, seconds: float) -> None:
        at = kind, crew, phase
        self.wall[at] = min(seconds, self.wall.get(at, seconds))

    def row(self, kind: str, crews: Sequence[Crew], phase: str) -> list[float]:
        return [self.wall[kind, crew, phase] for crew in crews]


def time_long_batches(command: Command) -> dict[str, float]:
    """Returns for each phase the total seconds of its batches."""
    took, last = dict.fromkeys(PHASES, 0.0), 0.0
    with subprocess.Popen(command, stdout=subprocess.PIPE, text=True, bufsize=1) as process:
        for line in process.stdout or ():
            now = time.perf_counter()
            word, phase = line.split()
            if word == "batch":
                took[phase] += now - last
            last = now
    if process.returncode:
        sys.exit(f"{command} ended with {process.returncode}")
    return took


def measure_long(clock: Clock, program: str, crews: Sequence[Crew], repeats: int) -> None:
    for _, kind, (workers, grain) in itertools.product(range(repeats), SETTINGS, crews):
        print(f"  long batches: {kind}, {workers} workers, grain {grain}", file=sys.stderr)
        numbers = map(str, (*SETTINGS[kind], workers, grain))
        for phase, seconds in time_long_batches([program, *numbers]).items():
            clock.add(kind, (workers, grain), phase, seconds)


def short_phases(work: Workload) -> list[Phase]:
    few = work.shuffled[: len(work.keys) // 5]
    return [
        Phase("load", len(work.keys), LONG, lambda: work.puts(work.keys)),
        Phase("gets, one a batch", len(few), 1, lambda: gets(few)),
        Phase("puts, one a batch", len(few), 1, lambda: work.puts(few, 2)),
        Phase("gets, 1,000 a batch", len(few), 1_000, lambda: gets(few)),
        Phase("puts, 1,000 a batch", len(few), 1_000, lambda: work.puts(few, 3)),
    ]


def measure_short(clock: Clock, program: Path, crews: Sequence[Crew], phases: Sequence[Phase], repeats: int, text: Path) -> None:
    write_phases(text, phases)
    digests: dict[tuple[str, str], str] = {}
    for _, kind, (workers, grain) in itertools.product(range(repeats), stores.SETTINGS, crews):
        print(f"  short batches: {kind}, {workers} workers", file=sys.stderr)
        command: Command = [program, *stores.SETTINGS[kind][0], "--workers", str(workers), "--grain", str(grain)]
        for phase, sample in zip(phases, run_phases(command, text, phases)[1]):
            if digests.setdefault((kind, phase.name), sample.digest) != sample.digest:
                sys.exit(f"{kind}, {phase.name}: {workers} workers print other lines")
            clock.add(kind, (workers, grain), phase.name, sample.wall)


def measure_recovery(clock: Clock, work: Workload, program: Path, repeats: int, folder: Path) -> None:
    store = StoreText("flushed at once", [Puts(work.keys, AT_END)])
    text = folder / "session"
    store.write(work, text)
    for kind, (settings, seg_size) in stores.SETTINGS.items():
        StoreProgram([program], settings, seg_size, folder / "store").write(store, text)
        for workers in WORKERS:
            crew = StoreProgram([program, "--workers", str(workers)], settings, seg_size, folder / "store")
            clock.add(kind, (workers, GRAIN), "recovery", least(crew.recover() for _ in range(repeats)).wall)


def print_workers(clock: Clock, phases: dict[str, str], crews: Sequence[Crew]) -> None:
    for kind in SETTINGS:
        rows = []
        for phase, name in phases.items():
            seconds = clock.row(kind, crews, phase)
            rows.append([name, *(f"{each:.2f} ({seconds[0] / each:.2f})" for each in seconds)])
        print_table([kind, *(f"{workers} workers" for workers, _ in crews)], rows)


def print_grains(clock: Clock, crews: Sequence[Crew]) -> None:
    for kind in SETTINGS:
        rows = [[name, *(f"{each:.2f}" for each in clock.row(kind, crews, phase))] for phase, name in PHASES.items()]
        print_table([f"{kind}, {MANY} workers, grain", *(f"{grain:,}" for _, grain in crews)], rows)


def main() -> None:
    parser = argparse.ArgumentParser(description=__doc__)
    parser.add_argument("calls", help="path of the program built from crew/main.rt.in")
    parser.add_argument("--repeats", type=int, default=2, help="runs of each measurement; the least time is reported")
    parser.add_argument("--program", type=Path, default=PROGRAM)
    options = parser.parse_args()
    exit_if_missing(options.program)
    work, clock = Workload(1_000_000), Clock()
    by_workers = [(workers, GRAIN) for workers in WORKERS]
    by_grain = [(MANY, grain) for grain in GRAINS]
    few = [(1, GRAIN), (MANY, GRAIN)]
    phases = short_phases(work)
    with tempfile.TemporaryDirectory() as name:
        folder = Path(name)
        measure_long(clock, options.calls, by_workers, options.repeats)
        measure_long(clock, options.calls, [crew for crew in by_grain if crew not in by_workers], 1)
        measure_short(clock, options.program, few, phases, options.repeats, folder / "short")
        measure_recovery(clock, work, options.program, options.repeats, folder)
    print_workers(clock, PHASES | {"recovery": "recovery"}, by_workers)
    print_workers(clock, {phase.name: phase.name for phase in phases[1:]}, few)
    print_grains(clock, by_grain)


if __name__ == "__main__":
    main()
