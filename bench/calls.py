"""Measures batches without what surrounds them in `bwsh`: the processor seconds of the library's calls alone, beside a sorted BTreeMap. (In most
other rows both programs also parse commands and print replies.)"""

import sys
from collections.abc import Mapping
from dataclasses import dataclass
from pathlib import Path

from bench.preloaded import STAMPED, build_preloaded, reported

NAMES = {
    "load": "load",
    "gets": "gets",
    "zipf": "gets by Zipf",
    "scans": "scans of 100 rows",
    "single_gets": "gets, one a batch",
    "half": "half gets, half puts",
    "singles": "puts, one a batch",
    "deletes": "deletes of all keys",
}
Goal = tuple[float | None, float | None]  # with a large fan and chain, and with the defaults
TimedCommand = tuple[list[str | Path], tuple[int, int]]  # a program, and its fan and chain


@dataclass(frozen=True)
class Run:
    """A run of `crew_bench`. A phase without a goal is not reported."""

    title: str
    pairs: float  # as a multiple of the pairs of most rows
    batch: int
    value_bytes: int
    goals: Mapping[str, Goal]
    singles: int = 0
    reads: int = 0

    def numbers(self, settings: tuple[int, int], pairs: int) -> list[str]:
        return [str(number) for number in (*settings, 1, 64, int(pairs * self.pairs), self.batch, self.value_bytes, self.singles, self.reads)]

    def count(self, phase: str, pairs: int) -> int:
        counts = {"zipf": self.reads, "scans": self.reads // 50, "single_gets": self.singles, "singles": self.singles}
        return counts.get(phase, int(pairs * self.pairs))


LONG = 65_535
RUNS = [
    Run("", 1, LONG, 100, {"load": (1.8, 1.1), "gets": (1.8, 1.0), "half": (1.2, 1.0), "deletes": (1.4, 0.8)}),
    Run("", 1, LONG, 100, {"zipf": (1.6, 1.0), "scans": (1.3, 1.0)}, reads=1_000_000),
    Run("4 times the pairs", 4, LONG, 100, {"load": (1.3, None), "gets": (1.5, None), "half": (1.3, None), "deletes": (1.0, None)}),
    Run("values of 8 bytes", 1, LONG, 8, {"load": (2.5, 1.3), "gets": (2.5, 1.3), "half": (2.5, 1.3)}),
    Run("values of 16 bytes", 1, LONG, 16, {"load": (2.0, 1.3), "gets": (2.0, 1.3), "half": (2.0, 1.3)}),
    Run("1,000 a batch", 0.5, 1_000, 100, {"load": (1.4, 1.0), "gets": (2.0, 1.0), "half": (1.2, 1.0), "deletes": (0.9, 1.0)}),
    Run("after a load", 0.3, LONG, 100, {"single_gets": (1.0, 1.0), "singles": (0.6, 0.6)}, singles=60_000),
]


def measure(run: Run, programs: Mapping[str, TimedCommand], pairs: int, repeats: int, folder: Path) -> dict[str, dict[str, list[float]]]:
    """Runs the programs in turn. Returns the seconds of each run, by phase and program."""
    library = build_preloaded(STAMPED, folder)
    seconds: dict[str, dict[str, list[float]]] = {phase: {} for phase in run.goals}
    for _ in range(repeats):
        for name, (command, settings) in programs.items():
            print(f"  calls alone, {run.title or 'most rows'}: {name}", file=sys.stderr)
            taken = reported([*command, *run.numbers(settings, pairs)], library)
            for phase in run.goals:
                seconds[phase].setdefault(name, []).append(taken[phase][0])
    return seconds
