"""Times a program that runs a batch file, phase by phase, and keeps the best samples."""

import hashlib
import itertools
import subprocess
import sys
import time
from collections.abc import Sequence
from dataclasses import dataclass
from pathlib import Path

from bench.peer_programs import PEER
from bench.workload import HALF, LOAD, LONG, Phase
from tools.processes import Command, pipe_of, processor_seconds, resident_memory


@dataclass
class Sample:
    cpu: float  # user and system seconds
    wall: float
    digest: str  # of the output lines
    resident: int  # bytes, at the end of the phase
    batches: list[float]  # processor seconds of each batch, if batches are long


class TimedProgram:
    """A program that runs a batch file. While its output is read line by line, its processor time and memory are measured."""

    def __init__(self, command: Command, text: str | Path, pipe_bytes: int = -1) -> None:
        self.command = command
        with open(text, "rb") as file:
            self.child = subprocess.Popen(command, stdin=file, stdout=subprocess.PIPE, bufsize=0, pipesize=pipe_bytes)
        self.output = pipe_of(self.child.stdout)
        self.unread = b""  # read from the pipe; belongs to later lines

    def read_lines(self, count: int, digest: "hashlib.blake2b") -> None:
        while count:
            chunk = self.unread or self.output.read(1 << 16)
            if not chunk:
                sys.exit(f"{self.command}: ended with status {self.child.wait()} before it had answered all")
            *_, self.unread = chunk.split(b"\n", count) if chunk.count(b"\n") >= count else (b"",)
            read = chunk[: len(chunk) - len(self.unread)]
            count -= read.count(b"\n")
            digest.update(read)

    def cpu(self) -> float:
        return processor_seconds(self.child.pid)

    def resident(self) -> int:
        return resident_memory(self.child.pid)

    def phase(self, lines: Sequence[int], by_batch: bool = False) -> Sample:
        """Times a phase whose batches print this many lines each; with `by_batch`, also each batch."""
        parts = lines if by_batch else [sum(lines)]
        digest = hashlib.blake2b()
        wall, marks = time.monotonic(), [self.cpu()]
        for part in parts:
            self.read_lines(part, digest)
            marks.append(self.cpu())
        each = [end - start for start, end in itertools.pairwise(marks)]
        wall = time.monotonic() - wall
        return Sample(sum(each), wall, digest.hexdigest(), self.resident(), each)

    def finish(self) -> None:
        self.output.close()
        self.child.wait()

    def finish_successfully(self) -> None:
        self.finish()
        if self.child.returncode:
            sys.exit(f"{self.command}: ended with status {self.child.returncode}")


def run_phases(command: Command, text: Path, phases: Sequence[Phase]) -> tuple[int, list[Sample]]:
    """Runs a batch file with these phases. Returns the memory before them (the input and its commands) and their samples."""
    lines = [phase.lines() for phase in phases]  # before the program starts, because it would run ahead meanwhile
    program = TimedProgram(command, text)
    before = program.phase([1]).resident
    samples = [program.phase(each, phase.batch == LONG) for each, phase in zip(lines, phases)]
    program.finish()
    return before, samples


class Results:
    """The best samples by phase and program, all processor times, and the memory of the load and the mixed phase."""

    def __init__(self) -> None:
        self.best: dict[tuple[Phase, str], Sample] = {}
        self.seconds: dict[tuple[Phase, str], list[float]] = {}
        self.memory: dict[tuple[str, str], float] = {}  # bytes per pair, by phase and program

    def add(self, program: str, phases: Sequence[Phase], before: int, samples: Sequence[Sample]) -> None:
        for phase, sample in zip(phases, samples):
            self.compare(program, phase, sample)
            self.seconds.setdefault((phase, program), []).append(sample.cpu)
            known = self.best.setdefault((phase, program), sample)
            if sample.cpu < known.cpu:
                self.best[phase, program] = sample
            known = self.best[phase, program]
            known.batches = [min(pair) for pair in zip(known.batches, sample.batches)]
            if phase.name in (LOAD, HALF):
                taken = (sample.resident - before) / phases[0].count
                self.memory[phase.name, program] = min(taken, self.memory.get((phase.name, program), taken))

    def compare(self, program: str, phase: Phase, sample: Sample) -> None:
        for (other_phase, other), known in self.best.items():
            if other_phase == phase and known.digest != sample.digest:
                sys.exit(f"{phase.name}: {program} and {other} print different lines")

    def phases(self) -> list[Phase]:
        return list(dict.fromkeys(phase for phase, _ in self.best))

    def speed(self, phase: Phase, program: str) -> float | None:
        if (phase, PEER) not in self.best:
            return None
        return self.best[phase, PEER].cpu / self.best[phase, program].cpu

    def growth(self, programs: Sequence[str]) -> dict[str, list[tuple[int, float]]]:
        load = next(phase for phase in self.phases() if phase.name == LOAD)
        lengths = load.batches()
        ends = list(itertools.accumulate(lengths))
        lines = {}
        for name in programs:
            each = self.best[load, name].batches
            points = zip(ends, (seconds / length * 1e9 for seconds, length in zip(each, lengths)))
            lines[name] = list(points)
        return lines
