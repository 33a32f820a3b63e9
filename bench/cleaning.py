#!/usr/bin/env python3
"""Measures a store whose log is cleaned when it is full. README.md describes the measurement and how to build the program."""

import argparse
import subprocess
import sys
import time
from dataclasses import dataclass, field

POLICIES = ["never", "full", "early"]


@dataclass
class PolicyRun:
    policy: str
    steps: dict[str, list[float]] = field(default_factory=dict)  # seconds of each step of this kind
    written: dict[str, int] = field(default_factory=dict)  # total bytes of the steps of this kind
    rounds: list[float] = field(default_factory=list)  # seconds of each batch, with its flush and cleans
    pairs: int = 0

    def add(self, word: str, seconds: float, written: int) -> None:
        self.steps.setdefault(word, []).append(seconds)
        self.written[word] = self.written.get(word, 0) + written

    def total(self) -> float:
        """Returns the seconds of all steps except the load, the load's flush and the generation of the batches."""
        return sum(self.rounds)


def run(program: str, policy: str) -> PolicyRun:
    ran = PolicyRun(policy)
    with subprocess.Popen([program, policy], stdout=subprocess.PIPE, text=True, bufsize=1) as process:
        last, was, first, current = time.perf_counter(), 0, True, 0.0
        for line in process.stdout or ():
            now = time.perf_counter()
            word, last_word = line.split()
            number = int(last_word)
            if word == "end":
                ran.pairs = number
                break
            seconds, last = now - last, now
            ran.add("first " + word if first and word != "load" else word, seconds, number - was)
            was = number
            if word == "made":
                if not first:
                    ran.rounds.append(current)
                first, current = False, 0.0
            elif not first:
                current += seconds
        ran.rounds.append(current)
    if process.returncode:
        sys.exit(f"{program} {policy} ended with {process.returncode}")
    return ran


def row(ran: PolicyRun) -> list[str]:
    def of(word: str) -> list[float]:
        return ran.steps.get(word, [])

    flushed, cleaned = ran.written.get("flush", 0), ran.written.get("clean", 0)
    amplification = f"{(flushed + cleaned) / flushed:.2f}" if flushed else "-"
    longest = {word: f"{max(of(word)) * 1000:.1f}" if of(word) else "-" for word in ("batch", "flush", "clean")}
    return [
        ran.policy,
        f"{ran.total():.2f}",
        *(f"{sum(of(word)):.2f}" for word in ("batch", "flush", "clean")),
        str(len(of("clean"))),
        f"{flushed / 1e6:.1f}",
        f"{cleaned / 1e6:.1f}",
        amplification,
        *longest.values(),
        f"{max(ran.rounds) * 1000:.1f}",
    ]


HEAD = "policy,total s,batches s,flushes s,cleans s,cleans,flushed MB,carried MB,written by flushed".split(",")
HEAD += "longest batch ms,longest flush ms,longest clean ms,longest round ms".split(",")


def main() -> None:
    parser = argparse.ArgumentParser(description=__doc__)
    parser.add_argument("program", help="path of the program built from cleaning/main.rt.in")
    parser.add_argument("--repeats", type=int, default=1, help="runs of each policy; the shortest is reported")
    options = parser.parse_args()
    print("| " + " | ".join(HEAD) + " |")
    print("|" + "---|" * len(HEAD))
    for policy in POLICIES:
        ran = min((run(options.program, policy) for _ in range(options.repeats)), key=PolicyRun.total)
        print("| " + " | ".join(row(ran)) + " |", flush=True)


if __name__ == "__main__":
    main()
