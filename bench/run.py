#!/usr/bin/env python3
"""Measures the program against std's BTreeMap. README.md describes the measurement."""

import argparse
import sys
import tempfile
from collections.abc import Sequence
from pathlib import Path

sys.path.insert(0, str(Path(__file__).resolve().parent.parent))

from bench.peer_programs import PEER, build_rust_peer
from bench.tables import print_table
from bench.timing import Results, Sample, TimedProgram, run_phases
from bench.workload import HALF, KEY, LOAD, LONG, VALUE, Phase, Workload, dels, gets, write_phases
from tools.processes import PROGRAM, Command, exit_if_missing


def sessions(work: Workload) -> list[list[Phase]]:
    pairs = len(work.keys)
    few = work.shuffled[: pairs // 5]
    starts = work.shuffled[: pairs // 50]

    def printed() -> list[int]:
        return work.lines_of_scans(starts, 100)

    load = Phase(LOAD, pairs, LONG, lambda: work.puts(work.keys))
    return [
        [
            load,
            Phase("gets", pairs, LONG, lambda: gets(work.shuffled)),
            Phase("gets by Zipf", pairs, LONG, lambda: gets(work.zipf())),
            Phase(HALF, pairs, LONG, lambda: work.half(work.shuffled, 1)),
            Phase("deletes of all keys", pairs, LONG, lambda: dels(work.shuffled)),
        ],
        [Phase("load in key order", pairs, LONG, lambda: work.puts(sorted(work.keys)))],
        [
            load,
            Phase("gets, one a batch", len(few), 1, lambda: gets(few)),
            Phase("puts, one a batch", len(few), 1, lambda: work.puts(few, 2)),
        ],
        [
            Phase("load, 256 a batch", pairs, 256, lambda: work.puts(work.keys)),
            Phase("gets, 256 a batch", pairs, 256, lambda: gets(work.shuffled)),
            Phase("half and half, 256 a batch", pairs, 256, lambda: work.half(work.shuffled, 3)),
        ],
        [
            load,
            Phase("scans of 100 rows", len(starts), 1_000, lambda: work.scans(starts, 100), printed),
            Phase("scans of 100 rows, one a batch", len(starts), 1, lambda: work.scans(starts, 100), printed),
            Phase("open scans of 100 rows", len(starts), 1_000, lambda: work.open_scans(starts, 100), printed),
            Phase("open scans of 100 rows, one a batch", len(starts), 1, lambda: work.open_scans(starts, 100), printed),
            Phase("first row, 10,000 times in a batch", 50_000, 10_000, lambda: ["scan % * 1"] * 50_000, lambda: [2] * 50_000),
            Phase("one scan of all pairs", 1, 1, lambda: ["scan % * 4294967295"], lambda: [1 + pairs]),
        ],
    ]


def commands_of(peer: Command | None, program: Path) -> dict[str, Command]:
    all_programs: dict[str, Command] = {PEER: peer} if peer else {}
    for fan in 32, 64:
        all_programs[f"fan {fan}, chain 16"] = [program, "--fan", str(fan), "--chain", "16"]
    all_programs["defaults"] = [program]
    return all_programs


def measure(work: Workload, commands: dict[str, Command], repeats: int, folder: Path) -> Results:
    results = Results()
    text = folder / "session"
    for phases in sessions(work):
        write_phases(text, phases)
        for _ in range(repeats):
            for name, command in commands.items():
                print(f"  {phases[-1].name}: {name}", file=sys.stderr)
                results.add(name, phases, *run_phases(command, text, phases))
    return results


def measure_verify(work: Workload, program: Path, folder: Path) -> dict[str, Sample]:
    """Times `verify` of all pairs, in one thread and in as many as there are processors."""
    load = Phase(LOAD, len(work.keys), LONG, lambda: work.puts(work.keys))
    text = folder / "verify"
    write_phases(text, [load])
    with open(text, "a") as file:
        file.write("verify\n" * 3)
    samples = {}
    prefixes: dict[str, list[str]] = {"one thread": ["taskset", "-c", "0"], "all threads": []}
    for name, prefix in prefixes.items():
        running = TimedProgram([*prefix, program], text)
        running.phase([1])
        running.phase(load.lines())
        samples[name] = min((running.phase([1]) for _ in range(3)), key=lambda sample: sample.wall)
        running.finish()
    if len({sample.digest for sample in samples.values()}) > 1:
        sys.exit("verify prints different lines in one thread and in several")
    return samples


def print_verify(samples: dict[str, Sample]) -> None:
    rows = [[name, f"{sample.cpu:.2f}", f"{sample.wall:.2f}"] for name, sample in samples.items()]
    print_table(["verify, defaults", "processor seconds", "seconds by the clock"], rows)


def cell(results: Results, phase: Phase, program: str) -> str:
    sample = results.best[phase, program]
    speed = results.speed(phase, program)
    shown = "" if program == PEER or speed is None else f" | {speed:.2f}"
    return f"{sample.cpu:.2f} | {sample.cpu / phase.count * 1e9:,.0f}{shown}"


def print_speeds(results: Results, names: Sequence[str]) -> None:
    heads = [f"{name}, s | ns a command" + (" | speed" if name != PEER and PEER in names else "") for name in names]
    columns = sum(head.count("|") + 1 for head in heads)
    print(f"\n| | commands | {' | '.join(heads)} |\n|---|---|{'---|' * columns}")
    for phase in results.phases():
        cells = " | ".join(cell(results, phase, name) for name in names)
        print(f"| {phase.name} | {phase.count:,} | {cells} |")


def print_memory(results: Results, names: Sequence[str], raw: int) -> None:
    print("\n| memory | after the load, bytes a pair | times the raw pair | after half and half, bytes a pair | times the raw pair |")
    print("|---|---|---|---|---|")
    for name in names:
        cells = (f"{results.memory[phase, name]:,.0f} | {results.memory[phase, name] / raw:.2f}" for phase in (LOAD, HALF))
        print(f"| {name} | {' | '.join(cells)} |")


def print_scan_memory(results: Results, names: Sequence[str]) -> None:
    """Prints the memory in use after each phase of scans. Memory of an earlier, larger batch remains in use."""
    print(f"\n| memory after, MB | {' | '.join(names)} |\n|---|{'---|' * len(names)}")
    for phase in results.phases():
        if "scan" in phase.name:
            cells = " | ".join(f"{results.best[phase, name].resident / 1e6:,.0f}" for name in names)
            print(f"| {phase.name} | {cells} |")


def print_growth(results: Results, names: Sequence[str]) -> None:
    """Prints nanoseconds per command in the second, the middle and the last full batch of each phase with long batches."""
    print(f"\n| batch by batch, ns a command | {' | '.join(names)} |\n|---|{'---|' * len(names)}")
    for phase in results.phases():
        full = phase.count // LONG
        if phase.batch != LONG or full < 3:
            continue
        cells = []
        for name in names:
            each = [seconds / LONG * 1e9 for seconds in results.best[phase, name].batches[:full]]
            cells.append(f"{each[1]:,.0f}, {each[full // 2]:,.0f}, {each[-1]:,.0f}")
        print(f"| {phase.name} | {' | '.join(cells)} |")


def arguments() -> argparse.Namespace:
    parser = argparse.ArgumentParser(description=__doc__)
    parser.add_argument("--quick", action="store_true", help="use a fifth of the pairs, and run each session once (about a minute)")
    parser.add_argument("--pairs", type=int, default=1_000_000)
    parser.add_argument("--key-bytes", type=int, default=KEY, help="bytes of a key, at most 64")
    parser.add_argument("--value-bytes", type=int, default=VALUE, help="bytes of a value, at most 256")
    parser.add_argument("--repeats", type=int, default=2, help="runs of each session; the least time is reported")
    parser.add_argument("--program", type=Path, default=PROGRAM)
    options = parser.parse_args()
    if options.quick:
        options.pairs, options.repeats = options.pairs // 5, 1
    return options


def main() -> None:
    options = arguments()
    exit_if_missing(options.program)
    with tempfile.TemporaryDirectory() as name:
        folder = Path(name)
        commands = commands_of(build_rust_peer(folder), options.program)
        work = Workload(options.pairs, options.key_bytes, options.value_bytes)
        results = measure(work, commands, options.repeats, folder)
        verified = measure_verify(work, options.program, folder)
    print_speeds(results, list(commands))
    print_memory(results, list(commands), work.raw)
    print_scan_memory(results, list(commands))
    print_growth(results, list(commands))
    print_verify(verified)


if __name__ == "__main__":
    main()
