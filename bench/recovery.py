#!/usr/bin/env python3
"""Measures how long the program takes to write a store to its file and to recover it. README.md describes the measurement."""

import argparse
import sys
import tempfile
import time
from collections.abc import Sequence
from dataclasses import dataclass
from pathlib import Path

sys.path.insert(0, str(Path(__file__).resolve().parent.parent))

from bench.peer_programs import PEER, build_rust_peer
from bench.stores import AT_END, SETTINGS, Puts, Seconds, StoreProgram, StoreText, Timed, least, written_bytes
from bench.tables import at_least, at_most
from bench.timing import run_phases
from bench.workload import LONG, Phase, Workload, write_phases
from tools.processes import PROGRAM, exit_if_missing

Programs = dict[str, StoreProgram]
Times = dict[str, Seconds]  # by program


def recovered_stores(work: Workload) -> list[StoreText]:
    load, half = Puts(work.keys, AT_END), work.shuffled[: len(work.keys) // 2]
    return [
        StoreText("flushed at once", [load]),
        StoreText("a half put anew, one flush", [load, Puts(half, AT_END, 1)]),
        StoreText("a half put anew, each batch flushed", [load, Puts(half, 1, 1)]),
    ]


def written_stores(work: Workload) -> list[StoreText]:
    orders = [work.keys, *(work.random.sample(work.keys, len(work.keys)) for _ in range(3))]
    four_times = [key for keys in orders for key in keys]
    return [StoreText("each key put once", [Puts(work.keys, 10)]), StoreText("each key put four times", [Puts(four_times, 10)])]


def read_alone(path: Path) -> Seconds:
    buffer, rest = bytearray(1 << 20), written_bytes(path)
    start = time.process_time(), time.monotonic()
    with open(path, "rb", buffering=0) as file:
        while rest > 0:
            rest -= file.readinto(buffer) or 0
    return Seconds(time.process_time() - start[0], time.monotonic() - start[1])


@dataclass
class Recovery:
    length: int
    read: Seconds
    recovery: Seconds
    highest: int
    resident: int


def measure_load(program: StoreProgram, work: Workload, repeats: int, text: Path) -> tuple[float, int]:
    phase = Phase("load in key order", len(work.keys), LONG, lambda: work.puts(sorted(work.keys)))
    write_phases(text, [phase])
    runs = [run_phases([*program.command, *program.settings], text, [phase]) for _ in range(repeats)]
    return min(samples[0].cpu for _, samples in runs), min(samples[0].resident - before for before, samples in runs)


def measure_recovery(program: StoreProgram, store: StoreText, work: Workload, repeats: int, text: Path) -> Recovery:
    store.write(work, text)
    program.write(store, text)
    highest, resident = program.recovery_memory(text, store.rows(work))
    length, read = written_bytes(program.disk), least(read_alone(program.disk) for _ in range(repeats))
    return Recovery(length, read, least(program.recover() for _ in range(repeats)), highest, resident)


def measure_writing(programs: Programs, store: StoreText, work: Workload, repeats: int, text: Path) -> tuple[Times, Times]:
    """Measures how long each program takes to write and to recover the store. The programs run in turn, and must print the same."""
    store.write(work, text)
    writes: dict[str, list[Timed]] = {}
    recoveries: dict[str, list[Timed]] = {}
    digests = set()
    for _ in range(repeats):
        for name, program in programs.items():
            print(f"  {store.name}: {name}", file=sys.stderr)
            sample = program.write(store, text)
            digests.add(sample.digest)
            writes.setdefault(name, []).append(sample)
            recoveries.setdefault(name, []).append(program.recover())
    if len(digests) > 1:
        sys.exit(f"{store.name}: the programs print different lines")
    rows = store.rows(work)
    for program in programs.values():
        program.recovery_memory(text, rows)
    return {name: least(times) for name, times in writes.items()}, {name: least(times) for name, times in recoveries.items()}


Loads = dict[str, tuple[float, int]]  # by program: processor seconds and bytes
Recoveries = dict[tuple[str, str], Recovery]  # by program and store


def print_recoveries(loads: Loads, found: Recoveries) -> None:
    print("\n| recovery | | written, MB | read alone, s | recovery, s | by the clock, s | load in key order, s "
          "| highest, MB | recovered, MB | loaded in memory, MB |\n|---|---|---|---|---|---|---|---|---|---|")
    for (kind, name), each in found.items():
        load, loaded = loads[kind]
        times = " | ".join(f"{seconds:.2f}" for seconds in (each.read.cpu, each.recovery.cpu, each.recovery.wall, load))
        memory = " | ".join(f"{count / 1e6:,.0f}" for count in (each.highest, each.resident, loaded))
        print(f"| {kind} | {name} | {each.length / 1e6:,.0f} | {times} | {memory} |")


def print_writings(found: dict[str, Times], names: Sequence[str]) -> None:
    heads = [f"{name}, s | by the clock, s" + " | speed | by the clock" * (name != PEER and PEER in names) for name in names]
    print(f"\n| with a file | {' | '.join(heads)} |\n|---|{'---|' * sum(head.count('|') + 1 for head in heads)}")
    for what, took in found.items():
        cells = []
        for name in names:
            cells += [f"{took[name].cpu:.2f}", f"{took[name].wall:.2f}"]
            cells += [f"{speed:.2f}" for speed in speeds(took, name)]
        print(f"| {what} | {' | '.join(cells)} |")


def speeds(took: Times, name: str) -> list[float]:
    """Returns the program's speed relative to the peer, by processor time and by the clock; empty if there is no peer."""
    if name == PEER or PEER not in took:
        return []
    return [took[PEER].cpu / took[name].cpu, took[PEER].wall / took[name].wall]


def print_verdicts(loads: Loads, recovered: Recoveries, written: dict[str, Times], kinds: Sequence[str]) -> None:
    print(f"\n| | wanted | {' | '.join(kinds)} |\n|---|---|{'---|' * len(kinds)}")
    for name in dict.fromkeys(name for _, name in recovered):
        rows = [(kind, recovered[kind, name]) for kind in kinds]
        cells = " | ".join(at_most(each.recovery.cpu / loads[kind][0], 1.0) for kind, each in rows)
        print(f"| recovery by load in key order: {name} | 1.00 at most | {cells} |")
        cells = " | ".join(at_most(each.highest / each.resident, 1.3) for _, each in rows)
        print(f"| memory at its highest by that of the store: {name} | 1.30 at most | {cells} |")
    for what, wanted in {"writing, each key put once": 1.0, "recovery, each key put four times": 3.0}.items():
        pairs = [speeds(written[what], kind) for kind in kinds]
        for place, clock in enumerate(["processor", "clock"]):
            cells = " | ".join(at_least(pair[place], wanted) if pair else "" for pair in pairs)
            print(f"| speed of {what}, {clock} | {wanted:.2f} | {cells} |")


def arguments() -> argparse.Namespace:
    parser = argparse.ArgumentParser(description=__doc__)
    parser.add_argument("--quick", action="store_true", help="use a fifth of the pairs, and run each measurement once")
    parser.add_argument("--pairs", type=int, default=1_000_000)
    parser.add_argument("--repeats", type=int, default=3, help="runs of each measurement; the least time is reported")
    parser.add_argument("--program", type=Path, default=PROGRAM)
    parser.add_argument("--peer", action="store_true", help="measure the peer instead of the program, to test this script")
    parser.add_argument("--folder", type=Path, help="folder for the files, on the disk to be measured")
    options = parser.parse_args()
    if not options.peer:
        exit_if_missing(options.program)
    if options.quick:
        options.pairs, options.repeats = options.pairs // 5, 1
    return options


def measure_recoveries(programs: Programs, work: Workload, repeats: int, text: Path) -> Recoveries:
    found: Recoveries = {}
    for store in recovered_stores(work):
        for kind, program in programs.items():
            print(f"  {store.name}: {kind}", file=sys.stderr)
            found[kind, store.name] = measure_recovery(program, store, work, repeats, text)
    return found


def measure_writings(programs: Programs, work: Workload, repeats: int, text: Path) -> dict[str, Times]:
    found: dict[str, Times] = {}
    for store in written_stores(work):
        writes, recoveries = measure_writing(programs, store, work, repeats, text)
        found |= {f"writing, {store.name}": writes, f"recovery, {store.name}": recoveries}
    return found


def main() -> None:
    options = arguments()
    with tempfile.TemporaryDirectory(dir=options.folder) as name:
        folder = Path(name)
        text = folder / "session"
        peer = build_rust_peer(folder, "log_peer.rs")
        command = peer if options.peer and peer else [options.program]
        programs = {kind: StoreProgram(command, *settings, folder / kind) for kind, settings in SETTINGS.items()}
        both = ({PEER: StoreProgram(peer, [], 65_536, folder / PEER)} if peer else {}) | programs
        work = Workload(options.pairs)
        loads = {kind: measure_load(program, work, options.repeats, text) for kind, program in programs.items()}
        recovered = measure_recoveries(programs, work, options.repeats, text)
        written = measure_writings(both, work, options.repeats, text)
    print_recoveries(loads, recovered)
    print_writings(written, list(both))
    print_verdicts(loads, recovered, written, list(SETTINGS))


if __name__ == "__main__":
    main()
