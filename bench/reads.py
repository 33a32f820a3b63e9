#!/usr/bin/env python3
"""Measures calls that copy nothing (`Store::get`, `range`, `range_back`) against std's BTreeMap, and `copy_to` against a load in key order.
README.md describes the measurement."""

import argparse
import subprocess
import sys
import tempfile
from collections.abc import Sequence
from pathlib import Path

sys.path.insert(0, str(Path(__file__).resolve().parent.parent))

from bench.peer_programs import PEER, build_rust_peer
from tools import building
from tools.processes import pipe_of, processor_seconds, wait_for_end

SETTINGS = {"fan 64, chain 16": ["64", "16"], "defaults": ["16", "4"]}
READS = {"get": 1_000_000, "batch": 1_000_000, "range": 200_000, "back": 200_000, "copy": 1}  # calls of each kind
UNITS = {"copy": (1e9 / 1_000_000, "ns a pair")}  # the other units are ns per call


def seconds(command: Sequence[str | Path]) -> tuple[float, bytes]:
    """Returns the processor seconds from the line after the load to the end, and the last line."""
    process = subprocess.Popen(command, stdout=subprocess.PIPE)
    with pipe_of(process.stdout) as output:
        assert output.readline() == b"loaded\n"
        before = processor_seconds(process.pid)
        answer = output.readline().strip()
        after = wait_for_end(process)
    if process.returncode:
        sys.exit(f"{command!r} ended with {process.returncode}")
    return after - before, answer


def main() -> None:
    parser = argparse.ArgumentParser(description=(__doc__ or "").splitlines()[0])
    parser.add_argument("--library", type=Path, default=building.BUILT, help="folder of range_bench, which is built if it is missing")
    parser.add_argument("--repeats", type=int, default=3, help="runs of each measurement; the least time is reported")
    parser.add_argument("--reads", nargs="*", default=list(READS), choices=list(READS))
    options = parser.parse_args()
    program = options.library / "range_bench"
    if not program.exists():
        building.build_proved(program.name, program)
    with tempfile.TemporaryDirectory() as folder:
        peer = build_rust_peer(Path(folder), "range/peer.rs")
        commands: dict[str, Sequence[str | Path]] = {PEER: peer} if peer else {}
        commands |= {name: [program, *numbers] for name, numbers in SETTINGS.items()}
        print("read", *commands, sep=" | ")
        print("---", *("---" for _ in commands), sep="|")
        for read in options.reads:
            count = READS[read]
            by, unit = UNITS.get(read, (1e9 / count, "ns a call"))
            figures: list[str] = []
            answers: set[bytes] = set()
            for command in commands.values():
                runs = [seconds([*command, str(count), read]) for _ in range(options.repeats)]
                figures.append(f"{min(taken for taken, _ in runs) * by:,.0f}")
                answers |= {answer for _, answer in runs}
            if len(answers) != 1:
                sys.exit(f"{read}: the programs print different sums: {answers}")
            print(f"{read}, {unit}", *figures, sep=" | ", flush=True)


if __name__ == "__main__":
    main()
