#!/usr/bin/env python3
"""Counts what a batch costs, with valgrind's callgrind: per command and phase the instructions, the misses of a 2 MB last-level cache, and the
requests for memory.

The counts do not depend on the load of the machine, so they compare two trees more precisely than times do. Builds `crew/` from the crates of each
tree, without run-time checks, as if it were proved. The sorted BTreeMap of `crew/peer.rs` is counted too. Other threads are not counted, so batches
are shorter than the 4,096 commands from which several threads may sort. Needs valgrind and a C compiler.
"""

import argparse
import re
import sys
import tempfile
from collections.abc import Mapping, Sequence
from dataclasses import dataclass
from pathlib import Path

sys.path.insert(0, str(Path(__file__).resolve().parent.parent))

from bench.peer_programs import PEER, build_rust_peer
from bench.preloaded import COUNTED, REQUESTS, build_preloaded, reported, run_preloaded
from bench.tables import print_table
from tools import building

HERE = Path(__file__).resolve().parent
PHASES = {"load": "load", "gets": "gets", "half": "half and half", "singles": "puts, one a batch", "deletes": "deletes"}
SETTINGS = {"64/16": (64, 16), "16/4": (16, 4)}
CACHE = ["--cache-sim=yes", "--LL=2097152,16,64"]
COUNTING = ["valgrind", "-q", "--tool=callgrind", "--collect-atstart=no", *CACHE]


@dataclass(frozen=True)
class Count:
    instructions: int
    misses: int
    requests: float  # for memory, by malloc, calloc or realloc

    def cell(self, commands: int, first: "Count | None") -> str:
        change = f" {self.instructions / first.instructions - 1:+.1%}" if first else ""
        return f"{self.instructions / commands:,.0f}{change} · {self.misses / commands:.1f} · {self.requests / commands:.2f}"


@dataclass(frozen=True)
class Libraries:
    counted: Path
    requests: Path
    allocator: Sequence[Path]  # one, or none for the C library's


Counted = dict[str, Count]  # by phase


def build_program(tree: Path, folder: Path) -> Path:
    program = folder / "crew_bench"
    building.build_unproved(program.name, program, tree, is_stripped=True)
    return program


def fields(text: str, name: str) -> list[str]:
    found = re.search(rf"^{name}: (.*)$", text, re.M)
    return found[1].split() if found else []


def count(program: Path, libraries: Libraries, numbers: Sequence[int]) -> Counted:
    counted: Counted = {}
    words = [str(number) for number in numbers]
    requests = reported([program, *words], libraries.requests)
    with tempfile.TemporaryDirectory() as folder:
        run_preloaded([*COUNTING, f"--callgrind-out-file={folder}/counted", program, *words], libraries.counted, *libraries.allocator)
        for dump in Path(folder).iterdir():
            text = dump.read_text(errors="replace")
            phase = re.search(r"Client Request: (\w+)", text)
            if phase:
                events = fields(text, "events")
                sums = dict.fromkeys(events, 0) | dict(zip(events, map(int, fields(text, "totals"))))  # zeros at the end are left out
                counted[phase[1]] = Count(sums["Ir"], sums["DLmr"] + sums["DLmw"], requests[phase[1]][0])
    return counted


def row(names: Sequence[str | Path], counted: Counted, first: Counted, commands: Mapping[str, int]) -> list[str]:
    """Returns a table's row. From the second tree on, its cells have the difference in instructions from the first tree."""
    name = ", ".join(word.name if isinstance(word, Path) else word for word in names)
    return [name, *(counted[phase].cell(commands[phase], None if first is counted else first[phase]) for phase in PHASES if phase in counted)]


def main() -> None:
    parser = argparse.ArgumentParser(description=(__doc__ or "").splitlines()[0])
    parser.add_argument("trees", nargs="*", type=Path, default=[HERE.parent], help="checkouts to compare (default: this one)")
    parser.add_argument("--pairs", type=int, default=60_000)
    parser.add_argument("--batch", type=int, default=4_000, help="commands in a batch")
    parser.add_argument("--value", type=int, default=100, help="bytes of a value, at most 200")
    parser.add_argument("--singles", type=int, default=2_000, help="number of puts in batches of one command")
    parser.add_argument("--settings", nargs="*", choices=SETTINGS, default=list(SETTINGS))
    parser.add_argument("--allocator", nargs="*", type=Path, default=[], help="also count with these libraries preloaded, as libjemalloc.so.2")
    options = parser.parse_args()
    commands = dict.fromkeys(PHASES, options.pairs) | {"singles": options.singles}
    rest = 1, 64, options.pairs, options.batch, options.value, options.singles
    allocators: list[list[Path]] = [[], *([path] for path in options.allocator)]
    rows: list[list[str]] = []
    with tempfile.TemporaryDirectory() as made:
        folder = Path(made)
        counted_by, requests = build_preloaded(COUNTED, folder), build_preloaded(REQUESTS, folder)
        programs = {str(tree): build_program(tree.resolve(), folder / f"tree{at}") for at, tree in enumerate(options.trees)}
        peer = build_rust_peer(folder, "crew/peer.rs") or []
        for allocator in allocators:
            libraries = Libraries(counted_by, requests, allocator)
            for name in options.settings:
                first: Counted = {}
                for tree, program in programs.items():
                    counted = count(program, libraries, (*SETTINGS[name], *rest))
                    first = first or counted
                    rows.append(row([tree, name, *allocator], counted, first, commands))
            for program in peer:
                counted = count(program, libraries, (64, 16, *rest))
                rows.append(row([PEER, *allocator], counted, counted, commands))
    print_table(["instructions, cache misses and requests for memory, a command", *PHASES.values()], rows)


if __name__ == "__main__":
    main()
