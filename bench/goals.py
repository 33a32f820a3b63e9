#!/usr/bin/env python3
"""Measures the engine against its performance goals and its peers, and writes the figures to files. README.md describes the measurement."""

import argparse
import datetime
import itertools
import json
import os
import subprocess
import sys
import tempfile
import time
from collections.abc import Iterable, Iterator, Mapping, Sequence
from pathlib import Path
from typing import Any

sys.path.insert(0, str(Path(__file__).resolve().parent.parent))

from bench import calls, persistent, plot
from bench.crew import GRAIN, PHASES, time_long_batches
from bench.peer_programs import PEER, build_rust_peer
from bench.tables import print_table
from bench.timing import Results, TimedProgram, run_phases
from bench.workload import HALF, LOAD, LONG, Phase, Workload, dels, gets, write_phases
from tools import building, drawing
from tools.processes import PROGRAM, Command, exit_if_missing

HERE = Path(__file__).resolve().parent
LEVELDB = "LevelDB"
BIG, SMALL = "fan 64, chain 16", "defaults"
SETTINGS = {BIG: (64, 16), SMALL: (16, 4)}  # fan and chain
UNIT = "ns a command"  # of most rows
RANGES = 100_000
PARTS = ["speeds", "calls", "lengths", "many pairs", "ranges", "workers", "persistent"]
OVER_LIBRARY = {"calls": "crew", "ranges": "range", "workers": "crew"}  # the parts that need a program that uses the library, and the program's name

Goals = dict[str, float]  # by settings
Figures = dict[str, Any]  # in the JSON file
Row = dict[str, Any]


def goals(big: float | None, small: float | None = None) -> Goals:
    return {name: number for name, number in ((BIG, big), (SMALL, small)) if number is not None}


WORKERS = {2: goals(1.6, 1.5), 4: goals(2.4, 2.2)}  # with what is wanted beside one


def load(work: Workload, name: str = LOAD, batch: int = LONG) -> Phase:
    return Phase(name, len(work.keys), batch, lambda: work.puts(work.keys))


def get_all(work: Workload, name: str = "gets", batch: int = LONG) -> Phase:
    return Phase(name, len(work.keys), batch, lambda: gets(work.shuffled))


def half(work: Workload, name: str = HALF, batch: int = LONG, salt: int = 1) -> Phase:
    return Phase(name, len(work.keys), batch, lambda: work.half(work.shuffled, salt))


GoalSession = list[tuple[Phase, Goals]]  # the phases of one batch file


def speed_sessions(work: Workload) -> list[GoalSession]:
    few, starts = work.shuffled[: len(work.keys) // 5], work.shuffled[: len(work.keys) // 50]
    loaded = load(work), goals(1.0, 0.6)

    def printed() -> list[int]:
        return work.lines_of_scans(starts, 100)

    return [
        [
            loaded,
            (get_all(work), goals(1.0, 0.6)),
            (Phase("gets by Zipf", len(work.keys), LONG, lambda: gets(work.zipf())), goals(1.0, 0.6)),
            (half(work), goals(0.75, 0.55)),
            (Phase("deletes of all keys", len(work.keys), LONG, lambda: dels(work.shuffled)), goals(0.8, 0.55)),
        ],
        [
            loaded,
            (Phase("gets, one a batch", len(few), 1, lambda: gets(few)), goals(1.0, 1.0)),
            (Phase("puts, one a batch", len(few), 1, lambda: work.puts(few, 2)), goals(0.6, 0.6)),
        ],
        [
            (load(work, "load, 256 a batch", 256), goals(0.7, 0.6)),
            (get_all(work, "gets, 256 a batch", 256), goals(1.1, 0.6)),
            (half(work, "half and half, 256 a batch", 256, 3), goals(0.9, 0.6)),
        ],
        [
            loaded,
            (Phase("scans of 100 rows", len(starts), 1_000, lambda: work.scans(starts, 100), printed), goals(1.3, 0.8)),
            (Phase("open scans of 100 rows", len(starts), 1_000, lambda: work.open_scans(starts, 100), printed), goals(1.3, 0.8)),
        ],
    ]


def length_sessions(work: Workload, end: str) -> list[GoalSession]:
    return [[
        (load(work, f"load, {end}"), goals(1.0, 0.6)),
        (get_all(work, f"gets, {end}"), goals(1.0, 0.6)),
        (half(work, f"half and half, {end}"), goals(0.8, 0.6)),
    ]]


def many_sessions(work: Workload) -> list[GoalSession]:
    end = f"{len(work.keys):,} pairs"
    return [[
        (load(work, f"load, {end}"), goals(0.6)),
        (get_all(work, f"gets, {end}"), goals(0.6)),
        (half(work, f"half and half, {end}"), goals(0.6)),
    ]]


def row(
    name: str,
    commands: int,
    unit: str,
    figures: Mapping[str, float],
    reached: Mapping[str, float],
    wanted: Goals,
    runs: Mapping[str, list[float]] | None = None,
    most: bool = False,
) -> Row:
    """Returns a row of the table: figures by program, and results and goals by settings. With `most`, a goal is an upper bound."""
    return {"name": name, "commands": commands, "unit": unit, "figures": figures, "is": reached, "wanted": wanted, "most": most, "all": runs or {}}


class GoalBench:
    def __init__(self, options: argparse.Namespace, folder: Path) -> None:
        self.options, self.folder, self.text = options, folder, folder / "session"
        self.peer = build_rust_peer(folder)
        self.commands: dict[str, Command] = {PEER: self.peer} if self.peer else {}
        self.commands |= {name: [options.program, "--fan", str(fan), "--chain", str(chain)] for name, (fan, chain) in SETTINGS.items()}

    def in_turn(self, names: Iterable[str]) -> Iterator[str]:
        return (name for _ in range(self.options.repeats) for name in names)

    def run(self, sessions: Sequence[GoalSession], names: Sequence[str]) -> tuple[Results, dict[Phase, Goals]]:
        """Runs these sessions with these programs. Returns the results, and the goals of each phase."""
        results = Results()
        wanted: dict[Phase, Goals] = {}
        for session in sessions:
            phases = [phase for phase, _ in session]
            wanted |= session
            write_phases(self.text, phases)
            for name in self.in_turn(names):
                print(f"  {phases[-1].name}: {name}", file=sys.stderr)
                results.add(name, phases, *run_phases(self.commands[name], self.text, phases))
        self.text.unlink()
        return results, wanted

    def speeds(self, results: Results, wanted: dict[Phase, Goals]) -> list[Row]:
        rows = []
        for phase, goal in wanted.items():
            runs = {name: times for (of, name), times in results.seconds.items() if of == phase}
            figures = {name: min(times) / phase.count * 1e9 for name, times in runs.items()}
            reached = {name: figures[PEER] / figures[name] for name in goal if PEER in figures}
            rows.append(row(phase.name, phase.count, UNIT, figures, reached, goal, runs))
        return rows

    def memory(self, results: Results, work: Workload) -> list[Row]:
        """Returns the memory per pair as a multiple of the pair's own bytes."""
        rows = []
        for phase, after, goal in ((LOAD, "the load", goals(1.75, 2.2)), (HALF, "half and half", goals(2.4, 2.8))):
            figures = {name: taken for (of, name), taken in results.memory.items() if of == phase}
            reached = {name: figures[name] / work.raw for name in goal}
            rows.append(row(f"memory by the raw pairs, after {after}", len(work.keys), "bytes a pair", figures, reached, goal, most=True))
        return rows

    def usual(self) -> tuple[list[Row], Mapping[str, Any]]:
        work = Workload(self.options.pairs)
        results, wanted = self.run(speed_sessions(work), list(self.commands))
        return self.speeds(results, wanted) + self.memory(results, work), results.growth(list(self.commands))

    def calls_alone(self) -> list[Row]:
        peer = build_rust_peer(self.folder, "crew/peer.rs") if self.peer else None
        programs: dict[str, calls.TimedCommand] = {PEER: ([*peer], SETTINGS[BIG])} if peer else {}
        programs |= {name: ([self.options.library / "crew_bench"], settings) for name, settings in SETTINGS.items()}
        rows: list[Row] = []
        for run in calls.RUNS:
            measured = calls.measure(run, programs, self.options.pairs, self.options.repeats, self.folder)
            rows += [self.row_of_calls(run, phase, runs) for phase, runs in measured.items()]
        return rows

    def row_of_calls(self, run: calls.Run, phase: str, runs: dict[str, list[float]]) -> Row:
        count, goal = run.count(phase, self.options.pairs), goals(*run.goals[phase])
        figures = {name: min(times) / count * 1e9 for name, times in runs.items()}
        reached = {name: figures[PEER] / figures[name] for name in goal if PEER in figures}
        name = ", ".join(filter(None, ["calls alone", calls.NAMES[phase], run.title]))
        return row(name, count, UNIT, figures, reached, goal, runs)

    def lengths(self) -> list[Row]:
        rows: list[Row] = []
        for length in 8, 16:
            sessions = length_sessions(Workload(self.options.pairs, length, length), f"keys and values of {length} bytes")
            rows += self.speeds(*self.run(sessions, list(self.commands)))
        return rows

    def many(self) -> list[Row]:
        work = Workload(4 * self.options.pairs)
        return self.speeds(*self.run(many_sessions(work), [name for name in self.commands if name != SMALL]))

    def ranges(self) -> list[Row]:
        peer = build_rust_peer(self.folder, "range/peer.rs") if self.peer else None
        commands: dict[str, list[str | Path]] = {PEER: [*peer]} if peer else {}
        commands |= {name: [self.options.library / "range_bench", str(fan), str(chain)] for name, (fan, chain) in SETTINGS.items()}
        runs: dict[str, list[float]] = {}
        digests = set()
        for name in self.in_turn(commands):
            print(f"  ranges of 100 rows: {name}", file=sys.stderr)
            running = TimedProgram([*commands[name], str(RANGES)], os.devnull)
            running.phase([1])
            sample = running.phase([1])
            running.finish()
            digests.add(sample.digest)
            runs.setdefault(name, []).append(sample.cpu)
        if len(digests) > 1:
            sys.exit("ranges: the programs print different sums")
        goal, figures = goals(1.1, 1.0), {name: min(times) / RANGES * 1e9 for name, times in runs.items()}
        reached = {name: figures[PEER] / figures[name] for name in goal if PEER in figures}
        return [row("ranges of 100 rows, by `Store::range`", RANGES, UNIT, figures, reached, goal, runs)]

    def workers(self) -> list[Row]:
        runs: dict[tuple[str, str, int], list[float]] = {}
        for name, workers in itertools.product(self.in_turn(SETTINGS), (1, *WORKERS)):
            print(f"  {workers} workers: {name}", file=sys.stderr)
            numbers = map(str, (*SETTINGS[name], workers, GRAIN))
            for phase, seconds in time_long_batches([self.options.library / "crew_bench", *numbers]).items():
                runs.setdefault((phase, name, workers), []).append(seconds)
        return [self.row_of_workers(workers, phase, runs) for workers in WORKERS for phase in PHASES]

    def row_of_workers(self, workers: int, phase: str, runs: Mapping[tuple[str, str, int], list[float]]) -> Row:
        goal, crews = WORKERS[workers], (workers, 1)
        taken = {f"{name}, {crew} workers": runs[phase, name, crew] for name in goal for crew in crews}
        least = {(name, crew): min(runs[phase, name, crew]) for name in goal for crew in crews}
        figures = {f"{name}, {crew} workers": least[name, crew] for name in goal for crew in crews}
        reached = {name: least[name, 1] / least[name, workers] for name in goal}
        return row(f"{workers} workers beside one: {PHASES[phase]}", 1_000_000, "s", figures, reached, goal, taken)


def rows_beside_leveldb(figures: Figures) -> list[Row]:
    """Returns a row for each length of commits: durable puts a second, as a multiple of LevelDB's."""
    rows = []
    for commits, wanted in ((persistent.FEW, 1.2), (persistent.MANY, 1.0)):
        goal = goals(wanted)
        rates = {name: persistent.rate(figures, name, commits) for name in (LEVELDB, *SETTINGS) if name in figures["stores"]}
        reached = {name: rates[name] / rates[LEVELDB] for name in goal if LEVELDB in rates}
        rows.append(row(f"durable puts beside LevelDB, {commits.batch:,} a commit", figures["pairs"], "pairs a second", rates, reached, goal))
    return rows


def row_of_flushes(figures: Figures) -> Row:
    few, many, goal = persistent.FEW, persistent.MANY, goals(0.7, 0.6)
    names = [name for name in (persistent.LOGGED, *goal) if name in figures["stores"]]
    shown = {f"{name}, {commits.name()}": persistent.rate(figures, name, commits) for name in names for commits in (many, few)}
    reached = {name: persistent.rate(figures, name, many) / persistent.rate(figures, name, few) for name in goal}
    return row(f"a flush each {many.batch:,} commands beside each {few.batch:,}", figures["pairs"], "pairs a second", shown, reached, goal)


def machine() -> Figures:
    model = next((line.split(":")[1].strip() for line in Path("/proc/cpuinfo").read_text().splitlines() if line.startswith("model name")), "unknown")
    commit = subprocess.run(["git", "-C", HERE, "describe", "--always", "--dirty", "--abbrev=9"], capture_output=True, text=True).stdout.strip()
    now = datetime.datetime.now(datetime.timezone.utc).strftime("%Y-%m-%d %H:%M UTC")
    return {"taken": now, "commit": commit, "processor": model, "processors": os.cpu_count()}


def is_older(program: Path, other: Path) -> bool:
    """Returns whether the program is missing or older than the other one, so that it may have an older engine."""
    return not program.exists() or program.stat().st_mtime < other.stat().st_mtime


def build_library(options: argparse.Namespace) -> list[str]:
    """Builds the programs that are missing or out of date. Returns the parts that cannot be measured because their program could not be built."""
    programs = {part: options.library / f"{name}_bench" for part, name in OVER_LIBRARY.items() if part in options.only}
    for program in programs.values():
        if is_older(program, options.program) and options.unproved:
            building.build_unproved(program.name, program)
        elif is_older(program, options.program):
            building.build_proved(program.name, program)
    return [part for part, program in programs.items() if is_older(program, options.program)]


def measure(options: argparse.Namespace) -> None:
    """Measures all parts, and saves the figures after each. Parts whose program is missing are skipped."""
    left_out = build_library(options)
    figures: Figures = machine() | {"note": options.note, "unproved": options.unproved, "repeats": options.repeats, "rows": [], "minutes": {}}
    figures["load before"] = os.getloadavg()[0]
    with tempfile.TemporaryDirectory() as folder:
        bench = GoalBench(options, Path(folder))
        for part in PARTS:
            if part in options.only and part not in left_out:
                start = time.monotonic()
                measure_part(part, bench, figures)
                figures["minutes"][part] = (time.monotonic() - start) / 60
                figures["load after"] = os.getloadavg()[0]
                options.figures.write_text(json.dumps(figures, indent=1) + "\n")


def measure_part(part: str, bench: GoalBench, figures: Figures) -> None:
    options = bench.options
    if part == "speeds":
        rows, figures["growth"] = bench.usual()
    elif part == "calls":
        rows = bench.calls_alone()
    elif part == "lengths":
        rows = bench.lengths()
    elif part == "many pairs":
        rows = bench.many()
    elif part == "ranges":
        rows = bench.ranges()
    elif part == "workers":
        rows = bench.workers()
    else:
        figures["persistent"] = persistent.measure(options.program, options.pairs // 2, options.repeats, options.folder)
        rows = [row_of_flushes(figures["persistent"]), *rows_beside_leveldb(figures["persistent"])]
    figures["rows"] += rows


def number(value: float, unit: str) -> str:
    return f"{value:.2f}" if unit == "s" else f"{value:,.0f}"


def verdict(each: Row, name: str) -> str:
    if name not in each["wanted"]:
        return "–"
    if name not in each["is"]:
        return "no peer"
    value, goal = each["is"][name], each["wanted"][name]
    is_reached = value <= goal if each["most"] else value >= goal
    shown = f"{value:.2f} of {goal}"
    return f"**{shown}**" if is_reached else shown


def title(each: Row) -> str:
    return str(each["name"]) if each["unit"] == UNIT else f"{each['name']}, {each['unit']}"


def cell_of(each: Row, name: str) -> str:
    """Returns a program's figures: one, or one for each mode. The peer with a file counts as the peer."""
    found = [number(value, each["unit"]) for of, value in each["figures"].items() if of.startswith(name)]
    return " beside ".join(found)


def print_goals(figures: Figures) -> None:
    proved = "unproved builds" if figures["unproved"] else "the proved programs"
    runs = f"the least of {figures['repeats']} runs in turn" if figures["repeats"] > 1 else "one run"
    minutes = ", ".join(f"{part} {taken:.1f}" for part, taken in figures["minutes"].items())
    processors = f"{figures['processor']}, {figures['processors']} processors"
    loads = f"{figures['load before']:.1f} before and {figures['load after']:.1f} after"
    print(f"{figures['taken']}, commit {figures['commit']}, {proved}, {runs}. {processors}; load of the machine {loads}. "
          f"It took {sum(figures['minutes'].values()):.0f} minutes ({minutes}).")
    if figures.get("note"):
        print(f"\n**{figures['note']}**")
    rows = []
    for each in figures["rows"]:
        cells = [cell for name in SETTINGS for cell in (cell_of(each, name), verdict(each, name))]
        rows.append([title(each), cell_of(each, PEER), *cells])
    print_table([UNIT, PEER, *(head for name in SETTINGS for head in (name, "is, of what is wanted"))], rows)


def print_tables(figures: Figures) -> None:
    print_goals(figures)
    if "persistent" in figures:
        print()
        persistent.show_stores(figures["persistent"])
        persistent.show_beside(figures["persistent"])


def arguments() -> argparse.Namespace:
    parser = argparse.ArgumentParser(description=__doc__)
    parser.add_argument("--pairs", type=int, default=1_000_000, help="pairs in most rows; some use four times as many, stores in files half")
    parser.add_argument("--repeats", type=int, default=3, help="runs of each measurement; the least is reported")
    parser.add_argument("--only", nargs="+", choices=PARTS, default=PARTS, metavar="PART", help=", ".join(PARTS))
    parser.add_argument("--program", type=Path, default=PROGRAM)
    parser.add_argument("--library", type=Path, default=building.BUILT, help="folder of range_bench and crew_bench, which are built if missing")
    parser.add_argument("--unproved", action="store_true", help="record that the programs are unproved, and build missing ones without proofs")
    parser.add_argument("--folder", default="/var/tmp", help="folder for the stores, on the disk to be measured (default: /var/tmp)")
    parser.add_argument("--figures", type=Path, default=HERE / "goals.json", help="file for the figures")
    parser.add_argument("--plot", type=Path, default=HERE / "goals.svg", help="file for the plot")
    parser.add_argument("--note", default="", help="a remark that is printed with the figures")
    parser.add_argument("--show", action="store_true", help="do not measure; print and draw the existing figures")
    return parser.parse_args()


def main() -> None:
    options = arguments()
    drawing.exit_if_missing()
    if not options.show:
        exit_if_missing(options.program)
        measure(options)
    figures = json.loads(options.figures.read_text())
    print_tables(figures)
    plot.goals(figures, list(SETTINGS), options.plot)


if __name__ == "__main__":
    main()
