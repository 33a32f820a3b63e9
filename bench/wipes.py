#!/usr/bin/env python3
"""Measures `wipe` against std's BTreeMap and against deletes. README.md describes the measurement."""

import argparse
import hashlib
import sys
import tempfile
from collections.abc import Callable, Iterator, Sequence
from dataclasses import dataclass
from pathlib import Path

sys.path.insert(0, str(Path(__file__).resolve().parent.parent))

from bench.peer_programs import PEER, build_rust_peer
from bench.tables import print_table
from bench.timing import Results, Sample, TimedProgram
from bench.workload import LONG, Phase, Workload, dels, write_phases
from tools.processes import PROGRAM, Command, exit_if_missing, status_bytes

SETTINGS: dict[str, list[str]] = {"fan 64, chain 16": ["--fan", "64", "--chain", "16"], "defaults": []}
OTHERS = {"retain": "BTreeMap by retain", "append": "BTreeMap by split_off and append"}  # by the peer's argument
OFTEN = 10_000  # commands in a batch that find nothing, and puts in a batch of a queue
TURNS = 1_000  # wipes in a batch of alternating wipes and scans, and in a batch of a queue
ROWS = 10  # rows of such a scan, and keys that a narrow wipe removes
BATCHES = 10  # of a queue
PIPE = 4_096  # bytes
HOLD = Phase("", 2_048, 2_048, lambda: ["get -"] * 2_048)  # prints more than the pipe and its reader's buffer hold
BY = {
    "wipe of a tenth": "deletes of a tenth, in key order",
    "wipe of all": "deletes of all, in key order",
    "wipes of empty ranges": "gets of missing keys",
    "wipes of ranges without keys": "gets of missing keys",
    "queue: a wipe a batch, from the oldest on": "queue: deletes",
    "queue: a wipe a batch, from `%` on": "queue: deletes",
    "queue: a wipe after each put, from the oldest on": "queue: a delete after each put",
    "queue: a wipe after each put, from `%` on": "queue: a delete after each put",
}


@dataclass(frozen=True)
class WipeSession:
    """A load, the phases measured after it, and whether the peers that visit all pairs for each wipe run it too."""

    load: Phase
    phases: list[Phase]
    is_for_all: bool = False


def one(name: str, command: str) -> Phase:
    return Phase(name, 1, 1, lambda: [command])


def narrow(work: Workload, keys: list[str]) -> Iterator[str]:
    """Yields alternately a wipe of a few keys and a scan of as many rows, outside the last tenth of the keys, which always has rows."""
    last = len(keys) * 9 // 10
    for _ in range(TURNS):
        at = work.random.randrange(last)
        yield f"wipe {keys[at]} {keys[at + ROWS]}"
        yield f"scan {keys[work.random.randrange(last)]} * {ROWS}"


def wide_with_puts(work: Workload) -> Iterator[str]:
    for at, key in enumerate(work.keys[:TURNS]):
        yield from ("wipe % *", f"put {key} {work.value(at)}", f"scan % * {ROWS}")


def from_oldest(keys: list[str]) -> list[str]:
    return [f"wipe {keys[0]} {keys[-1]}"]


def from_start(keys: list[str]) -> list[str]:
    return [f"wipe % {keys[-1]}"]


def first_row(keys: list[str]) -> list[str]:
    return ["scan % * 1", f"wipe {keys[0]} {keys[-1]}"]


def by_deletes(keys: list[str]) -> list[str]:
    return list(dels(keys[:-1]))


class KeyQueue:
    """A queue: puts rising keys and removes the oldest keys, so that the number of pairs is constant."""

    def __init__(self, work: Workload) -> None:
        self.work, self.pairs = work, len(work.keys)
        self.next = self.pairs
        self.load = Phase("load", self.pairs, LONG, lambda: work.puts(self.keys(0, self.pairs)))

    def keys(self, start: int, end: int) -> list[str]:
        return [f"{number:016}" for number in range(start, end)]

    def phase(self, name: str, batch: int, each: int, remove: Callable[[list[str]], list[str]]) -> Phase:
        """Returns a phase of batches of `batch` puts. After every `each` puts, as many of the oldest keys are removed."""
        commands: list[str] = []
        for start in range(self.next, self.next + BATCHES * batch, each):
            commands += self.work.puts(self.keys(start, start + each))
            commands += remove(self.keys(start - self.pairs, start - self.pairs + each + 1))
        self.next += BATCHES * batch
        printed = [1 + command.startswith("scan") for command in commands]
        return Phase(f"queue: {name}", len(commands), len(commands) // BATCHES, lambda: commands, lambda: printed)


def queues(work: Workload) -> list[WipeSession]:
    oldest, start, first = (KeyQueue(work) for _ in range(3))
    return [
        WipeSession(oldest.load, [
            oldest.phase("a wipe a batch, from the oldest on", OFTEN, OFTEN, from_oldest),
            oldest.phase("a wipe after each put, from the oldest on", TURNS, 1, from_oldest),
            oldest.phase("deletes", OFTEN, OFTEN, by_deletes),
            oldest.phase("a delete after each put", TURNS, 1, by_deletes),
        ]),
        WipeSession(start.load, [
            start.phase("a wipe after each put, from `%` on", TURNS, 1, from_start),
            start.phase("a wipe a batch, from `%` on", OFTEN, OFTEN, from_start),
        ]),
        WipeSession(first.load, [first.phase("a scan of the first row and its wipe after each put", TURNS, 1, first_row)]),
    ]


def sessions(work: Workload) -> list[WipeSession]:
    pairs, rising = len(work.keys), sorted(work.keys)
    few = pairs // 10
    tenths = [rising[start : start + few] for start in range(0, pairs, few)]
    shuffled = work.random.sample(tenths[5], few)
    absent = work.random.choices(tenths[7], k=5 * OFTEN)  # sorts after every key with this prefix
    in_turn = list(narrow(work, rising[6 * few :]))
    load = Phase("load", pairs, LONG, lambda: work.puts(work.keys))
    load_few = Phase("load", pairs // 20, LONG, lambda: work.puts(work.keys[: pairs // 20]))
    return [
        WipeSession(load, [one("wipe of a tenth", f"wipe {tenths[1][0]} {tenths[2][0]}")], is_for_all=True),
        WipeSession(load, [
            one("wipe of all", "wipe % *"),
            one("wipe of all, again", "wipe % *"),
            one("scan of no pairs", "scan % * 1"),
        ], is_for_all=True),
        WipeSession(load, [Phase("deletes of all, in key order", pairs, LONG, lambda: dels(rising))]),
        WipeSession(load, [Phase("deletes of all, in no order", pairs, LONG, lambda: dels(work.shuffled))]),
        WipeSession(load, [
            Phase("deletes of a tenth, in key order", few, LONG, lambda: dels(tenths[3])),
            Phase("deletes of a tenth, in no order", few, LONG, lambda: dels(shuffled)),
            Phase("gets of missing keys", len(absent), OFTEN, lambda: (f"get {key}!" for key in absent)),
            Phase("wipes of empty ranges", len(absent), OFTEN, lambda: (f"wipe {key}! {key}!" for key in absent)),
            Phase("wipes of ranges without keys", len(absent), OFTEN, lambda: (f"wipe {key}! {key}~" for key in absent)),
            Phase("narrow wipes and scans in turn", 2 * TURNS, 2 * TURNS, lambda: in_turn, lambda: [1, 1 + ROWS] * TURNS),
        ]),
        WipeSession(load_few, [
            Phase("wide wipes and scans in turn", 2 * TURNS, 2 * TURNS, lambda: ["wipe % *", f"scan % * {ROWS}"] * TURNS),
        ]),
        WipeSession(load_few, [
            Phase("wide wipes, puts and scans in turn", 3 * TURNS, 3 * TURNS, lambda: wide_with_puts(work), lambda: [1, 1, 2] * TURNS),
        ]),
        *queues(work),
    ]


def write_held(text: Path, session: WipeSession) -> None:
    """Writes the batch file. Before each phase and at the end is a batch whose long answer makes the program wait."""
    write_phases(text, [session.load, HOLD, *(part for phase in session.phases for part in (phase, HOLD))])


def hold(running: TimedProgram) -> float:
    """Reads the first line of a waiting batch's answer. The program is blocked there, between two phases. Returns its processor seconds."""
    running.read_lines(1, hashlib.blake2b())
    return running.cpu()


def run_session(command: Command, text: Path, session: WipeSession) -> tuple[list[Sample], list[int]]:
    running = TimedProgram(command, text, PIPE)
    running.phase([1, *session.load.lines()])
    samples: list[Sample] = []
    taken: list[int] = []
    start = hold(running)
    for phase in session.phases:
        before = running.resident()
        Path(f"/proc/{running.child.pid}/clear_refs").write_text("5")  # resets the peak
        sample = running.phase([HOLD.count - 1, *phase.lines()])
        end = hold(running)
        sample.cpu, start = end - start, end
        samples.append(sample)
        taken.append(status_bytes(running.child.pid, "VmHWM") - before)
    running.phase([HOLD.count - 1])
    running.finish()
    return samples, taken


Memory = dict[tuple[Phase, str], int]  # by phase and program


def measure(work: Workload, commands: dict[str, Command], options: argparse.Namespace, folder: Path) -> tuple[Results, Memory]:
    results, text = Results(), folder / "session"
    memory: Memory = {}
    for session in sessions(work):
        if not any(options.only in phase.name for phase in session.phases):
            continue
        write_held(text, session)
        for _ in range(options.repeats):
            for name, command in commands.items():
                if name in OTHERS.values() and not session.is_for_all:
                    continue
                print(f"  {session.phases[-1].name}: {name}", file=sys.stderr)
                samples, taken = run_session(command, text, session)
                results.add(name, session.phases, 0, samples)
                for phase, most in zip(session.phases, taken):
                    memory[phase, name] = min(most, memory.get((phase, name), most))
    return results, memory


def print_phases(results: Results, memory: Memory, names: Sequence[str]) -> None:
    rows = []
    for phase in results.phases():
        took = [f"{results.best[phase, name].cpu * 1000:,.1f}" for name in names]
        most = [f"{max(0, memory[phase, name]) / 1e6:,.1f}" for name in names]
        rows.append([phase.name, f"{phase.count:,}", *took, *most])
    print_table(["ms, and MB at the peak", "commands", *names, *(f"MB: {name}" for name in names)], rows)


def print_others(results: Results, names: Sequence[str]) -> None:
    for name in names:
        took = [f"{phase.name} {sample.cpu * 1000:,.1f} ms" for (phase, program), sample in results.best.items() if program == name]
        print(f"{name}: {', '.join(took)}")


def print_quotients(results: Results, names: Sequence[str]) -> None:
    seconds = {(phase.name, name): sample.cpu for (phase, name), sample in results.best.items()}
    rows = []
    for part, whole in BY.items():
        if all((phase, name) in seconds for phase in (part, whole) for name in names):
            rows.append([part, whole, *(f"{seconds[part, name] / seconds[whole, name]:.2f}" for name in names)])
    print_table(["by", "", *names], rows)


def arguments() -> argparse.Namespace:
    parser = argparse.ArgumentParser(description=__doc__)
    parser.add_argument("--quick", action="store_true", help="use a fifth of the pairs, and run each session once")
    parser.add_argument("--pairs", type=int, default=1_000_000)
    parser.add_argument("--repeats", type=int, default=5, help="runs of each session; the least is reported")
    parser.add_argument("--only", default="", help="run only sessions with a phase whose name contains this text")
    parser.add_argument("--program", type=Path, default=PROGRAM)
    options = parser.parse_args()
    exit_if_missing(options.program)
    if options.quick:
        options.pairs, options.repeats = options.pairs // 5, 1
    return options


def main() -> None:
    options = arguments()
    with tempfile.TemporaryDirectory() as made:
        folder = Path(made)
        peer = build_rust_peer(folder)
        commands: dict[str, Command] = {PEER: peer} if peer else {}
        commands |= {name: [options.program, *words] for name, words in SETTINGS.items()}
        names = list(commands)
        commands |= {name: [*peer, word] for word, name in OTHERS.items()} if peer else {}
        results, memory = measure(Workload(options.pairs), commands, options, folder)
    others = [name for name in commands if name not in names]
    print_phases(results, memory, names)
    print_quotients(results, names)
    print_others(results, others)


if __name__ == "__main__":
    main()
