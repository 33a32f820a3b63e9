#!/usr/bin/env python3
"""Measures a log of version 2 against one of version 1. README.md describes the measurement."""

import argparse
import hashlib
import random
import struct
import subprocess
import sys
import tempfile
from collections.abc import Callable
from dataclasses import dataclass, field
from pathlib import Path

sys.path.insert(0, str(Path(__file__).resolve().parent.parent))

from bench.stores import MARK, Seconds, StoreProgram, least
from bench.tables import at_most, print_table
from bench.timing import Sample, TimedProgram
from bench.workload import LONG, Workload
from tools.processes import PROGRAM, exit_if_missing

SETTINGS = "--fan 32 --chain 16 --max-key 128".split()
SEGMENT = 1_048_576  # bytes
CLEANS = 8
VERSIONS = 1, 2
SLOTS = 128, 192  # their indexes
FIELDS = "name", "mail", "city", "born"
SECTIONS = "articles", "reviews", "users/profile", "documents/public"


def random_keys(chance: random.Random, pairs: int) -> list[str]:
    return ["".join(f"%{byte:02X}" for byte in chance.randbytes(16)) for _ in range(pairs)]


def named_keys(chance: random.Random, pairs: int) -> list[str]:
    return chance.sample([f"user:{at // len(FIELDS):06}:{FIELDS[at % len(FIELDS)]}" for at in range(pairs)], pairs)


def addresses(chance: random.Random, pairs: int) -> list[str]:
    """Returns addresses of 40 to 120 bytes in random order; hundreds share each prefix."""
    letters = "abcdefghijklmnopqrstuvwxyz0123456789"
    sites = [f"https://www.{''.join(chance.choices(letters, k=8))}.example.com" for _ in range(1 + pairs // 10_000)]
    begun = [f"{site}/{section}/2026/{month:02}/" for site in sites for section in SECTIONS for month in range(1, 13)]
    found: dict[str, None] = {}
    while len(found) < pairs:
        begin = chance.choice(begun)
        end = "-".join("".join(chance.choices(letters, k=chance.randint(3, 9))) for _ in range(chance.randint(1, 7)))
        address = (begin + end)[:120]
        if len(address) >= 40:
            found[address] = None
    return list(found)


RANDOM = "16 random bytes"
KINDS = {RANDOM: random_keys, "`user:000001:name`": named_keys, "addresses": addresses}
# Escaped keys sort like their bytes, because either all bytes of a key are escaped or none.
ORDERS: dict[str, Callable[[list[str]], list[str]]] = {"in no order": list, "in key order": sorted}


def length_of(key: str) -> int:
    return len(key) - 2 * key.count("%")


@dataclass
class VersionTimes:
    flush: list[Sample] = field(default_factory=list)
    recovery: list[Seconds] = field(default_factory=list)
    clean: list[Sample] = field(default_factory=list)
    upgrade: list[Sample] = field(default_factory=list)
    flushed: int = 0  # bytes of the log after the flush
    carried: int = 0  # bytes written by all cleans
    upgraded: int = 0  # bytes written by the upgrade


def log_ends(path: Path) -> tuple[int, int]:
    """Returns the begin and the end of the log, from the open slot with the greatest sequence number."""
    with open(path, "rb") as file:
        file.seek(SLOTS[0])
        slots = [file.read(64) for _ in SLOTS]
    _, head, tail = max(struct.unpack(">QQQ", slot[8:32]) for slot in slots if slot[0] == 1)
    return head * SEGMENT, tail


def write_load(work: Workload, keys: list[str], version: int, text: Path) -> None:
    with open(text, "w") as file:
        file.write(MARK + "upgrade\n" * (version == 2))
        for start in range(0, len(keys), LONG):
            file.writelines(f"put {key} {work.value(at)}\n" for at, key in enumerate(keys[start : start + LONG], start))
            file.write("go\n")
        file.write(MARK + "flush\n")


def time_flush(program: StoreProgram, keys: list[str], version: int, text: Path) -> Sample:
    running = TimedProgram(program.create_command(len(keys)), text)
    for lines in (version, len(keys), 1):
        running.phase([lines])
    sample = running.phase([1])
    running.finish_successfully()
    return sample


def time_orders(program: StoreProgram, order: str, count: int, text: Path) -> Sample:
    text.write_text(MARK + f"{order}\n" * count)
    running = TimedProgram(program.open_command(), text)
    running.phase([1])
    sample = running.phase([count])
    running.finish_successfully()
    return sample


def rows_digest(program: StoreProgram, text: Path) -> str:
    text.write_text("scan % * 4294967295\n")
    with open(text, "rb") as file:
        return hashlib.blake2b(subprocess.run(program.open_command(), stdin=file, stdout=subprocess.PIPE, check=True).stdout).hexdigest()


def measure_once(program: StoreProgram, work: Workload, keys: list[str], version: int, text: Path, measured: VersionTimes) -> str:
    """Adds one store's measurements. Returns the digest of its pairs at the end."""
    write_load(work, keys, version, text)
    measured.flush.append(time_flush(program, keys, version, text))
    head, tail = log_ends(program.disk)
    measured.flushed = tail - head
    measured.recovery.append(program.recover())
    measured.clean.append(time_orders(program, "clean", CLEANS, text))
    _, cleaned = log_ends(program.disk)
    measured.carried = cleaned - tail
    if version == 1:
        measured.upgrade.append(time_orders(program, "upgrade", 1, text))
        _, upgraded = log_ends(program.disk)
        measured.upgraded = upgraded - cleaned
    return rows_digest(program, text)


def measure(program: StoreProgram, work: Workload, name: str, keys: list[str], repeats: int, text: Path) -> dict[int, VersionTimes]:
    found, digests = {version: VersionTimes() for version in VERSIONS}, set()
    for _ in range(repeats):
        for version in VERSIONS:
            print(f"  {name}: version {version}", file=sys.stderr)
            digests.add(measure_once(program, work, keys, version, text, found[version]))
    if len(digests) > 1:
        sys.exit(f"{name}: other pairs were recovered")
    return found


HEAD = "keys | bytes a key | version | log, bytes a pair | flush, s | by the clock, s".split(" | ")
HEAD += "recovery, s | by the clock, s | clean, ms | carried by a clean, KB".split(" | ")
Measurements = dict[str, dict[int, VersionTimes]]  # by kind of keys, and version


def print_versions(measured: Measurements, sizes: dict[str, float], pairs: int) -> None:
    rows = []
    for name, found in measured.items():
        for version, each in found.items():
            flush, recovery, clean = least(each.flush), least(each.recovery), least(each.clean)
            times = [f"{seconds:.2f}" for seconds in (flush.cpu, flush.wall, recovery.cpu, recovery.wall)]
            cleans = [f"{clean.cpu / CLEANS * 1000:.1f}", f"{each.carried / CLEANS / 1000:.0f}"]
            rows.append([name, f"{sizes[name]:.1f}", str(version), f"{each.flushed / pairs:.1f}", *times, *cleans])
    print_table(HEAD, rows)


def print_upgrades(measured: Measurements, pairs: int) -> None:
    rows = []
    for name, found in measured.items():
        took = least(found[1].upgrade)
        rows.append([name, f"{took.cpu:.2f}", f"{took.wall:.2f}", f"{found[1].upgraded / pairs:.1f}"])
    print_table(["upgrade of a full store", "s", "by the clock, s", "written, bytes a pair"], rows)


def print_verdicts(measured: Measurements) -> None:
    """Prints the ratio of version 2 to version 1: processor seconds, and bytes of the log. Only random keys have a goal."""
    rows = []
    for name, (one, two) in ((name, found.values()) for name, found in measured.items()):
        flush = least(two.flush).cpu / least(one.flush).cpu
        recovery = least(two.recovery).cpu / least(one.recovery).cpu
        clean = least(two.clean).cpu / least(one.clean).cpu
        compared = [at_most(by, 1.1) if name.startswith(RANDOM) else f"{by:.2f}" for by in (flush, recovery)]
        rows.append([name, *compared, f"{clean:.2f}", f"{two.flushed / one.flushed:.2f}"])
    print_table(["version 2 by version 1", "flush", "recovery", "clean", "bytes of the log"], rows)


def arguments() -> argparse.Namespace:
    parser = argparse.ArgumentParser(description=__doc__)
    parser.add_argument("--quick", action="store_true", help="use a fifth of the pairs, and run each measurement once")
    parser.add_argument("--pairs", type=int, default=1_000_000)
    parser.add_argument("--repeats", type=int, default=3, help="runs of each measurement; the least time is reported")
    parser.add_argument("--program", type=Path, default=PROGRAM)
    parser.add_argument("--folder", type=Path, help="folder for the files, on the disk to be measured")
    options = parser.parse_args()
    exit_if_missing(options.program)
    if options.quick:
        options.pairs, options.repeats = options.pairs // 5, 1
    return options


def main() -> None:
    options = arguments()
    work = Workload(0)
    measured: Measurements = {}
    sizes: dict[str, float] = {}
    with tempfile.TemporaryDirectory(dir=options.folder) as made:
        folder = Path(made)
        program = StoreProgram([options.program], SETTINGS, SEGMENT, folder / "store")
        for kind, make in KINDS.items():
            keys = make(random.Random(1), options.pairs)
            for order, arranged in ORDERS.items():
                name = f"{kind}, {order}"
                sizes[name] = sum(map(length_of, keys)) / len(keys)
                measured[name] = measure(program, work, name, arranged(keys), options.repeats, folder / "session")
    print_versions(measured, sizes, options.pairs)
    print_upgrades(measured, options.pairs)
    print_verdicts(measured)


if __name__ == "__main__":
    main()
