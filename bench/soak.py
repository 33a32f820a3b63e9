#!/usr/bin/env python3
"""Runs random sessions on stores in files, endlessly, and compares each with a model, up to the first difference.

Sessions have kills, crashes, failing calls and refused allocations. All are derived from the seed and not from the clock. With `--services`, the
sessions are those of queues and other services, whose logs fill up and are copied into larger ones; there the clock determines the moments of kills.
Between them come long lives, whose last flushes must cost what the first ones did, and logs of the advised size, which must never be full; `--lives`
and `--logs` run these alone. README.md describes the test.
"""

import argparse
import itertools
import secrets
import shutil
import sys
import tempfile
import time
from collections.abc import Iterator
from pathlib import Path
from typing import Protocol

sys.path.insert(0, str(Path(__file__).resolve().parent.parent))

from tools.processes import MEMORY_FOLDER
from tools.soak.lives import LifeSoak
from tools.soak.services import PLANTS as SERVICE_PLANTS
from tools.soak.services import ServiceSoak
from tools.soak.sessions import PLANTS, Difference, Soak
from tools.soak.sized import SizedLogs

MINUTE = 60
ROUND = 20  # of so many stores of services, one is a long life, and one a log of the advised size


class AnySoak(Protocol):
    def run_store(self, number: int) -> Iterator[None]: ...

    def totals(self) -> str: ...

    def report(self, difference: Difference) -> None: ...


class ServicesAndLives:
    """Runs services, and now and then a long life or a log of the advised size."""

    def __init__(self, services: ServiceSoak, lives: LifeSoak, logs: SizedLogs) -> None:
        self.soaks: list[AnySoak] = [services, lives, logs]
        self.running = self.soaks[0]

    def run_store(self, number: int) -> Iterator[None]:
        self.running = self.soaks[{0: 1, ROUND // 2: 2}.get(number % ROUND, 0)]
        return self.running.run_store(number)

    def totals(self) -> str:
        return "; ".join(soak.totals() for soak in self.soaks)

    def report(self, difference: Difference) -> None:
        self.running.report(difference)


def run_stores(soak: AnySoak, options: argparse.Namespace) -> str:
    """Runs stores until the time is over. Prints counts each minute, and returns the last counts. Raises Difference at the first difference."""
    start = last = time.monotonic()
    try:
        for number in itertools.count(options.first) if options.last is None else range(options.first, options.last + 1):
            for _ in soak.run_store(number):
                now = time.monotonic()
                if options.seconds is not None and now - start >= options.seconds:
                    raise KeyboardInterrupt
                if now - last >= MINUTE:
                    last = now
                    print(f"{now - start:.0f} s: {soak.totals()}", flush=True)
    except KeyboardInterrupt:
        pass
    return f"{time.monotonic() - start:.0f} s: {soak.totals()}"


def arguments() -> argparse.Namespace:
    parser = argparse.ArgumentParser(description=(__doc__ or "").splitlines()[0])
    parser.add_argument("program", type=Path)
    parser.add_argument("--seed", type=int, default=secrets.randbelow(10**9), help="seed of the random sessions (default: a new one)")
    parser.add_argument("--first", type=int, default=1, metavar="N", help="the number of the first store")
    parser.add_argument("--last", type=int, metavar="N", help="the number of the last store (default: no limit)")
    parser.add_argument("--seconds", type=float, help="run for this many seconds (default: until Ctrl-C)")
    parser.add_argument("--store", type=Path, default=MEMORY_FOLDER, metavar="FOLDER", help="parent folder of the store's files")
    plants = "plants a fault that has to be found: a line of the answers is lost, a bit of the log flips, syncs are lost;"
    plants += " with --services: flushes are lost, the log is never cleaned, a killed copy is an empty store, or cannot be replaced"
    kinds = parser.add_mutually_exclusive_group()
    kinds.add_argument("--services", action="store_true", help="run queues, full logs, kills and copies, and now and then what the next two run")
    kinds.add_argument("--lives", action="store_true", help="run small services for a long time")
    kinds.add_argument("--logs", action="store_true", help="put the pairs of stores again and again, in logs of the advised size")
    parser.add_argument("--server", type=Path, metavar="PROGRAM", help="some lives are those of this `bwserve`")
    parser.add_argument("--plant", choices=[*PLANTS, *SERVICE_PLANTS], help=plants)
    options = parser.parse_args()
    known = SERVICE_PLANTS if options.services else () if options.lives or options.logs else PLANTS
    if options.plant and options.plant not in known:
        parser.error(f"--plant {options.plant} does not go with this kind of sessions")
    return options


def chosen_soak(options: argparse.Namespace, folder: Path) -> AnySoak:
    program, server = options.program.resolve(), options.server.resolve() if options.server else None
    if options.lives:
        return LifeSoak(program, options.seed, folder, server)
    if options.logs:
        return SizedLogs(program, options.seed, folder)
    if options.services:
        services = ServiceSoak(program, options.seed, folder, options.plant)
        return ServicesAndLives(services, LifeSoak(program, options.seed, folder, server), SizedLogs(program, options.seed, folder))
    return Soak(program, options.seed, folder, options.plant)


def main() -> None:
    options = arguments()
    print(f"seed {options.seed}", flush=True)
    folder = Path(tempfile.mkdtemp(prefix="soak-", dir=options.store if options.store.is_dir() else None))
    soak = chosen_soak(options, folder)
    try:
        print(run_stores(soak, options))
    except Difference as difference:
        print(soak.totals())
        soak.report(difference)
        sys.exit(1)
    shutil.rmtree(folder)


if __name__ == "__main__":
    main()
