"""Logs that are as large as `Settings::for_pairs` says: whatever pairs are put again, no flush is refused."""

from pathlib import Path

from tools.cases import Case, Outcome, Programs
from tools.processes import new_folder
from tools.soak.sessions import Difference
from tools.soak.sized import PLANTS, SizedLogs

SEEDS, LOGS = 4, 15
MOST = 30  # logs within which a planted fault must be found


def put_again(programs: Programs, seed: int, logs: int, plant: str | None = None) -> Outcome:
    with new_folder() as folder:
        soak = SizedLogs(programs.store, seed, Path(folder), plant)
        try:
            for number in range(1, logs + 1):
                for _ in soak.run_store(number):
                    pass
        except Difference as difference:
            return Outcome(f"log {soak.number} of seed {seed}, {' '.join(soak.settings())}: {difference}")
        return Outcome(measured=soak.totals())


def find_plant(programs: Programs, plant: str) -> Outcome:
    found = put_again(programs, 1, MOST, plant).wrong
    return Outcome(None if found else "it was not found", measured=found or "")


def cases(programs: Programs) -> list[Case]:
    drawn = [Case(f"{LOGS} logs, seed {seed}", put_again, (programs, seed, LOGS)) for seed in range(1, SEEDS + 1)]
    return drawn + [Case(f"a planted fault, {plant}", find_plant, (programs, plant)) for plant in PLANTS]
