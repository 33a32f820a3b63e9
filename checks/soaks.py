"""Random sessions with failures, random services with full logs, and planted faults that must be detected."""

from pathlib import Path

from tools.cases import Case, Outcome, Programs
from tools.processes import new_folder
from tools.soak.services import PLANTS as SERVICE_PLANTS
from tools.soak.services import ServiceSoak
from tools.soak.sessions import PLANTS, Difference, Soak

SEEDS, STORES = 4, 6
SERVICE_SEEDS, SERVICES = 4, 5
MOST = 90  # stores within which a planted fault must be found; how soon kills cut copies off depends on the machine


def run_soak(programs: Programs, kind: type[Soak] | type[ServiceSoak], seed: int, stores: int, plant: str | None = None) -> Outcome:
    with new_folder() as folder:
        soak = kind(programs.store, seed, Path(folder), plant)
        try:
            for number in range(1, stores + 1):
                for _ in soak.run_store(number):
                    pass
        except Difference as difference:
            return Outcome(f"store {soak.number} of seed {seed}: {difference}")
        return Outcome(measured=soak.totals())


def find_plant(programs: Programs, kind: type[Soak] | type[ServiceSoak], plant: str) -> Outcome:
    found = run_soak(programs, kind, 1, MOST, plant).wrong
    return Outcome(None if found else "it was not found", measured=found or "")


def cases(programs: Programs) -> list[Case]:
    soaks = [Case(f"{STORES} stores, seed {seed}", run_soak, (programs, Soak, seed, STORES)) for seed in range(1, SEEDS + 1)]
    soaks += [Case(f"{SERVICES} services, seed {seed}", run_soak, (programs, ServiceSoak, seed, SERVICES)) for seed in range(1, SERVICE_SEEDS + 1)]
    soaks += [Case(f"a planted fault, {plant}", find_plant, (programs, Soak, plant)) for plant in PLANTS]
    return soaks + [Case(f"a planted fault of services, {plant}", find_plant, (programs, ServiceSoak, plant)) for plant in SERVICE_PLANTS]
