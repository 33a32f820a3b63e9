"""Small stores that live long: a flush takes no more processor time, and the program no more memory, after many flushes than after a few."""

from pathlib import Path

from tools.cases import Case, Outcome, Programs
from tools.processes import new_folder
from tools.soak.lives import PLANTED, SERVICES, UNFLUSHED, Life, Log
from tools.soak.sessions import Difference

FLUSHES, OF_MANY_COMMANDS, BY_CALLS, OF_PLANTED = 20_000, 8_000, 10_000, 4_000
LOGS = [
    Log(16, 4, "new", is_cleaning=False, in_file=False),
    Log(32, 16, "two thirds", is_cleaning=True, in_file=False),
    Log(16, 4, "full", is_cleaning=True, in_file=True),
    Log(32, 16, "two thirds", is_cleaning=False, in_file=True),
]
NEW = Log(16, 4, "new", is_cleaning=True, in_file=True)
CALLED = ["one key", "seven keys in turn", "one key, put and deleted in turn", "a queue that keeps up"]


def lives() -> list[Life]:
    """Returns each service with each log, some through the Python client, and a store that is never flushed."""
    flushes = {service.name: OF_MANY_COMMANDS if service.name == "a store that grows and shrinks" else FLUSHES for service in SERVICES}
    found = [Life(service, log, flushes[service.name]) for service in SERVICES for log in LOGS]
    found += [Life(UNFLUSHED, LOGS[0], FLUSHES)]
    return found + [Life(service, LOGS[2], BY_CALLS, "client") for service in SERVICES if service.name in CALLED]


def served_lives() -> list[Life]:
    return [Life(service, LOGS[1], BY_CALLS, "server") for service in SERVICES if service.name in CALLED]


def live(program: Path, life: Life) -> Outcome:
    with new_folder() as folder:
        try:
            wrong, ages = life.judged(program, Path(folder))
        except Difference as difference:
            return Outcome(str(difference))
    return Outcome(wrong, measured=str(ages))


def live_grown(program: Path, life: Life) -> Outcome:
    """A growth has to be found, without a wrong answer."""
    found = live(program, life)
    is_found = found.wrong is not None and found.wrong == found.measured
    return Outcome(None if is_found else f"it was not found: {found.wrong or found.measured}", measured=found.measured)


def cases(programs: Programs) -> list[Case]:
    planted = [Life(service, NEW, OF_PLANTED) for service in PLANTED]
    found = [Case(f"a planted growth: {life.name()}", live_grown, (programs.store, life)) for life in planted]
    return found + [Case(life.name(), live, (programs.store, life)) for life in lives()]


def server_cases(programs: Programs) -> list[Case]:
    return [Case(life.name(), live, (programs.examples / "bwserve", life)) for life in served_lives()]
