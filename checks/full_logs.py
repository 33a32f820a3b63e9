"""What a flush costs by the use of the log: at most 1.5 times as much where three quarters are in use as where half is, and twice as much where all
is in use and cleaned as where all is new."""

import contextlib
import itertools
import random
from collections.abc import Callable, Iterator
from dataclasses import replace
from pathlib import Path

from tools.cases import Case, Outcome, Programs
from tools.processes import new_folder
from tools.soak.lives import LIVES, Life, Living, Log, Service, Step, StreamHost, differ, key_of

PAIRS, LONGEST_LOAD = 20_000, 5_000
MANY_SEGMENTS = 20_000
WINDOWS, WINDOW = 6, 50  # flushes of one put
FULL_WINDOWS, NEW_WINDOW = 3, 20  # flushes of many puts
MOST_AT_THREE_QUARTERS = 1.5
MOST_FULL = 2.0  # so at least half of the flushes of a processor second
FULL_PUTS = 100
LENGTH = 4  # of the log that gets full, as a multiple of the pairs
TURNS = 2  # how often that log is cleaned from its head to its tail before it is measured
DEFAULTS, FOR_PAIRS = Log(16, 4), Log(32, 16)
Costs = tuple[float, float]  # processor seconds of a flush with its puts, in the cheapest window
Measured = Callable[[Path, Path, Log], Costs]


def all_pairs(service: Service) -> list[Step]:
    """Puts all pairs twice. The second time, pages are split that the first time has filled."""
    pairs: Step = [(key_of(number * 7_919 % service.live), service.value(number)) for number in range(service.live)]
    return [pairs[first : first + LONGEST_LOAD] for first in range(0, service.live, LONGEST_LOAD)] * 2


def random_puts(service: Service) -> Iterator[Step]:
    chance = random.Random(1)
    for number in itertools.count():
        yield [(key_of(chance.randrange(service.live)), service.value(number))]


def many_random_puts(service: Service) -> Iterator[Step]:
    steps = random_puts(service)
    while True:
        yield [change for step in itertools.islice(steps, FULL_PUTS) for change in step]


ONE_PUT = Service("one put", random_puts, PAIRS, prepare=all_pairs)
MANY_PUTS = Service(f"{FULL_PUTS} puts", many_random_puts, PAIRS, prepare=all_pairs)


@contextlib.contextmanager
def loaded(program: Path, folder: Path, service: Service, log: Log, segments: int) -> Iterator[tuple[Living, StreamHost]]:
    """Yields a service whose pairs are loaded into a log of so many segments."""
    path, sized = folder / "store", replace(log, segments=segments)
    path.unlink(missing_ok=True)
    host = StreamHost(program, path, service, sized)
    try:
        living = Living(Life(service, sized, 0), host)
        living.run(living.prepared)
        yield living, host
    finally:
        host.session.kill()


def segments_of_pairs(program: Path, folder: Path, service: Service, log: Log) -> int:
    with loaded(program, folder, service, log, MANY_SEGMENTS) as (_, host):
        return round(host.used() * MANY_SEGMENTS)


def costs_at_half_and_three_quarters(program: Path, folder: Path, log: Log) -> Costs:
    segments, found = segments_of_pairs(program, folder, ONE_PUT, log), list[float]()
    for use in (0.5, 0.75):
        with loaded(program, folder, ONE_PUT, log, int(segments / use)) as (living, host):
            found.append(min(living.run(list(itertools.islice(living.steps, WINDOW))) for _ in range(WINDOWS)))
            differ(host.cleans, 0)
    return found[0], found[1]


def costs_new_and_full(program: Path, folder: Path, log: Log) -> Costs:
    """A window of the full log is long enough to clean an eighth of it."""
    length = LENGTH * segments_of_pairs(program, folder, MANY_PUTS, log)
    with loaded(program, folder, MANY_PUTS, log, length) as (living, host):
        new = min(living.run(list(itertools.islice(living.steps, NEW_WINDOW))) for _ in range(FULL_WINDOWS))
        differ(host.cleans, 0)
        while host.cleans < TURNS * length:
            living.run_window()
        return new, min(living.run_window() for _ in range(FULL_WINDOWS))


def compare(programs: Programs, measure: Measured, most: float, log: Log) -> Outcome:
    with new_folder() as folder:
        for _ in range(LIVES):
            first, last = measure(programs.store, Path(folder), log)
            measured = f"{first * 1e6:.1f} and {last * 1e6:.1f} us a flush ({last / first:.2f} times)"
            if last <= most * first:
                return Outcome(measured=measured)
    return Outcome(measured, measured=measured)


def cases(programs: Programs) -> list[Case]:
    """The full log is that of the choice of `Settings::for_pairs`. With the defaults the costs are too near to the bound to be told from chance."""
    half = [(log, (programs, costs_at_half_and_three_quarters, MOST_AT_THREE_QUARTERS, log)) for log in (DEFAULTS, FOR_PAIRS)]
    found = [Case(f"one put a flush, half and three quarters of a log, fan {log.fan}, chain {log.chain}", compare, each) for log, each in half]
    return [*found, Case(f"{FULL_PUTS} puts a flush, a new and a full log", compare, (programs, costs_new_and_full, MOST_FULL, FOR_PAIRS))]
