"""Runs small services for a long time, compares each answer with a dictionary, and compares what a flush costs at the end with what it cost at first.

A life is ten tenths of windows. A window is some hundred flushes, after which the service is again in the state in which the window found it: a ring
has gone round, a store has grown and shrunk. So all windows of a life should cost the same.
"""

import contextlib
import itertools
import random
import sys
from collections import Counter
from collections.abc import Callable, Iterator
from dataclasses import dataclass
from pathlib import Path
from typing import Protocol

from tools.answers import ALL_ROWS, token
from tools.processes import TOP, PipedProgram, processor_seconds, status_bytes
from tools.serving import Server, read_all
from tools.soak.sessions import Difference

sys.path.insert(0, str(TOP / "clients/python"))

from taukremil import Del, Put, Store  # noqa: E402

# How much more processor time a flush may take in the last tenth than in the first. The cost of a tenth is that of its cheapest window, since other
# programs on the machine only add to the processor time of a window, by emptying its caches. In 110 lives on a machine with five programs for each
# processor the last tenth cost 0.99 times the first in the median, 1.22 times in one of ten lives, and 1.30 times at most. If it seems more,
# an old and a young program are run in turns, which leaves out what changed on the machine. A cost that is proportional to the number of earlier
# flushes grows nineteen times from the first tenth to the last.
MOST_GROWTH = 1.3
MOST_MEMORY = 2 << 20  # how many bytes more the program may have at the end than after the first tenth
TENTHS = 10
# Flushes of a window, at least. A program that waits for each request begins each with cold caches, so its costs differ more, and windows are more.
LEAST_WINDOWS = {"bwsh": 200, "client": 100, "server": 100}
LIVES = 3  # a life whose cost grows is lived again: a cost that really grows does so in each
LONGEST_TEXT = 32_768  # bytes that are sent at a time: less than a pipe holds, so that neither side waits
MOST_WARMING = 2_000  # windows until a log has to be as full as a life wants it
TWO_THIRDS = 0.67, 0.72  # of the segments, between which the log is kept

Change = tuple[bytes, bytes | None]  # a key, and its new value; None deletes it
Step = list[Change]  # of one batch, behind which there is a flush
Pairs = dict[bytes, bytes]


# ---- What services do.


def nothing(_: "Service") -> list[Step]:
    return []


@dataclass(frozen=True)
class Service:
    """`steps` are endless. After `cycle` of them the store is as large as before, with as many pairs as at most `live` at a time."""

    name: str
    steps: Callable[["Service"], Iterator[Step]]
    live: int
    cycle: int = 1
    value_bytes: int = 40
    prepare: Callable[["Service"], list[Step]] = nothing
    is_flushing: bool = True  # otherwise each step is a batch without a flush

    def value(self, number: int) -> bytes:
        return b"%0*d" % (self.value_bytes, number)


def key_of(number: int) -> bytes:
    return b"%08d" % number


def hot_keys(service: Service) -> Iterator[Step]:
    """The same keys in turn."""
    for number in itertools.count():
        yield [(key_of(number % service.live), service.value(number))]


def put_and_delete(service: Service) -> Iterator[Step]:
    for number in itertools.count():
        yield [(key_of(0), service.value(number))]
        yield [(key_of(0), None)]


DELETED = 1_000


def all_but_one(service: Service) -> list[Step]:
    keys = [key_of(number) for number in range(DELETED)]
    return [[(key, service.value(0)) for key in keys], [(key, None) for key in keys if key != key_of(DELETED // 2)]]


def lone_key(service: Service) -> Iterator[Step]:
    for number in itertools.count():
        yield [(key_of(DELETED // 2), service.value(number))]


def queue(service: Service) -> Iterator[Step]:
    """A job is added, and the oldest one deleted as soon as there are `live` of them."""
    for number in itertools.count():
        oldest: Step = [(key_of(number - service.live + 1), None)] if number + 1 >= service.live else []
        yield [(key_of(number), service.value(number)), *oldest]


def queue_that_keeps_up(service: Service) -> Iterator[Step]:
    """Each job is done before the next one comes."""
    for number in itertools.count():
        yield [(key_of(number), service.value(number))]
        yield [(key_of(number), None)]


GROWTH = 10  # pairs of a step


def waves(service: Service) -> Iterator[Step]:
    """The store grows to `live` pairs and shrinks to none, in another order than that of the keys."""
    keys = [key_of(number * 7_919 % service.live) for number in range(service.live)]
    for number in itertools.count():
        for first in range(0, service.live, GROWTH):
            yield [(key, service.value(number)) for key in keys[first : first + GROWTH]]
        for first in range(0, service.live, GROWTH):
            yield [(key, None) for key in keys[first : first + GROWTH]]


SERVICES = [
    Service("one key", hot_keys, 1, value_bytes=200),
    Service("two keys in turn", hot_keys, 2, 2, value_bytes=200),
    Service("seven keys in turn", hot_keys, 7, 7),
    Service("twenty keys in turn", hot_keys, 20, 20),
    Service("one key, put and deleted in turn", put_and_delete, 1, 2),
    Service("one key among many deleted ones", lone_key, DELETED, prepare=all_but_one),
    Service("a queue", queue, 100),
    Service("a queue that keeps up", queue_that_keeps_up, 1, 2),
    Service("a ring", hot_keys, 400, 400),
    Service("a store that grows and shrinks", waves, 600, 2 * 600 // GROWTH),
]


def new_keys(service: Service) -> Iterator[Step]:
    for number in itertools.count():
        yield [(key_of(number), service.value(number))]


def growing_batches(service: Service) -> Iterator[Step]:
    for number in itertools.count():
        yield [(key_of(0), service.value(number))] * (1 + number // 100)


# What has to be found: a store that grows, and steps that cost more and more.
PLANTED = [Service("more and more keys", new_keys, 5_000, value_bytes=1_000), Service("longer and longer batches", growing_batches, 1)]
UNFLUSHED = Service("one key that is never flushed", hot_keys, 1, value_bytes=1_000, is_flushing=False)


# ---- Who serves them.


class Host(Protocol):
    """A program that executes steps. `pid` is the process that is measured."""

    pid: int

    def run(self, steps: list[Step], were_there: list[list[bool]], is_flushing: bool) -> None:
        """Executes steps, and compares the answers; the lists say for each change whether there was such a key."""

    def rest(self) -> None:
        """Keeps the log as full as it should be. What it costs is not counted."""

    def is_warm(self) -> bool:
        """Returns whether the log is as full as it should be at the beginning."""

    def end(self, pairs: Pairs) -> None:
        """Compares the pairs of the store, and ends the program."""


@dataclass(frozen=True)
class Log:
    """`fan` and `chain`, how full the log is at the beginning and stays (`new`, `two thirds` or `full`), and whether the program cleans it itself."""

    fan: int = 16
    chain: int = 4
    use: str = "new"
    is_cleaning: bool = True
    in_file: bool = True
    segments: int | None = None  # None for a log that never refuses the service

    def options(self, service: Service) -> list[str]:
        """Returns settings of a log that never refuses this service, as `Settings::for_pairs` computes them, but with smaller segments."""
        pairs, key, value = 2 * service.live, 16, service.value_bytes
        text = pairs * (5 + key + value) + (2 * pairs // self.fan + 1) * (28 + 2 * key)
        longest = 33 + key + self.fan * (3 + key + max(2 + value, 8))
        size = max(8 * longest // 3, 16_384)
        segments = self.segments or max(16, (8 * (self.chain + 2) // 7 + 1) * text // size + 4)
        numbers = {"fan": self.fan, "chain": self.chain, "max-key": key, "max-value": value, "seg-size": size, "segments": segments}
        return [f"--{name}={number}" for name, number in numbers.items()]

    def name(self) -> str:
        how = "--clean-when-full" if self.is_cleaning else "lines clean"
        return f"fan {self.fan}, chain {self.chain}, {'a file' if self.in_file else 'in memory'}, {self.use} log, {how}"


def differ(found: object, expected: object) -> None:
    if found != expected:
        raise Difference(f"the answer was {str(found)[:300]}, where {str(expected)[:300]} was expected")


class StreamHost:
    """A stream of `bwsh`."""

    def __init__(self, program: Path, path: Path, service: Service, log: Log) -> None:
        self.program, self.log, self.is_flushing = program, log, service.is_flushing
        self.disk = ["--disk", str(path)] if log.in_file else []
        words = [*self.disk, *["--create"] * log.in_file, *log.options(service), *["--clean-when-full"] * log.is_cleaning]
        self.session = PipedProgram([program, "--stream", *words])
        self.pid = self.session.process.pid
        self.sequence, self.cleans = 1, 0

    def text(self, step: Step, is_flushing: bool) -> bytes:
        lines = [b"del %s\n" % key if value is None else b"put %s %s\n" % (key, value) for key, value in step]
        return b"".join([*lines, b"flush\n" if is_flushing else b"go\n"])

    def run(self, steps: list[Step], were_there: list[list[bool]], is_flushing: bool) -> None:
        texts = [self.text(step, is_flushing) for step in steps]
        begin = size = 0
        for end, text in enumerate(texts, 1):
            size += len(text)
            if end == len(texts) or size + len(texts[end]) > LONGEST_TEXT:
                self.session.send(b"".join(texts[begin:end]))
                for step, there in zip(steps[begin:end], were_there[begin:end]):
                    self.expect(step, there, is_flushing)
                begin, size = end, 0

    def expect(self, step: Step, there: list[bool], is_flushing: bool) -> None:
        for (_, value), was_there in zip(step, there):
            absent, present = (b"missing\n", b"deleted\n") if value is None else (b"new\n", b"replaced\n")
            differ(self.session.read_line(), present if was_there else absent)
        if is_flushing:
            line = self.read_cleans()
            self.sequence += 1
            differ(line, b"flushed %d\n" % self.sequence)

    def read_cleans(self) -> bytes:
        """Reads the lines of cleans, and returns the next one."""
        while True:
            line = self.session.read_line()
            if not line.startswith(b"cleaned "):
                return line
            self.cleans += 1
            self.sequence += 1
            differ(line, b"cleaned %d\n" % self.cleans)

    def ask(self, line: bytes) -> bytes:
        self.session.send(line)
        return self.session.read_line()

    def used(self) -> float:
        """Returns the part of the segments that is in use."""
        words = self.ask(b".stat\n").split()
        self.session.read_line()  # the settings
        return int(words[8]) / int(words[10])

    def rest(self) -> None:
        """If the program doesn't clean the log, lines do. A log that shall be two thirds full is cleaned until it is nearly so."""
        least = {"new": 0.3, "two thirds": TWO_THIRDS[1], "full": 1.0}[self.log.use]
        while (not self.log.is_cleaning or self.log.use == "two thirds") and self.used() > least:
            line = self.ask(b"clean\n")
            if line == b"fault 11 NothingToClean\n":
                return
            self.cleans += 1
            self.sequence += 1
            differ(line, b"cleaned %d\n" % self.cleans)

    def is_warm(self) -> bool:
        """A log that is cleaned has been cleaned once, since a clean takes memory that the program keeps."""
        if self.log.use == "two thirds" and self.used() < TWO_THIRDS[0]:
            return False
        return self.cleans > 0 or self.log.use == "new" and (self.log.is_cleaning or not self.is_flushing)

    def end(self, pairs: Pairs) -> None:
        rows = [b"%s %s\n" % (token(key), token(pairs[key])) for key in sorted(pairs)]
        expected = b"rows %d\n" % len(pairs) + b"".join(rows)
        self.session.send(b"scan %% * %d\nflush\nverify\n" % ALL_ROWS)
        differ(b"".join(self.session.read_line() for _ in range(len(pairs) + 1)), expected)
        self.read_cleans()  # and the number of a flush without changes
        differ(self.session.read_line().split()[::3], [b"ok", b"%d" % len(pairs)])
        differ(self.session.finish(), (0, b"", b""))
        if self.log.in_file:
            again = PipedProgram([self.program, *self.disk])
            again.send(b"scan %% * %d\n" % ALL_ROWS)
            differ(again.finish(), (0, expected, b""))


class ClientHost:
    """The Python client."""

    def __init__(self, program: Path, path: Path, service: Service, log: Log) -> None:
        words = (word.removeprefix("--").replace("-", "_").split("=") for word in log.options(service))
        self.store = Store(path, create=True, program=program, **{name: int(number) for name, number in words})
        self.pid, self.path, self.program, self.log = self.store.pid or 0, path, program, log

    def run(self, steps: list[Step], were_there: list[list[bool]], is_flushing: bool) -> None:
        for step, there in zip(steps, were_there):
            found = self.store.batch([Del(key) if value is None else Put(key, value) for key, value in step])
            differ(found, [was_there if value is None else not was_there for (_, value), was_there in zip(step, there)])
            if is_flushing:
                self.store.flush()

    def rest(self) -> None:
        pass

    def is_warm(self) -> bool:
        stat = self.store.stat()
        return {"new": True, "two thirds": stat.in_use >= TWO_THIRDS[0] * stat.segments, "full": stat.head > 0}[self.log.use]

    def end(self, pairs: Pairs) -> None:
        differ(dict(self.store), pairs)
        self.store.flush()
        self.store.close()
        with Store(self.path, program=self.program) as again:
            differ(dict(again), pairs)


class ServerHost:
    """`bwserve`, and one client that sends one request at a time."""

    def __init__(self, program: Path, path: Path, service: Service, log: Log) -> None:
        self.program, self.path = program, path
        self.server = Server(program, path, f"--fan={log.fan}", f"--chain={log.chain}", "--segments=3")
        self.client, self.pid = self.server.client(), self.server.process.pid

    def run(self, steps: list[Step], were_there: list[list[bool]], is_flushing: bool) -> None:
        for step, there in zip(steps, were_there):
            for (key, value), was_there in zip(step, there):
                if value is None:
                    differ(self.client.ask("DEL", key), int(was_there))
                else:
                    differ(self.client.ask("SET", key, value), b"OK")

    def rest(self) -> None:
        pass

    def is_warm(self) -> bool:
        return True

    def end(self, pairs: Pairs) -> None:
        differ(read_all(self.client), pairs)
        self.client.close()
        differ(self.server.stop(), (0, b""))
        again = Server(self.program, self.path)
        with again.client() as client:
            differ(read_all(client), pairs)
        differ(again.stop(), (0, b""))

    def kill(self) -> None:
        self.server.kill()


HOSTS: dict[str, type[StreamHost] | type[ClientHost] | type[ServerHost]] = {"bwsh": StreamHost, "client": ClientHost, "server": ServerHost}


# ---- Lives.


@dataclass(frozen=True)
class Ages:
    """What a life cost: processor seconds of a flush in the cheapest window of the first and of the last tenth, and bytes of memory after each."""

    first: float
    last: float
    memory: int
    more_memory: int

    def growth(self) -> float:
        return self.last / self.first

    def __str__(self) -> str:
        grown = f"{self.first * 1e6:.1f} to {self.last * 1e6:.1f} us a flush ({self.growth():.2f} times)"
        return f"{grown}, {self.memory / 1e6:.1f} MB and {self.more_memory / 1e6:+.2f} MB"


@dataclass(frozen=True)
class Life:
    service: Service
    log: Log
    flushes: int
    host: str = "bwsh"

    def name(self) -> str:
        how = self.log.name() if self.host == "bwsh" else f"the {self.host}, fan {self.log.fan}, chain {self.log.chain}"
        return f"{self.service.name}: {self.flushes:,} flushes; {how}"

    @contextlib.contextmanager
    def begun(self, program: Path, path: Path) -> Iterator["Living"]:
        """Yields a life that has begun, and kills its program if it is still there at the end."""
        path.unlink(missing_ok=True)
        host: Host = HOSTS[self.host](program, path, self.service, self.log)
        try:
            living = Living(self, host)
            living.begin()
            yield living
        finally:
            kill_if_alive(host)

    def live(self, program: Path, folder: Path) -> Ages:
        """Lives once. If the cost has grown, this may be due to other programs that began meanwhile: then a young twin is run in turns with the old
        program, and their costs are compared. Raises Difference if an answer is wrong."""
        with self.begun(program, folder / "old") as old:
            tenths = [old.run_tenth() for _ in range(TENTHS)]
            (first, memory), (last, memory_at_end) = tenths[0], tenths[-1]
            if last > MOST_GROWTH * first:
                with self.begun(program, folder / "young") as young:
                    turns = [(young.run_window(), old.run_window()) for _ in range(old.windows)]
                first, last = min(cost for cost, _ in turns), min(cost for _, cost in turns)
            old.end()
        return Ages(first, last, memory, memory_at_end - memory)

    def wrong(self, ages: Ages) -> str | None:
        """An in-memory disk records all that is ever written to it, so there only the time is judged, unless nothing is written."""
        writes_to_memory = self.host == "bwsh" and not self.log.in_file and self.service.is_flushing
        is_grown = ages.growth() > MOST_GROWTH or ages.more_memory > MOST_MEMORY and not writes_to_memory
        return str(ages) if is_grown else None

    def judged(self, program: Path, folder: Path) -> tuple[str | None, Ages]:
        """Lives until a life does not grow, at most `LIVES` times. Returns what is wrong, and what the last life cost."""
        for _ in range(LIVES):
            ages = self.live(program, folder)
            if self.wrong(ages) is None:
                break
        return self.wrong(ages), ages


class Living:
    """A life that is being lived: its host, its pairs, and the steps that are to come."""

    def __init__(self, life: Life, host: Host) -> None:
        self.host, self.steps = host, life.service.steps(life.service)
        self.pairs: Pairs = {}
        self.is_flushing, self.prepared = life.service.is_flushing, life.service.prepare(life.service)
        cycle = life.service.cycle
        self.window = cycle * max(1, -(-LEAST_WINDOWS[life.host] // cycle))
        self.windows = max(1, life.flushes // (TENTHS * self.window))  # of a tenth

    def there(self, step: Step) -> list[bool]:
        """Executes a step on the pairs, and returns for each change whether there was such a key."""
        there = []
        for key, value in step:
            there.append(key in self.pairs)
            if value is None:
                self.pairs.pop(key, None)
            else:
                self.pairs[key] = value
        return there

    def run(self, steps: list[Step]) -> float:
        """Returns the processor seconds of a step."""
        there = [self.there(step) for step in steps]
        before = processor_seconds(self.host.pid)
        self.host.run(steps, there, self.is_flushing)
        return (processor_seconds(self.host.pid) - before) / len(steps)

    def run_window(self) -> float:
        taken = self.run(list(itertools.islice(self.steps, self.window)))
        self.host.rest()
        return taken

    def run_tenth(self) -> tuple[float, int]:
        taken = min(self.run_window() for _ in range(self.windows))
        return taken, status_bytes(self.host.pid, "VmRSS")

    def begin(self) -> None:
        if self.prepared:
            self.run(self.prepared)
        for windows in itertools.count():
            self.run_window()
            if self.host.is_warm():
                return
            if windows == MOST_WARMING:
                raise Difference(f"the log was not as full as it should be after {windows} windows")

    def end(self) -> None:
        self.host.end(self.pairs)


def kill_if_alive(host: Host) -> None:
    if isinstance(host, StreamHost):
        host.session.kill()
    elif isinstance(host, ServerHost):
        host.kill()
    elif isinstance(host, ClientHost):
        host.store.close()


class LifeSoak:
    """Draws lives. `server` is the program of the server, or None."""

    def __init__(self, program: Path, seed: int, folder: Path, server: Path | None = None) -> None:
        self.program, self.seed, self.folder, self.server = program, seed, folder, server
        self.counts: Counter[str] = Counter()
        self.number, self.chance = 0, random.Random()

    def totals(self) -> str:
        return f"{self.counts['lives']:,} lives, {self.counts['flushes']:,} flushes"

    def draw(self) -> Life:
        chance = self.chance
        host = chance.choice(["bwsh"] * 6 + ["client"] + ["server"] * (self.server is not None))
        fan, chain = chance.choice([(16, 4), (32, 16), (64, 16), (64, 4), (8, 1), (4, 2)])
        service = chance.choice([*SERVICES, UNFLUSHED] if host == "bwsh" else SERVICES)
        use = chance.choice(["new", "two thirds", "full"]) if service.is_flushing else "new"
        log = Log(fan, chain, use, use == "full" or chance.random() < 0.6, chance.random() < 0.5)
        return Life(service, log, chance.choice([20_000, 50_000, 100_000] if host == "bwsh" else [10_000, 20_000]), host)

    def run_store(self, number: int) -> Iterator[None]:
        """Lives once, and yields. Each life has its own seed, so it can be run alone."""
        self.number, self.chance = number, random.Random(f"lives {self.seed} {number}")
        self.life = self.draw()
        wrong, _ = self.life.judged(self.server if self.life.host == "server" and self.server else self.program, self.folder)
        if wrong:
            raise Difference(wrong)
        self.counts["lives"] += 1
        self.counts["flushes"] += self.life.flushes
        yield

    def report(self, difference: Difference) -> None:
        print(f"life {self.number}: `--seed {self.seed} --first {self.number}` begins with it: {self.life.name()}")
        print(f"FAILED: {difference}", flush=True)
