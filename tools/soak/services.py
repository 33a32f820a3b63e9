"""Runs random services: queues, full logs, kills and copies on stores in files, each compared with a model."""

import itertools
import random
import subprocess
import time
from collections import Counter
from collections.abc import Callable, Iterator
from dataclasses import dataclass
from pathlib import Path

from tools.answers import READ_ALL, token
from tools.failures import DEVICE
from tools.log.writing import Settings
from tools.model import FULL, OrderedMap
from tools.processes import NO_VARIABLES, PATIENCE, Command, PipedProgram
from tools.soak.copied import file_of_copy, segments_for_copy
from tools.soak.sessions import Difference

COUNTED = ["stores", "batches", "commands", "flushes", "cleans", "compactions", "restarts", "kills", "full logs"]
COUNTED += ["full of pages", "copies", "copies refused", "copies cut off", "copied over", "stores cut off"]
MAX_KEY, MAX_VALUE = 8, 100
NO_STORE = b"fault 12 NotAStore\n"
PLANTS = ("flush", "room", "copy", "leftover")
PLANTED = 5  # sessions before a planted fault
DONE, KILLED, FULL_LOG = "done", "killed", "full"  # how a session ended
Pairs = dict[bytes, bytes]
Refusal = tuple[bytes, int, bytes, bytes]  # a line, and how the session ends: status, output, errors
FULL_IN_STREAM: Refusal = (FULL, 0, b"", b"")
FULL_IN_FILE: Refusal = (b"", 4, b"", FULL)


def rows_of(pairs: Pairs) -> list[bytes]:
    return [b"rows %d" % len(pairs), *(token(key) + b" " + token(pairs[key]) for key in sorted(pairs))]


Drawn = tuple[list[bytes], list[bytes]]  # the lines of a batch, and its answers


class Service:
    """Draws the batches of a service: a queue, updates of all pairs, or tokens that come and go."""

    def __init__(self, chance: random.Random) -> None:
        self.chance = chance
        self.live = chance.choice([10, 100, 500, 1_000])
        self.most = chance.choice([1, 5, 20, 100, 500, 1_000])  # commands of a batch
        self.value = chance.choice([0, 8, 40, 100])
        self.added = 0
        self.draw: Callable[[OrderedMap], Drawn] = chance.choice([self.queue, self.queue, self.updates, self.tokens])

    def put(self, pairs: OrderedMap, place: int, drawn: Drawn) -> None:
        key, value = b"%08d" % place, self.chance.randbytes(self.chance.randint(self.value // 2, self.value))
        drawn[0].append(b"put %s %s\n" % (key, token(value)))
        drawn[1].extend(pairs.put(key, value))

    def delete(self, pairs: OrderedMap, key: bytes, drawn: Drawn) -> None:
        drawn[0].append(b"del %s\n" % key)
        drawn[1].extend(pairs.delete(key))

    def count(self) -> int:
        return self.chance.randint(1, self.most)

    def queue(self, pairs: OrderedMap) -> Drawn:
        drawn: Drawn = [], []
        for _ in range(self.count()):
            self.put(pairs, self.added, drawn)
            self.added += 1
        for key in pairs.keys[: max(0, len(pairs.keys) - self.live)]:
            self.delete(pairs, key, drawn)
        return drawn

    def updates(self, pairs: OrderedMap) -> Drawn:
        drawn: Drawn = [], []
        for _ in range(self.count()):
            self.put(pairs, self.chance.randrange(self.live), drawn)
        return drawn

    def tokens(self, pairs: OrderedMap) -> Drawn:
        drawn: Drawn = [], []
        for _ in range(self.count()):
            if len(pairs.keys) < self.live or self.chance.random() < 0.3:
                self.put(pairs, self.chance.randrange(10**8), drawn)
            else:
                self.delete(pairs, self.chance.choice(pairs.keys), drawn)
        return drawn


@dataclass(frozen=True)
class Step:
    """A batch of a session, and a flush after it if `is_flushing`."""

    lines: list[bytes]
    answers: list[bytes]
    is_flushing: bool
    pairs: Pairs  # after the batch
    is_touched: bool  # whether the flush must write

    def text(self) -> bytes:
        return b"".join([*self.lines, b"flush\n" if self.is_flushing else b"go\n"])


class ServiceSoak:
    """`plant` is a fault that must be found: the flushes of a session are lost, no session cleans the log, a copy that is cut off is an empty store,
    or a file that an unfinished copy left has a byte of something else."""

    def __init__(self, program: Path, seed: int, folder: Path, plant: str | None = None) -> None:
        self.program, self.seed, self.folder, self.plant = program, seed, folder, plant
        self.path, self.copied = folder / "service", folder / "copy"
        self.counts: Counter[str] = Counter()
        self.number, self.chance = 0, random.Random()
        self.flushed: Pairs = {}

    def totals(self) -> str:
        return ", ".join(f"{self.counts[name]:,} {name}" for name in COUNTED)

    def begin(self) -> None:
        chance = self.chance
        self.service = Service(chance)
        self.fan, self.chain = chance.choice([4, 8, 16, 16, 32, 64]), chance.choice([1, 4, 4, 8, 16])
        longest = 33 + MAX_KEY + self.fan * (3 + MAX_KEY + 2 + MAX_VALUE)
        self.seg_size = chance.choice([size for size in (2_048, 4_096, 16_384, 65_536) if size >= longest])
        self.pages = [f"--fan={self.fan}", f"--chain={self.chain}", f"--max-key={MAX_KEY}", f"--max-value={MAX_VALUE}", f"--seg-size={self.seg_size}"]
        self.segments = chance.choice([3, 4, 8, 20, 40, 100])
        self.tidying = [f"--tidy={chance.choice([1, 8, 64, 1_000])}"] * chance.choice([0, 0, 1])
        self.path.unlink(missing_ok=True)
        self.copied.unlink(missing_ok=True)
        if chance.random() < 0.3:
            self.cut_creation()
        self.make(self.path, "--create")
        self.pairs, self.flushed, self.page_count, self.height = OrderedMap(), {}, 1, 1
        self.is_cleaned = True  # whether each session since the store was made has cleaned
        self.sequence: int | None = 1  # None if it is unknown
        self.head: int | None = 0

    def settings(self) -> list[str]:
        return [*self.pages, f"--segments={self.segments}"]

    def run_on(self, path: Path, *words: object, text: bytes = b"") -> subprocess.CompletedProcess[bytes]:
        command: Command = [self.program, "--disk", path, *map(str, words)]
        return subprocess.run(command, input=text, capture_output=True, env=NO_VARIABLES, timeout=PATIENCE)

    def make(self, path: Path, *words: object) -> None:
        ended = self.run_on(path, *words, *self.settings())
        if ended.returncode or ended.stderr:
            raise Difference(f"{' '.join(map(str, words))} ended with {ended.returncode}, {ended.stderr!r}")

    def read(self, path: Path) -> tuple[bytes, list[bytes], int, int]:
        """Returns the error, or the rows, the number of pages and the height of the store."""
        ended = self.run_on(path, text=READ_ALL)
        *rows, report = ended.stdout.splitlines() or [b""]
        words = report.split()
        if not ended.stderr and (words[:1] != [b"ok"] or int(words[3]) != len(rows) - 1):
            raise Difference(f"a session on {path.name} printed {report!r}, after {len(rows)} lines")
        pages, height = (0, 0) if ended.stderr else (int(words[1]), int(words[2]))
        return ended.stderr, rows, pages, height

    def recover(self, *possible: Pairs) -> None:
        """Compares the file with the states that it may hold, and continues with the one that it holds."""
        error, rows, pages, height = self.read(self.path)
        for pairs in possible:
            if not error and rows == rows_of(pairs):
                self.counts["compactions"] += 2 * pages < self.page_count and not self.tidying
                self.pairs, self.flushed, self.page_count, self.height = OrderedMap(pairs), dict(pairs), pages, height
                return
        states = " or ".join(f"{len(pairs)} pairs" for pairs in possible)
        raise Difference(f"the file has {error or rows[:1]!r}, where {states} were expected")

    # ---- Sessions.

    def draw(self) -> Step:
        lines, answers = self.service.draw(self.pairs)
        is_flushing, is_touched = self.chance.random() < 0.7, self.pairs.is_touched
        self.pairs.is_touched &= not is_flushing
        self.counts["batches"] += 1
        self.counts["commands"] += len(lines)
        return Step(lines, answers, is_flushing, dict(self.pairs.pairs), is_touched)

    def expect(self, session: PipedProgram, expected: list[bytes]) -> None:
        for answer in expected:
            line = session.read_line()
            if line != answer + b"\n":
                raise Difference(f"the answer was {line!r}, where {answer!r} was expected")

    def read_cleans(self, session: PipedProgram) -> bytes:
        """Reads the line of each clean before a flush, and returns the next one."""
        for cleans in itertools.count():
            line = session.read_line()
            if not line.startswith(b"cleaned "):
                return line
            head = int(line.split()[1])
            if cleans == self.segments or head != (head - 1 if self.head is None else self.head) + 1:
                raise Difference(f"after {cleans} cleans before one flush, and head {self.head}, the answer was {line!r}")
            self.head, self.sequence = head, None if self.sequence is None else self.sequence + 1
            self.counts["cleans"] += 1
        raise AssertionError

    def flush(self, session: PipedProgram, step: Step, refusal: Refusal) -> bool:
        """Returns whether the flush was done; otherwise the log was full, and the session is ended."""
        line = self.read_cleans(session)
        if line.startswith(b"flushed "):
            number = int(line.split()[1])
            if self.sequence is not None and number - self.sequence not in ([1] if step.is_touched else [0, 1]):
                raise Difference(f"after sequence number {self.sequence} a flush was answered with {line!r}")
            self.counts["flushes"] += 1
            self.sequence, self.flushed = number, step.pairs
            return True
        status, out, errors = session.finish()
        if (line, status, out, errors) != refusal:
            raise Difference(f"a flush was answered with {line!r}, status {status}, {errors!r}")
        return False

    def run_session(self) -> bool:
        """Returns whether the store can be used further. Some sessions don't clean, and some read all their lines first."""
        before, is_cleaning = self.path.read_bytes(), self.chance.random() < 0.85
        self.is_cleaned &= is_cleaning
        is_stream = self.chance.random() < 0.75
        words = ["--clean-when-full"] * (is_cleaning and self.plant != "room") + self.tidying + ["--stream"] * is_stream
        session = PipedProgram([self.program, "--disk", self.path, *words])
        count = self.chance.choice([1, 5, 30, 100] if is_stream else [1, 1, 5])
        end = self.run_stream(session, count) if is_stream else self.run_file(session, count)
        if end == FULL_LOG:
            self.counts["full logs"] += 1
            self.recover(self.flushed)
            return not is_cleaning or self.widen()
        if end == DONE:
            status, out, errors = session.finish()
            if status or out or errors:
                raise Difference(f"the session ended with {status}, {out!r}, {errors!r}")
            self.counts["restarts"] += 1
            if self.plant == "flush" and self.counts["restarts"] > PLANTED:
                self.path.write_bytes(before)
            self.recover(self.flushed)
        return True

    def run_stream(self, session: PipedProgram, count: int) -> str:
        for _ in range(count):
            step = self.draw()
            session.send(step.text())
            if self.chance.random() < 0.02:
                return self.kill(session, [step])
            self.expect(session, step.answers)
            if step.is_flushing and not self.flush(session, step, FULL_IN_STREAM):
                return FULL_LOG
        return DONE

    def run_file(self, session: PipedProgram, count: int) -> str:
        """Sends all lines first. Nothing is run before the input ends."""
        steps = [self.draw() for _ in range(count)]
        session.send(b"".join(step.text() for step in steps))
        session.input.close()
        if self.chance.random() < 0.1:
            return self.kill(session, steps)
        for step in steps:
            self.expect(session, step.answers)
            if step.is_flushing and not self.flush(session, step, FULL_IN_FILE):
                return FULL_LOG
        return DONE

    def kill(self, session: PipedProgram, steps: list[Step]) -> str:
        time.sleep(self.chance.random() * self.chance.choice([0, 0.001, 0.01]))
        session.kill()
        self.counts["kills"] += 1
        self.sequence = self.head = None
        self.recover(self.flushed, *[step.pairs for step in steps if step.is_flushing])
        return KILLED

    # ---- Full logs.

    def is_large(self) -> bool:
        """Returns whether the log is as large as docs/OPERATING.md advises for a queue, or has twice the room that the service needs at most. A tree of more
        than 4 pages for each `fan` pairs is compacted, and a queue puts and deletes each key of a page once."""
        service = self.service
        pairs, entry = service.live + service.most, service.value + 13  # a key has 8 bytes, and two lengths and a flag have 5
        if (self.fan, self.chain) == (64, 4) and 14 * pairs * (entry + 5) + self.seg_size <= self.segments * self.seg_size:
            return True
        changes = 2 * self.fan
        if service.draw == service.updates:
            changes = self.chain * min(self.fan, 1 + 2 * service.most * self.fan // service.live)
        page = 25 * (1 + self.chain) + (self.fan + changes) * entry
        used_of_segment = self.seg_size - 25 - self.fan * entry
        return self.segments >= 8 and 2 * (4 * pairs // self.fan + 4) * page <= self.segments * used_of_segment

    def is_bloated(self) -> bool:
        return self.page_count > 4 * len(self.flushed) // self.fan + 4 * self.height

    def widen(self) -> bool:
        """Copies the store into a log that is twice as long, as docs/OPERATING.md advises. If all sessions have cleaned, a log that is large enough is never
        full. But a session that does not clean can fill the log with so many pages that the next flush has no room to compact them. The copy has as
        few pages as possible, and all sessions continue with it."""
        if self.is_large():
            if self.is_cleaned or not self.is_bloated():
                raise Difference(f"{self.segments} segments are full, with {len(self.flushed)} pairs and {self.page_count} pages")
            self.counts["full of pages"] += 1
        self.segments *= 2
        self.copy(0.3)
        return True

    # ---- Copies and new stores, and what a kill leaves of them.

    def log_settings(self) -> Settings:
        return Settings(self.fan, self.chain, MAX_KEY, MAX_VALUE, self.seg_size, self.segments)

    def copy(self, killed: float) -> None:
        """Copies the store, and continues with the copy, whose file must have the bytes that docs/FORMAT.md defines. A copy writes whole pages, which
        may need more room than the changes in the store's log. If the log is too small for them, the copy is refused, and the smallest log that has
        room is used. Sometimes an earlier copy is killed."""
        if self.chance.random() < killed:
            self.cut_copy()
        least = segments_for_copy(self.log_settings(), self.flushed)
        if self.segments < least:
            self.refuse_copy()
            self.segments = least
        self.make(self.path, "--copy-to", self.copied)
        self.counts["copies"] += 1
        if self.copied.read_bytes() != file_of_copy(self.log_settings(), self.flushed):
            raise Difference("the copy's file has other bytes than those of its pages")
        self.copied.replace(self.path)
        self.sequence = self.head = None
        self.page_count, self.is_cleaned = 0, True
        self.recover(self.flushed)

    def refuse_copy(self) -> None:
        ended = self.run_on(self.path, "--copy-to", self.copied, *self.settings())
        if (ended.returncode, ended.stdout, ended.stderr) != (4, b"", FULL):
            raise Difference(f"a copy into {self.segments} segments ended with {ended.returncode}, {ended.stderr!r}")
        if self.is_whole(self.copied, self.flushed):
            raise Difference(f"a copy that {self.segments} segments have no room for is a store")
        self.counts["copies refused"] += 1

    def cut_off(self, *words: object) -> None:
        command: Command = [self.program, *map(str, words), *self.settings()]
        with subprocess.Popen(command, stdin=subprocess.DEVNULL, stderr=subprocess.DEVNULL, env=NO_VARIABLES) as child:
            time.sleep(self.chance.random() * self.chance.choice([0.003, 0.01, 0.05]))
            child.kill()

    def is_whole(self, path: Path, pairs: Pairs) -> bool:
        """Returns whether the file that a killed program left is a store of these pairs. If it isn't, it must hold no store."""
        if not path.exists() or path.stat().st_size == 0:
            return False
        error, rows, _, _ = self.read(path)
        if error != NO_STORE and (error or rows != rows_of(pairs)):
            raise Difference(f"{path.name}, which was cut off, has {error or rows[:1]!r}")
        return not error

    def cut_creation(self) -> None:
        self.cut_off("--disk", self.path, "--create")
        self.counts["stores cut off"] += 1
        self.is_whole(self.path, {})

    def cut_copy(self) -> None:
        """Kills a copy. If it is complete, the next copy must not overwrite it; otherwise the next copy must take its place."""
        self.cut_off("--disk", self.path, "--copy-to", self.copied)
        self.counts["copies cut off"] += 1
        self.spoil_copy()
        if self.is_whole(self.copied, self.flushed):
            before = self.copied.read_bytes()
            ended = self.run_on(self.path, "--copy-to", self.copied, *self.settings())
            if (ended.returncode, ended.stderr) != (4, DEVICE) or self.copied.read_bytes() != before:
                raise Difference(f"a copy over a complete one ended with {ended.returncode}, {ended.stderr!r}")
            self.copied.unlink()
        self.counts["copied over"] += self.copied.exists()

    def spoil_copy(self) -> None:
        if not self.copied.exists() or self.copied.read_bytes()[:1] == b"B":
            return
        if self.plant == "copy":
            self.make(self.copied, "--create")
        elif self.plant == "leftover":
            self.copied.write_bytes(self.copied.read_bytes() + b"x")

    def run_store(self, number: int) -> Iterator[None]:
        """Yields after each session. Each store has its own seed, so it can be run alone; the moments of kills depend on the clock."""
        self.number, self.chance = number, random.Random(f"services {self.seed} {number}")
        self.begin()
        self.counts["stores"] += 1
        for _ in range(self.chance.choice([2, 10, 40])):
            if not self.run_session():
                return
            if self.chance.random() < 0.05:
                self.copy(0.5)
            yield

    def report(self, difference: Difference) -> None:
        print(f"store {self.number}: `--seed {self.seed} --first {self.number}` begins with it; its settings:", *self.settings(), *self.tidying)
        print(f"{self.folder} has its file\nFAILED: {difference}", flush=True)
