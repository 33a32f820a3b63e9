"""Puts the pairs of a store again and again, in a log that is as large as `Settings::for_pairs` says: it must never be full."""

import random
import subprocess
from collections import Counter
from collections.abc import Iterator
from pathlib import Path

from tools.answers import ALL_ROWS
from tools.processes import NO_VARIABLES, Command, PipedProgram
from tools.soak.sessions import Difference

COUNTED = ["logs", "flushes", "puts", "cleans", "logs without a clean"]
FLUSHES = 200  # of each kind
PLANTS = ("log",)
FAN, CHAIN = 32, 16
LETTERS = [b"%c" % letter for letter in range(ord("a"), ord("z") + 1)]  # of which values consist


def has_option(program: Path, option: str) -> bool:
    ran = subprocess.run([program, "--help"], capture_output=True, text=True, env=NO_VARIABLES)
    return f" {option} " in ran.stdout


def log_for_pairs(pairs: int, key: int, value: int) -> tuple[int, int]:
    """Returns the bytes of a segment and the segments, as `Settings::for_pairs` computes them."""
    room = 21 * (pairs * (5 + key + value) + (pairs // 16 + 1) * (28 + 2 * key))
    longest = 33 + key + FAN * (3 + key + max(2 + value, 8))
    seg_size = max(min(room // 16, 1 << 20), 8 * longest)
    return seg_size, room // seg_size + 4


class SizedLogs:
    """`plant` is a fault that must be found: the log has a sixth of its segments."""

    def __init__(self, program: Path, seed: int, folder: Path, plant: str | None = None) -> None:
        self.program, self.seed, self.plant = program, seed, plant
        self.path = folder / "sized"
        self.has_pairs = has_option(program, "--pairs") and plant is None
        self.counts: Counter[str] = Counter()
        self.number, self.chance = 0, random.Random()

    def totals(self) -> str:
        return ", ".join(f"{self.counts[name]:,} {name}" for name in COUNTED)

    def draw(self) -> None:
        chance = self.chance
        self.key = chance.choice([chance.randint(4, 16), chance.randint(4, 64), chance.randint(4, 255)])
        self.value = chance.choice([0, chance.randint(0, 16), chance.randint(0, 256), chance.randint(0, 1_024)])
        self.pairs = int(10 ** chance.uniform(0, chance.choice([2, 2.5, 3, 3, 3.5])))
        self.keys = [b"%0*d" % (self.key, number * 7_919 % 10_000) for number in range(self.pairs)]
        self.last = [0] * self.pairs  # the letter of each value
        self.log = log_for_pairs(self.pairs, self.key, self.value)

    def settings(self) -> list[str]:
        lengths = [f"--max-key={self.key}", f"--max-value={self.value}"]
        if self.has_pairs:
            return [f"--pairs={self.pairs}", *lengths]
        size, segments = self.log
        segments = max(3, segments // 6) if self.plant else segments
        return [f"--fan={FAN}", f"--chain={CHAIN}", f"--seg-size={size}", f"--segments={segments}", *lengths]

    def chosen(self, kind: str) -> list[int]:
        """Returns the numbers of the keys that a flush puts."""
        if kind == "all pairs":
            return list(range(self.pairs))
        if kind == "a tenth":
            first = self.chance.randrange(self.pairs)
            return [(first + number) % self.pairs for number in range(max(1, self.pairs // 10))]
        if kind == "one pair":
            return [self.chance.randrange(self.pairs)]
        return self.chance.sample(range(self.pairs), self.chance.randint(1, self.pairs))

    def line(self, number: int) -> bytes:
        return b"put %s %s\n" % (self.keys[number], LETTERS[self.last[number]] * self.value or b"%")

    def flush(self, session: PipedProgram, kind: str) -> None:
        chosen = self.chosen(kind)
        for number in chosen:
            self.last[number] = (self.last[number] + 1) % len(LETTERS)
        session.send(b"".join([*map(self.line, chosen), b"flush\n"]))
        for _ in chosen:
            line = session.read_line()
            if line not in (b"new\n", b"replaced\n"):
                raise Difference(f"a put was answered with {line!r}")
        line = session.read_line()
        while line.startswith(b"cleaned "):
            self.cleans += 1
            line = session.read_line()
        if not line.startswith(b"flushed "):
            raise Difference(f"after {self.cleans} cleans a flush of {len(chosen)} pairs ({kind}) was answered with {line!r}")
        self.counts["flushes"] += 1
        self.counts["puts"] += len(chosen)

    def compare(self) -> None:
        """Reads the file in a session of its own."""
        rows = [self.line(number)[len(b"put ") :] for number in sorted(range(self.pairs), key=lambda number: self.keys[number])]
        command: Command = [self.program, "--disk", self.path]
        ran = subprocess.run(command, input=b"scan %% * %d\n" % ALL_ROWS, capture_output=True, env=NO_VARIABLES)
        if ran.returncode or ran.stdout != b"rows %d\n" % self.pairs + b"".join(rows):
            raise Difference(f"the file has {ran.stdout[:200]!r}, and not the {self.pairs} pairs that were put; {ran.stderr!r}")

    def run_store(self, number: int) -> Iterator[None]:
        """Yields after each kind of flush. Each log has its own seed, so it can be run alone."""
        self.number, self.chance = number, random.Random(f"logs {self.seed} {number}")
        self.draw()
        self.cleans = 0
        self.path.unlink(missing_ok=True)
        command: Command = [self.program, "--stream", "--clean-when-full", "--disk", self.path, "--create", *self.settings()]
        session = PipedProgram(command)
        try:
            self.flush(session, "all pairs")
            for kind in self.chance.sample(["all pairs", "a tenth", "one pair", "a random part"], 4):
                for _ in range(FLUSHES):
                    self.flush(session, kind)
                yield
            ending = session.finish()
            if ending != (0, b"", b""):
                raise Difference(f"the session ended with {ending}")
        finally:
            session.kill()
        self.compare()
        self.counts["logs"] += 1
        self.counts["cleans"] += self.cleans
        self.counts["logs without a clean"] += self.cleans == 0

    def report(self, difference: Difference) -> None:
        print(f"log {self.number}: `--seed {self.seed} --first {self.number}` begins with it; its settings:", *self.settings())
        print(f"{self.path} is the file\nFAILED: {difference}", flush=True)
