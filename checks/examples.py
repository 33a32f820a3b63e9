"""The programs of `examples/`: killed sessions, closed streams, and the first programs of docs/EMBEDDING.md."""

import random
from collections.abc import Callable
from dataclasses import dataclass, field
from itertools import zip_longest
from pathlib import Path

from tools.cases import Case, Outcome, Programs, differs
from tools.log.reading import read_store
from tools.processes import Limits, abbreviate, new_folder, run, run_until

SEEDS, KILLS = 2, 5
COMMANDS = 1_500  # of a session that is not killed
LIFETIME = 600  # seconds of a session after its last use
CAPACITY = 100  # pairs of the cache
STACK = 256  # KB, because the line reader's buffer is on the stack

Lines = list[str]


@dataclass(frozen=True)
class ExampleCommand:
    line: str
    answer: str
    is_durable: bool = True


@dataclass(frozen=True)
class ReadBack:
    """Lines that change nothing in the file, their answers, and the pairs of the file."""

    lines: Lines
    answers: Lines
    pairs: dict[bytes, bytes]


def text_of(lines: Lines) -> bytes:
    return "".join(f"{line}\n" for line in lines).encode()


# ---- A simple model of each example.


@dataclass
class SessionsModel:
    """The expiry and the user of each session. Each command is 20 seconds later than the one before it."""

    sessions: dict[str, tuple[int, str]] = field(default_factory=dict)

    def open(self) -> None:
        pass

    def next(self, number: int) -> ExampleCommand:
        now, token = number * 20, f"t{number * 37 % 47}"
        if number % 10 == 9:
            kept = {token: session for token, session in self.sessions.items() if session[0] > now}
            swept, self.sessions = len(self.sessions) - len(kept), kept
            return ExampleCommand(f"{now} sweep", f"{swept} expired")
        if number % 3 == 0:
            return self.use(now, token)
        self.sessions[token] = (now + LIFETIME, user := f"user {number}")
        return ExampleCommand(f"{now} begin {token} {user}", f"{token} is {user}")

    def use(self, now: int, token: str) -> ExampleCommand:
        expiry, user = self.sessions.get(token, (0, ""))
        if now >= expiry:
            return ExampleCommand(f"{now} use {token}", f"{token} has no session", is_durable=False)
        self.sessions[token] = (now + LIFETIME, user)
        return ExampleCommand(f"{now} use {token}", f"{token} is {user}")

    def read_back(self) -> ReadBack:
        rows = {f"s{token}".encode(): expiry.to_bytes(8, "big") + user.encode() for token, (expiry, user) in self.sessions.items()}
        entries = {b"x" + expiry.to_bytes(8, "big") + token.encode(): b"" for token, (expiry, _) in self.sessions.items()}
        return ReadBack(["0 use nobody"], ["nobody has no session"], {**rows, **entries})


@dataclass
class IndexModel:
    texts: dict[str, str] = field(default_factory=dict)

    def open(self) -> None:
        pass

    def next(self, number: int) -> ExampleCommand:
        name = f"n{number * 37 % 101}"
        text = "" if number % 7 == 6 else " ".join(f"w{number * at % 23}" for at in range(1, 2 + number % 5))
        self.texts.pop(name, None)
        if text:
            self.texts[name] = text
        return ExampleCommand(f"set {name} {text}" if text else f"set {name}", f"{name} is set")

    def having(self, *words: str) -> Lines:
        return [name for name in sorted(self.texts) if set(words) <= set(self.texts[name].split())]

    def read_back(self) -> ReadBack:
        searches = [(f"w{at}", f"w{at * at % 23}", "w0")[: 1 + at % 3] for at in range(23)]
        rows = {f"d{name}".encode(): text.encode() for name, text in self.texts.items()}
        entries = {f"w{word}\0{name}".encode(): b"" for name, text in self.texts.items() for word in text.split()}
        found = [name for words in searches for name in self.having(*words)]
        return ReadBack([f"find {' '.join(words)}" for words in searches], found, {**rows, **entries})


@dataclass
class QueueModel:
    """The jobs from number `head` on."""

    head: int = 0
    jobs: Lines = field(default_factory=list)

    def open(self) -> None:
        self.head = self.head if self.jobs else 0

    def next(self, number: int) -> ExampleCommand:
        if number % 5 == 4:
            return ExampleCommand("first", self.first(), is_durable=False)
        is_push = number % 3 != 0 if number // 100 % 2 == 0 else number % 6 == 0  # the queue is empty now and then
        if is_push:
            self.jobs.append(text := f"job {number} {'.' * (number % 60)}")
            return ExampleCommand(f"push {text}", f"job {self.head + len(self.jobs) - 1}")
        if not self.jobs:
            return ExampleCommand("done", "empty")
        del self.jobs[0]
        self.head += 1
        return ExampleCommand("done", f"job {self.head - 1} is done")

    def first(self) -> str:
        return f"job {self.head} {self.jobs[0]}" if self.jobs else "empty"

    def read_back(self) -> ReadBack:
        pairs = {number.to_bytes(8, "big"): text.encode() for number, text in enumerate(self.jobs, self.head)}
        return ReadBack(["first"], [self.first()], pairs)


@dataclass
class CacheModel:
    """Pairs, each with its mark, and the position of the clock hand."""

    pairs: dict[str, tuple[bool, str]] = field(default_factory=dict)
    hand: str = ""

    def open(self) -> None:
        self.hand = ""

    def next(self, number: int) -> ExampleCommand:
        key = f"k{number * 37 % 211}"
        if number % 3 == 0:
            value = self.pairs[key][1] if key in self.pairs else None
            if value is not None:
                self.pairs[key] = (True, value)
            return ExampleCommand(f"get {key}", f"{key} is {'missing' if value is None else value}", is_durable=False)
        if key not in self.pairs:
            self.make_room()
        self.pairs[key] = (False, value := f"{number} {'.' * (number % 90)}")
        return ExampleCommand(f"put {key} {value}", f"{key} is {value}")

    def make_room(self) -> None:
        """Evicts by the clock algorithm, from the hand on: a marked pair is spared once."""
        while len(self.pairs) >= CAPACITY:
            key = min((key for key in self.pairs if key >= self.hand), default=min(self.pairs))
            was_read, value = self.pairs.pop(key)
            if was_read:
                self.pairs[key] = (False, value)
            self.hand = key + "\0"

    def read_back(self) -> ReadBack:
        keys = [f"k{at}" for at in range(211)]
        answers = [f"{key} is {self.pairs[key][1] if key in self.pairs else 'missing'}" for key in keys]
        pairs = {key.encode(): f"{'+' if was_read else '-'}{value}".encode() for key, (was_read, value) in self.pairs.items()}
        return ReadBack([f"get {key}" for key in keys], answers, pairs)


ExampleModel = SessionsModel | IndexModel | QueueModel | CacheModel
MODELS: dict[str, Callable[[], ExampleModel]] = {
    "sessions": SessionsModel,
    "inverted_index": IndexModel,
    "queue": QueueModel,
    "cache": CacheModel,
}


def play(name: str, restarts: list[int], commands: int) -> ExampleModel:
    """A new session begins before each command in `restarts`."""
    model = MODELS[name]()
    for number in range(commands):
        if number in restarts:
            model.open()
        model.next(number)
    return model


def run_killed(program: Path, path: Path, lines: Lines, size: int | None) -> tuple[int, Lines]:
    """Kills the session when it has printed `size` bytes. Returns its status and its whole lines of output."""
    source, out = path.with_suffix(".lines"), path.with_suffix(".out")
    source.write_bytes(text_of(lines))
    status, _ = run_until([program, path], source, out, size, delay=0, is_mixed=True)
    return status, out.read_text(errors="replace").split("\n")[:-1]


def first_wrong_line(lines: Lines, expected: Lines) -> str:
    at, (line, right) = next((at, pair) for at, pair in enumerate(zip_longest(lines, expected), 1) if pair[0] != pair[1])
    return f"{abbreviate(str(line).encode())}, where {abbreviate(str(right).encode())} was expected, on line {at} of {len(lines)}"


@dataclass
class KilledExample:
    name: str
    program: Path
    path: Path
    done: int = 0
    restarts: list[int] = field(default_factory=list)

    def kill(self, count: int, share: float | None) -> tuple[str | None, bool]:
        """Kills the session after this share of the answers. Returns an error, and whether the session ended before the kill."""
        model = play(self.name, self.restarts, self.done)
        model.open()
        commands = [model.next(self.done + at) for at in range(count)]
        expected = [each.answer for each in commands]
        size = None if share is None else int(len(text_of(expected)) * share)
        self.restarts.append(self.done)  # reading sessions flush nothing
        status, printed = run_killed(self.program, self.path, [each.line for each in commands], size)
        if status != 0 and (status != -9 or size is None):
            return f"status {status}, output {abbreviate(text_of(printed[-2:]))}", True
        if printed != expected[: len(printed)] or (status == 0 and len(printed) < len(expected)):
            return f"the output has {first_wrong_line(printed, expected)}", status == 0
        return self.check(commands, len(printed)), status == 0

    def check(self, commands: list[ExampleCommand], answered: int) -> str | None:
        """The file must hold all commands up to the last durable one, or one more."""
        ends = [0, *(at for at, command in enumerate(commands, 1) if command.is_durable)]
        last, further = (self.done + max(end for end in ends if end <= most) for most in (answered, answered + 1))
        wrong = self.wrong_file(last)
        if wrong is None:
            self.done = last
            return None
        if further > last and self.wrong_file(further) is None:
            self.done = further
            return None
        return f"after {answered} answers {wrong}"

    def wrong_file(self, done: int) -> str | None:
        read_back = play(self.name, self.restarts, done).read_back()
        ran = run([self.program, self.path], text_of(read_back.lines), Limits(STACK))
        lines = ran.out.decode(errors="replace").split("\n")[:-1]
        if ran.status != 0:
            return ran.describe()
        if lines != read_back.answers:
            return f"the file has {first_wrong_line(lines, read_back.answers)}"
        found = dict(read_store(self.path.read_bytes()).pairs)
        return None if found == read_back.pairs else f"the file has {len(found)} pairs, which are not the {len(read_back.pairs)} of the model"


def kill_often(name: str, program: Path, seed: int, folder: Path) -> Outcome:
    chance = random.Random(seed)
    wrong, _ = KilledExample(name, program, folder / "whole").kill(COMMANDS, None)
    if wrong:
        return Outcome(f"without a kill: {wrong}")
    kills, most, example = 0, 1.0, KilledExample(name, program, folder / "store")
    while kills < KILLS:
        wrong, is_ended = example.kill(COMMANDS, most * chance.random())
        if wrong:
            return Outcome(f"kill {kills + 1}: {wrong}")
        kills += not is_ended
        most *= 0.8 if is_ended else 1
    return Outcome(measured=f"{example.done} commands, of {COMMANDS} a session, were recovered after the last kill")


def why_left_out(program: Path) -> str | None:
    return None if program.is_file() else "it is not built"


def kill_example(programs: Programs, name: str, seed: int) -> Outcome:
    program = programs.examples / name
    if why := why_left_out(program):
        return Outcome(left_out=why)
    with new_folder() as folder:
        return kill_often(name, program, seed, Path(folder))


def close(programs: Programs, name: str, closed: str) -> Outcome:
    """An example with a closed input or output must not create a file, and must not change one."""
    program = programs.examples / name
    if why := why_left_out(program):
        return Outcome(left_out=why)
    text = text_of([MODELS[name]().next(number).line for number in range(1, 3)] if name in MODELS else ["a 1", "b 2"])
    with new_folder() as folder:
        path, new = Path(folder) / "file", Path(folder) / "new"
        made = run([program, path], text, Limits(STACK))
        before = path.read_bytes()
        ran = run([program, path], text, Limits(STACK, redirections=closed))
        fresh = run([program, new], text, Limits(STACK, redirections=closed))
        err = b"Error: Bad file descriptor (os error 9)\n"
        wrong = None if made.status == 0 else made.describe()
        wrong = wrong or differs(ran, 1, b"", err) or differs(fresh, 1, b"", err)
        wrong = wrong or (None if path.read_bytes() == before else "the file has other bytes")
        return Outcome(wrong or ("there is a file" if new.exists() else None))


# ---- The first programs of docs/EMBEDDING.md; checks/pages.py compares that page with their sources.

TOO_LONG = (
    "Shorten the value, or copy the store with a larger max_value. A value is too long for the store."
)
STEPS = f"""new: {{is_new}}, flushed {{number}}
refused: {TOO_LONG}
key is value
deleted: true, added: true, pairs: 1
"""


def run_first_steps(programs: Programs) -> Outcome:
    program = programs.examples / "first_steps"
    if why := why_left_out(program):
        return Outcome(left_out=why)
    with new_folder() as folder:
        ran = [run([program], limits=Limits(STACK), folder=Path(folder)) for _ in range(2)]
        due = [STEPS.format(is_new=is_new, number=number).encode() for is_new, number in (("true", 2), ("false", 3))]
        return Outcome(differs(ran[0], 0, due[0]) or differs(ran[1], 0, due[1]))


def count_twice(programs: Programs) -> Outcome:
    program = programs.examples / "counters"
    if why := why_left_out(program):
        return Outcome(left_out=why)
    with new_folder() as folder:
        ran = [run([program, Path(folder) / "store"], limits=Limits(STACK)) for _ in range(2)]
        return Outcome(differs(ran[0], 0, b"home: 5000\nnews: 5000\n") or differs(ran[1], 0, b"home: 10000\nnews: 10000\n"))


def put_then_get(programs: Programs) -> Outcome:
    program = programs.examples / "put_then_get"
    if why := why_left_out(program):
        return Outcome(left_out=why)
    pairs = {f"k{at * 7 % 50}": f"value {at} {'.' * (at % 60)}" for at in range(200)}
    lines = [f"k{at * 7 % 50} value {at} {'.' * (at % 60)}" for at in range(200)]
    with new_folder() as folder:
        path = Path(folder) / "store"
        for part in (lines[:100], lines[100:]):
            ran = run([program, path], text_of(part), Limits(STACK))
            if wrong := differs(ran, 0, text_of([line.replace(" ", " is ", 1) for line in part])):
                return Outcome(wrong)
        found = {key.decode(): value.decode() for key, value in read_store(path.read_bytes()).pairs}
        return Outcome(None if found == pairs else f"the file holds {len(found)} pairs, which are not those that were put")


def cases(programs: Programs) -> list[Case]:
    kills = [Case(f"{name}, {KILLS} kills, seed {seed}", kill_example, (programs, name, seed)) for name in MODELS for seed in range(1, SEEDS + 1)]
    closed = [Case(f"{name}, {closed}", close, (programs, name, closed)) for name in [*MODELS, "put_then_get"] for closed in (">&-", "<&-")]
    steps = Case("the first steps of docs/EMBEDDING.md", run_first_steps, (programs,))
    return [*kills, *closed, steps, Case("counters", count_twice, (programs,)), Case("put_then_get", put_then_get, (programs,))]
