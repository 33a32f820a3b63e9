"""Runs random sessions on one store after the other."""

import random
import re
import signal
import subprocess
from collections import Counter
from collections.abc import Iterator, Sequence
from dataclasses import dataclass, field, replace
from pathlib import Path

from tools.answers import READ_ALL, ending_of_read_all
from tools.building import build_c_library
from tools.failures import DEVICE, NO_MEMORY
from tools.log.reading import read_store
from tools.model import FULL, NOTHING_TO_CLEAN, Order, StoreModel, StoreState
from tools.processes import Command, Environment
from tools.soak.drawing import BAD_LINES, DrawnStore
from tools.soak.files import CrashingFile, FileContent, is_left_by_create, read_content, widen

LIBRARY = Path(__file__).resolve().parent.parent / "c/soak.c"
PATIENCE = 300  # seconds
NO_FAILURE, KILLS, FAILURES, OF_MEMORY = "-", "khKa", "fFs", "ma"  # letters of c/soak.c; c and i change nothing
COUNTED = ["stores", "sessions", "commands", "flushes", "cleans", "upgrades", "kills", "failing calls", "calls cut short or interrupted"]
COUNTED += ["allocations refused", "crashes", "more that a crash could leave", "full logs", "other refusals", "damaged files"]
IMAGES = 8  # crash images that are read besides the next session's
PLANTS, PLANTED = ("line", "byte", "sync"), 20  # planted faults, and the number of sessions before each
REPORT = re.compile(rb"^ok [0-9]+ [0-9]+ ([0-9]+)$")
MOST_FULL = 3  # successive full logs before a new store
SYNCS_OF_CREATE = 2  # the first byte is written after the first sync
BAD_CREW = b"fault 5 BadCrew\n"


class Difference(Exception):
    """A difference from the model."""


def hang(*_: object) -> None:
    raise Difference(f"the session ran for {PATIENCE} s")


def describe(state: StoreState | None, other: StoreState | None) -> str:
    return state.describe(other) if state else "no store"


def count_answered(orders: Sequence[Order], out: bytes) -> int:
    """Counts complete answers. Raises Difference unless `out` begins the expected output."""
    lines, at = out.split(b"\n")[:-1], 0
    for number, order in enumerate(orders):
        for expected in order.printed:
            if at == len(lines):
                return number
            line = REPORT.sub(rb"ok ? \1", lines[at]) if expected.startswith(b"ok ?") else lines[at]
            if line != expected:
                where = f"on line {at + 1} of {len(lines)}, of order {number}, {order.name}"
                raise Difference(f"the output has {lines[at]!r}, where {expected!r} was expected, {where}")
            at += 1
        if order.ending:
            break
    else:
        number = len(orders)
    if at < len(lines):
        raise Difference(f"the output has {lines[at]!r}, where nothing was expected, on line {at + 1} of {len(lines)}")
    return number


@dataclass
class SoakSession:
    """`failure` is what c/soak.c does at call or allocation `at`, and `letters` are those of its record."""

    words: list[str]
    lines: list[bytes]
    text: bytes
    orders: list[Order]
    is_new: bool
    failure: str = NO_FAILURE
    at: int = 0
    status: int = 0
    err: bytes = b""
    letters: Counter[str] = field(default_factory=Counter)  # how often each

    def has_failed(self, failures: str) -> bool:
        return "D" in self.letters and self.failure in failures

    def ended_by_failure(self, answered: int) -> bool:
        """Raises Difference if the session may not end in this way."""
        order = self.orders[answered] if answered < len(self.orders) else None
        expected: set[tuple[int, bytes]] = {(0, b"")} if order is None else {order.ending} if order.ending else {(4, fault) for fault in order.faults}
        by_failure: set[tuple[int, bytes]] = set()
        if self.has_failed(KILLS):
            expected, by_failure = set(), {(-9, b"")}
        elif self.has_failed(FAILURES):
            expected, by_failure = set(), {(4, DEVICE)}
        elif self.has_failed(OF_MEMORY):
            by_failure = {(4, NO_MEMORY), (4, DEVICE)} if answered == 0 else {(4, NO_MEMORY)}  # opening a file needs memory
        ending = self.status, self.err
        if ending not in expected | by_failure:
            where = "at the end" if order is None else f"at order {answered}, {order.name}"
            raise Difference(f"the session ended with {ending} {where}, where one of {sorted(expected | by_failure)} was expected")
        return ending not in expected


class Soak:
    def __init__(self, program: Path, seed: int, folder: Path, plant: str | None = None) -> None:
        self.program, self.seed, self.folder, self.plant = program, seed, folder, plant
        self.library = build_c_library(LIBRARY, folder)
        self.counts: Counter[str] = Counter()
        self.number, self.chance = 0, random.Random()
        self.command: list[str | Path] = []
        self.file, self.before, self.content = CrashingFile(folder / "file"), b"", FileContent()
        self.possible: list[StoreState | None] = [None]  # states after a crash
        signal.signal(signal.SIGALRM, hang)

    def totals(self) -> str:
        return ", ".join(f"{self.counts[name]:,} {name}" for name in COUNTED)

    def run(self, session: SoakSession, path: Path) -> bytes:
        text, out, err, record = (self.folder / name for name in ("text", "out", "err", "record"))
        text.write_bytes(session.text)
        failure: Environment = {
            "SOAK_FILE": path,
            "SOAK_FAILURE": session.failure,
            "SOAK_AT": str(session.at),
            "SOAK_RECORD": record,
            "LD_PRELOAD": self.library,
        }
        command: Command = [self.program, "--disk", path, *session.words]
        self.command = [*(f"{name}={value}" for name, value in failure.items()), self.program, "--disk", path, *session.words]
        with open(text, "rb") as source, open(out, "wb") as stdout, open(err, "wb") as stderr:
            child = subprocess.Popen(command, stdin=source, stdout=stdout, stderr=stderr, env=failure, start_new_session=True)
            signal.alarm(PATIENCE)
            try:
                session.status = child.wait()
            finally:
                signal.alarm(0)
                child.kill()
        session.err = err.read_bytes()
        return out.read_bytes()

    def draw(self, drawn: DrawnStore, is_full: bool) -> SoakSession:
        is_new = drawn.happens(0.01 if self.content.state else 0.7)
        words = ["--create"] * is_new + [f"--{name.replace('_', '-')}={value}" for name, value in vars(drawn.settings).items() if is_new]
        workers = self.chance.choice([1, 1, 1, 2, 3, 8])
        words += ["--workers", str(workers), f"--grain={self.chance.choice([1, 2, 64, 65_535])}"]
        state = StoreState() if is_new or self.content.state is None else self.content.state
        lines, orders = drawn.session(StoreModel(state, drawn.settings), is_full, self.content.is_long and not is_new)
        if not is_new:
            status, out, err = self.content.ending
            read_all = Order("read all", out.splitlines(), self.content.state, ending=(status, err) if status else None)
            orders = [read_all, *[replace(order, end=order.end + READ_ALL.count(b"\n")) for order in orders]]
            lines = [*READ_ALL.splitlines(), *lines]
        session = SoakSession(words, lines, b"\n".join(lines) + self.chance.choice([b"\n", b"", b"\r\n"]), orders, is_new)
        self.spoil(session, drawn)
        if drawn.happens(0.65):
            session.failure = self.chance.choice("khKfFsssci" + OF_MEMORY * (workers == 1))
            calls = 14 + sum(1 + order.is_writing() * self.chance.choice([8, 8, 8, 30]) for order in session.orders)
            session.at = self.chance.randint(1, 2 ** self.chance.randint(1, 15) if session.failure in OF_MEMORY else calls)
        return session

    def spoil(self, session: SoakSession, drawn: DrawnStore) -> None:
        """Sometimes adds an option or a line that must be refused before the file is opened."""
        if session.is_new and drawn.happens(0.03):
            ((name, value),) = drawn.bad_setting().items()
            session.words = [word for word in session.words if not word.startswith(f"--{name.replace('_', '-')}=")]
            session.words += [f"--{name.replace('_', '-')}", str(value)]
            session.orders = [Order("settings", [], self.content.state, (4, b"fault 1 BadSettings %s\n" % name.encode()))]
        if drawn.happens(0.01):
            session.words = [word for word in session.words if not word.startswith("--grain")] + ["--grain", self.chance.choice(["0", "65536"])]
            session.orders = [Order("crew", [], self.content.state, (4, BAD_CREW))]
        if drawn.happens(0.02):
            why = self.chance.choice(list(BAD_LINES))
            lines = session.text.split(b"\n")
            at = self.chance.randrange(len(lines))
            lines.insert(at, self.chance.choice(BAD_LINES[why]))
            session.text = b"\n".join(lines)
            session.orders = [Order("line", [], self.content.state, (3, b"line %d: %s\n" % (at + 1, why)))]

    def step(self, drawn: DrawnStore, is_full: bool) -> bool:
        """Returns whether the log was full."""
        self.before = self.file.begin()
        session = self.draw(drawn, is_full)
        out = self.run(session, self.file.path)
        if self.plant == "line" and self.counts["sessions"] >= PLANTED:
            out = out[out.find(b"\n") + 1 :]
        session.letters = self.file.follow((self.folder / "record").read_bytes(), self.plant != "sync")
        answered = count_answered(session.orders, out)
        is_cut = session.ended_by_failure(answered)
        self.count(session, answered)
        expected = self.states_after(session, answered, is_cut, drawn)
        if self.plant == "byte" and self.counts["sessions"] >= PLANTED and self.content.state:
            self.flip(drawn)
        for _ in range(IMAGES * bool(self.file.pending)):
            self.counts["more that a crash could leave"] += 1
            image = self.file.random_crash(self.chance)
            (self.folder / "crashed").write_bytes(image)
            self.compare(read_content(image).state, self.possible)
        if self.chance.random() < (0.6 if is_cut else 0.1):
            self.counts["crashes"] += 1
            self.file.crash(self.chance)
            expected = self.possible
        self.content = self.file.content()
        self.compare(self.content.state, expected)
        self.possible = self.possible if self.file.pending else [self.content.state]
        if session.err == NOTHING_TO_CLEAN and self.content.is_long:
            raise Difference("a log of more than one segment was not cleaned")
        if session.err == FULL:
            self.run_widened(session, answered)
        return session.err == FULL

    def compare(self, state: StoreState | None, expected: list[StoreState | None]) -> None:
        if state not in expected:
            states = "; or ".join(describe(each, state) for each in expected)
            raise Difference(f"the file holds {describe(state, expected[-1])}, where expected was {states}")

    def states_after(self, session: SoakSession, answered: int, is_cut: bool, drawn: DrawnStore) -> list[StoreState | None]:
        """Also sets `possible`."""
        after, has_written = self.file.read(), "W" in session.letters or "T" in session.letters
        if not has_written and after != self.before:
            raise Difference("the file has other bytes, which no call wrote")
        if has_written and not session.is_new and not any(order.is_writing() for order in session.orders[: answered + 1]):
            raise Difference("the session wrote to a file that it only reads")
        if session.is_new and "T" in session.letters and session.letters["S"] < SYNCS_OF_CREATE:
            if not is_left_by_create(self.before, after, drawn.settings.disk_length()):
                raise Difference("--create failed, and left bytes that it may not leave")
            earlier = [] if "S" in session.letters else [read_content(after).state, *self.possible]
            self.possible = [None, StoreState(), *earlier]
            return self.possible
        if "S" not in session.letters:
            return [self.content.state]
        states = [session.orders[answered - 1].after if answered else StoreState() if session.is_new else self.content.state]
        states += [order.after for order in session.orders[answered : answered + is_cut]]
        self.possible = states
        return states

    def count(self, session: SoakSession, answered: int) -> None:
        done = session.orders[:answered]
        self.counts += Counter({"flush": "flushes", "clean": "cleans", "upgrade": "upgrades"}.get(order.name, "others") for order in done)
        self.counts["commands"] += sum(order.size for order in done)
        self.counts["sessions"] += 1
        if "D" in session.letters:
            kinds = {KILLS: "kills", FAILURES: "failing calls", "m": "allocations refused", "ci": "calls cut short or interrupted"}
            self.counts[next(name for failures, name in kinds.items() if session.failure in failures)] += 1
        elif session.status:
            self.counts["full logs" if session.err == FULL else "other refusals"] += 1

    def run_widened(self, session: SoakSession, answered: int) -> None:
        """On a longer file, the refused order must succeed, with a log too long for the shorter file."""
        path, orders = self.folder / "wide", session.orders[: answered + 1]
        if session.is_new:
            return
        image, settings = widen(self.before)
        path.write_bytes(image)
        wide = SoakSession([], [], b"\n".join(session.lines[: orders[-1].end]), orders, False)
        if count_answered(orders, self.run(wide, path)) != len(orders) or wide.status:
            raise Difference(f"on a longer file the session ended with {wide.status}, {wide.err!r}")
        state, slot = orders[-2].after, read_store(path.read_bytes()).slot
        assert state is not None
        free = 0 if orders[-1].name == "clean" else 1
        if (slot.tail - 1) // settings.seg_size < state.head + settings.segments - free:
            raise Difference(f"the log was not full at order {answered}, {orders[-1].name}: the tail would be {slot.tail}")

    def flip(self, drawn: DrawnStore) -> None:
        disk = bytearray(self.file.read())
        tail = read_store(bytes(disk)).slot.tail - 1
        disk[drawn.settings.place(tail // drawn.settings.seg_size) + tail % drawn.settings.seg_size] ^= 1
        self.file.path.write_bytes(disk)

    def read_damaged(self) -> None:
        disk = bytearray(self.before)
        if self.chance.random() < 0.3:
            disk[self.chance.randint(1, len(disk)) :] = self.chance.randbytes(self.chance.choice([0, 100]))
        for _ in range(self.chance.choice([0, 1, 3])):
            disk[self.chance.randrange(min(len(disk), 2_000))] = self.chance.randrange(256)
        path, session = self.folder / "damaged", SoakSession([], [], READ_ALL, [], False)
        path.write_bytes(disk)
        out = self.run(session, path)
        self.counts["damaged files"] += 1
        expected = ending_of_read_all(bytes(disk))
        if (session.status, out, session.err) != expected or path.read_bytes() != disk:
            ending = f"{session.status}, {out[-200:]!r}, {session.err!r}"
            raise Difference(f"a session on a damaged file ended with {ending}, where the rules have {expected}")

    def run_store(self, number: int) -> Iterator[None]:
        """Yields after each session. Each store has its own seed, so it can be run alone."""
        self.number, self.chance = number, random.Random(f"{self.seed} {number}")
        self.file.path.unlink(missing_ok=True)
        self.file, self.content, self.possible = CrashingFile(self.file.path), FileContent(), [None]
        drawn, fulls = DrawnStore(self.chance), 0
        self.counts["stores"] += 1
        for _ in range(self.chance.choice([3, 20, 80, 80, 300])):
            fulls = fulls + 1 if self.step(drawn, fulls > 0) else 0
            if self.chance.random() < 0.03 and self.before:
                self.read_damaged()
            if fulls > MOST_FULL:
                return
            yield

    def report(self, difference: Difference) -> None:
        (self.folder / "before").write_bytes(self.before)
        print(f"store {self.number}: `--seed {self.seed} --first {self.number}` begins with it. The session that failed:", *self.command)
        for name in ("text", "out", "err"):
            print(f"its {name} ends with {b' | '.join((self.folder / name).read_bytes().splitlines()[-5:])!r}")
        print(f"{self.folder} has the file as it is, before the session, and after the last crash that was drawn; text, out, err and record of calls")
        print(f"FAILED: {difference}", flush=True)
