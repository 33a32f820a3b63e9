"""Models a store and its answers by docs/RULES.md."""

from bisect import bisect_left, insort
from collections.abc import Callable
from dataclasses import dataclass, field, replace
from typing import Any

from tools.answers import token
from tools.log.writing import Settings

LONGEST_BATCH = 65_535  # commands
FULL, NOTHING_TO_CLEAN, ALREADY_UPGRADED = b"fault 10 Full\n", b"fault 11 NothingToClean\n", b"fault 19 AlreadyUpgraded\n"
BatchCommand = tuple[Any, ...]  # its name and arguments; a missing bound is None


class OrderedMap:
    """Each command returns the lines of its reply."""

    def __init__(self, pairs: dict[bytes, bytes] | None = None) -> None:
        self.pairs = dict(pairs or {})
        self.keys = sorted(self.pairs)
        self.is_touched = False  # whether a flush would write

    def within(self, lo: bytes, hi: bytes | None) -> list[bytes]:
        """Excludes `hi`."""
        return self.keys[bisect_left(self.keys, lo) : None if hi is None else bisect_left(self.keys, hi)]

    def set(self, key: bytes, value: bytes) -> None:
        if key not in self.pairs:
            insort(self.keys, key)
        self.pairs[key], self.is_touched = value, True

    def remove(self, keys: list[bytes]) -> None:
        for key in keys:
            del self.pairs[key]
            del self.keys[bisect_left(self.keys, key)]
            self.is_touched = True

    def get(self, key: bytes) -> list[bytes]:
        return [b"value " + token(self.pairs[key]) if key in self.pairs else b"missing"]

    def put(self, key: bytes, value: bytes) -> list[bytes]:
        reply = b"replaced" if key in self.pairs else b"new"
        self.set(key, value)
        return [reply]

    def add(self, key: bytes, value: bytes) -> list[bytes]:
        if key in self.pairs:
            return [b"exists"]
        self.set(key, value)
        return [b"added"]

    def delete(self, key: bytes) -> list[bytes]:
        if key not in self.pairs:
            return [b"missing"]
        self.remove([key])
        return [b"deleted"]

    def scan(self, lo: bytes, hi: bytes | None, limit: int) -> list[bytes]:
        rows = self.within(lo, hi)[:limit]
        return [b"rows %d" % len(rows), *[token(key) + b" " + token(self.pairs[key]) for key in rows]]

    def wipe(self, lo: bytes, hi: bytes | None) -> list[bytes]:
        keys = self.within(lo, hi)
        self.remove(keys)
        return [b"wiped %d" % len(keys)]

    def reply(self, command: BatchCommand) -> list[bytes]:
        name, *words = command
        commands: dict[str, Callable[..., list[bytes]]] = {"get": self.get, "put": self.put, "add": self.add, "del": self.delete}
        commands |= {"scan": self.scan, "wipe": self.wipe}
        return commands[name](*words)


@dataclass(frozen=True)
class StoreState:
    pairs: dict[bytes, bytes] = field(default_factory=dict)
    sequence: int = 1
    head: int = 0
    version: int = 0

    def describe(self, other: "StoreState | None") -> str:
        pairs = sorted(set(self.pairs.items()) ^ set((other or self).pairs.items()))
        difference = f" ({len(pairs)} differ, as {pairs[0]})" if pairs else ""
        return f"sequence number {self.sequence}, head {self.head}, version {self.version}, {len(self.pairs)} pairs{difference}"


@dataclass(frozen=True)
class Order:
    """A line of a session, and the file's state after it."""

    name: str
    printed: list[bytes]  # `ok ?` begins a report with unknown page numbers
    after: StoreState | None
    ending: tuple[int, bytes] | None = None  # status and errors, if the session ends
    faults: tuple[bytes, ...] = ()  # other possible endings, which the model cannot predict
    size: int = 0  # commands of a batch
    end: int = 0  # number of its last line

    def is_writing(self) -> bool:
        return self.name in ("flush", "clean", "upgrade")


class StoreModel:
    def __init__(self, state: StoreState, settings: Settings) -> None:
        self.file, self.settings, self.map = state, settings, OrderedMap(state.pairs)

    def fault_of(self, place: int, command: BatchCommand) -> bytes | None:
        name, *words = command
        keys, values = (words[:1], words[1:]) if name in ("put", "add") else (words[:2], [])
        if any(len(key) > self.settings.max_key for key in keys if key is not None):
            return b"fault 2 KeyTooLong %d\n" % place
        return b"fault 3 ValueTooLong %d\n" % place if any(len(value) > self.settings.max_value for value in values) else None

    def batch(self, commands: list[BatchCommand]) -> Order:
        if len(commands) > LONGEST_BATCH:
            return Order("batch", [], self.file, (4, b"fault 4 BatchTooLong\n"))
        for place, command in enumerate(commands):
            fault = self.fault_of(place, command)
            if fault:
                return Order("batch", [], self.file, (4, fault))
        return Order("batch", [line for command in commands for line in self.map.reply(command)], self.file, size=len(commands))

    def commit(self, name: str, line: bytes, number: str, faults: tuple[bytes, ...], **changed: Any) -> Order:
        self.file = replace(self.file, sequence=self.file.sequence + 1, **changed)
        return Order(name, [line % getattr(self.file, number)], self.file, faults=faults)

    def order(self, name: str) -> Order:
        if name == "verify":
            return Order(name, [b"ok ? %d" % len(self.map.pairs)], self.file)
        if name == "clean":
            return self.commit(name, b"cleaned %d", "head", (FULL, NOTHING_TO_CLEAN), head=self.file.head + 1)
        if name == "upgrade" and self.file.version:
            return Order(name, [], self.file, (4, ALREADY_UPGRADED))
        if name == "flush" and not self.map.is_touched:
            return Order(name, [b"flushed %d" % self.file.sequence], self.file)
        self.map.is_touched = False
        version = 2 if name == "upgrade" else self.file.version
        line = b"upgraded %d" if name == "upgrade" else b"flushed %d"
        return self.commit(name, line, "sequence", (FULL,), pairs=dict(self.map.pairs), version=version)
