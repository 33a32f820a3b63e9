"""Encodes the batches that etcd stores, each under its own key, and applies them to a dict."""

from __future__ import annotations

import json
import sys
from dataclasses import dataclass
from pathlib import Path

sys.path.insert(0, str(Path(__file__).resolve().parents[2] / "clients/python"))

from taukremil import Add, Command, Del, Put, Reply, Wipe  # noqa: E402

PREFIX = b"batches/"
REVISION = b"\x00revision"  # key of the last revision that a store applied
MARK = b"mark/"  # prefix of a key that each batch adds, to detect batches applied twice

KINDS: dict[str, type[Put] | type[Add] | type[Del] | type[Wipe]] = {"put": Put, "add": Add, "del": Del, "wipe": Wipe}


def name_of(writer: str, number: int) -> str:
    return f"{writer}/{number:08}"


@dataclass(frozen=True)
class Batch:
    """If `flush` is set, replicas flush and report after the batch."""

    name: str
    sent: float
    commands: list[list[str]]
    flush: bool = False

    def key(self) -> bytes:
        return PREFIX + self.name.encode()

    def mark(self) -> bytes:
        return MARK + self.name.encode()

    def text(self) -> bytes:
        return json.dumps([self.name, self.sent, self.commands, self.flush]).encode()

    @staticmethod
    def read(text: bytes) -> Batch:
        return Batch(*json.loads(text))

    def for_store(self) -> list[Command[Reply]]:
        return [KINDS[kind](*(word.encode() for word in words)) for kind, *words in self.commands]

    def play(self, contents: dict[bytes, bytes]) -> None:
        contents[self.mark()] = b""
        for command in self.for_store():
            if isinstance(command, Put):
                contents[command.key] = command.value
            elif isinstance(command, Add):
                contents.setdefault(command.key, command.value)
            elif isinstance(command, Del):
                contents.pop(command.key, None)
            elif isinstance(command, Wipe):
                hi = command.hi
                for key in [key for key in contents if command.lo <= key and (hi is None or key < hi)]:
                    del contents[key]
