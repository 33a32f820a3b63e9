"""Runs the server `bwserve`, with a small client for it, a model of its pairs, and random requests."""

import contextlib
import random
import socket
import subprocess
from collections.abc import Iterator, Sequence
from pathlib import Path
from typing import Union

from tools.processes import NO_VARIABLES, PATIENCE, pipe_of

LISTENING = b"listening at 127.0.0.1:"
Word = Union[bytes, str, int]
Pairs = dict[bytes, bytes]
Wrong = Union[str, None]


def differing(what: object, found: object, expected: object) -> Wrong:
    return None if found == expected else f"{what}: {str(found)[:300]}, and not {str(expected)[:300]}"


class Refused(Exception):
    """An error that the server replies with."""

    def __eq__(self, other: object) -> bool:
        return isinstance(other, Refused) and str(self) == str(other)


Reply = Union[bytes, int, None, Refused, list["Reply"]]


def to_bytes(word: Word) -> bytes:
    return word if isinstance(word, bytes) else str(word).encode()


def encode(*words: Word) -> bytes:
    listed = [to_bytes(word) for word in words]
    return b"*%d\r\n" % len(listed) + b"".join(b"$%d\r\n%s\r\n" % (len(word), word) for word in listed)


class Client:
    """A connection. `ask` returns statuses and values as bytes, and raises `Refused` for an error."""

    def __init__(self, port: int, patience: float = PATIENCE) -> None:
        self.socket = socket.create_connection(("127.0.0.1", port), timeout=patience)
        self.socket.setsockopt(socket.IPPROTO_TCP, socket.TCP_NODELAY, 1)
        self.replies = self.socket.makefile("rb")

    def send(self, *requests: Sequence[Word]) -> None:
        self.socket.sendall(b"".join(encode(*words) for words in requests))

    def read_line(self) -> bytes:
        line = self.replies.readline()
        if not line.endswith(b"\r\n"):
            raise ConnectionError(f"the connection ended with {line!r}")
        return line[:-2]

    def read(self) -> Reply:
        """Returns a reply, also if it is an error."""
        line = self.read_line()
        mark, rest = line[:1], line[1:]
        if mark == b"+":
            return rest
        if mark == b"-":
            return Refused(rest.decode())
        if mark == b":":
            return int(rest)
        if mark == b"$":
            size = int(rest)
            return None if size < 0 else self.replies.read(size + 2)[:-2]
        if mark == b"*":
            return [self.read() for _ in range(int(rest))]
        raise ValueError(f"no reply begins with {line!r}")

    def ask(self, *words: Word) -> Reply:
        self.send(words)
        reply = self.read()
        if isinstance(reply, Refused):
            raise reply
        return reply

    def ask_all(self, requests: Sequence[Sequence[Word]]) -> list[Reply]:
        """Sends a pipeline."""
        self.send(*requests)
        return [self.read() for _ in requests]

    def refusal(self, *words: Word) -> str:
        self.send(words)
        reply = self.read()
        return str(reply) if isinstance(reply, Refused) else f"no refusal: {reply!r}"

    def numbers(self) -> dict[str, int]:
        """Returns the numbers of INFO."""
        text = self.ask("INFO")
        assert isinstance(text, bytes)
        fields = dict(line.split(":", 1) for line in text.decode().splitlines() if ":" in line)
        return {name: int(value) for name, value in fields.items() if value.isdigit()}

    def numbers_of(self, name: str) -> dict[str, int]:
        """Returns the numbers in a field of INFO that has several."""
        text = self.ask("INFO")
        assert isinstance(text, bytes)
        line = next(line for line in text.decode().splitlines() if line.startswith(f"{name}:"))
        return {key: int(value) for key, value in (part.split("=") for part in line.split(":", 1)[1].split(","))}

    def is_ended(self) -> bool:
        """Whether the server has closed the connection."""
        try:
            return self.socket.recv(1) == b""
        except ConnectionError:
            return True

    def close(self) -> None:
        self.replies.close()
        self.socket.close()

    def __enter__(self) -> "Client":
        return self

    def __exit__(self, *_: object) -> None:
        self.close()


class Server:
    """A running server on a free port."""

    def __init__(self, program: Path, path: Path, *options: str, before: Sequence[str] = (), environment: dict[str, str] = NO_VARIABLES) -> None:
        pipe = subprocess.PIPE
        command = [*before, str(program), str(path), "--port", "0", *options]
        self.process = subprocess.Popen(command, stdin=subprocess.DEVNULL, stdout=pipe, stderr=pipe, env=environment)
        line = pipe_of(self.process.stdout).readline()
        if not line.startswith(LISTENING):
            raise RuntimeError(f"the server did not start: {line!r} {pipe_of(self.process.stderr).read()!r}")
        self.port = int(line[len(LISTENING) :])

    def client(self, patience: float = PATIENCE) -> Client:
        return Client(self.port, patience)

    def wait(self) -> tuple[int, bytes]:
        """Waits for the end. Returns the status and the errors."""
        errors = pipe_of(self.process.stderr).read()
        return self.process.wait(PATIENCE), errors

    def stop(self) -> tuple[int, bytes]:
        with self.client() as client:
            client.send(["SHUTDOWN"])
            return self.wait()

    def kill(self) -> None:
        self.process.kill()
        self.process.wait(PATIENCE)
        for stream in (self.process.stdout, self.process.stderr):
            pipe_of(stream).close()


@contextlib.contextmanager
def serving(program: Path, path: Path, *options: str, before: Sequence[str] = (), environment: dict[str, str] = NO_VARIABLES) -> Iterator[Server]:
    server = Server(program, path, *options, before=before, environment=environment)
    try:
        yield server
    finally:
        server.kill()


def read_all(client: Client) -> Pairs:
    rows = client.ask("RANGE", "-", "+")
    assert isinstance(rows, list)
    words = [word for word in rows if isinstance(word, bytes)]
    return dict(zip(words[::2], words[1::2]))


# ---- The model: a dict of pairs.

OK = b"OK"


def in_range(key: bytes, lo: bytes, hi: bytes) -> bool:
    """The bounds are in the form of ZRANGEBYLEX."""
    is_above = lo == b"-" or (lo != b"+" and (key >= lo[1:] if lo[:1] == b"[" else key > lo[1:]))
    is_below = hi == b"+" or (hi != b"-" and (key <= hi[1:] if hi[:1] == b"[" else key < hi[1:]))
    return is_above and is_below


def flat(rows: Sequence[tuple[bytes, bytes]]) -> list[Reply]:
    return [word for row in rows for word in row]


def rows_between(pairs: Pairs, lo: bytes, hi: bytes) -> list[tuple[bytes, bytes]]:
    return [(key, pairs[key]) for key in sorted(pairs) if in_range(key, lo, hi)]


def execute(pairs: Pairs, words: Sequence[Word]) -> Reply:
    """Executes a request on the pairs, and returns the reply."""
    name, rest = str(words[0]), [to_bytes(word) for word in words[1:]]
    if name == "SET" and rest[2:] == [b"NX"]:
        return None if execute(pairs, ["SETNX", *rest[:2]]) == 0 else OK
    if name in ("SET", "MSET"):
        pairs.update(zip(rest[::2], rest[1::2]))
        return OK
    if name == "SETNX":
        is_new = rest[0] not in pairs
        pairs.setdefault(rest[0], rest[1])
        return int(is_new)
    if name == "GET":
        return pairs.get(rest[0])
    if name == "MGET":
        return [pairs.get(key) for key in rest]
    if name in ("DEL", "UNLINK"):
        return sum(pairs.pop(key, None) is not None for key in rest)
    if name == "EXISTS":
        return sum(key in pairs for key in rest)
    if name == "STRLEN":
        return len(pairs.get(rest[0], b""))
    if name == "TYPE":
        return b"string" if rest[0] in pairs else b"none"
    if name == "DBSIZE":
        return len(pairs)
    if name == "WIPE":
        gone = rows_between(pairs, rest[0], rest[1])
        for key, _ in gone:
            del pairs[key]
        return len(gone)
    most = int(rest[3]) if len(rest) > 2 else None
    if name == "RANGE":
        return flat(rows_between(pairs, rest[0], rest[1])[:most])
    if name == "REVRANGE":
        return flat(rows_between(pairs, rest[1], rest[0])[::-1][:most])
    raise ValueError(f"the model has no {name}")


# ---- Random requests.


class Chooser:
    """Chooses requests on some keys."""

    def __init__(self, chance: random.Random, keys: Sequence[bytes], shortest: int = 0, longest: int = 128) -> None:
        self.chance, self.keys, self.shortest, self.longest = chance, keys, shortest, longest

    def key(self) -> bytes:
        return self.chance.choice(self.keys)

    def some(self) -> list[bytes]:
        return self.chance.choices(self.keys, k=self.chance.randint(1, 5))

    def value(self) -> bytes:
        return self.chance.randbytes(self.chance.randint(self.shortest, self.longest))

    def bound(self) -> bytes:
        return self.chance.choice([b"-", b"+", *[mark + self.key() for mark in (b"[", b"(")] * 4])

    def limit(self) -> list[Word]:
        return ["LIMIT", self.chance.randint(0, 9)] if self.chance.random() < 0.5 else []

    def write(self) -> list[Word]:
        kind = self.chance.choice(["SET", "SET", "SET NX", "SETNX", "MSET", "DEL", "UNLINK"])
        if kind == "SET NX":
            return ["SET", self.key(), self.value(), "NX"]
        if kind in ("SET", "SETNX"):
            return [kind, self.key(), self.value()]
        if kind == "MSET":
            return [kind, *(word for key in self.some() for word in (key, self.value()))]
        return [kind, *self.some()]

    def read(self) -> list[Word]:
        kind = self.chance.choice(["GET", "MGET", "EXISTS", "STRLEN", "TYPE", "DBSIZE", "RANGE", "REVRANGE"])
        if kind in ("MGET", "EXISTS"):
            return [kind, *self.some()]
        if kind == "DBSIZE":
            return [kind]
        if kind in ("RANGE", "REVRANGE"):
            return [kind, self.bound(), self.bound(), *self.limit()]
        return [kind, self.key()]

    def request(self) -> list[Word]:
        if self.chance.random() < 0.02:
            return ["WIPE", self.bound(), self.bound()]
        return self.write() if self.chance.random() < 0.6 else self.read()
