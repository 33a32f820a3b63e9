"""The server `bwserve`: its replies, its rounds, kills under load, bad requests and slow clients, full logs, and the clients of Redis that are installed."""

import itertools
import random
import re
import shutil
import signal
import socket
import subprocess
import sys
import threading
import time
from collections.abc import Callable
from dataclasses import dataclass
from functools import partial
from pathlib import Path

from checks import server_growth, server_info
from tools.cases import Case, Outcome, Programs
from tools.failures import FailingCalls
from tools.processes import MEGABYTE, PATIENCE, new_folder, resident_memory
from tools.serving import Chooser, Client, Pairs, Refused, Reply, Server, Word, Wrong, differing, encode, execute, read_all, serving

MOST_KEY, MOST_VALUE, MOST_ROWS = 255, 1_024, 262_144
LONGEST_LINE = 65_536  # without its LF
SEEDS, REQUESTS = 2, 2_000
FUZZED = 150  # connections
KILLS, CLIENTS = 6, 16
LEAST_SEGMENTS = 3  # of a log
CONNECTIONS = 1_000
Request = list[Word]


# ---- Replies.

# Requests, one after the other, and the replies that server/README.md defines.
TABLE: list[tuple[Request, Reply]] = [
    (["PING"], b"PONG"),
    (["ping", "a b"], b"a b"),
    (["ECHO", "\r\n"], b"\r\n"),
    (["SELECT", 0], b"OK"),
    (["SELECT", 1], Refused("ERR DB index is out of range")),
    (["SET", "k", "1"], b"OK"),
    (["SET", "k", "2", "nx"], None),
    (["SET", "n", "2", "NX"], b"OK"),
    (["SET", "k", "1", "EX", "9"], Refused("ERR syntax error")),
    (["SET", "k", "1", "XX"], Refused("ERR syntax error")),
    (["GET", "k"], b"1"),
    (["GET", "none"], None),
    (["get"], Refused("ERR wrong number of arguments for 'get' command")),
    (["MSET", "a", "1", "b"], Refused("ERR wrong number of arguments for 'mset' command")),
    (["MSET"], Refused("ERR wrong number of arguments for 'mset' command")),
    (["SET", "a"], Refused("ERR wrong number of arguments for 'set' command")),
    (["MSET", "a", "1", "b", "2", "a", "3"], b"OK"),
    (["MGET", "a", "b", "c"], [b"3", b"2", None]),
    (["EXISTS", "a", "a", "c"], 2),
    (["DEL", "a", "a", "c"], 1),
    (["DBSIZE"], 3),
    (["RANGE", "-", "+"], [b"b", b"2", b"k", b"1", b"n", b"2"]),
    (["RANGE", "(b", "[n", "LIMIT", "1"], [b"k", b"1"]),
    (["RANGE", "+", "-"], []),
    (["RANGE", "b", "+"], Refused("ERR min or max not valid string range item")),
    (["RANGE", "-", "+", "LIMIT", "x"], Refused("ERR value is not an integer or out of range")),
    (["REVRANGE", "+", "[k"], [b"n", b"2", b"k", b"1"]),
    (["REVRANGE", "(n", "-", "LIMIT", "1"], [b"k", b"1"]),
    (["SCAN", "0", "MATCH", "?", "COUNT", "100"], [b"0", [b"b", b"k", b"n"]]),
    (["SCAN", "99"], Refused("ERR invalid cursor")),
    (["SCAN", "0", "MATCH"], Refused("ERR syntax error")),
    (["SCAN", "0", "TYPE", "string"], Refused("ERR syntax error")),
    (["RANGE", "-", "+", "COUNT", "1"], Refused("ERR syntax error")),
    (["WIPE", "[k", "[n"], 2),
    (["INCR", "k"], Refused("ERR unknown command 'INCR'")),
    (["EXPIRE'\r\n", "k"], Refused("ERR unknown command 'EXPIRE???'")),
    (["EXEC"], Refused("ERR EXEC without MULTI")),
    (["DISCARD"], Refused("ERR DISCARD without MULTI")),
    (["MULTI"], b"OK"),
    (["SET", "t", "1"], b"QUEUED"),
    (["GET", "t"], b"QUEUED"),
    (["DBSIZE"], b"QUEUED"),
    (["EXEC"], [b"OK", b"1", 2]),
    (["MULTI"], b"OK"),
    (["DEL", "t"], b"QUEUED"),
    (["REVRANGE", "+", "-"], Refused("ERR REVRANGE is not allowed in transactions")),
    (["EXEC"], Refused("EXECABORT Transaction discarded because of previous errors.")),
    (["MULTI"], b"OK"),
    (["RANGE", "-", "+"], b"QUEUED"),
    (["RANGE", "-", "+"], Refused("ERR the transaction has more than 65535 keys, 262144 rows (use LIMIT) or 64 MiB")),
    (["EXEC"], Refused("EXECABORT Transaction discarded because of previous errors.")),
    (["MULTI"], b"OK"),
    (["DEL", "t"], b"QUEUED"),
    (["DISCARD"], b"OK"),
    (["GET", "t"], b"1"),
    (["CONFIG", "GET", "appendfsync", "none"], [b"appendfsync", b"always"]),
    (["CONFIG", "SET", "a", "b"], Refused("ERR unknown subcommand 'SET'")),
    (["CLIENT", "SETNAME", "me"], b"OK"),
    (["CLIENT", "KILL"], Refused("ERR unknown subcommand 'KILL'")),
    (["COMMAND", "DOCS"], []),
    (["HELLO", "3"], Refused("NOPROTO unsupported protocol version")),
    (["HELLO", "2", "AUTH"], Refused("ERR Syntax error in HELLO option 'AUTH'")),
    (["FLUSHALL"], b"OK"),
    (["DBSIZE"], 0),
    (["SET", "k" * MOST_KEY, "v" * MOST_VALUE], b"OK"),
    (["SET", "k" * (MOST_KEY + 1), "v"], Refused("ERR the key is longer than this store allows")),
    (["SET", "k", "v" * (MOST_VALUE + 1)], Refused("ERR the value is longer than this store allows")),
    (["MGET", *["k"] * 65_536], Refused("ERR more keys than the 65535 that a request may have")),
    (["QUIT"], b"OK"),
]


def answer_table(server: Server, together: bool) -> Wrong:
    requests, expected = [request for request, _ in TABLE], [reply for _, reply in TABLE]
    with server.client() as client:
        found = client.ask_all(requests) if together else [client.ask_all([request])[0] for request in requests]
        for request, reply, due in zip(requests, found, expected):
            if reply != due:
                return differing(request[:3], reply, due)
        return None if client.is_ended() else "QUIT did not end the connection"


def answer_inline(server: Server) -> Wrong:
    with server.client() as client:
        longest = b"x" * (LONGEST_LINE - len(b"ECHO \r"))
        client.socket.sendall(b"\r\nSET  a 1\r\nGET a\n*0\r\nGET b\r\nECHO " + longest + b"\r\n")
        return differing("requests in lines", [client.read() for _ in range(4)], [b"OK", b"1", None, longest])


def scan_all(client: Client, count: int) -> set[bytes]:
    found: set[bytes] = set()
    cursor: Word = 0
    while True:
        reply = client.ask("SCAN", cursor, "COUNT", count)
        assert isinstance(reply, list) and isinstance(reply[0], bytes) and isinstance(reply[1], list)
        found.update(key for key in reply[1] if isinstance(key, bytes))
        cursor = reply[0]
        if cursor == b"0":
            return found


def scan_in_turn(server: Server) -> Wrong:
    """Two clients scan in turn. Each gets all keys in their order, whatever the other one does."""
    keys = [b"k%03d" % number for number in range(200)]
    found: tuple[list[Reply], list[Reply]] = ([], [])
    with server.client() as first, server.client() as second:
        first.ask("MSET", *(word for key in keys for word in (key, b"")))
        cursors: list[Word] = [0, 0]
        while cursors != [b"0", b"0"]:
            for at, (client, count) in enumerate(((first, 10), (second, 7))):
                if cursors[at] != b"0":
                    reply = client.ask("SCAN", cursors[at], "COUNT", count)
                    assert isinstance(reply, list) and isinstance(reply[0], bytes) and isinstance(reply[1], list)
                    cursors[at] = reply[0]
                    found[at].extend(reply[1])
    return differing("the first client's keys", found[0], keys) or differing("the second client's keys", found[1], keys)


def choose_keys(chance: random.Random) -> list[bytes]:
    """Short and long keys, in which bytes at the ends of the order are frequent."""
    long = [bytes(chance.choices([0, 1, 254, 255], k=chance.choice([1, 2, 254, 255]))) for _ in range(12)]
    return [b"", b"\xff" * MOST_KEY, b"\x00" * MOST_KEY, *long, *(b"k%02d" % number for number in range(40))]


def may_be_transaction(requests: list[Request]) -> bool:
    """A transaction has no REVRANGE, and a limited number of rows."""
    rows = [words[4] if len(words) == 5 else MOST_ROWS for words in requests if words[0] == "RANGE"]
    return sum(map(int, rows)) <= MOST_ROWS and all(words[0] != "REVRANGE" for words in requests)


def beside_model(server: Server, seed: int) -> Wrong:
    chance = random.Random(seed)
    chooser, pairs = Chooser(chance, choose_keys(chance)), dict[bytes, bytes]()
    with server.client() as client:
        done = 0
        while done < REQUESTS:
            requests = [chooser.request() for _ in range(chance.choice([1, 1, 3, 40]))]
            expected = [execute(pairs, words) for words in requests]
            if chance.random() < 0.3 and may_be_transaction(requests):
                *queued, done_as_one = client.ask_all([["MULTI"], *requests, ["EXEC"]])
                if not isinstance(done_as_one, list):
                    return differing(requests, [queued, done_as_one], expected)
                found = done_as_one
            else:
                found = client.ask_all(requests)
            for words, reply, due in zip(requests, found, expected):
                if reply != due:
                    return differing(words, reply, due)
            done += len(requests)
            if chance.random() < 0.05 and scan_all(client, chance.randint(1, 30)) != set(pairs):
                return "SCAN did not return the keys"
        return differing("all pairs", read_all(client), pairs)


def beyond_limits(server: Server) -> Wrong:
    """Bounds may be longer than keys are; a range without LIMIT may have too many rows; a transaction and a request may be larger than a round."""
    key, rows = b"\xff" * MOST_KEY, MOST_ROWS
    with server.client() as client:
        client.ask("SET", key, 1)
        long = [client.ask("RANGE", mark + key + b"x", "+") for mark in (b"[", b"(")]
        up_to = [client.ask("RANGE", "-", mark + key + b"x") for mark in (b"[", b"(")]
        if (long, up_to) != ([[], []], [[key, b"1"]] * 2):
            return f"long bounds: {long}, {up_to}"
        for first in range(0, rows + 1, 60_000):
            numbers = range(first, min(first + 60_000, rows + 1))
            client.ask("MSET", *(word for number in numbers for word in (b"%07d" % number, b"")))
        wrong = client.refusal("RANGE", "-", "+")
        if "LIMIT" not in wrong or "LIMIT" not in client.refusal("REVRANGE", "+", "-"):
            return f"a range of too many rows: {wrong}"
        if len(client.ask_all([["RANGE", "-", "+", "LIMIT", rows]])[0] or []) != 2 * rows:  # type: ignore[arg-type]
            return "a range with as many rows as may be"
        replies = client.ask_all([["MULTI"], *([["GET", "0000001"]] * 10_000), ["EXEC"]])
        return differing("a large transaction", replies[-1], [b""] * 10_000)


# ---- Kills.


class Writer(threading.Thread):
    """A client with keys of its own. `states` has the pairs after each of its requests."""

    def __init__(self, server: Server, number: int, pairs: Pairs, seed: int, load: "Load") -> None:
        super().__init__(daemon=True)
        self.server, self.number, self.states, self.answered = server, number, [pairs], 0
        self.chance = random.Random(seed)
        self.chooser = Chooser(self.chance, [b"%02d:%03d" % (number, key) for key in range(load.keys)], load.shortest, load.longest)
        self.wrong: Wrong = None

    def next_request(self) -> tuple[Request, Reply]:
        words = self.chooser.write() if self.chance.random() < 0.8 else ["GET", self.chooser.key()]
        pairs = dict(self.states[-1])
        reply = execute(pairs, words)
        self.states.append(pairs)
        return words, reply

    def run(self) -> None:
        try:
            with self.server.client() as client:
                while True:
                    chosen = [self.next_request() for _ in range(self.chance.choice([1, 1, 2, 8]))]
                    client.send(*(words for words, _ in chosen))
                    for words, reply in chosen:
                        found = client.read()
                        if found != reply:
                            self.wrong = differing(words, found, reply)
                            return
                        self.answered += 1
        except (OSError, ValueError):
            return

    def find(self, pairs: Pairs) -> Wrong:
        """The recovered pairs must be those after all requests that were answered, or after more. Continues with these pairs."""
        own = {key: value for key, value in pairs.items() if key.startswith(b"%02d:" % self.number)}
        if own in self.states[self.answered :]:
            self.states = [own]
            return self.wrong
        before = [at for at, state in enumerate(self.states[: self.answered]) if state == own]
        return f"client {self.number}: {self.answered} requests were answered, and the pairs are those after {before[-1:]}"


@dataclass(frozen=True)
class Load:
    """What the clients of a server do until it is killed."""

    options: tuple[str, ...] = ()
    keys: int = 12  # of each client
    shortest: int = 0  # bytes of a value
    longest: int = 128
    seconds: float = 0.5  # at most, until the kill
    before: int = 0  # pairs of a kilobyte that are put first; if there are some, each kill begins with a new store


GROWING = Load(("--segments", str(LEAST_SEGMENTS)), 200, MOST_VALUE - 100, MOST_VALUE, seconds=1.0, before=1_500)


def put_before(server: Server, load: Load) -> None:
    with server.client() as client:
        for number in range(load.before):
            client.send(["SET", b"before%06d" % number, b"v" * 1_000])
        for _ in range(load.before):
            client.read()


def start_writers(server: Server, load: Load, chance: random.Random, found: Pairs) -> list[Writer]:
    own = [{key: value for key, value in found.items() if key.startswith(b"%02d:" % number)} for number in range(CLIENTS)]
    writers = [Writer(server, number, own[number], chance.getrandbits(32), load) for number in range(CLIENTS)]
    for writer in writers:
        writer.start()
    return writers


def kill_often(program: Path, seed: int, load: Load) -> Outcome:
    chance, found, answered, growths = random.Random(seed), dict[bytes, bytes](), 0, 0
    with new_folder() as folder:
        path = Path(folder) / "store"
        for kill in range(1, KILLS + 1):
            if load.before:
                path.unlink(missing_ok=True)
                found = {}
            with serving(program, path, *load.options) as server:
                put_before(server, load)
                writers = start_writers(server, load, chance, found)
                time.sleep(chance.uniform(0.05, load.seconds))
                server.process.send_signal(signal.SIGKILL)
                for writer in writers:
                    writer.join(PATIENCE)
            with serving(program, path, *load.options) as server, server.client() as client:
                found = read_all(client)
                growths += client.numbers()["log_segments"] > LEAST_SEGMENTS
            wrongs = [wrong for writer in writers if (wrong := writer.find(found))]
            if sum(key.startswith(b"before") for key in found) != load.before:
                wrongs.append("pairs from before are lost")
            answered += sum(writer.answered for writer in writers)
            if wrongs:
                return Outcome(f"kill {kill}: {wrongs[0]}")
    is_useful = answered and (growths or not load.before)
    return Outcome(None if is_useful else "nothing was answered, or no log grew", measured=f"{answered} answered" + f", {growths} logs grew" * bool(load.before))


def find_early_answers(program: Path) -> Outcome:
    """The same check has to find lost requests if the server answers before it flushes, as it does with `--flush 3600`."""
    found = kill_often(program, 1, Load(("--flush", "3600"))).wrong
    return Outcome(None if found and "were answered" in found else f"it was not found: {found}", measured=found or "")


# ---- Requests that are broken, or come in pieces.

NAMES = "GET SET SETNX DEL MGET MSET EXISTS RANGE REVRANGE SCAN WIPE PING ECHO DBSIZE INFO TYPE STRLEN SELECT CONFIG CLIENT HELLO MULTI EXEC DISCARD".split()
WORDS: list[bytes] = [b"", b"a", b"-", b"+", b"[a", b"(b", b"0", b"1", b"GET", b"LIMIT", b"COUNT", b"MATCH", b"NX", b"18446744073709551616"]
DAMAGE: list[bytes] = [b"", b"\r", b"\n", b"*", b"$", b"-1", b"99999999999999999999999", b"$5\r\n", b"*3\r\n"]


def garbage(chance: random.Random) -> bytes:
    requests = [encode(chance.choice(NAMES), *chance.choices(WORDS, k=chance.randint(0, 5))) for _ in range(chance.randint(1, 11))]
    text = b"".join(requests)
    for _ in range(chance.randint(0, 3)):
        at = chance.randrange(len(text))
        text = text[:at] + chance.choice([*DAMAGE, chance.randbytes(3)]) + text[at + chance.randint(0, 2) :]
    return text


def send_garbage(client: Client, chance: random.Random) -> None:
    text, at = garbage(chance), 0
    while at < len(text):
        size = chance.choice([1, 2, 7, 1_000])
        client.socket.sendall(text[at : at + size])
        at += size
    if chance.random() < 0.5:
        client.socket.shutdown(socket.SHUT_WR)
        while client.socket.recv(65_536):
            pass


def fuzz(server: Server) -> Wrong:
    chance = random.Random(1)
    with server.client() as control:
        for number in range(FUZZED):
            with server.client() as client:
                try:
                    send_garbage(client, chance)
                except OSError:
                    pass  # the server has refused the bytes, and closed the connection
            if control.ask("PING") != b"PONG":
                return f"no answer to another client after text {number}"
    return None


def cut_everywhere(server: Server) -> Wrong:
    text = encode("SET", "cut", "x\r\ny") + encode("GET", "cut") + b"PING\r\n"
    for at in range(1, len(text)):
        with server.client() as client:
            client.socket.sendall(text[:at])
            time.sleep(0.001)
            client.socket.sendall(text[at:])
            found = [client.read() for _ in range(3)]
        if found != [b"OK", b"x\r\ny", b"PONG"]:
            return differing(f"cut at {at}", found, "what the whole text gives")
    return None


BROKEN = {
    b"*1\r\n:4\r\n": "ERR Protocol error: expected '$'",
    b"*x\r\n": "ERR Protocol error: invalid multibulk length",
    b"*x": "ERR Protocol error: invalid multibulk length",
    b"*01": "ERR Protocol error: invalid multibulk length",
    b"*131073": "ERR Protocol error: invalid multibulk length",
    b"*131073\r\n": "ERR Protocol error: invalid multibulk length",
    b"*1\r\n$-1\r\n": "ERR Protocol error: invalid bulk length",
    b"*1\r\n$1x": "ERR Protocol error: invalid bulk length",
    b"*1\r\n$4194305\r\n": "ERR Protocol error: invalid bulk length",
    b"*1\r\n$4194304\r\n": "ERR Protocol error: too big request",
    b"*1\r\n$1\r\nab\r\n": "ERR Protocol error: a word is longer than its length",
    b"x" * (LONGEST_LINE + 1): "ERR Protocol error: too big request",
    b"x" * (LONGEST_LINE + 1) + b"\n": "ERR Protocol error: too big request",
}


def break_requests(server: Server) -> Wrong:
    """A broken request ends its connection after the requests before it are answered. One that is too long does so before all of it is received."""
    for text, message in BROKEN.items():
        with server.client() as client:
            client.socket.sendall(encode("SET", "a", "1") + text)
            found = [client.read(), client.read()]
            if found != [b"OK", Refused(message)] or not client.is_ended():
                return differing(text[:40], found, message)
    return None


def drip(server: Server) -> Wrong:
    """Requests of many words that come in many pieces take time in proportion to their length."""
    text = encode("MSET", *itertools.chain.from_iterable((b"%05d" % number, b"x") for number in range(60_000)))
    with server.client() as client:
        start = time.monotonic()
        for at in range(0, len(text), 500):
            client.socket.sendall(text[at : at + 500])
        if client.read() != b"OK":
            return "a request in pieces was not executed"
        seconds = time.monotonic() - start
    return None if seconds < 30 else f"it took {seconds:.1f} s"


# ---- Slow and many clients.


def half_close(server: Server) -> Wrong:
    """All of a pipeline that is longer than a round is answered, although the client has closed its side."""
    count = 30_000
    with server.client() as client:
        def send_all() -> None:
            client.socket.sendall(encode("SET", "k", "v") * count)
            client.socket.shutdown(socket.SHUT_WR)

        sender = threading.Thread(target=send_all)
        sender.start()
        found = b"".join(iter(partial(client.replies.read, 65_536), b""))
        sender.join(PATIENCE)
    return differing("replies", found.count(b"+OK\r\n"), count)


def never_read(server: Server) -> Wrong:
    """A client that never reads its replies is not read from; others are served, and memory stays small."""
    with server.client() as control, server.client(patience=1.0) as greedy:
        for first in range(0, 40_000, 1_000):
            control.ask("MSET", *(word for number in range(first, first + 1_000) for word in (b"r%06d" % number, b"v" * 100)))
        before, sent = resident_memory(server.process.pid), 0
        for request in (encode("GET", "r000001"), encode("RANGE", "-", "+")):
            try:
                for _ in range(2_000):
                    greedy.socket.sendall(request * 100)
                    sent += 100 * len(request)
            except TimeoutError:
                pass
            start = time.monotonic()
            if control.ask("PING") != b"PONG" or time.monotonic() - start > 5:
                return "another client had to wait"
        grown = resident_memory(server.process.pid) - before
    return None if grown < 64 * MEGABYTE else f"{grown // MEGABYTE} MB more memory, for {sent // MEGABYTE} MB"


def connect_many(server: Server) -> Wrong:
    clients = [server.client() for _ in range(CONNECTIONS)]
    for client in clients:
        client.send(["SET", "k", "v"], ["PING"])
    served = clients[: CONNECTIONS // 2]
    wrong = differing("the first replies", {(client.read(), client.read()) for client in served}, {(b"OK", b"PONG")})
    for client in served:
        client.close()
    rest = clients[CONNECTIONS // 2 :]
    wrong = wrong or differing("the last replies", {(client.read(), client.read()) for client in rest}, {(b"OK", b"PONG")})
    for client in rest:
        client.close()
    return wrong


def run_out_of_descriptors(program: Path) -> Outcome:
    """Connections for which there is no descriptor are served after others are closed."""
    limited = ["sh", "-c", f'ulimit -n {CONNECTIONS * 3 // 4}; exec "$0" "$@"']
    with new_folder() as folder, serving(program, Path(folder) / "store", before=limited) as server:
        return Outcome(connect_many(server))


def share_rounds(server: Server) -> Wrong:
    """Clients that wait at the same time share a flush."""
    def load(number: int) -> None:
        with server.client() as client:
            for value in range(50):
                client.ask("SET", f"k{number}", value)

    threads = [threading.Thread(target=load, args=(number,)) for number in range(50)]
    for thread in threads:
        thread.start()
    for thread in threads:
        thread.join(PATIENCE)
    with server.client() as client:
        numbers = client.numbers()
    return None if numbers["flushes"] < 2_000 and numbers["commands"] == 2_500 else f"{numbers}"


# ---- The log.


def fill(client: Client, pairs: Pairs, count: int, size: int) -> None:
    for first in range(0, count, 500):
        put = {b"key%06d" % (number * 7_919 % count): b"%d" % number * size for number in range(first, min(first + 500, count))}
        client.ask("MSET", *(word for pair in put.items() for word in pair))
        pairs.update(put)


def grow(program: Path) -> Outcome:
    """A full log is copied into a larger one; no connection ends, and nothing is lost in a kill afterwards. A symbolic link stays one."""
    with new_folder() as folder:
        path, real, pairs = Path(folder) / "link", Path(folder) / "real", dict[bytes, bytes]()
        real.mkdir()
        path.symlink_to(real / "store")
        with serving(program, path, "--segments", "3") as server, server.client() as idle, server.client() as client:
            path.chmod(0o600)
            for _ in range(3):
                fill(client, pairs, 30_000, 20)
            numbers = client.numbers()
            size = path.stat().st_size
            if not numbers["log_growths"] or size != 512 + numbers["log_segments"] * 2**20:
                return Outcome(f"{numbers['log_growths']} growths, {size} bytes: {numbers}")
            if idle.ask("PING") != b"PONG" or [entry.name for entry in real.iterdir()] != ["store"] or not path.is_symlink():
                return Outcome("a connection or the folder is not as it was")
            if path.stat().st_mode & 0o777 != 0o600:
                return Outcome(f"the permissions became {path.stat().st_mode:o}")
            server.kill()
        with serving(program, path) as server, server.client() as client:
            wrong = differing("pairs after a kill", read_all(client), pairs) or differing("FLUSHALL", client.ask("FLUSHALL"), b"OK")
            return Outcome(wrong, measured=f"{numbers['log_growths']} growths to {numbers['log_segments']} segments")


def clean(program: Path) -> Outcome:
    """A log that is large enough is cleaned, and doesn't grow."""
    with new_folder() as folder, serving(program, Path(folder) / "store", "--segments", "16") as server, server.client() as client:
        pairs = dict[bytes, bytes]()
        for _ in range(25):
            fill(client, pairs, 10_000, 20)
        numbers = client.numbers()
        wrong = differing("pairs", read_all(client), pairs)
        return Outcome(wrong or (None if not numbers["log_growths"] else f"{numbers}"), measured=f"{numbers['commits'] - numbers['flushes']} cleans")


def restart(program: Path) -> Outcome:
    """After a restart, the pairs are counted and scanned from the file, and cursors from before are refused."""
    pairs = {b"k%03d" % number: b"%d" % number for number in range(60)}
    with new_folder() as folder:
        path = Path(folder) / "store"
        with serving(program, path) as server, server.client() as client:
            client.ask("MSET", *(word for pair in pairs.items() for word in pair))
            page = client.ask("SCAN", 0, "COUNT", 10)
            assert isinstance(page, list) and isinstance(page[0], bytes)
            server.kill()
        with serving(program, path) as server, server.client() as client:
            found = [client.ask("DBSIZE"), client.numbers_of("db0")["keys"], client.refusal("SCAN", page[0])]
            wrong = differing("DBSIZE, the keys of INFO, and a cursor from before", found, [60, 60, "ERR invalid cursor"])
            wrong = wrong or differing("the keys of a scan", scan_all(client, 7), set(pairs))
            client.ask("DEL", "k000", "none")
            client.ask("SETNX", "k060", "")
            client.ask("SETNX", "k061", "")
            return Outcome(wrong or differing("DBSIZE after changes", client.ask("DBSIZE"), 61))


def shut_down(program: Path) -> Outcome:
    """What came in front of SHUTDOWN is answered and kept, whenever commands are made durable."""
    for policy in ("always", "3600"):
        with new_folder() as folder:
            path = Path(folder) / "store"
            with serving(program, path, "--flush", policy) as server, server.client() as other, server.client() as client:
                other.ask("SET", "other", "1")
                client.send(["SET", "a", "1"], ["GET", "a"], ["SHUTDOWN", "NOSAVE"])
                found = [client.read(), client.read(), client.is_ended(), other.is_ended(), server.wait()]
            wrong = differing(policy, found, [b"OK", b"1", True, True, (0, b"")])
            with serving(program, path) as server, server.client() as client:
                wrong = wrong or differing(f"{policy}: pairs after a restart", read_all(client), {b"a": b"1", b"other": b"1"})
        if wrong:
            return Outcome(wrong)
    return Outcome()


def fail_device(program: Path, library: Path, call: str) -> Outcome:
    """After a failed write or sync the server prints why and ends, and clients that wait get no answer. The file has what was answered, or one
    request more."""
    with new_folder() as folder:
        path = Path(folder) / "store"
        with serving(program, path) as server, server.client() as client:
            client.ask("SET", "a", "1")
        failing = FailingCalls(call, first=40).environment(library, path)
        server = Server(program, path, environment=failing)
        answered = 1
        try:
            with server.client() as client:
                for number in range(2, 1_000):
                    client.ask("SET", "a", number)
                    answered = number
        except ConnectionError:
            pass
        status, errors = server.wait()
        server.kill()
        if status != 1 or b"flushed" not in errors or answered in (1, 999):
            return Outcome(f"status {status}, errors {errors!r}, {answered} answered")
        with serving(program, path) as server, server.client() as client:
            value = client.ask("GET", "a")
    return Outcome(None if value in (b"%d" % answered, b"%d" % (answered + 1)) else f"{answered} was answered, and the value is {value!r}")


def flush_each_second(program: Path) -> Outcome:
    """With `--flush 1` commands are durable after two seconds, and with any interval after the server was stopped."""
    with new_folder() as folder:
        path = Path(folder) / "store"
        with serving(program, path, "--flush", "1") as server, server.client() as client:
            client.ask("SET", "a", "1")
            time.sleep(2)
            server.kill()
        with serving(program, path, "--flush", "3600") as server, server.client() as client:
            found = client.ask_all([["GET", "a"], ["SET", "b", "2"]])
            ended = server.stop()
        with serving(program, path) as server, server.client() as client:
            found.append(client.ask("GET", "b"))
    return Outcome(differing("replies", found, [b"1", b"OK", b"2"]) or differing("the end", ended, (0, b"")))


# ---- The order of system calls.

CALL = re.compile(r"(\w+)\((\d+)(?:<([^>]*)>)?")


def early_reply(trace: str) -> Wrong:
    """A reply must not be sent while a write to the store isn't synced."""
    is_synced, replies = True, 0
    for line in trace.splitlines():
        found = CALL.search(line)
        if not found:
            continue
        call, target = found[1], found[3] or ""
        if call in ("write", "pwrite64") and target.endswith("/store"):
            is_synced = False
        elif call in ("fdatasync", "fsync"):
            is_synced = True
        elif call in ("write", "sendto") and "TCP" in target:
            replies += 1
            if not is_synced:
                return f"a reply before a sync: {line[:200]}"
    return None if replies > 100 else f"the trace has {replies} replies"


def trace_calls(program: Path) -> Outcome:
    if shutil.which("strace") is None:
        return Outcome(left_out="there is no strace on this machine")
    with new_folder() as folder:
        trace, tracer = Path(folder) / "trace", ["strace", "-f", "-yy", "-e", "trace=write,pwrite64,sendto,fdatasync,fsync", "-s", "8", "-o"]
        with serving(program, Path(folder) / "store", before=[*tracer, f"{folder}/trace"]) as server, server.client() as client:
            for number in range(200):
                client.ask("SET", number, "v")
            server.stop()
        return Outcome(early_reply(trace.read_text(errors="replace")))


# ---- Programs that were made for Redis.


def run_client(program: Path, words: list[str], is_right: Callable[[str], bool], *options: str) -> Outcome:
    if shutil.which(words[0]) is None:
        return Outcome(left_out=f"{words[0]} is not installed")
    with new_folder() as folder, serving(program, Path(folder) / "store", *options) as server:
        ran = subprocess.run([words[0], "-p", str(server.port), *words[1:]], capture_output=True, text=True, timeout=PATIENCE)
    return Outcome(None if is_right(ran.stdout) and not ran.stderr else f"status {ran.returncode}: {ran.stdout[-500:]} {ran.stderr[-500:]}")


REDIS_PY = """
import redis, sys
r = redis.Redis(port=int(sys.argv[1]))
assert r.set("a", "1") and r.get("a") == b"1" and not r.setnx("a", "2")
with r.pipeline() as pipe:
    for number in range(5000):
        pipe.set("k%d" % number, number)
    assert pipe.execute() == [True] * 5000
assert r.mget("k1", "none") == [b"1", None] and r.exists("a", "k1") == 2
assert set(r.scan_iter(match="k1*", count=7)) == {b"k%d" % n for n in range(5000) if str(n).startswith("1")}
assert r.dbsize() == 5001 and r.info()["db0"]["keys"] == 5001 and r.flushall() and r.ping()
"""


def has_redis_py(python: str) -> bool:
    return Path(python).exists() and subprocess.run([python, "-c", "import redis"], stderr=subprocess.DEVNULL).returncode == 0


def run_redis_py(program: Path) -> Outcome:
    pythons = [python for python in (sys.executable, "/usr/bin/python3") if has_redis_py(python)]
    if not pythons:
        return Outcome(left_out="redis-py is not installed")
    with new_folder() as folder, serving(program, Path(folder) / "store") as server:
        ran = subprocess.run([pythons[0], "-c", REDIS_PY, str(server.port)], capture_output=True, text=True, timeout=PATIENCE)
    return Outcome(ran.stderr[-1_000:] if ran.returncode else None)


def run_benchmark(program: Path) -> Outcome:
    words = ["redis-benchmark", "-q", "-c", "20", "-n", "4000", "-P", "4", "-r", "1000", "-t", "ping,set,get,mset"]
    return run_client(program, words, lambda out: out.count("requests per second") >= 4)


def refuse_options(program: Path) -> Outcome:
    refused: dict[str, int] = {"": 2, "a --port 70000": 2, "a --flush 0": 2, "a --bind here": 2, "a --fan 3": 1, "--help": 0}
    for words, status in ((text.split(), status) for text, status in refused.items()):
        with new_folder() as folder:
            ran = subprocess.run([program, *words], cwd=folder, stdin=subprocess.DEVNULL, capture_output=True, timeout=PATIENCE)
            is_quiet = bool(ran.stdout) == (status == 0) and bool(ran.stderr) == (status != 0)
            if ran.returncode != status or not is_quiet or list(Path(folder).iterdir()):
                return Outcome(f"{words}: status {ran.returncode}, {ran.stdout!r}, {ran.stderr!r}")
    return Outcome()


def close_streams(program: Path) -> Outcome:
    """If standard input or output is closed, the server ends before it opens a file: what is printed would be written into the store."""
    for closed in ("<&-", ">&-", "<&- >&- 2>&-"):
        with new_folder() as folder:
            words = ["sh", "-c", f'exec "$0" "$@" {closed}', str(program), "store", "--port", "0"]
            ran = subprocess.run(words, cwd=folder, capture_output=True, timeout=PATIENCE)
            if ran.returncode != 1 or list(Path(folder).iterdir()):
                return Outcome(f"{closed}: status {ran.returncode}, {ran.stdout!r}, {ran.stderr!r}")
    return Outcome()


def show_version(program: Path) -> Outcome:
    ran = subprocess.run([program, "--version"], stdin=subprocess.DEVNULL, capture_output=True, timeout=PATIENCE)
    return Outcome(differing("--version", (ran.returncode, ran.stdout, ran.stderr), (0, b"bwserve 0.2.0\n", b"")))


def explain_start(program: Path) -> Outcome:
    """If the server can't start, it prints the path or the address, why, and what to do."""
    with new_folder() as folder, socket.create_server(("127.0.0.1", 0)) as taken:
        port = str(taken.getsockname()[1])
        text, good = Path(folder) / "text", Path(folder) / "good"
        text.write_bytes(b"this is no store\n" * 100)
        rows: list[tuple[list[str], list[str]]] = [
            ([str(text), "--port", "0"], [str(text), "The file holds no store", "Check the path"]),
            ([f"{folder}/none/store", "--port", "0"], [f"{folder}/none/store", "No such file", "must exist"]),
            ([str(good), "--port", port], [f"127.0.0.1:{port}", "ddress already in use", "--port"]),
            ([str(good), "--port", "0", "--bind", "192.0.2.1"], ["192.0.2.1:0", "annot assign", "--bind"]),
            ([str(good), "--fan", "3"], [str(good), "The setting fan must be from 4 to 64."]),
            ([str(good), "--workers", "65"], [str(good), "1 to 64 workers"]),
        ]
        for words, parts in rows:
            ran = subprocess.run([program, *words], stdin=subprocess.DEVNULL, capture_output=True, text=True, timeout=PATIENCE)
            if ran.returncode != 1 or ran.stdout or not all(part in ran.stderr for part in parts) or ran.stderr.count("\n") != 1:
                return Outcome(f"{words}: status {ran.returncode}, {ran.stdout!r}, {ran.stderr!r}")
    return Outcome()


def lock_file(program: Path) -> Outcome:
    """A second server on the same file ends at once."""
    with new_folder() as folder, serving(program, Path(folder) / "store"):
        ran = subprocess.run([program, f"{folder}/store", "--port", "0"], stdin=subprocess.DEVNULL, capture_output=True, timeout=PATIENCE)
    return Outcome(None if ran.returncode == 1 and f"{folder}/store: Wait until the program that has locked the file ends.".encode() in ran.stderr else f"status {ran.returncode}, {ran.stderr!r}")


def cases(programs: Programs, failing: Path) -> list[Case]:
    program = programs.examples / "bwserve"
    tests: dict[str, tuple[Callable[..., Wrong], tuple[int, ...]]] = {
        "requests one at a time": (answer_table, (False,)),
        "requests in a pipeline": (answer_table, (True,)),
        "requests in lines": (answer_inline, ()),
        "beyond the limits": (beyond_limits, ()),
        "garbage": (fuzz, ()),
        "requests cut at each place": (cut_everywhere, ()),
        "broken requests": (break_requests, ()),
        "a long request in pieces": (drip, ()),
        "a long pipeline, half closed": (half_close, ()),
        "a client that never reads": (never_read, ()),
        f"{CONNECTIONS:,} connections": (connect_many, ()),
        "shared flushes": (share_rounds, ()),
        "two scans in turn": (scan_in_turn, ()),
        **{f"beside a dict, seed {seed}": (beside_model, (seed,)) for seed in range(1, SEEDS + 1)},
    }
    return [
        *[Case(f"{KILLS} kills under load, seed {seed}", kill_often, (program, seed, Load())) for seed in range(1, SEEDS + 1)],
        Case(f"{KILLS} kills while the log grows", kill_often, (program, 3, GROWING)),
        Case("answers before the flush are found", find_early_answers, (program,)),
        *[Case(name, run_test, (program, test, arguments)) for name, (test, arguments) in tests.items()],
        Case("too few descriptors", run_out_of_descriptors, (program,)),
        Case("a full log grows", grow, (program,)),
        Case("a full log is cleaned", clean, (program,)),
        *[Case(f"the device fails: {call}", fail_device, (program, failing, call)) for call in ("write", "sync")],
        Case("a flush each second", flush_each_second, (program,)),
        Case("a restart", restart, (program,)),
        Case("SHUTDOWN behind other requests", shut_down, (program,)),
        *server_info.cases(program),
        *server_growth.cases(program, failing),
        Case("no reply before a sync", trace_calls, (program,)),
        Case("redis-cli", run_client, (program, ["redis-cli", "SET", "a", "1"], is_ok)),
        Case("redis-benchmark", run_benchmark, (program,)),
        Case("redis-py", run_redis_py, (program,)),
        Case("options", refuse_options, (program,)),
        Case("the version", show_version, (program,)),
        Case("reasons not to start", explain_start, (program,)),
        Case("closed streams", close_streams, (program,)),
        Case("one server a file", lock_file, (program,)),
    ]


def is_ok(text: str) -> bool:
    return text == "OK\n"


def run_test(program: Path, test: Callable[..., Wrong], arguments: tuple[int, ...]) -> Outcome:
    with new_folder() as folder, serving(program, Path(folder) / "store") as server:
        return Outcome(test(server, *arguments))
