"""Talks to etcd over its JSON gateway, with the standard library only."""

from __future__ import annotations

import base64
import http.client
import itertools
import json
import time
from collections.abc import Iterator
from dataclasses import dataclass, field
from typing import Any

PATIENCE = 2.0  # seconds until a request or a silent watch times out
PAUSE = 0.05  # seconds before the next member is tried
FAILURES = (OSError, http.client.HTTPException, json.JSONDecodeError)  # what a dead or dying member causes
Json = dict[str, Any]


class Compacted(Exception):
    """etcd has compacted the revisions that a watch asked for."""


def encode(data: bytes) -> str:
    return base64.b64encode(data).decode()


def end_of(prefix: bytes) -> bytes:
    """Returns the upper bound of the keys with this prefix."""
    return prefix[:-1] + bytes([prefix[-1] + 1])


@dataclass(frozen=True)
class Event:
    key: bytes
    value: bytes
    revision: int

    @staticmethod
    def of(pair: Json) -> Event:
        key, value = (base64.b64decode(pair.get(name, "")) for name in ("key", "value"))
        return Event(key, value, int(pair["mod_revision"]))


@dataclass
class Gateway:
    """Sends requests to one member, and after a failure to the next."""

    ports: list[int]
    at: int = 0
    connection: http.client.HTTPConnection | None = field(default=None, repr=False)

    def _open(self) -> http.client.HTTPConnection:
        if self.connection is None:
            port = self.ports[self.at % len(self.ports)]
            self.connection = http.client.HTTPConnection("127.0.0.1", port, timeout=PATIENCE)
        return self.connection

    def close(self) -> None:
        if self.connection:
            self.connection.close()
        self.connection = None

    def go_to_next_member(self) -> None:
        self.close()
        self.at += 1
        time.sleep(PAUSE)

    def _post(self, path: str, body: Json) -> http.client.HTTPResponse:
        connection = self._open()
        connection.request("POST", path, json.dumps(body), {"Content-Type": "application/json"})
        response = connection.getresponse()
        if response.status != 200:
            raise ConnectionError(f"{path}: {response.status} {response.read(200)!r}")
        return response

    def ask_once(self, path: str, body: Json) -> Json:
        """After a failure, the request may have been executed."""
        answer: Json = json.loads(self._post(path, body).read())
        return answer

    def ask(self, path: str, body: Json) -> Json:
        """Repeats a request until a member answers, so it may be executed more than once."""
        while True:
            try:
                return self.ask_once(path, body)
            except FAILURES:
                self.go_to_next_member()

    def put_once(self, key: bytes, value: bytes) -> int:
        """Puts `key`, which no other client puts, exactly once, and returns the revision."""
        body = {
            "compare": [{"key": encode(key), "target": "CREATE", "create_revision": "0", "result": "EQUAL"}],
            "success": [{"request_put": {"key": encode(key), "value": encode(value)}}],
            "failure": [{"request_range": {"key": encode(key)}}],
        }
        answer = self.ask("/v3/kv/txn", body)
        if answer.get("succeeded"):
            return int(answer["header"]["revision"])
        (pair,) = answer["responses"][0]["response_range"]["kvs"]  # an earlier attempt succeeded
        return int(pair["create_revision"])

    def all_of(self, prefix: bytes) -> list[Event]:
        bounds = {"key": encode(prefix), "range_end": encode(end_of(prefix))}
        answer = self.ask("/v3/kv/range", {**bounds, "sort_order": "ASCEND", "sort_target": "MOD"})
        return [Event.of(pair) for pair in answer.get("kvs", [])]

    def watch(self, prefix: bytes, first: int) -> Iterator[list[list[Event]]]:
        """Yields lists of revisions, each a list of events, until the current member fails. Raises `Compacted` if etcd
        no longer has revision `first`."""
        bounds = {"key": encode(prefix), "range_end": encode(end_of(prefix))}
        response = self._post("/v3/watch", {"create_request": {**bounds, "start_revision": str(first)}})
        while line := response.readline():
            answer = json.loads(line)
            result = answer.get("result", {})
            if compacted := int(result.get("compact_revision", 0)):
                raise Compacted(f"etcd has no revision before {compacted}, and {first} was requested")
            if "error" in answer or result.get("canceled"):
                raise ConnectionError(f"the watch has ended: {answer}")
            events = [Event.of(event["kv"]) for event in result.get("events", [])]
            if events:
                yield [list(same) for _, same in itertools.groupby(events, lambda event: event.revision)]

    def follow(self, prefix: bytes, first: int) -> Iterator[list[list[Event]]]:
        """Yields each revision once, and continues with another member after a failure."""
        while True:
            try:
                for revisions in self.watch(prefix, first):
                    first = revisions[-1][0].revision + 1
                    yield revisions
            except FAILURES:
                pass
            self.go_to_next_member()
