#!/usr/bin/env python3
"""Applies the batches in etcd, in the order of their revisions, to a store."""

from __future__ import annotations

import argparse
import hashlib
import json
import os
import signal
import sys
import time
from dataclasses import dataclass, field
from pathlib import Path
from typing import TextIO

from batches import PREFIX, REVISION, Batch
from gateway import Event, Gateway

from taukremil import Add, Command, Killed, Put, Reply, Store

# A full log of fewer than 16 segments is cleaned one segment at a time, so a kill between cleans changes no byte of the next ones.
SETTINGS = {"fan": 32, "chain": 8, "max_key": 32, "max_value": 128, "seg_size": 524_288, "segments": 12}
PATIENCE = 20  # seconds for the program of a killed replica to unlock the file


@dataclass(frozen=True)
class Revision:
    number: int
    batches: list[Batch]

    @staticmethod
    def of(events: list[Event]) -> Revision:
        return Revision(events[0].revision, [Batch.read(event.value) for event in events])

    def commands(self) -> list[Command[Reply]]:
        commands: list[Command[Reply]] = [Add(batch.mark(), b"") for batch in self.batches]
        commands += [command for batch in self.batches for command in batch.for_store()]
        return [*commands, Put(REVISION, b"%d" % self.number)]

    def asks_to_flush(self) -> bool:
        return any(batch.flush for batch in self.batches)


@dataclass
class Replica:
    """Only revisions determine when a replica flushes, so all replicas have equal bytes."""

    store: Store
    log: TextIO
    every: int  # revisions between flushes
    looks: int  # flushes between reports of the store's bytes
    played: int = 0
    flushed: int = 0
    lags: dict[int, float] = field(default_factory=dict)  # seconds, by revision since the last flush

    def say(self, event: str, **more: object) -> None:
        self.log.write(json.dumps({"event": event, "time": time.time(), **more}) + "\n")
        self.log.flush()

    def recover(self) -> None:
        self.played = self.flushed = int(self.store.get(REVISION) or b"0")
        self.say("started", revision=self.played)

    def play(self, revisions: list[Revision]) -> None:
        pending: list[Revision] = []
        for revision in revisions:
            pending.append(revision)
            is_asked = revision.asks_to_flush()
            if is_asked or revision.number - self.flushed >= self.every:
                self.run(pending)
                pending = []
                self.flush(is_asked)
        self.run(pending)

    def run(self, revisions: list[Revision]) -> None:
        """Sends all revisions at once, each as one batch."""
        for revision, replies in zip(revisions, self.store.batches(revision.commands() for revision in revisions)):
            if not all(replies[: len(revision.batches)]):
                raise SystemExit(f"a batch of revision {revision.number} was applied twice")
            self.played = revision.number
            self.lags[revision.number] = round(time.time() - min(batch.sent for batch in revision.batches), 4)

    def flush(self, is_asked: bool) -> None:
        number = self.store.flush()
        self.flushed = self.played
        self.say("flushed", revision=self.played, number=number, lags=self.lags)
        self.lags.clear()
        if is_asked or number % self.looks == 0:
            self.report_contents(number)

    def report_contents(self, number: int) -> None:
        """Logs what must be equal in all replicas at this revision."""
        report, stat = self.store.verify(), self.store.stat()
        numbers = f"number {number}, ok {report.pages} {report.height} {report.pairs}, {stat.head} segments cleaned"
        digest = hashlib.sha256(self.store.path.read_bytes()).hexdigest()
        self.say("looked", revision=self.played, store=numbers, bytes=digest)

    def follow(self, gateway: Gateway) -> None:
        """Applies batches forever. After its program is killed, continues with the last flushed store."""
        while True:
            try:
                self.recover()
                for revisions in gateway.follow(PREFIX, self.played + 1):
                    self.play([Revision.of(events) for events in revisions])
            except Killed as killed:
                self.lags.clear()
                self.say("killed", lost=killed.unflushed)
                self.reopen()
            finally:
                gateway.close()

    def reopen(self) -> None:
        """The program may be killed while it starts."""
        while True:
            try:
                return self.store.reopen()
            except Killed:
                pass


def main() -> None:
    parser = argparse.ArgumentParser(description=__doc__)
    parser.add_argument("store", type=Path, help="the file")
    parser.add_argument("log", type=Path, help="the file to which it appends its log")
    parser.add_argument(
        "ports", type=int, nargs="+", help="ports of etcd on the loopback address; the first is tried first"
    )
    parser.add_argument("--program", type=Path, required=True)
    parser.add_argument("--every", type=int, default=128, help="revisions between flushes")
    parser.add_argument("--looks", type=int, default=8, help="flushes between reports of the store's bytes")
    options = parser.parse_args()
    signal.signal(signal.SIGTERM, lambda *_: sys.exit(0))
    with open(options.log, "a") as log, Store(
        options.store, create="missing", wait=PATIENCE, program=options.program, **SETTINGS
    ) as store:
        replica = Replica(store, log, options.every, options.looks)
        signal.signal(signal.SIGUSR1, lambda *_: kill_program(store))
        replica.follow(Gateway(options.ports))


def kill_program(store: Store) -> None:
    """Kills the replica's program, as the kernel does when memory is short."""
    if store.pid is not None:
        os.kill(store.pid, signal.SIGKILL)


if __name__ == "__main__":
    main()
