#!/usr/bin/env python3
"""Replicates a store: three replicas apply the batches that two writers put into an etcd cluster.

Replicas, their programs and the etcd leader are killed at random times. The status is 0 if at the end all replicas have
equal bytes and no acknowledged batch is lost. README.md describes the example.
"""

from __future__ import annotations

import argparse
import contextlib
import hashlib
import json
import random
import shutil
import signal
import statistics
import subprocess
import sys
import tempfile
import time
from collections.abc import Callable, Iterator
from dataclasses import dataclass
from pathlib import Path
from typing import Any

import cluster
from batches import MARK, PREFIX, REVISION, Batch
from gateway import Event, Gateway

from taukremil import Row, Store

HERE = Path(__file__).resolve().parent
PROGRAM = HERE.parents[1] / "crates/bwsh/out/bwsh"
PATIENCE = 120  # seconds for replicas to apply the rest of the log
Line = dict[str, Any]


def lines_of(log: Path) -> list[Line]:
    """Leaves out an incomplete last line."""
    if not log.exists():
        return []
    return [json.loads(line) for line in log.read_text().splitlines(keepends=True) if line.endswith("\n")]


@dataclass
class Process:
    """Does not use tools/processes.py, so that the example can be copied alone."""

    name: str
    command: list[str]
    log: Path
    running: subprocess.Popen[bytes] | None = None

    def start(self) -> None:
        with open(self.log.with_suffix(".err"), "ab") as errors:
            quiet, last = subprocess.DEVNULL, cluster.end_with_parent
            self.running = subprocess.Popen(self.command, stdin=quiet, stdout=errors, stderr=errors, preexec_fn=last)

    def send(self, number: signal.Signals) -> None:
        if self.running:
            self.running.send_signal(number)

    def kill(self) -> None:
        if self.running:
            self.running.kill()
            self.running.wait()
        self.running = None

    def end(self) -> None:
        if self.running:
            self.running.terminate()
            if self.running.wait(PATIENCE) not in (0, -signal.SIGTERM):  # the signal came before its handler was set
                raise SystemExit(f"{self.name} ended with {self.running.returncode}: {self.errors()}")
        self.running = None

    def check_running(self) -> None:
        if self.running and self.running.poll() is not None:
            raise SystemExit(f"{self.name} has ended with {self.running.returncode}: {self.errors()}")

    def errors(self) -> str:
        return self.log.with_suffix(".err").read_text().strip()


@dataclass
class ReplicaProcess(Process):
    store: Path = Path()

    def lines(self, event: str) -> list[Line]:
        return [line for line in lines_of(self.log) if line["event"] == event]

    def has_reported(self, revision: int) -> bool:
        return any(line["revision"] >= revision for line in self.lines("looked"))


def replicas_in(folder: Path, ports: list[int], options: argparse.Namespace) -> list[ReplicaProcess]:
    found = []
    for number in range(3):
        name = f"r{number + 1}"
        store, log = folder / f"{name}.store", folder / f"{name}.log"
        rotated = ports[number:] + ports[:number]  # each replica tries another member first
        words = [HERE / "replica.py", store, log, *rotated, "--program", options.program, "--every", options.every]
        found.append(ReplicaProcess(name, [sys.executable, *map(str, words)], log, store=store))
    return found


def writers_in(folder: Path, ports: list[int], seed: int) -> list[Process]:
    found = []
    for number in range(2):
        name = f"w{number + 1}"
        words = [HERE / "writer.py", name, folder / f"{name}.log", *ports, "--seed", seed]
        found.append(Process(name, [sys.executable, *map(str, words)], folder / f"{name}.log"))
    return found


class Chaos:
    def __init__(self, source: random.Random, members: cluster.Cluster, replicas: list[ReplicaProcess]) -> None:
        self.source, self.members, self.replicas = source, members, replicas
        self.done: dict[str, int] = {}

    def replica(self) -> None:
        # The program ends because its input ends.
        replica = self.source.choice(self.replicas)
        replica.kill()
        time.sleep(self.source.uniform(0, 1))
        replica.start()

    def program(self) -> None:
        self.source.choice(self.replicas).send(signal.SIGUSR1)

    def both(self) -> None:
        replica = self.source.choice(self.replicas)
        replica.send(signal.SIGUSR1)
        time.sleep(self.source.uniform(0, 0.01))
        replica.kill()
        time.sleep(self.source.uniform(0, 1))
        replica.start()

    def leader(self) -> None:
        member = self.members.leader()
        if member:
            member.kill()
            time.sleep(self.source.uniform(0.5, 2))
            member.start()
            self.members.await_leader()

    def disk(self) -> None:
        """Replaces a replica by one that starts with a copy of another's file."""
        lost, other = self.source.sample(self.replicas, 2)
        lost.kill()
        lost.store.unlink()
        other.end()
        shutil.copyfile(other.store, lost.store)
        other.start()
        lost.start()

    def newcomer(self) -> None:
        """Replaces a replica by one that starts empty."""
        lost = self.source.choice(self.replicas)
        lost.kill()
        lost.store.unlink()
        lost.start()

    def run(self, seconds: float) -> None:
        end = time.monotonic() + seconds
        kinds = (self.replica, self.program, self.both, self.leader, self.disk, self.newcomer)
        while time.monotonic() < end:
            time.sleep(self.source.uniform(0.2, 1.5))
            (kill,) = self.source.choices(kinds, (4, 4, 3, 3, 2, 2))
            kill()
            self.done[kill.__name__] = self.done.get(kill.__name__, 0) + 1
            for replica in self.replicas:
                replica.check_running()


def check_contents(events: list[Event], acknowledged: list[Line], rows: list[Row]) -> None:
    contents: dict[bytes, bytes] = {}
    for event in events:
        Batch.read(event.value).play(contents)
    contents[REVISION] = b"%d" % events[-1].revision
    if dict(rows) != contents or [key for key, _ in rows] != sorted(contents):
        raise SystemExit("a store differs from a dict to which the batches of the log were applied")
    revisions = {event.key: event.revision for event in events}
    for line in acknowledged:
        name = line["name"].encode()
        if revisions.get(PREFIX + name) != line["revision"] or MARK + name not in contents:
            raise SystemExit(f"batch {name.decode()} was acknowledged and is lost, or has another revision")


def check_reports(replicas: list[ReplicaProcess]) -> tuple[int, str]:
    """Returns how many revisions more than one replica reported, and the last report."""
    seen: dict[int, set[tuple[str, str]]] = {}
    by: dict[int, set[str]] = {}
    for replica in replicas:
        for line in replica.lines("looked"):
            seen.setdefault(line["revision"], set()).add((line["store"], line["bytes"]))
            by.setdefault(line["revision"], set()).add(replica.name)
    for revision, reports in sorted(seen.items()):
        if len(reports) > 1:
            raise SystemExit(f"at revision {revision} replicas differ: {sorted(reports)}")
    last = max(seen)
    ((report, digest),) = seen[last]
    if by[last] != {replica.name for replica in replicas}:
        raise SystemExit(f"at revision {last} only {sorted(by[last])} reported their contents")
    shared = sum(len(names) > 1 for names in by.values())
    return shared, f"revision {last}: {report}, {digest[:16]}.."


def check_files(replicas: list[ReplicaProcess], program: Path) -> list[Row]:
    """Returns the pairs in the files, which must be equal."""
    digests = {hashlib.sha256(replica.store.read_bytes()).hexdigest() for replica in replicas}
    if len(digests) > 1:
        raise SystemExit(f"the files differ: {sorted(digests)}")
    with Store(replicas[0].store, program=program) as store:
        return store.scan()


def lags_of(replica: ReplicaProcess) -> list[float]:
    """Returns the seconds until each revision was first flushed."""
    first: dict[str, float] = {}
    for line in replica.lines("flushed"):
        for revision, lag in line["lags"].items():
            first.setdefault(revision, lag)
    return list(first.values())


def summary(times: list[float]) -> str:
    times = sorted(times)
    median, most = 1_000 * statistics.median(times), 1_000 * times[len(times) * 95 // 100]
    return f"median {median:,.0f} ms, 95 of 100 within {most:,.0f} ms, longest {times[-1]:,.1f} s"


def await_all(replicas: list[ReplicaProcess], has_come: Callable[[ReplicaProcess], bool]) -> None:
    end = time.monotonic() + PATIENCE
    while not all(map(has_come, replicas)):
        for replica in replicas:
            replica.check_running()
        if time.monotonic() > end:
            raise SystemExit(f"the replicas are not ready after {PATIENCE} s")
        time.sleep(0.1)


def drain(members: cluster.Cluster, replicas: list[ReplicaProcess]) -> None:
    """Waits until all replicas have reported a last batch."""
    last = Batch("end", time.time(), [], flush=True)
    revision = Gateway(members.ports).put_once(last.key(), last.text())
    await_all(replicas, lambda replica: replica.has_reported(revision))


@contextlib.contextmanager
def started(processes: list[Process]) -> Iterator[None]:
    """Starts `processes`, and kills them at the end of the `with` block."""
    try:
        for process in processes:
            process.start()
        yield
    finally:
        for process in processes:
            process.kill()


def play(folder: Path, options: argparse.Namespace) -> None:
    source = random.Random(options.seed)
    with cluster.running(folder, options.etcd) as members:
        replicas, writers = replicas_in(folder, members.ports, options), writers_in(folder, members.ports, options.seed)
        chaos = Chaos(source, members, replicas)
        with started([*replicas, *writers]):
            await_all(replicas, lambda replica: bool(replica.lines("started")))
            start = time.monotonic()
            if options.calm:
                time.sleep(options.seconds)
            else:
                chaos.run(options.seconds)
            for writer in writers:
                writer.end()
            seconds = time.monotonic() - start
            drain(members, replicas)
            for replica in replicas:
                replica.end()
        events = Gateway(members.ports).all_of(PREFIX)
    report(chaos, replicas, writers, events, seconds, options)


def report(
    chaos: Chaos,
    replicas: list[ReplicaProcess],
    writers: list[Process],
    events: list[Event],
    seconds: float,
    options: argparse.Namespace,
) -> None:
    acknowledged = [line for writer in writers for line in lines_of(writer.log)]
    shared, last = check_reports(replicas)
    check_contents(events, acknowledged, check_files(replicas, options.program))
    print(f"killed: {', '.join(f'{name} {count} times' for name, count in sorted(chaos.done.items())) or 'nothing'}")
    rate = len(acknowledged) / seconds
    print(f"batches: {len(acknowledged):,} acknowledged in {seconds:.0f} s, {rate:,.0f} a second; none is lost")
    print(f"stores: equal at {shared} revisions that more than one reported; at the end equal to a dict")
    print(f"  {last}")
    print(f"files: equal, {replicas[0].store.stat().st_size:,} bytes")
    print(f"an acknowledgement: {summary([line['took'] for line in acknowledged])}")
    print(f"a replica's lag:    {summary([lag for replica in replicas for lag in lags_of(replica)])}")


def main() -> None:
    parser = argparse.ArgumentParser(description=__doc__)
    parser.add_argument("--program", type=Path, default=PROGRAM, help="the built program")
    parser.add_argument("--etcd", default="etcd", help="the etcd program: a path or a name in PATH")
    parser.add_argument("--seconds", type=float, default=60)
    parser.add_argument("--seed", type=int, default=1)
    parser.add_argument("--every", type=int, default=128, help="revisions between flushes")
    parser.add_argument("--calm", action="store_true", help="kill nothing")
    parser.add_argument("--folder", type=Path, help="where to create a folder for all files, deleted at the end")
    options = parser.parse_args()
    options.program = options.program.resolve()
    if shutil.which(options.etcd) is None:
        sys.exit("etcd is not installed: install Debian's package etcd-server, or give a path with --etcd")
    if not options.program.exists():
        sys.exit(f"{options.program} is missing: `rt run` in crates/bwsh builds it")
    for number in (signal.SIGTERM, signal.SIGHUP):
        signal.signal(number, lambda *_: sys.exit("ended by a signal"))  # exits through every `finally`
    signal.signal(signal.SIGUSR1, signal.SIG_IGN)  # inherited, so that it cannot kill a starting replica
    with tempfile.TemporaryDirectory(dir=options.folder, prefix="replicas-") as folder:
        play(Path(folder), options)


if __name__ == "__main__":
    main()
