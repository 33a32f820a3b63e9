"""Runs an etcd cluster on the loopback address. Its members can be killed and started again."""

from __future__ import annotations

import ctypes
import os
import signal
import socket
import subprocess
import time
from collections.abc import Iterator
from contextlib import contextmanager
from dataclasses import dataclass, field
from pathlib import Path

from gateway import FAILURES, Gateway

PATIENCE = 60  # seconds to wait for a leader
C = ctypes.CDLL(None)
END_WITH_PARENT = 1  # PR_SET_PDEATHSIG of prctl


def end_with_parent() -> None:
    """Makes the kernel kill this child process when its parent ends."""
    C.prctl(END_WITH_PARENT, signal.SIGKILL)


def free_ports(count: int) -> list[int]:
    sockets = [socket.create_server(("127.0.0.1", 0)) for _ in range(count)]
    ports: list[int] = [each.getsockname()[1] for each in sockets]
    for each in sockets:
        each.close()
    return ports


@dataclass
class Member:
    name: str
    port: int
    command: list[str]
    log: Path
    process: subprocess.Popen[bytes] | None = None

    def start(self) -> None:
        # Variables that configure another etcd on this machine must not reach this one.
        environment = {name: value for name, value in os.environ.items() if not name.startswith(("ETCD", "ETCDCTL"))}
        with open(self.log, "ab") as log:
            quiet = subprocess.DEVNULL
            self.process = subprocess.Popen(
                self.command, stdin=quiet, stdout=log, stderr=log, env=environment, preexec_fn=end_with_parent
            )

    def kill(self) -> None:
        if self.process:
            self.process.kill()
            self.process.wait()
        self.process = None


@dataclass
class Cluster:
    members: list[Member] = field(default_factory=list)

    @property
    def ports(self) -> list[int]:
        return [member.port for member in self.members]

    def leader(self) -> Member | None:
        for member in self.members:
            if member.process is None:
                continue
            gateway = Gateway([member.port])
            try:
                status = gateway.ask_once("/v3/maintenance/status", {})
            except FAILURES:
                continue
            finally:
                gateway.close()
            if status.get("leader") == status["header"]["member_id"]:
                return member
        return None

    def await_leader(self) -> None:
        end = time.monotonic() + PATIENCE
        while self.leader() is None:
            if time.monotonic() > end:
                raise SystemExit(f"etcd has no leader after {PATIENCE} s: see {self.members[0].log}")
            time.sleep(0.1)


def members_in(folder: Path, etcd: str, count: int) -> list[Member]:
    names = [f"m{number}" for number in range(1, count + 1)]
    ports = free_ports(2 * count)
    clients, peers = ([f"http://127.0.0.1:{port}" for port in some] for some in (ports[:count], ports[count:]))
    everybody = ",".join(f"{name}={peer}" for name, peer in zip(names, peers))

    def command(name: str, client: str, peer: str) -> list[str]:
        words = [etcd, "--name", name, "--data-dir", str(folder / name), "--initial-cluster", everybody]
        words += ["--listen-client-urls", client, "--advertise-client-urls", client]
        words += ["--listen-peer-urls", peer, "--initial-advertise-peer-urls", peer]
        return [*words, "--logger", "zap", "--log-outputs", "stderr"]

    return [
        Member(name, port, command(name, client, peer), folder / f"{name}.log")
        for name, port, client, peer in zip(names, ports, clients, peers)
    ]


@contextmanager
def running(folder: Path, etcd: str, count: int = 3) -> Iterator[Cluster]:
    """Kills the members at the end of the `with` block."""
    cluster = Cluster(members_in(folder, etcd, count))
    try:
        for member in cluster.members:
            member.start()
        cluster.await_leader()
        yield cluster
    finally:
        for member in cluster.members:
            member.kill()
