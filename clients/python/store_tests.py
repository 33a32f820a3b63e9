"""Provides common parts of the client's tests.

They run the program at the path in BWSH, by default the proved one.
"""

from __future__ import annotations

import os
import signal
import sys
import tempfile
import threading
import unittest
import unittest.mock
from collections.abc import Callable
from dataclasses import dataclass
from pathlib import Path
from typing import Literal

from taukremil import Command, Reply, Store

PROGRAM = Path(os.environ.get("BWSH", Path(__file__).resolve().parents[2] / "crates/bwsh/out/bwsh")).absolute()
SMALL = {
    "fan": 8,
    "chain": 4,
    "max_key": 16,
    "max_value": 64,
    "seg_size": 1024,
}  # pages that split and merge often
MEMORY = Path("/dev/shm")  # syncs take no time there, so that kills hit all parts of a flush
KILLS_ITSELF = "os.kill(os.getpid(), signal.SIGKILL)"
# Bytes that begin like those of unfinished files, with other bytes after them or with bad settings.
LOOK_UNFINISHED = [bytes(9_999) + b"\1", b"\0WBATCH1\0\3\0\4" + bytes(1_524), b"\0 precious", b"\0WBATCH1"]
ANSWERS_EACH_LINE = """\
import sys
for line in sys.stdin.buffer:
    word = line.split()[0]
    answer = {b"put": b"new " + b"x" * 1_000, b"get": b"value " + b"x" * 1_000, b"scan": b"rows 0"}.get(word)
    if answer:
        sys.stdout.buffer.write(answer + b"\\n")
        sys.stdout.buffer.flush()
"""


def new_folder() -> tempfile.TemporaryDirectory[str]:
    return tempfile.TemporaryDirectory(dir=MEMORY if MEMORY.is_dir() else None)


def kill(store: Store) -> None:
    assert store.pid is not None
    os.kill(store.pid, signal.SIGKILL)


def run_threads(work: Callable[[], object], count: int) -> None:
    threads = [threading.Thread(target=work) for _ in range(count)]
    for thread in threads:
        thread.start()
    for thread in threads:
        thread.join()


def unfinished_files() -> list[bytes]:
    """Returns the contents of an empty file and of unfinished ones, as docs/FORMAT.md defines them."""
    with new_folder() as folder:
        with Store(f"{folder}/store", create=True, program=PROGRAM, **SMALL, segments=8) as store:
            store.put(b"old", b"1")
        whole = store.path.read_bytes()
    hidden = b"\0" + whole[1:]
    return [b"", b"\0", bytes(5_000), bytes(3_000_000), hidden, hidden[:64], hidden + b"more" * 999]


def synced_folders(call: Callable[[], object]) -> list[Path]:
    """Returns the folders that `call` syncs."""
    synced = []
    fsync = os.fsync

    def record(descriptor: int) -> None:
        fsync(descriptor)
        synced.append(Path(os.readlink(f"/proc/self/fd/{descriptor}")))

    with unittest.mock.patch("os.fsync", record):
        call()
    return synced


@dataclass(frozen=True)
class Unchecked:
    """Wraps `command` in a class that the client does not know, so that only the program checks it."""

    command: Command[Reply]

    def text(self) -> bytes:
        return self.command.text()

    def reply(self, line: Callable[[], bytes]) -> Reply:
        return self.command.reply(line)


class StoreTest(unittest.TestCase):
    def setUp(self) -> None:
        folder = new_folder()
        self.addCleanup(folder.cleanup)
        self.folder = Path(folder.name)
        self.path = self.folder / "store"

    def store(self, create: bool | Literal["missing"] = False, wait: float = 0, **settings: int) -> Store:
        store = Store(self.path, create=create, program=PROGRAM, wait=wait, **settings)
        self.addCleanup(store.close)
        return store

    def program(self, text: str) -> Path:
        """Returns the path of a program in Python."""
        path = self.folder / "program"
        path.write_text(f"#!{sys.executable} -I\n{text}")
        path.chmod(0o700)
        return path

    def program_that(self, *lines: str) -> Path:
        """Returns the path of a program that executes `lines` before each copy, and then does the same as the real one."""
        before = "".join(f"    {line}\n" for line in lines)
        is_copy = "any(word.startswith('--copy-to') for word in sys.argv)"
        return self.program(f"import fcntl, os, signal, sys, time\nif {is_copy}:\n{before}os.execv({str(PROGRAM)!r}, sys.argv)\n")
