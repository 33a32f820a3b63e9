"""A running program `bwsh` and its pipes."""

from __future__ import annotations

import fcntl
import os
import selectors
import subprocess
import tempfile
from collections import deque
from collections.abc import Iterator
from contextlib import contextmanager

READ_SIZE = 1 << 18  # bytes
PIPE_SIZE = 1 << 20  # bytes, the most that Linux by default allows without privileges
PATIENCE = 60  # seconds until a program that does not end is killed
REFUSALS = (b"fault ", b"line ")  # each refusal is one line that begins so
DEVICE_FAILED = b"fault 9 Device"  # the last answer of a program whose disk has failed


class Ended(Exception):
    """Signals that the output ended too early."""


class Unexpected(Exception):
    def __init__(self, line: bytes) -> None:
        super().__init__(f"unexpected answer from the program: {line[:100]!r}")


class Rejected(Exception):
    """Signals that the program answered a request by `line`, a refusal, and continues. `why` is its explanation.

    `executed` is how many batches with writes of the same call were executed.
    """

    def __init__(self, line: str, why: str, executed: int = 0) -> None:
        self.line, self.why, self.executed = line, why, executed


def run_once(command: list[str]) -> tuple[int, list[str]]:
    """Runs a program without input, and returns its status, negative for a signal, and its messages."""
    with _naming_program(command[0]):
        ran = subprocess.run(
            command, stdin=subprocess.DEVNULL, stdout=subprocess.DEVNULL, stderr=subprocess.PIPE, start_new_session=True
        )
    return ran.returncode, _messages(ran.stderr)


@contextmanager
def _naming_program(name: str) -> Iterator[None]:
    """Tells how to name the program, if it is missing."""
    try:
        yield
    except FileNotFoundError as missing:
        advice = "no such program; pass the path of bwsh as Store(.., program=PATH)"
        raise FileNotFoundError(missing.errno, advice, name) from None


def _messages(said: bytes) -> list[str]:
    return said.decode(errors="replace").splitlines()


class Program:
    def __init__(self, command: list[str]) -> None:
        # A full pipe for standard error would block the program. In a session of its own, the program does not get a
        # terminal's interrupt.
        self._stderr = tempfile.TemporaryFile()
        fcntl.fcntl(self._stderr, fcntl.F_SETFL, os.O_APPEND)  # so that it can be truncated meanwhile
        pipe = subprocess.PIPE
        try:
            with _naming_program(command[0]):
                self.process = subprocess.Popen(
                    command, bufsize=0, stdin=pipe, stdout=pipe, stderr=self._stderr, start_new_session=True
                )
        except BaseException:
            self._stderr.close()
            raise
        assert self.process.stdin and self.process.stdout
        self._pipes = (self.process.stdin, self.process.stdout)
        self._input, self._output = (pipe.fileno() for pipe in self._pipes)
        os.set_blocking(self._input, False)
        self._unsent = memoryview(b"")
        self._lines: deque[bytes] = deque()
        self._partial_line = b""

    def enlarge_input(self) -> None:
        """Makes the pipe hold a batch, so that the program can read one while the caller makes the next."""
        try:
            fcntl.fcntl(self._input, fcntl.F_SETPIPE_SZ, PIPE_SIZE)
        except PermissionError:  # the user's pipes have their most memory
            pass

    def send(self, text: bytes) -> None:
        self._unsent = memoryview(b"".join((self._unsent, text)))
        self._write()

    def _write(self) -> None:
        try:
            self._unsent = self._unsent[os.write(self._input, self._unsent) :]
        except BlockingIOError:
            pass
        except BrokenPipeError:  # the program has ended, but its answers can still be read
            self._unsent = memoryview(b"")

    def _await_answers(self) -> None:
        """Sends the rest of the request until an answer can be read."""
        with selectors.DefaultSelector() as selector:
            selector.register(self._output, selectors.EVENT_READ)
            selector.register(self._input, selectors.EVENT_WRITE)
            while self._unsent:
                ready = {key.fd for key, _ in selector.select()}
                if self._input in ready:
                    self._write()
                if self._output in ready:
                    return

    def line(self) -> bytes:
        while not self._lines:
            if self._unsent:
                self._await_answers()
            piece = os.read(self._output, READ_SIZE)
            if not piece:
                raise Ended
            *lines, self._partial_line = (self._partial_line + piece).split(b"\n")
            self._lines.extend(lines)
        return self._lines.popleft()

    def check_not_refused(self, is_copy: bool = False) -> None:
        """Raises `Rejected` if the next line is a refusal, and `Ended` if it is the program's last answer.

        Must be called where an answer begins, because a line of rows can look like a refusal. The program continues
        after a copy whose file fails.
        """
        line = self.line()
        if not line.startswith(REFUSALS):
            self._lines.appendleft(line)
        elif line == DEVICE_FAILED and not is_copy:
            raise Ended
        else:
            raise Rejected(line.decode(errors="replace"), " ".join(_messages(self._take_messages())))

    def _take_messages(self) -> bytes:
        """Returns what is in the file of standard error, and empties it. The program writes there before it answers."""
        descriptor = self._stderr.fileno()
        said = os.pread(descriptor, READ_SIZE, 0)
        os.ftruncate(descriptor, 0)
        return said

    def check_nothing_left(self) -> None:
        if self._lines or self._partial_line:
            raise Unexpected(self._lines[0] if self._lines else self._partial_line)

    def end(self) -> tuple[int, list[str]]:
        """Closes the pipes and returns the program's status, negative for a signal, and its messages."""
        for pipe in self._pipes:
            pipe.close()
        with self._stderr as said:
            try:
                self.process.wait(PATIENCE)
            except subprocess.TimeoutExpired:
                pass
            finally:
                self.process.kill()  # has no effect if the program has ended
                status = self.process.wait()
            said.seek(0)
            return status, _messages(said.read())

    def kill(self) -> None:
        self.process.kill()
        self.end()

    def abandon(self) -> None:
        self.process.returncode = 0  # a forked child cannot wait for the program
        for pipe in (*self._pipes, self._stderr):
            pipe.close()
