"""Starts programs under limits or on pipes, and measures time and memory."""

import contextlib
import os
import select
import shlex
import signal
import subprocess
import sys
import tempfile
import time
from collections.abc import Iterator, Mapping, Sequence
from dataclasses import dataclass
from pathlib import Path
from typing import IO

TOP = Path(__file__).resolve().parent.parent
PROGRAM = TOP / "crates/bwsh/out/bwsh"
MEGABYTE = 1_000_000
# KB. Programs need at most 64, and random placement by the system may take 8 of these.
STACK = 56
PATIENCE = 60  # seconds until a program is killed
POLL_INTERVAL = 0.002  # seconds
MEMORY_FOLDER = Path("/dev/shm")

Command = Sequence[str | bytes | Path]
Environment = Mapping[str, str | Path]
NO_VARIABLES: dict[str, str] = {}


@dataclass(frozen=True)
class Limits:
    stack: int | None = STACK  # KB; the environment variable STACK raises it
    memory: int | None = None  # KB of address space
    file_blocks: int | None = None  # 512-byte blocks of a written file
    redirections: str = ""  # in the shell's syntax

    def shell_command(self, environment: Environment) -> str:
        """Only the executed program gets `environment`."""
        commands = ["ulimit -c 0"]
        if self.file_blocks is not None:
            commands += ["trap '' XFSZ", f"ulimit -f {self.file_blocks}"]
        if self.stack is not None:
            commands.append(f"ulimit -s {max(self.stack, int(os.environ.get('STACK', 0)))}")
        if self.memory is not None:
            commands.append(f"ulimit -v {self.memory}")
        variables = [f"{name}={shlex.quote(str(value))}" for name, value in environment.items()]
        return "; ".join([*commands, " ".join([*variables, f'exec "$0" "$@" {self.redirections}'])])


@dataclass(frozen=True)
class RunResult:
    status: int  # negative for a signal
    out: bytes
    err: bytes
    seconds: float  # of the processor
    memory: int  # peak, in bytes
    read: int = 0  # bytes of the input

    def is_fault(self, fault: str) -> bool:
        return self.status == 4 and self.err == f"{fault}\n".encode()

    def describe(self) -> str:
        ending = f"signal {-self.status}" if self.status < 0 else f"status {self.status}"
        return f"{ending} after {self.seconds:.2f} s, output {abbreviate(self.out)}, errors {abbreviate(self.err)}"


def abbreviate(text: bytes) -> str:
    return repr(text) if len(text) < 200 else f"{text[:100]!r}.. of {len(text)} bytes"


def new_folder() -> tempfile.TemporaryDirectory[str]:
    """In /dev/shm syncs take no time, so kills are spread over the whole flush."""
    return tempfile.TemporaryDirectory(prefix="check-", dir=MEMORY_FOLDER if MEMORY_FOLDER.is_dir() else None)


def exit_if_missing(program: Path) -> None:
    if not program.exists():
        sys.exit(f"{program} is missing: `./build --proved` builds it")


def pipe_of(stream: IO[bytes] | None) -> IO[bytes]:
    assert stream is not None
    return stream


# ---- Time and memory.


def process_status(pid: int) -> dict[str, str]:
    try:
        return dict(line.split(":\t", 1) for line in Path(f"/proc/{pid}/status").read_text().splitlines())
    except (OSError, ValueError):
        return {}


def status_bytes(pid: int, field: str) -> int:
    return int(process_status(pid)[field].split()[0]) * 1024


def peak_memory(pid: int, name: str) -> int:
    """Returns bytes, or 0 before `name` is executed and after the end."""
    fields = process_status(pid)
    return int(fields["VmHWM"].split()[0]) * 1024 if fields.get("Name") == name[:15] and "VmHWM" in fields else 0


def resident_memory(pid: int) -> int:
    return int(Path(f"/proc/{pid}/statm").read_text().split()[1]) * os.sysconf("SC_PAGE_SIZE")


def processor_seconds(pid: int) -> float:
    """Returns user and system seconds of all threads."""
    return time.clock_gettime((~pid << 3) | 2)


def wait_for_end(child: subprocess.Popen[bytes]) -> float:
    _, status, usage = os.wait4(child.pid, 0)
    child.returncode = os.waitstatus_to_exitcode(status)
    return float(usage.ru_utime + usage.ru_stime)


def wait_and_measure(child: subprocess.Popen[bytes], name: str) -> tuple[float, int]:
    """Returns processor seconds and peak bytes. (`ru_maxrss` would include the parent's memory.)"""
    memory, end = 0, time.monotonic() + PATIENCE
    while True:
        pid, status, usage = os.wait4(child.pid, os.WNOHANG)
        if pid:
            child.returncode = os.waitstatus_to_exitcode(status)
            return usage.ru_utime + usage.ru_stime, memory
        memory = max(memory, peak_memory(child.pid, name))
        if time.monotonic() > end:
            os.kill(child.pid, signal.SIGKILL)
        time.sleep(POLL_INTERVAL)


# ---- Programs on files.


def run(
    command: Command,
    text: bytes | Path = b"",
    limits: Limits = Limits(),
    folder: Path | None = None,
    environment: Environment | None = None,
) -> RunResult:
    """The program gets only these environment variables. `text` may be the path of its input."""
    with tempfile.TemporaryFile() as source, tempfile.TemporaryFile() as out, tempfile.TemporaryFile() as err:
        source.write(text.read_bytes() if isinstance(text, Path) else text)
        source.seek(0)
        shell: list[str | bytes | Path] = ["sh", "-c", limits.shell_command(environment or {}), *command]
        child = subprocess.Popen(shell, stdin=source, stdout=out, stderr=err, cwd=folder, env=NO_VARIABLES)
        seconds, memory = wait_and_measure(child, Path(os.fsdecode(command[0])).name)
        out.seek(0)
        err.seek(0)
        read = os.lseek(source.fileno(), 0, os.SEEK_CUR)
        return RunResult(child.returncode, out.read(), err.read(), seconds, memory, read)


@dataclass(frozen=True)
class BackgroundRun:
    child: subprocess.Popen[bytes]
    out: Path
    err: Path

    def wait(self) -> RunResult:
        return RunResult(self.child.wait(PATIENCE), self.out.read_bytes(), self.err.read_bytes(), 0.0, 0)


def start(command: Command, text: bytes, folder: Path) -> BackgroundRun:
    folder.mkdir()
    source, out, err = (folder / name for name in ("source", "out", "err"))
    source.write_bytes(text)
    with open(source, "rb") as stdin, open(out, "wb") as stdout, open(err, "wb") as stderr:
        return BackgroundRun(subprocess.Popen(command, stdin=stdin, stdout=stdout, stderr=stderr, env=NO_VARIABLES), out, err)


def run_until(
    command: Command,
    source: Path,
    out: Path,
    size: int | None = 1,
    delay: float | None = None,
    is_mixed: bool = False,
) -> tuple[int, float]:
    """Kills a program `delay` seconds after it has printed `size` bytes; without a delay it runs to the end. Returns its status and the seconds
    after those bytes."""
    with open(source, "rb") as stdin, open(out, "wb") as stdout:
        child = subprocess.Popen(command, stdin=stdin, stdout=stdout, stderr=subprocess.STDOUT if is_mixed else None, env=NO_VARIABLES)
        end = time.monotonic() + PATIENCE
        while child.poll() is None and time.monotonic() < end and (size is None or os.fstat(stdout.fileno()).st_size < size):
            time.sleep(0.0005)
        start = time.monotonic()
        try:
            child.wait(delay)
        except subprocess.TimeoutExpired:
            child.kill()
    return child.wait(), time.monotonic() - start


# ---- Programs on pipes.


class PipedProgram:
    def __init__(self, command: Command) -> None:
        pipe = subprocess.PIPE
        self.process = subprocess.Popen(command, stdin=pipe, stdout=pipe, stderr=pipe, bufsize=0, env=NO_VARIABLES)
        self.input, self.output, self.errors = map(pipe_of, (self.process.stdin, self.process.stdout, self.process.stderr))
        self.unread = b""  # of later lines

    def send(self, text: bytes) -> None:
        rest = memoryview(text)
        while rest:
            rest = rest[self.input.write(rest) :]

    def read_line(self) -> bytes:
        """Returns an incomplete line at the end, or after a long silence."""
        while b"\n" not in self.unread:
            if not select.select([self.output], [], [], PATIENCE)[0]:
                break
            more = self.output.read(65_536)
            if not more:
                break
            self.unread += more
        line, feed, self.unread = self.unread.partition(b"\n")
        return line + feed

    def is_silent(self) -> bool:
        return not self.unread and not select.select([self.output], [], [], 0.1)[0]

    def finish(self) -> tuple[int, bytes, bytes]:
        """Closes the input. Returns status, remaining output and errors."""
        self.input.close()
        out, err = self.unread + self.output.read(), self.errors.read()
        return self.process.wait(PATIENCE), out, err

    def finish_unread(self) -> tuple[int, bytes]:
        """Returns status and errors, after the output was closed."""
        status, err = self.process.wait(PATIENCE), self.errors.read()
        self.input.close()
        return status, err

    def kill(self) -> None:
        self.process.kill()
        self.process.wait(PATIENCE)
        for stream in (self.input, self.output, self.errors):
            stream.close()


class Dialog(PipedProgram):
    """Answers each batch before it reads the next."""

    def __init__(self, program: Path, *words: object) -> None:
        super().__init__([program, "--stream", *map(str, words)])


@contextlib.contextmanager
def stalled(command: Command, text: bytes) -> Iterator[subprocess.Popen[bytes]]:
    """Yields a program that blocks, because its answers exceed the pipe's capacity."""
    with subprocess.Popen(command, stdin=subprocess.PIPE, stdout=subprocess.PIPE, env=NO_VARIABLES) as child:
        pipe_of(child.stdin).write(text)
        pipe_of(child.stdin).close()
        pipe_of(child.stdout).read(1)
        try:
            yield child
        finally:
            child.kill()
