"""The store: its calls, and the state of its program."""

from __future__ import annotations

import os
import shutil
import threading
import time
import weakref
from collections.abc import Callable, Iterable, Iterator
from contextlib import suppress
from dataclasses import asdict, dataclass
from pathlib import Path
from types import TracebackType
from typing import Any, Literal, TypeVar, Union, overload

from .commands import MOST_COMMANDS, MOST_ROWS, Add, Command, Del, Get, NextLine, Put, Row, Scan, Wipe
from .commands import encode, encode_back, encode_batch, encode_copy, encode_pairs, listed, may_write, next_key
from .commands import parse_numbers, prefix_range
from .copying import create_if_missing, sync_folder, write_copy
from .errors import Lost, Refused, StoreError, error_of, refusal_of
from .header import LARGEST, SETTINGS, Settings, Stat, read_settings, read_stat
from .loading import Loading
from .program import Ended, Program, Rejected, Unexpected

RUNNING = ("workers", "grain", "tidy")
SIZES = ("fan", "chain", "seg_size", "segments")  # which `pairs` chooses
OPTIONS = (*SETTINGS, "pairs", *RUNNING)
PAIRS = 40_000  # for which a new store has room, of the greatest length
SIZED = {"fan": 32, "chain": 16, "segments": 4_096}  # of a new store if one of SIZES is given
LOAD_SIZE = 5_000  # pairs of a batch
PAGE_SIZE = 1_000  # pairs that an iteration reads at a time
PAUSE = 0.05  # seconds between tries to lock the file
EMPTY_SCAN = Scan(limit=0)  # its answer shows that the program has opened its file

T = TypeVar("T")


@dataclass(frozen=True, slots=True)
class Report:
    """Gives the size of a verified store in pages, levels (`height`) and pairs."""

    pages: int
    height: int
    pairs: int


def _program_path(program: str | os.PathLike[str]) -> str:
    """Returns an absolute path, because the process may change its folder before the program is started again."""
    name = os.fspath(program)
    found = name if os.path.dirname(name) else shutil.which(name)
    return str(Path(found).absolute()) if found else name


def _check_names(settings: dict[str, int], known: tuple[str, ...]) -> None:
    unknown = settings.keys() - set(known)
    if unknown:
        raise TypeError(f"unknown setting {min(unknown)}; the settings are {', '.join(known)}")


def _check_sizes(settings: dict[str, int]) -> None:
    sizes = [name for name in SIZES if name in settings]
    if sizes and "pairs" in settings:
        raise TypeError(f"pairs chooses {', '.join(SIZES)}: leave {sizes[0]} out")


class Store:
    """Represents an ordered map in a file, which the program locks while it runs.

    A request that the program refuses raises `Refused`. It has no effect, and nothing is lost.
    If the program ends, the call raises `Refused`, `Killed` or `StoreError`. The batches since the last flush are then
    lost. If there were any, each later call in any thread raises `Lost` until `reopen`; if there were none, the next
    call starts the program again. An exception that interrupts a call, such as KeyboardInterrupt, has the same effect.
    A wrong argument raises TypeError or ValueError, and nothing is sent, except by `load` the batches before it.

    A `with` block flushes at its end, and closes the store. After an exception it closes without a flush.

    Threads may share a store; one call runs at a time. A signal handler that interrupts a call and uses the same store
    gets a RuntimeError. After a fork the store is closed in the child process.
    """

    def __init__(
        self,
        path: str | os.PathLike[str],
        *,
        create: bool | Literal["missing"] = False,
        program: str | os.PathLike[str] = "bwsh",
        wait: float = 0,
        **settings: int,
    ) -> None:
        """Starts `program`, a path or a name in PATH, on the store in the file `path`.

        If `create` is True, creates a new store and overwrites the file. If it is "missing", creates a store only if
        there is no file, an empty one, or one that an interrupted creation left. If another process has locked the
        file, tries again for `wait` seconds.
        A new store has keys and values of up to `max_key` (64) and `max_value` (256) bytes, and room for `pairs`
        (40,000) pairs of that length. Instead of `pairs`, `fan`, `chain`, `seg_size` (bytes) and `segments` can be
        given. Any store takes `workers`, `grain` and `tidy`.
        Raises OSError if the program cannot be started.
        """
        _check_names(settings, OPTIONS)
        _check_sizes(settings)
        if isinstance(create, str) and create != "missing":
            raise ValueError(f'create must be True, False or "missing", not {create!r}')
        self.path = Path(path).absolute()
        self._wait = wait
        self._program_path = _program_path(program)
        self._options = {name: number for name, number in settings.items() if name in RUNNING}
        self._for_new = {name: number for name, number in settings.items() if name not in RUNNING}
        self._settings = LARGEST
        self._lock = threading.RLock()
        self._program: Program | None = None
        self._unflushed = 0
        self._lost: Lost | None = None
        self._is_closed = False
        self._is_busy = False
        _stores.add(self)
        self._run_alone(lambda: self._open(create))

    def __enter__(self) -> Store:
        return self

    def __exit__(
        self, kind: type[BaseException] | None, error: BaseException | None, trace: TracebackType | None
    ) -> None:
        try:
            if kind is None and self._owes_flush():
                self.flush()
        finally:
            self.close()

    def __iter__(self) -> Iterator[Row]:
        """Yields all pairs in key order, and reads 1,000 at a time. Batches between these reads may change the rest."""
        lo: bytes | None = b""
        while lo is not None:
            page = self.scan(lo, None, PAGE_SIZE)
            yield from page
            lo = next_key(page[-1][0], self._settings.max_key) if len(page) == PAGE_SIZE else None

    __contains__ = None  # by default, `key in store` would compare the key with all pairs

    def __repr__(self) -> str:
        program, lost = self._program, self._lost  # another thread may clear the attributes
        if self._is_closed:
            state = "closed"
        elif lost:
            state = f"lost, unflushed {lost.unflushed}"
        elif program:
            state = f"pid {program.process.pid}, unflushed {self._unflushed}"
        else:
            state = "not running"
        return f"<Store {str(self.path)!r}: {state}>"

    @property
    def pid(self) -> int | None:
        """Returns the program's process id, or None if the program does not run."""
        program = self._program  # another thread may clear the attribute
        return program.process.pid if program else None

    @property
    def unflushed(self) -> int:
        """Returns how many batches with writes were executed since the last flush."""
        return self._unflushed

    @property
    def settings(self) -> Settings:
        """Returns the settings in the store's file, such as `max_key` and `max_value`."""
        return self._settings

    @overload
    def batch(self, commands: Iterable[Get]) -> list[bytes | None]:
        ...

    @overload
    def batch(self, commands: Iterable[Union[Put, Add, Del]]) -> list[bool]:
        ...

    @overload
    def batch(self, commands: Iterable[Scan]) -> list[list[Row]]:
        ...

    @overload
    def batch(self, commands: Iterable[Wipe]) -> list[int]:
        ...

    @overload
    def batch(self, commands: Iterable[Command[Any]]) -> list[Any]:
        ...

    def batch(self, commands: Iterable[Command[Any]]) -> list[Any]:
        """Executes up to 65,535 `commands` as one batch, completely or not at all, and returns their replies.

        Raises ValueError or TypeError with the index of the first wrong command.
        """
        batch = listed(commands, "a batch is a list of commands")
        if not batch:
            self._run_alone(self._check_not_lost)
            return []
        text = encode_batch(batch, self._settings)
        writing = any(map(may_write, batch))
        return self._query(text, lambda line: [command.reply(line) for command in batch], writing)

    def batches(self, batches: Iterable[Iterable[Command[Any]]]) -> list[list[Any]]:
        """Executes `batches` in order, and returns a list of replies for each.

        All are sent at once, which saves waiting for each reply; they remain separate batches. If one is refused, the
        others are executed, and then the first refusal is raised.
        """
        lists = [listed(batch, "a batch is a list of commands") for batch in listed(batches, "batches are a list of lists")]
        if not any(lists):
            self._run_alone(self._check_not_lost)
            return [[] for _ in lists]
        texts = [encode_batch(batch, self._settings, f"batch {index}, ") for index, batch in enumerate(lists) if batch]

        def talk(program: Program) -> tuple[list[list[Any]], int]:
            program.send(b"".join(texts))
            return _read_replies(program, lists)

        return self._run_alone(lambda: self._talk(self._running_program(), talk))

    def load(self, pairs: Iterable[Row], size: int = LOAD_SIZE) -> int:
        """Puts `pairs` in batches of `size`, and returns how many keys were new. Does not flush.

        The next batch is sent while the program executes the one before. If `pairs` raises an error or a pair is wrong,
        the complete batches before are executed, and the error is raised. If a batch is refused, the next may have been
        sent, and is executed. Calls of other threads wait until the end.
        """
        if not 1 <= size <= MOST_COMMANDS:
            raise ValueError(f"a batch has 1 to {MOST_COMMANDS} pairs, not {size}")
        loading = Loading(encode_pairs(pairs, size, self._settings))

        def talk(program: Program) -> tuple[int, int]:
            loading.run(program)
            return loading.new, loading.done

        new = self._run_alone(lambda: self._talk(self._running_program(), talk))
        if loading.error:
            raise loading.error
        return new

    def get(self, key: bytes) -> bytes | None:
        """Returns the value of `key`, or None if the key is absent."""
        return self._run_one(Get(key))

    def put(self, key: bytes, value: bytes) -> bool:
        """Stores `value` under `key`, and returns whether the key is new."""
        return self._run_one(Put(key, value))

    def add(self, key: bytes, value: bytes) -> bool:
        """Stores `value` under `key` if the key is absent, and returns whether it was stored."""
        return self._run_one(Add(key, value))

    def delete(self, key: bytes) -> bool:
        """Deletes `key`, and returns whether the key was present."""
        return self._run_one(Del(key))

    def scan(self, lo: bytes = b"", hi: bytes | None = None, limit: int = MOST_ROWS) -> list[Row]:
        """Returns the first `limit` pairs with lo <= key < hi (None: no bound), in key order."""
        return self._run_one(Scan(lo, hi, limit))

    def scan_back(self, lo: bytes = b"", hi: bytes | None = None, limit: int = MOST_ROWS) -> list[Row]:
        """Returns the last `limit` pairs with lo <= key < hi (None: no bound), the greatest key first."""
        scan = Scan(lo, hi, limit)
        return self._query(encode_back(scan, self._settings), scan.reply)

    def prefix(self, prefix: bytes, limit: int = MOST_ROWS) -> list[Row]:
        """Returns the first `limit` pairs whose keys begin with `prefix`, in key order."""
        return self.scan(*prefix_range(prefix), limit)

    def wipe(self, lo: bytes = b"", hi: bytes | None = None) -> int:
        """Deletes all keys with lo <= key < hi (None: no bound), and returns how many."""
        return self._run_one(Wipe(lo, hi))

    def flush(self) -> int:
        """Makes all batches so far durable, and returns the commit's sequence number. Cleans the log if it is full."""
        return self._run_alone(self._flush)

    def clean(self) -> int:
        """Frees the first segment of the log, and returns the number of the new first segment. Does not flush."""
        return self._query(b"clean\n", lambda line: parse_numbers(line(), b"cleaned")[0])

    def upgrade(self) -> int:
        """Flushes, upgrades the log to version 2 irreversibly, and returns the commit's sequence number."""
        return self._query(b"upgrade\n", lambda line: self._record_commit(line(), b"upgraded"))

    def verify(self) -> Report:
        """Checks the whole tree, and returns its size."""
        return self._query(b"verify\n", lambda line: Report(*parse_numbers(line(), b"ok", 3)))

    def stat(self) -> Stat:
        """Returns the state of the log, which it reads from the file's header."""
        return self._run_alone(self._read_stat)  # not during a flush

    def copy_to(self, path: str | os.PathLike[str], **settings: int) -> None:
        """Copies the store, as it is now, to the file `path`, which must be missing, empty or unfinished.

        The copy has the settings of this store, except the given ones (`fan`, `chain`, `max_key`, `max_value`,
        `seg_size` and `segments`, or `pairs`), and version 1 of the log. A new number of `segments` costs nothing more. For other
        settings the store is flushed, and the program is ended for the copy, and then started again; if another
        process locks the file in between, tries again for as long as `wait` says, and then raises `Refused`.
        After an error of the copy itself nothing is lost, and the store can be used.
        """
        _check_names(settings, (*SETTINGS, "pairs"))
        _check_sizes(settings)
        copy = self._copy_alone if settings.keys() - {"segments"} else self._copy_beside
        self._run_alone(lambda: copy(Path(path).absolute(), settings))

    def reopen(self) -> None:
        """Ends the program without a flush, and starts it again with the last flushed store. Ends the state `Lost`."""
        self._run_alone(self._restart)

    def close(self) -> None:
        """Ends the program without a flush. Later requests raise `StoreError` until `reopen`."""
        self._run_alone(self._end)

    def _run_alone(self, call: Callable[[], T]) -> T:
        """Runs `call` alone. A nested call, from a signal handler, would read its answers."""
        with self._lock:
            if self._is_busy:
                raise RuntimeError("another call of this store is in progress in this thread")
            try:
                self._is_busy = True
                return call()
            finally:
                self._is_busy = False

    def _owes_flush(self) -> bool:
        with self._lock:
            return not self._is_closed and bool(self._unflushed or self._lost)

    def _read_stat(self) -> Stat:
        self._check_not_lost()
        return read_stat(self.path)

    def _check_not_lost(self) -> None:
        if self._lost:
            raise Lost(self._lost.unflushed, self._lost.reason, self._lost.unless)

    def _flush(self) -> int:
        def talk(program: Program) -> tuple[int, int]:
            program.send(b"flush\n")
            answer = b"cleaned "
            while answer.startswith(b"cleaned "):
                program.check_not_refused()
                answer = program.line()
            return self._record_commit(answer, b"flushed"), 0

        return self._talk(self._running_program(), talk)

    def _check_not_own(self, path: Path) -> None:
        if path.exists() and path.samefile(self.path):
            raise ValueError("a store cannot be copied to its own file")

    def _copy_beside(self, path: Path, settings: dict[str, int]) -> None:
        """Copies the store by a request to its program, which continues to run."""
        text = encode_copy(os.fsencode(path), settings.get("segments"))

        def talk(program: Program) -> tuple[None, int]:
            program.send(text)
            program.check_not_refused(is_copy=True)
            parse_numbers(program.line(), b"copied")
            return None, 0

        program = self._running_program()
        self._check_not_own(path)
        self._talk(program, talk)
        sync_folder(path)

    def _copy_alone(self, path: Path, settings: dict[str, int]) -> None:
        """Copies the store with other settings. Ends its program before the copy, and starts it again after."""
        self._running_program()
        self._check_not_own(path)
        if self._unflushed:
            self._flush()
        own = asdict(self._settings)
        if "pairs" in settings:
            own = {name: own[name] for name in own if name not in SIZES}
        options = {**self._options, **own, **settings}
        self._end_program()
        try:
            self._retry(lambda: write_copy(self._command([f"--disk={self.path}"], options), path))
        except BaseException:
            with suppress(StoreError):  # the next call starts the program if this fails
                self._start_once()
            raise
        self._start()

    def _end(self) -> None:
        self._is_closed = True
        self._end_program()

    def _end_program(self) -> None:
        program = self._program
        self._drop_program()
        if program:
            program.end()

    def _restart(self) -> None:
        self._end()
        self._is_closed = False
        self._start()
        self._lost = None

    def _abandon(self) -> None:
        """Closes the store in a forked child, in which no thread would release the lock."""
        self._lock = threading.RLock()
        self._is_closed = True
        self._is_busy = False
        program = self._program
        self._drop_program()
        if program:
            program.abandon()

    def _open(self, create: bool | Literal["missing"]) -> None:
        is_sized = any(name in self._for_new for name in SIZES)
        for_new = {**(SIZED if is_sized else {"pairs": PAIRS}), **self._for_new, **self._options}

        def open_once() -> None:
            if create == "missing":
                create_if_missing(self._command([], for_new), self.path)
                self._start_once()
            elif create:
                self._start_once(["--create"], for_new)
                sync_folder(self.path)
            else:
                self._start_once()

        self._retry(open_once)

    def _retry(self, call: Callable[[], T]) -> T:
        """Repeats `call` while another process has locked the file, for at most `wait` seconds."""
        end = time.monotonic() + self._wait
        while True:
            try:
                return call()
            except Refused as refused:
                if not refused.is_locked() or time.monotonic() >= end:
                    raise
            time.sleep(PAUSE)

    def _start(self) -> Program:
        return self._retry(self._start_once)

    def _start_once(self, more: list[str] | None = None, options: dict[str, int] | None = None) -> Program:
        words = ["--stream", "--clean-when-full", f"--disk={self.path}", *(more or [])]
        program = self._program = Program(self._command(words, options or self._options))
        self._talk(program, lambda program: (_ask(program, EMPTY_SCAN.text() + b"go\n", EMPTY_SCAN.reply), 0))
        self._settings = read_settings(self.path)
        return program

    def _command(self, words: list[str], options: dict[str, int]) -> list[str]:
        numbers = [f"--{name.replace('_', '-')}={number}" for name, number in options.items()]
        return [self._program_path, "--explain", *words, *numbers]

    def _running_program(self) -> Program:
        if self._is_closed:
            raise StoreError("the store is closed")
        self._check_not_lost()
        return self._program or self._start()

    def _run_one(self, command: Command[T]) -> T:
        text = encode(command, self._settings) + b"go\n"
        return self._query(text, command.reply, may_write(command))

    def _record_commit(self, answer: bytes, word: bytes) -> int:
        (sequence,) = parse_numbers(answer, word)
        self._unflushed = 0
        return sequence

    def _drop_program(self) -> int:
        """Returns how many unflushed batches are lost."""
        unflushed, self._unflushed, self._program = self._unflushed, 0, None
        return unflushed

    def _query(self, text: bytes, read: Callable[[NextLine], T], writing: int = 0) -> T:
        """Sends `text`, in which `writing` batches write, and parses the answer with `read`."""
        return self._run_alone(
            lambda: self._talk(self._running_program(), lambda program: (_ask(program, text, read), writing))
        )

    def _talk(self, program: Program, talk: Callable[[Program], tuple[T, int]]) -> T:
        """Runs `talk`, which returns a result and how many batches with writes were executed."""
        try:
            found, writing = _unless_rejected(program, talk)
            program.check_nothing_left()
            self._unflushed += writing
        except Ended:
            unflushed = self._lose(StoreError("the program has ended"))
            error = error_of(*program.end(), unflushed)
            if unflushed:
                self._lost = Lost.by(error, unflushed)
            raise error from None
        except Unexpected as unexpected:
            unflushed = self._lose(StoreError(str(unexpected)))
            program.kill()
            raise StoreError(str(unexpected), unflushed) from None
        except BaseException as interrupt:
            self._lose(interrupt)
            program.kill()
            raise
        if isinstance(found, Rejected):
            raise refusal_of(found.line, found.why)
        return found

    def _lose(self, error: BaseException) -> int:
        """Drops the program, and returns how many unflushed batches are lost with it because of `error`."""
        if self._unflushed:  # before they are forgotten, because a signal handler may raise in between
            self._lost = Lost.by(error, self._unflushed)
        return self._drop_program()


def _ask(program: Program, text: bytes, read: Callable[[NextLine], T]) -> T:
    program.send(text)
    program.check_not_refused()
    return read(program.line)


def _read_replies(program: Program, batches: list[list[Command[Any]]]) -> tuple[list[list[Any]], int]:
    """Reads the replies to all batches. Returns them and how many batches with writes were executed."""
    replies: list[list[Any]] = []
    executed, first = 0, None
    for batch in batches:
        try:
            if batch:
                program.check_not_refused()
            replies.append([command.reply(program.line) for command in batch])
            executed += any(map(may_write, batch))
        except Rejected as rejected:
            first = first or rejected
    if first:
        raise Rejected(first.line, first.why, executed)
    return replies, executed


def _unless_rejected(program: Program, talk: Callable[[Program], tuple[T, int]]) -> tuple[T | Rejected, int]:
    try:
        return talk(program)
    except Rejected as rejected:
        return rejected, rejected.executed


_stores: weakref.WeakSet[Store] = weakref.WeakSet()


def _abandon_all() -> None:
    """Closes all stores in a forked child, so that two processes do not use one program."""
    for store in list(_stores):
        store._abandon()


os.register_at_fork(after_in_child=_abandon_all)
