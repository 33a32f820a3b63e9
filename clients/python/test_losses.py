"""Tests what the client reports and keeps after its program was killed or has failed."""

from __future__ import annotations

import os
import random
import signal
import tempfile
import threading
import time
from bisect import bisect_left, insort
from collections.abc import Callable
from dataclasses import dataclass, field
from pathlib import Path

import taukremil
from store_tests import ANSWERS_EACH_LINE, PROGRAM, SMALL, StoreTest, Unchecked, kill, run_threads
from taukremil import Add, Command, Del, Get, Killed, Lost, Put, Refused, Reply, Row, Scan, Store, StoreError, Wipe

FAILS_AT_FLUSH = """\
    if word == b"flush":
        print("fault 9 Device", "full", sep="\\n", file=sys.stderr)
        sys.exit(4)
"""
# The same, but it first writes the answer with which a stream ends whose disk has failed.
ANSWERS_AND_FAILS = FAILS_AT_FLUSH.replace("        print(", """\
        sys.stdout.buffer.write(b"fault 9 Device\\n")
        sys.stdout.buffer.flush()
        print(""")


@dataclass
class Model:
    """Models a store as a dict and its sorted keys."""

    values: dict[bytes, bytes] = field(default_factory=dict)
    keys: list[bytes] = field(default_factory=list)

    def copy(self) -> Model:
        return Model(dict(self.values), list(self.keys))

    def put(self, key: bytes, value: bytes) -> bool:
        is_new = key not in self.values
        if is_new:
            insort(self.keys, key)
        self.values[key] = value
        return is_new

    def delete(self, key: bytes) -> bool:
        if self.values.pop(key, None) is None:
            return False
        del self.keys[bisect_left(self.keys, key)]
        return True

    def within(self, lo: bytes, hi: bytes | None) -> list[bytes]:
        end = len(self.keys) if hi is None else bisect_left(self.keys, hi)
        return self.keys[bisect_left(self.keys, lo) : end]

    def wipe(self, lo: bytes, hi: bytes | None) -> int:
        gone = self.within(lo, hi)
        for key in gone:
            self.delete(key)
        return len(gone)

    def rows(self, lo: bytes = b"", hi: bytes | None = None, limit: int = taukremil.MOST_ROWS) -> list[Row]:
        return [(key, self.values[key]) for key in self.within(lo, hi)[:limit]]

    def reply(self, command: Command[Reply]) -> Reply:
        if isinstance(command, Put):
            return self.put(command.key, command.value)
        if isinstance(command, Add):
            return command.key not in self.values and self.put(command.key, command.value)
        if isinstance(command, Get):
            return self.values.get(command.key)
        if isinstance(command, Del):
            return self.delete(command.key)
        if isinstance(command, Scan):
            return self.rows(command.lo, command.hi, command.limit)
        assert isinstance(command, Wipe)
        return self.wipe(command.lo, command.hi)


class Chance:
    """Generates random commands on about 600 keys, some of which need escapes."""

    def __init__(self, seed: int) -> None:
        self.source = random.Random(seed)
        self.keys = [b"k%d" % number for number in range(400)] + [b"", b"*", b"%", b"#", b"\n", b"\xff\x00 \r\n"]
        self.keys += [self.source.randbytes(self.source.randint(1, 16)) for _ in range(200)]

    def key(self) -> bytes:
        return self.source.choice(self.keys)

    def value(self) -> bytes:
        length = self.source.randint(0, 64)
        return self.source.randbytes(length) if self.source.random() < 0.2 else b"v" * length

    def bounds(self) -> tuple[bytes, bytes | None]:
        lo, hi = sorted((self.key(), self.key()))
        return lo, None if self.source.random() < 0.05 else hi

    def range(self) -> tuple[bytes, bytes]:
        """Returns the bounds of a range with few keys."""
        at = self.source.randrange(400)
        return b"k%d" % at, b"k%d~" % at

    def command(self) -> Command[Reply]:
        kinds: list[Callable[[], Command[Reply]]] = [
            lambda: Put(self.key(), self.value()),
            lambda: Add(self.key(), self.value()),
            lambda: Get(self.key()),
            lambda: Del(self.key()),
            lambda: Scan(*self.bounds(), self.source.choice((0, 1, 5, 20))),
            lambda: Wipe(*self.range()),
        ]
        return self.source.choices(kinds, (8, 4, 8, 4, 1, 1))[0]()

    def batch(self) -> list[Command[Reply]]:
        return [self.command() for _ in range(self.source.choice((1, 2, 10, 100, 1_000)))]


class Killer:
    """Kills the program of a store at random times in a thread, while `is_due` is set."""

    def __init__(self, store: Store, seed: int) -> None:
        self.store, self.source = store, random.Random(seed)
        self.is_due, self.is_over, self.is_hurried = False, False, threading.Event()
        self.thread = threading.Thread(target=self.run)
        self.thread.start()

    def run(self) -> None:
        while not self.is_over:
            if self.is_hurried.wait(self.source.uniform(0.0, 0.06)):
                self.is_hurried.clear()
                time.sleep(self.source.uniform(0.0, 0.002))
            pid = self.store.pid
            if pid is not None and self.is_due:
                kill_process(pid)

    def hurry(self) -> None:
        """Makes the next kill come within 2 ms, about the time of a flush."""
        self.is_hurried.set()

    def stop(self) -> None:
        self.is_over = True
        self.is_hurried.set()
        self.thread.join()


def kill_process(pid: int) -> None:
    try:
        os.kill(pid, signal.SIGKILL)
    except ProcessLookupError:  # it has ended already
        pass


def scan_despite_kills(store: Store) -> list[Row]:
    """Returns all pairs of `store`, and tries again after each kill."""
    while True:
        try:
            return store.scan()
        except Killed:
            pass
        except Lost:
            reopen_despite_kills(store)


def reopen_despite_kills(store: Store) -> None:
    while True:
        try:
            return store.reopen()
        except Killed:
            pass


class Kills(StoreTest):
    def test_a_killed_program_is_reported_and_started_again_if_nothing_was_lost(self) -> None:
        store = self.store(create=True)
        store.put(b"a", b"1")
        store.flush()
        kill(store)
        with self.assertRaisesRegex(Killed, "SIGKILL; what was flushed is safe$") as caught:
            store.get(b"a")
        self.assertEqual(caught.exception.unflushed, 0)
        self.assertEqual(store.scan(), [(b"a", b"1")])

    def test_a_killed_program_is_reported_and_started_again_by_reopen_if_batches_were_lost(self) -> None:
        store = self.store(create=True)
        store.put(b"a", b"1")
        store.flush()
        store.put(b"b", b"2")
        kill(store)
        with self.assertRaisesRegex(Killed, "SIGKILL; what was flushed is safe; .*: 1") as caught:
            store.get(b"a")
        self.assertEqual((caught.exception.signal, caught.exception.unflushed), (signal.SIGKILL, 1))
        self.assertEqual(store.unflushed, 0)
        with self.assertRaises(Lost) as lost:
            store.scan()
        self.assertEqual(lost.exception.unflushed, 1)
        store.reopen()
        self.assertEqual(store.scan(), [(b"a", b"1")])

    def test_where_the_system_takes_statuses_a_fault_is_seen_and_a_kill_is_an_end(self) -> None:
        before = signal.signal(signal.SIGCHLD, signal.SIG_IGN)
        self.addCleanup(signal.signal, signal.SIGCHLD, before)
        store = self.store(create=True, max_key=4)
        with self.assertRaises(Refused) as refused:
            store.batch([Unchecked(Put(b"much too long", b"1"))])
        self.assertEqual(refused.exception.number, 2)
        self.assertIsNone(store.get(b"a"))
        kill(store)
        with self.assertRaisesRegex(StoreError, "SIGCHLD") as ended:
            store.get(b"a")
        self.assertIs(type(ended.exception), StoreError)
        self.assertIsNone(store.get(b"a"))

    def test_an_interrupt_of_the_terminal_is_for_the_caller_alone(self) -> None:
        store = self.store(create=True)
        assert store.pid is not None
        self.assertNotEqual(os.getpgid(store.pid), os.getpgid(0))

    def test_a_kill_between_two_calls_may_be_met_by_reopen(self) -> None:
        store = self.store(create=True)
        kill(store)
        store.reopen()
        self.assertIsNone(store.get(b"a"))

    def test_a_kill_while_a_batch_is_sent(self) -> None:
        store, _ = self.stopped_store()
        timer = threading.Timer(0.1, kill, (store,))
        timer.start()
        with self.assertRaises(Killed):
            store.batch([Put(b"%064d" % number, b"v" * 200) for number in range(10_000)])
        timer.join()
        self.assertEqual(store.scan(), [(b"a", b"1")])

    def test_an_exception_in_the_midst_of_a_call_ends_the_program(self) -> None:
        store, _ = self.stopped_store()
        with self.assertRaises(self.interrupt()):
            store.put(b"b", b"2")
        self.assertIsNone(store.pid)
        self.assertEqual(store.scan(), [(b"a", b"1")])

    def stopped_store(self) -> tuple[Store, int]:
        """Returns a store with one flushed pair, and the process id of its program, which is stopped."""
        store = self.store(create=True)
        store.put(b"a", b"1")
        store.flush()
        assert store.pid is not None
        os.kill(store.pid, signal.SIGSTOP)
        return store, store.pid

    def interrupt(self, after: float = 0.3) -> type[Exception]:
        """Makes SIGALRM raise the returned exception, and sends it after some seconds (0: never)."""

        class Interrupt(Exception):
            pass

        def interrupt(*_: object) -> None:
            raise Interrupt

        before = signal.signal(signal.SIGALRM, interrupt)
        self.addCleanup(signal.signal, signal.SIGALRM, before)
        signal.setitimer(signal.ITIMER_REAL, after)
        return Interrupt

    def test_an_exception_in_close_ends_the_program(self) -> None:
        store, pid = self.stopped_store()
        with self.assertRaises(self.interrupt()):
            store.close()
        with self.assertRaises(ProcessLookupError):
            os.kill(pid, 0)
        store.reopen()
        self.assertEqual(store.scan(), [(b"a", b"1")])

    def test_an_exception_in_a_copy_ends_the_copy_and_loses_nothing(self) -> None:
        mark, copy = self.folder / "mark", self.folder / "copy"
        lines = [f"open({str(mark)!r}, 'w').write(str(os.getpid()))", "time.sleep(0.2)"]
        lines += ["os.kill(os.getppid(), signal.SIGALRM)", f"time.sleep({taukremil.PATIENCE})"]
        with Store(self.path, create=True, program=self.program_that(*lines)) as store:
            store.put(b"a", b"1")
            with self.assertRaises(self.interrupt(after=0)):
                store.copy_to(copy, fan=32)
            with self.assertRaises(ProcessLookupError):
                os.kill(int(mark.read_text()), 0)
            self.assertEqual(store.scan(), [(b"a", b"1")])
            self.program_that("pass")
            store.copy_to(copy, fan=32)
        with Store(copy, program=PROGRAM) as copied:
            self.assertEqual(copied.scan(), [(b"a", b"1")])

    def play(self, path: Path, seed: int, commands: int, kills: int) -> None:
        """Compares random commands with the model until random kills have interrupted `kills` calls."""
        chance, killed = Chance(seed), 0
        store = Store(path, create=True, program=PROGRAM, **SMALL, segments=128)
        self.addCleanup(store.close)
        now, flushed = Model(), Model()
        killer = Killer(store, seed)
        self.addCleanup(killer.stop)
        done = 0
        while done < commands or killed < kills:
            killer.is_due = killed < kills
            batch = chance.batch()
            try:
                replies = store.batch(batch)
            except Killed:
                killed, now = killed + 1, flushed.copy()
                self.assertEqual(scan_despite_kills(store), now.rows())
                continue
            self.assertEqual(replies, [now.reply(command) for command in batch])
            done += len(batch)
            if chance.source.random() < 0.3:
                if chance.source.random() < 0.3:
                    killer.hurry()
                try:
                    store.flush()
                except Killed:  # the flush is durable or had no effect
                    killed, rows = killed + 1, scan_despite_kills(store)
                    self.assertIn(rows, (now.rows(), flushed.rows()))
                    flushed, now = (now.copy(), now) if rows == now.rows() else (flushed, flushed.copy())
                    continue
                flushed = now.copy()
        killer.stop()
        self.assertEqual(scan_despite_kills(store), now.rows())
        self.assertEqual(store.verify().pairs, len(now.keys))

    def test_a_hundred_thousand_commands_beside_a_model_with_kills(self) -> None:
        with tempfile.TemporaryDirectory() as disk:  # with slow syncs, kills also hit flushes that are already durable
            for seed in range(1, 5):
                folder = self.folder if seed % 2 else Path(disk)
                self.play(folder / f"store {seed}", seed, commands=25_000, kills=10)


class Losses(StoreTest):
    """Tests that a loss is reported in all threads until somebody reopens the store."""

    def calls(self, store: Store) -> list[Callable[[], object]]:
        return [
            lambda: store.get(b"a"),
            lambda: store.put(b"a", b"1"),
            lambda: store.add(b"a", b"1"),
            lambda: store.delete(b"a"),
            lambda: store.batch([Put(b"a", b"1"), Get(b"a")]),
            lambda: store.batch([]),
            lambda: store.batches([[Put(b"a", b"1")], [Get(b"a")]]),
            lambda: store.batches([[]]),
            lambda: store.load([(b"a", b"1")]),
            lambda: store.load([]),
            lambda: list(store),
            lambda: store.prefix(b"a"),
            lambda: store.copy_to(self.folder / "copy"),
            store.scan,
            store.wipe,
            store.flush,
            store.clean,
            store.upgrade,
            store.verify,
            store.stat,
        ]

    def test_each_call_in_each_thread_is_told_until_a_reopen(self) -> None:
        store = self.store(create=True)
        store.put(b"a", b"1")
        store.flush()
        store.put(b"b", b"2")
        store.put(b"c", b"3")
        kill(store)
        with self.assertRaises(Killed) as first:
            store.get(b"a")
        self.assertEqual(first.exception.unflushed, 2)
        told: list[int] = []

        def work() -> None:
            for call in self.calls(store):
                try:
                    call()
                except Lost as lost:
                    told.append(lost.unflushed)

        run_threads(work, 8)
        work()
        self.assertEqual(told, [2] * 9 * len(self.calls(store)))
        self.assertIsNone(store.pid)
        with self.assertRaisesRegex(Lost, r"killed by SIGKILL.*reopen\(\).*batches lost.*: 2$"):
            store.flush()
        store.reopen()
        self.assertEqual(store.scan(), [(b"a", b"1")])
        self.assertEqual(store.put(b"b", b"2"), True)
        self.assertEqual(store.flush(), 3)

    def flush_after_loss(self, lose: Callable[[Store], object], expected: type[Exception] | None) -> None:
        """Calls `lose` in one thread while another one puts, and checks that the flush of the second fails."""
        store = self.store(create=True)
        half, done = threading.Event(), threading.Event()
        raised: list[StoreError] = []
        flushed: list[int] = []

        def put_and_flush() -> None:
            try:
                for number in range(1_000):
                    store.put(b"%d" % number, b"1")
                    if number == 500:
                        half.set()
                        done.wait()
                flushed.append(store.flush())
            except StoreError as error:
                raised.append(error)
            finally:
                half.set()

        thread = threading.Thread(target=put_and_flush)
        thread.start()
        half.wait()
        met: type[Exception] | None = None
        try:
            lose(store)
        except Exception as error:
            met = type(error)
        done.set()
        thread.join()
        self.assertIs(met, expected)
        self.assertEqual(flushed, [])
        (told,) = raised
        self.assertIs(type(told), Lost if expected else Killed)
        self.assertEqual(told.unflushed, 501)
        store.reopen()
        self.assertEqual(store.scan(), [])
        store.close()

    def test_a_flush_succeeds_after_a_request_of_another_thread_was_refused(self) -> None:
        requests: list[Callable[[Store], object]] = [
            lambda store: store.clean(),
            lambda store: store.batch([Unchecked(Put(b"k" * 100, b""))]),
            lambda store: store.copy_to(self.path.parent),
        ]
        store, refused = self.store(create=True, **SMALL, segments=64), list[int]()
        store.put(b"a", b"1")
        for request in requests:

            def ask() -> None:
                try:
                    request(store)
                except Refused as error:
                    refused.append(error.number)

            run_threads(ask, 1)
        self.assertEqual((refused, store.unflushed), ([11, 2, 9], 1))
        store.flush()
        store.reopen()
        self.assertEqual(store.scan(), [(b"a", b"1")])

    def test_a_flush_fails_after_a_kill(self) -> None:
        def kill_and_get(store: Store) -> None:
            kill(store)
            store.get(b"0")

        self.flush_after_loss(kill_and_get, Killed)
        self.flush_after_loss(kill, None)

    def test_a_flush_fails_after_an_exception_in_a_call_of_another_thread(self) -> None:
        class Interrupt(Exception):
            pass

        @dataclass(frozen=True)
        class Interrupted:
            def text(self) -> bytes:
                return b"get a\n"

            def reply(self, line: Callable[[], bytes]) -> bytes:
                raise Interrupt

        self.flush_after_loss(lambda store: store.batch([Interrupted()]), Interrupt)

    def test_a_flush_fails_after_the_disk_has_failed(self) -> None:
        for fails in (FAILS_AT_FLUSH, ANSWERS_AND_FAILS):
            store = Store(self.path, program=self.program(ANSWERS_EACH_LINE + fails))
            store.batches([[Unchecked(Get(b"a"))], [Unchecked(Get(b"a"))]])
            with self.assertRaises(Refused) as refused:
                store.flush()
            self.assertEqual((refused.exception.number, refused.exception.unflushed), (9, 2))
            for _ in range(2):
                with self.assertRaisesRegex(Lost, "fault 9 Device: full.*, unless a flush was in progress: 2"):
                    store.flush()
            store.reopen()
            self.assertEqual(store.get(b"a"), b"x" * 1_000)
            store.close()

    def test_a_loss_lasts_until_a_reopen_succeeds(self) -> None:
        store = self.store(create=True)
        store.put(b"a", b"1")
        store.flush()
        store.put(b"b", b"2")
        kill(store)
        with self.assertRaises(Killed):
            store.flush()
        self.path.rename(self.folder / "elsewhere")
        with self.assertRaises(Refused):
            store.reopen()
        with self.assertRaises(Lost) as lost:
            store.flush()
        self.assertEqual(lost.exception.unflushed, 1)
        (self.folder / "elsewhere").rename(self.path)
        store.reopen()
        self.assertEqual(store.scan(), [(b"a", b"1")])

    def test_batches_that_reopen_and_close_drop_are_no_loss(self) -> None:
        store = self.store(create=True)
        store.put(b"a", b"1")
        store.reopen()
        self.assertEqual(store.flush(), 1)
        store.put(b"a", b"1")
        store.close()
        store.reopen()
        self.assertEqual(store.scan(), [])

    def test_what_any_thread_saw_flushed_is_there_after_a_kill(self) -> None:
        store = self.store(create=True)
        durable: set[bytes] = set()
        ends: list[type[BaseException]] = []
        numbers = iter(range(1_000_000))

        def work() -> None:
            """Puts and flushes until an exception reports that the batches since the last flush are lost."""
            thread, put = next(numbers), set[bytes]()
            try:
                for number in range(1_000_000):
                    put.add(b"%d %d" % (thread, number))
                    store.put(b"%d %d" % (thread, number), b"")
                    if number % 20 == 19:
                        store.flush()
                        durable.update(put)
            except (Killed, Lost) as error:
                ends.append(type(error))

        killer = Killer(store, 7)
        self.addCleanup(killer.stop)
        for _ in range(10):
            killer.is_due = True
            run_threads(work, 4)  # after a kill without a loss, some go on until the next kill
            killer.is_due = False
            reopen_despite_kills(store)
            self.assertLessEqual(durable, {key for key, _ in scan_despite_kills(store)})
        killer.stop()
        self.assertEqual(len(ends), 40)
        self.assertEqual(set(ends), {Killed, Lost})
        self.assertGreater(len(durable), 100)
