"""Tests the replies, faults and types of the client's calls."""

from __future__ import annotations

import errno
import os
import pickle
import random
import signal
import subprocess
import threading
import time
from collections.abc import Callable
from dataclasses import dataclass
from typing import Literal

import taukremil
from store_tests import ANSWERS_EACH_LINE, PROGRAM, SMALL, StoreTest, Unchecked, kill
from taukremil import Add, Command, Del, Get, Killed, Lost, Put, Refused, Reply, Report, Row, Scan, Settings, Store
from taukremil import StoreError, Wipe


@dataclass(frozen=True)
class ManyGets:
    """Is one command for the client, but `count` commands for the program."""

    count: int

    def text(self) -> bytes:
        return b"get a\n" * self.count

    def reply(self, line: Callable[[], bytes]) -> list[bytes]:
        return [line() for _ in range(self.count)]


class Replies(StoreTest):
    def test_each_command_has_its_reply(self) -> None:
        store = self.store(create=True)
        batch: list[Command[Reply]] = [
            Get(b"a"),
            Put(b"a", b"1"),
            Put(b"a", b"2"),
            Get(b"a"),
            Add(b"a", b"3"),
            Add(b"b", b"4"),
            Scan(b"", None, 10),
            Scan(b"", b"b", 10),
            Scan(limit=0),
            Del(b"a"),
            Del(b"a"),
            Wipe(b"a", b"c"),
            Wipe(),
        ]
        rows = [(b"a", b"2"), (b"b", b"4")]
        expected: list[Reply] = [None, True, False, b"2", False, True, rows, rows[:1], [], True, False, 1, 0]
        self.assertEqual(store.batch(batch), expected)
        self.assertEqual(store.batch([]), [])

    def test_calls_of_one_command(self) -> None:
        store = self.store(create=True)
        self.assertIsNone(store.get(b"a"))
        self.assertTrue(store.put(b"a", b"1"))
        self.assertFalse(store.put(b"a", b"2"))
        self.assertFalse(store.add(b"a", b"3"))
        self.assertTrue(store.add(b"b", b"4"))
        self.assertEqual(store.get(b"a"), b"2")
        self.assertEqual(store.scan(), [(b"a", b"2"), (b"b", b"4")])
        self.assertEqual(store.scan(b"b", None, 1), [(b"b", b"4")])
        self.assertTrue(store.delete(b"a"))
        self.assertFalse(store.delete(b"a"))
        self.assertEqual(store.wipe(), 1)
        self.assertEqual(store.unflushed, 7)

    def test_all_bytes_are_keys_and_values(self) -> None:
        store = self.store(create=True)
        words = [
            b"",
            *(bytes([byte]) for byte in range(256)),
            bytes(range(64)),
            b"put a 1\nflush",
            b"\\x41\\n \\",
            b"%41",
            b"100%",
            "ü".encode(),
        ]
        store.batch([Put(word, word) for word in words])
        self.assertEqual(store.batch([Get(word) for word in words]), words)
        self.assertEqual(store.scan(), [(word, word) for word in sorted(words)])

    def test_a_star_is_a_bound_as_any_other_key(self) -> None:
        store = self.store(create=True)
        store.batch([Put(key, b"") for key in (b"#", b"*", b"+")])
        self.assertEqual(store.scan(b"", b"*"), [(b"#", b"")])
        self.assertEqual(store.wipe(b"*", None), 2)

    def test_what_is_no_command_is_not_sent(self) -> None:
        store = self.store(create=True)
        store.put(b"a", b"1")
        with self.assertRaises(ValueError):
            store.scan(limit=-1)
        for wrong in ("a", memoryview(b"a"), 1, None):
            with self.assertRaisesRegex(TypeError, f"keys and values must be bytes, not {type(wrong).__name__}$"):
                store.put(wrong, b"1")  # type: ignore[arg-type]
            with self.assertRaisesRegex(TypeError, f"keys and values must be bytes, not {type(wrong).__name__}$"):
                store.put(b"a", wrong)  # type: ignore[arg-type]
        with self.assertRaisesRegex(TypeError, "keys and values must be bytes, not str$"):
            store.wipe(b"a", "b")  # type: ignore[arg-type]
        for limit in (1.9, "1"):
            with self.assertRaisesRegex(TypeError, f"a limit must be an integer, not {type(limit).__name__}$"):
                store.scan(limit=limit)  # type: ignore[arg-type]
        self.assertEqual(store.unflushed, 1)
        self.assertEqual(store.get(bytearray(b"a")), b"1")

    def test_a_batch_and_its_replies_may_be_longer_than_pipes_hold(self) -> None:
        store = self.store(create=True, max_value=1024, seg_size=1_048_576)
        keys = [b"%064d" % number for number in range(20_000)]
        value = b"\xff" * 300  # sent as 900 bytes
        self.assertEqual(store.batch([Put(key, value) for key in keys]), [True] * len(keys))
        self.assertEqual(store.batch([Get(key) for key in keys]), [value] * len(keys))
        self.assertEqual(store.verify().pairs, len(keys))

    def test_batches_that_are_sent_at_once(self) -> None:
        store = self.store(create=True)
        batches: list[list[Command[Reply]]] = [[Put(b"a", b"1")], [], [Get(b"a"), Scan()], [Put(b"a", b"2"), Get(b"a")]]
        self.assertEqual(store.batches(batches), [[True], [], [b"1", [(b"a", b"1")]], [False, b"2"]])
        self.assertEqual(store.unflushed, 2)
        self.assertEqual(store.batches([[], []]), [[], []])
        self.assertEqual(store.batches([]), [])

    def test_replies_to_the_first_batches_fill_their_pipe_before_the_last_are_sent(self) -> None:
        store = self.store(create=True)
        store.put(b"a", b"v" * 200)
        self.assertEqual(store.batches([[Get(b"a")] * 100] * 300), [[b"v" * 200] * 100] * 300)

    def test_a_call_in_the_midst_of_a_call_is_refused(self) -> None:
        store = self.store(create=True)
        store.batch([Put(b"a", b"1"), Put(b"b", b"2")])
        calls: list[Callable[[], object]] = [
            lambda: store.get(b"b"),
            store.flush,
            store.verify,
            store.stat,
            lambda: store.copy_to(self.folder / "copy"),
            store.reopen,
            store.close,
        ]

        @dataclass(frozen=True)
        class Meddle:
            """Represents a `get` that calls `call` before it reads the reply."""

            call: Callable[[], object]

            def text(self) -> bytes:
                return b"get a\n"

            def reply(self, line: Callable[[], bytes]) -> bytes:
                try:
                    self.call()
                except RuntimeError as error:
                    return b"%b, %b" % (str(error).encode(), line())
                return b"was not refused"

        expected = b"another call of this store is in progress in this thread, value 1"
        for call in calls:
            self.assertEqual(store.batch([Meddle(call), Get(b"b")]), [expected, b"2"])

    def test_a_handler_of_a_signal_takes_no_answer_of_a_call(self) -> None:
        store = self.store(create=True)
        keys = [b"%d" % number for number in range(100)]
        store.batch([Put(key, b"value of " + key) for key in keys])
        taken: list[bytes | None] = []
        refused: list[str] = []

        def handle(*_: object) -> None:
            try:
                taken.append(store.get(b"7"))
            except RuntimeError as error:
                refused.append(str(error))

        before = signal.signal(signal.SIGALRM, handle)
        self.addCleanup(signal.signal, signal.SIGALRM, before)
        self.addCleanup(signal.setitimer, signal.ITIMER_REAL, 0)
        signal.setitimer(signal.ITIMER_REAL, 0.001, 0.001)
        end = time.monotonic() + taukremil.PATIENCE
        while len(refused) < 100 and time.monotonic() < end:
            for key in keys:
                self.assertEqual(store.get(key), b"value of " + key)
        signal.setitimer(signal.ITIMER_REAL, 0)
        self.assertGreaterEqual(len(refused), 100)
        self.assertEqual(set(taken) | {b"value of 7"}, {b"value of 7"})
        self.assertEqual(store.unflushed, 1)

    def test_threads_may_share_a_store(self) -> None:
        store = self.store(create=True)
        wrong: list[int] = []

        def work(number: int) -> None:
            for value in range(100):
                key, data = b"%d" % number, b"%d" % value
                if store.batch([Put(key, data), Get(key)]) != [value == 0, data]:
                    wrong.append(number)

        threads = [threading.Thread(target=work, args=(number,)) for number in range(8)]
        for thread in threads:
            thread.start()
        for thread in threads:
            thread.join()
        self.assertEqual(wrong, [])


class Lasting(StoreTest):
    def test_what_was_flushed_lasts_and_nothing_else(self) -> None:
        with self.store(create=True) as store:
            store.put(b"a", b"1")
            self.assertEqual(store.unflushed, 1)
            self.assertEqual(store.flush(), 2)
            self.assertEqual(store.unflushed, 0)
            store.put(b"b", b"2")
            store.close()
        with self.store() as store:
            self.assertEqual(store.scan(), [(b"a", b"1")])
            store.put(b"b", b"2")
            store.reopen()
            self.assertEqual(store.scan(), [(b"a", b"1")])
            self.assertEqual(store.verify(), Report(1, 1, 1))

    def test_create_replaces_what_stands_there(self) -> None:
        with self.store(create=True) as store:
            store.put(b"a", b"1")
            store.flush()
        with self.store(create=True, fan=8, max_key=2) as store:
            self.assertEqual(store.scan(), [])
            kill(store)
            with self.assertRaises(Killed):
                store.flush()
            self.assertEqual(store.scan(), [])  # the restarted program opened the file and did not create it again

    def test_a_log_that_is_full_is_cleaned(self) -> None:
        store = self.store(create=True, **SMALL, segments=8)
        for number in range(1_000):
            store.put(b"k%d" % (number % 10), b"%d" % number)
            store.flush()
        self.assertGreater(store.stat().head, 8)
        store.reopen()
        self.assertEqual(store.scan(), [(b"k%d" % at, b"%d" % (990 + at)) for at in range(10)])

    def test_a_clean_frees_a_segment_and_flushes_nothing(self) -> None:
        store = self.store(create=True, **SMALL, segments=64)
        for number in range(100):
            store.put(b"k%d" % (number % 10), b"%d" % number)
            store.flush()
        store.put(b"new", b"")
        self.assertEqual(store.clean(), 1)
        self.assertEqual(store.stat().head, 1)
        store.reopen()
        self.assertIsNone(store.get(b"new"))

    def test_an_upgrade_is_done_once(self) -> None:
        store = self.store(create=True)
        store.put(b"a", b"1")
        self.assertEqual(store.upgrade(), 2)
        with self.assertRaises(Refused) as caught:
            store.upgrade()
        self.assertEqual(caught.exception.number, 19)
        self.assertEqual(store.get(b"a"), b"1")

    def test_the_numbers_are_those_that_the_program_prints(self) -> None:
        source, number, at = random.Random(1), 0, 1
        with self.store(create=True, **SMALL, segments=8) as store:
            while number < 500 or at:  # until a flush ends exactly at the end of a segment
                number += 1
                store.put(b"k%d" % (number % 40), b"v" * source.randrange(64))
                store.flush()
                at = store.stat().tail % SMALL["seg_size"]
            stat, report = store.stat(), store.verify()
        ran = subprocess.run([PROGRAM, "--stat", "--disk", self.path], stdin=subprocess.DEVNULL, capture_output=True)
        expected = (
            f"stat sequence {stat.sequence} head {stat.head} tail {stat.tail} segments {stat.in_use} of {stat.segments}"
        )
        self.assertEqual(ran.stdout.decode(), f"{expected} pages {report.pages} pairs {report.pairs}\n")


class Faults(StoreTest):
    def test_a_refused_batch_is_an_exception_with_its_number(self) -> None:
        store = self.store(create=True, max_key=4)
        store.put(b"a", b"1")
        store.flush()
        store.put(b"b", b"2")
        with self.assertRaises(Refused) as caught:
            store.batch([Put(b"c", b"3"), Unchecked(Put(b"much too long", b"4"))])
        error = caught.exception
        self.assertEqual((error.number, error.name, error.place), (2, "KeyTooLong", 1))
        self.assertEqual(error.fault, "fault 2 KeyTooLong 1")
        self.assertEqual(error.why, "Shorten the key, or copy the store with copy_to(path, max_key=N).")
        self.assertNotIn("lost", str(error))

    def test_a_refusal_loses_nothing(self) -> None:
        store = self.store(create=True, max_key=4)
        store.put(b"a", b"1")
        pid = store.pid
        for number in range(100):
            with self.assertRaises(Refused) as caught:
                store.batch([Put(b"c", b"3")] * number + [Unchecked(Put(b"too long", b"4")), Put(b"d", b"5")])
            error = caught.exception
            self.assertEqual((error.number, error.place, error.unflushed, store.unflushed), (2, number, 0, 1))
            self.assertEqual(error.why.count("max_key"), 1)  # the explanation of this refusal alone
        with self.assertRaises(Refused) as caught:
            store.clean()
        self.assertEqual((caught.exception.name, caught.exception.place), ("NothingToClean", None))
        self.assertEqual(caught.exception.why, "The log is in one segment, so there is nothing to clean.")
        self.assertEqual(store.scan(), [(b"a", b"1")])
        store.flush()
        self.assertEqual((store.pid, store.unflushed), (pid, 0))
        store.reopen()
        self.assertEqual(store.scan(), [(b"a", b"1")])

    def test_a_line_that_is_no_command_is_reported_and_loses_nothing(self) -> None:
        @dataclass(frozen=True)
        class Unknown:
            def text(self) -> bytes:
                return b"increment a\n"

            def reply(self, line: Callable[[], bytes]) -> bytes:
                return line()

        store = self.store(create=True)
        store.put(b"a", b"1")
        with self.assertRaisesRegex(StoreError, "^line [0-9]+: unknown command") as caught:
            store.batch([Put(b"b", b"2"), Unknown()])
        self.assertEqual((caught.exception.unflushed, store.unflushed), (0, 1))
        self.assertEqual(store.scan(), [(b"a", b"1")])

    def test_the_batches_beside_one_that_is_refused_are_executed(self) -> None:
        store = self.store(create=True, max_key=4)
        store.put(b"a", b"1")
        much = [Unchecked(Put(b"much too long", b"4"))]
        with self.assertRaises(Refused) as caught:
            store.batches([[], [Put(b"b", b"2")], [Get(b"b"), *much], [Put(b"c", b"3")], [], much, [Get(b"a")]])
        self.assertEqual((caught.exception.place, caught.exception.unflushed), (1, 0))
        self.assertEqual((store.unflushed, [key for key, _ in store.scan()]), (3, [b"a", b"b", b"c"]))

    def test_rows_that_look_like_refusals_are_rows(self) -> None:
        store = self.store(create=True)
        rows = [(b"fault", b"9"), (b"line", b"1:")]
        store.load(rows)
        self.assertEqual((store.scan(), store.scan_back()), (rows, rows[::-1]))

    def test_exceptions_are_the_same_in_another_process(self) -> None:
        errors: list[StoreError] = [
            StoreError("the store is closed"),
            StoreError("the program has ended with status 1", 2),
            Refused("fault 2 KeyTooLong 1", "a key that is too long", 3),
            Refused("fault 9 Device", "", 1),
            Killed(signal.SIGKILL, 4),
            Killed(250),
            Lost(5),
            Lost(6, "a disk that failed", ", unless a flush was in progress"),
        ]
        for error in errors:
            again = pickle.loads(pickle.dumps(error))
            self.assertIs(type(again), type(error))
            self.assertEqual((str(again), vars(again)), (str(error), vars(error)))

    def test_what_is_gone_may_be_flushed_where_a_flush_may_be_done(self) -> None:
        for error in (Killed(signal.SIGKILL, 1), Refused("fault 9 Device", "", 1)):
            self.assertIn("batches lost since the last flush, unless a flush was in progress: 1", str(error))
        self.assertIn("batches lost since the last flush: 1", str(Refused("fault 10 Full", "", 1)))

    def test_a_batch_that_is_too_long_is_refused(self) -> None:
        store = self.store(create=True)
        self.assertEqual(len(store.batch([Get(b"a")] * 65_535)), 65_535)
        with self.assertRaisesRegex(ValueError, "^command 65535: a batch has at most 65535 commands, not 65536$"):
            store.batch([Get(b"a")] * 65_536)
        with self.assertRaisesRegex(ValueError, "^batch 1, command 65535: a batch has at most 65535 commands"):
            store.batches([[Put(b"a", b"1")], [Get(b"a")] * 70_000])
        self.assertIsNone(store.get(b"a"))
        with self.assertRaises(Refused) as caught:
            store.batch([ManyGets(65_536)])
        self.assertEqual(caught.exception.number, 4)
        self.assertEqual(
            caught.exception.why, "Divide the batch or its wipes. More than 65535 commands do it or undo it."
        )

    def test_a_file_that_holds_no_store_is_refused(self) -> None:
        with self.assertRaises(FileNotFoundError) as missing:
            self.store()
        self.assertEqual(missing.exception.errno, errno.ENOENT)
        assert isinstance(missing.exception, Refused)
        self.assertEqual(missing.exception.number, 9)
        why = f'{self.path}: No such file or directory (os error 2). Pass create="missing" to create a store there.'
        self.assertEqual(missing.exception.why, why)
        self.path.write_bytes(bytes(5_000_000))
        with self.assertRaises(Refused) as caught:
            self.store()
        self.assertEqual(caught.exception.number, 12)
        advice = "Check the path. The file holds no store, or a part of one. With create=True a new store replaces what it holds."
        self.assertEqual(caught.exception.why, f"{self.path}: {advice}")

    def test_a_damaged_store_is_to_be_restored(self) -> None:
        with self.store(create=True, **SMALL, segments=8) as store:
            store.put(b"a", b"1")
        damaged = bytearray(self.path.read_bytes())
        damaged[512] ^= 1  # the header of the first segment
        self.path.write_bytes(damaged)
        with self.assertRaises(Refused) as caught:
            self.store()
        self.assertEqual(caught.exception.number, 14)
        self.assertEqual(caught.exception.why, f"{self.path}: Restore a backup. The file is damaged: 14 BadSegment 0.")

    def test_a_file_that_another_store_holds_is_refused(self) -> None:
        with self.store(create=True) as first:
            with self.assertRaises(BlockingIOError) as caught:
                self.store()
            self.assertEqual(caught.exception.errno, errno.EWOULDBLOCK)
            assert isinstance(caught.exception, Refused)
            self.assertEqual(caught.exception.number, 9)
            advice = "Another program has locked the file. Wait until it ends, or pass wait=SECONDS."
            self.assertTrue(caught.exception.why.endswith(f". {advice}"), caught.exception.why)
            self.assertIsNone(first.get(b"a"))
        self.assertIsNone(self.store().get(b"a"))

    def test_settings_that_are_out_of_range_are_refused(self) -> None:
        ways: list[Literal[True, "missing"]] = [True, "missing"]
        for create in ways:
            with self.assertRaises(Refused) as caught:
                self.store(create=create, fan=3)
            self.assertEqual(caught.exception.fault, "fault 1 BadSettings fan")
            self.assertEqual(caught.exception.why, "fan must be from 4 to 64.")
            self.assertFalse(self.path.exists())
            with self.assertRaises(Refused) as caught:
                self.store(create=create, pairs=(1 << 32) - 1)
            self.assertEqual(caught.exception.why, "segments must be from 3 to 65536; fewer pairs need fewer.")
        with self.assertRaises(Refused) as caught:
            self.store(create=True, workers=65)
        self.assertEqual(caught.exception.why, "workers must be from 1 to 64, and grain from 1 to 65535.")
        with self.assertRaises(TypeError):
            self.store(create=True, flan=8)
        with self.assertRaisesRegex(StoreError, "status 2"):
            self.store(create=True, fan=1 << 32)

    def test_a_log_that_stays_full_is_refused(self) -> None:
        store = self.store(create=True, **SMALL, segments=3)
        store.put(b"a", b"1")
        store.flush()
        store.batch([Put(b"k%d" % number, b"v" * 60) for number in range(1_000)])
        with self.assertRaises(Refused) as caught:
            store.flush()
        self.assertEqual(caught.exception.number, 10)
        why = "Copy the store with copy_to(path, segments=N) into a larger log. The log has no room for this."
        self.assertEqual(caught.exception.why, why)
        store.reopen()
        self.assertEqual(store.scan(), [(b"a", b"1")])

    def test_a_closed_store_answers_nothing(self) -> None:
        store = self.store(create=True)
        store.close()
        store.close()
        self.assertIsNone(store.pid)
        with self.assertRaisesRegex(StoreError, "closed"):
            store.get(b"a")
        store.reopen()
        self.assertIsNone(store.get(b"a"))

    def test_a_fork_leaves_the_store_to_its_process(self) -> None:
        store = self.store(create=True)
        store.put(b"a", b"1")
        read, write = os.pipe()
        child = os.fork()
        if child == 0:
            os.close(write)
            is_refused = False
            try:
                store.get(b"a")
            except StoreError as error:
                is_refused = "closed" in str(error)
            os.read(read, 1)  # returns after the parent has closed its store
            os._exit(0 if is_refused and store.pid is None else 1)
        self.assertEqual(store.get(b"a"), b"1")
        self.assertEqual(store.flush(), 2)
        began = time.monotonic()
        store.close()  # returns only after no other process holds the pipe
        self.assertLess(time.monotonic() - began, taukremil.PATIENCE / 2)
        os.close(write)
        os.close(read)
        self.assertEqual(os.waitstatus_to_exitcode(os.waitpid(child, 0)[1]), 0)

    def test_a_program_that_isn_t_there_is_missed_at_once(self) -> None:
        ways: list[bool | Literal["missing"]] = [False, "missing"]
        for create in ways:
            with self.assertRaisesRegex(FileNotFoundError, "no such program; pass .*program=PATH.*none") as missing:
                Store(self.path, create=create, program=self.folder / "none")
            self.assertEqual(missing.exception.errno, errno.ENOENT)


class Checks(StoreTest):
    """Tests that wrong commands are refused before anything is sent."""

    def test_what_is_no_list_of_commands_is_refused(self) -> None:
        store = self.store(create=True)
        wrong: list[tuple[Callable[[], object], str]] = [
            (lambda: store.batch(["put a b"]), "^command 0: a command is an object such as Put\\(key, value\\), not str$"),  # type: ignore[list-item]
            (lambda: store.batch(Put(b"a", b"1")), "^a batch is a list of commands, not Put$"),  # type: ignore[call-overload]
            (lambda: store.batches([Put(b"a", b"1")]), "^a batch is a list of commands, not Put$"),  # type: ignore[list-item]
            (lambda: store.batches(Put(b"a", b"1")), "^batches are a list of lists, not Put$"),  # type: ignore[arg-type]
            (lambda: store.batches([[Get(b"a")], [7]]), "^batch 1, command 0: a command is .*, not int$"),  # type: ignore[list-item]
        ]
        for call, why in wrong:
            with self.assertRaisesRegex(TypeError, why):
                call()
        self.assertEqual(store.scan(), [])

    def test_lengths_are_checked_before_anything_is_sent(self) -> None:
        store = self.store(create=True, max_key=4, max_value=3)
        pid = store.pid
        store.put(b"abcd", b"123")
        wrong: list[Callable[[], object]] = [
            lambda: store.put(b"abcde", b""),
            lambda: store.add(b"abcde", b""),
            lambda: store.get(b"abcde"),
            lambda: store.delete(b"abcde"),
            lambda: store.scan(b"abcde"),
            lambda: store.scan(b"", b"abcde"),
            lambda: store.wipe(b"abcde"),
            lambda: store.wipe(b"", b"abcde"),
        ]
        for call in wrong:
            with self.assertRaisesRegex(ValueError, "has 5 bytes, and this store takes at most 4$"):
                call()
        for key, value in ((b"a", b"1234"), (b"", bytes(4))):
            with self.assertRaisesRegex(ValueError, "the value has 4 bytes, and this store takes at most 3$"):
                store.put(key, value)
            with self.assertRaisesRegex(ValueError, "the value has 4 bytes"):
                store.add(key, value)
        self.assertEqual((store.unflushed, store.pid), (1, pid))
        self.assertEqual(store.scan(b"abcd", b"zzzz"), [(b"abcd", b"123")])
        self.assertEqual(store.flush(), 2)

    def test_errors_name_the_index_of_the_command(self) -> None:
        store = self.store(create=True, max_key=4)
        good, long = Put(b"a", b"1"), Get(b"abcde")
        with self.assertRaisesRegex(ValueError, "^command 2: the key has 5 bytes"):
            store.batch([good, good, long, good])
        with self.assertRaisesRegex(ValueError, "^batch 1, command 1: the key has 5 bytes"):
            store.batches([[good], [good, long]])
        with self.assertRaisesRegex(ValueError, "^command 1: a limit must be 0 to"):
            store.batch([good, Scan(limit=-1)])
        with self.assertRaisesRegex(TypeError, "^command 3: keys and values must be bytes, not str$"):
            store.batch([good, good, good, Get("a")])  # type: ignore[list-item, arg-type]
        with self.assertRaisesRegex(ValueError, "^pair 2: the key has 5 bytes"):
            store.load([(b"a", b"1"), (b"b", b"2"), (b"abcde", b"")])
        self.assertEqual((store.unflushed, store.scan()), (0, []))

    def test_the_limits_are_those_of_the_file(self) -> None:
        with self.store(create=True, max_key=4, max_value=0):
            pass
        given: list[dict[str, int]] = [{}, {"max_key": 64, "max_value": 1_024}]
        for settings in given:
            with self.store(create=False, **settings) as store:
                self.assertEqual((store.settings.max_key, store.settings.max_value), (4, 0))
                self.assertTrue(store.put(b"abcd", b""))
                with self.assertRaises(ValueError):
                    store.put(b"abcde", b"")
                with self.assertRaises(ValueError):
                    store.put(b"a", b"1")
                store.wipe()

    def test_a_new_store_has_the_limits_of_the_program(self) -> None:
        store = self.store(create=True)
        self.assertEqual(store.settings, Settings(32, 16, 64, 256, 1_048_576, 272))
        self.assertTrue(store.put(b"k" * 64, b"v" * 256))
        with self.assertRaises(ValueError):
            store.put(b"k" * 65, b"")
        with self.assertRaises(ValueError):
            store.put(b"k", b"v" * 257)

    def test_a_reopened_store_has_the_limits_of_its_new_file(self) -> None:
        other = Store(self.folder / "other", create=True, program=PROGRAM, max_key=9)
        other.close()
        store = self.store(create=True, max_key=4)
        other.path.replace(self.path)
        self.assertEqual(store.settings.max_key, 4)
        store.reopen()
        self.assertEqual(store.settings.max_key, 9)
        self.assertTrue(store.put(b"k" * 9, b""))


class Types(StoreTest):
    """Tests the types of replies: `mypy --strict` checks the annotations, and that each ignored error is one."""

    def test_replies_have_the_types_of_their_commands(self) -> None:
        store = self.store(create=True)
        put: list[bool] = store.batch([Put(b"a", b"1"), Add(b"b", b"2"), Del(b"c")])
        got: list[bytes | None] = store.batch(Get(key) for key in (b"a", b"c"))
        rows: list[list[Row]] = store.batch([Scan(limit=1)])
        wiped: list[int] = store.batch([Wipe(b"b")])
        self.assertEqual((put, got, rows, wiped), ([True, True, False], [b"1", None], [[(b"a", b"1")]], [1]))
        store.batch([Get(b"a")])[0].decode()  # type: ignore[union-attr]

    def test_mixed_batches_need_no_cast(self) -> None:
        store = self.store(create=True)
        value: bytes = store.batch([Put(b"a", b"1"), Get(b"a")])[1]
        self.assertEqual(value.decode(), "1")
        listed = [Put(b"a", b"2"), Get(b"a"), Scan()]
        is_new, value, rows = store.batch(listed)
        self.assertEqual((is_new, value, [key for key, _ in rows]), (False, b"2", [b"a"]))
        ((count,), (value,)) = store.batches([[Wipe(b"b")], [Get(b"a")]])
        self.assertEqual((count + 1, value.decode()), (1, "2"))
        with self.assertRaises(TypeError):
            store.batch([b"a"])  # type: ignore[list-item]


class Pipes(StoreTest):
    """Tests the client on programs that break the protocol."""

    def test_answers_that_fill_their_pipe_before_all_is_sent(self) -> None:
        with Store(self.folder / "none", program=self.program(ANSWERS_EACH_LINE)) as store:
            self.assertEqual(store.batch([Get(b"k" * 100)] * 20_000), [b"x" * 1_000] * 20_000)

    def test_answers_that_are_none_end_the_program(self) -> None:
        store = Store(self.folder / "none", program=self.program(ANSWERS_EACH_LINE))
        with self.assertRaisesRegex(StoreError, "unexpected answer from the program"):
            store.put(b"a", b"1")
        self.assertIsNone(store.pid)
        store.close()

    def test_a_program_that_ends_without_a_word(self) -> None:
        with self.assertRaisesRegex(StoreError, "status 0"):
            Store(self.folder / "none", program=self.program("pass"))

    def test_more_answers_than_were_asked_for(self) -> None:
        with self.assertRaisesRegex(StoreError, "unexpected answer from the program"):
            Store(self.folder / "none", program=self.program("print('rows 0\\nnew', flush=True); input(); input()"))
