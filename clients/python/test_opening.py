"""Tests how the client opens, creates, loads and copies stores, and reads ranges."""

from __future__ import annotations

import fcntl
import os
import signal
import sys
import threading
import time
import unittest.mock
from collections.abc import Iterator
from pathlib import Path
from typing import Literal

import taukremil
from store_tests import ANSWERS_EACH_LINE, KILLS_ITSELF, LOOK_UNFINISHED, PROGRAM, SMALL, StoreTest, Unchecked, kill
from store_tests import run_threads, synced_folders, unfinished_files
from taukremil import Del, Get, Killed, Lost, Put, Refused, Row, Scan, Settings, Store, StoreError, Wipe, prefix_range
from taukremil.commands import next_key

ENDS_AT_FLUSH = """\
    if word == b"flush":
        sys.exit("flushed")
"""
ANSWERS_ONE_BATCH_LATE = """\
import sys
print("rows 0", flush=True)
batches = [[]]
for line in sys.stdin.buffer:
    if line == b"go\\n":
        batches.append([])
        if len(batches) > 3 or len(batches) == 5:
            print("new\\n" * len(batches[-3]), end="", flush=True)
        if len(batches) == 5:
            print("new\\n" * len(batches[-2]), end="", flush=True)
    else:
        batches[-1].append(line)
"""
REFUSES_EACH_BATCH = """\
import sys
print("rows 0", flush=True)
batches = 0
for line in sys.stdin.buffer:
    if line == b"go\\n":
        batches += 1
        if batches > 1:
            print("fault 2 KeyTooLong", batches - 1, flush=True)
"""


class Opening(StoreTest):
    def test_a_with_block_flushes_at_its_end(self) -> None:
        with self.store(create=True) as store:
            store.put(b"a", b"1")
        self.assertIsNone(store.pid)
        with self.store() as store:
            self.assertEqual(store.scan(), [(b"a", b"1")])

    def test_a_with_block_without_writes_does_not_flush(self) -> None:
        program = self.program(ANSWERS_EACH_LINE + ENDS_AT_FLUSH)
        with Store(self.path, program=program) as store:
            store.get(b"a")
        with self.assertRaisesRegex(StoreError, "flushed"), Store(self.path, program=program) as store:
            store.batch([Unchecked(Get(b"a"))])  # of a class that may write

    def test_a_with_block_that_raises_does_not_flush(self) -> None:
        class Interrupt(Exception):
            pass

        with self.assertRaises(Interrupt), self.store(create=True) as store:
            store.put(b"a", b"1")
            raise Interrupt
        self.assertIsNone(store.pid)
        with self.assertRaises(SystemExit), self.store() as store:
            store.put(b"a", b"1")
            sys.exit()
        self.assertEqual(self.store().scan(), [])

    def test_a_with_block_reports_a_loss_at_its_end(self) -> None:
        with self.assertRaises(Killed), self.store(create=True) as store:
            store.put(b"a", b"1")
            kill(store)
        with self.assertRaises(Lost), self.store() as store:
            store.put(b"a", b"1")
            kill(store)
            with self.assertRaises(Killed):
                store.get(b"a")
        with self.assertRaisesRegex(StoreError, "the store is closed"):
            store.get(b"a")

    def test_a_missing_store_is_created_once(self) -> None:
        with self.store(create="missing", max_key=7) as store:
            store.put(b"a", b"1")
        with self.store(create="missing", max_key=9) as store:
            self.assertEqual(store.scan(), [(b"a", b"1")])
            self.assertEqual(store.settings.max_key, 7)
        self.assertEqual([path.name for path in self.folder.iterdir()], ["store"])
        with self.assertRaisesRegex(ValueError, "create must be True, False or \"missing\", not 'Missing'"):
            self.store(create="Missing")  # type: ignore[arg-type]
        self.assertEqual(self.store().scan(), [(b"a", b"1")])

    def test_a_store_is_created_in_an_empty_or_unfinished_file(self) -> None:
        for content in unfinished_files():
            self.path.write_bytes(content)
            self.path.chmod(0o640)
            with self.store(create="missing", max_key=7) as store:
                self.assertEqual(store.scan(), [])
                self.assertTrue(store.put(b"a", b"1"))
            self.assertEqual(self.path.stat().st_mode & 0o777, 0o640)
            with self.store(create="missing", max_key=9) as store:
                self.assertEqual((store.scan(), store.settings.max_key), ([(b"a", b"1")], 7))

    def test_no_store_is_created_in_any_other_file(self) -> None:
        for content in (b"\1", b"precious", *LOOK_UNFINISHED):
            self.path.write_bytes(content)
            with self.assertRaises(Refused) as refused:
                self.store(create="missing")
            self.assertEqual(refused.exception.number, 12)
            self.assertEqual(self.path.read_bytes(), content)

    def test_what_is_no_regular_file_is_refused(self) -> None:
        pipe = self.folder / "pipe"
        os.mkfifo(pipe)
        for path in (self.folder, pipe, Path("/dev/null"), self.folder / "missing/store"):
            with self.assertRaises(Refused) as refused:
                Store(path, create="missing", program=PROGRAM)
            self.assertEqual(refused.exception.number, 9)
        self.assertTrue(pipe.is_fifo() and Path("/dev/null").is_char_device())

    def test_a_missing_store_is_created_where_a_link_points(self) -> None:
        link = self.folder / "link"
        link.symlink_to(self.path)
        with Store(link, create="missing", program=PROGRAM) as store:
            store.put(b"a", b"1")
        self.assertTrue(link.is_symlink())
        self.assertEqual(self.store().scan(), [(b"a", b"1")])

    def test_a_missing_store_gets_the_rights_of_any_new_file(self) -> None:
        (self.folder / "file").touch()
        self.store(create="missing")
        self.assertEqual(self.path.stat().st_mode, (self.folder / "file").stat().st_mode)

    def test_a_kill_while_a_missing_store_is_created_leaves_no_file(self) -> None:
        dies = self.program("import os, signal\nos.kill(os.getpid(), signal.SIGKILL)")
        with self.assertRaises(Killed):
            Store(self.path, create="missing", program=dies)
        self.assertEqual([path.name for path in self.folder.iterdir()], ["program"])
        self.assertIsNone(self.store(create="missing").get(b"a"))

    def test_stores_that_are_created_at_once_are_one(self) -> None:
        for run in range(3):
            path = self.folder / f"store {run}"
            if run == 2:
                path.touch()

            numbers = iter(range(6))

            def work(path: Path = path, numbers: Iterator[int] = numbers) -> None:
                with Store(path, create="missing", program=PROGRAM, wait=taukremil.PATIENCE) as store:
                    store.add(b"%d" % next(numbers), b"")

            run_threads(work, 6)
            with Store(path, program=PROGRAM) as store:
                self.assertEqual(len(store.scan()), 6)

    def test_what_a_kill_leaves_of_a_missing_store_becomes_one(self) -> None:
        for content in unfinished_files():
            program = self.program_that(f"open({str(self.path)!r}, 'wb').write({content!r})", KILLS_ITSELF)
            with self.assertRaises(Killed):
                Store(self.path, create="missing", program=program)
            self.assertEqual(self.path.read_bytes(), content)
            self.assertIsNone(self.store(create="missing").get(b"a"))
            self.path.unlink()

    def test_a_file_that_another_process_creates_meanwhile_stays(self) -> None:
        other = Store(self.folder / "other", create=True, program=PROGRAM, max_key=9)
        other.close()
        program = self.program_that(f"os.rename({str(other.path)!r}, {str(self.path)!r})")
        with Store(self.path, create="missing", program=program) as store:
            self.assertEqual(store.settings.max_key, 9)
        self.path.unlink()
        with self.assertRaises(Refused) as refused:
            program = self.program_that(f"open({str(self.path)!r}, 'wb').write(b'theirs')")
            Store(self.path, create="missing", program=program)
        self.assertEqual(refused.exception.number, 12)
        self.assertEqual(self.path.read_bytes(), b"theirs")

    def test_an_empty_file_that_another_process_has_locked_stays(self) -> None:
        with open(self.path, "wb") as file:
            fcntl.flock(file, fcntl.LOCK_EX)
            with self.assertRaises(Refused) as refused:
                self.store(create="missing", wait=0.1)
            self.assertTrue(refused.exception.is_locked())
            self.assertTrue(os.path.samestat(os.fstat(file.fileno()), self.path.stat()))
            self.assertEqual(self.path.read_bytes(), b"")
            timer = threading.Timer(0.3, fcntl.flock, (file, fcntl.LOCK_UN))
            timer.start()
            self.assertIsNone(self.store(create="missing", wait=taukremil.PATIENCE).get(b"a"))
            timer.join()

    def test_the_folder_of_a_new_store_is_synced(self) -> None:
        ways: list[Literal[True, "missing"]] = [True, "missing"]
        for create in ways:
            (self.folder / "link").unlink(missing_ok=True)
            (self.folder / "link").symlink_to(self.folder / f"stores {create}/store")
            folder = self.folder / f"stores {create}"
            folder.mkdir()
            self.assertEqual(synced_folders(lambda: self.open_and_close(self.folder / "link", create)), [folder])
            self.assertEqual(synced_folders(lambda: self.open_and_close(folder / "store", False)), [])

    def open_and_close(self, path: Path, create: bool | Literal["missing"]) -> None:
        Store(path, create=create, program=PROGRAM).close()

    def test_a_new_store_has_room_for_its_pairs_unless_told_otherwise(self) -> None:
        # 40,000 pairs of 64 and 256 bytes: 325 bytes each, and 156 for each of 2,501 leaves, all times 21, and four more segments.
        default = Settings(32, 16, 64, 256, 1 << 20, 21 * (40_000 * 325 + 2_501 * 156) // (1 << 20) + 4)
        # 1,000 pairs of 16 and 100 bytes: 121 each, and 60 for each of 63, all times 21, in sixteen and four segments.
        sized = Settings(32, 16, 16, 100, 21 * (1_000 * 121 + 63 * 60) // 16, 20)
        wanted: list[tuple[dict[str, int], Settings]] = [
            ({}, default),
            ({"workers": 2, "tidy": 8}, default),
            ({"pairs": 1_000, "max_key": 16, "max_value": 100}, sized),
            ({"segments": 8}, Settings(32, 16, 64, 256, 65_536, 8)),
            ({"fan": 8}, Settings(8, 16, 64, 256, 65_536, 4_096)),
        ]
        ways: list[Literal[True, "missing"]] = [True, "missing"]
        for create in ways:
            for settings, right in wanted:
                with self.store(create=create, **settings) as store:
                    self.assertEqual(store.settings, right)
                with self.store(create=False, **settings) as store:
                    self.assertEqual(store.settings, right)
                self.path.unlink()
        for name in ("fan", "chain", "seg_size", "segments"):
            with self.assertRaisesRegex(TypeError, f"^pairs chooses fan, chain, seg_size, segments: leave {name} out$"):
                self.store(create=True, pairs=9, **{name: 16})
        self.assertFalse(self.path.exists())

    def test_a_lock_is_waited_for(self) -> None:
        first = self.store(create=True)
        first.put(b"a", b"1")
        first.flush()
        began = time.monotonic()
        with self.assertRaises(Refused) as refused:
            self.store(wait=0.3)
        self.assertTrue(refused.exception.is_locked())
        self.assertGreaterEqual(time.monotonic() - began, 0.3)
        timer = threading.Timer(0.3, first.close)
        timer.start()
        second = self.store(wait=taukremil.PATIENCE)
        timer.join()
        self.assertEqual(second.get(b"a"), b"1")
        second.close()
        third = self.store()
        timer = threading.Timer(0.3, third.close)
        timer.start()
        second.reopen()
        timer.join()
        self.assertEqual(second.get(b"a"), b"1")

    def test_only_a_lock_is_waited_for(self) -> None:
        began = time.monotonic()
        with self.assertRaisesRegex(Refused, "No such file"):
            self.store(wait=taukremil.PATIENCE)
        self.assertLess(time.monotonic() - began, taukremil.PATIENCE / 2)

    def test_tidy_keeps_the_pages_of_a_queue_few(self) -> None:
        pages = []
        for tidy in (0, 64):
            with self.store(create=True, **SMALL, tidy=tidy) as store:
                for number in range(50):
                    keys = [b"%d" % (1_000 + 20 * number + at) for at in range(20)]
                    store.batch([Put(key, b"1") for key in keys])
                    store.batch([Del(key) for key in keys])
                    store.flush()
                pages.append(store.verify().pages)
        self.assertLess(5 * pages[1], pages[0])

    def test_a_program_is_found_again_from_another_folder(self) -> None:
        before = os.getcwd()
        self.addCleanup(os.chdir, before)
        for name in ("programs", "elsewhere"):
            (self.folder / name).mkdir()
        (self.folder / "programs/bwsh").symlink_to(PROGRAM)
        search = unittest.mock.patch.dict(os.environ, {"PATH": "programs"})
        programs: list[str | Path] = ["programs/bwsh", Path("elsewhere/../programs/bwsh"), "bwsh"]
        for program in programs:
            os.chdir(self.folder)
            with search, Store("store", create=True, program=program) as store:
                os.chdir("elsewhere")
                kill(store)
                with self.assertRaises(Killed):
                    store.get(b"a")
                self.assertIsNone(store.get(b"a"))

    def test_a_store_prints_its_path_and_its_state(self) -> None:
        store = self.store(create=True)
        name = f"<Store '{self.path}': "
        self.assertEqual(repr(store), f"{name}pid {store.pid}, unflushed 0>")
        store.put(b"a", b"1")
        self.assertEqual(repr(store), f"{name}pid {store.pid}, unflushed 1>")
        kill(store)
        with self.assertRaises(Killed):
            store.get(b"a")
        self.assertEqual(repr(store), f"{name}lost, unflushed 1>")
        store.reopen()
        kill(store)
        with self.assertRaises(Killed):
            store.get(b"a")
        self.assertEqual(repr(store), f"{name}not running>")
        store.close()
        self.assertEqual(repr(store), f"{name}closed>")


class Copies(StoreTest):
    def setUp(self) -> None:
        super().setUp()
        self.copy = self.folder / "copy"

    def copied(self) -> Store:
        """Returns the copy, opened."""
        store = Store(self.copy, program=PROGRAM)
        self.addCleanup(store.close)
        return store

    def test_a_copy_has_all_pairs_and_the_settings_and_the_store_goes_on(self) -> None:
        store = self.store(create=True, **SMALL, segments=64)
        pairs = [(b"%03d" % number, b"%d" % number) for number in range(200)]
        store.batch([Put(key, b"old") for key, _ in pairs])
        store.flush()
        store.load(pairs)
        pid = store.pid
        self.assertEqual(synced_folders(lambda: store.copy_to(self.copy)), [self.folder])
        self.assertEqual((store.unflushed, store.pid), (1, pid))
        self.assertFalse(store.put(b"000", b"new"))
        copy = self.copied()
        self.assertEqual((copy.scan(), copy.settings, copy.verify().pairs), (pairs, store.settings, 200))
        store.reopen()
        self.assertEqual(store.scan(), [(key, b"old") for key, _ in pairs])

    def test_a_copy_under_other_settings_flushes_and_the_store_goes_on(self) -> None:
        store = self.store(create=True, **SMALL, segments=64)
        store.put(b"a", b"1")
        self.assertEqual(synced_folders(lambda: store.copy_to(self.copy, fan=4)), [self.folder])
        self.assertEqual(store.unflushed, 0)
        self.assertIsNotNone(store.pid)
        self.assertFalse(store.put(b"a", b"2"))
        copy = self.copied()
        self.assertEqual((copy.scan(), copy.settings.fan), ([(b"a", b"1")], 4))
        store.reopen()
        self.assertEqual(store.scan(), [(b"a", b"1")])

    def test_a_copy_may_have_any_name(self) -> None:
        store = self.store(create=True)
        store.put(b"a", b"1")
        for name in ("a copy", "%41", "*", "Häuschen", "new\nline", "x" * 200):
            store.copy_to(self.folder / name)
            with Store(self.folder / name, program=PROGRAM) as copy:
                self.assertEqual(copy.scan(), [(b"a", b"1")])

    def test_a_copy_has_the_given_settings(self) -> None:
        self.store(create=True, **SMALL, segments=64).close()
        store = self.store(max_key=9, segments=7, tidy=8, workers=2)
        store.put(b"a", b"1")
        store.upgrade()
        store.copy_to(self.copy, fan=16, max_value=100, seg_size=8_192, segments=5)
        self.assertEqual(self.copied().settings, Settings(16, 4, 16, 100, 8_192, 5))
        self.assertEqual(self.copied_version(), 0)

    def test_a_copy_has_room_for_its_pairs(self) -> None:
        store = self.store(create=True, **SMALL, segments=64)
        store.put(b"a", b"1")
        store.copy_to(self.copy, pairs=1_000)
        copy = self.copied()
        self.assertEqual(copy.scan(), [(b"a", b"1")])
        # 1,000 pairs of 16 and 64 bytes: 85 each, and 60 for each of 63, all times 21, in sixteen and four segments.
        self.assertEqual(copy.settings, Settings(32, 16, 16, 64, 21 * (1_000 * 85 + 63 * 60) // 16, 20))

    def copied_version(self) -> int:
        """Returns the version of the newest slot of a copy with one flush, by docs/FORMAT.md."""
        return int.from_bytes(self.copy.read_bytes()[128 + 44 : 128 + 48], "big")

    def test_a_copy_leads_out_of_a_full_log(self) -> None:
        store = self.store(create=True, **SMALL, segments=4)
        store.put(b"a", b"1")
        store.flush()
        pairs = [(b"k%03d" % number, b"v" * 60) for number in range(500)]
        store.load(pairs)
        for _ in range(2):
            with self.assertRaises(Refused) as full:
                store.flush()
            self.assertEqual((full.exception.name, full.exception.unflushed), ("Full", 0))
            self.assertEqual(store.unflushed, 1)
        store.copy_to(self.copy, segments=256)
        copy = self.copied()
        self.assertEqual((copy.scan(), copy.settings.segments), ([(b"a", b"1"), *pairs], 256))

    def test_a_copy_replaces_an_empty_or_unfinished_file(self) -> None:
        store = self.store(create=True, **SMALL, segments=8)
        store.put(b"a", b"1")
        for content in unfinished_files():
            self.copy.write_bytes(content)
            store.copy_to(self.copy)
            with self.copied() as copy:
                self.assertEqual(copy.scan(), [(b"a", b"1")])

    def test_a_copy_that_is_refused_loses_nothing(self) -> None:
        store = self.store(create=True)
        for number, content in enumerate((b"\1", b"precious", *LOOK_UNFINISHED)):
            store.put(b"%d" % number, b"")
            self.copy.write_bytes(content)
            with self.assertRaisesRegex(Refused, "fault 9 Device: .*entity already exists") as refused:
                store.copy_to(self.copy)
            self.assertEqual((refused.exception.unflushed, self.copy.read_bytes()), (0, content))
            self.assertIsNotNone(store.pid)
        store.put(b"9", b"")
        wrong: list[tuple[Path, dict[str, int], int]] = [
            (self.folder / "missing/copy", {}, 9),
            (self.folder / "copy 2", {"fan": 3}, 1),
            (self.folder / "copy 3", {"max_value": 0, "segments": 3, "seg_size": 16}, 1),
            (self.folder / "copy 4", {"segments": 0}, 1),
        ]
        for path, settings, fault in wrong:
            with self.assertRaises(Refused) as refused:
                store.copy_to(path, **settings)
            self.assertEqual(refused.exception.number, fault)
        self.assertEqual([key for key, _ in store.scan()], [b"%d" % number for number in (*range(6), 9)])
        self.assertEqual({path.name for path in self.folder.iterdir()}, {"store", "copy"})

    def test_wrong_arguments_of_a_copy_are_refused_before_anything_is_done(self) -> None:
        store = self.store(create=True, wait=taukremil.PATIENCE)
        store.put(b"a", b"1")
        pid = store.pid
        (self.folder / "link").symlink_to(self.path)
        for path in (self.path, self.folder / "link"):
            with self.assertRaisesRegex(ValueError, "to its own file$"):
                store.copy_to(path)
        for name in ("workers", "flan"):
            with self.assertRaisesRegex(TypeError, f"unknown setting {name}; the settings are fan, .*, segments, pairs$"):
                store.copy_to(self.copy, **{name: 2})
        with self.assertRaisesRegex(TypeError, "^pairs chooses .*: leave segments out$"):
            store.copy_to(self.copy, pairs=9, segments=9)
        self.assertEqual((store.unflushed, store.pid), (1, pid))

    def test_a_closed_store_is_not_copied(self) -> None:
        store = self.store(create=True)
        store.close()
        with self.assertRaisesRegex(StoreError, "closed"):
            store.copy_to(self.copy)
        self.assertFalse(self.copy.exists())

    def test_a_relative_path_is_one_of_the_present_folder(self) -> None:
        before = os.getcwd()
        self.addCleanup(os.chdir, before)
        store = self.store(create=True)
        os.chdir(self.folder)
        store.copy_to("copy")
        self.assertTrue(self.copy.exists())

    def test_a_copy_that_is_killed_is_no_copy(self) -> None:
        store = Store(self.path, create=True, program=self.program_that(KILLS_ITSELF))
        self.addCleanup(store.close)
        store.put(b"a", b"1")
        with self.assertRaises(Killed) as killed:
            store.copy_to(self.copy, fan=32)
        self.assertEqual(killed.exception.unflushed, 0)
        before = signal.signal(signal.SIGCHLD, signal.SIG_IGN)
        self.addCleanup(signal.signal, signal.SIGCHLD, before)
        with self.assertRaisesRegex(StoreError, "SIGCHLD"):
            store.copy_to(self.copy, fan=32)
        self.program_that(f"open({str(self.copy)!r}, 'wb').write(bytes(5_000))", KILLS_ITSELF)
        with self.assertRaisesRegex(StoreError, "SIGCHLD"):
            store.copy_to(self.copy, fan=32)
        self.program_that("pass")
        store.copy_to(self.copy, fan=32)
        with self.assertRaisesRegex(Refused, "fault 9 Device"):
            store.copy_to(self.copy, fan=32)
        self.assertEqual((store.scan(), self.copied().scan()), ([(b"a", b"1")], [(b"a", b"1")]))

    def test_a_process_that_locks_the_file_before_a_copy_is_waited_for(self) -> None:
        mark = self.folder / "mark"
        lock = f"if not os.path.exists({str(mark)!r}): file = os.open({str(self.path)!r}, os.O_RDONLY)"
        lock += f"; os.set_inheritable(file, True); fcntl.flock(file, fcntl.LOCK_EX); open({str(mark)!r}, 'w').close()"
        store = Store(self.path, create=True, program=self.program_that(lock))
        store.put(b"a", b"1")
        with self.assertRaises(Refused) as refused:
            store.copy_to(self.copy, fan=32)
        self.assertTrue(refused.exception.is_locked())
        self.assertFalse(self.copy.exists() and self.copy.read_bytes())
        self.assertEqual(store.scan(), [(b"a", b"1")])
        store.close()
        mark.unlink()
        with Store(self.path, program=self.program_that(lock), wait=taukremil.PATIENCE) as store:
            store.copy_to(self.copy, fan=32)
        self.assertEqual(self.copied().scan(), [(b"a", b"1")])

    def test_a_process_that_locks_the_file_after_a_copy_is_waited_for(self) -> None:
        mark = self.folder / "mark"
        lock = f"file = os.open({str(self.path)!r}, os.O_RDONLY); fcntl.flock(file, fcntl.LOCK_SH)"
        hold = f"    while os.path.exists({str(mark)!r}): time.sleep(0.01)"
        leave = ("if os.fork() == 0:", "    os.closerange(0, 3)", hold, "    os._exit(0)")
        program = self.program_that(lock, *leave, "os.close(file)")
        mark.touch()
        with Store(self.path, create=True, program=program) as store:
            store.put(b"a", b"1")
            with self.assertRaises(Refused) as refused:
                store.copy_to(self.copy, fan=32)
            self.assertTrue(refused.exception.is_locked())
            self.assertEqual(self.copied().scan(), [(b"a", b"1")])
            mark.unlink()
        with Store(self.path, program=program, wait=taukremil.PATIENCE) as store:
            mark.touch()
            threading.Timer(0.5, mark.unlink).start()
            store.copy_to(self.folder / "copy 2", fan=32)
            self.assertEqual(store.scan(), [(b"a", b"1")])
            mark.touch()
            with self.assertRaisesRegex(Refused, "fault 1 BadSettings"):  # though the store cannot be opened again at once
                store.copy_to(self.folder / "copy 3", fan=3)
            self.assertIsNone(store.pid)
            mark.unlink()
            self.assertEqual(store.scan(), [(b"a", b"1")])

    def test_copies_beside_threads_that_put(self) -> None:
        store = self.store(create=True)
        numbers, wrong = iter(range(4)), list[int]()

        def put() -> None:
            thread = next(numbers)
            for number in range(200):
                if not store.put(b"%d %03d" % (thread, number), b""):
                    wrong.append(number)

        def copy() -> None:
            for number in range(5):
                store.copy_to(self.folder / f"copy {number}")

        copying = threading.Thread(target=copy)
        copying.start()
        run_threads(put, 4)
        copying.join()
        self.assertEqual((wrong, len(store.scan())), ([], 800))
        for number in range(5):
            with Store(self.folder / f"copy {number}", program=PROGRAM) as made:
                keys = [key for key, _ in made]
                for thread in range(4):
                    own = [key for key in keys if key.startswith(b"%d " % thread)]
                    self.assertEqual(own, [b"%d %03d" % (thread, at) for at in range(len(own))])


class Ranges(StoreTest):
    """Tests calls that read a range by its prefix, or page by page."""

    def test_all_pairs_are_yielded_in_key_order(self) -> None:
        store = self.store(create=True)
        self.assertEqual(list(store), [])
        pairs = [(b"%05d" % number, b"%d" % number) for number in range(3_500)]
        for count in (999, 1_000, 1_001, 2_000, 3_500):
            store.load(pairs[:count])
            self.assertEqual(list(store), pairs[:count])
        self.assertEqual(dict(store), dict(pairs))
        first = next(iter(store))
        self.assertEqual(first, (b"00000", b"0"))

    def test_pages_of_any_size_have_all_pairs_once(self) -> None:
        store = self.store(create=True, max_key=2)
        keys = [b"", b"\0", b"\0\0", b"\0\xff", b"\1", b"*", b"a", b"a\0", b"a\xff", b"b", b"\xff\0", b"\xff\xfe", b"\xff\xff"]
        store.load((key, b"") for key in keys)
        for size in range(1, len(keys) + 2):
            with unittest.mock.patch("taukremil.store.PAGE_SIZE", size):
                self.assertEqual([key for key, _ in store], keys)

    def test_a_range_is_read_from_either_end(self) -> None:
        store = self.store(create=True, max_key=2)
        keys = [b"", b"\0", b"\0\xff", b"%", b"*", b"a", b"a\0", b"b", b"\xff\xff"]
        store.load((key, key) for key in keys)
        for lo in keys:
            for hi in (*keys, None):
                rows = [(key, key) for key in keys if lo <= key and (hi is None or key < hi)]
                for limit in range(len(rows) + 2):
                    self.assertEqual(store.scan(lo, hi, limit), rows[:limit])
                    self.assertEqual(store.scan_back(lo, hi, limit), rows[::-1][:limit])
        self.assertEqual(store.scan_back(), [(key, key) for key in reversed(keys)])
        with self.assertRaisesRegex(ValueError, "the lower bound has 3 bytes"):
            store.scan_back(b"abc")

    def test_each_key_has_a_next_one(self) -> None:
        for max_key, count in ((1, 257), (2, 65_793)):
            keys, key = [], b""
            following: bytes | None = key
            while following is not None:
                keys.append(following)
                following = next_key(following, max_key)
            self.assertEqual((len(keys), len(set(keys)), keys), (count, count, sorted(keys)))

    def test_writes_between_pages_are_seen_behind_the_position_alone(self) -> None:
        store = self.store(create=True)
        store.load((b"%04d" % number, b"") for number in range(2_500))
        seen = []
        for key, _ in store:
            seen.append(key)
            if key == b"0500":
                store.batch([Put(b"0000 late", b""), Put(b"1500 late", b""), Del(b"2000"), Wipe(b"2400")])
        expected = [b"%04d" % number for number in range(2_400) if number != 2_000]
        self.assertEqual(seen, sorted([*expected, b"1500 late"]))

    def test_membership_is_not_asked_by_comparing_all_pairs(self) -> None:
        store = self.store(create=True)
        store.put(b"a", b"1")
        with self.assertRaises(TypeError):
            b"a" in store  # type: ignore[operator]

    def test_a_prefix_is_that_of_the_keys_it_finds(self) -> None:
        store = self.store(create=True, max_key=3)
        letters = [b"\0", b")", b"*", b"+", b"a", b"b", b"\xfe", b"\xff"]
        words = [b"", *letters, *(one + other for one in letters for other in letters)]
        keys = sorted({*words, *(word + letter for word in words for letter in letters)})
        store.load((key, b"v") for key in keys)
        for word in words:
            rows = [(key, b"v") for key in keys if key.startswith(word)]
            self.assertEqual(store.prefix(word), rows)
            self.assertEqual(store.prefix(word, 3), rows[:3])
        self.assertEqual(store.batch([Wipe(*prefix_range(b"a")), Scan(*prefix_range(b"a"))]), [73, []])
        with self.assertRaisesRegex(TypeError, "keys and values must be bytes, not str$"):
            store.prefix("a")  # type: ignore[arg-type]
        with self.assertRaisesRegex(ValueError, "the lower bound has 4 bytes"):
            store.prefix(b"aaaa")


class Loads(StoreTest):
    def test_pairs_are_loaded_in_batches(self) -> None:
        store = self.store(create=True)
        pairs = [(b"%d" % number, b"value %d" % number) for number in range(1_000)]
        self.assertEqual(store.load(iter(pairs), size=300), 1_000)
        self.assertEqual(store.unflushed, 4)
        self.assertEqual(store.load(pairs[:500] + [(b"new", b"")], size=501), 1)
        self.assertEqual(store.unflushed, 5)
        self.assertEqual(store.load([]), 0)
        self.assertEqual(store.unflushed, 5)
        self.assertEqual(store.scan(), sorted([*pairs, (b"new", b"")]))
        for size in (0, 65_536):
            with self.assertRaisesRegex(ValueError, f"1 to 65535 pairs, not {size}"):
                store.load(pairs, size)

    def test_a_load_may_be_longer_than_pipes_hold(self) -> None:
        store = self.store(create=True, max_value=1_024, seg_size=1_048_576)
        pairs = [(b"%05d" % number, b"\xff" * 600) for number in range(20_000)]
        self.assertEqual(store.load(pairs, size=6_000), 20_000)
        self.assertEqual(store.scan(), pairs)
        self.assertEqual(store.load(pairs), 0)

    def test_the_next_batch_is_sent_before_the_answer_to_the_one_before(self) -> None:
        store = Store(self.path, program=self.program(ANSWERS_ONE_BATCH_LATE))
        watchdog = threading.Timer(taukremil.PATIENCE, kill, (store,))
        watchdog.start()
        self.assertEqual(store.load([(b"%d" % number, b"") for number in range(25)], size=10), 25)
        watchdog.cancel()
        self.assertEqual(store.unflushed, 3)
        store.close()

    def test_the_first_refusal_of_a_load_is_raised(self) -> None:
        store = Store(self.path, program=self.program(REFUSES_EACH_BATCH))
        with self.assertRaises(Refused) as refused:
            store.load([(b"%d" % number, b"") for number in range(9)], size=1)
        self.assertEqual((refused.exception.fault, store.unflushed), ("fault 2 KeyTooLong 1", 0))
        store.close()

    def test_a_wrong_pair_ends_a_load_after_the_batches_before(self) -> None:
        store = self.store(create=True, max_key=4)
        pid = store.pid
        pairs = [(b"%d" % number, b"") for number in range(100)]
        for wrong, kind in (((b"abcde", b""), ValueError), ((b"a", "b"), TypeError), ((b"a",), ValueError)):
            store.wipe()
            store.flush()
            with self.assertRaisesRegex(kind, "^pair 75: "):
                store.load([*pairs[:75], wrong, *pairs[75:]], size=30)  # type: ignore[list-item]
            self.assertEqual((store.unflushed, store.pid), (2, pid))
            self.assertEqual(store.scan(), sorted(pairs[:60]))

    def test_an_exception_of_the_iterator_ends_a_load_and_loses_nothing(self) -> None:
        store = self.store(create=True)

        def pairs() -> Iterator[Row]:
            for number in range(100):
                yield b"%d" % number, b""
                if number == 50:
                    store.get(b"0")

        with self.assertRaisesRegex(RuntimeError, "another call of this store is in progress"):
            store.load(pairs(), size=10)
        self.assertEqual((store.unflushed, len(store.scan())), (5, 50))

    def test_a_kill_in_a_load_loses_all_of_it(self) -> None:
        store = self.store(create=True)
        store.put(b"a", b"1")
        store.flush()
        store.put(b"b", b"2")

        def pairs() -> Iterator[Row]:
            for number in range(100):
                yield b"%d" % number, b""
                if number == 50:
                    kill(store)

        with self.assertRaises(Killed) as killed:
            store.load(pairs(), size=10)
        self.assertEqual(killed.exception.unflushed, 1)
        with self.assertRaises(Lost):
            store.load(pairs(), size=10)
        store.reopen()
        self.assertEqual(store.scan(), [(b"a", b"1")])
