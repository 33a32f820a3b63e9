"""Upgrades of stores in files: their bytes by docs/FORMAT.md, and recovery after a kill."""

import random
from collections.abc import Callable
from pathlib import Path

from tools.answers import READ_ALL, Ending
from tools.cases import Case, Outcome, Programs, differs, first_difference
from tools.drawn_batches import drawn_batches
from tools.log.reading import LoggedPage, pages_by_log, read_log, read_settings, read_slot
from tools.log.writing import Slot, append, delta_index, delta_leaf, shared_index, shared_leaf
from tools.processes import PATIENCE, Command, new_folder, run, run_until

SEEDS, KILLS = 4, 10
PAIRS = 60_000  # of the stores whose upgrades are killed
SETTINGS = ["--fan", "4", "--chain", "2", "--max-value", "16", "--segments", "256"]
ALREADY_UPGRADED = (4, b"", b"fault 19 AlreadyUpgraded\n")
FURTHER = b"add new 1\nflush\nclean\ndel new\nflush\n"  # lines for an upgraded store; the answers have two sequence numbers
ANSWERS = b"added\nflushed %d\ncleaned 1\ndeleted\nflushed %d\n"


def upgraded_frames(pid: int, page: LoggedPage) -> list[bytes]:
    encoders: dict[bool, tuple[Callable[..., bytes], Callable[..., bytes]]] = {True: (shared_leaf, delta_leaf), False: (shared_index, delta_index)}
    base, delta = encoders[page.is_leaf()]
    return [base(pid, page.base.low, dict(page.base.cells)), *[delta(pid, dict(each.cells)) for each in page.runs]]


def upgraded_disk(disk: bytes) -> bytes:
    settings = read_settings(disk)
    slot = read_slot(disk, settings)
    pages = pages_by_log(read_log(disk, slot, settings))
    frames = [frame for pid in sorted(pages) for frame in upgraded_frames(pid, pages[pid])]
    return append(settings, disk, slot, frames, 2)


def answer_to_upgrade(slot: Slot) -> bytes:
    return b"upgraded %d\n" % (slot.sequence + 1)


def make(programs: Programs, path: Path, text: bytes, *words: str) -> tuple[bytes, Slot, Ending]:
    ran = run([programs.store, "--disk", path, "--create", *words], text + b"flush\n")
    if ran.status:
        raise ValueError(f"the file was not made: {ran.describe()}")
    disk, result = path.read_bytes(), run([programs.store, "--disk", path], READ_ALL)
    return disk, read_slot(disk, read_settings(disk)), (result.status, result.out, result.err)


def upgrade(programs: Programs, seed: int) -> Outcome:
    chance = random.Random(seed)
    text, _ = drawn_batches(chance, batches=8, most=300, keys=400)
    size = chance.choice([512, 1024, 4096])
    command: Command = [programs.store, "--disk"]
    with new_folder() as folder:
        path = Path(folder) / "file"
        before, slot, ending = make(programs, path, text, *SETTINGS, "--seg-size", str(size))
        expected = upgraded_disk(before)
        wrong = differs(run([*command, path], b"upgrade\n"), 0, answer_to_upgrade(slot))
        after = path.read_bytes()
        if wrong is None and after != expected:
            at = first_difference(after, expected)
            wrong = f"other bytes from {at} on: {after[at : at + 40].hex()}, where {expected[at : at + 40].hex()} were expected"
        wrong = wrong or differs(run([*command, path], b"upgrade\n"), *ALREADY_UPGRADED)
        wrong = wrong or (None if path.read_bytes() == after else "a second upgrade wrote to the file")
        wrong = wrong or differs(run([*command, path], READ_ALL), *ending)
        wrong = wrong or differs(run([*command, path], FURTHER), 0, ANSWERS % (slot.sequence + 2, slot.sequence + 4))
        wrong = wrong or differs(run([*command, path], b"upgrade\n"), *ALREADY_UPGRADED)
        return Outcome(wrong, measured=f"{slot.tail - slot.head * size} bytes of log, {size} a segment")


def kill(programs: Programs, path: Path, delay: float) -> tuple[bytes, float]:
    """Kills a session `delay` seconds after its upgrade began. Returns its output and run time."""
    text, out = path.with_name("text"), path.with_name("out")
    text.write_bytes(b"get k\nupgrade\n")
    _, seconds = run_until([programs.store, "--disk", path], text, out, delay=delay)
    return out.read_bytes(), seconds


def check_killed(programs: Programs, path: Path, out: bytes, slot: Slot, ending: Ending) -> tuple[bool, str | None]:
    """Returns whether the upgrade was complete, and an error."""
    disk = path.read_bytes()
    is_done = read_slot(disk, read_settings(disk)).version == 2
    wrong = "an upgrade was reported that was not recovered" if answer_to_upgrade(slot) in out and not is_done else None
    wrong = wrong or differs(run([programs.store, "--disk", path], READ_ALL), *ending)
    expected = ALREADY_UPGRADED if is_done else (0, answer_to_upgrade(slot), b"")
    return is_done, wrong or differs(run([programs.store, "--disk", path], b"upgrade\n"), *expected)


def kill_upgrades(programs: Programs, seed: int) -> Outcome:
    chance, done = random.Random(seed), 0
    text = b"".join(b"put k%x %d\n" % (number, number) for number in range(PAIRS))
    with new_folder() as folder:
        path = Path(folder) / "file"
        before, slot, ending = make(programs, path, text, "--fan", "32")
        _, whole = kill(programs, path, PATIENCE)
        for number in range(KILLS):
            path.write_bytes(before)
            out, _ = kill(programs, path, 1.5 * whole * chance.random())
            is_done, wrong = check_killed(programs, path, out, slot, ending)
            done += is_done
            if wrong:
                return Outcome(f"kill {number} of seed {seed}: {wrong}")
    return Outcome(measured=f"{done} of {KILLS} were done; each takes {whole * 1000:.0f} ms")


def cases(programs: Programs) -> list[Case]:
    return [
        *[Case(f"the bytes of an upgrade, seed {seed}", upgrade, (programs, seed)) for seed in range(1, SEEDS + 1)],
        *[Case(f"{KILLS} kills in upgrades, seed {seed}", kill_upgrades, (programs, seed)) for seed in range(1, SEEDS + 1)],
    ]
