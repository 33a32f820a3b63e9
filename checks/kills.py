"""Sessions that are killed on a file in memory."""

import contextlib
import io
from pathlib import Path

from tools.cases import Case, Outcome, Programs
from tools.kills import KillOptions, kill_often
from tools.processes import new_folder

SEEDS = 4
OPTIONS = KillOptions(kills=10, lives=4, batches=3_000)


def kill_sessions(programs: Programs, seed: int) -> Outcome:
    options = KillOptions(OPTIONS.kills, OPTIONS.lives, OPTIONS.batches, seed)
    with new_folder() as folder, contextlib.redirect_stderr(io.StringIO()):
        try:
            wrongs, further = kill_often([programs.store], options, Path(folder))
        except SystemExit as ended:
            return Outcome(str(ended))
    measured = f"{further[0]} recovered the last flush that was reported, {further[1]} one more"
    return Outcome("; ".join(wrongs) or None, measured=measured)


def cases(programs: Programs) -> list[Case]:
    return [Case(f"{OPTIONS.kills} kills, seed {seed}", kill_sessions, (programs, seed)) for seed in range(1, SEEDS + 1)]
