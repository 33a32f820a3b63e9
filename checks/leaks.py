"""Sessions under valgrind, which must not leak memory. They split and merge leaves, with one and several workers, and upgrade."""

import random
import shutil
import subprocess
from pathlib import Path

from tools.cases import Case, Outcome, Programs
from tools.drawn_batches import drawn_batches
from tools.processes import abbreviate, new_folder

VALGRIND = ["valgrind", "--quiet", "--leak-check=full", "--show-leak-kinds=all", "--errors-for-leak-kinds=all", "--error-exitcode=99"]
SETTINGS = ["--fan", "4", "--chain", "2", "--grain", "1", "--segments", "4"]
PATIENCE = 120


def leak(programs: Programs, workers: int) -> Outcome:
    if shutil.which("valgrind") is None:
        return Outcome(left_out="there is no valgrind on this machine")
    text, answers = drawn_batches(random.Random(workers), batches=8, most=120, keys=400)
    with new_folder() as folder:
        words = [*SETTINGS, "--workers", str(workers), "--create", "--disk", str(Path(folder) / "file")]
        ran = subprocess.run([*VALGRIND, programs.store, *words], input=text + b"flush\nupgrade\nverify\n", capture_output=True, timeout=PATIENCE)
    if ran.returncode or not ran.stdout.startswith(answers + b"flushed 2\nupgraded 3\nok "):
        return Outcome(f"status {ran.returncode}, output {abbreviate(ran.stdout)}, errors {ran.stderr.decode(errors='replace')[:2000]}")
    return Outcome()


def cases(programs: Programs) -> list[Case]:
    return [Case(f"nothing is leaked, {workers} workers", leak, (programs, workers)) for workers in (1, 3)]
