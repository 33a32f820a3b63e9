"""Runs programs whose system calls (`c/fail.c`) or allocations (`c/refuse.c`) fail."""

import errno
import itertools
import subprocess
import time
from collections.abc import Callable
from dataclasses import dataclass
from pathlib import Path

from tools.cases import Outcome
from tools.processes import PATIENCE, Command, abbreviate

FAIL, REFUSE = (Path(__file__).resolve().parent / "c" / name for name in ("fail.c", "refuse.c"))
ALWAYS = 1_000_000
REFUSED = b"<refused>"  # printed with each refusal
NO_MEMORY, DEVICE = b"fault 6 NoMemory\n", b"fault 9 Device\n"
BUDGET = 90  # seconds
# A session with an order of each kind.
TEXT = b"put %41 1\nget A\nscan % * 9\nverify\ndel A\nput B 1\nwipe A *\nget A\nupgrade\n"
ANSWERS = b"new\nvalue 1\nrows 1\nA 1\nok 1 1 1\ndeleted\nnew\nwiped 1\nmissing\nupgraded 2\n"


@dataclass(frozen=True)
class FailingCalls:
    call: str
    first: int = 0  # counted from 0
    count: int = ALWAYS
    error: int = errno.EIO
    cuts: bool = False  # reads and writes transfer single bytes
    wait: int = 0  # milliseconds more for each read and write of the file
    ends: bool = False  # the program ends before the first of these calls

    def environment(self, library: Path, file: object) -> dict[str, str]:
        numbers = {"FAIL_FROM": str(self.first), "FAIL_COUNT": str(self.count), "FAIL_ERROR": str(self.error), "FAIL_WAIT": str(self.wait)}
        words = {"LD_PRELOAD": str(library), "FAIL_CALL": self.call, "FAIL_FILE": str(file)}
        return {**words, **numbers, **({"FAIL_CUT": "1"} if self.cuts else {}), **({"FAIL_ENDS": "1"} if self.ends else {})}


def refusing(library: Path, number: int) -> dict[str, str]:
    return {"LD_PRELOAD": str(library), "REFUSE": str(number)}


def wrong_test(ran: subprocess.CompletedProcess[bytes]) -> str | None:
    errors = ran.stderr.replace(REFUSED, b"").strip().decode(errors="replace")[-200:]
    return f"status {ran.returncode}: {errors}" if ran.returncode else None


def wrong_session(ran: subprocess.CompletedProcess[bytes], answers: bytes, is_fault: Callable[[bytes], bool]) -> str | None:
    """A session must give all answers, or end by an allowed fault after whole lines of them."""
    out, err = ran.stdout, ran.stderr.replace(REFUSED, b"")
    is_done = (ran.returncode, out, err) == (0, answers, b"")
    is_beginning = answers.startswith(out) and (not out or out.endswith(b"\n"))
    is_refused = REFUSED in ran.stderr and ran.returncode == 4 and is_fault(err) and is_beginning
    return None if is_done or is_refused else f"status {ran.returncode}, output {abbreviate(out)}, errors {abbreviate(err)}"


def refuse_each(
    command: Command,
    library: Path,
    first: int,
    step: int,
    budget: float = BUDGET,
    text: bytes = b"",
    wrong_run: Callable[[subprocess.CompletedProcess[bytes]], str | None] = wrong_test,
    prepare: Callable[[], object] = lambda: None,
) -> Outcome:
    """Refuses every `step`-th allocation from `first` on, one in each run, for at most `budget` seconds."""
    failed: list[str] = []
    end = time.monotonic() + budget
    for number in itertools.count(first, step):
        if time.monotonic() > end:
            return Outcome(describe_failures(failed, number // step), f"the allocations from {number} on, since {budget:.0f} s have passed")
        prepare()
        ran = subprocess.run(command, env=refusing(library, number), input=text, capture_output=True, timeout=PATIENCE)
        wrong = wrong_run(ran)
        if REFUSED not in ran.stderr:
            break
        if wrong:
            failed.append(f"{number} ({wrong})")
    runs = (number - first) // step
    return Outcome(f"{wrong}, with none refused" if wrong else describe_failures(failed, runs), measured=f"{runs} runs")


def describe_failures(failed: list[str], runs: int) -> str | None:
    return f"of {runs} runs {len(failed)} failed, the first with allocation {failed[0]} refused" if failed else None
