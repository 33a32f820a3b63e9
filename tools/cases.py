"""Test cases and their outcomes."""

import traceback
from collections.abc import Callable
from dataclasses import dataclass, field
from pathlib import Path
from typing import Any

from tools.processes import TOP, RunResult, abbreviate

SLOW = 4  # factor of time limits, for slow machines
# A store whose pages and log fill up soon.
SMALL_STORE = ("--fan=4", "--chain=2", "--max-key=16", "--max-value=16", "--seg-size=256", "--segments=4")


@dataclass(frozen=True)
class Programs:
    store: Path  # `bwsh`
    tests: dict[str, Path] = field(default_factory=dict)
    examples: Path = Path("examples/out")


@dataclass(frozen=True)
class Outcome:
    wrong: str | None = None
    left_out: str | None = None  # why the case was skipped
    measured: str = ""


def describe(error: BaseException) -> str:
    """Returns the kind and the text of an exception, and the last file and line of this repository that it came through."""
    frames = traceback.extract_tb(error.__traceback__)
    own = [frame for frame in frames if Path(frame.filename).is_relative_to(TOP)] or frames
    place = f"{own[-1].filename.removeprefix(f'{TOP}/')}:{own[-1].lineno}: " if own else ""
    return f"{place}{type(error).__name__}: {error}"


@dataclass(frozen=True)
class Case:
    """A case is sent to another process, so `check` must be a module-level function."""

    name: str
    check: Callable[..., Outcome]
    arguments: tuple[Any, ...] = ()

    def outcome(self) -> Outcome:
        try:
            return self.check(*self.arguments)
        except (Exception, SystemExit) as error:
            return Outcome(describe(error))


def differs(result: RunResult, status: int, out: bytes, err: bytes = b"") -> str | None:
    """Describes the difference from the expected result, if any."""
    if (result.status, result.out, result.err) == (status, out, err):
        return None
    return f"{result.describe()}; expected were status {status}, output {abbreviate(out)}, errors {abbreviate(err)}"


def first_difference(left: bytes, right: bytes) -> int:
    """Returns the first index that differs, or the shorter length."""
    return next((at for at, pair in enumerate(zip(left, right)) if pair[0] != pair[1]), min(len(left), len(right)))
