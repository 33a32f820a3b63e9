"""Runs `ruff` and `mypy` on this repository's Python code, if they are installed."""

import shutil
import subprocess
from pathlib import Path

from tools.cases import Case, Outcome

CHECKED = ["build", "check", "checks", "tools", "bench", "clients/python", "examples", "server"]
COMMANDS = {"ruff": ["ruff", "check", "--no-cache", *CHECKED], "mypy": ["mypy", "--no-incremental", "--cache-dir=/dev/null"]}


def run_linter(top: Path, name: str) -> Outcome:
    if shutil.which(name) is None:
        return Outcome(left_out=f"{name} is not installed")
    ran = subprocess.run(COMMANDS[name], cwd=top, capture_output=True, text=True)
    return Outcome((ran.stdout + ran.stderr)[-2_000:]) if ran.returncode else Outcome()


def cases(top: Path) -> list[Case]:
    return [Case(name, run_linter, (top, name)) for name in COMMANDS]
