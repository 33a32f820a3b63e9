"""Runs `crew_bench` or its peer with one of the libraries of `crew/` preloaded, which measure the calls of batches alone."""

import shutil
import subprocess
import sys
from pathlib import Path

from tools.processes import Command

SOURCES = Path(__file__).resolve().parent / "crew"
COUNTED, STAMPED, REQUESTS = "counted.c", "stamped.c", "requests.c"


def build_preloaded(name: str, folder: Path) -> Path:
    library = folder / Path(name).with_suffix(".so")
    compiler = shutil.which("gcc") or shutil.which("cc") or sys.exit("there is no C compiler")
    subprocess.run([compiler, "-O2", "-shared", "-fPIC", "-o", library, SOURCES / name], check=True)
    return library


def run_preloaded(command: Command, *libraries: Path) -> str:
    """Returns the program's standard error."""
    environment = {"LD_PRELOAD": " ".join(map(str, libraries))}
    ran = subprocess.run(command, env=environment, stdout=subprocess.DEVNULL, stderr=subprocess.PIPE, text=True, errors="replace")
    if ran.returncode:
        sys.exit(f"{command} ended with {ran.returncode}: {ran.stderr}")
    return ran.stderr


def reported(command: Command, library: Path) -> dict[str, list[float]]:
    """Returns the numbers that the library reports for each phase."""
    lines = [line.split() for line in run_preloaded(command, library).splitlines()]
    return {phase: [float(number) for number in numbers] for phase, *numbers in lines}
