"""Runs the tests of the Python client and the shell example."""

import os
import re
import shutil
import subprocess
import sys
from pathlib import Path

from tools.cases import SMALL_STORE, Case, Outcome, Programs
from tools.processes import TOP, new_folder

CLIENTS = TOP / "clients"
TESTS = {
    "calls": ("Replies", "Lasting", "Faults", "Checks", "Types", "Pipes"),
    "losses": ("Kills", "Losses"),
    "opening": ("Opening", "Copies", "Ranges", "Loads"),
}
PATIENCE = 300  # seconds
SESSIONS = 40  # of the shell example, which fill the log more than once


def run_tests(programs: Programs, name: str) -> Outcome:
    command = [sys.executable, "-B", "-W", "error", "-m", "unittest", name]
    environment = {**os.environ, "BWSH": str(programs.store)}
    ran = subprocess.run(command, cwd=CLIENTS / "python", env=environment, capture_output=True, timeout=PATIENCE)
    report = ran.stderr.decode(errors="replace").strip()
    return Outcome(measured=report.splitlines()[-3]) if ran.returncode == 0 else Outcome(report)


def run_install(programs: Programs) -> Outcome:
    with new_folder() as folder:
        environment, python = {**os.environ, "PYTHONDONTWRITEBYTECODE": "1"}, f"{folder}/venv/bin/python"
        if subprocess.run([sys.executable, "-m", "venv", f"{folder}/venv"], capture_output=True).returncode:
            return Outcome(left_out="there is no venv here")
        install = [python, "-m", "pip", "install", "--no-index", "--no-build-isolation", str(CLIENTS / "python")]
        use = "import sys, taukremil; print(taukremil.Store('store', create='missing', program=sys.argv[1]).put(b'a', b'1'))"
        for command in (install, [python, "-I", "-c", use, str(programs.store)]):
            ran = subprocess.run(command, cwd=folder, env=environment, capture_output=True, text=True, timeout=PATIENCE)
            if ran.returncode:
                return Outcome((ran.stdout + ran.stderr)[-1_000:])
        return Outcome(None if ran.stdout == "True\n" else ran.stdout)


def run_shell(programs: Programs) -> Outcome:
    if shutil.which("bash") is None:
        return Outcome(left_out="there is no bash here")
    with new_folder() as folder:
        path, last, cleans = Path(folder) / "store", 1, 0
        subprocess.run([programs.store, "--create", "--disk", path, *SMALL_STORE], stdin=subprocess.DEVNULL, check=True)
        for _ in range(SESSIONS):
            command = ["bash", str(CLIENTS / "shell/coproc.sh"), str(programs.store), str(path)]
            ran = subprocess.run(command, capture_output=True, timeout=PATIENCE)
            flushed = re.fullmatch(rb"the value is hello\nflushed (\d+)\n", ran.stdout)
            if not flushed or ran.returncode or ran.stderr or int(flushed[1]) <= last:
                return Outcome(f"status {ran.returncode}, output {ran.stdout!r}, errors {ran.stderr!r}")
            cleans += int(flushed[1]) - last - 1  # a clean uses a sequence number too
            last = int(flushed[1])
        return Outcome(None if cleans else "no flush had to clean", measured=f"{cleans} cleans")


def cases(programs: Programs) -> list[Case]:
    return [
        *[
            Case(f"the Python client: {name.lower()}", run_tests, (programs, f"test_{module}.{name}"))
            for module, names in TESTS.items()
            for name in names
        ],
        Case("the Python client is installed without a network", run_install, (programs,)),
        Case("the example in shell", run_shell, (programs,)),
    ]
