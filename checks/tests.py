"""The engine's tests in Rattle, for behaviour that no contract states. `./build engine_tests` builds them without proofs."""

import re
import subprocess
from pathlib import Path

from tools import kit
from tools.cases import Case, Outcome, Programs

PATIENCE = 300  # seconds of a test
RESULT = re.compile(r"^test result: ok\. (\d+) passed; 0 failed; 0 ignored; 0 filtered out$", re.MULTILINE)


def run_all(program: Path) -> Outcome:
    ran = subprocess.run([kit.RATTLE_TEST, "--seconds", str(PATIENCE), program], capture_output=True, text=True, errors="replace")
    found = RESULT.search(ran.stdout)
    if ran.returncode or not found:
        return Outcome("\n".join(line for line in (ran.stdout + ran.stderr).splitlines() if not line.endswith("... ok"))[-2_000:])
    return Outcome(measured=f"{found[1]} tests")


def cases(programs: Programs) -> list[Case]:
    return [Case(f"the tests of {crate}", run_all, (program,)) for crate, program in programs.tests.items()]
