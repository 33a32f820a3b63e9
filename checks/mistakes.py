"""What users of `./build`, `./check` and `./dist` do wrong: each is answered by a sentence, and by no traceback."""

import shutil
import subprocess
import sys
import tempfile
from pathlib import Path

from tools.cases import Case, Outcome
from tools.processes import TOP, abbreviate

NO_KIT = {"PATH": "/nonexistent"}
KIT_MISSING = "there is no Rattle kit on this machine (no `rt` on the path)"


def run_script(top: Path, *words: str, environment: dict[str, str] | None = None) -> "subprocess.CompletedProcess[bytes]":
    command = [sys.executable, str(top / words[0]), *words[1:]]
    return subprocess.run(command, stdin=subprocess.DEVNULL, stdout=subprocess.PIPE, stderr=subprocess.STDOUT, env=environment, timeout=60)


def differs(ran: "subprocess.CompletedProcess[bytes]", sentence: str) -> Outcome:
    """The script has to end with status 1, and to print this sentence alone."""
    if (ran.returncode, ran.stdout) == (1, f"{sentence}\n".encode()):
        return Outcome()
    return Outcome(f"status {ran.returncode}, printed {abbreviate(ran.stdout)}; expected were 1 and {sentence!r}")


def check_unlisted_crate() -> Outcome:
    """A crate of one's own without a line in `crates.txt`."""
    with tempfile.TemporaryDirectory() as folder:
        top = Path(folder)
        for name in ("build", "crates.txt"):
            shutil.copy(TOP / name, top / name)
        shutil.copytree(TOP / "tools", top / "tools", ignore=shutil.ignore_patterns("__pycache__"))
        source = top / "crates/scheduler/src/main.rt"
        source.parent.mkdir(parents=True)
        source.write_text("fn main() {}\n")
        sentence = "crates.txt has no line for scheduler: add one with the libraries that it uses, such as `scheduler: engine keys anyhow`"
        return differs(run_script(top, "build", "scheduler"), f"build: {sentence}")


def check_unknown_program() -> Outcome:
    ran = run_script(TOP, "build", "bwsch")
    is_said = ran.returncode == 1 and ran.stdout.startswith(b"unknown: bwsch; known: ")
    return Outcome(None if is_said else f"status {ran.returncode}, printed {abbreviate(ran.stdout)}")


def check_unknown_part() -> Outcome:
    ran = run_script(TOP, "check", "--only", "archive of")
    is_said = ran.returncode == 1 and ran.stdout.startswith(b"check: no part's name contains 'archive of'; the parts are tests of the engine, ")
    return Outcome(None if is_said else f"status {ran.returncode}, printed {abbreviate(ran.stdout)}")


def check_no_kit(script: str, words: tuple[str, ...], sentence: str) -> Outcome:
    return differs(run_script(TOP, script, *words, environment=NO_KIT), f"{script}: {KIT_MISSING}, so nothing can be {sentence}")


# ---- A check that raises an exception.


def raise_error() -> Outcome:
    raise ValueError("this check is broken")


def exit_early() -> Outcome:
    sys.exit("this check ends its process")


def check_raised() -> Outcome:
    """A check that raises an exception, or ends its process, fails with its file and line."""
    outcomes = [Case("raises", raise_error).outcome(), Case("exits", exit_early).outcome()]
    texts = ["ValueError: this check is broken", "SystemExit: this check ends its process"]
    lines = [function.__code__.co_firstlineno + 1 for function in (raise_error, exit_early)]
    due = [f"checks/mistakes.py:{line}: {text}" for line, text in zip(lines, texts)]
    said = [outcome.wrong for outcome in outcomes]
    return Outcome(None if said == due else f"{said}, and not {due}")


def cases() -> list[Case]:
    return [
        Case("a crate without a line in crates.txt", check_unlisted_crate),
        Case("a program that is not known", check_unknown_program),
        Case("./build without the kit", check_no_kit, ("build", (), "built")),
        Case("./check without the kit", check_no_kit, ("check", ("--only", "archives"), "built or tested")),
        Case("./check --gate without the kit", check_no_kit, ("check", ("--gate",), "built or tested")),
        Case("./dist without the kit", check_no_kit, ("dist", ("--unproved",), "built")),
        Case("a part that is not known", check_unknown_part),
        Case("a check that raises an exception", check_raised),
    ]
