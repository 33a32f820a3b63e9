"""Checks the user pages: runs the commands and Python sessions that they show, looks for each code block of EMBEDDING and README in an example, and
follows each link.

In an indented block, a line `$ COMMAND` is a command, and the lines up to the next command are its output. A page's commands are run in order, in
one folder, where `out` has the built programs.
"""

import re
import subprocess
import sys
from collections.abc import Iterator
from dataclasses import dataclass
from pathlib import Path

from tools.cases import Case, Outcome, Programs
from tools.processes import TOP, abbreviate, new_folder

EXAMPLES = TOP / "examples"
PAGES = ["README.md", "docs/OPERATING.md", "examples/README.md"]
CLIENT = TOP / "clients/python"
NOT_RUN = ("./build", "./check", "cd crates/bwsh && rt ")  # they build the programs, or are the check itself
PATIENCE = 60  # seconds


@dataclass
class Command:
    line: int
    text: str
    due: str = ""


COMMAND = re.compile(r"( {4,})\$ (.*)")


def commands(page: str) -> Iterator[Command]:
    """Output is indented at least as far as its command."""
    found: Command | None = None
    indent, blanks = "", 0
    for number, line in enumerate(page.splitlines(), 1):
        begun = COMMAND.fullmatch(line)
        if begun or line and not line.startswith(indent):
            if found:
                yield found
            found, blanks = None, 0
        if begun:
            indent, found = begun[1], Command(number, begun[2])
        elif found and line:
            found.due += "\n" * blanks + line.removeprefix(indent) + "\n"
            blanks = 0
        else:
            blanks += 1
    if found:
        yield found


def link_programs(programs: Programs, folder: Path) -> None:
    (folder / "out").mkdir()
    (folder / "out/bwsh").symlink_to(programs.store)
    for source in EXAMPLES.glob("*/src"):
        name = source.parent.name
        (folder / "out" / name).symlink_to(programs.examples / name)


def run_command(command: Command, folder: Path) -> Outcome:
    for name in re.findall(r"\bout/(\w+)", command.text):
        if not (folder / "out" / name).exists():
            return Outcome(left_out=f"{name} isn't built")
    words = ["bash", "-c", command.text]
    ran = subprocess.run(words, cwd=folder, stdin=subprocess.DEVNULL, stdout=subprocess.PIPE, stderr=subprocess.STDOUT, timeout=PATIENCE)
    if ran.returncode == 0 and ran.stdout == command.due.encode():
        return Outcome()
    ended = f"status {ran.returncode}, printed {abbreviate(ran.stdout)}"
    return Outcome(f"line {command.line}, {command.text}: {ended}, where the page has {abbreviate(command.due.encode())}")


def run_page(programs: Programs, name: str) -> Outcome:
    with new_folder() as folder:
        link_programs(programs, Path(folder))
        for command in commands((TOP / name).read_text()):
            if command.text.startswith(NOT_RUN):
                continue
            outcome = run_command(command, Path(folder))
            if outcome.wrong or outcome.left_out:
                return outcome
    return Outcome()


def run_client(programs: Programs) -> Outcome:
    with new_folder() as folder:
        link_programs(programs, Path(folder))
        words = [sys.executable, "-m", "doctest", "-o", "ELLIPSIS", str(CLIENT / "README.md")]
        environment = {"PYTHONPATH": str(CLIENT), "PYTHONDONTWRITEBYTECODE": "1"}
        ran = subprocess.run(words, cwd=folder, env=environment, capture_output=True, text=True, timeout=PATIENCE)
        return Outcome((ran.stdout + ran.stderr)[-1_000:] if ran.returncode else None)


# ---- The code of docs/EMBEDDING.md and README.md.


def indented(text: str) -> list[str]:
    blocks = re.findall(r"(?:^    .*\n(?:\n+(?=    ))?)+", text, re.MULTILINE)
    return [re.sub(r"^    ", "", block, flags=re.MULTILINE) for block in blocks]


def find_functions(page: str) -> Outcome:
    sources = [path.read_text() for path in sorted(EXAMPLES.glob("*/src/*.rt.in"))]
    for block in indented((TOP / page).read_text()):
        # The page indents a part of a function differently, and a block with commands is run.
        lines = [line.strip() for line in block.splitlines()]
        is_run = any(line.startswith("$ ") for line in lines)
        if not is_run and not any(block in source or ("fn " not in block and all(line in source for line in lines)) for source in sources):
            return Outcome(f"no example has {abbreviate(block.encode())}")
    return Outcome()


# ---- Links.

LINK = re.compile(r"\]\(([^)\s]+)\)")


def anchors(page: str) -> set[str]:
    """Returns the anchors of a page's headings, by GitHub's rules."""
    headings = re.findall(r"^#+ (.+)$", page, re.MULTILINE)
    return {re.sub(r"[^\w\- ]", "", heading.lower()).replace(" ", "-") for heading in headings}


def follow_links() -> Outcome:
    wrong = []
    for page in sorted(path for path in TOP.rglob("*.md") if "out" not in path.parts):
        for target in LINK.findall(page.read_text()):
            name, _, anchor = target.partition("#")
            path = (page.parent / name).resolve() if name else page
            if "://" in target:
                continue
            if not path.exists() or anchor and anchor not in anchors(path.read_text()):
                wrong.append(f"{page.relative_to(TOP)}: {target}")
    return Outcome(f"these lead nowhere: {', '.join(wrong)}" if wrong else None)


def cases(programs: Programs) -> list[Case]:
    pages = [Case(f"the commands of {name}", run_page, (programs, name)) for name in PAGES]
    client = Case("the session of clients/python/README.md", run_client, (programs,))
    code = [Case(f"the code of {name}", find_functions, (name,)) for name in ("docs/EMBEDDING.md", "README.md")]
    return [*pages, client, *code, Case("the links of all pages", follow_links)]
