"""Mutation tests of the contracts: the prover must refuse deliberately broken functions, and accept equivalent changes.

    python3 -m checks.bodies [--unbroken] [CRATE | CRATE/NAME ..]    # at the top of a repository whose libraries the gate has built

Each file `bodies/CRATE/NAME.edit` changes the body of one function, and describes the change in its first line. `file:` names the source; each
`old:` is a text that occurs there once, and `new:` replaces it. `function:` is the function's name as the prover prints it. `refused:` is the goal
or clause at which the prover must refuse the function, and `accepted:` marks a control, which it must accept. Only the changed functions are
checked. The gate has proved the others, so here their bodies are removed, and their proofs are replaced by terms that the prover refuses. So a
control must be a function that calls none of them.

With `--unbroken` the functions are checked in the same copies without their edits, and no goal may be refused. So a refusal with the edit is caused
by the edit. Run this for a new edit; `./check --gate` does not.
"""

import os
import re
import shutil
import subprocess
import sys
import tempfile
import time
from collections.abc import Iterator
from concurrent.futures import ThreadPoolExecutor
from dataclasses import dataclass
from pathlib import Path

from tools import kit

TOP = Path(__file__).resolve().parent.parent
EDITS = Path(__file__).resolve().parent / "bodies"
PARTS = ("src", "specs", "proofs")
PROOF_FILES = ("Answers.antt", "Invariants.antt")
REFUSED_PROOF = """use Rattle.{crate}.proofs.{path}.Statement.{{statement}}

pub {name}_spec : {{M : Type 1}} → statement M
{name}_spec = unproved
"""
TYPE = re.compile(r"^(?:pub(?:\(\w+\))? )?(?:struct|enum) (\w+)", re.MULTILINE)
# A type's own methods, if the type has no parameters but the block's.
IMPL = re.compile(r"impl(?:<.*>)? (\w+)(?:<'?\w(?:, '?\w)*>)? \{")
BLOCK = re.compile(r"(?:pub(?:\(\w+\))? )?(?:impl|trait)\b")
FUNCTION = re.compile(r"((?:    )?)(?:pub(?:\(\w+\))? )?fn (\w+)")
# An error at a proof step that cites a name which the edit removed.
OF_FORM = re.compile(r"has no field|is not in scope|has no `|was not admitted|depends on")


@dataclass(frozen=True)
class Edit:
    crate: str
    name: str
    reason: str
    file: str
    changes: tuple[tuple[str, str], ...]
    function: str
    goal: str | None  # None for a control

    @property
    def is_control(self) -> bool:
        return self.goal is None

    @property
    def label(self) -> str:
        return f"{self.crate}/{self.name}"

    def apply(self, folder: Path) -> str | None:
        """Returns an error if the edit does not apply."""
        path = folder / self.file
        text = path.read_text()
        for old, new in self.changes:
            if text.count(old) != 1:
                return f"'{old}' occurs {text.count(old)} times in {self.file}"
            text = text.replace(old, new)
        path.write_text(text)
        return None


@dataclass(frozen=True)
class Verdict:
    edit: Edit
    wrong: str | None
    right: str
    check: str = ""  # edits of different functions share a check
    seconds: float = 0  # of the processor, for that check

    def __str__(self) -> str:
        ending = self.wrong or self.right
        return f"{'FAILED ' * (self.wrong is not None)}{self.edit.label}: {ending} (a check of {self.seconds:.0f} s)"


def seconds_of(verdicts: list[Verdict]) -> float:
    """Returns the processor seconds of these checks."""
    return sum({verdict.check: verdict.seconds for verdict in verdicts}.values())


def read_edit(path: Path) -> Edit:
    lines = path.read_text().splitlines()
    fields = [line.split(": ", 1) for line in lines[1:] if ": " in line]
    by_name = {name: text for name, text in fields}
    changes = [text for name, text in fields if name in ("old", "new")]
    is_control = "accepted" in by_name
    return Edit(
        path.parent.name,
        path.stem,
        lines[0],
        by_name["file"],
        tuple(zip(changes[::2], changes[1::2], strict=True)),
        by_name["function"],
        None if is_control else by_name["refused"],
    )


def all_edits() -> list[Edit]:
    return [read_edit(path) for path in sorted(EDITS.glob("*/*.edit"))]


def groups_of(edits: list[Edit]) -> list[list[Edit]]:
    groups: list[list[Edit]] = []
    for edit in edits:
        group = next((group for group in groups if fits(edit, group)), None)
        if group is None:
            groups.append([edit])
        else:
            group.append(edit)
    return groups


def fits(edit: Edit, group: list[Edit]) -> bool:
    return edit.function not in {other.function for other in group}


@dataclass(frozen=True)
class Function:
    name: str  # as the prover prints it
    body: slice  # its lines


def functions_of(lines: list[str], module: str, modules: dict[str, str]) -> Iterator[Function]:
    """Yields the functions of a module whose source is formatted, and its methods of the types of `modules`. Leaves out methods of traits, and
    functions that call one another."""
    holders: dict[str, str | None] = {"": module, "    ": None}
    for at, line in enumerate(lines):
        if BLOCK.match(line):
            kind = IMPL.fullmatch(line if line.endswith("{") else f"{line} {{")  # a clause `where` may follow
            holders["    "] = f"{modules[kind[1]]}{kind[1]}::" if kind and kind[1] in modules else None
        found = FUNCTION.match(line)
        if found and (holder := holders[found[1]]) is not None and not lines[at - 1].lstrip().startswith("#[cycle"):
            body = body_of(lines, at, found[1])
            if body:
                yield Function(holder + found[2], body)


def body_of(lines: list[str], at: int, indent: str) -> slice | None:
    """Returns the lines between the braces of the function that begins here, unless the braces are on one line."""
    ends = (f"{indent}{{", f"{indent})")
    begin = next(i for i in range(at, len(lines)) if lines[i].endswith(("{", "{}")) and (i == at or lines[i].startswith(ends)))
    return slice(begin + 1, lines.index(f"{indent}}}", begin)) if lines[begin].endswith("{") else None


def module_of(file: Path) -> str:
    """Returns the path of a module, below `src`, before the names in it."""
    parts = file.with_suffix("").parts
    return "" if file.name in ("lib.rt", "main.rt") else "::".join(parts) + "::"


def leave_out_bodies(folder: Path, kept: set[str]) -> list[str]:
    """Removes the bodies of all functions except `kept` and those that call themselves. Returns the names of the functions without a body."""
    source, proofs = folder / "src", folder / "proofs"
    recursive = {"::".join(file.relative_to(proofs).parts).replace("+", "") for file in proofs.rglob("+*")}
    texts = {file: file.read_text() for file in sorted(source.rglob("*.rt"))}
    modules = {name: module_of(file.relative_to(source)) for file, text in texts.items() for name in TYPE.findall(text)}
    left_out = []
    for file, text in texts.items():
        lines = text.splitlines()
        functions = [it for it in functions_of(lines, module_of(file.relative_to(source)), modules) if it.name not in kept | recursive]
        for function in reversed(functions):
            lines[function.body] = ["unreachable!()"]
        file.write_text("\n".join(lines) + "\n")
        left_out += [function.name for function in functions]
    return left_out


def leave_out_proofs(folder: Path, crate: str, left_out: list[str], kept: set[str]) -> None:
    """Replaces the proof of each function that is left out or has proof files, except the kept ones, by a term that the prover refuses. A hole would
    do, but the prover prints the goal of a hole, which takes seconds."""
    proofs = folder / "proofs"
    with_files = {file.parent for name in PROOF_FILES for file in proofs.rglob(name)}
    for function in with_files | {proofs.joinpath(*name.split("::")) for name in left_out}:
        path = ".".join(function.relative_to(proofs).parts)
        if path.replace(".", "::") in kept:
            continue
        function.mkdir(parents=True, exist_ok=True)
        for name in PROOF_FILES:
            (function / name).unlink(missing_ok=True)
        (function / "Proof.antt").write_text(REFUSED_PROOF.format(crate=crate, path=path, name=function.name))


def run_check(workspace: kit.Workspace, crate: str, folder: Path, functions: list[str]) -> tuple[int, str, float]:
    """Returns the prover's exit status, output and processor seconds."""
    names = [word for function in functions for word in ("--only", function)]
    words: list[str | Path] = [kit.RATTLE, "check", *workspace.check_words(crate), *names]
    pipe, errors, nothing = subprocess.PIPE, subprocess.STDOUT, subprocess.DEVNULL
    with subprocess.Popen(words, cwd=folder, stdin=nothing, stdout=pipe, stderr=errors, text=True, errors="replace") as prover:
        printed = prover.stdout.read() if prover.stdout else ""
        _, status, usage = os.wait4(prover.pid, 0)
        prover.returncode = os.waitstatus_to_exitcode(status)
    return prover.returncode, printed, usage.ru_utime + usage.ru_stime


def error_of(edit: Edit, is_broken: bool, status: int, printed: str) -> str | None:
    full_name = f"fn {edit.crate}::{edit.function}"
    line = next((line for line in printed.splitlines() if line.startswith(f"{full_name}:")), None)
    if line is None:
        return f"the prover has no line '{full_name}: ..'; its last line: {printed.rstrip().rsplit(chr(10), 1)[-1]}"
    if not is_broken:
        refused_at = refusals_of(edit, line, printed)
        return f"refused without the edit, at {'; '.join(refused_at)}" if refused_at else None
    is_accepted = line == f"{full_name}: proved"
    refused_at = refusals_of(edit, line, printed)
    if edit.is_control:
        return None if is_accepted else f"the right function is refused: {'; '.join(refused_at) or line}"
    if is_accepted:
        return "the broken function is accepted"
    if status != 1 or edit.goal not in refused_at:
        return f"refused, but not at '{edit.goal}': {'; '.join(refused_at) or line}"
    return None


def refusals_of(edit: Edit, line: str, printed: str) -> list[str]:
    """Returns the goals that were not proved. Proof steps that cite a name which the edit removed do not count: they say nothing about a
    contract."""
    found = re.search(r"did not prove ((?:`[^`]+`(?:, )?)+)", line)
    goals = re.findall(r"`([^`]+)`", found[1]) if found else []
    folder = f"proofs/{edit.function.replace('::', '/')}/"
    for error in printed.splitlines():
        at_goal = re.match(r"(\S+):\d+:\d+: error: `([^`]+)`: (.*)", error)
        if at_goal and folder in at_goal[1] and not OF_FORM.search(at_goal[3]):
            goals.append(at_goal[2])
    return goals


def right_ending(edit: Edit, is_broken: bool) -> str:
    if not is_broken:
        return "no goal is refused without the edit"
    return "accepted, as it is right" if edit.is_control else "refused, as it is broken"


def check_group(workspace: kit.Workspace, group: list[Edit], is_broken: bool) -> list[Verdict]:
    crate, functions = group[0].crate, [edit.function for edit in group]
    with tempfile.TemporaryDirectory(prefix="bodies-") as room:
        folder = Path(room)
        for part in PARTS:
            if (workspace.top / "crates" / crate / part).is_dir():
                shutil.copytree(workspace.top / "crates" / crate / part, folder / part)
        wrong = {edit.label: edit.apply(folder) if is_broken else None for edit in group}
        leave_out_proofs(folder, crate, leave_out_bodies(folder, set(functions)), set(functions))
        status, printed, seconds = run_check(workspace, crate, folder, functions)
    return [
        Verdict(edit, wrong[edit.label] or error_of(edit, is_broken, status, printed), right_ending(edit, is_broken), group[0].label, seconds)
        for edit in group
    ]


def check_crate(workspace: kit.Workspace, edits: list[Edit], is_broken: bool = True) -> list[Verdict]:
    return [verdict for group in groups_of(edits) for verdict in check_group(workspace, group, is_broken)]


def chosen(edits: list[Edit], names: list[str]) -> list[Edit]:
    return [edit for edit in edits if not names or edit.crate in names or edit.label in names]


def by_crate(edits: list[Edit]) -> dict[str, list[Edit]]:
    """Returns the edits of each crate that has some."""
    crates: dict[str, list[Edit]] = {}
    for edit in edits:
        crates.setdefault(edit.crate, []).append(edit)
    return crates


def check_all(names: list[str], lanes: int, is_broken: bool = True) -> bool:
    """Checks the named edits, or all, and prints each verdict. Returns whether none failed."""
    workspace = kit.Workspace(TOP)
    # The crates with the largest libraries take longest, so they start first.
    crates = sorted(by_crate(chosen(all_edits(), names)).values(), key=lambda edits: -len(workspace.crates[edits[0].crate].below()))
    judged, failed, start = 0, 0, time.monotonic()
    with ThreadPoolExecutor(lanes) as pool:
        for verdicts in pool.map(lambda edits: check_crate(workspace, edits, is_broken), crates):
            judged, failed = judged + len(verdicts), failed + sum(verdict.wrong is not None for verdict in verdicts)
            print("\n".join(map(str, verdicts)), flush=True)
    print(f"bodies: {judged - failed} passed, {failed} failed, in {time.monotonic() - start:.0f} s", flush=True)
    return failed == 0


if __name__ == "__main__":
    words = sys.argv[1:]
    sys.exit(0 if check_all([word for word in words if word != "--unbroken"], kit.processors(), "--unbroken" not in words) else 1)
