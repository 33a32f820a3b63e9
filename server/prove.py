#!/usr/bin/env python3
"""Proves the layers of the server that have proved contracts, as a library of its own in a copy. Then the prover has to refuse the deliberately broken
functions in `bodies`, whose form `checks/bodies.py` describes. The plan uses the crate `keys`, whose library the gate has built (or `rt ci`).

    server/prove.py [--text | --plan]       # --text: the text layer alone; --plan: also the buffers and the plan; without both: also peers and rounds
    server/prove.py --store                 # the layer of the store and the law above it, over the libraries of the engine and of all crates below it
    server/prove.py --plan --only plan::requests::read     # only these functions, without the broken ones
"""

import argparse
import dataclasses
import shutil
import subprocess
import sys
import tempfile
from dataclasses import dataclass
from pathlib import Path

HERE = Path(__file__).resolve().parent
TOP = HERE.parent
sys.path.insert(0, str(TOP))

from checks import bodies  # noqa: E402
from tools import kit  # noqa: E402

CRATE = "bwserve"
ROOT = "//! The layers of the server that have contracts.\n#![tactic(auto)]\n\n"


@dataclass(frozen=True)
class Part:
    """Layers that are proved together: their modules in `src`, `specs` and `proofs`, the kit's libraries that they use, and the engine's."""

    layers: tuple[str, ...]
    specs: tuple[str, ...]
    proofs: tuple[str, ...]
    uses: tuple[str, ...]
    crates: tuple[str, ...] = ()

    def and_(self, more: "Part") -> "Part":
        """Returns these layers, and more above them."""
        both = ("layers", "specs", "proofs", "uses", "crates")
        return Part(**{name: (*getattr(self, name), *getattr(more, name)) for name in both})

    def copy(self, workspace: Path) -> Path:
        crate = workspace / "crates" / CRATE
        named = {"src": self.layers, "specs": self.specs, "proofs": (*self.proofs, *self.layers)}
        for folder, names in named.items():
            for source in sorted((HERE / folder).rglob("*.in")):
                if source.relative_to(HERE / folder).parts[0].split(".")[0] in names:
                    made = crate / source.relative_to(HERE).with_suffix("")
                    made.parent.mkdir(parents=True, exist_ok=True)
                    made.write_text(source.read_text())
        (crate / "src/lib.rt").write_text(ROOT + "".join(f"pub mod {name};\n" for name in self.layers))
        (crate / "specs/Lib.antt").write_text("".join(f"pub mod {name}\n" for name in self.specs))
        (crate / "proofs/Lib.antt").write_text("".join(f"mod {name}\n" for name in self.proofs))
        self.copy_crates(workspace)
        return crate

    def copy_crates(self, workspace: Path) -> None:
        """Copies the engine's crates that these layers use, each with the library that the gate has built."""
        crates = read_crates()
        for name in self.crates:
            if not (TOP / "crates" / name / "out/rlib").is_dir():
                sys.exit(f"the library of {name} is missing: run `rt ci {name}` or `./check --gate` first")
            shutil.copytree(TOP / "crates" / name, workspace / "crates" / name)
        written = [f"{name}: {' '.join(crates[name])}" for name in self.crates]
        (workspace / "crates.txt").write_text("\n".join([*written, f"{CRATE}: {' '.join((*self.crates, *self.uses))}"]) + "\n")


TEXT = Part(("text",), ("Reading", "Text"), ("Arrays", "Digits", "Fronts", "LineWords", "Lines", "Numbers", "Requests", "Words"), ("itoa",))
BUFFERS = Part(("buffers",), ("Buffers", "History", "Kept"), ("Histories", "KeptBytes"), ("http_server",))
PLAN = Part(
    ("plan",),
    ("Asking", "Bounds", "Cursors", "Meaning", "OnKey", "Peer", "Plan", "Queues", "Uses", "Verbs"),
    ("AskingLemmas", "BoundLemmas", "CursorLemmas", "Meant", "OptionWords", "Planning", "Requested", "WordPairs"),
    ("thiserror",),
    ("keys",),
)
PEER = Part(("peer",), ("Next", "Taking"), ("Nexts", "Taking"), ())
ROUND = Part(("round",), ("Answering", "Answers", "Round"), ("Counting", "Rounds", "Turns", "Used", "Waiting"), ("slab",))
PLANS = TEXT.and_(BUFFERS).and_(PLAN)
ALL = PLANS.and_(PEER).and_(ROUND)
# The layer of the store, and the law of a server's life, which speak of the engine.
STORE = Part(("counters", "store", "laws"), ("Life", "Stored"), ("Lives", "StoredLemmas"), ())


def read_crates() -> dict[str, list[str]]:
    """Returns the libraries that each of the engine's crates uses."""
    lines = (TOP / "crates.txt").read_text().splitlines()
    return {name: used.split() for name, used in (line.split(": ", 1) for line in lines if not line.startswith("#"))}


def crates_up_to(crates: dict[str, list[str]], name: str) -> list[str]:
    """Returns this crate behind all crates that it uses, each once."""
    below = [crate for used in crates[name] if used in crates for crate in crates_up_to(crates, used)]
    return list(dict.fromkeys([*below, name]))


def with_store() -> Part:
    """Returns all layers, with those that speak of the engine."""
    engine = tuple(crate for crate in crates_up_to(read_crates(), "engine") if crate not in ALL.crates)
    return ALL.and_(dataclasses.replace(STORE, crates=engine))


def read_edit(path: Path) -> bodies.Edit:
    """Reads an edit of the server, in whose texts \\n stands for the end of a line."""
    edit = bodies.read_edit(path)
    changes = tuple((old, new.replace("\\n", "\n")) for old, new in edit.changes)
    return dataclasses.replace(edit, crate=CRATE, changes=changes)


def refuses_broken(workspace: Path, layers: tuple[str, ...]) -> bool:
    """Returns whether the prover refuses each broken function of these layers, and accepts the controls. Prints the verdicts."""
    edits = [read_edit(path) for path in sorted(HERE.glob("bodies/*.edit"))]
    verdicts = bodies.check_crate(kit.Workspace(workspace), [edit for edit in edits if edit.function.split("::")[0] in layers])
    print("\n".join(map(str, verdicts)), flush=True)
    return all(verdict.wrong is None for verdict in verdicts)


def is_proved(workspace: Path, crate: Path, only: list[str]) -> bool:
    """Returns whether the prover accepts the layers, or these functions of them. Prints what it prints, and its processor seconds."""
    status, printed, seconds = bodies.run_check(kit.Workspace(workspace), CRATE, crate, only)
    print(f"{printed.rstrip()}\n{CRATE}: {seconds:.0f} processor seconds", flush=True)
    return status == 0


def main() -> None:
    parser = argparse.ArgumentParser(description=__doc__, formatter_class=argparse.RawDescriptionHelpFormatter)
    parser.add_argument("--text", action="store_true", help="prove the text layer alone")
    parser.add_argument("--plan", action="store_true", help="prove the text layer, the buffers and the plan")
    parser.add_argument("--store", action="store_true", help="prove the layers that speak of the engine alone")
    parser.add_argument("--only", nargs="+", default=[], metavar="PATH", help="prove these functions alone")
    options = parser.parse_args()
    part = TEXT if options.text else PLANS if options.plan else with_store() if options.store else ALL
    layers = STORE.layers if options.store else part.layers
    only = options.only or (list(layers) if options.store else [])
    with tempfile.TemporaryDirectory() as folder:
        crate = part.copy(Path(folder))
        is_right = is_proved(Path(folder), crate, only) and (bool(options.only) or refuses_broken(Path(folder), layers))
    sys.exit(not is_right)


if __name__ == "__main__":
    main()
