"""Draws summary.svg from the figures in goals.json, and puts the same figures into README.md as a table of ten rows."""

import json
import sys
from collections.abc import Iterable
from pathlib import Path
from typing import Any

sys.path.insert(0, str(Path(__file__).resolve().parent.parent))

from bench import plot

HERE = Path(__file__).resolve().parent
BIG, SMALL, MAP, LOGGED = "fan 64, chain 16", "defaults", "BTreeMap", "BTreeMap and a log of commands"
MANY, FEW = "65,535 a commit", "1,000 a commit"
SPEEDS = {  # this plot's names for the rows of goals.json
    "put": "load",
    "get": "gets",
    "gets and puts in turn": "half gets, half puts",
    "delete": "deletes of all keys",
    "put, one a batch": "puts, one a batch",
    "range of 100 pairs": "ranges of 100 rows, by `Store::range`",
}
OTHERS = {"LMDB": "LMDB", "LevelDB": "LevelDB", "RocksDB": "RocksDB", "SQLite, WAL, FULL": "SQLite"}
Figures = dict[str, Any]


def row_of(figures: Figures, name: str) -> dict[str, float]:
    return next((row["figures"] for row in figures["rows"] if row["name"] == name), {})


def durable(figures: Figures, store: str, commits: str, of: str) -> float | None:
    taken = figures.get("persistent", {}).get("stores", {}).get(store, {}).get(commits)
    return taken[of] if taken else None


def rate(figures: Figures, store: str, commits: str) -> float | None:
    seconds = durable(figures, store, commits, "load")
    return figures["persistent"]["pairs"] / seconds if seconds else None


def cells(values: Iterable[float | None], form: str = ",.0f") -> list[str]:
    return ["" if value is None else format(value, form) for value in values]


def table(figures: Figures) -> list[str]:
    """Returns the header and ten rows: six speeds, memory, and three persistent stores, one of which is the map with a log."""
    ours, stores = (BIG, SMALL, MAP), (BIG, SMALL, LOGGED, *OTHERS)
    rows = [["figure", f"Taukremil, {BIG}", f"Taukremil, {SMALL}", MAP, *OTHERS.values()]]
    rows.append(["---"] * len(rows[0]))
    for name, of in SPEEDS.items():
        rows.append([f"{name}, ns", *cells(row_of(figures, of).get(program) for program in ours)])
    memory = row_of(figures, "memory by the raw pairs, after the load")
    rows.append(["memory, bytes (a pair has 116)", *cells(memory.get(program) for program in ours)])
    for commits in (MANY, FEW):
        rows.append([f"durable puts a second, {commits}", *cells(rate(figures, store, commits) for store in stores)])
    rows.append(["opening 500,000 pairs, s", *cells((durable(figures, store, MANY, "recovery") for store in stores), ".2f")])
    return [" | ".join(row + [""] * (len(rows[0]) - len(row))).rstrip() for row in rows]


def draw(figures: Figures, path: Path) -> None:
    speeds: dict[str, list[float | None]] = {}
    for name, of in SPEEDS.items():
        found = row_of(figures, of)
        speeds[name] = [found[MAP] / found[program] if MAP in found and program in found else None for program in (BIG, SMALL)]
    names = {BIG: "Taukremil, 64/16", SMALL: "Taukremil, defaults", LOGGED: "BTreeMap and a log"} | OTHERS
    rates = {shown: [(rate(figures, store, commits) or 0.0) / 1_000 for commits in (MANY, FEW)] for store, shown in names.items()}
    plot.summary(speeds, rates, path)


def main() -> None:
    figures: Figures = json.loads((HERE / "goals.json").read_text())
    draw(figures, HERE / "summary.svg")
    readme, start, end = HERE / "README.md", "<!-- summary -->\n", "<!-- end of summary -->"
    before, _, rest = readme.read_text().partition(start)
    _, _, after = rest.partition(end)
    readme.write_text("\n".join([before + start, *table(figures), "", end + after]))


if __name__ == "__main__":
    main()
