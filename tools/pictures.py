"""Draws `docs/batch.svg`, a batch on its way through the crates, and `docs/commit.svg`, a commit and what a crash leaves.

Run `/usr/bin/python3 -m tools.pictures` in the top folder. It needs matplotlib: `apt-get install python3-matplotlib`."""

from dataclasses import dataclass
from pathlib import Path
from typing import Any

from tools.drawing import BLUE, GREY, ORANGE, new_figure, save

DOCS = Path(__file__).resolve().parent.parent / "docs"
WIDTH = 860
INK, PALE = "#222222", "#666666"
LIGHT_BLUE, LIGHT_ORANGE, LIGHT_GREEN, LIGHT_GREY = "#d9e8f4", "#fbe3d1", "#dcefe0", "#eeeeee"


@dataclass
class Canvas:
    """A drawing in pixels, whose origin is the upper left corner."""

    axes: Any

    def text(self, x: float, y: float, words: str, size: float = 9, colour: str = INK, anchor: str = "left", weight: str = "normal") -> None:
        self.axes.text(x, y, words, fontsize=size, color=colour, ha=anchor, va="center", weight=weight, clip_on=False)

    def box(self, x: float, y: float, width: float, height: float, fill: str = "white", edge: str = GREY, is_dashed: bool = False) -> None:
        """Draws a box whose upper left corner is at (x, y)."""
        from matplotlib.patches import Rectangle

        style = "--" if is_dashed else "-"
        self.axes.add_patch(Rectangle((x, y), width, height, facecolor=fill, edgecolor=edge, linewidth=0.8, linestyle=style, clip_on=False))

    def label(self, x: float, y: float, width: float, words: str, fill: str = "white", edge: str = GREY, height: float = 22) -> None:
        """Draws a box with words in its middle."""
        self.box(x, y, width, height, fill, edge)
        self.text(x + width / 2, y + height / 2, words, anchor="center")

    def arrow(self, x1: float, y1: float, x2: float, y2: float, colour: str = GREY) -> None:
        style = {"arrowstyle": "-|>", "color": colour, "linewidth": 0.9, "shrinkA": 0, "shrinkB": 0, "mutation_scale": 9}
        self.axes.annotate("", (x2, y2), (x1, y1), arrowprops=style)

    def line(self, y: float) -> None:
        self.axes.plot([0, WIDTH], [y, y], color="#dddddd", linewidth=0.8)


def new_canvas(height: float) -> tuple[Any, Canvas]:
    figure, axes = new_figure(WIDTH, height)
    axes.set_xlim(0, WIDTH)
    axes.set_ylim(height, 0)
    axes.set_axis_off()
    figure.set_constrained_layout_pads(w_pad=0, h_pad=0)
    return figure, Canvas(axes)


# ---- A batch.

COMMANDS = ["put e 5", "get a", "del d", "put bb 2"]  # in the order of the batch
REPLIES = ["replaced", "value 1", "deleted", "new"]
LEFT, RIGHT = (LIGHT_BLUE, BLUE), (LIGHT_ORANGE, ORANGE)  # colours of the two leaves
OF_LEAF = [RIGHT, LEFT, RIGHT, LEFT]
COLUMN = 330  # where the illustrations begin
STEP = 118  # from command to command


def stage(canvas: Canvas, y: float, crates: str, *lines: str) -> None:
    canvas.text(8, y, crates, size=10, weight="bold")
    for row, words in enumerate(lines, 1):
        canvas.text(8, y + row * 17, words, colour=PALE)


def row_of(canvas: Canvas, y: float, words: list[str]) -> None:
    for place, (each, (fill, edge)) in enumerate(zip(words, OF_LEAF)):
        canvas.text(COLUMN + place * STEP, y + 11, str(place), colour=PALE)
        canvas.label(COLUMN + 14 + place * STEP, y, 88, each, fill, edge)


def leaf(canvas: Canvas, x: float, y: float, run: str, base: str, colours: tuple[str, str]) -> None:
    """Draws a leaf with its run, if it has one, in front of its base."""
    width = 84 if run else 0
    if run:
        canvas.label(x, y, width, run, "white", colours[1])
    canvas.label(x + width, y, 110, base, *colours)


def draw_batch() -> None:
    figure, canvas = new_canvas(632)
    stage(canvas, 20, "bwsh, or your program", "makes a batch of commands")
    row_of(canvas, 12, COMMANDS)
    canvas.line(58)
    stage(canvas, 78, "engine", "refuses the whole batch if a key,", "a value or the batch is too long;", "finds where each scan ends (crate scan)")
    canvas.text(COLUMN, 104, "A refused batch changes nothing.", colour=PALE)
    canvas.line(148)
    stage(canvas, 168, "routing", "sorts the commands by key, and divides", "them among the leaves, from the root down")
    canvas.label(COLUMN + 170, 158, 110, "root", LIGHT_GREY)
    canvas.arrow(COLUMN + 200, 181, COLUMN + 110, 206, BLUE)
    canvas.arrow(COLUMN + 250, 181, COLUMN + 350, 206, ORANGE)
    for place, (words, colours) in enumerate([("get a", LEFT), ("put bb 2", LEFT), ("del d", RIGHT), ("put e 5", RIGHT)]):
        canvas.label(COLUMN + 14 + place * STEP, 208, 88, words, *colours)
    canvas.line(246)
    stage(canvas, 266, "mapping", "takes the leaves that may change", "out of the table of pages")
    leaf(canvas, COLUMN + 50, 262, "", "leaf  a b", LEFT)
    leaf(canvas, COLUMN + 290, 262, "", "leaf  c d e", RIGHT)
    canvas.line(318)
    lines = ["executes the commands of each leaf, one", "worker a leaf at a time; puts the changes", "in front as a run, or makes a new base"]
    stage(canvas, 338, "page_runs, in a round of crew", *lines)
    for x, worker, run, base, colours in ((COLUMN + 8, "worker 1", "bb 2", "a b", LEFT), (COLUMN + 248, "worker 2", "d absent, e 5", "c d e", RIGHT)):
        canvas.text(x, 340, worker, colour=PALE)
        canvas.label(x, 354, 96, run, "white", colours[1])
        canvas.label(x + 96, 354, 90, base, *colours)
        canvas.text(x, 386, "run", colour=PALE, size=8)
        canvas.text(x + 96, 386, "base", colour=PALE, size=8)
    canvas.line(410)
    stage(canvas, 430, "replies", "combines the answers of the leaves", "in the order of the batch")
    row_of(canvas, 430, REPLIES)
    canvas.line(482)
    stage(canvas, 502, "climb_plan, split_plan", "split and merge pages, level by level,", "from the leaves up to the root")
    canvas.text(COLUMN, 512, "If an allocation fails up to here, each level undoes its work without", colour=PALE)
    canvas.text(COLUMN, 529, "allocating, and the tree is as it was.", colour=PALE)
    canvas.line(554)
    stage(canvas, 574, "mapping", "gets the pages back; the log states say", "which runs and bases the log lacks")
    canvas.text(COLUMN, 578, "Nothing can fail any more. The disk was not touched:", colour=PALE)
    canvas.text(COLUMN, 595, "the next flush writes what the log lacks.", colour=PALE)
    save(figure, DOCS / "batch.svg")


# ---- A commit.

OLD, EITHER, NEW = ("the old store", LIGHT_BLUE), ("the old or the new store", LIGHT_GREEN), ("the new store", LIGHT_ORANGE)


@dataclass(frozen=True)
class Moment:
    """A step of a commit: what the gate and the rest of the new slot hold after it, whether the new frames are there, and what a crash in this step
    leaves. A `?` marks what is not synced yet."""

    words: str
    gate: str
    slot: str
    frames: str
    left: tuple[str, str]


FIELDS = "number, head, tail .."
MOMENTS = [
    Moment("before", "0 or 1", "of an older commit", "", OLD),
    Moment("1. close the gate, if it is open", "0?", "of an older commit", "", OLD),
    Moment("2. write the new frames", "0?", "of an older commit", "new frames?", OLD),
    Moment("3. sync", "0", "of an older commit", "new frames", OLD),
    Moment("4. write the slot, but not its gate", "0", f"{FIELDS}?", "new frames", OLD),
    Moment("5. sync", "0", FIELDS, "new frames", OLD),
    Moment("6. open the gate", "1?", FIELDS, "new frames", EITHER),
    Moment("7. sync", "1", FIELDS, "new frames", EITHER),
    Moment("after: the flush is answered", "1", FIELDS, "new frames", NEW),
]
GATE, SLOT, LOG, FRAMES, LEAVES = 228, 280, 436, 516, 640  # left edges of the columns
ROW, TOP = 38, 62


def cell(canvas: Canvas, x: float, y: float, width: float, words: str, fill: str) -> None:
    """Draws a cell with a thing of the disk. What is not synced has a dashed edge."""
    if not words:
        return
    is_synced = not words.endswith("?")
    canvas.box(x, y, width, 24, fill if is_synced else "white", GREY if is_synced else ORANGE, is_dashed=not is_synced)
    canvas.text(x + width / 2, y + 12, words.removesuffix("?"), size=8.5, anchor="center")


def draw_moment(canvas: Canvas, y: float, moment: Moment) -> None:
    is_old = moment.slot.startswith("of")
    canvas.text(8, y + 12, moment.words)
    cell(canvas, GATE, y, 48, moment.gate, LIGHT_ORANGE if moment.gate == "1" else LIGHT_GREY)
    cell(canvas, SLOT, y, 142, moment.slot, LIGHT_GREY if is_old else LIGHT_ORANGE)
    cell(canvas, LOG, y, 80, "old frames", LIGHT_BLUE)
    cell(canvas, FRAMES, y, 92, moment.frames, LIGHT_ORANGE)
    canvas.label(LEAVES + 14, y, 196, *moment.left, height=24)


def draw_commit() -> None:
    figure, canvas = new_canvas(TOP + ROW * len(MOMENTS) + 52)
    canvas.text(GATE, 12, "the new slot and the log, after the step", colour=PALE)
    for x, words in ((8, "step"), (GATE, "gate"), (SLOT, "bytes 1 to 63"), (LOG, "log"), (LEAVES + 14, "a crash in this step leaves")):
        canvas.text(x, 29, words, weight="bold")
    canvas.line(42)
    for row, moment in enumerate(MOMENTS):
        draw_moment(canvas, TOP + row * ROW - 6, moment)
    y = TOP + ROW * len(MOMENTS) + 10
    canvas.box(8, y, 30, 16, "white", ORANGE, is_dashed=True)
    canvas.text(46, y + 8, "written, and not synced yet: a crash may leave any bytes here.", colour=PALE)
    canvas.text(8, y + 28, "The other slot is open all the time, and its frames are not overwritten: it holds the old store.", colour=PALE)
    save(figure, DOCS / "commit.svg")


def main() -> None:
    draw_batch()
    draw_commit()


if __name__ == "__main__":
    main()
