"""Figures as SVG with matplotlib (`apt-get install python3-matplotlib`). Text stays text, and the same figures make the same bytes."""

import importlib.util
import io
import re
import sys
from pathlib import Path
from typing import Any

BLUE, GREEN, ORANGE, GREY = "#1b6ca8", "#3a8f4d", "#d1712a", "#888888"
PIXELS = 96  # of an inch
STYLE = {
    "svg.fonttype": "none",
    "svg.hashsalt": "taukremil",
    "font.family": "sans-serif",
    "font.sans-serif": ["DejaVu Sans", "Verdana", "sans-serif"],
    "font.size": 9,
    "axes.spines.top": False,
    "axes.spines.right": False,
    "axes.edgecolor": "#bbbbbb",
    "axes.titlesize": 10,
    "axes.titlelocation": "left",
    "legend.frameon": False,
    "figure.facecolor": "white",
}


def exit_if_missing() -> None:
    """Ends the program if there is no matplotlib, before anything is measured for a figure."""
    if importlib.util.find_spec("matplotlib") is None:
        sys.exit(f"{sys.executable} has no matplotlib, which draws figures: apt-get install python3-matplotlib, and run /usr/bin/python3")


def new_figure(width: float, height: float, rows: int = 1, columns: int = 1, **more: Any) -> tuple[Any, Any]:
    """Returns a figure of so many pixels, and its axes."""
    exit_if_missing()
    import matplotlib

    matplotlib.use("svg")
    matplotlib.rcParams.update(STYLE)
    from matplotlib import pyplot

    made: tuple[Any, Any] = pyplot.subplots(rows, columns, figsize=(width / PIXELS, height / PIXELS), constrained_layout=True, **more)
    return made


def shorten(value: "re.Match[str]") -> str:
    """Returns the value of an attribute with one decimal for each number, in one line."""
    shown = re.sub(r"\d+\.\d{2,}", lambda number: f"{float(number[0]):.1f}".removesuffix(".0"), value[0])
    return re.sub(r"\s+", " ", shown)


def save(figure: Any, path: Path) -> None:
    """Writes a figure, without what a viewer does not need: decimals, blanks, and names of groups."""
    written = io.StringIO()
    figure.savefig(written, format="svg", metadata={"Date": None, "Creator": None, "Format": None, "Type": None})
    text = re.sub(r' id="(?:figure|axes|patch|text|xtick|ytick|line2d|matplotlib\.axis|legend)_?\d+"', "", written.getvalue())
    path.write_text(re.sub(r"^ +", "", re.sub(r'"[^"<>]*"', shorten, text), flags=re.MULTILINE))
