"""Draws the figures of the pages: results against goals, the summary, batches in full logs, and the server beside Redis."""

from collections.abc import Mapping, Sequence
from pathlib import Path
from typing import Any

from tools.drawing import BLUE, GREEN, GREY, ORANGE, new_figure, save

Curve = Sequence[tuple[int, float]]
Bars = Mapping[str, Sequence[float | None]]  # by the name of a row: the lengths of its bars
COLOURS = {"BTreeMap": GREY, "fan 64, chain 16": GREEN, "defaults": ORANGE}
LIGHT = {BLUE: "#9cc3e0", GREEN: "#9dcaa8", ORANGE: "#eab68f", GREY: "#cccccc"}  # for the second of two bars
WIDTH, ROW = 900, 24  # pixels of a figure, and of a row of bars
THICK = 0.4  # of a bar; a row is 1


def draw_rows(axes: Any, bars: Bars, colours: Sequence[Sequence[str]], form: str = "") -> None:
    """Draws a row of bars for each name, in its colours, and writes the values behind them by this format."""
    for row, (values, of_row) in enumerate(zip(bars.values(), colours)):
        for place, (value, colour) in enumerate(zip(values, of_row)):
            drawn = axes.barh(row + (place - (len(values) - 1) / 2) * THICK, value or 0.0, THICK * 0.94, color=colour, clip_on=False)
            if form and value is not None:
                axes.bar_label(drawn, [format(value, form)], padding=3, fontsize=8)
    axes.set_yticks(range(len(bars)), list(bars))
    axes.tick_params(axis="y", length=0)
    axes.set_ylim(len(bars) - 0.4, -0.6)
    axes.spines["left"].set_visible(False)


def add_legend(axes: Any, names: Mapping[str, str]) -> None:
    """Says what the colours mean, above the axes."""
    from matplotlib.patches import Patch

    handles = [Patch(color=colour, label=name) for name, colour in names.items()]
    axes.legend(handles=handles, loc="lower left", bbox_to_anchor=(0, 1), ncol=len(names), borderaxespad=0.2)


def with_thousands(axis: Any) -> None:
    axis.set_major_formatter(lambda value, _: f"{value:,.0f}")


# ---- Results against goals.


def draw_goals(axes: Any, rows: Sequence[Mapping[str, Any]], settings: Sequence[str]) -> None:
    bars = {row["name"] + (" (at the most)" if row["most"] else ""): [row["is"].get(name) for name in settings] for row in rows}
    draw_rows(axes, bars, [[COLOURS[name] for name in settings]] * len(rows))
    places = [(row["wanted"][name], at, place) for at, row in enumerate(rows) for place, name in enumerate(settings) if name in row["wanted"]]
    middles = [at + (place - (len(settings) - 1) / 2) * THICK for _, at, place in places]
    axes.vlines([goal for goal, _, _ in places], [y - THICK / 2 for y in middles], [y + THICK / 2 for y in middles], color="black", linewidth=2)
    axes.grid(axis="x", color="#dddddd")
    axes.set_axisbelow(True)
    axes.set_xlabel("times as fast as the peer; a black line is the goal")
    add_legend(axes, {**{name: COLOURS[name] for name in settings}, "BTreeMap, other stores": GREY})


def draw_stores(axes: Any, figures: Mapping[str, Any], settings: Sequence[str]) -> None:
    lengths = list(next(iter(figures["stores"].values())))[:2]
    bars = {
        f"bwsh, {name}" if name in settings else name: [figures["pairs"] / by[commits]["load"] for commits in lengths]
        for name, by in figures["stores"].items()
    }
    colours = [COLOURS.get(name, GREY) for name in figures["stores"]]
    draw_rows(axes, bars, [(colour, LIGHT[colour]) for colour in colours], ",.0f")
    with_thousands(axes.xaxis)
    axes.set_xlabel(f"durable puts a second: {lengths[0]}, and pale {lengths[1]}")


def draw_growth(axes: Any, curves: Mapping[str, Curve]) -> None:
    for name, curve in curves.items():
        axes.plot(*zip(*curve), color=COLOURS[name], label=name)
    with_thousands(axes.xaxis)
    with_thousands(axes.yaxis)
    axes.set_ylim(bottom=0)
    axes.set_xlabel("pairs in the store after each batch of a load")
    axes.set_ylabel("ns a put")
    axes.legend(loc="upper left")


def goals(figures: Mapping[str, Any], settings: Sequence[str], path: Path) -> None:
    """Draws results against goals and, if they were measured, the persistent stores and the load batch by batch."""
    heights = [ROW * len(figures["rows"]) + 80]
    heights += [ROW * len(figures["persistent"]["stores"]) + 50] * ("persistent" in figures) + [240] * ("growth" in figures)
    figure, axes = new_figure(WIDTH, sum(heights), rows=len(heights), squeeze=False, gridspec_kw={"height_ratios": heights})
    places = iter(axes[:, 0])
    draw_goals(next(places), figures["rows"], settings)
    if "persistent" in figures:
        draw_stores(next(places), figures["persistent"], settings)
    if "growth" in figures:
        draw_growth(next(places), figures["growth"])
    save(figure, path)


# ---- The other figures.


def few_ticks(axis: Any) -> None:
    from matplotlib.ticker import MaxNLocator

    axis.set_major_locator(MaxNLocator(4))


def summary(speeds: Bars, rates: Bars, path: Path) -> None:
    """Draws speeds beside the map, with `fan 64, chain 16` before the defaults, and durable puts a second, of long commits before short ones."""
    figure, (left, right) = new_figure(WIDTH, 330, columns=2, gridspec_kw={"width_ratios": [1, 1.15]})
    draw_rows(left, speeds, [(GREEN, ORANGE)] * len(speeds), ".2f")
    left.axvline(1, color=GREY, linewidth=1)
    left.set_xlim(0, 1.15)
    left.set_title("Speed of sessions, where BTreeMap is 1", pad=26)
    add_legend(left, {"fan 64, chain 16": GREEN, "defaults": ORANGE, "others": GREY})
    colours = [GREEN, ORANGE, *[GREY] * (len(rates) - 2)]
    draw_rows(right, rates, [(colour, LIGHT[colour]) for colour in colours], ",.0f")
    right.set_xlim(right=right.get_xlim()[1] * 1.2)
    few_ticks(right.xaxis)
    right.set_title("Thousands of durable puts a second", pad=26)
    right.set_xlabel("65,535 puts a commit; pale: 1,000 puts")
    left.set_xlabel("longer is faster")
    save(figure, path)


def full_logs(by_name: Mapping[str, Curve], path: Path) -> None:
    """Draws milliseconds of a batch and its flush in a full log, by the MiB of the log: a line for each name."""
    figure, axes = new_figure(WIDTH, 340)
    for (name, curve), colour in zip(by_name.items(), (BLUE, ORANGE, GREEN, GREY)):
        axes.plot(*zip(*curve), color=colour, label=name, marker="o", markersize=4)
    axes.set_xticks(sorted({x for curve in by_name.values() for x, _ in curve}))
    axes.set_ylim(bottom=0)
    axes.grid(axis="y", color="#dddddd")
    axes.set_xlabel("MiB of the log")
    axes.set_ylabel("ms")
    axes.set_title("A batch of 1,000 puts with its flush, in a full log")
    axes.legend(loc="upper left")
    save(figure, path)


def servers(rates: Mapping[str, Sequence[tuple[float, float]]], path: Path) -> None:
    """Draws requests a second of `bwserve` and Redis, by connections and pipeline: axes for each kind of request."""
    kinds = [("SET, durable before its reply", 0), ("SET, durable later", 1), ("GET", 2)]
    figure, axes = new_figure(WIDTH, 260, columns=len(kinds), sharey=True)
    for place, (title, at) in zip(axes, kinds):
        draw_rows(place, {name: of_load[at] for name, of_load in rates.items()}, [(BLUE, GREY)] * len(rates), ",.0f")
        place.set_title(title, pad=26)
        place.set_xlim(right=place.get_xlim()[1] * 1.2)
        few_ticks(place.xaxis)
        with_thousands(place.xaxis)
    axes[0].set_ylabel("connections, pipeline")
    axes[1].set_xlabel("thousands of requests a second")
    add_legend(axes[0], {"bwserve": BLUE, "Redis": GREY})
    save(figure, path)
