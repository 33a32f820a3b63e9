"""Prints tables in Markdown."""

from collections.abc import Iterable, Sequence


def print_table(heads: Sequence[str], rows: Iterable[Sequence[str]]) -> None:
    print(f"\n| {' | '.join(heads)} |\n|{'---|' * len(heads)}")
    for row in rows:
        print(f"| {' | '.join(row)} |")


def at_most(value: float, goal: float) -> str:
    return f"{value:.2f}, " + ("reached" if value <= goal else f"over by {100 * (value / goal - 1):.0f} %")


def at_least(value: float, goal: float) -> str:
    return f"{value:.2f}, " + ("reached" if value >= goal else f"short by {100 * (1 - value / goal):.0f} %")
