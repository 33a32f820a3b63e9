#!/usr/bin/env python3
"""Builds the examples into `out/`, and shows two sessions of each, as they look in a shell."""

import argparse
import shlex
import subprocess
import sys
import tempfile
from pathlib import Path

sys.path.append(str(Path(__file__).resolve().parent.parent))

from tools import building  # noqa: E402

# The lines of a first session, and of a second one on the same file.
SESSIONS: dict[str, tuple[list[str], ...]] = {
    "sessions": (["100 begin t1 ann", "200 begin t2 bob", "650 use t1"], ["900 sweep", "900 use t1", "900 use t2"]),
    "inverted_index": (["set one a cat and a dog", "set two a cat", "find cat"], ["find cat dog", "set one", "find cat"]),
    "queue": (["push wash", "push dry", "first"], ["done", "first"]),
    "cache": (["put a one", "put b two", "get a"], ["get a", "get b"]),
    "put_then_get": (["a one", "b two"], ["a three"]),
    "first_steps": ([], []),
    "upkeep": ([],),
    "counters": ([], []),
}


def show(name: str) -> None:
    with tempfile.TemporaryDirectory() as folder:
        for lines in SESSIONS[name]:
            text = "".join(f"{line}\n" for line in lines)
            print(f"printf {shlex.quote(text.replace(chr(10), chr(92) + 'n'))} | out/{name} {name}.store")
            ran = subprocess.run([building.BUILT / name, f"{name}.store"], cwd=folder, input=text, capture_output=True, text=True)
            print("".join(f"    {line}\n" for line in (ran.stdout + ran.stderr).splitlines()), flush=True)


def main() -> None:
    parser = argparse.ArgumentParser(description=__doc__)
    parser.add_argument("names", nargs="*", metavar="NAME", help=f"any of {', '.join(SESSIONS)} (default: all)")
    parser.add_argument("--proved", action="store_true", help="prove the examples and the crates that they use before building them")
    options = parser.parse_args()
    unknown = set(options.names) - set(SESSIONS)
    if unknown:
        sys.exit(f"unknown: {', '.join(unknown)}; known: {', '.join(SESSIONS)}")
    names = options.names or list(SESSIONS)
    try:
        building.build_all(names, is_proved=options.proved)
    except building.BuildError as error:
        sys.exit(f"examples: {error}")
    for name in names:
        show(name)


if __name__ == "__main__":
    main()
