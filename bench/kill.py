#!/usr/bin/env python3
"""Kills sessions of the program on a store in a file, during and between flushes, and compares the recovered pairs with the answers. README.md
describes the test."""

import argparse
import shutil
import sys
import tempfile
from pathlib import Path

sys.path.insert(0, str(Path(__file__).resolve().parent.parent))

from bench.peer_programs import build_rust_peer
from tools.kills import KillOptions, kill_often
from tools.processes import PROGRAM, exit_if_missing

DEFAULT = KillOptions()


def arguments() -> argparse.Namespace:
    parser = argparse.ArgumentParser(description=__doc__)
    parser.add_argument("--kills", type=int, default=DEFAULT.kills)
    parser.add_argument("--lives", type=int, default=DEFAULT.lives, help="kills per store, before a new store is made")
    parser.add_argument("--batches", type=int, default=DEFAULT.batches, help="batches per session, each with a flush")
    parser.add_argument("--seed", type=int, default=DEFAULT.seed)
    parser.add_argument("--program", type=Path, default=PROGRAM)
    parser.add_argument("--peer", action="store_true", help="kill the peer instead of the program")
    parser.add_argument("--folder", type=Path, help="parent folder of the stores; their folder is kept if a check fails")
    options = parser.parse_args()
    if not options.peer:
        exit_if_missing(options.program)
    return options


def main() -> None:
    options = arguments()
    folder = Path(tempfile.mkdtemp(prefix="kill-", dir=options.folder))
    print(f"the stores are in {folder}", file=sys.stderr)
    peer = build_rust_peer(folder, "log_peer.rs") if options.peer else None
    if options.peer and peer is None:
        sys.exit("there is no peer to be killed")
    wrongs, further = kill_often(peer or [options.program], KillOptions(options.kills, options.lives, options.batches, options.seed), folder)
    if not wrongs:
        shutil.rmtree(folder)
    for wrong in wrongs:
        print(wrong)
    print(f"{further[0]} recovered the last flush that was reported, {further[1]} one more")
    print(f"{options.kills - len(wrongs)} passed, {len(wrongs)} failed")
    sys.exit(1 if wrongs else 0)


if __name__ == "__main__":
    main()
