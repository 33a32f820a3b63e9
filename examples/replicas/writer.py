#!/usr/bin/env python3
"""Puts random batches into etcd, each once, and logs the acknowledged ones, until SIGTERM."""

from __future__ import annotations

import argparse
import itertools
import json
import random
import signal
import time
from pathlib import Path

from batches import Batch, name_of
from gateway import Gateway

KEYS = 4_000
WIDTH = 10  # most keys of a wipe


def command(source: random.Random) -> list[str]:
    at = source.randrange(KEYS)
    key = f"k{at:05}"
    kind = source.choices(("put", "add", "del", "wipe"), (12, 4, 3, 1))[0]
    if kind == "wipe":
        return [kind, key, f"k{at + source.randint(1, WIDTH):05}"]
    return [kind, key] if kind == "del" else [kind, key, f"{source.randrange(1 << 64):x}" * source.randint(1, 6)]


def main() -> None:
    parser = argparse.ArgumentParser(description=__doc__)
    parser.add_argument("name")
    parser.add_argument("log", type=Path, help="the file to which it appends a line for each acknowledged batch")
    parser.add_argument("ports", type=int, nargs="+")
    parser.add_argument("--seed", type=int, default=1)
    options = parser.parse_args()
    is_over = False

    def end(*_: object) -> None:
        nonlocal is_over
        is_over = True

    signal.signal(signal.SIGTERM, end)
    source, gateway = random.Random(f"{options.seed} {options.name}"), Gateway(options.ports)
    with open(options.log, "a") as log:
        for number in itertools.count():
            if is_over:
                return
            commands = [command(source) for _ in range(source.randint(1, 20))]
            batch = Batch(name_of(options.name, number), time.time(), commands)
            revision = gateway.put_once(batch.key(), batch.text())
            log.write(json.dumps({"name": batch.name, "revision": revision, "took": time.time() - batch.sent}) + "\n")
            log.flush()


if __name__ == "__main__":
    main()
