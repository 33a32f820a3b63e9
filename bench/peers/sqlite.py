"""SQLite through Python's own module, in WAL mode, with one transaction per batch. The arguments are those in `pairs.h`. A load's last argument
sets `synchronous`: FULL syncs each commit, NORMAL only checkpoints, so a power failure may undo commits."""

import signal
import sqlite3
import sys


def connect(store: str) -> sqlite3.Connection:
    return sqlite3.connect(f"{store}/pairs.db", isolation_level=None)


def load(store: str, path: str, batch: int, synchronous: str) -> None:
    with open(path, "rb") as file:
        pairs = [line.rstrip(b"\n").split(b" ") for line in file]
    database = connect(store)
    database.execute("PRAGMA journal_mode = WAL")
    database.execute(f"PRAGMA synchronous = {synchronous}")
    database.execute("CREATE TABLE pairs (key BLOB PRIMARY KEY, value BLOB) WITHOUT ROWID")
    print("ready", flush=True)
    for start in range(0, len(pairs), batch):
        database.execute("BEGIN")
        database.executemany("INSERT OR REPLACE INTO pairs VALUES (?, ?)", pairs[start : start + batch])
        database.execute("COMMIT")
    print("done", flush=True)
    signal.pause()


def get(store: str, key: str) -> None:
    (value,) = connect(store).execute("SELECT value FROM pairs WHERE key = ?", [key.encode()]).fetchone()
    print("value", value.decode(), flush=True)


if sys.argv[1] == "load":
    load(sys.argv[2], sys.argv[3], int(sys.argv[4]), sys.argv[5])
else:
    get(sys.argv[2], sys.argv[3])
