"""Provides `Store`, an ordered map from byte strings to byte strings in a file.

    from taukremil import Get, Put, Scan, Store

    with Store("my.store", create="missing") as store:
        store.batch([Put(b"a", b"1"), Get(b"a"), Scan(b"", None, 10)])  # [True, b"1", [(b"a", b"1")]]

Only flushed batches are durable. A `with` block flushes at its end, except after an exception; `close` does not flush.
A batch is executed completely or not at all. The module runs the program `bwsh` and talks to it over pipes.
"""

from .commands import MOST_ROWS, Add, Command, Del, Get, Put, Reply, Row, Scan, Wipe, prefix_range
from .errors import Killed, LockedFile, Lost, MissingFile, Refused, StoreError
from .header import Settings, Stat
from .program import PATIENCE
from .store import Report, Store

__all__ = [
    "MOST_ROWS",
    "PATIENCE",
    "Add",
    "Command",
    "Del",
    "Get",
    "Killed",
    "LockedFile",
    "Lost",
    "MissingFile",
    "Put",
    "Refused",
    "Reply",
    "Report",
    "Row",
    "Scan",
    "Settings",
    "Stat",
    "Store",
    "StoreError",
    "Wipe",
    "prefix_range",
]

for _error in (StoreError, Refused, MissingFile, LockedFile, Killed, Lost):
    _error.__module__ = __name__  # as tracebacks name them
