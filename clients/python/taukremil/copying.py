"""Copies of stores by the program's option --copy-to, which locks the new file and replaces no store."""

from __future__ import annotations

import os
from pathlib import Path

from .errors import Refused, error_of
from .header import STORE_BYTE, first_byte
from .program import run_once


def write_copy(command: list[str], path: Path) -> None:
    """Copies the store that `command` opens to the file `path`, and syncs the file's folder.

    The file must be missing, empty or unfinished, as docs/FORMAT.md defines. Raises StoreError if there is no copy; the
    file is then unchanged, empty or unfinished.
    """
    status, said = run_once([*command, f"--copy-to={path}"])
    # Python reports status 0 of a killed program if SIGCHLD is ignored. The first byte of a copy is written last.
    if status or said or first_byte(path) != STORE_BYTE:
        raise error_of(status, said, 0)
    sync_folder(path)


def create_if_missing(command: list[str], path: Path) -> None:
    """Creates a store, as a copy of an empty one in memory, if the file `path` is missing, empty or unfinished.

    So a kill leaves no partial store, and no process replaces a store that another one has created.
    """
    if first_byte(path) not in (b"", b"\0"):
        return
    try:
        write_copy(command, path)
    except Refused as refused:
        if not refused.has_found_file():
            raise


def sync_folder(path: Path) -> None:
    """Makes the entry of a new file durable in its folder."""
    descriptor = os.open(Path(os.path.realpath(path)).parent, os.O_RDONLY)
    try:
        os.fsync(descriptor)
    finally:
        os.close(descriptor)
