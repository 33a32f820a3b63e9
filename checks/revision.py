"""The revision that `bwsh --version` prints. Programs with one revision write the same bytes for the same orders.

The digests below are of bytes that an earlier program wrote. They do not say that the bytes are right, only that a program writes others, for which
docs/CHANGING.md says what to do. `python3 -m checks.revision PROGRAM` prints a program's revision and digest.
"""

import hashlib
import re
import sys
from collections.abc import Iterator
from pathlib import Path

from tools.cases import Case, Outcome, Programs
from tools.processes import new_folder, run

VERSION = re.compile(rb"bwsh \d+\.\d+\.\d+ bytes (\d+)\n")
DIGESTS = {1: "e3d54baad242defb8575b30b3ba6ccf4"}
SMALL = ("--max-key=16", "--max-value=40")
# The settings and options of a session, and the number of its keys. The logs are overwritten several times.
SESSIONS = [
    ((*SMALL, "--fan=4", "--chain=1", "--seg-size=1024", "--segments=32", "--clean-when-full"), 20),
    ((*SMALL, "--fan=8", "--chain=4", "--seg-size=1024", "--segments=64", "--clean-when-full", "--tidy=3"), 90),
    ((*SMALL, "--fan=32", "--chain=16", "--seg-size=2048", "--segments=16", "--clean-when-full"), 100),
    ((*SMALL, "--fan=64", "--chain=4", "--seg-size=4096", "--segments=16", "--clean-when-full", "--tidy=64"), 300),
    ((*SMALL, "--create", "--pairs=20", "--clean-when-full"), 20),
]
BATCHES = 2_000


def numbers() -> Iterator[int]:
    """Yields the numbers of a fixed generator, the same in every version of Python."""
    state = 1
    while True:
        state = (state * 6_364_136_223_846_793_005 + 1_442_695_040_888_963_407) % (1 << 64)
        yield state >> 33


def batch_file(keys: int) -> bytes:
    """Returns batches on so many keys, whose greatest keys come and go. Some of them end with a flush; the last ones follow an upgrade."""
    drawn, lines = numbers(), []
    for batch in range(BATCHES):
        for _ in range(next(drawn) % 12):
            key, kind = next(drawn) % keys, next(drawn) % 10
            if kind < 7:
                lines.append(f"put k{key:05d} {'v' * (next(drawn) % 40)}x\n")
            elif kind < 9:
                lines.append(f"del k{key:05d}\n")
            else:
                lines.append(f"wipe k{key:05d} k{key + keys // 10:05d}\n")
        lines.append("flush\n" if next(drawn) % 3 else "go\n")
        if batch == BATCHES * 3 // 4:
            lines.append("upgrade\n")
    return "".join(lines).encode()


def digest_of(program: Path) -> str:
    """Returns a digest of the answers and of the files and copies of all sessions."""
    digest = hashlib.sha256()
    with new_folder() as folder:
        for number, (words, keys) in enumerate(SESSIONS):
            store, copy = Path(folder) / f"store {number}", Path(folder) / f"copy {number}"
            create = () if "--create" in words else ("--create",)
            ran = run([program, *words, *create, "--disk", store, "--copy-to", copy], batch_file(keys))
            if ran.status or ran.err:
                raise ValueError(f"session {number}: {ran.describe()}")
            for piece in (ran.out, store.read_bytes(), copy.read_bytes()):
                digest.update(hashlib.sha256(piece).digest())
    return digest.hexdigest()[:32]


def revision_of(program: Path) -> int:
    shown = run([program, "--version"])
    found = VERSION.fullmatch(shown.out)
    if not found:
        raise ValueError(f"--version: {shown.describe()}")
    return int(found[1])


def check_revision(programs: Programs) -> Outcome:
    revision, digest = revision_of(programs.store), digest_of(programs.store)
    if DIGESTS.get(revision) == digest:
        return Outcome(measured=f"revision {revision}")
    return Outcome(f"revision {revision} has other bytes than before, with the digest {digest}: docs/CHANGING.md says what to do")


def cases(programs: Programs) -> list[Case]:
    return [Case("programs with one revision write one file", check_revision, (programs,))]


if __name__ == "__main__":
    print(revision_of(Path(sys.argv[1])), digest_of(Path(sys.argv[1])))
