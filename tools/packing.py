"""Packs both programs, their man pages, the Python client, all pages and what the pages link to, for machines without the Rattle kit: as an archive,
or as a Debian package."""

import contextlib
import hashlib
import importlib.util
import io
import os
import re
import subprocess
import tarfile
import tempfile
from collections.abc import Iterator
from dataclasses import dataclass
from pathlib import Path
from types import ModuleType

from tools import building, debian, kit
from tools.man_pages import man_page
from tools.processes import PROGRAM

TOP = building.TOP
GATE_LOG = TOP / "out/gate.log"
CLIENT = TOP / "clients/python"
EXECUTABLE, READABLE = 0o755, 0o644
LINK = re.compile(r"\]\(([^)\s#]+)[^)\s]*\)")

PROVENANCE = """# Where these programs come from

They were built with {kit_name} from commit {commit}. They need Linux on x86-64, its C library and libgcc_s.so.1, which
Debian installs with it.

program | SHA-256 | built
---|---|---
`bwsh` | `{store_sum}` | {store_built}
`bwserve` | `{server_sum}` | without proofs, and so with run-time checks. The contracts of its layers except main are proved; \
[its page](server/README.md) says what is only tested

[PROVED](docs/PROVED.md) says what is proved of `bwsh`, and what that rests on. To prove it again, check out the commit on a machine with the kit, and
run `./check --gate`.

The pages were written for a checkout: where they type `out/bwsh`, type the path of this `bwsh`, and skip `./build` and `./check`.
"""
PROVED_BY_GATE = "by the gate, which proved each function in it. The gate's last lines: {lines}"
PROVED_BY_BUILD = "by `./build --proved`, which proved each function in it"
UNPROVED = "without proofs, and so with run-time checks"


class PackError(Exception):
    """Nothing was packed."""


@dataclass(frozen=True)
class Packed:
    """The programs `bwsh` and `bwserve` that are packed, and the words that say how this `bwsh` was built."""

    store: Path
    server: Path
    store_built: str = UNPROVED

    def programs(self) -> dict[str, Path]:
        return {"bwsh": self.store, "bwserve": self.server}


def output_of(*command: str | Path) -> str:
    ran = subprocess.run(command, cwd=TOP, stdin=subprocess.DEVNULL, capture_output=True, text=True)
    if ran.returncode:
        raise PackError(f"{command[0]} ended with {ran.returncode}: {ran.stderr.strip()}")
    return ran.stdout


# ---- Which programs are packed.


def is_younger(program: Path) -> bool:
    """Returns whether the program is younger than all sources of the crates."""
    built = program.stat().st_mtime
    parts = (path for part in ("src", "specs", "proofs") for path in TOP.glob(f"crates/*/{part}/**/*"))
    return all(path.stat().st_mtime <= built for path in parts if path.is_file())


def gate_lines() -> str | None:
    """Returns the last lines of a gate that proved everything."""
    lines = GATE_LOG.read_text().splitlines() if GATE_LOG.is_file() else []
    if not lines or not re.fullmatch(r"\d+ passed, 0 failed", lines[-1]):
        return None
    return "; ".join(f"`{line.strip()}`" for line in lines[-2:])


def find_proved() -> tuple[Path, str] | None:
    """Returns a `bwsh` that the gate or `./build --proved` has made of the present sources, and the words that say so."""
    lines = gate_lines()
    if lines is not None and PROGRAM.is_file() and is_younger(PROGRAM):
        return PROGRAM, PROVED_BY_GATE.format(lines=lines)
    if building.is_built("bwsh", is_proved=True):
        return building.BUILT / "bwsh", PROVED_BY_BUILD
    return None


def choose(store: Path | None, server: Path | None, is_unproved: bool) -> Packed:
    """Returns what is packed if these programs are named. Builds a program that is missing, except for one that has to be proved."""
    store_built = UNPROVED
    if store is None and not is_unproved:
        proved = find_proved()
        if proved is None:
            raise PackError("no proved bwsh of these sources is there: run ./build --proved (over an hour), or ./dist --unproved")
        store, store_built = proved
    missing = [name for name, path in (("bwsh", store), ("bwserve", server)) if path is None]
    building.build_all(missing)
    packed = Packed(store or building.BUILT / "bwsh", server or building.BUILT / "bwserve", store_built)
    for path in packed.programs().values():
        if not os.access(path, os.X_OK) or path.is_dir():
            raise PackError(f"{path} is not a program")
    return packed


# ---- What is packed.


def provenance(packed: Packed) -> str:
    changed = ", with changes that are not committed" if output_of("git", "status", "--porcelain", "--untracked-files=no").strip() else ""
    return PROVENANCE.format(
        commit=f"`{output_of('git', 'rev-parse', 'HEAD').strip()}` of Taukremil{changed}",
        kit_name=f"`{output_of(kit.RT, 'version').splitlines()[0]}`",
        store_sum=hashlib.sha256(packed.store.read_bytes()).hexdigest(),
        server_sum=hashlib.sha256(packed.server.read_bytes()).hexdigest(),
        store_built=packed.store_built,
    )


def commit_time() -> int:
    """Returns the time that all packed files have, so that the same commit and programs make the same bytes."""
    return int(output_of("git", "log", "-1", "--format=%ct"))


def client_builder() -> ModuleType:
    spec = importlib.util.spec_from_file_location("build_package", CLIENT / "build_package.py")
    assert spec is not None and spec.loader is not None
    module = importlib.util.module_from_spec(spec)
    spec.loader.exec_module(module)
    return module


def wheel() -> tuple[str, bytes]:
    with tempfile.TemporaryDirectory() as folder:
        name: str = client_builder().build_wheel(folder)
        return name, (Path(folder) / name).read_bytes()


def linked_files(page: Path) -> Iterator[Path]:
    """Yields the files of this repository that a page links to."""
    for target in LINK.findall(page.read_text()):
        path = (page.parent / target).resolve()
        if "://" not in target and path.is_file() and path.is_relative_to(TOP):
            yield path


def page_files() -> set[Path]:
    """Returns all pages, and what they link to."""
    pages = {TOP / name for name in output_of("git", "ls-files", "*.md").splitlines()}
    return pages | {path for page in pages for path in linked_files(page)}


def files_of(packed: Packed, version: str) -> debian.Files:
    """Returns the content and the mode of each file."""
    files: debian.Files = {}
    for name, program in packed.programs().items():
        files[f"bin/{name}"] = program.read_bytes(), EXECUTABLE
        files[f"share/man/man1/{name}.1"] = man_page(name, version, output_of(program, "--help")).encode(), READABLE
    name, content = wheel()
    files[name] = content, READABLE
    for path in page_files():
        mode = EXECUTABLE if os.access(path, os.X_OK) else READABLE
        files[str(path.relative_to(TOP))] = path.read_bytes(), mode
    files["PROVENANCE.md"] = provenance(packed).encode(), READABLE
    return files


# ---- The archive and the package.


@contextlib.contextmanager
def replacing(path: Path) -> Iterator[Path]:
    """Yields a file beside this path that takes its place at the end. After an exception, what was at the path stays."""
    handle, name = tempfile.mkstemp(dir=path.parent, prefix=f".{path.name}.")
    os.close(handle)
    made = Path(name)
    try:
        yield made
        made.chmod(READABLE)
        made.replace(path)
    finally:
        made.unlink(missing_ok=True)


def version_of(store: Path) -> str:
    words = output_of(store, "--version").split()
    if len(words) < 2 or not re.fullmatch(r"\d+(\.\d+)*", words[1]):
        raise PackError(f"{store} --version does not print a version")
    return words[1]


def pack(packed: Packed, folder: Path) -> Path:
    """Writes the archive into this folder."""
    version, time = version_of(packed.store), commit_time()
    name = f"taukremil-{version}"
    files = files_of(packed, version)
    archive = folder / f"{name}-linux-x86_64.tar.xz"
    with replacing(archive) as made, tarfile.open(made, "w:xz") as tar:
        for path, (content, mode) in sorted(files.items()):
            entry = tarfile.TarInfo(f"{name}/{path}")
            entry.size, entry.mode, entry.mtime = len(content), mode, time
            tar.addfile(entry, io.BytesIO(content))
    return archive


def pack_debian(packed: Packed, folder: Path) -> Path:
    """Writes the Debian package into this folder."""
    version = version_of(packed.store)
    package = folder / f"taukremil_{version}_amd64.deb"
    files = files_of(packed, version)
    with replacing(package) as made:
        try:
            debian.build(files, version, commit_time(), made)
        except (OSError, subprocess.CalledProcessError) as error:
            raise PackError(f"dpkg-deb failed: {error}") from error
    return package
