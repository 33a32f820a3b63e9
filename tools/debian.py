"""Makes a Debian package with `dpkg-deb`, which needs no root."""

import gzip
import hashlib
import io
import os
import re
import subprocess
import tempfile
import zipfile
from pathlib import Path

Files = dict[str, tuple[bytes, int]]  # the content and the mode of each file, by path

DOCUMENTS = "usr/share/doc/taukremil"
MODULES = "usr/lib/python3/dist-packages"
UNITS = "lib/systemd/system"
UNIT = "examples/service/bwserve.service"  # of the server; the other units are examples
CONTROL = """\
Package: taukremil
Version: {version}
Architecture: amd64
Maintainer: Taukremil maintainers <maintainers@users.noreply.taukremil.example>
Section: database
Priority: optional
Installed-Size: {kilobytes}
Depends: libc6 (>= {c_library}), libgcc-s1
Suggests: python3 (>= 3.10), redis-tools, systemd
Description: ordered key-value engine that is proved correct
 The program bwsh keeps an ordered map of byte strings in a file, executes
 batches of commands atomically, and recovers the last flushed store after a
 crash. The program bwserve serves such a store to clients of Redis's protocol.
 The Python module taukremil uses bwsh.
 .
 PROVENANCE.md in /usr/share/doc/taukremil says how the programs were built.
"""


def unpack_wheel(content: bytes) -> Files:
    with zipfile.ZipFile(io.BytesIO(content)) as wheel:
        return {f"{MODULES}/{name}": (wheel.read(name), 0o644) for name in wheel.namelist()}


def placed(files: Files) -> Files:
    """Returns where Debian has these files."""
    found: Files = {}
    for path, (content, mode) in files.items():
        if path.startswith("bin/"):
            found[f"usr/{path}"] = content, mode
        elif path.startswith("share/man/"):
            found[f"usr/{path}.gz"] = gzip.compress(content, mtime=0), mode
        elif path.endswith(".whl"):
            found |= unpack_wheel(content)
        else:
            found[f"{DOCUMENTS}/{path}"] = content, mode
    found[f"{UNITS}/{Path(UNIT).name}"] = files[UNIT]
    return found


def c_library(files: Files) -> str:
    """Returns the least version of the C library that has all symbols of the programs."""
    programs = b"".join(content for path, (content, _) in files.items() if path.startswith("usr/bin/"))
    versions = {tuple(map(int, found.split(b"."))) for found in re.findall(rb"GLIBC_(\d+(?:\.\d+)+)\0", programs)}
    return ".".join(map(str, max(versions)))


def write(files: Files, folder: Path) -> None:
    for path, (content, mode) in files.items():
        (folder / path).parent.mkdir(parents=True, exist_ok=True)
        (folder / path).write_bytes(content)
        (folder / path).chmod(mode)


def build(files: Files, version: str, time: int, package: Path) -> None:
    """Writes a package of these files, all of which get this time. Raises `OSError` or `CalledProcessError`."""
    files = placed(files)
    sums = "".join(f"{hashlib.md5(content).hexdigest()}  {path}\n" for path, (content, _) in sorted(files.items()))
    kilobytes = sum(-(-len(content) // 1024) for content, _ in files.values())
    control = CONTROL.format(version=version, kilobytes=kilobytes, c_library=c_library(files))
    files |= {"DEBIAN/control": (control.encode(), 0o644), "DEBIAN/md5sums": (sums.encode(), 0o644)}
    with tempfile.TemporaryDirectory() as name:
        folder = Path(name) / "root"
        folder.mkdir(mode=0o755)
        write(files, folder)
        for path in [folder, *folder.rglob("*")]:
            if path.is_dir():
                path.chmod(0o755)
            os.utime(path, (time, time))
        environment = {**os.environ, "SOURCE_DATE_EPOCH": str(time)}
        subprocess.run(["dpkg-deb", "--root-owner-group", "-Zxz", "--build", folder, package], env=environment, check=True, stdout=subprocess.DEVNULL)
