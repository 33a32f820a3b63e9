"""Builds the peer programs with which the store is compared."""

import shutil
import subprocess
import sys
from pathlib import Path

from tools.processes import Command

HERE = Path(__file__).resolve().parent
PEER = "BTreeMap"
NATIVE_PEERS = {  # the source in peers/, the compiler's arguments, and the package that it needs
    "LMDB": ("lmdb.c", ["cc", "-O2"], "liblmdb-dev"),
    "LevelDB": ("leveldb.cc", ["c++", "-O2"], "libleveldb-dev"),
    "RocksDB": ("rocksdb.cc", ["c++", "-O2", "-std=c++17"], "librocksdb-dev"),
}


def build_rust_peer(folder: Path, source: str = "peer.rs") -> list[Path] | None:
    if shutil.which("rustc") is None:
        print("There is no rustc on this machine: the program is measured alone.")
        return None
    program = folder / source.removesuffix(".rs").replace("/", "_")
    subprocess.run(["rustc", "--edition", "2021", "-O", "-o", program, HERE / source], check=True)
    return [program]


def build_native_peer(name: str, folder: Path) -> Path | None:
    source, compiler, package = NATIVE_PEERS[name]
    program = folder / source.split(".")[0]
    command: Command = [*compiler, "-o", program, HERE / "peers" / source, f"-l{program.name}"]
    built = subprocess.run(command, stdout=subprocess.DEVNULL, stderr=subprocess.DEVNULL) if shutil.which(compiler[0]) else None
    if built and built.returncode == 0:
        return program
    print(f"{name} is left out: {package} or a compiler is not installed.", file=sys.stderr)
    return None
