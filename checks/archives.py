"""The archive and the Debian package that `./dist` packs: the programs in an empty root with the C library alone, the man pages, the wheel, the
links of the pages, and the unit of the server. A `./dist` that fails leaves an older archive as it was."""

import os
import re
import shutil
import subprocess
import sys
import tarfile
import tempfile
from pathlib import Path
from unittest.mock import patch

from checks import pages
from tools import building, debian, man_pages, packing
from tools.cases import Case, Outcome, Programs, differs
from tools.packing import LINK, TOP, Packed, pack, pack_debian
from tools.processes import PATIENCE, Limits, run
from tools.serving import serving

# The C library, and the compiler's support library, which Debian installs with it.
LIBRARIES = ("libc.so.6", "libm.so.6", "ld-linux-x86-64.so.2", "libgcc_s.so.1")
ROOM = Limits(stack=256)  # KB, for `chroot`
SESSIONS: tuple[tuple[list[str], bytes, bytes], ...] = (
    ([], b"put a 1\nget a\n", b"new\nvalue 1\n"),
    (["--disk", "/a.store", "--create"], b"put a 1\nflush\n", b"new\nflushed 2\n"),
    (["--disk", "/a.store", "--workers", "2"], b"get a\n", b"value 1\n"),
)
IN_CLIENT = """
import sys
from taukremil import Store
with Store(sys.argv[1], program=sys.argv[2], create=True) as store:
    store.put(b"a", b"1")
    print((store.get(b"a") or b"").decode())
"""


def packed_of(programs: Programs) -> Packed:
    return Packed(programs.store, programs.examples / "bwserve")


def unpack(programs: Programs, folder: Path) -> Path:
    """Returns the archive's top folder."""
    archive = pack(packed_of(programs), folder)
    with tarfile.open(archive) as tar:
        tar.extractall(folder)
    archive.unlink()
    return next(path for path in folder.iterdir() if path.is_dir())


def copy_c_library(program: Path, root: Path) -> str | None:
    """Copies the libraries that the program names. Returns an error if one is not of the C library."""
    listed = subprocess.run(["ldd", program], capture_output=True, text=True, check=True).stdout
    for path in map(Path, re.findall(r"(/\S+) \(0x", listed)):
        if path.name not in LIBRARIES:
            return f"{program.name} needs {path.name}"
        copied = root / str(path).lstrip("/")
        copied.parent.mkdir(parents=True, exist_ok=True)
        shutil.copy(path, copied)
    return None


def check_root(programs: Programs) -> Outcome:
    chroot = shutil.which("chroot")
    if os.geteuid() or chroot is None or shutil.which("ldd") is None:
        return Outcome(left_out="needs root, chroot and ldd")
    with tempfile.TemporaryDirectory() as folder:
        root = Path(folder)
        top = unpack(programs, root)
        for name in ("bwsh", "bwserve"):
            wrong = copy_c_library(top / "bin" / name, root)
            if wrong:
                return Outcome(wrong)
        for words, text, out in SESSIONS:
            wrong = differs(run([chroot, folder, f"/{top.name}/bin/bwsh", *words], text, ROOM), 0, out)
            if wrong:
                return Outcome(wrong)
        with serving(Path(f"/{top.name}/bin/bwserve"), Path("/b.store"), before=[chroot, folder]) as server, server.client() as client:
            answers = [client.ask("SET", "a", "1"), client.ask("GET", "a")]
            return Outcome(None if answers == [b"OK", b"1"] else f"the server answered {answers}")


# ---- Man pages.


def lacks(top: Path, name: str) -> str | None:
    """Returns what the man page of a program lacks."""
    page = (top / f"share/man/man1/{name}.1").read_text().replace("\\-", "-").replace("\\e", "\\").replace("\\&", "")
    told = subprocess.run([top / "bin" / name, "--help"], capture_output=True, text=True, check=True).stdout
    options = set(re.findall(r"--[a-z-]+", told))
    headings = {f".SH {title}" for title in ("NAME", "SYNOPSIS", "OPTIONS", "EXIT STATUS", "EXAMPLES", "FILES", "SEE ALSO")}
    missing = sorted([option for option in options if option not in page] + [heading for heading in headings if heading not in page.splitlines()])
    return f"the man page of {name} lacks {missing}" if missing or not options else None


def run_examples(programs: Programs) -> Outcome:
    """Runs the examples of the man page of `bwsh`."""
    with tempfile.TemporaryDirectory() as folder:
        for command in pages.commands(man_pages.STORE_EXAMPLES):
            words, path = ["bash", "-c", command.text], f"{programs.store.parent}:/usr/bin:/bin"
            ran = subprocess.run(words, cwd=folder, env={"PATH": path}, capture_output=True, text=True)
            if (ran.returncode, ran.stdout, ran.stderr) != (0, command.due, ""):
                return Outcome(f"{command.text}: status {ran.returncode}, printed {ran.stdout + ran.stderr!r}, and not {command.due!r}")
    return Outcome()


def check_man_pages(programs: Programs) -> Outcome:
    with tempfile.TemporaryDirectory() as folder:
        top = unpack(programs, Path(folder))
        for name in ("bwsh", "bwserve"):
            wrong = lacks(top, name)
            if wrong is None and shutil.which("groff"):
                shown = subprocess.run(["groff", "-man", "-Tutf8", "-ww", top / f"share/man/man1/{name}.1"], capture_output=True, text=True)
                wrong = shown.stderr or None
            if wrong:
                return Outcome(wrong)
    return run_examples(programs)


def check_wheel(programs: Programs) -> Outcome:
    with tempfile.TemporaryDirectory() as folder:
        top = unpack(programs, Path(folder))
        wheel = next(top.glob("*.whl"))
        words: list[str | Path] = [sys.executable, "-c", IN_CLIENT, Path(folder) / "a.store", top / "bin/bwsh"]
        ran = subprocess.run(words, capture_output=True, text=True, env={"PYTHONPATH": str(wheel)})
        return Outcome(None if (ran.returncode, ran.stdout) == (0, "1\n") else f"status {ran.returncode}: {ran.stdout}{ran.stderr}")


# ---- Pages and units.


def broken_links(top: Path) -> list[str]:
    """Returns the relative links of the pages below this folder that lead to no file."""
    links = [(page, target) for page in sorted(top.rglob("*.md")) for target in LINK.findall(page.read_text()) if "://" not in target]
    return [f"{page.relative_to(top)}: {target}" for page, target in links if not (page.parent / target).exists()]


def check_links(programs: Programs) -> Outcome:
    with tempfile.TemporaryDirectory() as folder:
        broken = broken_links(unpack(programs, Path(folder)))
        return Outcome(f"these lead nowhere: {', '.join(broken)}" if broken else None)


def stop_words(unit: Path, port: int, process: int) -> list[str]:
    """Returns the words by which a unit stops its service, as systemd reads them."""
    found = re.search(r"^ExecStop=(.+)$", unit.read_text(), re.MULTILINE)
    assert found is not None
    command = found[1].replace("${PORT}", str(port)).replace("${MAINPID}", str(process))
    words = re.findall(r"'([^']*)'|(\S+)", command)
    return [quoted.replace("\\\\", "\\") or plain for quoted, plain in words]


def check_unit(programs: Programs) -> Outcome:
    """The unit's stop ends a server that flushes late with status 0, and no answered command is lost."""
    if shutil.which("bash") is None:
        return Outcome(left_out="needs bash")
    program, unit = programs.examples / "bwserve", TOP / debian.UNIT
    with tempfile.TemporaryDirectory() as folder:
        store = Path(folder) / "a.store"
        with serving(program, store, "--flush", "3600") as server, server.client() as client:
            client.ask("SET", "a", "1")
            stop = subprocess.Popen(stop_words(unit, server.port, server.process.pid), stderr=subprocess.PIPE)
            try:
                ended = server.process.wait(PATIENCE)  # the stop waits until the process is gone
                _, errors = stop.communicate(timeout=PATIENCE)
            finally:
                stop.kill()
        if (stop.returncode, ended) != (0, 0):
            return Outcome(f"the stop ended with {stop.returncode} {errors!r}, the server with {ended}")
        with serving(program, store) as server, server.client() as client:
            kept = client.ask("GET", "a")
            return Outcome(None if kept == b"1" else f"the stop lost a command: {kept!r}")


# ---- What `./dist` packs, a failing `./dist`, and the Debian package.


def check_choice(programs: Programs) -> Outcome:
    """`./dist` packs a `bwsh` whose stamp says that it was proved, and no other one unless it is asked to."""
    server = programs.examples / "bwserve"
    with tempfile.TemporaryDirectory() as name, patch.object(building, "BUILT", Path(name)), patch.object(packing, "PROGRAM", Path(name) / "none"):
        store, stamp = Path(name) / "bwsh", Path(name) / "bwsh.stamp"
        shutil.copy(programs.store, store)
        stamp.write_text(building.stamp_of("bwsh", is_proved=True))
        if packing.choose(None, server, is_unproved=False) != Packed(store, server, packing.PROVED_BY_BUILD):
            return Outcome("a proved program was not chosen")
        stamp.write_text(building.stamp_of("bwsh", is_proved=False))
        if packing.choose(None, server, is_unproved=True) != Packed(store, server):
            return Outcome("an unproved program was not chosen")
        try:
            return Outcome(f"packed as proved: {packing.choose(None, server, is_unproved=False)}")
        except packing.PackError as error:
            return Outcome(None if "run ./build --proved" in str(error) else str(error))


def check_refused(programs: Programs) -> Outcome:
    """A `./dist` that cannot pack a program leaves the archive as it was, and no other file."""
    with tempfile.TemporaryDirectory() as name:
        folder = Path(name)
        archive = pack(packed_of(programs), folder)
        before = archive.read_bytes()
        words: list[str | Path] = [sys.executable, TOP / "dist", "--to", folder, "--store", programs.store, "--server", "/bin/false"]
        for command in (words, [*words, "--deb"]):
            ran = subprocess.run(command, capture_output=True, text=True)
            if (ran.returncode, ran.stdout, ran.stderr) != (1, "", "dist: /bin/false ended with 1: \n"):
                return Outcome(f"status {ran.returncode}, printed {ran.stdout + ran.stderr!r}")
        left = sorted(path.name for path in folder.iterdir())
        return Outcome(None if left == [archive.name] and archive.read_bytes() == before else f"the archive has changed, or is not alone: {left}")


def check_contents(package: Path, programs: Programs, folder: Path) -> str | None:
    """Compares what a package has with what was packed."""
    listed = subprocess.run(["dpkg-deb", "--contents", package], capture_output=True, text=True, check=True).stdout
    of_others = [line for line in listed.splitlines() if line.split()[1] != "root/root"]
    subprocess.run(["dpkg-deb", "--extract", package, folder], check=True)
    subprocess.run(["dpkg-deb", "--control", package, folder / "DEBIAN"], check=True)
    sums = subprocess.run(["md5sum", "--check", "--quiet", "DEBIAN/md5sums"], cwd=folder, capture_output=True, text=True)
    due = ["usr/share/man/man1/bwsh.1.gz", "usr/share/man/man1/bwserve.1.gz", f"{debian.UNITS}/bwserve.service"]
    due += [f"{debian.MODULES}/taukremil/store.py", f"{debian.DOCUMENTS}/README.md", f"{debian.DOCUMENTS}/PROVENANCE.md"]
    missing = [path for path in due if not (folder / path).is_file()]
    for name, program in packed_of(programs).programs().items():
        packed = folder / "usr/bin" / name
        if not os.access(packed, os.X_OK) or packed.read_bytes() != program.read_bytes():
            return f"{name} is not the program that was packed"
    broken = broken_links(folder / debian.DOCUMENTS)
    if of_others or sums.returncode or missing or broken:
        return f"not of root: {of_others}; sums: {sums.stdout + sums.stderr!r}; missing: {missing}; links that lead nowhere: {broken}"
    fields = dict(line.split(": ", 1) for line in (folder / "DEBIAN/control").read_text().splitlines() if re.match(r"[A-Z][\w-]*: ", line))
    version = subprocess.run([programs.store, "--version"], capture_output=True, text=True, check=True).stdout.split()[1]
    named = [fields.get("Package"), fields.get("Version"), fields.get("Architecture")]
    return None if named == ["taukremil", version, "amd64"] else f"the package says that it is {named}"


def check_package(programs: Programs) -> Outcome:
    if shutil.which("dpkg-deb") is None:
        return Outcome(left_out="needs dpkg-deb")
    with tempfile.TemporaryDirectory() as name:
        folder = Path(name)
        package = pack_debian(packed_of(programs), folder)
        first = package.read_bytes()
        if pack_debian(packed_of(programs), folder).read_bytes() != first:
            return Outcome("packing twice makes different bytes")
        return Outcome(check_contents(package, programs, folder / "root"))


def leave_out() -> Outcome:
    return Outcome(left_out="needs git and a clone")


def cases(programs: Programs) -> list[Case]:
    if shutil.which("git") is None or not (TOP / ".git").exists():
        return [Case("all", leave_out)]
    checks = {
        "in an empty root with the C library alone": check_root,
        "man pages": check_man_pages,
        "the client's wheel": check_wheel,
        "the links of the pages": check_links,
        "the unit's stop": check_unit,
        "the program that is packed": check_choice,
        "a refused ./dist": check_refused,
        "the Debian package": check_package,
    }
    return [Case(name, check, (programs,)) for name, check in checks.items()]
