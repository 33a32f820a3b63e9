"""Checks what `docs/CLAIM.md` says an auditor reads: two traits, the calls that make and read the types of their bytes, and each definition that these
contracts use, directly or through other definitions. The page must list the files that were found, with as many lines, their number in all, and the
definitions of the kit. No type of Rust code may be used that isn't in TYPES. Comments, imports and blank lines don't count.

A name or an operator of this repository's crates that can't be resolved is an error, since the lines that define it would not be counted.

`python3 -m checks.claim` prints the table.
"""

import re
import sys
import tempfile
from collections.abc import Iterable, Iterator
from dataclasses import dataclass, field
from functools import cached_property
from pathlib import Path

from tools.cases import Case, Outcome
from tools.processes import TOP

PAGE = "docs/CLAIM.md"
MOST = 360
TYPES = ["Crew", "DiskFault", "Fault", "Settings"]
TRAITS = {"engine/src/ordered_store.rt": ["pub trait OrderedStore<"], "flush_log/src/disk.rt": ["pub trait Disk "]}
# What ties a command and a reply to their bytes. How a type stores its bytes does not matter, since each value of it is made and read by these calls.
TIES = {
    "keys/src/command.rt": ["pub enum Command<", "pub fn get(", "pub fn put(", "pub fn add(", "pub fn del(", "pub enum Reply<"],
    "keys/src/key.rt": ["impl<A: Allocator> Model for Key<", "pub fn from_bytes(", "pub fn as_bytes("],
    "keys/src/value.rt": ["impl<A: Allocator> Model for Value<", "pub fn from_bytes(", "pub fn as_bytes("],
    "keys/src/row_list.rt": [
        "impl<A: Allocator> Model for RowList<",
        "impl<'a> Model for RowIter<",
        "impl<'a> Iterator for RowIter<",
        "impl<'a, A: Allocator> IntoIterator for &'a RowList<",
    ],
}
STORED = ("ghost view = ", "ghost invariant = ")

IMPORT = re.compile(r"\s*(?:ghost |pub )?use Rattle\.(\w+)\.(specs|proofs)\.([\w.]+?)(?:\.\{([^}]*)\})?(?: as (\w+))?;?")
RUST_IMPORT = re.compile(r"^(?:pub )?use (\w+)::((?:\w+::)*)(?:\{([^}]*)\}|(\w+));$", re.MULTILINE)
RUST_TYPE = re.compile(r"^(?:pub )?(?:struct|enum|trait) (\w+)", re.MULTILINE)
HEADED = re.compile(r"(?:trait|enum|for) (?:&'a )?(\w+)")
KEYWORDS = re.compile(r"(?:(?:abbrev|unfoldable|pub|record|data)\s+)*")
WORD = re.compile(r"[A-Za-z_][\w'-]*(?:\.[A-Za-z_][\w-]*)?")
COMMENTS = {".antt": re.compile(r"--.*"), ".rt": re.compile(r"//.*")}
ROW = re.compile(r"^`crates/([^`]+)` \| (\d+) \|", re.MULTILINE)
IN_ALL = re.compile(r"^These are (\d+) lines", re.MULTILINE)
KIT = re.compile(r"^From the kit: (.*?)\n\n", re.MULTILINE | re.DOTALL)


class Unresolved(Exception):
    """A part of a source that this script can't read, or whose meaning it can't find."""


def counted(text: str) -> int:
    return sum(bool(line.strip()) and not line.strip().startswith(("--", "//", "#[", "ghost use ")) for line in text.splitlines())


@dataclass(frozen=True, order=True)
class Name:
    """A definition in the file of a crate, or a type of its Rust code."""

    file: str
    name: str

    @property
    def crate(self) -> str:
        return self.file.partition("/")[0]


def imported(crate: str, path: str, name: str) -> Name:
    """Returns what a name means that is imported from a module of `specs`."""
    parts = path.split(".")
    if parts[0] != "declared":
        return Name(f"{crate}/specs/{'/'.join(parts)}.antt", name)
    at = next((at for at, part in enumerate(parts) if part[0].isupper()), len(parts))
    return Name(f"{crate}/src/{'/'.join(parts[1:at])}.rt", parts[at] if at < len(parts) else name)


def is_operator(name: str) -> bool:
    return not WORD.fullmatch(name)


def has_operator(text: str, name: str) -> bool:
    """Returns whether each part of the operator is a word of the text."""
    return all(re.search(rf"(?<![^\s(){{}},;.]){re.escape(part)}(?![^\s(){{}},;.])", text) for part in name.split("◌") if part)


def blocks(text: str) -> Iterator[str]:
    """Yields each line that begins a block, with the lines after it that are indented or close a bracket."""
    found: list[str] = []
    for line in text.splitlines():
        if found and line.strip() and not line[0].isspace() and line[0] not in ")]}":
            yield "\n".join(found)
            found = []
        if found or line.strip():
            found.append(line)
    if found:
        yield "\n".join(found)


@dataclass
class Source:
    """The definitions of a file, and what its imports mean."""

    file: str
    text: str  # without comments
    crates: frozenset[str]
    names: dict[str, Name] = field(default_factory=dict)
    modules: dict[str, tuple[str, str]] = field(default_factory=dict)

    def __post_init__(self) -> None:
        self.text = COMMENTS[Path(self.file).suffix].sub("", self.text)
        for line in self.text.splitlines():
            if re.match(r"\s*(?:ghost |pub )*use Rattle\.", line):
                self.add_import(line)
        if self.file.endswith(".rt"):
            self.add_types()

    def add_types(self) -> None:
        for name in RUST_TYPE.findall(self.text):
            self.names[name] = Name(self.file, name)
        for first, inner, listed, single in RUST_IMPORT.findall(self.text):
            crate = Name(self.file, "").crate if first == "crate" else first
            if crate in self.crates:
                file = f"{crate}/src/{inner.strip(':').replace('::', '/') or 'lib'}.rt"
                self.names |= {name: Name(file, name) for name in re.findall(r"\w+", listed or single)}

    def add_import(self, line: str) -> None:
        found = IMPORT.fullmatch(line.rstrip())
        if found is None:
            raise Unresolved(f"{self.file}: {line}")
        crate, kind, path, listed, alias = found.groups()
        if kind == "proofs":
            if crate in self.crates:
                raise Unresolved(f"{self.file}: {line}")
        elif listed is None:
            self.modules[alias or path.split(".")[-1]] = (crate, path)
        else:
            for words in listed.split(","):
                name, _, alias = words.strip().partition(" as ")
                self.names[alias or name] = imported(crate, path, name)

    @cached_property
    def definitions(self) -> dict[str, str]:
        """The text of each definition: its type and its equations, or its fields."""
        if self.file.endswith(".rt"):
            return {}
        found: dict[str, str] = {}
        for block in blocks(self.text):
            if re.match(r"(?:pub )?(?:use|mod|module)\b", block):
                continue  # no name inside a module is found, so one that is cited is an error
            name = self.defined(block, found)
            found[name] = f"{found[name]}\n{block}" if name in found else block
        return found

    def defined(self, block: str, found: Iterable[str]) -> str:
        """Returns the name that a block declares, or of which it is an equation."""
        keywords = KEYWORDS.match(block)
        words = block[keywords.end() if keywords else 0 :]
        name = re.split(r"[\s({]", words, maxsplit=1)[0]
        if re.match(r"\s*:\s", words[len(name) :]) or (words != block and name):
            return name
        if name in found:
            return name
        operators = [other for other in found if is_operator(other) and has_operator(block.partition(" = ")[0], other)]
        if len(operators) != 1:
            raise Unresolved(f"{self.file}: {block.splitlines()[0]}")
        return operators[0]

    def cited(self, text: str) -> Iterator[Name]:
        """Yields what a text of this file names, of this file and of others."""
        whole = re.search(r"Rattle\.(\w+)\.", text)
        if whole and whole[1] in self.crates:
            raise Unresolved(f"{self.file}: {whole[0]} in the text")
        for word in WORD.findall(text):
            first, _, rest = word.partition(".")
            if first in self.modules and rest:
                yield imported(*self.modules[first], rest)
            for name in {word, first}:
                if name in self.names:
                    yield self.names[name]
                elif name in self.definitions:
                    yield Name(self.file, name)
        for name in filter(is_operator, [*self.names, *self.definitions]):
            if has_operator(text, name):
                yield self.names.get(name, Name(self.file, name))


def without_bodies(lines: list[str]) -> Iterator[str]:
    """Yields the lines of an item without its imports, the bodies of its functions, and how a type is stored."""
    end, is_function = "", False
    for line in lines:
        inside, indent = line.strip(), line[: len(line) - len(line.lstrip())]
        is_function |= inside.startswith(("fn ", "pub fn "))
        if end:
            end = "" if line == end else end
        elif is_function and inside.endswith("{"):
            end, is_function = f"{indent}}}", False
            if inside != "{":
                yield line
        elif not inside.startswith((*STORED, "ghost use ")):
            yield line


def item(source: Source, heading: str) -> str:
    """Returns an item of Rust code: the lines from its heading to the brace that ends it."""
    lines = source.text.splitlines()
    starts = [at for at, line in enumerate(lines) if line.lstrip().startswith(heading)]
    if len(starts) != 1:
        raise Unresolved(f"{source.file}: '{heading}' occurs {len(starts)} times")
    first = lines[starts[0]]
    end = lines.index(first[: len(first) - len(first.lstrip())] + "}", starts[0])
    return "\n".join(without_bodies(lines[starts[0] : end + 1]))


class Closure:
    """The lines of some items of Rust code, and of each definition that they use, directly or through others; the other types of Rust code that they use;
    and the definitions of the kit."""

    def __init__(self, crates: Path, items: dict[str, list[str]]) -> None:
        self.crates = crates
        self.headed = {name for headings in items.values() for heading in headings for name in HEADED.findall(heading)}
        self.own = frozenset(path.name for path in crates.iterdir())
        self.sources: dict[str, Source] = {}
        self.lines: dict[Name, int] = {}
        self.types: set[str] = set()
        self.kit: set[str] = set()
        for file, headings in items.items():
            for heading in headings:
                self.add_item(self.source(file), heading)

    def source(self, file: str) -> Source:
        if file not in self.sources:
            path = self.crates / file
            if not path.is_file():
                raise Unresolved(f"no file crates/{file}")
            self.sources[file] = Source(file, path.read_text(), self.own)
        return self.sources[file]

    def add_item(self, source: Source, heading: str) -> None:
        text = item(source, heading)
        self.lines[Name(source.file, heading)] = counted(text)
        self.close(source.cited(text))

    def close(self, names: Iterable[Name]) -> None:
        due = list(names)
        while due:
            name = due.pop()
            if name.crate not in self.own:
                self.kit.add(name.name.replace("◌", " ").strip())
            elif name not in self.lines:
                due += self.add(name)

    def add(self, name: Name) -> Iterable[Name]:
        """Counts the lines of a name of this repository, and returns what they cite."""
        source = self.source(name.file)
        if name.file.endswith(".rt"):
            if not re.search(rf"\b{name.name}\b", source.text):
                raise Unresolved(f"{name.name} of {name.file}")
            self.types |= {name.name} - self.headed
            return []
        if name.name in source.definitions:
            self.lines[name] = counted(source.definitions[name.name])
            return source.cited(source.definitions[name.name])
        if name.name in source.names:  # re-exported by `pub use`
            return [source.names[name.name]]
        raise Unresolved(f"{name.name} of {name.file}")

    def by_file(self) -> dict[str, int]:
        files: dict[str, int] = {}
        for name, lines in sorted(self.lines.items()):
            files[name.file] = files.get(name.file, 0) + lines
        return files


def closure_of(top: Path) -> Closure:
    return Closure(top / "crates", {**TRAITS, **TIES})


def compare_with_page(top: Path) -> Outcome:
    closure = closure_of(top)
    page = (top / PAGE).read_text()
    found = closure.by_file()
    listed = {file: int(lines) for file, lines in ROW.findall(page)}
    total = sum(found.values())
    wrong = [f"crates/{file}: {found.get(file, 0)} lines, listed {listed.get(file, 0)}" for file in found | listed if found.get(file) != listed.get(file)]
    if sorted(closure.types) != TYPES:
        wrong.append(f"the types {', '.join(sorted(closure.types))}, listed {', '.join(TYPES)}")
    if IN_ALL.findall(page) != [str(total)]:
        wrong.append(f"{total} lines in all, listed {', '.join(IN_ALL.findall(page))}")
    if total > MOST:
        wrong.append(f"{total} lines in all, at most {MOST}")
    kit = {name for words in KIT.findall(page) for name in re.findall(r"`([^`]+)`", words)}
    if kit != closure.kit:
        wrong.append(f"of the kit, not listed: {' '.join(sorted(closure.kit - kit))}; not used: {' '.join(sorted(kit - closure.kit))}")
    return Outcome(f"{PAGE}: {'; '.join(wrong)}") if wrong else Outcome(measured=f"{total} lines in {len(found)} files")


# ---- tests of this script

SHELF = """ghost use Rattle.std.specs.Prelude.{◌≡◌};
ghost use Rattle.low.specs.Words.{is_long, ◌⋈◌};

/// A shelf.
pub trait Shelf<D> {
    fn get(&self) -> bool
        ensures { result ≡ is_long self.now };
}

impl Model for Board {
    ghost Value = { Bytes };

    ghost view = { λ b. Rattle.low.unseen b };
}

impl Board {
    /// Makes a board.
    pub fn new() -> Self
        ensures { result ⋈ result }
    {
        Board(is_long)
    }
}
"""
WORDS = """use Rattle.std.specs.Prelude.{ℕ, Bool}

-- whether it is long
abbrev pub is_long : ℕ → Bool
is_long n = passed n

-- a definition behind a comment, and without a word before it
passed : ℕ → Bool
passed n =
    n
-- a record
pub record Pair : Type 0 where
  pub first : ℕ
pub ◌⋈◌ : ℕ → ℕ → Type 0
m ⋈ n = Pair
"""


TRAIT, CALL = "pub trait Shelf<", "pub fn new("


def count_in(shelf: str, words: str, heading: str) -> int:
    """Returns how many lines are counted for an item of a small workspace."""
    with tempfile.TemporaryDirectory() as folder:
        crates = Path(folder)
        for file, text in {"high/src/lib.rt": shelf, "low/specs/Words.antt": words}.items():
            (crates / file).parent.mkdir(parents=True)
            (crates / file).write_text(text)
        return sum(Closure(crates, {"high/src/lib.rt": [heading]}).lines.values())


def is_counted(heading: str, due: int) -> Outcome:
    lines = count_in(SHELF, WORDS, heading)
    return Outcome(None if lines == due else f"{lines} lines, not {due}")


def is_refused(heading: str, old: str, new: str, named: str) -> Outcome:
    """Checks that after a change of the small workspace the script stops, and names what it can't resolve."""
    if old not in SHELF + WORDS:
        return Outcome(f"no {old}")
    try:
        lines = count_in(SHELF.replace(old, new), WORDS.replace(old, new), heading)
    except Unresolved as error:
        return Outcome(None if named in str(error) else f"the error names {error}")
    return Outcome(f"{lines} lines are counted")


def cases(top: Path) -> list[Case]:
    return [
        Case("what an auditor reads", compare_with_page, (top,)),
        Case("a definition behind a comment is counted", is_counted, (TRAIT, 9)),
        Case("an operator is counted, and no body", is_counted, (CALL, 6)),
        Case("how a type is stored is not counted", is_counted, ("impl Model for Board ", 3)),
        Case("a name that is not found is an error", is_refused, (TRAIT, "pub is_long : ℕ → Bool\nis_long n =", "pub short : ℕ → Bool\nshort n =", "is_long of low/")),
        Case("an operator that is not found is an error", is_refused, (CALL, "pub ◌⋈◌ : ℕ → ℕ → Type 0\nm ⋈ n = Pair\n", "", "◌⋈◌ of low/")),
        Case("a file that is not found is an error", is_refused, (CALL, "low.specs.Words", "low.specs.Others", "no file crates/low/specs/Others.antt")),
        Case("an equation of nothing is an error", is_refused, (CALL, "m ⋈ n =", "m joins n =", "m joins n =")),
        Case("an import that is not understood is an error", is_refused, (CALL, "{is_long, ◌⋈◌};", "{", "low.specs.Words.{")),
        Case("an item that is not found is an error", is_refused, (TRAIT, "pub trait Shelf", "pub trait Shell", "'pub trait Shelf<' occurs 0 times")),
    ]


def main() -> None:
    try:
        closure = closure_of(TOP)
    except Unresolved as error:
        sys.exit(f"claim: {error}")
    for file, lines in closure.by_file().items():
        print(f"`crates/{file}` | {lines} | {' '.join(name.name for name in sorted(closure.lines) if name.file == file)}")
    print(sum(closure.by_file().values()), "lines; types:", ", ".join(sorted(closure.types)))
    print("From the kit:", ", ".join(f"`{name}`" for name in sorted(closure.kit)))


if __name__ == "__main__":
    main()
