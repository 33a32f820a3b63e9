"""Joins several programs into one, which runs the program by whose name it is called. Each build reads the whole engine, so one build takes less time
than eight."""

import re
from pathlib import Path

# Only `main` may use the runtime directly; a module's function takes one with these traits.
BOUNDS = "std::rt::Runtime + AllocGlobal + std::thread::Threads + std::sync::Wait + std::net::Net + Sync + Send + Copy + 'static"
ENDINGS = {"ExitCode": "Ok({call})", "Result<ExitCode>": "{call}", "Result<()>": "{call}.map(|()| ExitCode::SUCCESS)"}
LIST = "Lib.antt"  # lists a folder's modules
MODULES = re.compile(r"crate::(?!proofs::|specs::)")
SIGNATURE = re.compile(r"^fn main\(rt: HostRuntime\) -> (\S+) \{$", re.MULTILINE)
MAIN = """//! Runs one of several programs: the one by whose name this program is called.
#![tactic(auto)]

{modules}

use anyhow::{{Result, bail}};
use std::env;
use std::process::ExitCode;

fn main(rt: HostRuntime) -> Result<ExitCode> {{
    let called = env::args(&rt)?.next();
    let path = called.as_ref().map_or("", |path| path.as_str());
    match path.rsplit('/').next().unwrap_or(path).as_bytes() {{
{arms}
        _ => bail!("this program has no part of that name"),
    }}
}}
"""


class JoinError(Exception):
    """These programs can't be joined."""


def module_of(name: str, source: str, crate: str) -> tuple[str, str]:
    """Returns a module, and the arm of `match` that runs it."""
    found = SIGNATURE.search(source)
    if found is None:
        raise JoinError(f"{name}: no line 'fn main(rt: HostRuntime) -> TYPE {{'")
    signature = f"pub fn main<R: {BOUNDS}>(rt: R, mut input: std::rt::Stdin) -> {found[1]}\nwhere\n    R::File: engine::LockFile + Send,\n{{"
    text = source[: found.start()] + signature + source[found.end() :]
    ending = ENDINGS[found[1]].format(call=f"{name}::main(rt, rt.stdin())")
    return inside(text.replace("rt.stdin()", "input"), name, crate), f'        b"{name}" => {ending},'


def inside(source: str, name: str, crate: str) -> str:
    """Returns the source of a program as part of a module of its name."""
    return MODULES.sub(f"crate::{name}::", of_joined(source, name, crate))


def of_joined(source: str, name: str, crate: str) -> str:
    """Returns a text whose modules of `specs` and `proofs` are those of the joined program."""
    declared = source.replace(f"Rattle.{name}.specs.declared.", f"Rattle.{crate}.specs.declared.{name}.")
    return declared.replace(f"Rattle.{name}.", f"Rattle.{crate}.")


def join_programs(folders: dict[str, Path], crate: Path) -> None:
    (crate / "src").mkdir(parents=True)
    lists: dict[Path, str] = {}
    arms = []
    for name, folder in folders.items():
        module, arm = module_of(name, (folder / "src/main.rt.in").read_text(), crate.name)
        (crate / f"src/{name}.rt").write_text(module)
        arms.append(arm)
        for source in set((folder / "src").rglob("*.in")) - {folder / "src/main.rt.in"}:
            made = crate / "src" / name / source.relative_to(folder / "src").with_suffix("")
            made.parent.mkdir(parents=True, exist_ok=True)
            made.write_text(inside(source.read_text(), name, crate.name))
        for source in [*folder.glob("specs/*.in"), *folder.glob("proofs/*.in")]:
            made = crate / source.relative_to(folder).with_suffix("")
            if made in lists and made.name != LIST:
                raise JoinError(f"{name}: there is another {made.relative_to(crate)}")
            lists[made] = lists.get(made, "") + of_joined(source.read_text(), name, crate.name)
    for made, text in lists.items():
        made.parent.mkdir(exist_ok=True)
        made.write_text(text)
    (crate / "src/main.rt").write_text(MAIN.format(modules="\n".join(f"mod {name};" for name in folders), arms="\n".join(arms)))
