"""Command lines: settings, crew, file, refusals and help. The file's first bytes show the settings with which it was made."""

import shlex
import struct
from pathlib import Path

from tools.cases import Case, Outcome, Programs, differs
from tools.failures import DEVICE
from tools.processes import RunResult, new_folder, run

TEXT = b"put a 1\n"
BAD_CREW = b"fault 5 BadCrew\n"

# The settings of a command line: fan, chain, key, value, segment, segments.
SETTINGS = [
    ("", (16, 4, 64, 256, 65_536, 64)),
    ("--fan 8 --chain 2 --max-key 3 --max-value 5 --seg-size 700 --segments 9", (8, 2, 3, 5, 700, 9)),
    ("--segments 65536 --seg-size 2048 --fan=4", (4, 4, 64, 256, 2_048, 65_536)),
    ("--chain 2", (16, 2, 64, 256, 65_536, 64)),
]

# The first setting that is out of range.
OUT_OF_RANGE = [
    ("--fan 8 --chain 2 --max-key 3 --max-value 5 --seg-size 7 --segments 9", b"seg_size"),
    ("--fan 8 --chain 2 --max-key 3 --max-value 5 --seg-size 700 --segments 2", b"segments"),
    ("--segments 4294967295 --fan=0", b"fan"),
    ("--segments 4294967295", b"segments"),
    ("--chain 17", b"chain"),
    ("--max-key 256", b"max_key"),
    ("--max-value 1025", b"max_value"),
]

# Whether the crew is in range.
CREWS = [("--fan 8", True), ("--workers 8 --grain 2", True), ("--grain=0 --disk 8", False), ("--workers=0 --grain 2", False)]

# The file, and whether a store is created in it.
FILES: list[tuple[str, str | None, bool]] = [
    ("", None, False),
    ("--disk a", "a", False),
    ("--disk=a", "a", False),
    ("--create", None, True),
    ("--disk a --create", "a", True),
    ("--create --fan 8 --disk=a", "a", True),
    ("--disk 8 --create --chain 2", "8", True),
    # Any text is a path.
    ("--disk=", "", False),
    ("--disk -", "-", False),
    ("--disk=-h", "-h", False),
    ("--disk=--create", "--create", False),
    ("--disk=a=b", "a=b", False),
    ("--create --disk ''", "", True),
]

REFUSED = [
    "--fan 8 --chain 2 --fan 8",
    "--flan 8",
    "8",
    "--fan x",
    "--fan 4294967296",
    "--fan -1",
    "--workers x",
    "--grain 4294967296",
    "--grain 8 --workers 8 --grain 8",
    "--fan",
    "--fan --help",
    "-- --fan 8",
    "--disk a --disk b",
    "--disk=a --fan 8 --disk=a",
    "--create --create",
    "--create --disk a --create",
    "--disk",
    "--create --disk",
    "--disk --",
    "--disk -- a",
    "--disk --create",
    "--disk -a",
    "--create=x",
    "--create x",
]

ASK_FOR_HELP = ["--help", "-h", "--fan 8 -h --flan", "--disk a --create -h --create"]

HELP = [
    b"put K V",
    b"add K V",
    b"get K",
    b"del K",
    b"scan LO HI LIMIT",
    b"wipe LO HI",
    b"go",
    b"flush",
    b"clean",
    b"upgrade",
    b"verify",
    b"#",
    b"%XX",
    b"--seg-size <N>",
    b"must hold a full page",
    b"--workers <N>",
    b"work on a batch, 1 to 64 ",
    b"--grain <N>",
    b"at a time, 1 to 65535 ",
    b"2  The command line",
    b"3  A line",
    b"4  A fault",
]


def start(programs: Programs, folder: str, line: str, text: bytes = TEXT) -> RunResult:
    return run([programs.store, *shlex.split(line)], text, folder=Path(folder))


def check_settings(programs: Programs) -> Outcome:
    for line, numbers in SETTINGS:
        with new_folder() as folder:
            path = Path(folder) / "store"
            for before in (b"", bytes(100)):
                path.write_bytes(before)
                wrong = differs(start(programs, folder, f"--disk store {line} --create"), 0, b"new\n")
                with path.open("rb") as file:
                    found = struct.unpack(">8s4H2I", file.read(24))
                if wrong or found != (b"BWBATCH1", *numbers):
                    return Outcome(f"{line}: {wrong or f'the file has the settings {found}'}")
    return Outcome()


def refuse_settings(programs: Programs) -> Outcome:
    with new_folder() as folder:
        for line, name in OUT_OF_RANGE:
            wrong = differs(start(programs, folder, line), 4, b"", b"fault 1 BadSettings %s\n" % name)
            if wrong:
                return Outcome(f"{line}: {wrong}")
    return Outcome()


def check_crews(programs: Programs) -> Outcome:
    with new_folder() as folder:
        for line, is_crew in CREWS:
            ending = (0, b"new\n", b"") if is_crew else (4, b"", BAD_CREW)
            wrong = differs(start(programs, folder, line), *ending)
            if wrong:
                return Outcome(f"{line}: {wrong}")
    return Outcome()


def find_file(programs: Programs, line: str, path: str | None, is_made: bool) -> Outcome:
    """A missing file is not created without --create."""
    with new_folder() as folder:
        ran = start(programs, folder, line, b"put a 1\nflush\n")
        names = [each.name for each in Path(folder).iterdir()]
        if path == "" or path and not is_made:
            wrong = differs(ran, 4, b"", DEVICE) or (f"there are {names}" if names else None)
        else:
            wrong = differs(ran, 0, b"new\nflushed 2\n") or (f"there are {names}" if names != [path] * bool(path) else None)
        if wrong is None and path:
            if not is_made:
                wrong = differs(start(programs, folder, f"--create --disk=./{path}", b"put a 1\nflush\n"), 0, b"new\nflushed 2\n")
            found = start(programs, folder, f"--disk=./{path}" if is_made else line, b"get a\n")
            wrong = wrong or differs(found, 0, b"value 1\n")
        return Outcome(wrong)


def wrong_refusal(ran: RunResult, error: bytes) -> str | None:
    is_right = ran.status == 2 and not ran.out and ran.err.startswith(error) and not ran.read
    return None if is_right else f"{ran.describe()}, and read {ran.read} bytes, where {error!r} was expected"


def refuse_words(programs: Programs) -> Outcome:
    with new_folder() as folder:
        for line in REFUSED:
            wrong = wrong_refusal(start(programs, folder, line), b"error: ")
            if wrong or any(Path(folder).iterdir()):
                return Outcome(f"{line}: {wrong or 'a file was made'}")
        return Outcome(wrong_refusal(start(programs, folder, "--frob"), b"error: unexpected argument '--frob' found\n"))


def refuse_bytes(programs: Programs) -> Outcome:
    for words in ([b"\xff"], [b"--help", b"\xff"], [b"--disk", b"a\xff"]):
        ran = run([programs.store, *words], TEXT)
        wrong = differs(ran, 2, b"", b"error: a word of the command line is no text\n") or (f"it read {ran.read} bytes" if ran.read else None)
        if wrong:
            return Outcome(f"{words}: {wrong}")
    return Outcome()


def show_help(programs: Programs) -> Outcome:
    with new_folder() as folder:
        texts = [start(programs, folder, line) for line in ASK_FOR_HELP]
    for line, ran in zip(ASK_FOR_HELP, texts):
        missing = [text for text in HELP if text not in ran.out]
        if ran.status or ran.err or ran.read or missing or ran.out != texts[0].out:
            return Outcome(f"{line}: {ran.describe()}, and read {ran.read} bytes, without {missing}")
    return Outcome()


def cases(programs: Programs) -> list[Case]:
    return [
        Case("the settings that are given", check_settings, (programs,)),
        Case("settings out of range", refuse_settings, (programs,)),
        Case("the crew that is given", check_crews, (programs,)),
        *(Case(f"the file that is given, {row[0] or 'no word'}", find_file, (programs, *row)) for row in FILES),
        Case("what is no command line", refuse_words, (programs,)),
        Case("a word that is no text", refuse_bytes, (programs,)),
        Case("help where it is asked for", show_help, (programs,)),
    ]
