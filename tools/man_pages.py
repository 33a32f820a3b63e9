"""Makes the man pages of `bwsh` and `bwserve` from what `--help` prints and from the sections below.

In EXAMPLES, a line `$ COMMAND` is a command, and the lines behind it are its output."""

import re

STORE_EXAMPLES = """\
Create a store with a log of 64 MiB, and put two pairs into it. Cleaning keeps the log from getting full.

    $ printf 'put a 1\\nput b 2\\nflush\\n' | bwsh --disk my.store --create --segments 1024 --clean-when-full --explain
    new
    new
    flushed 2

Read the pairs of a range.

    $ echo 'scan a * 10' | bwsh --disk my.store --explain
    rows 2
    a 1
    b 2

Make a backup, and check it.

    $ bwsh --disk my.store --copy-to backup.store --segments 1024 < /dev/null && sync .
    $ echo verify | bwsh --disk backup.store
    ok 1 1 2
"""

SERVER_EXAMPLES = """\
Serve a store at port 6400, use it, and end the server.

    $ bwserve my.store --port 6400 &
    $ redis-cli -p 6400 SET a 1
    $ redis-cli -p 6400 RANGE - + LIMIT 10
    $ redis-cli -p 6400 SHUTDOWN

Let systemd run the server, if the Debian package is installed.

    $ systemctl enable --now bwserve
"""

DOCUMENTS = "The pages of this release, in /usr/share/doc/taukremil if the Debian package is installed: "

SECTIONS: dict[str, dict[str, str]] = {
    "bwsh": {
        "EXAMPLES": STORE_EXAMPLES,
        "FILES": """\
The file of a store, which --disk names, holds one store. Its format is described in docs/FORMAT.md of the pages. The program locks the file, and
makes no other file beside it. Sync the folder of a new file, as by sync(1); otherwise a power cut may remove it.
""",
        "SEE ALSO": f"""\
bwserve(1), sync(1)

{DOCUMENTS}docs/OPERATING.md for recipes, docs/RULES.md for the meaning of each line and each fault.
""",
    },
    "bwserve": {
        "EXAMPLES": SERVER_EXAMPLES,
        "FILES": """\
FILE holds the store. If its log gets full, FILE.larger gets a copy with a larger log, and is then renamed to FILE. Whatever FILE.larger held is
overwritten.

The unit bwserve.service of systemd keeps its store in /var/lib/bwserve/store, and stops the server by SHUTDOWN.
""",
        "SEE ALSO": f"""\
bwsh(1), redis-cli(1), systemctl(1)

{DOCUMENTS}server/README.md for commands and limits, docs/OPERATING.md for backups.
""",
    },
}


def escape(line: str) -> str:
    """Escapes a line of text, so that troff shows it unchanged."""
    text = line.replace("\\", "\\e").replace("-", "\\-").replace("'", "\\(aq")
    return f"\\&{text}" if text[:1] in (".", "'") else text


def row(line: str) -> list[str]:
    """Returns an indented line of the help. If it has two columns, the second explains the first."""
    columns = re.fullmatch(r" +(\S.*?) {2,}(\S.*)", line)
    return [".TP", f"\\fB{escape(columns[1])}\\fR", escape(columns[2])] if columns else [".PP", escape(line.strip())]


def help_sections(lines: list[str]) -> list[str]:
    """Returns what follows the first line of the help. Its headings end with a colon. The first heading after a blank line begins a section."""
    page: list[str] = []
    is_after_blank = True
    for line in lines:
        heading = re.fullmatch(r"([A-Z][^:]*):( .+)?", line)
        if heading:
            title = "SYNOPSIS" if heading[1] == "Usage" else heading[1]
            page.append(f".SH {title.upper()}" if is_after_blank else f".SS {escape(title)}")
            page += [escape(heading[2].strip())] if heading[2] else []
        elif line:
            page += row(line) if line.startswith(" ") else [".PP", escape(line)]
        is_after_blank = not line
    return page


def written_section(title: str, text: str) -> list[str]:
    page = [f".SH {title}"]
    for paragraph in text.rstrip().split("\n\n"):
        lines = [escape(line.strip()) for line in paragraph.splitlines()]
        page += [".PP", ".in +4n", ".nf", *lines, ".fi", ".in"] if paragraph.startswith(" ") else [".PP", *lines]
    return page


def man_page(name: str, version: str, help_text: str) -> str:
    lines = help_text.rstrip().splitlines()
    about, _, more = lines[0].partition(". ")
    page = [f'.TH {name.upper()} 1 "" "Taukremil {version}"', ".SH NAME", f"{name} \\- {escape(about[:1].lower() + about[1:])}"]
    page += [".SH DESCRIPTION", escape(more)] if more else []
    page += help_sections(lines[1:])
    for title, text in SECTIONS[name].items():
        page += written_section(title, text)
    return "\n".join(page) + "\n"
