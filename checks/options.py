"""The options that are off by default: their output, and what stays the same as without them."""

import fcntl
import itertools
import os
import re
import select
from pathlib import Path

from tools.cases import SMALL_STORE, Case, Outcome, Programs, differs
from tools.processes import Command, Dialog, Limits, RunResult, new_folder, run

LONG_PUT = b"put a 0123456789abcdef\nflush\n"
LONG_QUEUE = ("--max-key=16", "--max-value=16", "--seg-size=8192", "--segments=40")

# Options, input, output (None: as without the option), and the two lines of errors.
EXPLAINED: list[tuple[tuple[str, ...], bytes, bytes | None, bytes, bytes]] = [
    (
        ("--max-key=16",),
        b"put a 1\n# x\ngo\nput % 1\n\nput 0123456789abcdef 1\nput 0123456789abcdefg 1\n# y\n",
        b"new\n",
        b"fault 2 KeyTooLong 2\n",
        b"The batch that line 8 ended was not run. The command in line 7 has a key that is longer than max-key of this store.\n",
    ),
    (
        ("--max-value=1",),
        b"go\nverify\nput a 1\nflush\nput b 1\nadd c 22\nflush\nget a\n",
        b"ok 1 1 0\nnew\nflushed 2\n",
        b"fault 3 ValueTooLong 1\n",
        b"The batch that line 7 ended was not run. The command in line 6 has a value that is longer than max-value of this store.\n",
    ),
    (
        (),
        b"put a 1\ngo\n\n" + 65_536 * b"get a\n",
        b"new\n",
        b"fault 4 BatchTooLong\n",
        b"The batch up to line 65539 was not run. It has more than 65535 commands. Divide it by lines go.\n",
    ),
    (
        (),
        b"put a 1\nclean\nget a\n",
        b"new\n",
        b"fault 11 NothingToClean\n",
        b"line 2: The log is in one segment, so there is nothing to clean.\n",
    ),
    (
        (),
        b"upgrade\nput a 1\nupgrade\nget a\n",
        b"upgraded 2\nnew\n",
        b"fault 19 AlreadyUpgraded\n",
        b"line 3: The log has version 2 already.\n",
    ),
    (
        ("--fan=65",),
        b"put a 1\n",
        b"",
        b"fault 1 BadSettings fan\n",
        b"Nothing was run. --help has the range of fan. A segment has to hold a full page of the longest keys and values.\n",
    ),
    (
        ("--grain=0",),
        b"put a 1\n",
        b"",
        b"fault 5 BadCrew\n",
        b"Nothing was run. --workers takes 1 to 64, and --grain takes 1 to 65535.\n",
    ),
    (
        ("--disk=/no/such/file",),
        b"get a\n",
        b"",
        b"fault 9 Device\n",
        b"/no/such/file: No such file or directory (os error 2). Use --create to create a store there.\n",
    ),
    (
        (),
        b"put a 1\n.stat\n",
        b"",
        b"line 2: unknown command\n",
        b"Nothing was run. A line begins with a command that --help lists, or with #. Lines with a dot need --stream.\n",
    ),
    (
        (),
        b"put a\n",
        b"",
        b"line 1: wrong number of words\n",
        b"Nothing was run. --help lists the words of each command. In a word, %20 is a space.\n",
    ),
    (
        (),
        b"put a %0\n",
        b"",
        b"line 1: bad token\n",
        b"Nothing was run. Words are printable ASCII, and two hexadecimal digits follow each %.\n",
    ),
    (
        (),
        b"scan a b 4294967296\n",
        b"",
        b"line 1: bad number\n",
        b"Nothing was run. Numbers go from 0 to 4294967295.\n",
    ),
    (
        SMALL_STORE,
        18 * LONG_PUT,
        None,
        b"fault 10 Full\n",
        b"line 36: The log has no room for this. Lines clean or --clean-when-full may make room. If they do not, copy the store "
        b"with .copy or --copy-to to a file with more --segments.\n",
    ),
    (
        ("--create", "--pairs=4294967295"),
        b"put a 1\n",
        b"",
        b"fault 1 BadSettings segments\n",
        b"Nothing was run. These --pairs do not fit into the largest log, of 65536 segments of 1 MiB.\n",
    ),
    (
        ("--create", "--pairs=9", "--max-key=256"),
        b"put a 1\n",
        b"",
        b"fault 1 BadSettings max_key\n",
        b"Nothing was run. --help has the range of max_key. A segment has to hold a full page of the longest keys and values.\n",
    ),
    (
        ("--create", "--pairs=9", "--max-value=1025"),
        b"put a 1\n",
        b"",
        b"fault 1 BadSettings max_value\n",
        b"Nothing was run. --help has the range of max_value. A segment has to hold a full page of the longest keys and values.\n",
    ),
    (
        (*SMALL_STORE, "--clean-when-full"),
        b"".join(b"put sixteen_bytes_%d sixteen_bytes_v1\n" % pair for pair in range(10, 30)) + b"flush\n",
        None,
        b"fault 10 Full\n",
        b"line 21: The log has no room for this. With --stream, .tidy may make room. If it does not, copy the store with .copy or --copy-to to a file "
        b"with more --segments.\n",
    ),
]


def print_version(programs: Programs) -> Outcome:
    """--version does not read the input, and wins over invalid options."""
    words: Command = [programs.store, "--version", "--fan=65", "--workers=0", "--disk=/no/such"]
    wrong = differs(run(words, limits=Limits(redirections="<&-")), 0, b"bwsh 0.2.0 bytes 1\n")
    again = run([programs.store, "--version", "--version"])
    if again.status != 2 or again.out:
        wrong = wrong or f"the option twice ended with {again.describe()}"
    closed = run([programs.store, "--version"], limits=Limits(redirections=">&-"))
    return Outcome(wrong or differs(closed, 4, b"", b"fault 9 Device\n"))


HELP = [
    b"--version",
    b"all input is read first",
    b"only flushed changes survive the program",
    b"what the file held is lost",
    b"--explain",
    b"--stat",
    b"--clean-when-full",
    b"--stream",
    b"Answers each batch before it reads on",
    b"--tidy",
    b"makes flushes larger",
    b"--pairs",
    b"--progress",
]


def print_help(programs: Programs) -> Outcome:
    ran = run([programs.store, "--help"])
    missing = [words for words in HELP if words not in ran.out]
    return Outcome(f"{ran.describe()}, without {missing}" if ran.status or ran.err or missing else None)


def explain(programs: Programs, words: tuple[str, ...], text: bytes, out: bytes | None, first: bytes, second: bytes) -> Outcome:
    """--explain must only add the second line of errors."""
    plain = run([programs.store, *words], text)
    result = run([programs.store, "--explain", *words], text)
    status = 3 if first.startswith(b"line") else 4
    answers = plain.out if out is None else out
    return Outcome(differs(plain, status, answers, first) or differs(result, status, answers, first + second))


def explain_files(programs: Programs) -> Outcome:
    with new_folder() as folder:
        path = Path(folder) / "store"
        path.write_bytes(b"0123456789")
        text = b"put a 1\nflush\n"
        ran = run_explained(programs, path, text)
        end = b"Check the path. The file holds no store, or a part of one. With --create a new store replaces what it holds.\n"
        wrong = wrong_explanation(ran, b"fault 12 NotAStore\n", path, end)
        damaged = Path(folder) / "damaged"
        run([programs.store, *SMALL_STORE, "--create", "--disk", damaged], text)
        with damaged.open("r+b") as file:
            file.seek(512)
            file.write(b"\xff")
        ran = run_explained(programs, damaged, text)
        end = b"Restore a backup. The file is damaged: 14 BadSegment 0.\n"
        wrong = wrong or wrong_explanation(ran, b"fault 14 BadSegment 0\n", damaged, end)
        with path.open("rb+") as held:
            fcntl.flock(held, fcntl.LOCK_EX)
            ran = run_explained(programs, path, text)
        end = b". Another program has locked the file. Wait until it ends, or use --wait.\n"
        wrong = wrong or wrong_explanation(ran, b"fault 9 Device\n", path, end)
        ran = run_explained(programs, Path(folder), text)
        end = b"Is a directory (os error 21). A store has to be a file.\n"
        return Outcome(wrong or wrong_explanation(ran, b"fault 9 Device\n", Path(folder), end))


def run_explained(programs: Programs, path: Path, text: bytes) -> RunResult:
    return run([programs.store, "--explain", "--disk", path], text)


def wrong_explanation(ran: RunResult, first: bytes, path: Path, end: bytes) -> str | None:
    front = first + f"{path}: ".encode()
    is_right = ran.status == 4 and not ran.out and ran.err.startswith(front) and ran.err.endswith(end)
    return None if is_right else f"{ran.describe()}, where {front!r} .. {end!r} were expected"


def explain_streams(programs: Programs) -> Outcome:
    """Only a closed input is explained with the system's reason. Success and refused options have no explanation."""
    words: Command = [programs.store, "--explain"]
    closed = run(words, limits=Limits(redirections="<&-"))
    wrong = differs(closed, 4, b"", b"fault 9 Device\nstandard input: Bad file descriptor (os error 9).\n")
    closed = run(words, b"put a 1\n", Limits(redirections=">&-"))
    wrong = wrong or differs(closed, 4, b"", b"fault 9 Device\nStandard output could not be written. Some answers are missing.\n")
    refused = run([*words, "--flan"])
    if refused.status != 2 or refused.out or not refused.err.endswith(b"For more information, try '--help'.\n"):
        wrong = wrong or f"refused words ended with {refused.describe()}"
    return Outcome(wrong or differs(run(words, b"put a 1\n"), 0, b"new\n"))


IDLE_CREATE = b"--create has no effect without --disk.\n"
IDLE_SETTINGS = b"The settings have no effect: an existing store keeps its own.\n"
IDLE_ROWS = b"--max-rows has no effect without --stream.\n"


LONG_KEY = b"The batch that line %d ended was not run. The command in line %d has a key that is longer than max-key of this store.\n"
# Lines of a stream, with the explanation of each refusal. %s is the folder of a copy.
REFUSED_IN_TURN = [
    (b"put a 1\nput abc 1\ngo\n", LONG_KEY % (3, 2)),
    (b"clean\n", b"line 4: The log is in one segment, so there is nothing to clean.\n"),
    (b"frob\ngo\n", b"The batch was not run. A line begins with a command that --help lists, or with #.\n"),
    (b".copy %s/none/copy\n", b"%s/none/copy: No such file or directory (os error 2). The directory of a copy has to exist. There is no copy.\n"),
    (b".copy %s/copy 2\n", b"%s/copy: The settings of the copy are refused. There is no copy.\n"),
    (b"get a\nget a\ngo\nget abc\ngo\n", LONG_KEY % (13, 12)),
    (b"put a\ngo\n", b"The batch was not run. --help lists the words of each command. In a word, %%20 is a space.\n"),
    (b"clean\n", b"line 16: The log is in one segment, so there is nothing to clean.\n"),
    (b"scan a * 3\nscan a * 3\ngo\n", b"The batch was not run. The limits of its scans together are more than --max-rows allows.\n"),
]


def explain_in_turn(programs: Programs) -> Outcome:
    """Each refusal of a stream has its own explanation, which is written before its answer."""
    with new_folder() as folder:
        dialog, said = Dialog(programs.store, "--explain", "--max-key=2", "--max-rows=5"), b""
        for lines, why in REFUSED_IN_TURN:
            lines, why = (text.replace(b"%s", folder.encode()).replace(b"%%", b"%") for text in (lines, why))
            dialog.send(lines)
            answer = dialog.read_line()
            while answer == b"missing\n":
                answer = dialog.read_line()
            ready, _, _ = select.select([dialog.errors], [], [], 0)
            said = os.read(dialog.errors.fileno(), 65_536) if ready else b""
            if said != why or not answer.startswith((b"fault ", b"line ")):
                dialog.kill()
                return Outcome(f"of {lines!r}, answered by {answer!r}, {said!r} is said, where {why!r} was expected")
        return Outcome(None if (ended := dialog.finish()) == (0, b"", b"") else f"the session ended with {ended}")


def explain_closed_output(programs: Programs) -> Outcome:
    """The explanation of a closed output does not repeat that of a copy that failed before."""
    copy = b"/no/such/folder/copy"
    dialog = Dialog(programs.store, "--explain")
    dialog.send(b".copy %s\n" % copy)
    first = dialog.read_line()
    dialog.output.close()
    dialog.send(b"get a\ngo\n")
    status, err = dialog.finish_unread()
    failed = copy + b": No such file or directory (os error 2). The directory of a copy has to exist. There is no copy.\n"
    right = (b"fault 9 Device\n", 4, failed + b"fault 9 Device\nStandard output could not be written. Some answers are missing.\n")
    return Outcome(None if (first, status, err) == right else f"{first!r}, status {status}, {err!r}")


def explain_idle_options(programs: Programs) -> Outcome:
    """--create without --disk, settings beside an existing file, and --max-rows without --stream have no effect. Only --explain says so."""
    with new_folder() as folder:
        path, copy, text = Path(folder) / "store", Path(folder) / "copy", b"put a 1\nflush\n"
        on_disk, bad = ("--disk", str(path)), b"line 1: unknown command\n"
        wrong = differs(run([programs.store, "--create"], text), 0, b"new\nflushed 2\n")
        wrong = wrong or differs(run([programs.store, "--create", "--explain"], text), 0, b"new\nflushed 2\n", IDLE_CREATE)
        wrong = wrong or differs(run([programs.store, "--create", "--explain", "--fan=8", *on_disk], text), 0, b"new\nflushed 2\n")
        wrong = wrong or differs(run([programs.store, "--explain", "--fan=8", *on_disk], b"get a\n"), 0, b"value 1\n")
        wrong = wrong or differs(run([programs.store, "--fan=4", *on_disk], b"get a\n"), 0, b"value 1\n")
        wrong = wrong or differs(run([programs.store, "--explain", "--fan=4", *on_disk], b"get a\n"), 0, b"value 1\n", IDLE_SETTINGS)
        wrong = wrong or differs(run([programs.store, "--explain", "--stream", "--fan=4", *on_disk], b"get a\n"), 0, b"value 1\n", IDLE_SETTINGS)
        wrong = wrong or differs(run([programs.store, "--explain", "--fan=4", *on_disk, "--copy-to", copy], b""), 0, b"")
        wrong = wrong or differs(run([programs.store, "--create", "--explain", "--pairs=9"], text), 0, b"new\nflushed 2\n")
        wrong = wrong or differs(run([programs.store, "--explain", "--max-rows=1"], b"scan % * 9\n"), 0, b"rows 0\n", IDLE_ROWS)
        wrong = wrong or differs(run([programs.store, "--explain", "--max-rows=0"], b"scan % * 9\n"), 0, b"rows 0\n")
        refused = run([programs.store, "--explain", "--create"], b"x\n")
        explained = b"Nothing was run. A line begins with a command that --help lists, or with #. Lines with a dot need --stream.\n"
        return Outcome(wrong or differs(refused, 3, b"", bad + explained + IDLE_CREATE))


def explain_own_copy(programs: Programs) -> Outcome:
    """A stream can't be copied to the file of its store, by its own path or by another one."""
    with new_folder() as folder:
        path, link = Path(folder) / "store", Path(folder) / "link"
        link.symlink_to(path)
        words: Command = [programs.store, "--stream", "--explain", "--create", "--disk", path]
        own = b"This is the file of the store itself."
        other = b"Another program has locked the file, or it is the file of the store itself."
        wrong = None
        for copy, advice in ((path, own), (link, other)):
            ran = run(words, b"put a 1\n.copy %s\nget a\n" % str(copy).encode())
            said = f"{copy}: ".encode(), b". " + advice + b" There is no copy.\n"
            is_right = ran.status == 0 and ran.out == b"new\nfault 9 Device\nvalue 1\n"
            is_right = is_right and ran.err.startswith(said[0]) and ran.err.endswith(said[1])
            wrong = wrong or (None if is_right else f"a copy to {copy.name}: {ran.describe()}")
        return Outcome(wrong)


# Options, and the settings that `Settings::for_pairs` is documented to choose: 32 entries, 16 runs, segments of a sixteenth of the room, but at least
# eight full pages and at most 1 MiB, and four segments more than the room needs. A pair takes 5 bytes, its key and its value, and each 16 pairs take 28
# bytes and two keys; the room is 21 times that. A full page has 33 bytes, a key and 32 changes of 5 bytes, a key and a value (3 and 8 for short values).
PAIRS: list[tuple[tuple[str, ...], bytes]] = [
    (("--pairs=1000000", "--max-key=16", "--max-value=100"), b"32 16 16 100 1048576 2502"),
    (("--pairs=1000", "--max-key=16", "--max-value=100"), b"32 16 16 100 %d 20" % (21 * (121_000 + 63 * 60) // 16)),
    (("--pairs=1", "--max-key=1", "--max-value=0"), b"32 16 1 0 %d 4" % (8 * 418)),
    (("--pairs=9999",), b"32 16 64 256 1048576 %d" % (21 * (9_999 * 325 + 625 * 156) // 1_048_576 + 4)),
    (("--pairs=0", "--fan=8", "--segments=9"), b"8 4 64 256 65536 9"),
    (("--pairs=+9", "--max-key=1", "--max-value=0"), b"32 16 1 0 %d 4" % (8 * 418)),
]


def settings_in(programs: Programs, path: Path) -> bytes:
    """Returns the settings that a store has, as `.stat` prints them."""
    ran = run([programs.store, "--stream", "--disk", path], b".stat\n")
    return b" ".join(re.findall(rb"\d+", ran.out.splitlines()[-1])) if ran.status == 0 else ran.describe().encode()


def size_by_pairs(programs: Programs) -> Outcome:
    """A new store, and a copy, have the settings for the number of pairs."""
    with new_folder() as folder:
        for number, (words, right) in enumerate(PAIRS):
            store, copy = Path(folder) / f"store {number}", Path(folder) / f"copy {number}"
            made = run([programs.store, "--create", "--disk", store, *words], b"put a %\nflush\n")
            copied = run([programs.store, "--copy-to", copy, *words], b"")
            found = [settings_in(programs, path) for path in (store, copy)]
            if made.status or copied.status or found != [right, right]:
                return Outcome(f"{words}: {found}, where {right!r} was expected; {made.describe()}; {copied.describe()}")
        return Outcome()


SIZES_GIVEN = b"error: --pairs chooses --fan, --chain, --seg-size and --segments: leave these out\n"
IDLE_PAIRS = b"error: --pairs needs --create or --copy-to\n"
# Whether the options are refused, and how.
PAIRS_BESIDE: list[tuple[tuple[str, ...], bytes | None]] = [
    (("--create",), None),
    (("--copy-to=copy",), None),
    (("--create", "--max-key=9", "--max-value=9", "--workers=2", "--tidy=2"), None),
    ((), IDLE_PAIRS),
    (("--disk=store",), IDLE_PAIRS),
    (("--stream", "--fan=8"), IDLE_PAIRS),
    (("--create", "--fan=8"), SIZES_GIVEN),
    (("--create", "--fan=16"), SIZES_GIVEN),
    (("--create", "--chain=4"), SIZES_GIVEN),
    (("--create", "--seg-size=65536"), SIZES_GIVEN),
    (("--copy-to=copy", "--segments=64"), SIZES_GIVEN),
]


def refuse_pairs(programs: Programs) -> Outcome:
    """--pairs is refused where it has no effect, and beside an option that it replaces, also if that has its default."""
    for words, why in PAIRS_BESIDE:
        for order in itertools.permutations((*words, "--pairs=9")) if len(words) < 3 else [(*words, "--pairs=9")]:
            with new_folder() as folder:
                ran = run([programs.store, *order], b"put a 1\n", folder=Path(folder))
                files = sorted(path.name for path in Path(folder).iterdir())
            if why is None:
                wrong = differs(ran, 0, b"new\n")
            else:
                is_right = (ran.status, ran.out) == (2, b"") and ran.err.startswith(why) and ran.err.endswith(b"try '--help'.\n") and not files
                wrong = None if is_right else f"{ran.describe()}, and files {files}"
            if wrong:
                return Outcome(f"{order}: {wrong}")
    shown = run([programs.store, "--pairs=9", "--help"])
    return Outcome(None if shown.status == 0 and not shown.err else shown.describe())


def fill_by_pairs(programs: Programs) -> Outcome:
    """A log for 967 pairs of 600 bytes, which are overwritten all at once or a tenth at a time, doesn't get full. One for half of them does."""
    for pairs, most in ((967, 967), (967, 97)):
        lines = []
        for turn in range(40):
            lines += [b"put k%015d %s\n" % ((turn * most + number) % pairs, b"%d" % (turn % 10) * 600) for number in range(most)] + [b"flush\n"]
        words: Command = [programs.store, "--create", f"--pairs={pairs}", "--max-key=16", "--max-value=600", "--clean-when-full"]
        ran = run(words, b"".join(lines) + b"verify\n")
        if ran.status or ran.err or ran.out.count(b"flushed ") != 40:
            return Outcome(f"{most} of {pairs} at a time: {ran.describe()}")
    return Outcome()


MEMORY = 20_000  # KB of address space, enough for a small store
LONG_COMMENT, LONG_PUT_LINE = b"#" * 30_000_000, b"put b " + b"x" * 30_000_000
TOO_LONG = b"The batch was not run. A line of a stream has at most 16384 bytes, unless it is a comment.\n"


def explain_long_line(programs: Programs) -> Outcome:
    """A line of a stream would not fit in memory. A comment is one whatever its length. Any other line is too long: its batch is refused, and the
    lines before and after it are answered. Without a line feed the line is skipped."""
    words: Command = [programs.store, "--stream", "--explain"]
    limits = Limits(memory=MEMORY)
    wrong = None
    for text, out, line in [(b"", b"", 1), (b"put a 1\ngo\nget a\ngo\n", b"new\nvalue 1\n", 5), (b"put a 1\ngo\nget a\n", b"new\n", 4)]:
        last = b"value 1\n" * (line == 4)  # the answer to the batch in which the line is
        answer = b"value 1\n" if text else b"missing\n"
        for long in (LONG_COMMENT, LONG_PUT_LINE):
            wrong = wrong or differs(run(words, text + long, limits), 0, out + last)
        commented = run(words, text + LONG_COMMENT + b"\ngo\nget a\ngo\n", limits)
        wrong = wrong or differs(commented, 0, out + last + answer)
        refused = run(words, text + LONG_PUT_LINE + b"\ngo\nget a\ngo\n", limits)
        wrong = wrong or differs(refused, 0, out + b"line %d: line too long\n" % line + answer, TOO_LONG)
    return Outcome(wrong)


# Lines that make a log of two segments; further lines, their answers, and the fault, if any.
LOADED = b"put a 1\nput b 2\nput c 3\nput d 4\nput e 5\nflush\n" + 4 * LONG_PUT + b"put z 9\n"
LOADED_OUT = b"".join([5 * b"new\n", b"flushed 2\n", *(b"replaced\nflushed %d\n" % number for number in range(3, 7)), b"new\n"])
NUMBERED = [
    (b"", b"stat sequence 6 head 0 tail 309 segments 2 of 4 pages 3 pairs 6\n", b""),
    (b"clean\n", b"cleaned 1\nstat sequence 7 head 1 tail 464 segments 1 of 4 pages 3 pairs 6\n", b""),
    (b"clean\nflush\n", b"cleaned 1\nflushed 8\nstat sequence 8 head 1 tail 486 segments 1 of 4 pages 3 pairs 6\n", b""),
    (b"clean\nclean\n", b"cleaned 1\n", b"fault 11 NothingToClean\n"),
]


def print_numbers(programs: Programs) -> Outcome:
    words: Command = [programs.store, *SMALL_STORE, "--stat"]
    wrong = differs(run(words), 0, b"stat sequence 1 head 0 tail 33 segments 1 of 4 pages 1 pairs 0\n")
    for text, out, err in NUMBERED:
        wrong = wrong or differs(run(words, LOADED + text), 4 if err else 0, LOADED_OUT + out, err)
    return Outcome(wrong or differs(run(words, b"frob\n"), 3, b"", b"line 1: unknown command\n"))


def print_numbers_of_file(programs: Programs) -> Outcome:
    with new_folder() as folder:
        path = Path(folder) / "store"
        made = run([programs.store, *SMALL_STORE, "--disk", path, "--create"])
        with path.open("rb") as shared:
            fcntl.flock(shared, fcntl.LOCK_SH)
            ran = run([programs.store, "--disk", path, "--stat"])
        return Outcome(differs(made, 0, b"") or differs(ran, 0, b"stat sequence 1 head 0 tail 33 segments 1 of 4 pages 1 pairs 0\n"))


def clean_when_full(programs: Programs) -> Outcome:
    words: Command = [programs.store, *SMALL_STORE, "--clean-when-full"]
    out = b"new\nflushed 2\n" + b"".join(b"replaced\nflushed %d\n" % number for number in range(3, 19))
    out += b"replaced\ncleaned 1\nflushed 20\nvalue 0123456789abcdef\n"
    ordered = run(words, LOADED + b"clean\nclean\n")
    wrong = differs(ordered, 4, LOADED_OUT + b"cleaned 1\n", b"fault 11 NothingToClean\n")
    return Outcome(wrong or differs(run(words, 18 * LONG_PUT + b"get a\n"), 0, out))


def clean_often(programs: Programs) -> Outcome:
    """Each flush and each clean has a sequence number."""
    text = 1_000 * (LONG_PUT + b"put b 0123456789abcdef\nflush\n")
    ran = run([programs.store, *SMALL_STORE, "--clean-when-full"], text)
    cleans, flushes = ran.out.count(b"cleaned "), ran.out.count(b"flushed ")
    is_right = ran.status == 0 and not ran.err and cleans > 100 and flushes == 2_000
    return Outcome(None if is_right and ran.out.endswith(b"\nflushed %d\n" % (cleans + 2_001)) else ran.describe(), measured=f"{cleans} cleans")


def clean_ahead(programs: Programs) -> Outcome:
    """If the log is full, an eighth of its segments is cleaned, and at least one, before the flush is tried again."""
    rows = {}
    for segments in (4, 15, 16, 24, 64):
        words = [*SMALL_STORE[:-1], f"--segments={segments}", "--clean-when-full"]
        ran = run([programs.store, *words], 1_000 * LONG_PUT)
        if ran.status or ran.err:
            return Outcome(f"{segments} segments: {ran.describe()}")
        lines = ran.out.splitlines()
        rows[segments] = {len(list(row)) for is_clean, row in itertools.groupby(lines, lambda line: line.startswith(b"cleaned ")) if is_clean}
    return Outcome(None if rows == {4: {1}, 15: {1}, 16: {2}, 24: {3}, 64: {8}} else f"cleans in a row: {rows}")


def read_once(programs: Programs) -> Outcome:
    """The log is read once for a series of cleans, and not once for each."""
    with new_folder() as folder:
        path, cleans, rows = Path(folder) / "file", 0, 0
        dialog = Dialog(programs.store, "--disk", path, "--create", "--clean-when-full", *SMALL_STORE[:-1], "--segments=64")
        for _ in range(1_000):
            dialog.send(LONG_PUT)
            row = 0
            while (answer := dialog.read_line()) and not answer.startswith(b"flushed "):
                row += answer.startswith(b"cleaned ")
            cleans, rows = cleans + row, rows + (row > 0)
        counts = Path(f"/proc/{dialog.process.pid}/io").read_text().splitlines()
        read = next(int(count.split()[1]) for count in counts if count.startswith("rchar"))
        ended, length = dialog.finish(), path.stat().st_size
        is_right = ended == (0, b"", b"") and cleans == 8 * rows > 80 and read < 2 * rows * length
        return Outcome(None if is_right else f"{cleans} cleans in {rows} rows, {read} bytes read in a log of {length}; the session ended with {ended}")


def clean_in_vain(programs: Programs) -> Outcome:
    """The live pages need five segments, and the log has four."""
    puts = b"".join(b"put sixteen_bytes_%d sixteen_bytes_v1\n" % pair for pair in range(10, 30))
    ran = run([programs.store, *SMALL_STORE, "--clean-when-full"], puts + b"flush\nget a\n")
    return Outcome(differs(ran, 4, 20 * b"new\n", b"fault 10 Full\n"))


def clean_before_full(programs: Programs) -> Outcome:
    """Frames of 37 or 38 bytes: five in the first segment, beside that of the new store, and six in each of the next. So the 78th flush leaves two of 16
    segments free. The next flush that writes something cleans two segments first. The sessions without the option do not clean."""
    words: Command = [*SMALL_STORE[:-1], "--segments=16"]
    with new_folder() as folder:
        path = Path(folder) / "file"
        made = run([programs.store, "--disk", path, "--create", *words], 77 * LONG_PUT)
        early = run([programs.store, "--disk", path, "--clean-when-full"], LONG_PUT)
        idle = run([programs.store, "--disk", path, "--clean-when-full"], b"flush\nget a\n")
        plain = run([programs.store, "--disk", path], LONG_PUT)
        cleaned = run([programs.store, "--disk", path, "--clean-when-full"], LONG_PUT)
        wrong = differs(made, 0, b"new\n" + b"replaced\n".join(b"flushed %d\n" % number for number in range(2, 79)))
        wrong = wrong or differs(early, 0, b"replaced\nflushed 79\n") or differs(idle, 0, b"flushed 79\nvalue 0123456789abcdef\n")
        wrong = wrong or differs(plain, 0, b"replaced\nflushed 80\n")
        return Outcome(wrong or differs(cleaned, 0, b"replaced\ncleaned 1\ncleaned 2\nflushed 83\n"))


def bytes_read(dialog: Dialog) -> int:
    counts = Path(f"/proc/{dialog.process.pid}/io").read_text().splitlines()
    return next(int(count.split()[1]) for count in counts if count.startswith("rchar"))


def full_at_once(programs: Programs) -> Outcome:
    """Two flushes of new pairs, which leave no dead bytes, do not fit. The log is read once, and nothing is cleaned."""
    with new_folder() as folder:
        path = Path(folder) / "file"
        dialog = Dialog(programs.store, "--disk", path, "--create", "--clean-when-full", *SMALL_STORE[:-1], "--segments=64")
        dialog.send(b"".join(b"put key_%06d 0123456789abcdef\n" % number for number in range(200)) + b"flush\n")
        answers = [dialog.read_line() for _ in range(201)]
        before, length = bytes_read(dialog), path.stat().st_size
        dialog.send(b"".join(b"put new_%06d 0123456789abcdef\n" % number for number in range(200)) + b"get key_000000\ngo\n")
        answers += [dialog.read_line() for _ in range(201)]
        dialog.send(b"flush\n")
        line = dialog.read_line()
        read = bytes_read(dialog) - before
        ended = dialog.finish()
        is_right = answers[200] == b"flushed 2\n" and (line, ended) == (b"fault 10 Full\n", (0, b"", b"")) and read < 2 * length
        return Outcome(None if is_right else f"{answers[200]!r}, then {line!r}, {ended}, and {read} bytes read in a log of {length}")


def bloated_and_full(programs: Programs) -> Outcome:
    """A queue of 1,000 pairs fills a log without cleans. A flush with --clean-when-full compacts the tree, and cleans until the tree fits, although
    most of the log was live before."""
    with new_folder() as folder:
        path = Path(folder) / "file"
        settings = ("--fan=64", "--chain=4", "--max-key=8", "--max-value=100", "--seg-size=16384", "--segments=100")
        lines = [b"put q%07d %s\n" % (number, b"v" * 100) for number in range(1_000)]
        for first in range(0, 100_000, 50):
            lines += [b"put q%07d %s\n" % (first + 1_000 + number, b"v" * 100) for number in range(50)]
            lines += [b"del q%07d\n" % (first + number) for number in range(50)] + [b"flush\n"]
        filled = run([programs.store, "--disk", path, "--create", *settings], b"".join(lines))
        before = run([programs.store, "--disk", path], b"scan % * 4294967295\n")
        flushed = run([programs.store, "--disk", path, "--clean-when-full"], b"put a 1\nflush\n")
        after = run([programs.store, "--disk", path], b"del a\nscan % * 4294967295\n")
        is_right = filled.err == b"fault 10 Full\n" and not flushed.err and b"cleaned " in flushed.out and b"flushed " in flushed.out
        is_right = is_right and before.out.startswith(b"rows 1000\n") and after.out == b"deleted\n" + before.out
        return Outcome(None if is_right else f"{filled.err!r}, then {flushed.describe()}, and {len(after.out)} bytes of {len(before.out)}")


def live_for_ever(programs: Programs, kind: str) -> Outcome:
    """Runs a queue of 500 pairs in a log of 320 KB. Before each flush, 50 pairs are put and 50 deleted."""
    words: Command = [programs.store, *LONG_QUEUE, *kind.split(), "--clean-when-full"]
    lines = [b"put q%06d 1\n" % number for number in range(500)]
    for first in range(0, 1_500 * 50, 50):
        lines += [b"put q%06d 1\n" % (first + 500 + number) for number in range(50)] + [b"del q%06d\n" % (first + number) for number in range(50)]
        lines.append(b"flush\n")
    ran = run(words, b"".join(lines) + b"verify\n")
    flushes = ran.out.count(b"flushed ")
    is_right = not ran.status and not ran.err and flushes == 1_500 and ran.out.endswith(b" 500\n")
    return Outcome(None if is_right else f"{flushes} flushes; {ran.describe()}")


def keep_queue(programs: Programs, value: int, most: int, seg_size: int, factor: int) -> Outcome:
    """A queue of 1,000 pairs, with a log of 14 times its bytes, or with a log of half that size, where a compacted tree fits only after cleans."""
    segments = -(-factor * (1_000 + most) * (8 + value + 10) // seg_size) + 1
    words: Command = [programs.store, "--fan=64", "--chain=4", f"--seg-size={seg_size}", f"--segments={segments}", "--clean-when-full"]
    wrong = wrong_queue(words, value, most)
    return Outcome(wrong, measured=f"{segments} segments")


def keep_sized_queue(programs: Programs, value: int, most: int) -> Outcome:
    """A queue of 1,000 pairs, with the log that docs/OPERATING.md advises: for twice as many pairs as it has at any time."""
    sizes = (f"--pairs={2 * (1_000 + most)}", "--max-key=8", f"--max-value={value}")
    return Outcome(wrong_queue([programs.store, "--create", *sizes, "--clean-when-full"], value, most))


def wrong_queue(words: Command, value: int, most: int) -> str | None:
    lines = [b"put q%07d %s\n" % (number, b"v" * value) for number in range(1_000)]
    for first in range(0, 20_000, most):
        lines += [b"put q%07d %s\n" % (first + 1_000 + number, b"v" * value) for number in range(most)]
        lines += [b"del q%07d\n" % (first + number) for number in range(most)] + [b"flush\n"]
    ran = run(words, b"".join(lines) + b"verify\n")
    is_right = not ran.status and not ran.err and ran.out.count(b"flushed ") == 20_000 // most and ran.out.endswith(b" 1000\n")
    return None if is_right else ran.describe()


SMALL_COMMITS = b"".join(b"put k%03d %d\nflush\n" % (number % 500, number) for number in range(5_000))
SLOWER, LEAST = 2, 0.05  # greatest ratio of the processor times with large and small segments, and seconds that are always allowed


def compare_segments(programs: Programs) -> Outcome:
    """A flush of one put takes no more processor time in a large segment than in a small one: it writes the same bytes."""
    seconds = []
    for size, segments in ((16_384, 256), (1_048_576, 4)):
        ran = [run([programs.store, f"--seg-size={size}", f"--segments={segments}"], SMALL_COMMITS) for _ in range(3)]
        if any(each.status or each.out.count(b"flushed ") != 5_000 for each in ran):
            return Outcome(ran[0].describe())
        seconds.append(min(each.seconds for each in ran))
    measured = f"{seconds[0]:.3f} s with segments of 16,384 bytes, {seconds[1]:.3f} s with those of 1,048,576"
    return Outcome(measured if seconds[1] > SLOWER * seconds[0] + LEAST else None, measured=measured)


QUEUES = [(8, 100, 32_768), (20, 500, 32_768), (100, 100, 65_536), (100, 500, 32_768), (100, 50, 32_768)]  # bytes of a value, pairs of a batch, seg_size


def cases(programs: Programs) -> list[Case]:
    return [
        Case("prints the version", print_version, (programs,)),
        Case("prints help", print_help, (programs,)),
        *(Case(f"explains {row[3].decode().strip()}", explain, (programs, *row)) for row in EXPLAINED),
        Case("explains files", explain_files, (programs,)),
        Case("explains streams", explain_streams, (programs,)),
        Case("explains each refusal of a stream", explain_in_turn, (programs,)),
        Case("explains a closed output after a copy", explain_closed_output, (programs,)),
        Case("explains options without an effect", explain_idle_options, (programs,)),
        Case("explains a line that is too long", explain_long_line, (programs,)),
        Case("explains a copy to the store's own file", explain_own_copy, (programs,)),
        Case("chooses settings for a number of pairs", size_by_pairs, (programs,)),
        Case("refuses a number of pairs without effect", refuse_pairs, (programs,)),
        Case("makes a log that is large enough for its pairs", fill_by_pairs, (programs,)),
        Case("prints numbers", print_numbers, (programs,)),
        Case("prints numbers of a file that is shared", print_numbers_of_file, (programs,)),
        Case("cleans a full log", clean_when_full, (programs,)),
        Case("cleans a log for long", clean_often, (programs,)),
        Case("cleans ahead", clean_ahead, (programs,)),
        Case("reads once for a row of cleans", read_once, (programs,)),
        Case("can't clean what lives", clean_in_vain, (programs,)),
        Case("cleans before the log is full", clean_before_full, (programs,)),
        Case("finds at once that no cleans make room", full_at_once, (programs,)),
        Case("makes room for a queue that has filled its log", bloated_and_full, (programs,)),
        *(Case(f"keeps a queue with {row[0]} bytes a value, {row[1]} pairs a batch", keep_queue, (programs, *row, 14)) for row in QUEUES),
        *(Case(f"keeps a queue in half the log, {row[0]} bytes a value, {row[1]} pairs a batch", keep_queue, (programs, *row, 7)) for row in QUEUES),
        Case("flushes one put as fast in a large segment", compare_segments, (programs,)),
        *(Case(f"keeps a queue by --pairs, {row[0]} bytes a value, {row[1]} pairs a batch", keep_sized_queue, (programs, *row[:2])) for row in QUEUES),
        *(Case(f"keeps a queue with {kind}", live_for_ever, (programs, kind)) for kind in ("--fan=64 --chain=16", "--fan=16 --chain=4", "--fan=64 --chain=4")),
    ]
