"""`--tidy`: empty leaves of a queue are merged before each flush, and answers do not change."""

import random
import re
import subprocess
from pathlib import Path

from tools.cases import Case, Outcome, Programs, differs
from tools.failures import DEVICE, NO_MEMORY, REFUSED, refuse_each, refusing, wrong_session
from tools.processes import PATIENCE, Command, Dialog, Limits, new_folder, run

# With these settings a page of three entries is merged.
QUEUE = ("--fan=16", "--chain=2", "--max-key=16", "--max-value=16", "--seg-size=1024")
SMALL = (*QUEUE[:-1], "--seg-size=1024", "--segments=16")
EACH = 50  # keys of a batch
LANES = 8  # cases, each with a share of the allocations


def key(place: int) -> bytes:
    return b"%%%02X%%%02X" % divmod(place, 256)


def queue_batch(number: int) -> bytes:
    lines = []
    for place in range(number * EACH, (number + 1) * EACH):
        lines.append(b"put %s %%\n" % key(place))
        if number:
            lines.append(b"del %s\n" % key(place - EACH))
    return b"".join([*lines, b"go\n"])


def queue_answers(number: int) -> bytes:
    return EACH * (b"new\ndeleted\n" if number else b"new\n")


def queue(first: int, last: int) -> tuple[bytes, bytes]:
    return b"".join(map(queue_batch, range(first, last))), b"".join(map(queue_answers, range(first, last)))


def bytes_of(token: bytes) -> bytes:
    return re.sub(rb"%(..)", lambda found: bytes([int(found[1], 16)]), token)


def pages(out: bytes) -> list[int]:
    return [int(line.split()[1]) for line in out.splitlines() if line.startswith(b"ok ")]


def without_counts(out: bytes) -> list[bytes]:
    """Removes the answers that count log segments or pages."""
    return [line for line in out.splitlines() if line.split()[0] not in (b"ok", b"flushed", b"cleaned", b"stat")]


def merge(programs: Programs, kind: str) -> Outcome:
    """Fifty of a thousand pairs remain, in four of 61 leaves, so 68 pages become 11. The counts follow from the rules, as in the engine's test."""
    text, out = queue(0, 20)
    words = ("--stream",) if kind == "stream" else ()
    ran = run([programs.store, *QUEUE, *words, "--tidy=4294967295"], text + b"verify\nflush\nverify\n")
    counts = pages(ran.out)
    flushes = [line for line in ran.out.splitlines() if line.startswith(b"flushed ")]
    is_right = ran.status == 0 and ran.out.startswith(out) and counts == [68, 11] and flushes == [b"flushed 2"]
    return Outcome(None if is_right else f"{counts} pages, {flushes}, {ran.describe()}")


def keep_small(programs: Programs) -> Outcome:
    """With --tidy=1 a flush merges one page."""
    text = b"".join(queue(first, first + 5)[0] + b"verify\nflush\n" for first in range(0, 40, 5))
    most = max(pages(run([programs.store, *QUEUE, "--tidy=64"], text).out))
    few = run([programs.store, *QUEUE, "--tidy=1"], queue(0, 20)[0] + 3 * b"verify\nflush\n")
    counts = pages(few.out)
    is_right = most == 21 and counts == [68, 67, 66]
    return Outcome(None if is_right else f"at most {most} pages; with --tidy=1 {counts} pages; {few.describe()}")


def random_lines(seed: int) -> bytes:
    chance, lines = random.Random(seed), []
    for _ in range(1_500):
        place = key(chance.randrange(400))
        lines.append(
            chance.choice(
                [b"put %s %d" % (place, chance.randrange(9)), b"add %s 1" % place, b"del " + place, b"get " + place]
                + [b"wipe %s %s" % (place, key(400))]
                + 4 * [b"put %s 2" % place, b"del " + place]
                + [b"scan %s * 20" % place, b"go", b"flush"]
            )
        )
    return b"\n".join([*lines, b"flush", b"scan % * 999", b""])


def two_leaves(left: int) -> bytes:
    """Makes two leaves of sixteen pairs in one batch, and leaves ten and `left` of them in a second one."""
    gone = [place for place in range(32) if place % 16 >= 10 or place >= 16 + left]
    return b"".join([*(b"put %s %%\n" % key(place) for place in range(32)), b"go\n", *(b"del %s\n" % key(place) for place in gone), b"go\n"])


def keep_quarters(programs: Programs, words: tuple[str, ...], line: bytes, answer: bytes) -> Outcome:
    """A leaf whose entries are a quarter of the fan stays. A leaf with fewer is merged into the leaf before it, and it and the root are freed."""
    for left, count, after in ((4, 0, b"ok 3 2 14\n"), (3, 2, b"ok 1 1 13\n"), (1, 2, b"ok 1 1 11\n"), (0, 2, b"ok 1 1 10\n")):
        plain = run([programs.store, *QUEUE, "--stat"], two_leaves(left) + b"flush\nverify\n")
        ran = run([programs.store, *QUEUE, "--stat", *words], two_leaves(left) + b"verify\n" + line + b"flush\nverify\n")
        before = 32 * b"new\n" + (22 - left) * b"deleted\n" + b"ok 3 2 %d\n" % (10 + left)
        start = before + (answer % count if answer else b"") + b"flushed 2\n" + after
        is_right = ran.status == 0 and ran.out.startswith(start) and (ran.out.endswith(plain.out.splitlines()[-1] + b"\n") == (left == 4))
        if not is_right:
            return Outcome(f"{left} pairs: {ran.describe()}")
    return Outcome()


def compare_answers(programs: Programs, seed: int) -> Outcome:
    """With --tidy=0 the whole output is equal."""
    text = random_lines(seed)
    words: Command = [programs.store, *QUEUE, "--clean-when-full", "--stat"]
    plain = run(words, text)
    wrong = differs(run([*words, "--tidy", "0"], text), 0, plain.out)
    for more in (["--tidy=3"], ["--tidy=99"], ["--tidy=99", "--stream"], ["--tidy=99", "--workers=3", "--grain=1"]):
        ran = run([*words, *more], text)
        if ran.status or ran.err or without_counts(ran.out) != without_counts(plain.out):
            wrong = wrong or f"{more}: {ran.describe()}, where {plain.describe()} was expected"
    return Outcome(wrong)


def flush_merged(programs: Programs) -> Outcome:
    """The only flush of a session with --tidy writes the merges. Without --tidy the file has all emptied leaves, until a session with --tidy flushes,
    even if it does nothing else."""
    found = []
    with new_folder() as folder:
        for number, words in enumerate([(), ("--tidy=64",), (), ("--clean-when-full", "--tidy=64")]):
            path = Path(folder) / f"store{number}"
            run([programs.store, *QUEUE, "--disk", path, "--create", *words], queue(0, 20)[0] + b"flush\n")
            if number == 2:
                run([programs.store, "--disk", path, "--tidy=64"], b"flush\n")
            ran = run([programs.store, "--disk", path], b"verify\nscan % * 99\n")
            rows = [bytes_of(row.split()[0]) for row in ran.out.splitlines()[2:]]
            are_last = rows == [bytes_of(key(place)) for place in range(19 * EACH, 20 * EACH)]
            found.append((pages(ran.out), are_last))
    return Outcome(None if found == [([68], True), ([11], True), ([11], True), ([11], True)] else f"pages, and whether the rows are right: {found}")


def flush_once_each(programs: Programs) -> Outcome:
    """Forty sessions, each with one batch and one flush, leave fifty pairs. With --tidy, leaves of fewer than four pairs are merged, so at most 13
    leaves and a root remain. Without it, the fifty new keys of each batch leave three or more leaves behind."""
    found: list[int] = []
    with new_folder() as folder:
        for words in ((), ("--tidy=64",)):
            path = Path(folder) / f"store{len(found)}"
            run([programs.store, *QUEUE, "--disk", path, "--create"])
            for number in range(40):
                run([programs.store, "--disk", path, *words], queue_batch(number) + b"flush\n")
            found += pages(run([programs.store, "--disk", path], b"verify\n").out)
    is_right = len(found) == 2 and found[0] > 120 and found[1] <= 14
    return Outcome(None if is_right else f"{found} pages")


def clean_often(programs: Programs) -> Outcome:
    text = b"".join(queue(number, number + 1)[0] + b"flush\n" for number in range(200))
    ran = run([programs.store, *SMALL, "--clean-when-full", "--tidy=64"], text + b"verify\nscan % * 99\n")
    cleans, flushes = ran.out.count(b"cleaned "), ran.out.count(b"flushed ")
    is_right = ran.status == 0 and not ran.err and flushes == 200 and cleans > 20 and b"\nrows 50\n" in ran.out and pages(ran.out)[0] < 30
    return Outcome(None if is_right else ran.describe(), measured=f"{cleans} cleans")


def stops(programs: Programs) -> Outcome:
    text, out = queue(0, 6)
    words: Command = [programs.store, *QUEUE, "--tidy=99"]
    ran = run([*words, "--stream"], text + b"flush\nfrob\nget a\n")
    wrong = differs(ran, 0, out + b"flushed 2\n" + b"line %d: unknown command\n" % (text.count(b"\n") + 2))
    ran = run(words, text + b"flush\nfrob\n")
    wrong = wrong or differs(ran, 3, b"", b"line %d: unknown command\n" % (text.count(b"\n") + 2))
    ran = run(words, text + b"flush\n", Limits(redirections=">&-"))
    wrong = wrong or differs(ran, 4, b"", DEVICE)
    full = run([*words, "--segments=4"], b"".join(queue(number, number + 1)[0] + b"flush\n" for number in range(200)))
    is_full = full.status == 4 and full.err == b"fault 10 Full\n" and full.out.endswith(EACH * b"new\ndeleted\n")
    return Outcome(wrong or (None if is_full else full.describe()))


def close_pipe(programs: Programs) -> Outcome:
    """Closes the pipe after a flush was answered. The next flush ends the session."""
    text, out = queue(0, 6)
    dialog = Dialog(programs.store, *QUEUE, "--tidy=99")
    dialog.send(text + b"flush\n")
    got = b"".join(dialog.read_line() for _ in range(out.count(b"\n") + 1))
    dialog.output.close()
    dialog.send(b"flush\n")
    status, err = dialog.finish_unread()
    return Outcome(None if (got, status, err) == (out + b"flushed 2\n", 4, DEVICE) else f"{got[-40:]!r}, status {status}, {err!r}")


def kill(programs: Programs, seed: int) -> Outcome:
    chance = random.Random(seed)
    with new_folder() as folder:
        path, number = Path(folder) / "file", 0
        Dialog(programs.store, "--disk", path, "--create", *SMALL).finish()
        for turn in range(8):
            dialog, first = Dialog(programs.store, "--disk", path, "--clean-when-full", "--tidy=64"), number
            for number in range(first, first + chance.randrange(2, 9)):
                dialog.send(queue_batch(number) + b"flush\n")
                while (answer := dialog.read_line()) and not answer.startswith(b"flushed "):
                    pass
            dialog.send(queue_batch(number + 1))
            dialog.kill()
            number += 1
            recovered = run([programs.store, "--disk", path], b"scan % * 99\n")
            rows = [bytes_of(row.split()[0]) for row in recovered.out.splitlines()[1:]]
            if rows != [bytes_of(key(place)) for place in range((number - 1) * EACH, number * EACH)]:
                return Outcome(f"after kill {turn} of seed {seed}, in batch {number}: {recovered.describe()}")
    return Outcome()


TIDIED = queue(0, 6)[0] + b"flush\nscan % * 2\nput %00%FA %\nflush\n"
ROWS = b"rows 2\n%00%FA %\n%00%FB %\n"
TIDIED_OUT = queue(0, 6)[1] + b"flushed 2\n" + ROWS + b"replaced\nflushed 3\n"


def wrong_tidied(ran: subprocess.CompletedProcess[bytes]) -> str | None:
    return wrong_session(ran, TIDIED_OUT, lambda err: err in (NO_MEMORY, DEVICE))


def refuse_merges(programs: Programs, library: Path) -> Outcome:
    """Refuses each of the last hundred allocations. The first ones belong to merges: the flush is answered, and then the session ends with fault 6.
    The last ones belong to the flush, which is not answered."""
    text, out = queue(0, 6)

    def run_refused(number: int) -> subprocess.CompletedProcess[bytes]:
        command: Command = [programs.store, *QUEUE, "--tidy=99"]
        return subprocess.run(command, env=refusing(library, number), input=text + b"flush\n", capture_output=True, timeout=PATIENCE)

    last, none = 1, 1 << 20  # an allocation that the session makes, and one beyond its last
    while none - last > 1:
        number = (last + none) // 2
        last, none = (number, none) if REFUSED in run_refused(number).stderr else (last, number)
    runs = [run_refused(number) for number in range(last - 99, last + 1)]
    ends = [(ran.stdout, ran.returncode, ran.stderr.replace(REFUSED, b"")) for ran in runs]
    merging = ends.count((out + b"flushed 2\n", 4, NO_MEMORY))
    flushing = ends.count((out, 4, NO_MEMORY)) + ends.count((out, 4, DEVICE))
    rest = len(runs) - merging - flushing - ends.count((out + b"flushed 2\n", 0, b""))
    is_right = merging >= 10 and flushing and not rest
    return Outcome(None if is_right else f"{merging} in merges, {flushing} in the flush, {rest} others", measured=f"{merging} in merges")


def fill_with_pages(programs: Programs, path: Path, in_use: int) -> int:
    """Makes a store of 20 pairs in many pages, which uses at least `in_use` of its 32 segments. Returns the number of its last key."""
    first, used = 0, 0
    run([programs.store, "--disk", path, "--create", *SMALL[:-1], "--segments=32"])
    while used < in_use and first < 4_000:
        puts = b"".join(b"put q%06d 1\n" % (first + place) for place in range(20))
        dels = b"".join(b"del q%06d\n" % (first - 20 + place) for place in range(20)) if first else b""
        ran = run([programs.store, "--disk", path, "--stat"], puts + dels + b"flush\n")
        used, first = int(ran.out.split(b" segments ")[-1].split()[0]), first + 20
    return first - 1


def compact(programs: Programs) -> Outcome:
    """With --clean-when-full the only flush of a session compacts a store whose log is nearly full, and whose pages are nearly empty. A session without
    the option does not, nor one that flushes nothing."""
    with new_folder() as folder:
        path = Path(folder) / "file"
        last = fill_with_pages(programs, path, 30)
        before = pages(run([programs.store, "--disk", path, "--clean-when-full"], b"flush\nverify\n").out)
        plain = pages(run([programs.store, "--disk", path], b"verify\n").out)
        ran = run([programs.store, "--disk", path, "--clean-when-full"], b"put q%06d 2\nflush\nscan %% * 99\n" % last)
        after = run([programs.store, "--disk", path], b"scan % * 99\nverify\n")
        rows = b"rows 20\n" + b"".join(b"q%06d %d\n" % (number, 1 + (number == last)) for number in range(last - 19, last + 1))
        is_right = ran.status == 0 and ran.out.endswith(rows) and after.out.startswith(rows) and before == plain
        is_right = is_right and before[0] > 8 * 20 // 16 + 4 * 3 and pages(after.out)[0] <= 8 * 20 // 16 + 4 * 2
        return Outcome(None if is_right else f"{before} and {plain} pages, then {ran.describe()}, then {after.describe()}")


def refuse_compaction(programs: Programs, library: Path) -> Outcome:
    """Two thirds of the log are in use. A session with a refused allocation leaves the file unchanged, or with the same bytes as one without."""
    with new_folder() as folder:
        path = Path(folder) / "file"
        command: Command = [programs.store, "--disk", path, "--clean-when-full"]
        text = b"put q%06d 2\nflush\n" % fill_with_pages(programs, path, 22)
        before = path.read_bytes()
        counts = pages(run([programs.store, "--disk", path], b"verify\n").out)
        ran = run(command, text)
        after = path.read_bytes()
        counts += pages(run([programs.store, "--disk", path], b"verify\n").out)
        is_right = ran.status == 0 and ran.out.startswith(b"replaced\nflushed ") and counts[0] > 8 * 20 // 16 + 4 * 3 >= counts[1] + 4
        if not is_right:
            return Outcome(f"{counts} pages, and {ran.describe()}")

        def prepare() -> None:
            path.write_bytes(before)

        def wrong_run(refused: subprocess.CompletedProcess[bytes]) -> str | None:
            is_known = path.read_bytes() in (before, after)
            return wrong_session(refused, ran.out, NO_MEMORY.__eq__) or (None if is_known else "the file holds other bytes")

        return refuse_each(command, library, 1, 1, 60, text, wrong_run, prepare)


def cases(programs: Programs, library: Path) -> list[Case]:
    command: Command = [programs.store, *QUEUE, "--tidy=99"]
    refusals = [
        Case(f"each allocation refused, part {lane} of {LANES}", refuse_each, (command, library, lane, LANES, 60, TIDIED, wrong_tidied))
        for lane in range(1, LANES + 1)
    ]
    return [
        *refusals,
        *(Case(f"answers alike, seed {seed}", compare_answers, (programs, seed)) for seed in range(4)),
        *(Case(f"kills, seed {seed}", kill, (programs, seed)) for seed in range(2)),
        Case("an allocation refused in merges", refuse_merges, (programs, library)),
        Case("merges emptied leaves", merge, (programs, "text")),
        Case("merges emptied leaves of a stream", merge, (programs, "stream")),
        Case("keeps a queue small", keep_small, (programs,)),
        Case("keeps leaves with a quarter of their entries", keep_quarters, (programs, ("--tidy=9",), b"", b"")),
        Case("keeps leaves with a quarter of their entries, .tidy", keep_quarters, (programs, ("--stream",), b".tidy 9\n", b"tidied %d\n")),
        Case("reaches the disk with a session's only flush", flush_merged, (programs,)),
        Case("a flush in each session", flush_once_each, (programs,)),
        Case("compacts a store whose log is nearly full", compact, (programs,)),
        Case("an allocation refused in compaction", refuse_compaction, (programs, library)),
        Case("tidies a full log", clean_often, (programs,)),
        Case("what ends a session that tidies", stops, (programs,)),
        Case("a pipe that is closed", close_pipe, (programs,)),
    ]
