"""Sessions over a pipe: each line is answered before the next is sent; bad lines, closed pipes, kills and long streams."""

import fcntl
import random
import time
from pathlib import Path

from tools.cases import SMALL_STORE, Case, Outcome, Programs, differs
from tools.processes import PATIENCE, Command, Dialog, Limits, PipedProgram, new_folder, peak_memory, run, stalled

LONG = 20_000  # batches of a long stream
MEMORY = 40_000_000  # bytes that a long stream may use
KILLS = 12


TALK = [
    (b"put a 1\ngo\n", b"new\n"),
    (b"get a\nget b\r\ngo\r\n", b"value 1\nmissing\n"),
    (b"# nothing\n\n", b""),
    (b"put b 2\n", b""),
    (b"flush\n", b"new\nflushed 2\n"),
    (b"get", b""),
    (b" a\n", b""),
    (b"scan % * 9\nverify\n", b"value 1\nrows 2\na 1\nb 2\nok 1 1 2\n"),
    (b"go\nupgrade\n", b"upgraded 3\n"),
]


def check_answers(programs: Programs) -> Outcome:
    dialog = Dialog(programs.store)
    for text, answers in TALK:
        dialog.send(text)
        for answer in answers.splitlines(keepends=True):
            got = dialog.read_line()
            if got != answer:
                dialog.kill()
                return Outcome(f"the answer to {text!r} is {got!r}, where {answer!r} was expected")
        if not dialog.is_silent():
            dialog.kill()
            return Outcome(f"the answer to {text!r} is longer than {answers!r}")
    dialog.send(b"del a\nget a\nget b")
    ended = dialog.finish()
    return Outcome(None if ended == (0, b"deleted\nmissing\n", b"") else f"the session ended with {ended}")


# Options, lines, and answers. After each fault and each bad line the stream continues.
REFUSALS: list[tuple[tuple[str, ...], bytes, bytes]] = [
    # A bad line is answered at once, and its batch is skipped up to the line that ends it.
    ((), b"put a 1\ngo\nput b 1\nfrob\nput c 1\nput %\ngo\nscan % * 9\ngo\n", b"new\nline 4: unknown command\nrows 1\na 1\n"),
    ((), b"frob\nput a 1\ngo\nscan % * 9\ngo\n", b"line 1: unknown command\nrows 0\n"),
    # A line that ends the batch and is an order is answered, too.
    ((), b"put a 1\nget\nflush\nverify\n", b"line 2: wrong number of words\nflushed 1\nok 1 1 0\n"),
    ((), b"get %0\ngo\nscan a b c\ngo\nget a\ngo\n", b"line 1: bad token\nline 3: bad number\nmissing\n"),
    # Of several bad lines in a batch, the first is reported. Bad lines at the end of the input are reported, too.
    ((), b"x\ny\ngo\ngo\nz\nput a 1\n", b"line 1: unknown command\nline 5: unknown command\n"),
    (("--max-key=1",), b"put a 1\ngo\nget a\nput ab 1\ngo\nget a\nflush\n", b"new\nfault 2 KeyTooLong 1\nvalue 1\nflushed 2\n"),
    (("--max-value=1",), b"put a 1\nput b 22\nflush\nget a\ngo\n", b"fault 3 ValueTooLong 1\nflushed 1\nmissing\n"),
    ((), b"clean\nput a 1\nflush\nclean\nget a\ngo\n", b"fault 11 NothingToClean\nnew\nflushed 2\nfault 11 NothingToClean\nvalue 1\n"),
    ((), b"upgrade\nupgrade\nput a 1\nflush\n", b"upgraded 2\nfault 19 AlreadyUpgraded\nnew\nflushed 3\n"),
    # The 65,536th command refuses its batch; the rest of it is skipped.
    ((), 65_536 * b"put a 1\n" + b"x\nput b 1\ngo\nscan % * 9\ngo\n", b"fault 4 BatchTooLong\nrows 0\n"),
    ((), 65_535 * b"get a\n" + b"go\n" + 65_536 * b"get a\n" + b"verify\n", 65_535 * b"missing\n" + b"fault 4 BatchTooLong\nok 1 1 0\n"),
    # A last line without a line feed is skipped; the lines before it are run.
    ((), b"put a 1\ngo\nput a 2", b"new\n"),
    ((), b"put a 1\nflush\nput a 2\nget a", b"new\nflushed 2\nreplaced\n"),
    ((), b"put a 1\nflush", b"new\n"),
]


def refuse(programs: Programs, number: int) -> Outcome:
    """--explain adds lines to standard error only."""
    words, text, out = REFUSALS[number]
    ran = run([programs.store, "--stream", *words], text)
    explained = run([programs.store, "--stream", "--explain", *words], text)
    lines = sum(line.startswith((b"fault ", b"line ")) for line in out.splitlines())
    wrong = differs(ran, 0, out) or differs(explained, 0, out, explained.err)
    return Outcome(wrong or (None if explained.err.count(b"\n") == lines else explained.describe()))


def refuse_full(programs: Programs) -> Outcome:
    """Row 15 of EXAMPLES: the eighteenth flush is refused, a clean makes room, and nothing is lost."""
    put = b"put a 0123456789abcdef\nflush\n"
    ran = run([programs.store, "--stream", *SMALL_STORE], 18 * put + b"get a\ngo\nclean\nflush\n")
    flushed = [b"replaced\nflushed %d\n" % number for number in range(3, 19)]
    out = b"new\nflushed 2\n" + b"".join(flushed) + b"replaced\nfault 10 Full\nvalue 0123456789abcdef\ncleaned 1\nflushed 20\n"
    return Outcome(differs(ran, 0, out))


def refuse_long_line(programs: Programs) -> Outcome:
    """A line that would not fit in memory is refused with its batch as too long, and the stream continues."""
    long = b"put b " + 30_000_000 * b"x" + b"\n"
    ran = run([programs.store, "--stream"], b"put a 1\ngo\nput c 1\n" + long + b"put d 1\nflush\nscan % * 9\ngo\n", Limits(memory=20_000))
    return Outcome(differs(ran, 0, b"new\nline 4: line too long\nflushed 2\nrows 1\na 1\n"))


def refuse_many_rows(programs: Programs) -> Outcome:
    """With --max-rows, a scan with which its batch asks for more rows is a bad line. Orders that read rows are not bounded, nor are texts."""
    puts, put, all_rows = b"put a 1\nput b 2\ngo\n", b"new\nnew\n", b"rows 2\na 1\nb 2\n"
    batches = b"scan % * 4\nscan b * 6\nget a\ngo\nscan % * 5\nput c 3\nscan % * 6\nput d 4\ngo\n"
    answers = all_rows + b"rows 1\nb 2\nvalue 1\nline 10: too many rows\n"
    orders = b"scan % * 11\nflush\n.back % * 99\n.prefix % 99\nscan % * 4294967295\n"
    ordered = b"line 13: too many rows\nflushed 2\nrows 2\nb 2\na 1\nrows 2\na 1\nb 2\nline 17: too many rows\n"
    wrong = differs(run([programs.store, "--stream", "--max-rows=10"], puts + batches + orders), 0, put + answers + ordered)
    unbounded = run([programs.store, "--stream", "--max-rows=0"], puts + 9 * b"scan % * 4294967295\n" + b"go\n")
    wrong = wrong or differs(unbounded, 0, put + 9 * all_rows)
    return Outcome(wrong or differs(run([programs.store, "--max-rows=1"], puts + b"scan % * 2\n"), 0, put + all_rows))


def free_long_batch(programs: Programs) -> Outcome:
    """A batch that is never ended does not use more memory than 65,535 commands."""
    ran = run([programs.store, "--stream"], 1_000_000 * b"put a 1\n")
    wrong = differs(ran, 0, b"fault 4 BatchTooLong\n")
    return Outcome(wrong or (None if ran.memory < MEMORY else f"{ran.memory} bytes"), measured=f"{ran.memory} bytes")


def close_answers(programs: Programs) -> Outcome:
    dialog = Dialog(programs.store)
    dialog.send(b"put a 1\ngo\n")
    first = dialog.read_line()
    dialog.output.close()
    dialog.send(b"get a\ngo\n")
    status, err = dialog.finish_unread()
    return Outcome(None if (first, status, err) == (b"new\n", 4, b"fault 9 Device\n") else f"{first!r}, status {status}, {err!r}")


def run_long_stream(programs: Programs) -> Outcome:
    """Memory must not grow with the number of batches, and the small log must be cleaned automatically."""
    with new_folder() as folder:
        dialog = Dialog(programs.store, "--disk", Path(folder) / "file", "--create", "--clean-when-full", *SMALL_STORE)
        cleans = 0
        for number in range(LONG):
            dialog.send(b"put k%d v%d\n%s\n" % (number % 5, number, b"flush" if number % 10 == 9 else b"go"))
            answers = [dialog.read_line()]
            while number % 10 == 9 and not answers[-1].startswith(b"flushed ") and len(answers) < 9:
                answers.append(dialog.read_line())
            cleans += sum(answer.startswith(b"cleaned ") for answer in answers)
            if answers[0] not in (b"new\n", b"replaced\n") or len(answers) == 9:
                dialog.kill()
                return Outcome(f"the answers to batch {number} are {answers}")
        memory = peak_memory(dialog.process.pid, programs.store.name)
        ended = dialog.finish()
        is_right = ended == (0, b"", b"") and cleans > 100 and memory < MEMORY
        return Outcome(None if is_right else f"{cleans} cleans, {memory} bytes, and the session ended with {ended}")


def kill(programs: Programs, seed: int) -> Outcome:
    chance = random.Random(seed)
    with new_folder() as folder:
        path, flushed = Path(folder) / "file", dict[bytes, bytes]()
        Dialog(programs.store, "--disk", path, "--create", *SMALL_STORE).finish()
        for turn in range(KILLS):
            dialog, held = Dialog(programs.store, "--disk", path, "--clean-when-full"), dict(flushed)
            for number in range(chance.randrange(1, 30)):
                key, value = b"k%d" % chance.randrange(9), b"%d.%d" % (turn, number)
                is_flush = chance.random() < 0.4
                dialog.send(b"put %s %s\n%s\n" % (key, value, b"flush" if is_flush else b"go"))
                held[key] = value
                while (answer := dialog.read_line()) and is_flush and not answer.startswith(b"flushed "):
                    pass
                flushed = dict(held) if is_flush else flushed
            dialog.kill()
            reader = Dialog(programs.store, "--disk", path)
            reader.send(b"scan % * 99\n")
            status, out, err = reader.finish()
            rows = {key: value for key, value in (line.split(b" ") for line in out.splitlines()[1:])}
            if (status, rows, err) != (0, flushed, b""):
                return Outcome(f"after kill {turn} of seed {seed} the file held {rows}, where {flushed} was expected; status {status}, {err!r}")
    return Outcome(None)


def lock(programs: Programs) -> Outcome:
    """A session locks its file before it reads a line, and a kill releases the lock."""
    with new_folder() as folder:
        path = Path(folder) / "file"
        Dialog(programs.store, "--disk", path, "--create").finish()
        dialog = Dialog(programs.store, "--disk", path)
        dialog.send(b"verify\n")
        first = dialog.read_line()
        second = Dialog(programs.store, "--disk", path).finish()
        dialog.kill()
        third = Dialog(programs.store, "--disk", path).finish()
        right = (b"ok 1 1 0\n", (4, b"", b"fault 9 Device\n"), (0, b"", b""))
        return Outcome(None if (first, second, third) == right else f"{first!r}, then {second}, then {third}")


# Lines of a stream that begin with a dot, and their answers.
STORED = b"put a 1\nput ab 22\nput b%20 3\nflush\n"
STORED_OUT = b"new\nnew\nnew\nflushed 2\n"
STAT = b"stat sequence 2 head 0 tail 72 segments 1 of 64 pages 1 pairs 3\n"
SETTINGS = b"settings fan 16 chain 4 max-key 64 max-value 256 seg-size 65536 segments 64\n"
DOTS = [
    (b".stat\n", STAT + SETTINGS),
    (b".back % * 2\n.back a b 9\n.back ab ab 9\n.back % * 0\n", b"rows 2\nb%20 3\nab 22\nrows 2\nab 22\na 1\nrows 0\nrows 0\n"),
    (b".prefix a 9\n.prefix a 1\n.prefix % 9\n.prefix c 9\n", b"rows 2\na 1\nab 22\nrows 1\na 1\nrows 3\na 1\nab 22\nb%20 3\nrows 0\n"),
    # They act after the batch before them.
    (b"del a\n.prefix a 9\n.back % * 1\n", b"deleted\nrows 1\nab 22\nrows 1\nb%20 3\n"),
    (b".tidy 5\nscan % * 1\n.stat\n", b"tidied 0\nrows 1\na 1\n" + STAT + SETTINGS),
    (b".stat 1\n.stat\n.tidy\n.stat\n", b"line 5: wrong number of words\n" + STAT + SETTINGS + b"line 7: wrong number of words\n" + STAT + SETTINGS),
    (b".tidy x\ngo\n.back a b\ngo\n.back %0 * 1\ngo\n.prefix a b\ngo\n", b"line 5: bad number\nline 7: wrong number of words\nline 9: bad token\nline 11: bad number\n"),
    (b".frob\ngo\n.\ngo\n.copy\ngo\n.copy a 1 2\ngo\n.copy a b\ngo\n", b"line 5: unknown command\nline 7: unknown command\nline 9: wrong number of words\nline 11: wrong number of words\nline 13: bad number\n"),
]


def ask(programs: Programs, number: int) -> Outcome:
    text, out = DOTS[number]
    wrong = differs(run([programs.store, "--stream"], STORED + text), 0, STORED_OUT + out)
    line = STORED.count(b"\n") + 1 + (text.index(b".") and 1)
    plain = run([programs.store], STORED + text)
    return Outcome(wrong or differs(plain, 3, b"", b"line %d: unknown command\n" % line))


def ask_for_help(programs: Programs) -> Outcome:
    ran = run([programs.store, "--stream"], b"put a 1\n.help\nget a\n")
    missing = [word for word in (b"put K V", b"flush", b".stat", b".copy PATH [SEGMENTS]", b".tidy N", b".back LO HI LIMIT", b".prefix BYTES LIMIT") if word not in ran.out]
    is_right = ran.status == 0 and ran.out.startswith(b"new\n") and ran.out.endswith(b"\nvalue 1\n") and not missing
    return Outcome(None if is_right else f"{ran.describe()}, without {missing}")


def tidy_at_once(programs: Programs) -> Outcome:
    """Deletes in small batches leave many emptied pages. `verify` counts as many pages fewer as `.tidy` reports."""
    puts = b"".join(b"put k%03d v\n" % number for number in range(400)) + b"go\n"
    deletes = b"".join(b"del k%03d\n" % number + b"go\n" * (number % 10 == 9) for number in range(380))
    ran = run([programs.store, "--stream"], puts + deletes + b"verify\n.tidy 1000\nverify\nscan % * 999\n")
    lines = ran.out.splitlines()[780:]
    before, freed, after = int(lines[0].split()[1]), int(lines[1].split()[1]), int(lines[2].split()[1])
    is_right = ran.status == 0 and lines[1].startswith(b"tidied ") and freed > 0 and before - freed == after and lines[3] == b"rows 20"
    return Outcome(None if is_right else f"{lines[:4]}, {ran.status}")


def copy_live_store(programs: Programs) -> Outcome:
    """A copy has all pairs, flushed or not, and the settings of the store, except a number of segments that is given. The stream continues after a
    refused copy."""
    with new_folder() as folder:
        path, first, second = (Path(folder) / name for name in ("file", "fi rst", "second"))
        dialog = Dialog(programs.store, "--disk", path, "--create", "--max-key=9")
        dialog.send(b"put a 1\nflush\nput b 2\n.copy %s\nput c 3\n.copy %s 8\n" % (str(first).replace(" ", "%20").encode(), str(second).encode()))
        answers = [dialog.read_line() for _ in range(6)]
        right = [b"new\n", b"flushed 2\n", b"new\n", b"copied 2\n", b"new\n", b"copied 3\n"]
        before = first.read_bytes()
        dialog.send(b".copy %s\n.copy /no/such/folder\n.copy %s 2\n.copy %%00\nget c\ngo\n" % (str(second).encode(), str(path).encode() + b"x"))
        answers += [dialog.read_line() for _ in range(5)]
        right += [b"fault 9 Device\n", b"fault 9 Device\n", b"fault 1 BadSettings segments\n", b"fault 9 Device\n", b"value 3\n"]
        ended = dialog.finish()
        held = [run([programs.store, "--disk", copy, "--stat"], b"scan % * 9\n").out for copy in (first, second, path)]
        held_right = [b"rows 2\na 1\nb 2\n", b"rows 3\na 1\nb 2\nc 3\n", b"rows 1\na 1\n"]
        segments = [b" of 64 ", b" of 8 ", b" of 64 "]
        is_right = all(out.startswith(rows) and count in out for out, rows, count in zip(held, held_right, segments))
        is_same = first.read_bytes() == before and not Path(f"{path}x").exists()
        long = run([programs.store, "--disk", second], b"put 0123456789 1\n")
        wrong = differs(long, 4, b"", b"fault 2 KeyTooLong 0\n")
        return Outcome(wrong or (None if answers == right and ended == (0, b"", b"") and is_right and is_same else f"{answers}, {ended}, {held}"))


def explain_copy(programs: Programs) -> Outcome:
    with new_folder() as folder:
        path = Path(folder) / "file"
        path.write_bytes(b"something")
        ran = run([programs.store, "--stream", "--explain"], b".copy %s\nput a 1\n" % str(path).encode())
        err = f"{path}: entity already exists. The file was left as it was. A copy needs a path without a file, or an empty or unfinished file. There is no copy.\n"
        return Outcome(differs(ran, 0, b"fault 9 Device\nnew\n", err.encode()))


def explain_damage(programs: Programs) -> Outcome:
    """If the log is damaged while a stream runs, a clean fails when it reads the log. The store in memory is whole, and can be copied."""
    with new_folder() as folder:
        path, copy = Path(folder) / "file", Path(folder) / "copy"
        dialog = Dialog(programs.store, "--explain", "--disk", path, "--create", "--fan=4", "--max-value=60", "--seg-size=1024")
        puts = b"".join(b"put k%03d %s\n" % (number, 60 * b"v") for number in range(99))
        dialog.send(puts + b"flush\n")
        answers = [dialog.read_line() for _ in range(100)]
        with path.open("r+b") as file:
            file.seek(512 + 16)
            file.write(200 * b"\xff")
        dialog.send(b"clean\n.copy %s\n" % str(copy).encode())
        answers += [dialog.read_line() for _ in range(2)]
        err = f"{path}: The log in the file is damaged. A stream can save the store with .copy.\n"
        ended = dialog.finish()
        is_right = answers == [*99 * [b"new\n"], b"flushed 2\n", b"fault 15 BadFrame 0 16\n", b"copied 99\n"] and ended == (0, b"", err.encode())
        return Outcome(None if is_right else f"{answers[99:]}, {ended}")


def read_without_lock(programs: Programs) -> Outcome:
    """A session that writes nothing releases its lock when it has read the store, before it prints."""
    with new_folder() as folder:
        path = Path(folder) / "file"
        puts = b"".join(b"put k%05d %s\n" % (number, 200 * b"v") for number in range(2_000))
        made = run([programs.store, "--disk", path, "--create"], puts + b"flush\n")
        with stalled([programs.store, "--disk", path], 9 * b"scan % * 9999\n"):
            wrote = run([programs.store, "--disk", path], b"put a 1\nflush\n")
        return Outcome(differs(made, 0, 2_000 * b"new\n" + b"flushed 2\n") or differs(wrote, 0, b"new\nflushed 3\n"))


def wait_for_lock(programs: Programs) -> Outcome:
    """--wait waits while another session has locked the file, at most for the given time."""
    with new_folder() as folder:
        path = Path(folder) / "file"
        dialog = Dialog(programs.store, "--disk", path, "--create")
        dialog.send(b"put a 1\nflush\n")
        answers = [dialog.read_line(), dialog.read_line()]
        begun = time.monotonic()
        late = run([programs.store, "--disk", path, "--wait=1"], b"get a\n")
        seconds = time.monotonic() - begun
        waiting = PipedProgram([programs.store, "--disk", path, "--wait=60"])
        waiting.send(b"get a\nput b 2\nflush\n")
        waiting.input.close()
        time.sleep(0.5)
        is_waiting = waiting.process.poll() is None
        ended = dialog.finish()
        out, status = waiting.output.read(), waiting.process.wait(PATIENCE)
        wrong = differs(late, 4, b"", b"fault 9 Device\n")
        is_right = (answers, is_waiting, ended, status, out) == ([b"new\n", b"flushed 2\n"], True, (0, b"", b""), 0, b"value 1\nnew\nflushed 3\n")
        return Outcome(wrong or (None if is_right and 0.9 <= seconds < 9 else f"{answers}, {is_waiting}, {ended}, {status}, {out!r}, {seconds:.1f} s"))


def wait_for_another_file(programs: Programs) -> Outcome:
    """--wait opens the file that is at the path in the end, even if it has waited for the lock of another one there."""
    with new_folder() as folder:
        path, larger = Path(folder) / "file", Path(folder) / "larger"
        dialog = Dialog(programs.store, "--disk", path, "--create")
        dialog.send(b"put a 1\nflush\n")
        answers = [dialog.read_line(), dialog.read_line()]
        made = run([programs.store, "--disk", larger, "--create"], b"put a 2\nflush\n")
        waiting = PipedProgram([programs.store, "--disk", path, "--wait=60"])
        waiting.send(b"get a\nput b 2\nflush\n")
        waiting.input.close()
        time.sleep(0.5)
        is_waiting = waiting.process.poll() is None
        larger.rename(path)
        ended = dialog.finish()
        out, status = waiting.output.read(), waiting.process.wait(PATIENCE)
        held = run([programs.store, "--disk", path], b"get a\nget b\n")
        wrong = differs(made, 0, b"new\nflushed 2\n") or differs(held, 0, b"value 2\nvalue 2\n")
        is_right = (answers, is_waiting, ended, status, out) == ([b"new\n", b"flushed 2\n"], True, (0, b"", b""), 0, b"value 2\nnew\nflushed 3\n")
        return Outcome(wrong or (None if is_right else f"{answers}, {is_waiting}, {ended}, {status}, {out!r}"))


# Options, lines and answers of sessions that lock a file: before they read a line, or by a line.
WAITING: list[tuple[tuple[str, ...], bytes, bytes]] = [
    (("--copy-to",), b"put a 1\n", b"new\n"),
    (("--stream", "--copy-to"), b"put a 1\n", b"new\n"),
    (("--create", "--disk"), b"put a 1\nflush\n", b"new\nflushed 2\n"),
    (("--stream",), b"put a 1\n.copy file\n", b"new\ncopied 1\n"),
]


def wait_for_new_file(programs: Programs, number: int) -> Outcome:
    """--wait also waits for the file of a copy, and of a new store."""
    words, text, out = WAITING[number]
    with new_folder() as folder:
        path = Path(folder) / "file"
        command: Command = [programs.store, *words, *[path] * (words[-1] != "--stream")]
        text = text.replace(b" file", b" %s" % str(path).encode())
        with path.open("wb") as other:
            fcntl.flock(other, fcntl.LOCK_EX)
            refused = run([*command, "--wait=0"], text)
            waiting = PipedProgram([*command, "--wait=60"])
            waiting.send(text)
            waiting.input.close()
            time.sleep(0.5)
            is_waiting = waiting.process.poll() is None
        ended = waiting.output.read(), waiting.errors.read(), waiting.process.wait(PATIENCE)
        held = run([programs.store, "--disk", path], b"get a\n")
        is_refused = b"fault 9 Device\n" in refused.out + refused.err
        is_right = (is_waiting, ended) == (True, (out, b"", 0)) and is_refused
        return Outcome(differs(held, 0, b"value 1\n") or (None if is_right else f"{is_waiting}, {ended}, {refused.describe()}"))


def cases(programs: Programs) -> list[Case]:
    refusals = [Case(f"what a stream goes on after, {number}", refuse, (programs, number)) for number in range(len(REFUSALS))]
    dots = [Case(f"lines that begin with a dot, {number}", ask, (programs, number)) for number in range(len(DOTS))]
    kills = [Case(f"kills of sessions over a pipe, seed {seed}", kill, (programs, seed)) for seed in range(4)]
    return [
        Case("a session over a pipe that goes on for long", run_long_stream, (programs,)),
        *kills,
        Case("answers before the next line", check_answers, (programs,)),
        Case("a session over a pipe holds its file", lock, (programs,)),
        Case("a pipe that is closed", close_answers, (programs,)),
        *refusals,
        Case("a stream goes on after a full log", refuse_full, (programs,)),
        Case("a stream goes on after a line that would not fit in memory", refuse_long_line, (programs,)),
        Case("a batch that asks for many rows", refuse_many_rows, (programs,)),
        Case("a batch without an end", free_long_batch, (programs,)),
        *dots,
        Case("the lines of a stream", ask_for_help, (programs,)),
        Case("pages that a stream merges", tidy_at_once, (programs,)),
        Case("copies of a live store", copy_live_store, (programs,)),
        Case("a copy that is explained", explain_copy, (programs,)),
        Case("damage that is explained", explain_damage, (programs,)),
        Case("a reader gives its lock up", read_without_lock, (programs,)),
        Case("--wait", wait_for_lock, (programs,)),
        Case("--wait, and another file is put at the path", wait_for_another_file, (programs,)),
        *(Case(f"--wait for a new file, {number}", wait_for_new_file, (programs, number)) for number in range(len(WAITING))),
    ]
