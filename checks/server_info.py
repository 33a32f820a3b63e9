"""The numbers of the server's INFO, beside counts that the tests keep."""

import time
from pathlib import Path

from tools.cases import Case, Outcome
from tools.processes import MEGABYTE, new_folder, resident_memory
from tools.serving import Word, differing, serving

NAPS = 1.2  # seconds


def count_requests(program: Path) -> Outcome:
    """One client waits for each reply, so each request is a round, until it sends a transaction of seven commands."""
    with new_folder() as folder:
        path = Path(folder) / "store"
        for restarts in range(2):
            with serving(program, path) as server, server.client() as client:
                start = time.monotonic()
                for number in range(20):
                    client.ask("SET", f"k{restarts}{number}", "v")
                client.ask("GET", "k1")
                alone = client.numbers()
                puts: list[list[Word]] = [["SET", "t", number] for number in range(7)]
                client.ask_all([["MULTI"], *puts, ["EXEC"]])
                passed = int((time.monotonic() - start) * 1_000_000)
                found = client.numbers()
            names = ("rounds", "requests", "commands", "longest_round_commands", "flushes", "commits", "log_growths", "growth_usec")
            first, commits = [alone[name] for name in names], 1 + 21 * restarts
            wrong = differing(f"start {restarts}", first, [21, 21, 21, 1, 20, commits + 20, 0, 0])
            last = [found[name] for name in names if name != "requests"]
            wrong = wrong or differing(f"start {restarts}, the end", last, [22, 28, 7, 21, commits + 21, 0, 0])
            times = [found[name] for name in ("parse_usec", "batch_usec", "flush_usec", "send_usec")]
            if wrong or not all(times) or sum(times) > passed:
                return Outcome(wrong or f"start {restarts}: {found}, {passed} us passed")
    return Outcome()


def count_segments(program: Path) -> Outcome:
    """The log has as many segments as the file has room for; those in use are counted by what was put."""
    with new_folder() as folder:
        path = Path(folder) / "store"
        with serving(program, path, "--segments", "8") as server, server.client() as client:
            names, in_use = ("log_segments", "log_segment_bytes", "log_segments_in_use"), 1
            for megabytes in range(4):
                found = [client.numbers()[name] for name in names]
                # What was put fills whole segments, except for a part of the last one.
                if found[:2] != [8, 2**20] or not in_use <= found[2] <= in_use + megabytes:
                    return Outcome(f"{found} after {megabytes} megabytes")
                put = {b"%d:%04d" % (megabytes, row): b"v" * 1_000 for row in range(1_000)}
                client.ask("MSET", *(word for pair in put.items() for word in pair))
                in_use = megabytes + 1
    return Outcome()


def count_clients(program: Path) -> Outcome:
    with new_folder() as folder, serving(program, Path(folder) / "store") as server, server.client() as client:
        names = ("connected_clients", "total_connections_received")
        found = [[client.numbers()[name] for name in names]]
        others = [server.client() for _ in range(5)]
        for other in others:
            other.ask("PING")
        found.append([client.numbers()[name] for name in names])
        for other in others[:3]:
            other.ask("QUIT")
            other.close()
        found.append([client.numbers()[name] for name in names])
        for other in others[3:]:
            other.close()
    return Outcome(differing("clients and connections", found, [[1, 1], [6, 6], [3, 6]]))


def tell_process(program: Path) -> Outcome:
    """Memory is that of the process, uptime is the time since the start, and a flush is due after a change."""
    with new_folder() as folder, serving(program, Path(folder) / "store", "--flush", "3600") as server, server.client() as client:
        begin = client.numbers()
        client.ask("FLUSHALL")
        for first in range(0, 20_000, 2_000):
            client.ask("MSET", *(word for number in range(first, first + 2_000) for word in (b"%06d" % number, b"v" * 500)))
        time.sleep(NAPS)
        found, memory = client.numbers(), resident_memory(server.process.pid)
    states = [begin["flush_is_due"], begin["flush_interval_seconds"], begin["flushes"], found["flush_is_due"], found["flushes"]]
    wrong = differing("flush_is_due at first, the interval, flushes, flush_is_due, flushes", states, [0, 3600, 0, 1, 0])
    if wrong or begin["uptime_in_seconds"] > 1 or not 1 <= found["uptime_in_seconds"] < 60:
        return Outcome(wrong or f"uptime {begin['uptime_in_seconds']}, {found['uptime_in_seconds']}")
    told = found["used_memory_rss"]
    is_right = 0.8 * memory < told < 1.2 * memory and told > begin["used_memory_rss"] + 5 * MEGABYTE
    return Outcome(None if is_right else f"memory {told}, and the process has {memory}")


def cases(program: Path) -> list[Case]:
    tests = {"requests": count_requests, "segments": count_segments, "clients": count_clients, "process": tell_process}
    return [Case(f"INFO, {name}", check, (program,)) for name, check in tests.items()]
