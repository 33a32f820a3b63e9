"""Loads pairs in batches. The next batch is sent while the program executes the one before."""

from __future__ import annotations

from collections import deque
from collections.abc import Iterator

from .program import Program, Rejected, Unexpected

IN_FLIGHT = 2


class Loading:
    """Sends `batches`, which are texts and their numbers of puts, and counts the new keys.

    `done` is how many batches were executed. If `batches` raises an error or the program refuses a batch, no other is
    sent, and `error` or `rejected` keeps the reason until all replies are read.
    """

    def __init__(self, batches: Iterator[tuple[bytes, int]]) -> None:
        self._batches = batches
        self._sent: deque[int] = deque()
        self.new, self.done = 0, 0
        self.error: BaseException | None = None
        self.rejected: Rejected | None = None

    def run(self, program: Program) -> None:
        program.enlarge_input()
        while not self.rejected and self._send(program):
            if len(self._sent) == IN_FLIGHT:
                self._receive(program)
        while self._sent:
            self._receive(program)
        if self.rejected:
            raise Rejected(self.rejected.line, self.rejected.why, self.done)

    def _send(self, program: Program) -> bool:
        try:
            batch = next(self._batches, None)
        except BaseException as error:
            self.error = error
            return False
        if batch is None:
            return False
        text, puts = batch
        program.send(text)
        self._sent.append(puts)
        return True

    def _receive(self, program: Program) -> None:
        puts = self._sent.popleft()
        try:
            program.check_not_refused()
        except Rejected as rejected:
            self.rejected = self.rejected or rejected
            return
        for _ in range(puts):
            line = program.line()
            if line == b"new":
                self.new += 1
            elif line != b"replaced":
                raise Unexpected(line)
        self.done += 1
