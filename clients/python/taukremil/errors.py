"""The exceptions of a store."""

from __future__ import annotations

import errno
import signal

from .advice import translate

KEY_TOO_LONG, VALUE_TOO_LONG = 2, 3  # the faults of one command
DEVICE = 9  # the fault after which a flush may be durable
# In the program's explanations of fault 9.
LOCKED = "Another program has locked the file"
EXISTS = "entity already exists"
MISSING = "No such file or directory (os error 2)"
IF_NOT_FLUSHING = ", unless a flush was in progress"


class StoreError(Exception):
    """Reports that the program has ended, or that the store is closed.

    `unflushed` is how many batches with writes earlier calls executed since the last flush. Those batches and all
    batches of the call that raised are lost. If that call was `flush` or `upgrade`, they may be durable instead.
    """

    unless = ""

    def __init__(self, text: str, unflushed: int = 0) -> None:
        lost = f"; batches lost since the last flush{self.unless}: {unflushed}" if unflushed else ""
        super().__init__(f"{text}{lost}")
        self.unflushed = unflushed
        self._text = text

    def __reduce__(self) -> tuple[type[StoreError], tuple[object, ...]]:
        return type(self), (self._text, self.unflushed)


class Refused(StoreError):
    """Reports that the program refused a request, which had no effect, or could not open the file.

    `fault` is the program's line, such as "fault 2 KeyTooLong 0", with the `number` and `name` of docs/RULES.md and the
    `place`: the index of the command in its batch, or None if the fault is of no command. `why` is the cause and what
    to do.
    Nothing is lost, and the store can be used, except after fault 9 (device): then the program has ended, and a flush
    may be durable. The fault 9 of a copy is the copy's: then, too, the store can be used.
    """

    def __init__(self, fault: str, why: str, unflushed: int = 0) -> None:
        _, number, *rest = fault.split()
        self.fault = fault
        self.number = int(number)
        self.name = rest[0] if rest else ""
        self.place = int(rest[1]) if self.number in (KEY_TOO_LONG, VALUE_TOO_LONG) else None
        self.why = why
        self.unless = IF_NOT_FLUSHING if self.number == DEVICE else ""
        super().__init__(f"{fault}: {why}" if why else fault, unflushed)

    def __reduce__(self) -> tuple[type[StoreError], tuple[object, ...]]:
        return type(self), (self.fault, self.why, self.unflushed)

    def is_locked(self) -> bool:
        """Returns whether another program has locked the file."""
        return self.number == DEVICE and LOCKED in self.why

    def has_found_file(self) -> bool:
        """Returns whether a copy was not made because the file at its path is neither empty nor unfinished."""
        return self.number == DEVICE and EXISTS in self.why


class MissingFile(Refused, FileNotFoundError):
    """Reports that the file of a store, or the folder of a copy, is missing."""

    errno = errno.ENOENT


class LockedFile(Refused, BlockingIOError):
    """Reports that another program has locked the file."""

    errno = errno.EWOULDBLOCK


class Killed(StoreError):
    """Reports that the signal with the number `signal` ended the program.

    A flush, clean or upgrade that was in progress may be durable; any other request had no effect.
    """

    unless = IF_NOT_FLUSHING

    def __init__(self, number: int, unflushed: int = 0) -> None:
        name = signal.Signals(number).name if number in set(signal.Signals) else f"signal {number}"
        super().__init__(f"the program was killed by {name}; what was flushed is safe", unflushed)
        self.signal = number

    def __reduce__(self) -> tuple[type[StoreError], tuple[object, ...]]:
        return type(self), (self.signal, self.unflushed)


class Lost(StoreError):
    """Reports that `unflushed` executed batches were lost before this call, which sent nothing.

    `reason` tells what ended the program. Every call in every thread raises this error until somebody calls
    `Store.reopen`. If the program ended during a `flush` or `upgrade`, the batches may be durable instead.
    """

    def __init__(self, unflushed: int, reason: str = "the program has ended", unless: str = "") -> None:
        self.reason = reason
        self.unless = unless
        advice = "reopen() continues with the last flushed store"
        super().__init__(f"an earlier call failed ({reason}); {advice}", unflushed)

    def __reduce__(self) -> tuple[type[StoreError], tuple[object, ...]]:
        return type(self), (self.unflushed, self.reason, self.unless)

    @staticmethod
    def by(error: BaseException, unflushed: int) -> Lost:
        """Returns the error that later calls raise after `error` ended the program."""
        if isinstance(error, StoreError):
            return Lost(unflushed, error._text, error.unless)
        return Lost(unflushed, f"{type(error).__name__} interrupted a call", IF_NOT_FLUSHING)


def refusal_of(line: str, why: str) -> StoreError:
    """Returns the exception for a refusal after which the program continues."""
    return refused(line, why) if line.startswith("fault ") else StoreError(f"{line}: {why}" if why else line)


def refused(fault: str, why: str, unflushed: int = 0) -> Refused:
    """Returns the exception for the program's line `fault` and its explanation."""
    is_of_file = fault.startswith(f"fault {DEVICE} ")
    kind = MissingFile if is_of_file and MISSING in why else LockedFile if is_of_file and LOCKED in why else Refused
    return kind(fault, translate(fault, why), unflushed)


def error_of(status: int, said: list[str], unflushed: int) -> StoreError:
    """Returns the exception for a program that ended. Python reports status 0 if SIGCHLD is ignored."""
    if status < 0:
        return Killed(-status, unflushed)
    if status in (0, 4) and said and said[0].startswith("fault "):
        return refused(said[0], " ".join(said[1:]), unflushed)
    lost = ", or its status is unknown because SIGCHLD is ignored" if status == 0 else ""
    return StoreError("\n".join([f"the program has ended with status {status}{lost}", *said]), unflushed)
