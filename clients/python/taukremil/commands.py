"""The commands of a batch, as lines for the program and as replies."""

from __future__ import annotations

import operator
from collections.abc import Callable, Iterable, Iterator, Sequence
from dataclasses import dataclass
from typing import Generic, Protocol, TypeVar, Union

from .header import LARGEST, Settings
from .program import Unexpected

MOST_ROWS = 4_294_967_295  # the largest limit of a scan
MOST_COMMANDS = 65_535  # of a batch

Row = tuple[bytes, bytes]
Reply = Union[bytes, None, int, list[Row]]  # bool is a subclass of int
T = TypeVar("T")
T_co = TypeVar("T_co", covariant=True)
NextLine = Callable[[], bytes]  # returns a line of the answer without its line feed

PLAIN = bytes(range(0x21, 0x7F)).replace(b"%", b"")


def _check_bytes(data: bytes) -> None:
    if not isinstance(data, (bytes, bytearray)):
        raise TypeError(f"keys and values must be bytes, not {type(data).__name__}")


def _encode(data: bytes, most: int, what: str = "key") -> bytes:
    """Encodes `data` unchanged if all bytes are plain, else with each byte as %XX."""
    _check_bytes(data)
    if len(data) > most:
        raise ValueError(f"the {what} has {len(data)} bytes, and this store takes at most {most}")
    is_plain = data and not data.translate(None, PLAIN)
    return data if is_plain else b"%" + data.hex("%").encode()


def _encode_range(lo: bytes, hi: bytes | None, most: int) -> bytes:
    start = _encode(lo, most, "lower bound")
    if hi is None:
        return start + b" *"
    return b"%b %b" % (start, b"%2A" if hi == b"*" else _encode(hi, most, "upper bound"))


def _encode_pair(word: bytes, key: bytes, value: bytes, settings: Settings) -> bytes:
    return b"%b %b %b\n" % (word, _encode(key, settings.max_key), _encode(value, settings.max_value, "value"))


def prefix_range(prefix: bytes) -> tuple[bytes, bytes | None]:
    """Returns the bounds of the keys that begin with `prefix`, as for `Scan(*prefix_range(b"user/"))`."""
    _check_bytes(prefix)
    start = prefix.rstrip(b"\xff")
    return prefix, start[:-1] + bytes([start[-1] + 1]) if start else None


def next_key(key: bytes, max_key: int) -> bytes | None:
    """Returns the least key above `key` among those of at most `max_key` bytes, or None if there is none."""
    return key + b"\0" if len(key) < max_key else prefix_range(key)[1]


def _integer(number: int) -> int:
    try:
        return operator.index(number)
    except TypeError:
        raise TypeError(f"a limit must be an integer, not {type(number).__name__}") from None


def _decode(token: bytes) -> bytes:
    if b"%" not in token:
        return token
    if token == b"%":
        return b""
    # Every percent sign begins an escape, so the library's fast codec can decode them.
    return token.replace(b"\\", rb"\\").replace(b"%", rb"\x").decode("unicode_escape").encode("latin-1")


def _parse_choice(line: bytes, yes: bytes, no: bytes) -> bool:
    if line not in (yes, no):
        raise Unexpected(line)
    return line == yes


def parse_numbers(line: bytes, word: bytes, count: int = 1) -> list[int]:
    first, *numbers = line.split(b" ")
    if first != word or len(numbers) != count or not all(number.isdigit() for number in numbers):
        raise Unexpected(line)
    return [int(number) for number in numbers]


def _parse_row(line: bytes) -> Row:
    key, space, value = line.partition(b" ")
    if not (key and space and value):
        raise Unexpected(line)
    return _decode(key), _decode(value)


class Command(Protocol[T_co]):
    """Describes a command: `text` returns its line of a batch file, and `reply` parses its answer."""

    def text(self) -> bytes:
        ...

    def reply(self, line: NextLine) -> T_co:
        ...


class _Checked(Generic[T_co]):
    """Is the base of the commands whose lengths are checked before they are sent.

    It is no protocol, because `isinstance` would then take microseconds.
    """

    __slots__ = ()

    def text(self) -> bytes:
        return self.checked_text(LARGEST)

    def checked_text(self, settings: Settings) -> bytes:
        """Returns the line. Raises ValueError if a key or a value is too long for a store with `settings`."""
        raise NotImplementedError

    def reply(self, line: NextLine) -> T_co:
        raise NotImplementedError


@dataclass(frozen=True, slots=True)
class Put(_Checked[bool]):
    """Stores `value` under `key`. The reply is whether the key is new."""

    key: bytes
    value: bytes

    def checked_text(self, settings: Settings) -> bytes:
        return _encode_pair(b"put", self.key, self.value, settings)

    def reply(self, line: NextLine) -> bool:
        return _parse_choice(line(), b"new", b"replaced")


@dataclass(frozen=True, slots=True)
class Add(_Checked[bool]):
    """Stores `value` under `key` if the key is absent. The reply is whether it was stored."""

    key: bytes
    value: bytes

    def checked_text(self, settings: Settings) -> bytes:
        return _encode_pair(b"add", self.key, self.value, settings)

    def reply(self, line: NextLine) -> bool:
        return _parse_choice(line(), b"added", b"exists")


@dataclass(frozen=True, slots=True)
class Get(_Checked[Union[bytes, None]]):
    """Reads `key`. The reply is its value, or None if the key is absent."""

    key: bytes

    def checked_text(self, settings: Settings) -> bytes:
        return b"get %b\n" % _encode(self.key, settings.max_key)

    def reply(self, line: NextLine) -> bytes | None:
        answer = line()
        if answer.startswith(b"value "):
            return _decode(answer[6:])
        if answer == b"missing":
            return None
        raise Unexpected(answer)


@dataclass(frozen=True, slots=True)
class Del(_Checked[bool]):
    """Deletes `key`. The reply is whether the key was present."""

    key: bytes

    def checked_text(self, settings: Settings) -> bytes:
        return b"del %b\n" % _encode(self.key, settings.max_key)

    def reply(self, line: NextLine) -> bool:
        return _parse_choice(line(), b"deleted", b"missing")


@dataclass(frozen=True, slots=True)
class Scan(_Checked[list[Row]]):
    """Reads the first `limit` pairs with lo <= key < hi (None: no bound). The reply is their list in key order."""

    lo: bytes = b""
    hi: bytes | None = None
    limit: int = MOST_ROWS

    def checked_text(self, settings: Settings) -> bytes:
        limit = _integer(self.limit)
        if not 0 <= limit <= MOST_ROWS:
            raise ValueError(f"a limit must be 0 to {MOST_ROWS}, not {limit}")
        return b"scan %b %d\n" % (_encode_range(self.lo, self.hi, settings.max_key), limit)

    def reply(self, line: NextLine) -> list[Row]:
        (count,) = parse_numbers(line(), b"rows")
        return [_parse_row(line()) for _ in range(count)]


@dataclass(frozen=True, slots=True)
class Wipe(_Checked[int]):
    """Deletes all keys with lo <= key < hi (None: no bound). The reply is how many keys were deleted."""

    lo: bytes = b""
    hi: bytes | None = None

    def checked_text(self, settings: Settings) -> bytes:
        return b"wipe %b\n" % _encode_range(self.lo, self.hi, settings.max_key)

    def reply(self, line: NextLine) -> int:
        (count,) = parse_numbers(line(), b"wiped")
        return count


def encode_back(scan: Scan, settings: Settings) -> bytes:
    """Returns the line that asks for the rows of `scan` from the last key down. It is an order of its own."""
    return b".back" + scan.checked_text(settings).removeprefix(b"scan")


def encode_copy(path: bytes, segments: int | None) -> bytes:
    """Returns the line that asks for a copy of the store as it is now."""
    token = b"%" + path.hex("%").encode()
    return b".copy %b\n" % token if segments is None else b".copy %b %d\n" % (token, _integer(segments))


def may_write(command: object) -> bool:
    return not isinstance(command, (Get, Scan))


def listed(commands: Iterable[T], what: str) -> list[T]:
    """Returns the list of `commands`. If there is none, raises TypeError, which says `what` is wanted."""
    try:
        iterator = iter(commands)
    except TypeError:
        raise TypeError(f"{what}, not {type(commands).__name__}") from None
    return list(iterator)


def encode(command: Command[object], settings: Settings) -> bytes:
    checked_text: Callable[[Settings], bytes] | None = getattr(command, "checked_text", None)
    if checked_text:
        return checked_text(settings)
    if not hasattr(command, "text"):
        raise TypeError(f"a command is an object such as Put(key, value), not {type(command).__name__}")
    return command.text()


def _placed(error: Exception, place: str) -> Exception:
    kind = TypeError if isinstance(error, TypeError) else ValueError
    return kind(f"{place}: {error}")


def encode_batch(batch: Sequence[Command[object]], settings: Settings, place: str = "") -> bytes:
    """Returns the lines of `batch`. Errors name the index of the wrong command, after `place`."""
    if len(batch) > MOST_COMMANDS:
        at = f"{place}command {MOST_COMMANDS}"
        raise ValueError(f"{at}: a batch has at most {MOST_COMMANDS} commands, not {len(batch)}")
    lines = []
    for index, command in enumerate(batch):
        try:
            lines.append(encode(command, settings))
        except (TypeError, ValueError) as error:
            raise _placed(error, f"{place}command {index}") from None
    return b"".join((*lines, b"go\n"))


def encode_pairs(pairs: Iterable[Row], size: int, settings: Settings) -> Iterator[tuple[bytes, int]]:
    """Yields batches of `size` puts, as text and number. Errors name the index of the wrong pair."""
    lines = []
    for index, pair in enumerate(pairs):
        try:
            key, value = pair
            lines.append(_encode_pair(b"put", key, value, settings))
        except (TypeError, ValueError) as error:
            raise _placed(error, f"pair {index}") from None
        if len(lines) == size:
            yield b"".join((*lines, b"go\n")), size
            lines.clear()
    if lines:
        yield b"".join((*lines, b"go\n")), len(lines)
