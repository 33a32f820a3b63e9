"""Random batches and their answers."""

import random

from tools.model import OrderedMap


def drawn_range(chance: random.Random, key: bytes) -> tuple[bytes, bytes | None]:
    """Returns bounds, nearly always of the keys that share a prefix with `key`."""
    length = max(1, len(key) - chance.choices([0, 1, 2, 3], [60, 30, 8, 2])[0])
    others = [key[:length] + b"~", b"%x" % chance.randrange(1 << 16), None]
    return key[:length], chance.choices(others, [500, 2, 1])[0]


def drawn_command(chance: random.Random, pairs: OrderedMap, weights: list[int], keys: int, value: bytes) -> tuple[bytes, list[bytes]]:
    key = b"%x" % chance.randrange(keys)
    name = chance.choices(["put", "del", "get", "scan", "wipe"], weights)[0]
    if name == "put":
        return b"put %s %s\n" % (key, value), pairs.put(key, value)
    if name == "del":
        return b"del %s\n" % key, pairs.delete(key)
    if name == "get":
        return b"get %s\n" % key, pairs.get(key)
    lo, hi = drawn_range(chance, key)
    bounds = b"%s %s" % (lo, b"*" if hi is None else hi)
    if name == "wipe":
        return b"wipe %s\n" % bounds, pairs.wipe(lo, hi)
    return b"scan %s 20\n" % bounds, pairs.scan(lo, hi, 20)


def drawn_batches(chance: random.Random, batches: int, most: int, keys: int) -> tuple[bytes, bytes]:
    """Returns batches and their answers. Two that mostly put alternate with two that mostly delete."""
    pairs, text, answers = OrderedMap(), bytearray(), list[bytes]()
    for batch in range(batches):
        weights = [240, 40, 40, 5, 10] if batch % 4 < 2 else [40, 240, 40, 5, 10]
        for _ in range(chance.randrange(most)):
            line, reply = drawn_command(chance, pairs, weights, keys, b"%d" % batch)
            text += line
            answers += reply
        text += b"go\n"
    text += b"scan % * 4294967295\n"
    answers += pairs.scan(b"", None, keys)
    return bytes(text), b"".join(line + b"\n" for line in answers)
