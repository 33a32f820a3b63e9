"""Draws random settings, keys and batch files."""

import random
from dataclasses import replace

from tools.answers import ALL_ROWS, token
from tools.log.reading import LIMITS
from tools.log.writing import Settings
from tools.model import LONGEST_BATCH, BatchCommand, Order, StoreModel

BAD_LINES = {
    b"unknown command": [b"frob x", b"GET a", b"put\x0ba b"],
    b"wrong number of words": [b"put a", b"flush a", b"scan % *", b"wipe a"],
    b"bad token": [b"get %4", b"del a%zz", b"get \x80", b"wipe % %%", b"scan %a * x"],
    b"bad number": [b"scan a b 4294967296", b"scan % * -1", b"scan % * 1x"],
}
NAMES = ("put", "add", "get", "del", "scan", "wipe")
GROWING, SHRINKING, MIXED = (12, 4, 2, 1, 1, 0), (3, 1, 1, 12, 1, 1), (4, 2, 4, 4, 2, 1)
ORDERS = {"go": 6.0, "flush": 8.0, "clean": 3.0, "upgrade": 0.3, "verify": 1.0}


class DrawnStore:
    def __init__(self, chance: random.Random) -> None:
        self.chance = chance
        is_small, fan = self.happens(0.7), chance.choice([4, 4, 5, 7, 8, 16, 64])
        max_key, max_value = chance.randint(1, 16 if is_small else 255), chance.choice([0, 16, 64] if is_small else [8, 256, 1024])
        self.longest = 33 + max_key + fan * (3 + max_key + max(2 + max_value, 8))
        seg_size = max(256, self.longest + chance.choice([0, chance.randint(0, 100), self.longest, 4096]))
        segments = chance.choice([3, 4, 6, 10, 20, 60])
        self.settings = Settings(fan, chance.choice([1, 1, 2, 3, 4, 16]), max_key, max_value, seg_size, segments)
        letters = chance.choice([b"ab", b"abcdefgh*%# ", bytes(range(256))])
        longest = min(max_key, chance.choice([2, 4, 8, 255]))
        self.keys = [bytes(chance.choices(letters, k=chance.randint(0, longest))) for _ in range(chance.choice([4, 20, 100, 400]))]

    def happens(self, probability: float) -> bool:
        return self.chance.random() < probability

    def bad_setting(self) -> dict[str, int]:
        if self.longest > 256 and self.happens(0.2):
            return {"seg_size": self.longest - 1}  # too small for a full page
        name, (least, most) = self.chance.choice(list(zip(vars(self.settings), LIMITS)))
        return {name: self.chance.choice([number for number in (least - 1, most + 1) if number >= 0])}

    def key(self) -> bytes:
        if self.happens(0.0005):
            return bytes(self.settings.max_key + 1)
        return self.chance.choice(self.keys) if self.happens(0.95) else self.chance.randbytes(self.chance.randint(0, self.settings.max_key))

    def value(self) -> bytes:
        most = self.settings.max_value
        return self.chance.randbytes(most + 1 if self.happens(0.0005) else self.chance.randint(0, min(most, self.chance.choice([4, 4, 32, 1024]))))

    def command(self, weights: tuple[int, ...]) -> BatchCommand:
        (name,) = self.chance.choices(NAMES, weights)
        if name in ("put", "add"):
            return name, self.key(), self.value()
        if name in ("get", "del"):
            return name, self.key()
        lo, hi = sorted([self.key(), self.key()], reverse=self.happens(0.1))
        bounds = lo, None if self.happens(0.2) else hi
        return (name, *bounds, self.chance.choice([0, 1, 5, 100, ALL_ROWS])) if name == "scan" else (name, *bounds)

    def batch(self) -> list[BatchCommand]:
        if self.happens(0.0005):
            return [("get", b"")] * self.chance.choice([LONGEST_BATCH, LONGEST_BATCH + 1])
        weights = self.chance.choice([GROWING, SHRINKING, MIXED])
        return [self.command(weights) for _ in range(self.chance.choice([0, 1, 2, 5, 20, 60, 200]))]

    def word(self, word: bytes | int | None) -> bytes:
        """The key `*` is escaped, since `*` alone is a missing bound."""
        if word is None or isinstance(word, int):
            return b"*" if word is None else b"%0*d" % (self.chance.choice([1, 12]), word)
        if word and word != b"*" and self.happens(0.9):
            return token(word)
        return b"".join(self.chance.choice([b"%%%02x", b"%%%02X"]) % byte for byte in word) or b"%"

    def line(self, command: BatchCommand) -> bytes:
        name, *words = command
        if self.happens(0.95):
            return b" ".join([name.encode(), *map(self.word, words)])
        spaces, end = self.chance.choice([b"\t", b"  ", b" \t "]), self.chance.choice([b"", b" ", b"\r", b"\n\n\t# get a"])
        return spaces.join([b"", name.encode(), *map(self.word, words)]) + end

    def session(self, model: StoreModel, is_full: bool, is_long: bool) -> tuple[list[bytes], list[Order]]:
        """Returns a session's lines, and its orders up to the one that ends it."""
        names = ["clean"] * (self.chance.choice([1, 4, 20]) * is_full)
        weights = ORDERS if is_long else ORDERS | {"clean": 0.1}
        names += self.chance.choices(list(weights), list(weights.values()), k=self.chance.choice([0, 1, 3, 8, 20]))
        lines: list[bytes] = []
        orders: list[Order] = []
        for name in names:
            commands = [] if name == "clean" and self.happens(0.7) else self.batch()
            lines += [*map(self.line, commands), name.encode()]
            if commands or name == "go":
                orders.append(model.batch(commands))
            if name != "go":
                orders.append(replace(model.order(name), end=len(lines)))
        ends = [number for number, order in enumerate(orders, 1) if order.ending]
        return lines, orders[: ends[0]] if ends else orders
