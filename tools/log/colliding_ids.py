"""Page ids that collide in a hash table of std with the fixed default seed. Their `FoldHasher` hashes agree in the low 16 bits, where the search
starts in a table of up to 65,536 groups."""

from collections import defaultdict
from collections.abc import Iterator

SEED = 0x243F_6A88_85A3_08D3
MULTIPLIER = 0x9E37_79B9_7F4A_7C15 ^ 16  # twice the length of an id
LOW = 2**16 - 1


def hash_of(pid: int) -> int:
    product = (pid ^ SEED) * MULTIPLIER
    folded = (product & (2**64 - 1)) ^ (product >> 64)
    return (folded ^ (folded >> 32)) & (2**32 - 1)


def part(product: int, number: int) -> int:
    return product >> 16 * number & LOW


def tops_by_effect(above: int) -> dict[int, list[int]]:
    """Groups the upper 16 bits of a factor by their effect on the hash's low bits, through parts 4 and 6 of the product."""
    found = defaultdict(list)
    for top in range(2**16):
        product = top * MULTIPLIER << 48
        found[part(product, 4) ^ ((part(product, 6) + above) & LOW)].append(top)
    return found


def colliding_ids() -> Iterator[int]:
    """Yields ids whose hashes end in 16 zero bits. Takes lower 48 bits for which part 4 of the product is zero, and looks up upper bits that cancel
    parts 0 and 2. Skips ids that a carry spoils."""
    for above in range(2**16):
        by_effect = tops_by_effect(above)
        for middle in range(2**16):
            lower = -(-((above << 16 | middle) << 80) // MULTIPLIER)
            product = lower * MULTIPLIER
            for top in by_effect[part(product, 0) ^ part(product, 2)]:
                pid = (lower | top << 48) ^ SEED
                if lower < 2**48 and hash_of(pid) & LOW == 0:
                    yield pid
