"""The answers that `bwsh` prints."""

from tools.log.reading import BadStore, read_store

ALL_ROWS = 4_294_967_295  # the greatest limit of a scan
READ_ALL = b"scan % * 4294967295\nverify\n"
Ending = tuple[int, bytes, bytes]  # exit status, standard output, standard error

ENCODED_BYTES = [bytes([byte]) if 0x21 <= byte <= 0x7E and byte != 0x25 else b"%%%02X" % byte for byte in range(256)]


def token(text: bytes) -> bytes:
    """Escapes a key or a value as `bwsh` prints it."""
    return b"".join([ENCODED_BYTES[byte] for byte in text]) or b"%"


def rows_of(pairs: list[tuple[bytes, bytes]]) -> bytes:
    return b"rows %d\n" % len(pairs) + b"".join(b"%s %s\n" % (token(key), token(value)) for key, value in pairs)


def answer_to_read_all(pairs: list[tuple[bytes, bytes]], pages: int, height: int) -> bytes:
    return rows_of(pairs) + b"ok %d %d %d\n" % (pages, height, len(pairs))


def ending_of_read_all(disk: bytes) -> Ending:
    try:
        store = read_store(disk)
    except BadStore as fault:
        return 4, b"", f"{fault}\n".encode()
    return 0, answer_to_read_all(store.pairs, store.pages, store.height), b""
