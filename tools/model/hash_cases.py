"""Commands on hash functions."""

from room import only
from words import bytes_of, number_of

MOST_KEY = 65535


def of_64(room, data, form):
    """Returns the text of the hash of 64 bits of bytes that can be a key, else `-`."""
    return format(room.by.hashes.hash64(data), form) if 1 <= len(data) <= MOST_KEY else "-"


def hash_of(room, words):
    """The hashes of bytes, of 64 bits where they can be a key, and of 128 bits: BYTES."""
    data = bytes_of(only(words, 1)[0])
    return f"{of_64(room, data, 'd')} {room.by.hashes.hash128(data)}"


def pattern(room, words):
    """The same hashes, in hex, of the first bytes of a pattern: LENGTH."""
    state, data = 1, bytearray()
    for _ in range(number_of(only(words, 1)[0])):
        state = (state * 1103515245 + 12345) % 2**32
        data.append(state >> 24)
    data = bytes(data)
    return f"{of_64(room, data, '016x')} {room.by.hashes.hash128(data):032x}"


COMMANDS = {"hash": hash_of, "pattern": pattern}
