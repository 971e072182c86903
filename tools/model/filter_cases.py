"""Commands on Bloom filters."""

from room import only
from texts import commands_of
from words import bad_word, bytes_of, number_of, truth


def build(room, words):
    """Makes a filter of hashes: BITS HASH .."""
    if not words:
        raise bad_word()
    bits, hashes = number_of(words[0], 2**32), [number_of(word) for word in words[1:]]
    room.payload = room.by.filters.of_hashes(hashes, bits)
    return f"{len(room.payload)} bytes"


def hashed(room, words):
    """Whether the payload may contain hashes: HASH .."""
    ask = lambda word: room.by.filters.may_contain_hash(room.payload, number_of(word))
    return " ".join(truth(ask(word)) for word in words)


def keyed(room, words):
    """Whether the payload may contain keys: KEY .."""
    ask = lambda word: room.by.filters.may_contain(room.payload, bytes_of(word))
    return " ".join(truth(ask(word)) for word in words)


def sweep(room, words):
    """How many of the numbers from a first up to, not including, a last one a filter of the numbers
    below a count may contain: COUNT BITS FIRST LAST."""
    count, bits, first, last = [number_of(word, 2**32) for word in only(words, 4)]
    key_of = lambda number: number.to_bytes(8, "big")
    payload = room.by.filters.of_keys([key_of(number) for number in range(count)], bits)
    ask = lambda number: room.by.filters.may_contain(payload, key_of(number))
    return f"{len(payload)} bytes, {sum(ask(number) for number in range(first, last))} found"


COMMANDS = commands_of({"filter": build, "hashed": hashed, "keyed": keyed, "sweep": sweep})
