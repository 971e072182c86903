"""Commands that make what other commands work on: lists, handles, payloads, files. They ask nothing of the
library."""

from entries import Entry, entry_of, is_ordered
from handles import handle_of
from room import only
from words import Fault, bad_word, bytes_of, fnv, hex_of, number_of


def add(room, words):
    """Appends the entries of some words."""
    room.entries += [entry_of(word) for word in words]
    return f"{len(room.entries)} entries"


def new_list(room, words):
    """Begins a list."""
    room.entries = []
    return add(room, words)


def add_bytes(room, words):
    """Appends keys of one byte, from the first number to the last: FIRST LAST."""
    first, last = [number_of(word, 256) for word in only(words, 2)]
    for number in range(first, last + 1):
        room.entries.append(Entry("V", 0, bytes([number]), b""))
    return f"{len(room.entries)} entries"


def add_pairs(room, words):
    """Appends keys of two bytes, each with itself as its sequence number: FIRST LAST."""
    first, last = [number_of(word, 65536) for word in only(words, 2)]
    for number in range(first, last + 1):
        room.entries.append(Entry("V", number, number.to_bytes(2, "big"), b"v"))
    return f"{len(room.entries)} entries"


def add_prefixes(room, words):
    """Appends the keys k, kk, kkk and so on up to a length, and a number of versions of each, of
    every type, with and without values: KEYS EACH."""
    keys, each = [number_of(word, 256) for word in only(words, 2)]
    for length in range(1, keys + 1):
        for number in range(each):
            value = b"" if number % 3 == 0 else b"value"
            letter = "VTIW"[(number + length) % 4]
            room.entries.append(Entry(letter, each - number, b"k" * length, value))
    return f"{len(room.entries)} entries"


def add_handles(room, words):
    """Appends the handles of some words."""
    room.handles += [handle_of(word) for word in words]
    return f"{len(room.handles)} handles"


def new_handles(room, words):
    """Begins a list of handles."""
    room.handles = []
    return add_handles(room, words)


def no_sources(room, words):
    """Begins without sources."""
    only(words, 0)
    room.sources = []
    return "0 sources"


def source(room, words):
    """Adds a source: ENTRY .."""
    items = [entry_of(word) for word in words]
    if not is_ordered(items):
        raise bad_word()
    room.sources.append(items)
    return f"{len(room.sources)} sources, {len(items)} entries"


def payload(room, words):
    """Takes bytes as the payload: BYTES."""
    room.payload = bytes_of(only(words, 1)[0])
    return f"{len(room.payload)} bytes"


def at(room, words):
    """Some bytes of the payload: OFFSET COUNT."""
    offset, count = [number_of(word) for word in only(words, 2)]
    if offset + count > len(room.payload):
        raise bad_word()
    return hex_of(room.payload[offset : offset + count])


def digest(room, words):
    """The hash FNV-1a of the payload."""
    only(words, 0)
    return f"{fnv(room.payload):016x}"


def change(room, words):
    """Sets bytes of the payload: OFFSET BYTE .."""
    changed = bytearray(room.payload)
    if len(words) % 2:
        raise bad_word()
    for place, byte in zip(words[::2], words[1::2]):
        if number_of(place) >= len(changed):
            raise bad_word()
        changed[number_of(place)] = number_of(byte, 256)
    room.payload = bytes(changed)
    return f"{len(changed)} bytes"


def cut(room, words):
    """Cuts the payload: START END."""
    start, end = [number_of(word) for word in only(words, 2)]
    if not start <= end <= len(room.payload):
        raise bad_word()
    room.payload = room.payload[start:end]
    return f"{len(room.payload)} bytes"


def splice(room, words):
    """Puts bytes in the place of some of the payload: OFFSET COUNT BYTES."""
    offset, count, data = only(words, 3)
    offset, end = number_of(offset), number_of(offset) + number_of(count)
    if end > len(room.payload):
        raise bad_word()
    room.payload = room.payload[:offset] + bytes_of(data) + room.payload[end:]
    return f"{len(room.payload)} bytes"


def save(room, words):
    """Makes a file of the payload: NAME."""
    room.files[only(words, 1)[0].encode()] = room.payload
    return f"{len(room.payload)} bytes"


def load(room, words):
    """Makes the bytes of a file the payload: NAME."""
    name = only(words, 1)[0].encode()
    if name not in room.files:
        raise Fault("Io")
    room.payload = room.files[name]
    return f"{len(room.payload)} bytes"


COMMANDS = {
    "list": new_list,
    "add": add,
    "bytes": add_bytes,
    "pairs": add_pairs,
    "prefixes": add_prefixes,
    "handles": new_handles,
    "add_handles": add_handles,
    "sources": no_sources,
    "source": source,
    "payload": payload,
    "at": at,
    "digest": digest,
    "set": change,
    "cut": cut,
    "splice": splice,
    "save": save,
    "load": load,
}
