"""Entries and their forms."""

from varints import read_varint, varint
from words import bad_word, bytes_of, hex_of, number_of

LETTERS = {"V": 0, "T": 1, "W": 2, "I": 4}
TYPES = {number: letter for letter, number in LETTERS.items()}
TOMBSTONES = "TW"

MOST_KEY = 65535
MOST_VALUE = 2_000_000


class Entry:
    """A key, its sequence number, its type and its value."""

    def __init__(self, letter, seqno, key, value):
        self.letter, self.seqno, self.key, self.value = letter, seqno, key, value

    def is_tombstone(self):
        """Returns whether the entry is a tombstone of either kind."""
        return self.letter in TOMBSTONES

    def word(self):
        """Returns the word of the entry as decoded, where a tombstone has no value."""
        value = b"" if self.is_tombstone() else self.value
        return f"{self.letter}.{self.seqno}.{hex_of(self.key)}.{hex_of(value)}"


def entry_of(word):
    """Returns the entry that a word encodes: letter, sequence number, key and value, joined by dots."""
    parts = word.split(".")
    if len(parts) != 4 or parts[0] not in LETTERS:
        raise bad_word()
    letter, seqno, key, value = parts
    entry = Entry(letter, number_of(seqno), bytes_of(key), bytes_of(value))
    if not 1 <= len(entry.key) <= MOST_KEY or len(entry.value) > MOST_VALUE:
        raise bad_word()
    return entry


def order_of_entry(entry):
    """Returns by what an entry is ordered: the key rising, the sequence number falling."""
    return (entry.key, -entry.seqno)


def is_ordered(items):
    """Returns whether no item sorts before its predecessor."""
    keys = [order_of_entry(item) for item in items]
    return all(keys[at] <= keys[at + 1] for at in range(len(keys) - 1))


def _start(entry):
    """Returns the first parts of each form."""
    return bytes([LETTERS[entry.letter]]) + varint(entry.seqno)


def _value_part(entry):
    """Returns the value part."""
    return b"" if entry.is_tombstone() else varint(len(entry.value)) + entry.value


def full(entry):
    """Returns the full form."""
    return _start(entry) + varint(len(entry.key)) + entry.key + _value_part(entry)


def truncated(entry, shared):
    """Returns the truncated form, with a shared length."""
    rest = entry.key[shared:]
    return _start(entry) + varint(shared) + varint(len(rest)) + rest + _value_part(entry)


def read_counted(data, at, width):
    """Returns the byte string at an offset, behind its length, and the offset after it."""
    found = read_varint(data, at, width)
    if found is None or found[1] + found[0] > len(data):
        return None
    length, start = found
    return data[start : start + length], start + length


def read_key(data, at, head):
    """Returns the key at an offset, the shared length, and the offset after it: in the full form
    where there is no head, else in the truncated one."""
    prefix = b""
    if head is not None:
        found = read_varint(data, at, 16)
        if found is None or found[0] > len(head):
            return None
        prefix, at = head[: found[0]], found[1]
    found = read_counted(data, at, 16)
    if found is None:
        return None
    return prefix + found[0], len(prefix), found[1]


def read(data, at, head):
    """Returns the entry whose form is at an offset, its shared length, and the offset after it, or
    None: the full form where there is no head."""
    if at >= len(data) or data[at] not in TYPES:
        return None
    letter = TYPES[data[at]]
    seqno = read_varint(data, at + 1, 64)
    key = seqno and read_key(data, seqno[1], head)
    if key is None or not 1 <= len(key[0]) <= MOST_KEY:
        return None
    value = (b"", key[2]) if letter in TOMBSTONES else read_counted(data, key[2], 32)
    if value is None:
        return None
    return Entry(letter, seqno[0], key[0], value[0]), key[1], value[1]


def fits(entry):
    """Returns whether an entry has no bound beyond its form: each has none."""
    return True
