"""Handles of blocks and their forms."""

from entries import MOST_KEY, is_ordered, read_key
from varints import read_varint, varint
from words import bad_word, bytes_of, hex_of, number_of

__all__ = ["Handle", "fits", "full", "handle_of", "is_ordered", "read", "truncated"]


class Handle:
    """The end key of a block and its sequence number, and where the frame of the block is."""

    def __init__(self, seqno, key, offset, size):
        self.seqno, self.key, self.offset, self.size = seqno, key, offset, size

    def word(self):
        """Returns the word of the handle."""
        return f"{self.seqno}.{hex_of(self.key)}.{self.offset}.{self.size}"


def handle_of(word):
    """Returns the handle that a word encodes: sequence number, end key, offset and size, joined by
    dots."""
    parts = word.split(".")
    if len(parts) != 4:
        raise bad_word()
    seqno, key, offset, size = parts
    key = bytes_of(key)
    if len(key) > MOST_KEY:
        raise bad_word()
    return Handle(number_of(seqno), key, number_of(offset), number_of(size, 1 << 32))


def _start(handle):
    """Returns the first parts of each form."""
    return b"\0" + varint(handle.offset) + varint(handle.size) + varint(handle.seqno)


def full(handle):
    """Returns the full form."""
    return _start(handle) + varint(len(handle.key)) + handle.key


def truncated(handle, shared):
    """Returns the truncated form, with a shared length."""
    rest = handle.key[shared:]
    return _start(handle) + varint(shared) + varint(len(rest)) + rest


def read(data, at, head):
    """Returns the handle whose form is at an offset, its shared length, and the offset after it, or
    None: the full form where there is no head."""
    if at >= len(data) or data[at] != 0:
        return None
    offset = read_varint(data, at + 1, 64)
    size = offset and read_varint(data, offset[1], 32)
    seqno = size and read_varint(data, size[1], 64)
    key = seqno and read_key(data, seqno[1], head)
    if key is None or len(key[0]) > MOST_KEY:
        return None
    return Handle(seqno[0], key[0], offset[0], size[0]), key[1], key[2]


def fits(handle):
    """Returns whether the frame of the block ends below 2^64."""
    return handle.offset + handle.size < 2**64
