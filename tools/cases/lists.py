"""Lists that are passed to the calls, and what is read at the places that they return."""

import ctypes

import calls
from entries import LETTERS, TYPES, Entry
from handles import Handle


def given_entries(items):
    """Returns entries as they are passed."""
    given = (calls.Given * len(items))()
    for to, item in zip(given, items):
        to.key, to.key_len = item.key, len(item.key)
        to.value, to.value_len = item.value, len(item.value)
        to.seqno, to.value_type = item.seqno, LETTERS[item.letter]
    return given


def given_handles(items):
    """Returns handles as they are passed."""
    given = (calls.KeyedHandle * len(items))()
    for to, item in zip(given, items):
        to.end_key, to.end_key_len = item.key, len(item.key)
        to.seqno, to.offset, to.size = item.seqno, item.offset, item.size
    return given


def given_numbers(numbers):
    """Returns numbers of 64 bits as they are passed."""
    return (ctypes.c_uint64 * len(numbers))(*numbers)


def key_at(data, place):
    """Returns the key of a place."""
    prefix = data[place.prefix_offset : place.prefix_offset + place.prefix_len]
    return prefix + data[place.key_offset : place.key_offset + place.key_len]


def entry_at(data, place):
    """Returns the entry of a place in bytes."""
    value = data[place.value_offset : place.value_offset + place.value_len]
    return Entry(TYPES[place.value_type], place.seqno, key_at(data, place), value)


def handle_at(data, place):
    """Returns the handle of a place in bytes."""
    return Handle(place.seqno, key_at(data, place), place.offset, place.size)


def range_words(start, end):
    """Returns the words of the keys from one on, up to before another, where each may be None."""
    words = []
    for key in (start, end):
        words += [key is not None, key or b"", len(key or b"")]
    return words
