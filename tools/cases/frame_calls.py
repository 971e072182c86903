"""Frames, filters and hashes, by the calls for C."""

from ctypes import byref, c_size_t, c_uint8, c_uint64

import calls
from entries import Entry
from lists import given_entries, given_numbers


class Frames:
    """Frames."""

    def __init__(self, library, number):
        self.library, self.number = library, number

    def write(self, payload, block_type):
        """Returns the frame of a payload."""
        words = [payload, len(payload), block_type, self.number]
        return calls.made(self.library.sst_frame_write, words)

    def check(self, data):
        """Returns the type and the payload of the frame that all bytes are."""
        block_type, length = c_uint8(), c_size_t()
        words = [data, len(data), self.number, byref(block_type), byref(length)]
        calls.demand(self.library.sst_frame_check(*words))
        return block_type.value, data[33 : 33 + length.value]


class Filters:
    """Bloom filters."""

    def __init__(self, library, number):
        self.library, self.number = library, number

    def of_hashes(self, hashes, bits):
        """Returns the filter of hashes."""
        words = [given_numbers(hashes), len(hashes), bits]
        return calls.made(self.library.sst_filter_build_hashes, words)

    def of_keys(self, keys, bits):
        """Returns the filter of keys."""
        given = (calls.Bytes * len(keys))(*[calls.Bytes(key, len(key)) for key in keys])
        return calls.made(self.library.sst_filter_build, [given, len(keys), bits, self.number])

    def may_contain_hash(self, payload, hash64):
        """Returns whether a filter may contain a hash."""
        status = self.library.sst_filter_may_contain_hash(payload, len(payload), hash64)
        return calls.is_found(status)

    def may_contain(self, payload, key):
        """Returns whether a filter may contain a key."""
        words = [payload, len(payload), self.number, key, len(key)]
        return calls.is_found(self.library.sst_filter_may_contain(*words))


class Hashes:
    """The hash function: what a run's block keeps of a key, and the checksum that a frame has."""

    def __init__(self, library, number):
        self.library, self.number = library, number

    def hash64(self, data):
        """Returns the hash of 64 bits of a key."""
        hashes, config = (c_uint64 * 1)(), calls.Config(0, 1, 10, 1, 1, self.number)
        words = [given_entries([Entry("V", 0, data, b"")]), 1, byref(config)]
        calls.made(self.library.sst_run_block_write, words, (hashes, 1))
        return hashes[0]

    def hash128(self, data):
        """Returns the hash of 128 bits."""
        frame = Frames(self.library, self.number).write(data, 0)
        return int.from_bytes(frame[5:21], "little")
