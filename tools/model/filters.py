"""Bloom filters (docs/FORMAT.md, "Filter")."""

from blocks import little
from frames import MAGIC, number_at
from texts import Refused

FRONT = 22
MOST_BITS = 34359737920
STEP = 0x517CC1B727220A95


def fits(keys, bits_per_key):
    """Returns whether a filter for this many keys is not too long."""
    return keys * bits_per_key <= MOST_BITS


def sizes(keys, bits_per_key):
    """Returns the number of bits and the number of probes."""
    bits = -(-keys * bits_per_key // 8) * 8
    return max(8, bits), max(1, bits_per_key * 693147 // 1000000)


def secondary(hash64):
    """Returns the number by which the probes of a hash are apart."""
    return (hash64 >> 32) * STEP % 2**64


def probes(bits, count, hash64):
    """Returns the bits that are probed for a hash."""
    places, apart, factorial, total = [], secondary(hash64), 1, 0
    for number in range(1, count + 1):
        places.append((hash64 + apart * total) % 2**64 % bits)
        total, factorial = total + factorial, factorial * number % 2**64
    return places


def set_bit(data, bit):
    """Sets a bit of bytes."""
    data[bit // 8] |= 128 >> bit % 8


def has_bit(data, bit):
    """Returns whether a bit of bytes is set."""
    return data[bit // 8] & 128 >> bit % 8 != 0


def filter_of(keys, bits_per_key, hashes):
    """Returns the payload of a filter for this many keys, in which hashes are inserted."""
    bits, count = sizes(keys, bits_per_key)
    data = bytearray(bits // 8)
    for hash64 in hashes:
        for bit in probes(bits, count, hash64):
            set_bit(data, bit)
    return MAGIC + bytes(2) + little(bits, 8) + little(count, 8) + bytes(data)


class Filter:
    """A payload that is read as a filter."""

    def __init__(self, data):
        if len(data) < FRONT:
            raise Refused("Truncated")
        if data[:4] != MAGIC:
            raise Refused("InvalidHeader")
        if data[4] != 0 or data[5] != 0:
            raise Refused("InvalidTag")
        self.bits, self.count = number_at(data, 6, 8), number_at(data, 14, 8)
        self.data = data[FRONT:]
        if self.bits != 8 * len(self.data) or not 1 <= self.count <= self.bits:
            raise Refused("BadFilter")

    def may_contain(self, hash64):
        """Returns whether the bit of each probe of a hash is set."""
        return all(has_bit(self.data, bit) for bit in probes(self.bits, self.count, hash64))
