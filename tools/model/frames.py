"""Frames: a header of 33 bytes and a payload (docs/FORMAT.md, "Frame")."""

from blocks import little
from texts import Refused

MAGIC = bytes.fromhex("4c534d03")
HEADER = 33

# The block types, by their bytes.
DATA, INDEX, FILTER, META = 0, 1, 2, 3
TYPES = ["Data", "Index", "Filter", "Meta"]


def number_at(data, at, count):
    """Returns the number of some bytes at an offset, least significant first."""
    return int.from_bytes(data[at : at + count], "little")


def frame_of(hashing, block_type, payload):
    """Returns the frame of a payload."""
    length = little(len(payload), 4)
    checksum = little(hashing.hash128(payload), 16)
    front = MAGIC + bytes([block_type]) + checksum + length + length
    return front + little(hashing.hash128(front) % 2**32, 4) + payload


class Header:
    """The fields of a header."""

    def __init__(self, data):
        self.block_type = data[4]
        self.checksum = number_at(data, 5, 16)
        self.length = number_at(data, 21, 4)
        self.uncompressed = number_at(data, 25, 4)


def read_header(hashing, data):
    """Returns the header at the start of bytes, which is judged in the order of its bytes."""
    if data[:4] != MAGIC:
        raise Refused("InvalidHeader")
    if data[4] >= len(TYPES):
        raise Refused("InvalidTag")
    if hashing.hash128(data[:29]) % 2**32 != number_at(data, 29, 4):
        raise Refused("ChecksumMismatch")
    return Header(data)


def judge_payload(hashing, header, payload):
    """Refuses a payload that has another checksum than its header says."""
    if hashing.hash128(payload) != header.checksum:
        raise Refused("ChecksumMismatch")


def read_whole(hashing, data):
    """Returns the header and the payload of the frame that all bytes are."""
    if len(data) < HEADER:
        raise Refused("Truncated")
    header = read_header(hashing, data)
    if header.length != header.uncompressed or len(data) != HEADER + header.length:
        raise Refused("LengthMismatch")
    judge_payload(hashing, header, data[HEADER:])
    return header, data[HEADER:]


def in_memory(data, offset, size):
    """Returns the bytes that a handle names in memory."""
    if offset + size > len(data):
        raise Refused("BadHandle")
    return data[offset : offset + size]


def read_from(data, offset, size):
    """Returns bytes of a file from an offset on."""
    if size > 0 and offset + size > len(data):
        raise Refused("Io")
    return data[offset : offset + size]


def in_file(data, offset, size):
    """Returns the bytes that a handle names in a file of the system, where no seek reaches an offset of
    2^63 or more."""
    if offset + size >= 2**64:
        raise Refused("BadHandle")
    if offset >= 2**63:
        raise Refused("Io")
    if size == 0 and offset > len(data):
        raise Refused("Truncated")
    return read_from(data, offset, size)


def mended(hashing, data, which):
    """Returns bytes with checksums that fit: that of the header, or `both`."""
    data = bytearray(data)
    if which == "both":
        data[5:21] = little(hashing.hash128(data[HEADER:]), 16)[: max(len(data) - 5, 0)]
    checksum = little(hashing.hash128(data[:29]) % 2**32, 4)
    data[29:33] = checksum[: max(len(data) - 29, 0)]
    return bytes(data)
