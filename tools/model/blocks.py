"""Blocks of items of any kind: their encoding and their check. A kind is a module with the forms of
its items: `entries` or `handles`."""

import entries
from texts import Refused

END_MARKER = 0xFF
FREE, CONFLICT = 0xFE, 0xFF
MOST_HEADS_HASHED = 254
TRAILER = 31
FIXED = bytes([1, 0, 0, 0, 0, 0, 0, 0, 0])


def little(number, count):
    """Returns a number in bytes, least significant first."""
    return number.to_bytes(count, "little")


def shared_length(left, right):
    """Returns the greatest length at which two byte strings agree."""
    length = 0
    while length < min(len(left), len(right)) and left[length] == right[length]:
        length += 1
    return length


def bucket_count(count, num, den):
    """Returns the number of buckets of this many items at a ratio."""
    return 0 if num == 0 else min(max(count * num // den, 1), 2**32 - 1)


def bucket_byte(numbers):
    """Returns the byte of a bucket whose keys are in intervals of these numbers."""
    if not numbers:
        return FREE
    return min(numbers) if len(numbers) == 1 else CONFLICT


def buckets_of(items, interval, count, hash64):
    """Returns the bytes of the buckets of items."""
    found = [set() for _ in range(count)]
    for at, item in enumerate(items):
        found[hash64(item.key) % count].add(at // interval)
    return bytes(bucket_byte(numbers) for numbers in found)


def width_of(offsets):
    """Returns the width of a pointer to any of these offsets of heads."""
    return 2 if offsets[-1] <= 65535 else 4


def pointers_of(offsets, width):
    """Returns the pointers to offsets."""
    return b"".join(little(offset, width) for offset in offsets)


class Encoded:
    """The encoding of items, and what it consists of."""

    def __init__(self, kind, items, interval, count=0, hash64=None):
        self.kind, self.items, self.interval = kind, items, interval
        body = bytearray()
        self.offsets = []
        for at, item in enumerate(items):
            if at % interval == 0:
                head = item
                self.offsets.append(len(body))
                body += kind.full(item)
            else:
                body += kind.truncated(item, shared_length(head.key, item.key))
        self.body = bytes(body)
        self.heads = len(self.offsets)
        self.width = width_of(self.offsets)
        is_hashed = count > 0 and self.heads <= MOST_HEADS_HASHED
        self.buckets = buckets_of(items, interval, count, hash64) if is_hashed else b""
        self.payload = self._payload()

    def _payload(self):
        """Returns the payload."""
        index = len(self.body) + 1
        pointers = pointers_of(self.offsets, self.width)
        hashed = index + len(pointers) if self.buckets else 0
        trailer = bytes([self.interval, self.width])
        for number in [self.heads, index, len(self.buckets), hashed]:
            trailer += little(number, 4)
        trailer += FIXED + little(len(self.items), 4)
        return self.body + bytes([END_MARKER]) + pointers + self.buckets + trailer



class Trailer:
    """The last 31 bytes of a payload."""

    def __init__(self, payload):
        if len(payload) < TRAILER:
            raise Refused("Truncated")
        trailer = payload[-TRAILER:]
        number = lambda at: int.from_bytes(trailer[at : at + 4], "little")
        self.interval, self.width = trailer[0], trailer[1]
        self.heads, self.index = number(2), number(6)
        self.buckets, self.hashed = number(10), number(14)
        self.fixed, self.count = trailer[18:27], number(27)
        self.end = len(payload) - TRAILER

    def conflicts(self, payload):
        """Returns how many buckets of the payload have a conflict."""
        return payload[self.hashed : self.hashed + self.buckets].count(CONFLICT)

    def has_fields(self):
        """Returns whether the numbers agree with each other."""
        if self.interval < 1 or self.width not in (2, 4) or self.count < 1:
            return False
        return self.heads == -(-self.count // self.interval) and self.fixed == FIXED

    def has_parts(self, payload, may_hash):
        """Returns whether the parts of the payload are where the trailer says."""
        after = self.index + self.heads * self.width
        if not 1 <= self.index <= self.end or payload[self.index - 1] != END_MARKER:
            return False
        if self.buckets == 0:
            return self.hashed == 0 and after == self.end
        if not may_hash or self.heads > MOST_HEADS_HASHED or self.hashed != after:
            return False
        return after + self.buckets == self.end


def read_forms(kind, body, count, interval):
    """Returns the items of as many forms, which are all of a body, and the offsets of the heads. A
    shared length has to be the greatest."""
    items, offsets, at = [], [], 0
    for number in range(count):
        head = None if number % interval == 0 else items[number - number % interval].key
        found = kind.read(body, at, head)
        if found is None:
            raise Refused("BadEntry")
        item, shared, after = found
        if head is None:
            offsets.append(at)
        elif shared != shared_length(head, item.key):
            raise Refused("BadEntry")
        items.append(item)
        at = after
    if at != len(body):
        raise Refused("BadEntry")
    return items, offsets


def check(kind, payload, hash64):
    """Returns the items of a payload and its trailer, or raises the error of the first stage that
    fails."""
    trailer = Trailer(payload)
    if not trailer.has_fields() or not trailer.has_parts(payload, kind is entries):
        raise Refused("BadTrailer")
    body = payload[: trailer.index - 1]
    items, offsets = read_forms(kind, body, trailer.count, trailer.interval)
    if not all(kind.fits(item) for item in items):
        raise Refused("BadHandle")
    if not kind.is_ordered(items):
        raise Refused("OutOfOrder")
    pointers = payload[trailer.index : trailer.index + trailer.heads * trailer.width]
    width = width_of(offsets)
    if trailer.width != width or pointers != pointers_of(offsets, width):
        raise Refused("BadIndex")
    if trailer.buckets:
        stored = payload[trailer.hashed : trailer.end]
        if stored != buckets_of(items, trailer.interval, trailer.buckets, hash64):
            raise Refused("BadHashIndex")
    return items, trailer

