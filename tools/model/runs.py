"""Runs: blocks as frames, an index and a filter; their check by first cause, reads and scans
(docs/FORMAT.md, "Run" and "Table file")."""

import entries
import handles
from blocks import Encoded, bucket_count, check, little
from filters import Filter, filter_of, fits
from frames import DATA, FILTER, INDEX, frame_of, in_memory, number_at, read_whole
from texts import Refused

FOOTER = 24


class Form:
    """How a run is written."""

    def __init__(self, interval, num, den, bits_per_key, index_interval):
        self.interval, self.num, self.den = interval, num, den
        self.bits_per_key, self.index_interval = bits_per_key, index_interval


def cuts_fit(length, cuts):
    """Returns whether cuts divide this many entries into blocks of which none is empty."""
    ends = [0] + cuts + [length]
    return not cuts or all(ends[at] < ends[at + 1] for at in range(len(ends) - 1))


def blocks_of(items, cuts):
    """Returns the blocks into which cuts divide entries."""
    ends = [0] + cuts + [len(items)]
    return [items[ends[at] : ends[at + 1]] for at in range(len(ends) - 1)]


def write(hashing, blocks, form):
    """Returns the bytes of a run of blocks, and where its index and its filter are."""
    data, named = b"", []
    for block in blocks:
        count = bucket_count(len(block), form.num, form.den)
        payload = Encoded(entries, block, form.interval, count, hashing.hash64).payload
        frame = frame_of(hashing, DATA, payload)
        last = block[-1]
        named.append(handles.Handle(last.seqno, last.key, len(data), len(frame)))
        data += frame
    keys = [item.key for block in blocks for item in block]
    if not fits(len(keys), form.bits_per_key):
        raise Refused("TooLong")
    index = frame_of(hashing, INDEX, Encoded(handles, named, form.index_interval).payload)
    places = [(len(data), len(index)), None]
    data += index
    if form.bits_per_key > 0:
        hashes = [hashing.hash64(key) for key in keys]
        frame = frame_of(hashing, FILTER, filter_of(len(keys), form.bits_per_key, hashes))
        places[1] = (len(data), len(frame))
        data += frame
    return data, places


def footer_of(places):
    """Returns the footer that names an index and a filter."""
    index, filter_place = places[0], places[1] or (0, 0)
    return b"".join(little(place[0], 8) + little(place[1], 4) for place in [index, filter_place])


def read_footer(data):
    """Returns the places of the index and the filter that the first 24 bytes name."""
    if len(data) < FOOTER:
        raise Refused("Truncated")
    index, found = [(number_at(data, at, 8), number_at(data, at + 8, 4)) for at in [0, 12]]
    return [index, found if found[1] > 0 else None]


def once(kept, key, make):
    """Returns what is made for a key, or refuses it: as the first time, since either is kept."""
    if key not in kept:
        try:
            kept[key] = (make(), None)
        except Refused as refused:
            kept[key] = (None, str(refused))
    made, refusal = kept[key]
    if refusal is not None:
        raise Refused(refusal)
    return made


class Reader:
    """Bytes in memory or in a file, of which frames are read. What a frame is read as is kept,
    since the runs of many cases have frames in common."""

    kept = {}

    def __init__(self, hashing, data, bytes_at=in_memory):
        self.hashing, self.data, self.range = hashing, data, bytes_at

    def parse(self, frame, wanted):
        """Returns what a frame of a type holds."""
        header, payload = read_whole(self.hashing, frame)
        if header.block_type != wanted:
            raise Refused("InvalidTag")
        if wanted == FILTER:
            return Filter(payload)
        kind = entries if wanted == DATA else handles
        return check(kind, payload, self.hashing.hash64)[0]

    def read(self, place, wanted):
        """Returns what the frame at a place holds, which is of the type that is wanted."""
        frame = self.range(self.data, *place)
        key = (self.hashing, frame, wanted)
        return once(self.kept, key, lambda: self.parse(frame, wanted))


def judge_block(reader, handle, start, before, kept_filter):
    """Returns the entries of the block of a handle, which begins at an offset and follows an
    entry."""
    if handle.offset != start:
        raise Refused("BadHandle")
    items = reader.read((handle.offset, handle.size), DATA)
    order = entries.order_of_entry
    if before is not None and order(items[0]) < order(before):
        raise Refused("OutOfOrder")
    if kept_filter is not None:
        for item in items:
            if not kept_filter.may_contain(reader.hashing.hash64(item.key)):
                raise Refused("BadFilter")
    if (items[-1].key, items[-1].seqno) != (handle.key, handle.seqno):
        raise Refused("BadHandle")
    return items


def judge(reader, places):
    """Returns the blocks of a run, or refuses it by the first cause."""
    kept_filter = reader.read(places[1], FILTER) if places[1] else None
    blocks, start, before = [], 0, None
    for handle in reader.read(places[0], INDEX):
        items = judge_block(reader, handle, start, before, kept_filter)
        blocks.append(items)
        start, before = start + handle.size, items[-1]
    return blocks


class Summary:
    """What a check of a run counts, and its first and its last key."""

    def __init__(self, blocks):
        items = [item for block in blocks for item in block]
        seqnos = [item.seqno for item in items]
        self.blocks, self.entries = len(blocks), len(items)
        self.first, self.last = items[0].key, items[-1].key
        self.least, self.greatest = min(seqnos), max(seqnos)


def first_match(items, key, seqno):
    """Returns the first entry of a key below a sequence number, or None."""
    return next((item for item in items if item.key == key and item.seqno < seqno), None)


def fetch(reader, places, key, seqno):
    """Returns what a checked read finds: by the filter, the index and one block."""
    if places[1]:
        if not reader.read(places[1], FILTER).may_contain(reader.hashing.hash64(key)):
            return None
    for handle in reader.read(places[0], INDEX):
        if handle.key > key or handle.key == key and handle.seqno < seqno:
            return first_match(reader.read((handle.offset, handle.size), DATA), key, seqno)
    return None


class Range:
    """A range of keys. A bound is None, or whether it is within the range and its key."""

    def __init__(self, start, end):
        self.start, self.end = start, end

    def starts_by(self, key):
        """Returns whether the range has begun at a key."""
        return self.start is None or key > self.start[1] or self.start[0] and key == self.start[1]

    def goes_to(self, key):
        """Returns whether the range has not ended at a key."""
        return self.end is None or key < self.end[1] or self.end[0] and key == self.end[1]

    def has(self, key):
        """Returns whether a key is in the range."""
        return self.starts_by(key) and self.goes_to(key)
