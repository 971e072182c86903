"""Tables in parts: how entries are cut into blocks and parts, the index of the parts, footers, the check by first
cause, and reads (docs/FORMAT.md, "Parted table"). Of a table that is not in parts as well."""

from itertools import accumulate

import entries
import handles
import runs
from blocks import TRAILER, Encoded, Trailer, shared_length
from entries import order_of_entry
from filters import Filter
from frames import DATA, FILTER, HEADER, INDEX, MAGIC, META, frame_of, in_file, number_at, read_header
from runs import FOOTER
from texts import Refused

# At the end of the footer of a table in parts as many bytes are 0. Others would name a filter, where there is none.
ZEROS = 12

# The number of a snapshot that sees each version.
LATEST = 2**64

# Where the length of a payload is in the header of its frame.
LENGTH_AT = 21


class Sizes:
    """Where parts and blocks end, the restart interval of the blocks, and the filter's bits for a key."""

    def __init__(self, part, block, interval, bits):
        self.part, self.block = part, block
        self.form = runs.Form(interval, 0, 1, bits, 1)


def form_length(block, item, interval):
    """Returns the length of the form of an entry behind the others of its block."""
    before = len(block) % interval
    if before == 0:
        return len(entries.full(item))
    return len(entries.truncated(item, shared_length(block[-before].key, item.key)))


def blocks_by_size(items, sizes):
    """Returns entries cut into blocks. A block ends with the entry with which its forms reach a size."""
    blocks, length = [[]], 0
    for item in items:
        if blocks[-1] and length >= sizes.block:
            blocks.append([])
            length = 0
        length += form_length(blocks[-1], item, sizes.form.interval)
        blocks[-1].append(item)
    return blocks


def size_of(item):
    """Returns the number of bytes of the key and the value of an entry."""
    return len(item.key) + (0 if item.is_tombstone() else len(item.value))


def parts_by_size(blocks, size):
    """Returns blocks cut into parts. A part ends with the block with which keys and values reach a size."""
    parts, length = [[]], 0
    for block in blocks:
        if parts[-1] and length >= size:
            parts.append([])
            length = 0
        length += sum(map(size_of, block))
        parts[-1].append(block)
    return parts


def table_of(hashing, blocks, form):
    """Returns the table file of blocks."""
    data, places = runs.write(hashing, blocks, form)
    return data + runs.footer_of(places)


def topped(hashing, data, named, interval=1, block_type=META):
    """Returns parts with the index of them behind, which has these handles, and the footer."""
    frame = frame_of(hashing, block_type, Encoded(handles, named, interval).payload)
    return data + frame + runs.footer_of([(len(data), len(frame)), None])


def joined(hashing, files):
    """Returns the table in parts of table files."""
    data, named = b"", []
    for part in files:
        last = runs.Reader(hashing, part).read(runs.read_footer(part[-FOOTER:])[0], INDEX)[-1]
        named.append(handles.Handle(last.seqno, last.key, len(data), len(part)))
        data += part
    return topped(hashing, data, named)


def write(hashing, items, sizes):
    """Returns the table of entries: in parts, or whole where a part has no size."""
    blocks = blocks_by_size(items, sizes)
    if sizes.part == 0:
        return table_of(hashing, blocks, sizes.form)
    parts = parts_by_size(blocks, sizes.part)
    return joined(hashing, [table_of(hashing, part, sizes.form) for part in parts])


class Part:
    """A part that is sound, or a table that is not in parts: its blocks, and where their frames, its index and its
    filter are in it."""

    kept = {}

    def __init__(self, reader, is_asked):
        data = reader.data
        places = runs.read_footer(reader.range(data, max(len(data) - FOOTER, 0), min(len(data), FOOTER)))
        self.blocks = runs.judge(reader, places) if is_asked else unfiltered(reader, places)
        self.index, self.filter = places
        self.frames = [(named.offset, named.size) for named in reader.read(self.index, INDEX)]
        self.data, self.size = data, len(data)
        self.first, self.last = self.blocks[0][0], self.blocks[-1][-1]

    @classmethod
    def of(cls, hashing, data, is_asked):
        """Returns the part that bytes are, or refuses them. It is kept."""
        key = (hashing, data, is_asked)
        return runs.once(cls.kept, key, lambda: cls(runs.Reader(hashing, data), is_asked))

    def payload(self, place):
        """Returns the payload of the frame at a place."""
        return self.data[place[0] + HEADER : place[0] + place[1]]

    def trailers(self):
        """Returns the trailers of its blocks."""
        return [Trailer(self.payload(place)) for place in self.frames]

    def filter_payload(self):
        """Returns the payload of its filter, or None."""
        return self.payload(self.filter) if self.filter else None

    def ranges(self, offset):
        """Returns the offsets and the sizes of its frames and of its footer in a file where it is at an offset."""
        places = self.frames + [self.index, self.filter or (0, 0), (self.size - FOOTER, FOOTER)]
        return [(offset + at, size) for at, size in places]


def unfiltered(reader, places):
    """Returns the blocks of a run whose filter is sound by itself, and is not asked for keys."""
    if places[1]:
        reader.read(places[1], FILTER)
    return runs.judge(reader, [places[0], None])


class Table:
    """A table file that is sound, by its check. Where filters are not asked for keys, those are not tested."""

    def __init__(self, hashing, data, is_asked=True):
        self.reader, self.size = runs.Reader(hashing, data, in_file), len(data)
        self.top, self.named = runs.read_footer(data[-FOOTER:])[0], None
        self.parts, self.offsets = [], [0]
        if is_in_parts(self.reader, self.top):
            self.take_parts(is_asked)
        else:
            self.parts = [Part(self.reader, is_asked)]

    def take_parts(self, is_asked):
        """Takes the parts, by the index of them."""
        self.named = handles_of_parts(self.reader, self.top)
        self.offsets = [named.offset for named in self.named]
        if self.offsets != [0, *accumulate(named.size for named in self.named[:-1])]:
            raise Refused("BadHandle")
        for named in self.named:
            self.parts.append(self.part_of(named, is_asked))

    def part_of(self, named, is_asked):
        """Returns the part of a handle, which follows the parts before."""
        data = self.reader.range(self.reader.data, named.offset, named.size)
        part = Part.of(self.reader.hashing, data, is_asked)
        if self.parts and order_of_entry(part.first) < order_of_entry(self.parts[-1].last):
            raise Refused("OutOfOrder")
        if (part.last.key, part.last.seqno) != (named.key, named.seqno):
            raise Refused("BadHandle")
        return part

    def blocks(self):
        """Returns the blocks of all parts."""
        return [block for part in self.parts for block in part.blocks]

    def entries(self):
        """Returns the entries of all parts."""
        return [item for block in self.blocks() for item in block]

    def indexes(self):
        """Returns the places of the indexes: in each part, and that of the parts in the file, if there is one."""
        return [part.index for part in self.parts] + ([] if self.named is None else [self.top])

    def gaps(self):
        """Returns the offset and the number of bytes of each range that belongs to no frame and to no footer."""
        used = [(self.size - FOOTER, FOOTER)] + ([] if self.named is None else [self.top])
        for part, offset in zip(self.parts, self.offsets):
            used += part.ranges(offset)
        found, end = [], 0
        for offset, size in sorted(used):
            if size > 0 and offset > end:
                found.append((end, offset - end))
            end = max(end, offset + size)
        return found


def is_in_parts(reader, place):
    """Returns whether a table is in parts, by the header of the frame that its footer names."""
    header = reader.range(reader.data, place[0], min(place[1], HEADER))
    try:
        return len(header) == HEADER and read_header(reader.hashing, header).block_type == META
    except Refused:
        return False


def handles_of_parts(reader, top):
    """Returns the handles of the index of the parts, where the footer names no filter beside it."""
    if reader.data[-ZEROS:] != bytes(ZEROS):
        raise Refused("BadHandle")
    return reader.read(top, META)


def within(named):
    """Returns how bytes of the part of a handle are read: a range that is not inside the part is refused."""

    def bytes_at(data, offset, size):
        """Returns the bytes that a handle names in the part."""
        if offset + size > named.size:
            raise Refused("BadHandle")
        return in_file(data, named.offset + offset, size)

    return bytes_at


def leads_to(named, key, seqno):
    """Returns whether what ends at a handle may hold a key below a sequence number."""
    return named.key > key or named.key == key and named.seqno < seqno


def fetch(hashing, data, key, seqno):
    """Returns what a checked read finds, or None: of one part the footer, the filter, the index and a block."""
    reader = runs.Reader(hashing, data, in_file)
    places = runs.read_footer(data[-FOOTER:])
    if not is_in_parts(reader, places[0]):
        return runs.fetch(reader, places, key, seqno)
    for named in handles_of_parts(reader, places[0]):
        if leads_to(named, key, seqno):
            if named.size < FOOTER:
                raise Refused("Truncated")
            footer = in_file(data, named.offset + named.size - FOOTER, FOOTER)
            part = runs.Reader(hashing, data, within(named))
            return runs.fetch(part, runs.read_footer(footer), key, seqno)
    return None


def block_at(hashing, data, at):
    """Returns the entries of the data block whose frame begins at an offset, and the length of the frame, or None."""
    length = number_at(data, at + LENGTH_AT, 4)
    frame = data[at : at + HEADER + length]
    try:
        return runs.Reader(hashing, frame).read((0, len(frame)), DATA), len(frame)
    except Refused:
        return None


def blocks_found(hashing, data):
    """Returns the whole data blocks that stand anywhere in bytes, but for those before one that was found."""
    found, at = [], data.find(MAGIC)
    while at >= 0:
        block = block_at(hashing, data, at)
        if block and (not found or order_of_entry(block[0][0]) >= order_of_entry(found[-1][-1])):
            found.append(block[0])
        at = data.find(MAGIC, at + (block[1] if block else 1))
    return found


def named_in(hashing, data):
    """Returns the handles of the index of a table, in parts or not; of one that is not its filter is read, too."""
    reader = runs.Reader(hashing, data, in_file)
    place, filter_place = runs.read_footer(data[-FOOTER:])
    if is_in_parts(reader, place):
        return handles_of_parts(reader, place)
    if filter_place:
        reader.read(filter_place, FILTER)
    return reader.read(place, INDEX)


class Scan:
    """Which entries are scanned: the keys from one on, up to before another, or of a prefix; what a read at a sequence
    number sees; from which end; at most how many."""

    def __init__(self):
        self.start = self.end = self.prefix = self.at = self.limit = None
        self.is_back = False

    def has(self, key):
        """Returns whether a key is in the range."""
        if self.prefix is not None:
            return key.startswith(self.prefix)
        return (self.start is None or key >= self.start) and (self.end is None or key < self.end)


class Verdict:
    """What a check of a table that is sound says: the number of parts, if it is in parts, the numbers of blocks and
    entries, and the bytes that belong to nothing."""

    def __init__(self, parts, blocks, entry_count, gaps):
        self.parts, self.blocks, self.entries, self.gaps = parts, blocks, entry_count, gaps

    def word(self):
        """Returns the words of the verdict."""
        counts = "" if self.parts is None else f"{self.parts} parts, "
        counts += f"{self.blocks} blocks, {self.entries} entries"
        return counts + "".join(f", {size} bytes at {offset} in none" for offset, size in self.gaps)


def range_of(numbers):
    """Returns the least and the greatest of numbers."""
    return [min(numbers), max(numbers)]


def entry_fields(items):
    """Returns the first and the last key of entries, the range of their numbers, how many tombstones there are, and
    the sum and the range of the lengths of their keys and of their values."""
    keys = [len(item.key) for item in items]
    values = [size_of(item) - len(item.key) for item in items]
    fields = [items[0].key.hex(), items[-1].key.hex(), *range_of([item.seqno for item in items])]
    fields += [sum(item.is_tombstone() for item in items)]
    return fields + [sum(keys), *range_of(keys), sum(values), *range_of(values)]


class Stat:
    """What a sound table holds, by the names that `sstool stat --json` gives."""

    def __init__(self, table, name):
        parts, items = table.parts, table.entries()
        trailers = [trailer for part in parts for trailer in part.trailers()]
        self.fields = [name, None if table.named is None else len(parts), len(table.blocks()), len(items)]
        self.fields += entry_fields(items)
        self.fields += range_of([trailer.interval for trailer in trailers])
        self.fields += [Trailer(parts[0].payload(parts[0].index)).interval]
        self.fields += filter_fields([part.filter_payload() for part in parts])
        self.fields += [sum(trailer.buckets for trailer in trailers)]
        self.fields += [max(trailer.end + TRAILER for trailer in trailers)]
        self.fields += [sum(size for _, size in table.indexes())]
        self.fields += [sum(part.filter[1] for part in parts if part.filter)]
        self.fields += [sum(size for _, size in table.gaps()), table.size]


def filter_fields(payloads):
    """Returns the numbers of bits, of those that are set, and of probes of a key, of the filters of parts."""
    filters = [Filter(payload) for payload in payloads if payload is not None]
    if not filters:
        return [None] * 3
    is_set = sum(byte.bit_count() for found in filters for byte in found.data)
    return [sum(found.bits for found in filters), is_set, max(found.count for found in filters)]


STAT = (
    "hash parts blocks entries first_key last_key least_seqno greatest_seqno tombstones key_bytes least_key_bytes "
    "greatest_key_bytes value_bytes least_value_bytes greatest_value_bytes least_interval greatest_interval "
    "index_interval filter_bits filter_bits_set filter_probes buckets longest_payload index_bytes filter_bytes "
    "unused_bytes bytes"
).split()


def stat_word(fields):
    """Returns the words of fields of a stat."""
    return " ".join(f"{name}={'none' if field is None else field}" for name, field in zip(STAT, fields))
