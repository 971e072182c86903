"""What the model answers: the methods of `Model` are those of the library that is tested, in plain words
over lists."""

import entries
import filters
import frames
import handles
import merges
import parts
import runs
from blocks import Encoded, bucket_count, check
from entries import is_ordered
from filters import Filter
from hashes import NAMES
from program import Program
from texts import Refused
from windows import Window
from words import bad_word


class Data:
    """Data blocks."""

    def __init__(self, hashing):
        self.hashing, self.kept = hashing, (None, None)

    def encode(self, items, interval, num, den):
        """Returns the encoding of a list."""
        if not items or interval == 0 or den == 0 or not is_ordered(items):
            raise bad_word()
        count = bucket_count(len(items), num, den)
        return Encoded(entries, items, interval, count, self.hashing.hash64).payload

    def check(self, payload):
        """Returns the number of entries of a payload."""
        return len(self.entries(payload))

    def entries(self, payload):
        """Returns the entries of a payload. Those of the last one are kept."""
        if self.kept[0] != payload:
            self.kept = (payload, check(entries, payload, self.hashing.hash64))
        return self.kept[1][0]

    def find(self, payload, key, seqno):
        """Returns the newest version of a key below a sequence number, and where its value is, or
        None."""
        for at, item in enumerate(self.entries(payload)):
            if item.key == key and item.seqno < seqno:
                return item, *self.place(payload, at)
        return None

    def place(self, payload, at):
        """Returns the offset of the value of an entry, and its length: of a tombstone 0 and 0."""
        items, trailer = self.kept[1]
        if items[at].is_tombstone():
            return 0, 0
        after = 0
        for number in range(at + 1):
            head = items[number - number % trailer.interval].key if number % trailer.interval else None
            after = entries.read(payload, after, head)[2]
        return after - len(items[at].value), len(items[at].value)

    def window(self, payload):
        """Returns the window of all entries of a payload."""
        return Window(self.entries(payload))


class Index:
    """Index blocks."""

    def encode(self, items, interval):
        """Returns the encoding of a list of handles."""
        if not items or interval == 0 or not is_ordered(items) or not all(map(handles.fits, items)):
            raise bad_word()
        return Encoded(handles, items, interval).payload

    def check(self, payload):
        """Returns the number of handles of a payload."""
        return len(self.handles(payload))

    def handles(self, payload):
        """Returns the handles of a payload."""
        return check(handles, payload, None)[0]

    def window(self, payload):
        """Returns the window of all handles of a payload."""
        return Window(self.handles(payload))


class Filters:
    """Bloom filters."""

    def __init__(self, hashing):
        self.hashing, self.kept = hashing, (None, None)

    def of_hashes(self, hashes, bits):
        """Returns the filter of hashes."""
        if not hashes or bits == 0 or not filters.fits(len(hashes), bits):
            raise bad_word()
        return filters.filter_of(len(hashes), bits, hashes)

    def of_keys(self, keys, bits):
        """Returns the filter of keys."""
        return self.of_hashes([self.hashing.hash64(key) for key in keys], bits)

    def may_contain_hash(self, payload, hash64):
        """Returns whether a filter may contain a hash."""
        if self.kept[0] != payload:
            self.kept = (payload, Filter(payload))
        return self.kept[1].may_contain(hash64)

    def may_contain(self, payload, key):
        """Returns whether a filter may contain a key."""
        return self.may_contain_hash(payload, self.hashing.hash64(key))


class Frames:
    """Frames."""

    def __init__(self, hashing):
        self.hashing = hashing

    def write(self, payload, block_type):
        """Returns the frame of a payload."""
        return frames.frame_of(self.hashing, block_type, payload)

    def check(self, data):
        """Returns the type and the payload of the frame that all bytes are."""
        header, payload = frames.read_whole(self.hashing, data)
        return header.block_type, payload


class Runs:
    """Runs and footers."""

    def __init__(self, hashing):
        self.hashing = hashing

    def write(self, items, cuts, form):
        """Returns a run of a list, and where its index and its filter are."""
        has_form = form.interval > 0 and form.den > 0 and form.index_interval > 0
        if not has_form or not items or not is_ordered(items) or not runs.cuts_fit(len(items), cuts):
            raise bad_word()
        return runs.write(self.hashing, runs.blocks_of(items, cuts), form)

    def check(self, data, places):
        """Returns the summary of a sound run."""
        return runs.Summary(runs.judge(runs.Reader(self.hashing, data), places))

    def get(self, data, places, key, seqno):
        """Returns the newest version of a key below a sequence number in a sound run, or None."""
        return runs.first_match(self.entries(data, places), key, seqno)

    def entries(self, data, places):
        """Returns the entries of a sound run."""
        blocks = runs.judge(runs.Reader(self.hashing, data), places)
        return [item for block in blocks for item in block]

    def fetch(self, data, places, key, seqno):
        """Returns what a checked read finds, or None."""
        return runs.fetch(runs.Reader(self.hashing, data), places, key, seqno)

    def scan(self, data, places, keys):
        """Returns the window of the entries of a sound run whose keys are in a range."""
        return Window([item for item in self.entries(data, places) if keys.has(item.key)])

    def footer(self, places):
        """Returns the footer that names an index and a filter."""
        return runs.footer_of(places)

    def read_footer(self, data):
        """Returns the places that a footer names."""
        return runs.read_footer(data)


class Merges:
    """Merges, snapshots and compactions. A table is a list of blocks, each a list of entries."""

    def merged(self, sources):
        """Returns the merge of sources."""
        return merges.merged(sources)

    def stored(self, sources, block_size):
        """Returns the merge of tables of sources, which is that of the sources."""
        return merges.merged(sources)

    def snapshot(self, sources, seqno):
        """Returns what a snapshot sees."""
        return merges.snapshot(merges.merged(sources), seqno)

    def compacted(self, sources, snapshots, pieces):
        """Returns the entries that a compaction leaves, by pieces of the keys."""
        is_bottom = lambda key: next(piece.is_bottom for piece in pieces if piece.has(key))
        return merges.compacted(merges.merged(sources), snapshots, is_bottom)

    def tables(self, sources, snapshots, pieces, block_size):
        """Returns the table of each piece, or None where nothing is left of it."""
        items = self.compacted(sources, snapshots, pieces)
        parts = [[item for item in items if piece.has(item.key)] for piece in pieces]
        return [merges.blocks_by_size(part, block_size) or None for part in parts]

    def counts(self, table):
        """Returns the numbers of entries and of blocks of a table."""
        return sum(map(len, table)), len(table)

    def look(self, tables, key, seqno):
        """Returns the newest version of a key below a sequence number in tables, or None."""
        items = [item for table in tables for block in table for item in block]
        return runs.first_match(items, key, seqno)


class Programs:
    """The program `sst`."""

    def run(self, files, words, given):
        """Runs the program on files and an input. Returns what it prints, and the line of a fault."""
        program = Program(files, given)
        fault = program.run(words)
        return program.output, fault


class Parts:
    """Table files, plain and in parts. Their reads are those of the program `sstool`."""

    def __init__(self, hashing):
        self.hashing, self.kept = hashing, (None, None)

    def table(self, data):
        """Returns the table that bytes are, or refuses them. The last one is kept."""
        if self.kept[0] != data:
            self.kept = (data, parts.Table(self.hashing, data))
        return self.kept[1]

    def write(self, items, sizes):
        """Returns the table of a list."""
        if not items or sizes.form.interval == 0 or not is_ordered(items):
            raise bad_word()
        return parts.write(self.hashing, items, sizes)

    def check(self, files):
        """Returns the verdict of each of some files."""
        return [self.verdict(data) for data in files]

    def verdict(self, data):
        """Returns the verdict of a file, or the error."""
        try:
            table = parts.Table(self.hashing, data)
        except Refused as refused:
            return refused
        count = None if table.named is None else len(table.parts)
        return parts.Verdict(count, len(table.blocks()), len(table.entries()), table.gaps())

    def scan(self, data, asked):
        """Returns the entries of a scan, and why it ends before its end, if it does. A scan asks no filter."""
        try:
            items = parts.Table(self.hashing, data, False).entries()
        except Refused as refused:
            return [], refused
        if asked.at is not None:
            items = merges.snapshot(items, asked.at)
        items = [item for item in items if asked.has(item.key)]
        items = items[::-1] if asked.is_back else items
        return items[: asked.limit], None

    def get(self, data, key, at):
        """Returns the newest version of a key, below a sequence number if there is one, or None."""
        return parts.fetch(self.hashing, data, key, parts.LATEST if at is None else at)

    def index(self, data):
        """Returns the handles of the parts, or of the blocks of a table that is not in parts."""
        return parts.named_in(self.hashing, data)

    def layout(self, data):
        """Returns the offset and the size of each part of a sound table, and the offset, the size, the number of
        entries, and the first and the last key of each of its blocks."""
        found = []
        for part, offset in zip(self.table(data).parts, self.table(data).offsets):
            blocks = zip(part.frames, part.blocks)
            numbers = [(offset + at, size, len(block), block) for (at, size), block in blocks]
            placed = [(at, size, count, block[0].key, block[-1].key) for at, size, count, block in numbers]
            found.append((offset, part.size, placed))
        return found

    def stat(self, data):
        """Returns what a sound table holds."""
        return parts.Stat(self.table(data), NAMES[self.hashing]).fields

    def merge(self, files, sizes, snapshots, is_bottom):
        """Returns the table of a merge of tables, the newest first, or None where no entry is left."""
        items = merges.merged([self.table(data).entries() for data in files])
        items = merges.compacted(items, snapshots, lambda key: is_bottom)
        return parts.write(self.hashing, items, sizes) if items else None

    def salvage(self, data):
        """Returns the entries of the whole blocks of a table that may be damaged."""
        return [item for block in parts.blocks_found(self.hashing, data) for item in block]


class Model:
    """The model by a hash function."""

    def __init__(self, hashing):
        self.hashing = self.hashes = hashing
        self.data, self.index, self.filters = Data(hashing), Index(), Filters(hashing)
        self.frames, self.runs = Frames(hashing), Runs(hashing)
        self.merges, self.program, self.parts = Merges(), Programs(), Parts(hashing)
