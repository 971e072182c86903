"""Merges, snapshots and compactions, by the calls for C over runs. A table is a run and its handles."""

import ctypes
from ctypes import byref, c_size_t

import calls
from lists import entry_at, given_numbers, range_words
from merge_cases import Piece
from merges import INTERVAL
from run_calls import Runs, RunWindow, places_of

# The bytes at which a block ends where a case does not say it.
BLOCK_SIZE = 64


class Merges:
    """Merges, snapshots and compactions."""

    def __init__(self, library, number):
        self.library, self.runs = library, Runs(library, number)
        self.config = calls.Config(0, 1, 10, INTERVAL, 1, number)

    def tables_of(self, sources):
        """Returns a table of each source that has entries, in blocks of two."""
        cut = lambda source: list(range(2, len(source), 2))
        return [self.runs.at_once(source, cut(source), self.config) for source in sources if source]

    def given(self, tables):
        """Returns tables as they are passed."""
        given = (calls.Run * len(tables))()
        for to, (data, handles) in zip(given, tables):
            to.bytes = ctypes.cast(ctypes.c_char_p(data), ctypes.c_void_p)
            to.len, to.handles = len(data), handles
        return given

    def windows(self, tables):
        """Returns the windows of all entries of tables."""
        return [RunWindow(self.library, *table, None, None).window for table in tables]

    def merge(self, tables, below, snapshots):
        """Returns the merge of tables below a sequence number, if there is one, for snapshots."""
        windows = (calls.Window * len(tables))(*self.windows(tables))
        merged, count, found = (calls.Merged * 7)(), c_size_t(1), []
        words = [self.given(tables), len(tables), windows, len(tables), below is not None, below or 0]
        words += [given_numbers(snapshots), len(snapshots), merged, len(merged)]
        while count.value > 0:
            calls.demand(self.library.sst_merge_scan(*words, byref(count)))
            found += [entry_at(tables[item.run][0], item.place) for item in merged[: count.value]]
        return found

    def merged(self, sources):
        """Returns the merge of sources."""
        return self.merge(self.tables_of(sources), None, [])

    def snapshot(self, sources, seqno):
        """Returns what a snapshot sees."""
        found = self.merge(self.tables_of(sources), seqno, [seqno])
        return [item for item in found if not item.is_tombstone()]

    def compact(self, tables, snapshots, piece, block_size):
        """Returns the table that a compaction leaves of a piece of the keys, or None."""
        handles = calls.Handles()
        words = [self.given(tables), len(tables), *range_words(piece.start, piece.end)]
        words += [given_numbers(snapshots), len(snapshots), piece.is_bottom, block_size]
        words += [byref(self.config)]
        data = calls.made_if_found(self.library.sst_compact, words, (byref(handles),))
        return None if data is None else (data, handles)

    def tables(self, sources, snapshots, pieces, block_size):
        """Returns the table of each piece, or None where nothing is left of it."""
        tables = self.tables_of(sources)
        return [self.compact(tables, snapshots, piece, block_size) for piece in pieces]

    def rest(self, table):
        """Returns the entries of a table."""
        return RunWindow(self.library, *table, None, None).rest()

    def compacted(self, sources, snapshots, pieces):
        """Returns the entries that a compaction leaves, by pieces of the keys."""
        tables = self.tables(sources, snapshots, pieces, BLOCK_SIZE)
        return [item for table in tables if table for item in self.rest(table)]

    def stored(self, sources, block_size):
        """Returns the merge of tables, each written of a source."""
        whole = Piece(None, None, False)
        tables = [self.compact([table], [], whole, block_size) for table in self.tables_of(sources)]
        return self.merge(tables, None, [])

    def counts(self, table):
        """Returns the numbers of entries and of blocks of a table."""
        found = self.runs.check(table[0], places_of(table[1]))
        return found.entries, found.blocks

    def look(self, tables, key, seqno):
        """Returns the newest version of a key below a sequence number in tables, or None."""
        found = [self.runs.get(data, places_of(handles), key, seqno) for data, handles in tables]
        return next((item for item in found if item), None)
