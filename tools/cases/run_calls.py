"""Runs and footers, by the calls for C."""

from ctypes import byref, c_size_t, c_uint64

import calls
from entries import TYPES, Entry
from lists import entry_at, given_entries, given_handles, given_numbers, range_words
from handles import Handle
from runs import blocks_of
from words import Fault


def handles_of(places):
    """Returns the handles of places of an index and of a filter."""
    index, found = places[0], places[1] or (0, 0)
    return calls.Handles(index[0], found[0], index[1], found[1])


def places_of(handles):
    """Returns the places that handles name."""
    found = (handles.filter_offset, handles.filter_size)
    return [(handles.index_offset, handles.index_size), found if handles.filter_size else None]


class Sound:
    """What a check of a run gives: its counts, and its first and its last key."""

    def __init__(self, summary, first, last):
        self.blocks, self.entries = summary.blocks, summary.entries
        self.first, self.last = first.key, last.key
        self.least, self.greatest = summary.least_seqno, summary.greatest_seqno


class RunWindow:
    """What is left of the keys of a run in a range."""

    def __init__(self, library, data, handles, start, end):
        self.library, self.data, self.handles = library, data, handles
        self.window = calls.Window()
        words = [data, len(data), byref(handles), *range_words(start, end)]
        library.sst_run_range(*words, byref(self.window))

    def taken(self, reverse, most):
        """Returns the next entries from the front, or from the back, at most so many."""
        places, count = (calls.Place * most)(), c_size_t()
        words = [self.data, len(self.data), byref(self.handles), byref(self.window), 0, 0, reverse]
        calls.demand(self.library.sst_run_scan(*words, places, most, byref(count)))
        return [entry_at(self.data, place) for place in places[: count.value]]

    def next(self):
        """Takes the first entry left."""
        return next(iter(self.taken(False, 1)), None)

    def back(self):
        """Takes the last entry left."""
        return next(iter(self.taken(True, 1)), None)

    def rest(self):
        """Takes all entries that are left."""
        found, more = [], self.taken(False, 64)
        while more:
            found += more
            more = self.taken(False, 64)
        return found


class Runs:
    """Runs and footers."""

    def __init__(self, library, number):
        self.library, self.number = library, number

    def write(self, items, cuts, form):
        """Returns a run of a list, and where its index and its filter are; written at once, and block
        by block, which has to give the same."""
        numbers = [form.num, form.den, form.bits_per_key, form.interval, form.index_interval]
        config = calls.Config(*numbers, self.number)
        data, handles = self.at_once(items, cuts, config)
        blocks = blocks_of(items, cuts)
        if (data, places_of(handles)) != self.by_blocks(blocks, config):
            raise Fault("block by block another run is written")
        return data, places_of(handles)

    def at_once(self, items, cuts, config):
        """Returns a run that is written by one call, and its handles."""
        handles, given_cuts = calls.Handles(), (c_size_t * len(cuts))(*cuts)
        words = [given_entries(items), len(items), given_cuts, len(cuts), byref(config)]
        return calls.made(self.library.sst_run_write, words, (byref(handles),)), handles

    def by_blocks(self, blocks, config):
        """Returns a run that is written by a call for each block and one for its end, and its places."""
        data, named, hashes = b"", [], []
        for block in blocks:
            found = (c_uint64 * len(block))()
            words = [given_entries(block), len(block), byref(config)]
            frame = calls.made(self.library.sst_run_block_write, words, (found, len(block)))
            named.append(Handle(block[-1].seqno, block[-1].key, len(data), len(frame)))
            hashes += found
            data += frame
        handles = calls.Handles()
        words = [given_handles(named), len(named), given_numbers(hashes), len(hashes), byref(config)]
        end = calls.made(self.library.sst_run_end_write, words, (byref(handles),))
        return data + end, places_of(handles)

    def check(self, data, places):
        """Returns the summary of a sound run, which both checks give."""
        handles, summary, other = handles_of(places), calls.Summary(), calls.Summary()
        words = [data, len(data), byref(handles), self.number]
        status = self.library.sst_run_check_at(*words, byref(summary), byref(calls.CheckEnd()))
        if self.library.sst_run_check(*words, byref(other)) != status or bytes(summary) != bytes(other):
            raise Fault("the two checks differ")
        calls.demand(status)
        ends = [RunWindow(self.library, data, handles, None, None) for _ in range(2)]
        return Sound(summary, ends[0].next(), ends[1].back())

    def get(self, data, places, key, seqno):
        """Returns the newest version of a key below a sequence number in a sound run, or None; as it is
        read at once, and of the run when it was opened."""
        handles, place, other = handles_of(places), calls.Place(), calls.Place()
        words = [data, len(data), byref(handles), self.number]
        asked = [key, len(key), seqno]
        status = self.library.sst_run_get(*words, *asked, byref(place))
        opened, numbers = self.opened(words)
        words = [data, len(data), byref(opened), numbers, len(numbers)]
        again = self.library.sst_run_find(*words, *asked, byref(other))
        if again != status or bytes(place) != bytes(other):
            raise Fault("an opened run gives another entry")
        return entry_at(data, place) if calls.is_found(status) else None

    def opened(self, words):
        """Returns a run that is opened, and its table of numbers."""
        opened, none = calls.OpenRun(), given_numbers([])
        calls.demand(self.library.sst_run_open(*words, none, 0, byref(opened)))
        numbers = given_numbers([0] * opened.blocks)
        calls.demand(self.library.sst_run_open(*words, numbers, len(numbers), byref(opened)))
        return opened, numbers

    def fetch(self, data, places, key, seqno):
        """Returns what a checked read finds, or None."""
        handles, found = handles_of(places), calls.Found()
        words = [data, len(data), byref(handles), self.number, key, len(key), seqno, byref(found)]
        room, status = 0, calls.NO_ROOM
        while status == calls.NO_ROOM:
            value = (calls.c_uint8 * room)()
            status = self.library.sst_run_fetch(*words, value, room)
            room = found.value_len
        if not calls.is_found(status):
            return None
        return Entry(TYPES[found.value_type], found.seqno, key, bytes(value)[: found.value_len])

    def scan(self, data, places, keys):
        """Returns the window of the entries of a sound run whose keys are in a range."""
        start = keys.start and keys.start[1] + (b"" if keys.start[0] else b"\0")
        end = keys.end and keys.end[1] + (b"\0" if keys.end[0] else b"")
        return RunWindow(self.library, data, handles_of(places), start, end)

    def footer(self, places):
        """Returns the footer that names an index and a filter."""
        return calls.made(self.library.sst_footer_write, [byref(handles_of(places))])

    def read_footer(self, data):
        """Returns the places that a footer names."""
        handles = calls.Handles()
        calls.demand(self.library.sst_footer_read(data, len(data), byref(handles)))
        return places_of(handles)
