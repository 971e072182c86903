"""Data blocks, by the calls for C."""

from ctypes import byref, c_size_t

import calls
from lists import entry_at, given_entries, range_words


class DataWindow:
    """What is left of a data block, by its calls for ranges and scans."""

    def __init__(self, library, payload, count):
        self.library, self.payload, self.count = library, payload, count
        self.low, self.high = 0, count

    def restart(self):
        """Takes the whole block again."""
        self.low, self.high = 0, self.count

    def left(self):
        """Returns how many entries are left."""
        return max(self.high - self.low, 0)

    def taken(self, reverse):
        """Returns the first entry left, or the last, and the window behind it; or None."""
        if self.left() == 0:
            return None
        window, place, count = calls.Window(0, self.low, 0, self.high), calls.Place(), c_size_t()
        scan = self.library.sst_data_block_scan
        words = [self.payload, len(self.payload), byref(window), 0, 0, reverse]
        calls.demand(scan(*words, byref(place), 1, byref(count)))
        return (entry_at(self.payload, place), window) if count.value == 1 else None

    def take(self, reverse):
        """Takes the first entry left, or the last."""
        taken = self.taken(reverse)
        if taken is None:
            return None
        self.low, self.high = taken[1].first_index, taken[1].end_index
        return taken[0]

    def next(self):
        """Takes the first entry left."""
        return self.take(False)

    def back(self):
        """Takes the last entry left."""
        return self.take(True)

    def has_at(self, reverse, key):
        """Returns whether the first entry left, or the last, has a key."""
        taken = self.taken(reverse)
        return taken is not None and taken[0].key == key

    def move_to(self, at):
        """Moves the front to an entry. Returns whether there is one."""
        is_there = at < self.count
        self.low = at if is_there else self.low
        return is_there

    def in_range(self, start, end):
        """Returns the first and the last index of the keys in a range, or None where there is none."""
        window = calls.Window()
        words = [self.payload, len(self.payload), *range_words(start, end)]
        self.library.sst_data_block_range(*words, byref(window))
        found = window.first_index, window.end_index
        return found if found[0] < found[1] else None

    def first_from(self, key):
        """Returns the index of the first entry with a key from one on."""
        found = self.in_range(key, None)
        return found[0] if found else self.count

    def end_before(self, key):
        """Returns the index behind the last entry with a key before one."""
        found = self.in_range(None, key)
        return found[1] if found else 0

    def counts(self, key):
        """Returns how many entries have a key below another, and at most it."""
        return self.end_before(key), self.end_before(key + b"\0")

    def seek(self, key):
        """Moves the front to the first key not below. Returns whether it is the key."""
        self.low = self.first_from(key)
        return self.has_at(False, key)

    def upper(self, key):
        """Moves the back after the last key not above. Returns whether it is the key."""
        self.high = self.end_before(key + b"\0")
        return self.has_at(True, key)

    def above(self, key):
        """Moves the front to the first key above. Returns whether an entry is left."""
        self.low = self.first_from(key + b"\0")
        return self.left() > 0

    def seek_below(self, key):
        """Moves the back after the last key below. Returns whether an entry is left."""
        self.high = self.end_before(key)
        return self.left() > 0


class Data:
    """Data blocks."""

    def __init__(self, library, number):
        self.library, self.number = library, number

    def encode(self, items, interval, num, den):
        """Returns the encoding of a list."""
        words = [given_entries(items), len(items), interval, num, den, self.number]
        return calls.made(self.library.sst_data_block_encode, words)

    def check(self, payload):
        """Returns the number of entries of a payload."""
        count = c_size_t()
        call = self.library.sst_data_block_check
        calls.demand(call(payload, len(payload), self.number, byref(count)))
        return count.value

    def entries(self, payload):
        """Returns the entries of a payload."""
        count, found = self.check(payload), c_size_t()
        window, places = calls.Window(0, 0, 0, count), (calls.Place * count)()
        words = [payload, len(payload), byref(window), 0, 0, 0, places, count]
        calls.demand(self.library.sst_data_block_scan(*words, byref(found)))
        return [entry_at(payload, place) for place in places[: found.value]]

    def find(self, payload, key, seqno):
        """Returns the newest version of a key below a sequence number, and where its value is, or
        None."""
        place = calls.Place()
        words = [payload, len(payload), self.number, key, len(key), seqno]
        if not calls.is_found(self.library.sst_data_block_find(*words, byref(place))):
            return None
        return entry_at(payload, place), place.value_offset, place.value_len

    def window(self, payload):
        """Returns the window of all entries of a payload."""
        return DataWindow(self.library, payload, self.check(payload))
