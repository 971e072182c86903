"""Index blocks, by the calls for C."""

from ctypes import byref, c_size_t

import calls
from lists import given_handles, handle_at
from words import Fault


class IndexWindow:
    """What is left of an index block, by its calls for seeks and scans."""

    def __init__(self, library, payload, count):
        self.library, self.payload, self.count = library, payload, count
        self.low, self.high = 0, count

    def left(self):
        """Returns how many handles are left."""
        return max(self.high - self.low, 0)

    def handles_from(self, at, most):
        """Returns the handles from an index on, at most so many."""
        places, count = (calls.HandlePlace * most)(), c_size_t()
        words = [self.payload, len(self.payload), at, places, most]
        calls.demand(self.library.sst_index_block_scan(*words, byref(count)))
        return [handle_at(self.payload, place) for place in places[: count.value]]

    def rest(self):
        """Returns the handles that are left."""
        return self.handles_from(self.low, self.left()) if self.left() else []

    def next(self):
        """Takes the first handle left."""
        if not self.left():
            return None
        self.low += 1
        return self.handles_from(self.low - 1, 1)[0]

    def back(self):
        """Takes the last handle left."""
        if not self.left():
            return None
        self.high -= 1
        return self.handles_from(self.high, 1)[0]

    def first_for(self, key, seqno):
        """Returns the index of the first handle that can lead to a key below a sequence number, to which a
        find has to lead too."""
        words = [self.payload, len(self.payload), key, len(key), seqno]
        index, handle = self.library.sst_index_block_seek(*words), calls.HandleAt()
        is_found = calls.is_found(self.library.sst_index_block_find(*words, byref(handle)))
        found = [(handle.offset, handle.size)] if is_found else []
        wanted = self.handles_from(index, 1)
        if found != [(item.offset, item.size) for item in wanted]:
            raise Fault(f"a find gives {found}, a seek {index}")
        return index

    def seek_handle(self, key, seqno):
        """Moves the front to the first handle that can lead to the key below the sequence number.
        Returns whether there is one, wherever the back is."""
        self.low = self.first_for(key, seqno)
        return self.low < self.count

    def upper_handle(self, key):
        """Moves the back after the first handle with an end key above, which is the first one that can
        lead to the key below 0; or after all."""
        self.high = min(self.first_for(key, 0) + 1, self.count)
        return True


class Index:
    """Index blocks."""

    def __init__(self, library):
        self.library = library

    def encode(self, items, interval):
        """Returns the encoding of a list of handles."""
        words = [given_handles(items), len(items), interval]
        return calls.made(self.library.sst_index_block_encode, words)

    def check(self, payload):
        """Returns the number of handles of a payload."""
        count = c_size_t()
        calls.demand(self.library.sst_index_block_check(payload, len(payload), byref(count)))
        return count.value

    def handles(self, payload):
        """Returns the handles of a payload."""
        return self.window(payload).rest()

    def window(self, payload):
        """Returns the window of all handles of a payload."""
        return IndexWindow(self.library, payload, self.check(payload))
