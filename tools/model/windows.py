"""Windows: a list of items and two positions, which each call of an iterator moves."""


class Window:
    """The items of a list from `low` up to, not including, `high`."""

    def __init__(self, items):
        self.items, self.low, self.high = items, 0, len(items)

    def restart(self):
        """Takes the whole list again."""
        self.low, self.high = 0, len(self.items)

    def has_some(self):
        """Returns whether an item is left."""
        return self.low < self.high

    def left(self):
        """Returns how many items are left."""
        return max(self.high - self.low, 0)

    def rest(self):
        """Returns the items that are left."""
        return self.items[self.low : self.high]

    def next(self):
        """Takes the first item left."""
        if not self.has_some():
            return None
        self.low += 1
        return self.items[self.low - 1]

    def back(self):
        """Takes the last item left."""
        if not self.has_some():
            return None
        self.high -= 1
        return self.items[self.high]

    def move_to(self, at):
        """Moves the front to an item. Returns whether there is one."""
        is_there = at < len(self.items)
        self.low = at if is_there else self.low
        return is_there

    def below(self, key):
        """Returns how many items have a key below another."""
        return sum(item.key < key for item in self.items)

    def at_most(self, key):
        """Returns how many items have a key that is at most another."""
        return sum(item.key <= key for item in self.items)

    def counts(self, key):
        """Returns how many items have a key below another, and at most it."""
        return self.below(key), self.at_most(key)

    def seek(self, key):
        """Moves the front to the first key not below. Returns whether it is the key."""
        self.low = self.below(key)
        return self.has_some() and self.items[self.low].key == key

    def upper(self, key):
        """Moves the back after the last key not above. Returns whether it is the key."""
        self.high = self.at_most(key)
        return self.has_some() and self.items[self.high - 1].key == key

    def above(self, key):
        """Moves the front to the first key above. Returns whether an item is left."""
        self.low = self.at_most(key)
        return self.has_some()

    def seek_below(self, key):
        """Moves the back after the last key below. Returns whether an item is left."""
        self.high = self.below(key)
        return self.has_some()

    def seek_handle(self, key, seqno):
        """Moves the front to the first handle that can lead to the key below the sequence number.
        Returns whether there is one, wherever the back is."""
        is_passed = lambda item: item.key < key or item.key == key and item.seqno >= seqno
        self.low = sum(is_passed(item) for item in self.items)
        return self.low < len(self.items)

    def upper_handle(self, key):
        """Moves the back after the first handle with an end key above, or after all."""
        self.high = min(self.at_most(key) + 1, len(self.items))
        return True
