"""What the commands of a file work on."""

from words import bad_word


class Room:
    """What answers the commands of a file, and what they have made so far. `by` is a `Model`, or a
    `Library` over the calls that are tested: both have the same methods."""

    def __init__(self, by):
        self.by = by
        self.entries, self.handles, self.sources, self.tables = [], [], [], []
        self.payload, self.places = b"", None
        self.files, self.input = {}, b""


def only(words, count):
    """Returns words, of which there are this many."""
    if len(words) != count:
        raise bad_word()
    return words
