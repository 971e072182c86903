"""Commands on merges, snapshots and compactions of sources, and on the tables that these become."""

from room import only
from texts import commands_of, word_of_found
from words import bad_word, bytes_of, number_of


def words_of(items):
    """Returns the words of entries, or `none`."""
    return " ".join(item.word() for item in items) or "none"


def merge(room, words):
    """The merge of the sources."""
    only(words, 0)
    return words_of(room.by.merges.merged(room.sources))


class Piece:
    """The keys from one on, up to before another, where each may be None; and whether they are at the
    bottom."""

    def __init__(self, start, end, is_bottom):
        self.start, self.end, self.is_bottom = start, end, is_bottom

    def has(self, key):
        """Returns whether a key is one of these."""
        return (self.start is None or self.start <= key) and (self.end is None or key < self.end)


def cut_at(keys):
    """Returns the starts and ends of the pieces into which keys cut all keys."""
    cuts = [None, *sorted(set(keys)), None]
    return list(zip(cuts, cuts[1:]))


def level_of(word):
    """Returns the pieces of a word that names a level: all keys, at the bottom or above it."""
    if word not in ("above", "bottom"):
        raise bad_word()
    return [Piece(None, None, word == "bottom")]


def older_of(word):
    """Returns the pieces of a word with the ranges of the older tables: FIRST:LAST,.. What is in none
    of these is at the bottom."""
    ranges = []
    for part in word.split(","):
        first, colon, last = part.partition(":")
        if not colon:
            raise bad_word()
        ranges.append((bytes_of(first), bytes_of(last)))
    cuts = [key for first, last in ranges for key in (first, last + b"\0")]
    is_bottom = lambda start: not any(first <= start <= last for first, last in ranges)
    return [Piece(start, end, is_bottom(start or b"")) for start, end in cut_at(cuts)]


def snapshots_of(word):
    """Returns the snapshots of a word: numbers joined by commas, or `-` for none."""
    return [] if word == "-" else [number_of(part) for part in word.split(",")]


def compact(room, words):
    """A compaction of the sources: SNAPSHOTS LEVEL, or SNAPSHOTS over RANGES of the older tables."""
    if len(words) == 3 and words[1] == "over":
        pieces = older_of(words[2])
    else:
        pieces = level_of(only(words, 2)[1])
    return words_of(room.by.merges.compacted(room.sources, snapshots_of(words[0]), pieces))


def snapshot(room, words):
    """What a snapshot sees of the sources, or of a compaction of them: SEQNO, or SEQNO SNAPSHOTS
    LEVEL."""
    sources = room.sources
    if len(words) == 3:
        wanted, pieces = snapshots_of(words[1]), level_of(words[2])
        sources, words = [room.by.merges.compacted(sources, wanted, pieces)], words[:1]
    return words_of(room.by.merges.snapshot(sources, number_of(only(words, 1)[0])))


def tables(room, words):
    """Compacts the sources into tables, of which each but the first begins at a key: SNAPSHOTS LEVEL
    BLOCK_SIZE KEY .. Of each table the numbers of its entries and of its blocks."""
    if len(words) < 3:
        raise bad_word()
    is_bottom = level_of(words[1])[0].is_bottom
    pieces = [Piece(*ends, is_bottom) for ends in cut_at(map(bytes_of, words[3:]))]
    made = room.by.merges.tables(room.sources, snapshots_of(words[0]), pieces, number_of(words[2]))
    room.tables = [table for table in made if table is not None]
    counts = map(room.by.merges.counts, room.tables)
    return " ".join(f"{entries}/{blocks}" for entries, blocks in counts) or "none"


def look(room, words):
    """Reads over the tables: SEQNO KEY .."""
    if not words:
        raise bad_word()
    seqno = number_of(words[0])
    found = [room.by.merges.look(room.tables, bytes_of(word), seqno) for word in words[1:]]
    return " ".join(word_of_found(item) for item in found)


def stored(room, words):
    """The merge of tables, each written of a source: BLOCK_SIZE."""
    return words_of(room.by.merges.stored(room.sources, number_of(only(words, 1)[0])))


COMMANDS = commands_of(
    {
        "merge": merge,
        "compact": compact,
        "snapshot": snapshot,
        "tables": tables,
        "look": look,
        "stored": stored,
    }
)
