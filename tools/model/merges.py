"""Merges of ordered lists of entries, what a snapshot sees, and compaction, by the plain words of
docs/PROMISES.md."""

import entries
from blocks import Encoded
from entries import order_of_entry
from runs import first_match

# The restart interval of the blocks of tables.
INTERVAL = 2


def merged(sources):
    """Returns the entries of all sources in order; of equal ones those of an earlier source
    first."""
    numbered = []
    for number, source in enumerate(sources):
        numbered += [(order_of_entry(item), number, item) for item in source]
    return [item for _, _, item in sorted(numbered, key=lambda found: found[:2])]


def newest_below(items, at, seqno):
    """Returns whether the entry at an index is the first of its key below a sequence number."""
    item = items[at]
    return item.seqno < seqno and first_match(items[:at], item.key, seqno) is None


def snapshot(items, seqno):
    """Returns what a read at a sequence number sees of each key, unless it is a tombstone."""
    newest = [item for at, item in enumerate(items) if newest_below(items, at, seqno)]
    return [item for item in newest if not item.is_tombstone()]


def compacted(items, snapshots, is_bottom):
    """Returns the entries that a compaction for snapshots leaves, each of which sees what is strictly
    below it: those that no snapshot sees, and those that one sees which sees no newer one of the key;
    without the tombstones of keys at the bottom under which no snapshot that does not see them sees an
    older one of the key."""
    kept = []
    for at, item in enumerate(items):
        newer = [other for other in items[:at] if other.key == item.key]
        older = [other for other in items[at + 1 :] if other.key == item.key]
        seeing = [seqno for seqno in snapshots if item.seqno < seqno]
        alone = [seqno for seqno in seeing if all(other.seqno >= seqno for other in newer)]
        blind = [seqno for seqno in snapshots if item.seqno >= seqno]
        under = [seqno for seqno in blind if any(other.seqno < seqno for other in older)]
        goes = item.is_tombstone() and not under and is_bottom(item.key)
        if not seeing or alone and not goes:
            kept.append(item)
    return kept


def size_of(items):
    """Returns the bytes of the entries of a block as they are encoded."""
    return len(Encoded(entries, items, INTERVAL).body)


def next_block(items, size):
    """Returns how many entries are the next block: those up to the one with which it reaches its
    size."""
    for count in range(1, len(items) + 1):
        if size_of(items[:count]) >= size:
            return count
    return len(items)


def blocks_by_size(items, size):
    """Returns entries cut into blocks by a size."""
    blocks = []
    while items:
        count = next_block(items, size)
        blocks.append(items[:count])
        items = items[count:]
    return blocks
