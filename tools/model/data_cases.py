"""Commands on data blocks: encoding, reads, entries and walks."""

import walks
from blocks import Trailer
from room import only
from texts import commands_of, word_of_found
from words import Digest, Fault, bytes_of, digest_line, number_of, truth


def encode(room, words):
    """Encodes the list: INTERVAL NUM DEN."""
    interval, num, den = [number_of(word, 256) for word in only(words, 3)]
    room.payload = room.by.data.encode(room.entries, interval, num, den)
    trailer = Trailer(room.payload)
    counts = f"{len(room.payload)} bytes, {trailer.heads} heads"
    return f"{counts}, {trailer.buckets} buckets, {trailer.conflicts(room.payload)} conflicts"


def ordered(room, words):
    """Whether the list can be encoded."""
    only(words, 0)
    try:
        room.by.data.encode(room.entries, 1, 0, 1)
    except Fault:
        return truth(False)
    return truth(True)


def found_in(room, words):
    """Returns what a point read finds: KEY SEQNO."""
    key, seqno = only(words, 2)
    room.by.data.check(room.payload)
    return room.by.data.find(room.payload, bytes_of(key), number_of(seqno))


def read(room, words):
    """A point read: KEY SEQNO."""
    found = found_in(room, words)
    return word_of_found(found and found[0])


def place(room, words):
    """Where the value of an entry that a read finds is in the payload: KEY SEQNO. A tombstone has
    none, at 0."""
    found = found_in(room, words)
    return f"{found[1]} {found[2]}" if found else "none"


def queries_of(item):
    """Returns keys and sequence numbers to read around an entry: its own, the next, an extension,
    its prefix, the keys around it, and its end."""
    key, seqno = item.key, item.seqno
    following, most = (seqno + 1) % 2**64, 2**64 - 1
    last = key[-1]
    return [
        (key, seqno),
        (key, following),
        (key + b"m", following),
        (key[:-1], following),
        (key[:-1] + bytes([(last + 1) % 256]), most),
        (key[:-1] + bytes([(last - 1) % 256]), most),
        (key[1:], seqno),
    ]


def queries(room, words):
    """Point reads around each entry, and their digest."""
    only(words, 0)
    total, found, all_read = 0, 0, Digest()
    for item in room.by.data.entries(room.payload):
        for key, seqno in queries_of(item):
            match = room.by.data.find(room.payload, key, seqno)
            total, found = total + 1, found + (match is not None)
            all_read.add(word_of_found(match and match[0]))
    return f"{total} reads, {found} found, {all_read}"


def all_entries(room, words):
    """The number of the entries, and their digest."""
    only(words, 0)
    return digest_line(room.by.data.entries(room.payload), "entries")


def take(room, words):
    """Takes the entries of the payload as the list."""
    only(words, 0)
    room.entries = room.by.data.entries(room.payload)
    return f"{len(room.entries)} entries"


def counts(room, words):
    """How many entries have keys below each needle, and at most it: NEEDLE .."""
    window = room.by.data.window(room.payload)
    found = []
    for word in words:
        below, at_most = window.counts(bytes_of(word))
        found.append(f"{below}/{at_most}")
    return " ".join(found)


def walk(room, words):
    """Steps of an iterator."""
    window, interval = room.by.data.window(room.payload), Trailer(room.payload).interval
    return walks.answers(walks.DATA, window, interval, words)


COMMANDS = commands_of(
    {
        "ordered": ordered,
        "encode": encode,
        "read": read,
        "place": place,
        "queries": queries,
        "entries": all_entries,
        "take": take,
        "counts": counts,
        "walk": walk,
    }
)
