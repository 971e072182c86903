"""Commands on index blocks: encoding, seeks and walks."""

import walks
from blocks import Trailer
from room import only
from texts import commands_of
from words import bad_word, bytes_of, digest_line, number_of


def encode(room, words):
    """Encodes the handles: INTERVAL."""
    interval = number_of(only(words, 1)[0], 256)
    room.payload = room.by.index.encode(room.handles, interval)
    return f"{len(room.payload)} bytes, {Trailer(room.payload).heads} heads"


def walk(room, words):
    """Steps of an iterator."""
    window, interval = room.by.index.window(room.payload), Trailer(room.payload).interval
    return walks.answers(walks.INDEX, window, interval, words)


def between(room, words):
    """The handles between two bounds: KEY:SEQNO KEY."""
    (lower, colon, seqno), upper = only(words, 2)[0].partition(":"), words[1]
    if not colon:
        raise bad_word()
    window = room.by.index.window(room.payload)
    window.seek_handle(bytes_of(lower), number_of(seqno))
    window.upper_handle(bytes_of(upper))
    left = window.rest()
    return " ".join([f"{len(left)} left"] + [handle.word() for handle in left])


def all_handles(room, words):
    """The number of the handles, and their digest."""
    only(words, 0)
    return digest_line(room.by.index.handles(room.payload), "handles")


def take(room, words):
    """Takes the handles of the payload as the list."""
    only(words, 0)
    room.handles = room.by.index.handles(room.payload)
    return f"{len(room.handles)} handles"


COMMANDS = commands_of(
    {
        "index": encode,
        "walk_index": walk,
        "between": between,
        "handles_of": all_handles,
        "take_handles": take,
    }
)
