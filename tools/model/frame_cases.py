"""Commands on frames."""

import frames
from frames import Header
from room import only
from texts import commands_of, shown
from words import bad_word

KINDS = {"data": frames.DATA, "index": frames.INDEX, "filter": frames.FILTER, "meta": frames.META}


def text_of(header):
    """Returns the text of a header."""
    lengths = f"lengths {header.length} {header.uncompressed}"
    return f"{frames.TYPES[header.block_type]}, checksum {header.checksum}, {lengths}"


def frame(room, words):
    """Makes the payload its frame: TYPE."""
    kind = only(words, 1)[0]
    if kind not in KINDS:
        raise bad_word()
    room.payload = room.by.frames.write(room.payload, KINDS[kind])
    return text_of(Header(room.payload))


def bytes_for(room, words):
    """Returns the payload as it is, or with checksums that fit: `mended` and which."""
    if not words:
        return room.payload
    if len(words) != 2 or words[0] != "mended" or words[1] not in ("none", "header", "both"):
        raise bad_word()
    if words[1] == "none":
        return room.payload
    return frames.mended(room.by.hashing, room.payload, words[1])


def whole(room, words):
    """Reads the frame that all bytes of the payload are: its type, its checksum and its payload."""
    data = bytes_for(room, words)
    block_type, payload = room.by.frames.check(data)
    checksum = Header(data).checksum
    return f"{frames.TYPES[block_type]}, checksum {checksum}, payload {shown(payload)}"


COMMANDS = commands_of({"frame": frame, "whole": whole})
