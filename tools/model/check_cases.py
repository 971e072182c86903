"""Commands that check bytes as blocks, and all changes of them."""

from room import only
from texts import Refused
from words import Digest, bad_word, number_of


def result_of(room, payload, kind):
    """Returns the result of a check as a block of a kind: the number of items, or the error."""
    kinds = {"data": room.by.data, "index": room.by.index}
    if kind not in kinds:
        raise bad_word()
    try:
        return str(kinds[kind].check(payload))
    except Refused as error:
        return str(error)


def check(room, words):
    """The check of the payload, as it is or with a byte changed: KIND, or KIND AT BYTE."""
    if len(words) == 1:
        return result_of(room, room.payload, words[0])
    kind, at, byte = only(words, 3)
    payload = bytearray(room.payload)
    if number_of(at) >= len(payload):
        raise bad_word()
    payload[number_of(at)] = number_of(byte, 256)
    return result_of(room, bytes(payload), kind)


def longer(payload):
    """Yields the payload with 1 and 40 more bytes after it: all 0, all 255, or its last ones
    again."""
    for tail in [bytes(40), b"\xff" * 40, bytes(40) + payload]:
        yield payload + tail[-1:]
        yield payload + tail[-40:]


def changes_of(payload):
    """Yields each change of a payload: cut before each byte, each byte changed to each other value,
    and longer by 1 and 40 bytes."""
    for at in range(len(payload)):
        yield payload[:at]
        for by in range(1, 256):
            changed = bytearray(payload)
            changed[at] ^= by
            yield bytes(changed)
    yield from longer(payload)


def summary(room, payloads, kind):
    """Returns how many payloads are accepted, and a digest of all results."""
    accepted, results = 0, Digest()
    for payload in payloads:
        result = result_of(room, payload, kind)
        accepted += result.isdigit()
        results.add(result)
    return f"{accepted} accepted, {results}"


def changes(room, words):
    """The checks of all changes of the payload: KIND."""
    return summary(room, changes_of(room.payload), only(words, 1)[0])


def cuts(room, words):
    """The checks of the payload cut before each byte: KIND."""
    payload = room.payload
    return summary(room, (payload[:end] for end in range(len(payload))), only(words, 1)[0])


COMMANDS = {"check": check, "changes": changes, "cuts": cuts}
