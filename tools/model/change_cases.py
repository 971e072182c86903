"""Commands performed with each change of the payload."""

import filter_cases
import frame_cases
import run_cases
from check_cases import changes_of, longer
from words import Digest, Fault, bad_word

CHANGED = {**frame_cases.COMMANDS, **filter_cases.COMMANDS, **run_cases.COMMANDS}


def flips_of(data):
    """Yields each change of a single bit: bytes cut before each byte, with each of its bits
    changed, and the longer ones."""
    for at in range(len(data)):
        yield data[:at]
        for bit in range(8):
            yield data[:at] + bytes([data[at] ^ 1 << bit]) + data[at + 1 :]
    yield from longer(data)


def answer_of(room, words):
    """Returns whether the answer to a command is no error, and the answer."""
    try:
        return True, CHANGED[words[0]](room, words[1:])
    except Fault as fault:
        return False, str(fault)


def summary(room, words, changes):
    """Returns how many answers to a command are no errors, and a digest of all answers."""
    if not words or words[0] not in CHANGED:
        raise bad_word()
    payload, accepted, results = room.payload, 0, Digest()
    try:
        for room.payload in changes(payload):
            is_accepted, result = answer_of(room, words)
            accepted += is_accepted
            results.add(result)
    finally:
        room.payload = payload
    return f"{accepted} accepted, {results}"


def each(room, words):
    """A command with each change of the payload: COMMAND WORD .."""
    return summary(room, words, changes_of)


def flips(room, words):
    """A command with each change of a single bit of the payload: COMMAND WORD .."""
    return summary(room, words, flips_of)


COMMANDS = {"each": each, "flips": flips}
