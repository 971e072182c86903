"""Results of commands that refuse bytes, and what results show of many bytes."""

from words import Fault, fnv, hex_of

SHOWN = 100


class Refused(Exception):
    """The error of the first stage that fails. Its text is the name."""


def shown(data):
    """Returns bytes as hex digits, or their number and their digest if they are many."""
    return hex_of(data) if len(data) <= SHOWN else f"{len(data)} bytes {fnv(data):016x}"


def word_of_found(found):
    """Returns the word of an entry, or `none`."""
    return found.word() if found else "none"


def refusing(function):
    """Returns the command of a function, whose result is the error where bytes are refused."""

    def command(room, words):
        """Performs the command."""
        try:
            return function(room, words)
        except Refused as refused:
            raise Fault(f"Refused({refused})") from None

    return command


def commands_of(functions):
    """Returns the table of commands of functions that may refuse bytes."""
    return {name: refusing(function) for name, function in functions.items()}
