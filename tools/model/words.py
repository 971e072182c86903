"""Words of a case: numbers, byte strings and digests."""


class Fault(Exception):
    """Why a command has no result. Its text is the result."""


def bad_word():
    """Returns the fault of a word that is none."""
    return Fault("Word")


def number_of(word, limit=1 << 64):
    """Returns the number below a limit that a word encodes in decimal digits."""
    if not word.isascii() or not word.isdigit() or int(word) >= limit:
        raise bad_word()
    return int(word)


def part_of(part):
    """Returns the bytes of a part of a word: hex digits, or hex digits, `*` and how often."""
    digits, star, times = part.partition("*")
    try:
        return bytes.fromhex(digits) * (number_of(times) if star else 1)
    except ValueError:
        raise bad_word() from None


def bytes_of(word):
    """Returns the byte string that a word encodes: parts joined by `+`, or `-` for none."""
    if word == "-":
        return b""
    return b"".join(part_of(part) for part in word.split("+"))


def hex_of(data):
    """Returns bytes as hex digits, or `-` for none."""
    return data.hex() or "-"


def truth(value):
    """Returns the word of a truth value."""
    return "true" if value else "false"


def fnv(data, state=0xCBF29CE484222325):
    """Returns the FNV-1a hash of bytes, of 64 bits, which goes on from a state."""
    for byte in data:
        state = ((state ^ byte) * 0x100000001B3) & 0xFFFFFFFFFFFFFFFF
    return state


class Digest:
    """A digest of texts, one after the other."""

    def __init__(self):
        self.state = fnv(b"")

    def add(self, text):
        """Adds a text."""
        state = fnv(text.encode(), self.state)
        self.state = (state * 31 + 1) & 0xFFFFFFFFFFFFFFFF

    def __str__(self):
        return f"{self.state:016x}"


def digest_line(items, name):
    """How many items there are, and the digest of their words."""
    total = Digest()
    for item in items:
        total.add(item.word())
    return f"{len(items)} {name}, {total}"
