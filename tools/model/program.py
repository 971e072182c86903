"""The program `sst`: its words, entry lines and commands, on files by their names
(crates/sst/README.md)."""

import entries
import runs
from blocks import Encoded
from entries import Entry, is_ordered
from frames import DATA, FILTER, INDEX, in_file
from hashes import Poly31
from texts import Refused

NUMBERS = {
    "Io": 1,
    "InvalidHeader": 2,
    "InvalidTag": 3,
    "ChecksumMismatch": 4,
    "LengthMismatch": 5,
    "TooLong": 6,
    "Truncated": 7,
    "BadTrailer": 8,
    "BadEntry": 9,
    "OutOfOrder": 10,
    "BadIndex": 11,
    "BadHashIndex": 12,
    "BadFilter": 13,
    "BadHandle": 14,
}


class Failed(Exception):
    """A fault of the program. Its text is the line without its end."""


def usage():
    """Returns the fault of words that are no command."""
    return Failed("sst: usage")


def failed_by(refused):
    """Returns the fault of bytes that are refused."""
    return Failed(f"sst: E{NUMBERS[str(refused)]} {refused}")


def number_in(text, least, limit):
    """Returns the number of decimal digits, at least a least one and below a limit, or None."""
    if not text or not all(byte in b"0123456789" for byte in text):
        return None
    number = int(text)
    return number if least <= number < limit else None


def bytes_in(text):
    """Returns the bytes of hex digits, `-` for none, or None."""
    if text == b"-":
        return b""
    if not text or len(text) % 2 or not all(byte in b"0123456789abcdefABCDEF" for byte in text):
        return None
    return bytes.fromhex(text.decode())


def entry_in(line):
    """Returns the entry of a line, or None."""
    parts = line.split(b" ")
    if len(parts) != 4 or parts[0] not in (b"V", b"T", b"W", b"I"):
        return None
    seqno, key, value = number_in(parts[1], 0, 2**64), bytes_in(parts[2]), bytes_in(parts[3])
    if seqno is None or not key or len(key) > entries.MOST_KEY or value is None:
        return None
    return Entry(parts[0].decode(), seqno, key, value)


def line_of(entry):
    """Returns the line of an entry."""
    return entry.word().replace(".", " ").encode() + b"\n"


def lines_in(text):
    """Returns the lines of a text. The last one may lack its end."""
    lines = text.split(b"\n")
    return lines[:-1] if lines[-1] == b"" else lines


def entries_in(text):
    """Returns the entries of an input, which are in order."""
    items = []
    for number, line in enumerate(lines_in(text), 1):
        items.append(entry_in(line))
        if items[-1] is None:
            raise Failed(f"sst: line {number}: entry")
    if not items:
        raise Failed("sst: no entries")
    for at in range(1, len(items)):
        if not is_ordered(items[at - 1 : at + 1]):
            raise Failed(f"sst: line {at + 1}: order")
    return items


def answer_of(found):
    """Returns what is printed of an entry that was found."""
    return line_of(found) if found else b"none\n"


def parsed(words, forms):
    """Returns what words stand for by the forms of each, or a fault."""
    if len(words) != len(forms):
        raise usage()
    found = [form(word) for word, form in zip(words, forms)]
    if any(part is None for part in found):
        raise usage()
    return found


def number(least, limit):
    """Returns the form of a number."""
    return lambda word: number_in(word, least, limit)


def name(word):
    """The form of a name."""
    return word


INTERVAL, SIZE, SOME, SEQNO = number(1, 256), number(0, 2**32), number(1, 2**32), number(0, 2**64)


class Program:
    """A run of the program: the files by their names, the input, and what is printed."""

    def __init__(self, files, text):
        self.files, self.input, self.output = files, text, b""

    def point(self, words):
        """Prints a block and the first match of a key in it."""
        interval, key, seqno = parsed(words, [INTERVAL, bytes_in, SEQNO])
        items = entries_in(self.input)
        self.output += Encoded(entries, items, interval).payload.hex().encode() + b"\n"
        self.output += answer_of(runs.first_match(items, key, seqno))

    def pack(self, words):
        """Writes a table file."""
        forms = [name, INTERVAL, SIZE, SOME, SIZE, SOME]
        forms += [INTERVAL] * (len(words) == 7)
        file, interval, num, den, bits, each, *more = parsed(words, forms)
        items = entries_in(self.input)
        blocks = [items[at : at + each] for at in range(0, len(items), each)]
        form = runs.Form(interval, num, den, bits, more[0] if more else 1)
        data, places = runs.write(Poly31, blocks, form)
        if b"/" in file or not file:
            raise Refused("Io")
        data += runs.footer_of(places)
        self.files[file] = data
        counts = f"packed {len(items)} entries in {len(blocks)} blocks, {len(data)} bytes\n"
        self.output += counts.encode()

    def opened(self, file):
        """Returns the bytes of a file, and the places that its footer names."""
        if file not in self.files:
            raise Refused("Io")
        data = self.files[file]
        return data, runs.read_footer(data[-runs.FOOTER :])

    def get(self, words):
        """Prints the first match of a key in a table file."""
        file, key, seqno = parsed(words, [name, bytes_in, SEQNO])
        data, places = self.opened(file)
        self.output += answer_of(runs.fetch(FileReader(data), places, key, seqno))

    def walk(self, words):
        """Prints all entries, each block after its check."""
        data, places = self.opened(parsed(words, [name])[0])
        reader = FileReader(data)
        for handle in reader.read(places[0], INDEX):
            for item in reader.read((handle.offset, handle.size), DATA):
                self.output += line_of(item)

    def check(self, words):
        """Checks each frame of a table file by itself."""
        data, places = self.opened(parsed(words, [name])[0])
        reader = FileReader(data)
        if places[1]:
            reader.read(places[1], FILTER)
        named = reader.read(places[0], INDEX)
        count = sum(len(reader.read((handle.offset, handle.size), DATA)) for handle in named)
        self.output += f"ok {len(named)} blocks {count} entries\n".encode()

    def run(self, words):
        """Runs the command of some words. Returns the line of a fault, or nothing."""
        commands = {b"point": self.point, b"pack": self.pack, b"get": self.get}
        commands.update({b"walk": self.walk, b"check": self.check})
        try:
            if not words or words[0] not in commands:
                raise usage()
            commands[words[0]](words[1:])
        except Refused as refused:
            return f"{failed_by(refused)}\n".encode()
        except Failed as fault:
            return f"{fault}\n".encode()
        return b""


class FileReader(runs.Reader):
    """A reader of a file of the system."""

    def __init__(self, data):
        super().__init__(Poly31, data, in_file)
