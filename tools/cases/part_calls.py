"""Tables in parts, by the program `sstool` as it is built, on files in a folder of their own. An error is told by the
line that the program prints of it."""

import json
import os
import re
import subprocess
import tempfile

from entries import Entry
from handles import Handle
from hashes import NAMES
from parts import LATEST, STAT, Scan, Verdict
from texts import Refused
from words import hex_of

# The names of the errors by what the program prints of them.
ERRORS = {
    r"(beyond the end of the file.*|input or output failed|.*\(os error \d+\))": "Io",
    r"not a header of a \w+": "InvalidHeader",
    r"\d+ is no tag of a \w+": "InvalidTag",
    r"checksum is [0-9a-f]{32}, expected [0-9a-f]{32}": "ChecksumMismatch",
    r"lengths differ": "LengthMismatch",
    r"too long": "TooLong",
    r"truncated": "Truncated",
    r"bad trailer": "BadTrailer",
    r"bad entry": "BadEntry",
    r"out of order": "OutOfOrder",
    r"bad binary index": "BadIndex",
    r"bad hash index": "BadHashIndex",
    r"bad filter": "BadFilter",
    r"bad handle": "BadHandle",
}

SOUND = re.compile(r"(?:(.+): )?ok (?:(\d+) parts? )?(\d+) blocks? (\d+) entr(?:y|ies)")
WARNING = re.compile(r"sstool: warning: (.+): (\d+) bytes? at offset (\d+) belongs? to no block")
PART = re.compile(r"(?:part|block) \d+ at offset (\d+): (\d+) bytes, (?:up to (\S+) at (\d+)|\d+ blocks?)")
BLOCK = re.compile(r"block \d+ at offset (\d+): (\d+) bytes, ok, (\d+) entr(?:y|ies), (\S+) to (\S+)")

# Where files are in memory, if there is such a folder: many are written, and each is read at once.
MEMORY = "/dev/shm"

# How many files one run of the program checks.
AT_ONCE = 400


class Broken(Exception):
    """What the program printed is not understood."""


def error_in(line):
    """Returns the refusal of a line of the program."""
    for form, name in ERRORS.items():
        if re.fullmatch(rf"sstool: .*?{form}", line):
            return Refused(name)
    return Refused(line)


def key_word(key):
    """Returns a key as the program takes it."""
    return "hex:" + key.hex()


def bytes_shown(word):
    """Returns the bytes that the program shows as a word."""
    if word == "-":
        return b""
    return bytes.fromhex(word[4:]) if word.startswith("hex:") else word.encode()


def matched(form, line):
    """Returns the groups of a line of a form."""
    found = form.fullmatch(line)
    if found is None:
        raise Broken(line)
    return found.groups()


def bytes_in_line(word):
    """Returns the bytes of a word of a line of entries: hex digits, or `-`."""
    return b"" if word == "-" else bytes.fromhex(word)


def entry_in(line, bytes_in):
    """Returns the entry of a line, whose byte strings are read so."""
    letter, seqno, key, value = line.split(" ")
    return Entry(letter, int(seqno), bytes_in(key), bytes_in(value))


def sizes_words(sizes):
    """Returns the words of sizes."""
    form = sizes.form
    words = ["--part", sizes.part, "--block", sizes.block, "--interval", form.interval, "--bits", form.bits_per_key]
    return [str(word) for word in words]


def scan_words(asked):
    """Returns the words of a scan."""
    words = ["--reverse"] if asked.is_back else []
    for name, key in [("--from", asked.start), ("--to", asked.end), ("--prefix", asked.prefix)]:
        words += [] if key is None else [name, key_word(key)]
    for name, number in [("--at", asked.at), ("--limit", asked.limit)]:
        words += [] if number is None else [name, str(number)]
    return words


class Parts:
    """Tables in parts, by the program."""

    def __init__(self, program, hashing):
        self.program, self.hash = os.path.abspath(program), NAMES[hashing]
        self.room = tempfile.TemporaryDirectory(dir=MEMORY if os.path.isdir(MEMORY) else None)
        self.kept = None

    def path(self, name):
        """Returns the path of a file."""
        return os.path.join(self.room.name, name)

    def put(self, name, data):
        """Writes a file."""
        with open(self.path(name), "wb") as file:
            file.write(data)

    def run(self, words, given=b""):
        """Runs the program. Returns its status, the lines that it prints, and those of errors and warnings."""
        ran = subprocess.run([self.program, *words], cwd=self.room.name, input=given, capture_output=True, check=False)
        if ran.returncode not in (0, 1, 3):
            raise Broken(f"status {ran.returncode}: {ran.stderr.decode()}")
        return ran.returncode, ran.stdout.decode().splitlines(), ran.stderr.decode().splitlines()

    def demand(self, words, given=b""):
        """Runs the program, which has to print no error. Returns the lines that it prints."""
        status, lines, said = self.run(words, given)
        if status == 1:
            raise error_in(said[-1])
        return lines

    def ask(self, data, command, *words):
        """Runs a command on a table. Returns status, lines, and lines of errors."""
        if self.kept is not data:
            self.put("table", data)
            self.kept = data
        return self.run([command, "table", *words])

    def answer(self, data, command, *words):
        """Runs a command on a table, which has to print no error. Returns the lines that it prints."""
        status, lines, said = self.ask(data, command, *words)
        if status != 0:
            raise error_in(said[-1])
        return lines

    def made(self, words, given=b""):
        """Returns the table that a command makes, or None where no entry is left."""
        status, _, said = self.run([*words, "--force", "-o", "made"], given)
        if status == 1:
            raise error_in(said[-1])
        if status == 3:
            return None
        with open(self.path("made"), "rb") as file:
            return file.read()

    def write(self, items, sizes):
        """Returns the table of a list."""
        lines = [f"{item.letter} {item.seqno} {hex_of(item.key)} {hex_of(item.value)}\n" for item in items]
        return self.made(["pack", *sizes_words(sizes), "--hash", self.hash], "".join(lines).encode())

    def check(self, files):
        """Returns the verdict of each of some files."""
        found = []
        for first in range(0, len(files), AT_ONCE):
            found += self.check_some(files[first : first + AT_ONCE])
        return found

    def check_some(self, files):
        """Returns the verdicts of one run of the program over files."""
        names = [f"t{number}" for number in range(len(files))]
        for name, data in zip(names, files):
            self.put(name, data)
        _, lines, said = self.run(["check", *names])
        verdicts = {}
        for line in lines:
            name, parts, *counts = matched(SOUND, line)
            verdicts[name or names[0]] = Verdict(parts and int(parts), *map(int, counts), [])
        for line in said:
            is_warning = line.startswith("sstool: warning: ")
            if is_warning:
                name, size, offset = matched(WARNING, line)
                verdicts.setdefault(name, Verdict(None, 0, 0, [])).gaps.append((int(offset), int(size)))
            elif line.split(": ")[1] in names:
                verdicts[line.split(": ")[1]] = error_in(line)
        return [verdicts[name] for name in names]

    def scan(self, data, asked):
        """Returns the entries of a scan, and why it ends before its end, if it does."""
        status, lines, said = self.ask(data, "scan", *scan_words(asked))
        return [entry_in(line, bytes_in_line) for line in lines], error_in(said[-1]) if status else None

    def get(self, data, key, at):
        """Returns the newest version of a key, below a sequence number if there is one, or None."""
        line = self.answer(data, "get", key_word(key), *([] if at is None else ["--at", str(at)]))[0]
        return None if line == "none" else entry_in(line, bytes_shown)

    def index(self, data):
        """Returns the handles of the parts, or of the blocks of a table that is not in parts."""
        named = []
        for line in self.answer(data, "index"):
            offset, size, key, seqno = matched(PART, line)
            named.append(Handle(int(seqno), bytes_shown(key), int(offset), int(size)))
        return named

    def layout(self, data):
        """Returns the offset and the size of each part of a sound table, and the offset, the size, the number of
        entries, and the first and the last key of each of its blocks."""
        found = []
        for line in self.answer(data, "blocks"):
            if line.startswith("part "):
                offset, size, *_ = matched(PART, line)
                found.append((int(offset), int(size), []))
                continue
            *numbers, first, last = matched(BLOCK, line)
            found[-1][2].append((*map(int, numbers), bytes_shown(first), bytes_shown(last)))
        return found

    def stat(self, data):
        """Returns what a sound table holds."""
        found = json.loads(self.answer(data, "stat", "--json")[0])
        if list(found) != STAT:
            raise Broken(f"the members are {list(found)}")
        return list(found.values())

    def merge(self, files, sizes, snapshots, is_bottom):
        """Returns the table of a merge of tables, the newest first, or None where no entry is left."""
        names = [f"m{number}" for number in range(len(files))]
        for name, data in zip(names, files):
            self.put(name, data)
        words = [word for seqno in snapshots for word in ("--snapshot", str(seqno))]
        words = ["--latest"] if snapshots == [LATEST] else words
        words += ["--bottom"] if is_bottom else []
        return self.made(["merge", *names, *sizes_words(sizes), *words])

    def salvage(self, data):
        """Returns the entries of the whole blocks of a table that may be damaged."""
        self.put("damaged", data)
        saved = self.made(["salvage", "damaged"])
        return [] if saved is None else self.scan(saved, Scan())[0]
