"""Commands on runs: how they are written, their check, point reads and scans, and footers."""

from room import only
from runs import FOOTER, Form, Range
from texts import commands_of, word_of_found
from words import Digest, bad_word, bytes_of, hex_of, number_of


def place_of(place):
    """Returns the text of a place."""
    return f"{place[0]} {place[1]}"


def places_text(places):
    """Returns the text of where an index and a filter are."""
    found = f"filter {place_of(places[1])}" if places[1] else "no filter"
    return f"index {place_of(places[0])}, {found}"


def run_of(room):
    """Returns the bytes of the run, and where its index and its filter are."""
    if room.places is None:
        raise bad_word()
    return room.payload, room.places


def write(room, words):
    """Writes the list as a run: INTERVAL NUM DEN BITS INDEX_INTERVAL CUT .."""
    if len(words) < 5:
        raise bad_word()
    limits = [256, 2**32, 2**32, 2**32, 256]
    form = Form(*[number_of(word, limit) for word, limit in zip(words, limits)])
    cuts = [number_of(word) for word in words[5:]]
    room.payload, room.places = room.by.runs.write(room.entries, cuts, form)
    return f"{len(room.payload)} bytes, {places_text(room.places)}"


def place_in(word):
    """Returns the place that a word encodes: offset and size, joined by a dot."""
    offset, _, size = word.partition(".")
    return number_of(offset), number_of(size, 2**32)


def set_places(room, words):
    """Sets where the index and the filter are: PLACE PLACE, or `-` for no filter."""
    index, found = only(words, 2)
    room.places = [place_in(index), None if found == "-" else place_in(found)]
    return places_text(room.places)


def verify(room, words):
    """The check of the run."""
    only(words, 0)
    found = room.by.runs.check(*run_of(room))
    keys = f"keys {hex_of(found.first)} to {hex_of(found.last)}"
    counts = f"{found.blocks} blocks, {found.entries} entries"
    return f"{counts}, {keys}, seqnos {found.least} to {found.greatest}"


def get(room, words):
    """A read of a sound run: KEY SEQNO."""
    key, seqno = only(words, 2)
    room.by.runs.check(*run_of(room))
    return word_of_found(room.by.runs.get(*run_of(room), bytes_of(key), number_of(seqno)))


def reads(room, words):
    """Reads of a sound run, of each key of the list below its sequence number and above it, and of
    a key after all; how many find one, and their digest."""
    only(words, 0)
    room.by.runs.check(*run_of(room))
    found, results = 0, Digest()
    queries = [(item.key, item.seqno + more) for item in room.entries for more in (0, 1)]
    for key, seqno in queries + [(b"zz", 2**64 - 1)]:
        result = word_of_found(room.by.runs.get(*run_of(room), key, seqno % 2**64))
        found += result != "none"
        results.add(result)
    return f"{len(queries) + 1} reads, {found} found, {results}"


def fetch(room, words):
    """A checked read of a run that may be damaged: KEY SEQNO."""
    key, seqno = only(words, 2)
    return word_of_found(room.by.runs.fetch(*run_of(room), bytes_of(key), number_of(seqno)))


def bound_of(word, included, excluded):
    """Returns the bound of a word: `*`, or a key and one of two marks."""
    if word == "*":
        return None
    key, mark = (word[1:], word[0]) if word[0] in "[(" else (word[:-1], word[-1])
    if mark not in (included, excluded):
        raise bad_word()
    return mark == included, bytes_of(key)


def scan(room, words):
    """Scans a sound run: START END STEPS, where `n` takes the first entry left, another letter the
    last."""
    start, end, steps = only(words, 3)
    room.by.runs.check(*run_of(room))
    keys = Range(bound_of(start, "[", "("), bound_of(end, "]", ")"))
    window = room.by.runs.scan(*run_of(room), keys)
    takes = [window.next if letter == "n" else window.back for letter in steps]
    return " ".join(word_of_found(take()) for take in takes)


def end(room, words):
    """Appends the footer of the run."""
    only(words, 0)
    room.payload += room.by.runs.footer(run_of(room)[1])
    return f"{len(room.payload)} bytes"


def footer(room, words):
    """Reads the payload as a footer."""
    only(words, 0)
    return places_text(room.by.runs.read_footer(room.payload[:FOOTER]))


def open_file(room, words):
    """Takes the places that the footer at the end of the payload names, and the run before it."""
    only(words, 0)
    room.places = room.by.runs.read_footer(room.payload[-FOOTER:])
    room.payload = room.payload[:-FOOTER]
    return places_text(room.places)


COMMANDS = commands_of(
    {
        "run": write,
        "places": set_places,
        "verify": verify,
        "get": get,
        "reads": reads,
        "fetch": fetch,
        "scan": scan,
        "end": end,
        "footer": footer,
        "open": open_file,
    }
)
