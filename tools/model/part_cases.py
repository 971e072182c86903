"""Commands on tables in parts: how they are written, their check, scans and reads, merges into parts, and what each
change of one gives."""

from frames import META
from part_changes import changes_of, handles_in, parts_end
from parts import LATEST, Scan, Sizes, joined, stat_word, topped
from room import only
from texts import Refused, commands_of, shown, word_of_found
from words import Digest, Fault, bad_word, bytes_of, digest_line, fnv, hex_of, number_of

# What is taken where a word is `-`.
DEFAULTS = [0, 4096, 16, 10]
LIMITS = [2**64, 2**64, 256, 2**32]


def sizes_of(words):
    """Returns the sizes of words: PART BLOCK INTERVAL BITS, where `-` stands for what the program takes."""
    numbers = zip(only(words, 4), LIMITS, DEFAULTS)
    return Sizes(*[value if word == "-" else number_of(word, limit) for word, limit, value in numbers])


def taken(room, data):
    """Takes bytes as the payload. Returns their number and their hash."""
    room.payload = data
    return f"{len(data)} bytes {fnv(data):016x}"


def write(room, words):
    """Writes the list as a table in parts: PART BLOCK INTERVAL BITS."""
    return taken(room, room.by.parts.write(room.entries, sizes_of(words)))


def file_of(room, word):
    """Returns the bytes of a file that was saved."""
    if word.encode() not in room.files:
        raise Fault("Io")
    return room.files[word.encode()]


def join(room, words):
    """Joins files to a table in parts, whatever their order: NAME .."""
    return taken(room, joined(room.by.hashing, [file_of(room, word) for word in words]))


def words_of(items):
    """Returns the words of items, or their number and their digest if they are many."""
    return " ".join(item.word() for item in items) if len(items) <= 8 else digest_line(items, "items")


def take_handles(room, words):
    """Takes the handles of the index of the parts."""
    only(words, 0)
    room.handles = handles_in(room.payload)
    return words_of(room.handles)


def put_handles(room, words):
    """Writes the index of the parts anew, of the handles, and the footer: INTERVAL, or INTERVAL TYPE."""
    numbers = [number_of(word, 256) for word in only(words if len(words) == 2 else [*words, str(META)], 2)]
    data = room.payload[: parts_end(room.payload)]
    return taken(room, topped(room.by.hashing, data, room.handles, *numbers))


def word_of_answer(answer):
    """Returns the word of a verdict, or the name of an error."""
    return f"Refused({answer})" if isinstance(answer, Refused) else answer.word()


def verify(room, words):
    """The check of the table."""
    only(words, 0)
    return word_of_answer(room.by.parts.check([room.payload])[0])


def scan_of(words):
    """Returns the scan of words: `from:KEY`, `to:KEY`, `prefix:KEY`, `at:SEQNO`, `limit:N`, `back`."""
    scan, keys = Scan(), {"from": "start", "to": "end", "prefix": "prefix"}
    for word in words:
        name, _, value = word.partition(":")
        if name in keys:
            setattr(scan, keys[name], bytes_of(value))
        elif name in ("at", "limit"):
            setattr(scan, name, number_of(value))
        elif word == "back":
            scan.is_back = True
        else:
            raise bad_word()
    return scan


def scanned(room, asked):
    """Returns the entries of a scan."""
    items, refused = room.by.parts.scan(room.payload, asked)
    if refused is not None:
        raise refused
    return items


def scan(room, words):
    """Scans the table: from:KEY, to:KEY, prefix:KEY, at:SEQNO, limit:N, back."""
    return words_of(scanned(room, scan_of(words))) or "none"


def bounds_of(room, stride):
    """Returns the bounds of scans: none, each key of the list by a stride, and the next greater one."""
    keys = sorted({item.key for item in room.entries})[::stride]
    return [None] + [key + more for key in keys for more in (b"", b"\0")]


def scans(room, words):
    """Scans from both ends, of all ranges between keys: STRIDE SEQNO .., where `-` stands for all versions. How many
    scans there are, how many entries they give, and a digest."""
    if not words:
        raise bad_word()
    stride, *seqnos = words
    count, found, results = 0, 0, Digest()
    bounds = bounds_of(room, number_of(stride))
    for at in seqnos:
        for start, end, is_back in [(a, b, c) for a in bounds for b in bounds for c in (False, True)]:
            asked = Scan()
            asked.start, asked.end, asked.is_back = start, end, is_back
            asked.at = None if at == "-" else number_of(at)
            items = scanned(room, asked)
            count, found = count + 1, found + len(items)
            results.add(" ".join(item.word() for item in items))
    return f"{count} scans, {found} entries, {results}"


def get(room, words):
    """Reads a key: KEY for its newest version, KEY SEQNO for the newest below that."""
    key, *at = words if len(words) == 2 else only(words, 1)
    seqno = number_of(at[0]) if at else None
    return word_of_found(room.by.parts.get(room.payload, bytes_of(key), seqno))


def gets(room, words):
    """Reads of each key of the list and of one after it: the newest version, those below the number of each version
    and above it. How many find one, and a digest."""
    only(words, 0)
    keys = sorted({item.key for item in room.entries})
    queries = [(key + more, None) for key in keys for more in (b"", b"\0")]
    queries += [(item.key, item.seqno + more) for item in room.entries for more in (0, 1)]
    found, results = 0, Digest()
    for key, at in queries:
        result = word_of_found(room.by.parts.get(room.payload, key, at and at % 2**64))
        found += result != "none"
        results.add(result)
    return f"{len(queries)} reads, {found} found, {results}"


def index(room, words):
    """The handles of the parts."""
    only(words, 0)
    return words_of(room.by.parts.index(room.payload))


def block_text(block):
    """Returns the words of a block."""
    offset, size, count, first, last = block
    return f"{offset}.{size}.{count}.{hex_of(first)}.{hex_of(last)}"


def layout(room, words):
    """The parts and their blocks: offset and size, and of each block offset, size, entries, first and last key."""
    only(words, 0)
    found = room.by.parts.layout(room.payload)
    text = " ".join(f"{at}.{size}: " + " ".join(map(block_text, blocks)) for at, size, blocks in found)
    return text if len(text) <= 1000 else f"{len(found)} parts {fnv(text.encode()):016x}"


def stat(room, words):
    """What the table holds."""
    only(words, 0)
    return stat_word(room.by.parts.stat(room.payload))


def snapshots_of(word):
    """Returns the snapshots of a word: numbers joined by commas, `-` for none, or `latest`, which sees all."""
    if word in ("-", "latest"):
        return [] if word == "-" else [LATEST]
    return [number_of(part) for part in word.split(",")]


def merge(room, words):
    """Merges files into a table in parts: PART BLOCK INTERVAL BITS SNAPSHOTS LEVEL NAME .., the newest first."""
    if len(words) < 7 or words[5] not in ("above", "bottom"):
        raise bad_word()
    snapshots = snapshots_of(words[4])
    files = [file_of(room, word) for word in words[6:]]
    data = room.by.parts.merge(files, sizes_of(words[:4]), snapshots, words[5] == "bottom")
    return "none" if data is None else taken(room, data)


def checked(room, changes, words):
    """Returns the answers of a check to changes."""
    only(words, 0)
    return [word_of_answer(answer) for answer in room.by.parts.check(changes)]


def sound_each(room, changes, words):
    """Returns the answers of a check to changes, without the names of errors."""
    only(words, 0)
    answers = room.by.parts.check(changes)
    return ["Refused()" if isinstance(answer, Refused) else answer.word() for answer in answers]


def is_part_of(some, whole):
    """Returns whether items stand in a list in their order."""
    left = iter(whole)
    return all(item in left for item in some)


def owned_each(room, changes, words):
    """Returns of each change whether a scan gives entries of the table alone, in their order."""
    asked = scan_of(words)
    whole = [item.word() for item in scanned(room, asked)]
    given = [room.by.parts.scan(data, asked)[0] for data in changes]
    return ["own" if is_part_of([item.word() for item in items], whole) else "other" for items in given]


def scan_answer(room, data, asked, whole):
    """Returns the answer of a scan to a change: its entries, or the error, before which the first of the table are
    given and no others."""
    items, refused = room.by.parts.scan(data, asked)
    given = [item.word() for item in items]
    if refused is None:
        return words_of(items)
    return f"Refused({refused})" if given == whole[: len(given)] else "another entry"


def scanned_each(room, changes, words):
    """Returns the answers of a scan to changes."""
    asked = scan_of(words)
    whole = [item.word() for item in scanned(room, asked)]
    return [scan_answer(room, data, asked, whole) for data in changes]


def get_answer(room, data, key, seqno):
    """Returns the answer of a read to a change."""
    try:
        return word_of_found(room.by.parts.get(data, key, seqno))
    except Refused as refused:
        return f"Refused({refused})"


def read_each(room, changes, words):
    """Returns the answers of a read to changes."""
    key, seqno = only(words, 2)
    return [get_answer(room, data, bytes_of(key), number_of(seqno)) for data in changes]


def asked_each(ask):
    """Returns the read of changes that asks for what is told in words."""

    def answer(data, room):
        """Returns the answer to a change."""
        try:
            return ask(room, data)
        except Refused as refused:
            return f"Refused({refused})"

    def answers(room, changes, words):
        """Returns the answers to changes."""
        only(words, 0)
        return [answer(data, room) for data in changes]

    return answers


# How a merge writes the table of a change: as one part.
ONE_PART = Sizes(2**63, 64, 16, 10)

READS = {
    "check": checked,
    "sound": sound_each,
    "own": owned_each,
    "scan": scanned_each,
    "get": read_each,
    "index": asked_each(lambda room, data: words_of(room.by.parts.index(data))),
    "stat": asked_each(lambda room, data: stat_word(room.by.parts.stat(data))),
    "salvage": asked_each(lambda room, data: words_of(room.by.parts.salvage(data)) or "none"),
    "merge": asked_each(lambda room, data: shown(room.by.parts.merge([data], ONE_PART, [], False))),
}


def name_of(answer):
    """Returns the name of an error, or what else an answer is."""
    if answer.startswith("Refused("):
        return answer[8:-1] or "refused"
    return answer if answer in ("own", "other") else "accepted"


def changes(room, words):
    """What is read of each change: KIND AREA READ .. How many changes there are, which answers the most, and a digest
    of all answers."""
    if len(words) < 3 or words[2] not in READS:
        raise bad_word()
    made = list(changes_of(room.by.hashing, room.payload, words[0], words[1]))
    answers, results, counts = READS[words[2]](room, made, words[3:]), Digest(), {}
    for answer in answers:
        name = name_of(answer)
        counts[name] = counts.get(name, 0) + 1
        results.add(answer)
    shares = " ".join(f"{name}:{counts[name]}" for name in sorted(counts))
    return f"{len(answers)} changes, {shares}, {results}"


COMMANDS = commands_of(
    {
        "part_write": write,
        "part_join": join,
        "part_handles": take_handles,
        "part_top": put_handles,
        "part_check": verify,
        "part_scan": scan,
        "part_scans": scans,
        "part_get": get,
        "part_gets": gets,
        "part_index": index,
        "part_layout": layout,
        "part_stat": stat,
        "part_merge": merge,
        "part_changes": changes,
    }
)
