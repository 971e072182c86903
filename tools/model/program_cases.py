"""Commands that run the program `sst` on files."""

from room import only
from words import bad_word, bytes_of, fnv, hex_of

SHOWN = 1000
PLAIN = {ord("_"): 32, ord("~"): 10}


def plain_text(part):
    """Returns the text of a part in which `_` is a space and `~` an end of line."""
    return bytes(PLAIN.get(byte, byte) for byte in part.encode())


def text_in(word):
    """Returns the text of a word: `_` is a space and `~` an end of line, and between `<` and `>`
    stand bytes. The word `-` is no text."""
    if word == "-":
        return b""
    first, *others = word.split("<")
    text = plain_text(first)
    for part in others:
        code, mark, rest = part.partition(">")
        if not mark:
            raise bad_word()
        text += bytes_of(code) + plain_text(rest)
    return text


def letter_of(byte):
    """Returns a byte as it stands in the word of a text."""
    if byte in b" \n":
        return "_" if byte == 32 else "~"
    is_plain = 33 <= byte <= 125 and byte not in b"_<>"
    return chr(byte) if is_plain else f"<{byte:02x}>"


def word_of_text(text):
    """Returns the word of a text, or its length and its digest if it is long."""
    if len(text) > SHOWN:
        return f"{len(text)} bytes {fnv(text):016x}"
    return "".join(letter_of(byte) for byte in text)


def sst(room, words):
    """Runs the program: WORDS, on the input that was set, or WORDS INPUT."""
    if len(words) not in (1, 2):
        raise bad_word()
    text = text_in(words[0])
    given = text_in(words[1]) if len(words) == 2 else room.input
    output, faults = room.by.program.run(room.files, text.split(b" ") if text else [], given)
    return " ".join(word_of_text(part) for part in [output, faults] if part)


def lines(room, words):
    """Makes the lines of the list the input."""
    only(words, 0)
    text = ""
    for item in room.entries:
        text += f"{item.letter} {item.seqno} {hex_of(item.key)} {hex_of(item.value)}\n"
    room.input = text.encode()
    return word_of_text(room.input)


COMMANDS = {"sst": sst, "lines": lines}
