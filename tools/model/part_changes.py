"""Changes of a table in parts, by kinds and areas. They ask nothing of the library; the table is whole before."""

import handles
from blocks import check
from frames import HEADER, mended
from handles import Handle
from parts import topped
from runs import FOOTER, read_footer
from words import bad_word, number_of

# What is put in between bytes.
PUT_IN = [b"\0", b"\xff", b"LSM"]


def parts_end(data):
    """Returns the offset of the index of the parts, behind them."""
    return read_footer(data[-FOOTER:])[0][0]


def handles_in(data):
    """Returns the handles of the index of the parts."""
    offset, size = read_footer(data[-FOOTER:])[0]
    return check(handles, data[offset + HEADER : offset + size], None)[0]


def area_of(data, word):
    """Returns the offsets of the bytes of an area: `top`, the index of the parts; `foot`, the place of that in the
    footer; `zeros`, the rest of the footer; `feet`, the footers of the parts; `all`; or START:END."""
    offset, end = parts_end(data), len(data)
    if word == "feet":
        ends = [named.offset + named.size for named in handles_in(data)]
        return [at for behind in ends for at in range(behind - FOOTER, behind)]
    areas = {"top": (offset, end - FOOTER), "foot": (end - FOOTER, end - 12), "zeros": (end - 12, end)}
    areas["all"] = (0, end)
    if word in areas:
        return range(*areas[word])
    start, colon, end = word.partition(":")
    if not colon:
        raise bad_word()
    return range(number_of(start), number_of(end))


def flipped(data, area, bits):
    """Yields bytes with each of some bits of each byte of an area changed."""
    for at in area:
        for bit in bits:
            yield data[:at] + bytes([data[at] ^ 1 << bit]) + data[at + 1 :]


def flips(hashing, data, area):
    """Yields each change of a single bit."""
    return flipped(data, area, range(8))


def ends(hashing, data, area):
    """Yields each change of the lowest or the highest bit of a byte."""
    return flipped(data, area, (0, 7))


def cuts(hashing, data, area):
    """Yields the file cut before each byte."""
    for at in area:
        yield data[:at]


def drops(hashing, data, area):
    """Yields the file without each byte."""
    for at in area:
        yield data[:at] + data[at + 1 :]


def inserts(hashing, data, area):
    """Yields the file with more bytes before each one."""
    for at in area:
        for more in PUT_IN:
            yield data[:at] + more + data[at:]


def forged_by(change):
    """Returns the kind of change in which the checksums of the index of the parts fit."""

    def forged(hashing, data, area):
        """Yields the changes of a kind of the index of the parts, with checksums that fit."""
        offset, end = parts_end(data), len(data) - FOOTER
        for changed in change(hashing, data, area):
            yield changed[:offset] + mended(hashing, changed[offset:end], "both") + changed[end:]

    return forged


def numbers_near(number, limit):
    """Yields numbers near another, and far ones, below a limit."""
    for other in [number - 1, number + 1, number - 24, number + 24, 0, 1, 23, 24, 2 * number, limit - 1]:
        if 0 <= other < limit and other != number:
            yield other


def keys_near(key):
    """Yields keys near another."""
    yield from [b"", key[:-1], key + b"\0", b"\0" + key, key + key, b"\xff" * 9]
    yield key[:-1] + bytes([key[-1] ^ 1])


def changed_handles(named):
    """Yields what becomes of a handle: each field another."""
    for offset in [*numbers_near(named.offset, 2**64), 2**63, 2**63 - 1]:
        if offset + named.size < 2**64:
            yield Handle(named.seqno, named.key, offset, named.size)
    for size in numbers_near(named.size, 2**32):
        yield Handle(named.seqno, named.key, named.offset, size)
    for seqno in numbers_near(named.seqno, 2**64):
        yield Handle(seqno, named.key, named.offset, named.size)
    for key in keys_near(named.key):
        yield Handle(named.seqno, key, named.offset, named.size)


def changed_lists(named):
    """Yields lists of handles: one changed, gone, there twice, or swapped with the next."""
    for at, handle in enumerate(named):
        for other in changed_handles(handle):
            yield named[:at] + [other] + named[at + 1 :]
        if len(named) > 1:
            yield named[:at] + named[at + 1 :]
        yield named[: at + 1] + named[at:]
        yield named[:at] + named[at : at + 2][::-1] + named[at + 2 :]


def fields(hashing, data, area):
    """Yields the table with each field of each handle of a part changed, at intervals of 1 and 2."""
    end = parts_end(data)
    for named in changed_lists(handles_in(data)):
        for interval in (1, 2):
            yield topped(hashing, data[:end], named, interval)


KINDS = {
    "flips": flips,
    "ends": ends,
    "cuts": cuts,
    "drops": drops,
    "inserts": inserts,
    "forged": forged_by(flips),
    "forged_ends": forged_by(ends),
    "fields": fields,
}


def changes_of(hashing, data, kind, area):
    """Yields the changes of a kind in an area."""
    if kind not in KINDS:
        raise bad_word()
    return KINDS[kind](hashing, data, area_of(data, area))
