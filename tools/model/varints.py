"""Varints: numbers in base 128, least significant digit first, as docs/FORMAT.md has them."""


def varint(number):
    """Returns the encoding of a number."""
    digits = bytearray()
    while number >= 128:
        digits.append(number % 128 + 128)
        number //= 128
    digits.append(number)
    return bytes(digits)


def read_varint(data, at, width):
    """Returns the number at an offset and the offset after it, or None where no minimal encoding of
    a number of this width in bits is there."""
    number = 0
    for place in range(10):
        if at + place >= len(data):
            return None
        byte = data[at + place]
        number += (byte % 128) * 128**place
        if byte < 128:
            is_minimal = byte > 0 or place == 0
            return (number, at + place + 1) if is_minimal and number < 2**width else None
    return None
