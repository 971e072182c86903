"""Hash functions: the polynomial `Poly31` of docs/FORMAT.md, and XXH3."""

import xxh3


class Poly31:
    """From 0, `h = h * 31 + byte` for each byte."""

    @staticmethod
    def polynomial(data):
        """Returns the hash without a bound on its size."""
        number = 0
        for byte in data:
            number = (number * 31 + byte) % 2**128
        return number

    @staticmethod
    def hash64(data):
        """Returns the hash of 64 bits."""
        return Poly31.polynomial(data) % 2**64

    @staticmethod
    def hash128(data):
        """Returns the hash of 128 bits."""
        return Poly31.polynomial(data)


class Xxh3:
    """XXH3 with the seed 0."""

    hash64 = staticmethod(xxh3.hash64)
    hash128 = staticmethod(xxh3.hash128)


# The hash function that the ending of a file's name names.
BY_ENDING = {"poly": Poly31, "xxh3": Xxh3}

# The names of the hash functions.
NAMES = {Poly31: "poly31", Xxh3: "xxh3"}


def hash_of_file(name):
    """Returns the hash function of the blocks of a file of cases."""
    ending = name.rpartition(".")[2]
    if ending not in BY_ENDING:
        raise SystemExit(f"{name}: its ending names no hash function")
    return BY_ENDING[ending]
