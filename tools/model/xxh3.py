"""XXH3 of xxHash 0.8 with the seed 0 and the default secret, of 64 and of 128 bits."""

SECRET = bytes.fromhex(
    "b8fe6c3923a44bbe7c01812cf721ad1cded46de9839097db7240a4a4b7b3671f"
    "cb79e64eccc0e578825ad07dccff7221b8084674f743248ee03590e6813a264c"
    "3c2852bb91c300cb88d0658b1b532ea371644897a20df94e3819ef46a9deacd8"
    "a8fa763fe39c343ff9dcbbc7c70b4f1d8a51e04bcdb45931c89f7ec9d9787364"
    "eac5ac8334d3ebc3c581a0fffa1363eb170ddd51b7f0da49d316552629d4689e"
    "2b16be587d47a1fc8ff8b8d17ad031ce45cb3a8f95160428afd7fbcabb4b407e"
)
WORD = (1 << 64) - 1
PRIME32 = (0x9E3779B1, 0x85EBCA77, 0xC2B2AE3D)
PRIME64 = (
    0x9E3779B185EBCA87,
    0xC2B2AE3D27D4EB4F,
    0x165667B19E3779F9,
    0x85EBCA77C2B2AE63,
    0x27D4EB2F165667C5,
)
MIX1, MIX2 = 0x165667919E3779F9, 0x9FB21C651E98DF25
STRIPE, BLOCK = 64, 16
FIRST = (PRIME32[2], *PRIME64[:4], PRIME32[1], PRIME64[4], PRIME32[0])


def word(data, at, size=8):
    """Returns the little-endian number of some bytes."""
    return int.from_bytes(data[at : at + size], "little")


def key(at, size=8):
    """Returns the little-endian number of some bytes of the secret."""
    return word(SECRET, at, size)


def key_pair(at):
    """Returns two words of the secret, joined."""
    return key(at) ^ key(at + 8)


def turned(number, by, bits=64):
    """Returns a number rotated to the left."""
    return (number << by | number >> bits - by) & ((1 << bits) - 1)


def swapped(number, size=8):
    """Returns a number with its bytes in the other order."""
    return int.from_bytes(number.to_bytes(size, "little"), "big")


def fold(x, y):
    """Returns the two words of a product, joined."""
    product = x * y
    return product & WORD ^ product >> 64


def avalanche(x):
    """Returns the last mixing of a word."""
    x = (x ^ x >> 37) * MIX1 & WORD
    return x ^ x >> 32


def old_avalanche(x):
    """Returns the last mixing of a word as the older XXH64 has it."""
    x = (x ^ x >> 33) * PRIME64[1] & WORD
    x = (x ^ x >> 29) * PRIME64[2] & WORD
    return x ^ x >> 32


def mixed(data, at, key_at):
    """Returns sixteen bytes mixed with sixteen of the secret."""
    return fold(word(data, at) ^ key(key_at), word(data, at + 8) ^ key(key_at + 8))


def few(data):
    """Returns the number of one to three bytes."""
    size = len(data)
    return data[0] << 16 | data[size // 2] << 24 | data[-1] | size << 8


def hash64(data):
    """Returns the hash of 64 bits."""
    size = len(data)
    if size == 0:
        return old_avalanche(key_pair(56))
    if size <= 3:
        return old_avalanche(few(data) ^ key(0, 4) ^ key(4, 4))
    if size <= 8:
        x = word(data, size - 4, 4) + (word(data, 0, 4) << 32) ^ key_pair(8)
        x = (x ^ turned(x, 49) ^ turned(x, 24)) * MIX2 & WORD
        x = (x ^ (x >> 35) + size) * MIX2 & WORD
        return x ^ x >> 28
    if size <= 16:
        low, high = word(data, 0) ^ key_pair(24), word(data, size - 8) ^ key_pair(40)
        return avalanche(size + swapped(low) + high + fold(low, high) & WORD)
    if size <= 240:
        return of_middle(data)
    return merged(sums_of(data), 11, size * PRIME64[0])


def of_middle(data):
    """Returns the hash of 64 bits of 17 to 240 bytes."""
    size = len(data)
    total = size * PRIME64[0]
    if size <= 128:
        for i in range((size - 1) // 32 + 1):
            total += mixed(data, 16 * i, 32 * i) + mixed(data, size - 16 * (i + 1), 32 * i + 16)
        return avalanche(total & WORD)
    total = avalanche(total + sum(mixed(data, 16 * i, 16 * i) for i in range(8)) & WORD)
    total += sum(mixed(data, 16 * i, 16 * (i - 8) + 3) for i in range(8, size // 16))
    return avalanche(total + mixed(data, size - 16, 119) & WORD)


def with_stripe(sums, data, at, key_at):
    """Returns the sums with a stripe."""
    stripe = [word(data, at + 8 * i) for i in range(8)]
    keyed = [stripe[i] ^ key(key_at + 8 * i) for i in range(8)]
    return [sums[i] + stripe[i ^ 1] + (keyed[i] & 0xFFFFFFFF) * (keyed[i] >> 32) & WORD for i in range(8)]


def sums_of(data):
    """Returns the eight sums of more than 240 bytes."""
    sums = list(FIRST)
    for n in range((len(data) - 1) // STRIPE):
        sums = with_stripe(sums, data, STRIPE * n, 8 * (n % BLOCK))
        if n % BLOCK == BLOCK - 1:
            sums = [(s ^ s >> 47 ^ key(128 + 8 * i)) * PRIME32[0] & WORD for i, s in enumerate(sums)]
    return with_stripe(sums, data, len(data) - STRIPE, 121)


def merged(sums, key_at, start):
    """Returns the sums as one word."""
    pairs = range(0, 8, 2)
    folds = (fold(sums[i] ^ key(key_at + 8 * i), sums[i + 1] ^ key(key_at + 8 * i + 8)) for i in pairs)
    return avalanche(start + sum(folds) & WORD)


def hash128(data):
    """Returns the hash of 128 bits."""
    low, high = words128(data)
    return high << 64 | low


def words128(data):
    """Returns the low and the high word of the hash of 128 bits."""
    size = len(data)
    if size == 0:
        return old_avalanche(key_pair(64)), old_avalanche(key_pair(80))
    if size <= 3:
        other = turned(swapped(few(data), 4), 13, 32)
        return hash64(data), old_avalanche(other ^ key(8, 4) ^ key(12, 4))
    if size <= 8:
        x = word(data, 0, 4) + (word(data, size - 4, 4) << 32) ^ key_pair(16)
        product = x * (PRIME64[0] + 4 * size)
        high = (product >> 64) + 2 * (product & WORD) & WORD
        low = product & WORD ^ high >> 3
        low = (low ^ low >> 35) * MIX2 & WORD
        return low ^ low >> 28, avalanche(high)
    if size <= 16:
        return of_sixteen(data)
    if size <= 240:
        return of_middle128(data)
    sums = sums_of(data)
    start = WORD - (size * PRIME64[1] & WORD)
    return merged(sums, 11, size * PRIME64[0]), merged(sums, 117, start)


def of_sixteen(data):
    """Returns the words of the hash of 128 bits of 9 to 16 bytes."""
    size, first, last = len(data), word(data, 0), word(data, len(data) - 8)
    product = (first ^ last ^ key_pair(32)) * PRIME64[0]
    keyed = last ^ key_pair(48)
    high = (product >> 64) + keyed + (keyed & 0xFFFFFFFF) * (PRIME32[1] - 1) & WORD
    low = (product + (size - 1 << 54)) & WORD ^ swapped(high)
    product = low * PRIME64[1]
    return avalanche(product & WORD), avalanche((product >> 64) + high * PRIME64[1] & WORD)


def of_middle128(data):
    """Returns the words of the hash of 128 bits of 17 to 240 bytes."""
    size = len(data)
    low, high = size * PRIME64[0] & WORD, 0

    def both(low, high, i, j, key_at):
        low = low + mixed(data, i, key_at) & WORD ^ word(data, j) + word(data, j + 8) & WORD
        high = high + mixed(data, j, key_at + 16) & WORD ^ word(data, i) + word(data, i + 8) & WORD
        return low, high

    if size <= 128:
        for i in reversed(range((size - 1) // 32 + 1)):
            low, high = both(low, high, 16 * i, size - 16 * (i + 1), 32 * i)
    else:
        for i in range(4):
            low, high = both(low, high, 32 * i, 32 * i + 16, 32 * i)
        low, high = avalanche(low), avalanche(high)
        for i in range(4, size // 32):
            low, high = both(low, high, 32 * i, 32 * i + 16, 32 * (i - 4) + 3)
        low, high = both(low, high, size - 16, size - 32, 103)
    end = low * PRIME64[0] + high * PRIME64[3] + size * PRIME64[1]
    return avalanche(low + high & WORD), -avalanche(end & WORD) & WORD
