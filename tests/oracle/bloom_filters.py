"""Bloom filters of words (docs/BYTES.md, "Bloom filter")."""

PLACES = 6


def hash_of(word):
    """Returns the FNV-1a hash of 64 bits of the bytes of a word."""
    value = 14695981039346656037
    for byte in word:
        value = (value ^ byte) * 1099511628211 % 2**64
    return value


def places(word, bits):
    """Returns the bits of a word."""
    first = hash_of(word)
    step = (first >> 17 | first << 47) % 2**64 | 1
    return [(first + n * step) % 2**64 % bits for n in range(PLACES)]


class Bloom:
    """A filter with room for this many words, as one number whose bit b is the bit b of the filter."""

    def __init__(self, room):
        self.bits, self.set = -(-16 * room // 64) * 64, 0

    def add(self, word):
        for place in places(word, self.bits) if self.bits else []:
            self.set |= 1 << place

    def may_have(self, word):
        return self.bits > 0 and all(self.set >> place & 1 for place in places(word, self.bits))

    def count(self):
        """Returns how many words of 64 bits it has."""
        return self.bits // 64

    def to_bytes(self):
        return self.set.to_bytes(self.bits // 8, "little")


def filter_of(words):
    """Returns the filter that has room for these distinct words, and has them."""
    bloom = Bloom(len(words))
    for word in words:
        bloom.add(word)
    return bloom
