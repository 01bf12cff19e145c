"""The words of ChaCha20 (RFC 8439) that the prompts of a vector set are made of, in plain Python: under a seed, with a
counter of 64 bits, and as many for the number of the stream, which is the vector set's.

A row of a block stands in one large number, each of its words in 64 bits of their own, and so do the rows of as many
blocks as a small vector set needs. So each operation is one on 32 words, and all is several times as fast as word by
word."""
import struct

BLOCKS = 8
MASK = 0xffffffff
WORDS = sum(MASK << 64 * place for place in range(4 * BLOCKS))


def row(words):
    """A row of all blocks, of which these are the four words, or those of each block."""
    return int.from_bytes(struct.pack(f"<{4 * BLOCKS}Q", *(words if len(words) > 4 else words * BLOCKS)), "little")


FRONT = [row([MASK] * (4 - turn) + [0] * turn) for turn in range(4)]
CONSTANTS = row(struct.unpack("<4I", b"expand 32-byte k"))


def quarters(a, b, c, d):
    """The quarter rounds of all columns."""
    for of_d, of_b in ((16, 12), (8, 7)):
        a = a + b & WORDS
        d ^= a
        d = (d << of_d | d >> 32 - of_d) & WORDS
        c = c + d & WORDS
        b ^= c
        b = (b << of_b | b >> 32 - of_b) & WORDS
    return a, b, c, d


def turned(words, turn):
    """A row whose words are moved to the front by so many places, within each block."""
    return words >> 64 * turn & FRONT[turn] | words << 64 * (4 - turn) & WORDS - FRONT[turn]


def blocks(seed, stream, first):
    """The bytes of so many blocks of the key stream, from this one on."""
    key = struct.unpack("<8I", seed)
    counters = [word for block in range(first, first + BLOCKS)
                for word in (block & MASK, block >> 32, stream & MASK, stream >> 32)]
    begun = CONSTANTS, row(key[:4]), row(key[4:]), row(counters)
    a, b, c, d = begun
    for _ in range(10):
        a, b, c, d = quarters(a, b, c, d)
        a, b, c, d = quarters(a, turned(b, 1), turned(c, 2), turned(d, 3))
        b, c, d = turned(b, 3), turned(c, 2), turned(d, 1)
    ended = [struct.unpack(f"<{4 * BLOCKS}Q", (one + other & WORDS).to_bytes(32 * BLOCKS, "little"))
             for one, other in zip((a, b, c, d), begun)]
    return b"".join(struct.pack("<4I", *words[place:place + 4]) for place in range(0, 4 * BLOCKS, 4) for words in ended)


class Words:
    """The words under a seed in the stream of a vector set, one after another."""

    def __init__(self, seed, stream):
        self.seed, self.stream, self.made, self.place = seed, stream, b"", 0

    def take(self, size):
        """The bytes of a value, which begins at a new word."""
        end = self.place + -(-size // 4) * 4
        while len(self.made) < end:
            self.made += blocks(self.seed, self.stream, len(self.made) // 64)
        taken = self.made[self.place:self.place + size]
        self.place = end
        return taken

    def draw(self, members):
        """A member, drawn by a word."""
        return members[int.from_bytes(self.take(4), "little") % len(members)]
