"""The file of records. FORMAT.md says what each record has."""
import struct

MAGIC = b"SKV3"
LONGEST = 4096
LISTED = 64  # the most values that a record lists; longer lists stand as digests


class Records:
    def __init__(self):
        self.bodies = []
        self.answers = {}

    def add(self, kind, body, **answers):
        """One record; `answers` says how many answers of the Rust it has, by the name of what was asked."""
        if len(body) > LONGEST:
            raise ValueError(f"a record {kind} of {len(body)} bytes")
        self.bodies.append(kind.encode() + struct.pack("<H", len(body)) + body)
        for name, count in answers.items():
            self.answers[name] = self.answers.get(name, 0) + count

    def written(self):
        return MAGIC + struct.pack("<I", len(self.bodies)) + b"".join(self.bodies)


def u8(x):
    return struct.pack("<B", x)


def u16(x):
    return struct.pack("<H", x)


def u32(x):
    return struct.pack("<I", x)


def u64(x):
    return struct.pack("<Q", x)


def i64(x):
    return struct.pack("<q", x)


def u64s(values):
    return b"".join(u64(x) for x in values)


def i64s(values):
    return b"".join(i64(x) for x in values)


def wrapped(x):
    """x as a signed number of 64 bits."""
    x %= 2**64
    return x - 2**64 if x >= 2**63 else x


def mixed(x):
    """A step of xorshift (13, 7, 17) on 64 bits."""
    x ^= x << 13 & (2**64 - 1)
    x ^= x >> 7
    return x ^ (x << 17 & (2**64 - 1))


def digest(values):
    """A number of 64 bits for a list of bytes or of numbers."""
    h = 88172645463325252
    for v in values:
        h = mixed(h ^ v % 2**64)
    return h


def last(second):
    return u8(0) + i64(0) if second is None else u8(1) + i64(second)


class Rule:
    """A list of pairs that the replaying program makes itself."""

    def __init__(self, count, start, seqs, secs):
        """seqs and secs: first value, smallest step, mask of what x adds to it."""
        self.count, self.start, self.seqs, self.secs = count, start, seqs, secs

    def pairs(self):
        x = self.start
        seq, seq_step, seq_mask = self.seqs
        sec, sec_step, sec_mask = self.secs
        for _ in range(self.count):
            yield seq, sec
            x = mixed(x)
            seq = (seq + seq_step + (x & seq_mask)) % 2**64
            sec = wrapped(sec + sec_step + (x >> 32 & sec_mask))

    def body(self):
        patterns = [x % 2**64 for x in self.seqs + self.secs]
        return u32(self.count) + u64(self.start) + u64s(patterns)


class Chance:
    """Numbers by chance from a seed, the same with every version of Python (splitmix64)."""

    def __init__(self, seed):
        self.state = seed

    def word(self):
        self.state = (self.state + 0x9E3779B97F4A7C15) % 2**64
        z = self.state
        z = (z ^ z >> 30) * 0xBF58476D1CE4E5B9 % 2**64
        z = (z ^ z >> 27) * 0x94D049BB133111EB % 2**64
        return z ^ z >> 31

    def below(self, n):
        return self.word() % n

    def between(self, low, high):
        return low + self.below(high - low + 1)

    def of(self, values):
        return values[self.below(len(values))]

    def bytes(self, n):
        return bytes(self.below(256) for _ in range(n))

    def some(self, values, n):
        """At most n of the values, in their order, the first and the last among them."""
        values = list(values)
        while len(values) > n:
            del values[1 + self.below(len(values) - 2)]
        return values
