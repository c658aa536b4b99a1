"""The lists of values that are encoded, chosen at the limits of the codes."""
from .records import Rule, wrapped

SIZES = [1, 62, 63, 64, 65, 127, 128, 254, 255, 256, 257, 511, 512, 2046, 2047, 2048, 2049, 4095, 4096,
         2**31 - 1, 2**31, 2**31 + 1, 2**32 - 1, 2**32, 2**32 + 1, 2**32 + 63, 2**62, 2**63 - 1]

# Differences of deltas: each row's limits, one beyond, and what 32 bits cut off.
EDGES = [0] + [sign * size for size in SIZES for sign in (1, -1)] + [-(2**63)]

STRICT = [d for d in EDGES if -(2**31) <= d < 2**31]

# One group for each row of the table of codes.
ROWS = [[0], [1, 63, -1, -63], [64, 255, -64, -255], [256, 2047, -256, -2047], [2048, -2048, 2**31 - 1, -(2**31)]]

STARTS = [0, 100, -1, 2**63 - 1, -(2**63), 253402300799, -62135596800]

VALUES = [0, 1, -1, 2**63 - 1, -(2**63), -(2**63) + 1, 2**31, 2**32, -(2**32), 253402300799, -62135596800]


def following(start, differences):
    """The values from `start` on whose differences of deltas are those given."""
    values, value, delta = [start], start, 0
    for d in differences:
        delta = wrapped(delta + d)
        value = wrapped(value + delta)
        values.append(value)
    return values


def paired(first, second):
    return [(a % 2**64, b) for a, b in zip(first, second)]


def none_and_one():
    yield []
    for i, value in enumerate(VALUES):
        yield paired([value], [VALUES[i - 3]])


def two(edges):
    """Each edge from several starts, in both arrays."""
    for i, d in enumerate(edges):
        for j, start in enumerate(STARTS[i % 2 :: 2]):
            other = edges[(i + 17 * j + 5) % len(edges)]
            yield paired(following(start, [d]), following(STARTS[(i + j) % 7], [other]))


def three(chance, count):
    for _ in range(count):
        yield paired(*(following(chance.of(STARTS), [chance.of(EDGES), chance.of(EDGES)]) for _ in range(2)))


def one_row():
    """Codes of one row only, so that every number of bits in the last byte comes up."""
    for i, row in enumerate(ROWS):
        for n in range(2, 10):
            others = ROWS[(i + n) % 5]
            yield paired(following(n, [row[k % len(row)] for k in range(n)]),
                         following(-n, [others[k % len(others)] for k in range(n)]))


def wraps():
    low, high = -(2**63), 2**63 - 1
    rounds = [[high, low], [low, high], [high, low, high], [-1, 0, 1], [1, 0, -1], [0, low, 0], [low, 0, low],
              [high, high, low, low], [2**62, -(2**62), 2**62], [high - 1, high, low, low + 1], [-2, -1, 0, 1, 2]]
    for i, values in enumerate(rounds):
        others = rounds[(i + 5) % len(rounds)]
        n = min(len(values), len(others))
        yield paired(values[:n], others[:n])


def many(chance):
    for pool in (STRICT, EDGES, [0, 0, 0, 1, -1], [d for row in ROWS for d in row]):
        for _ in range(8):
            n = chance.between(3, 40)
            yield paired(*(following(chance.of(STARTS), [chance.of(pool) for _ in range(n)]) for _ in range(2)))
    yield paired([7] * 64, [-7] * 64)
    yield paired(*(following(0, [chance.of(ROWS[4]) for _ in range(63)]) for _ in range(2)))


def short(chance):
    """All lists that are listed value by value."""
    yield from none_and_one()
    yield from two(EDGES)
    yield from three(chance, 150)
    yield from one_row()
    yield from wraps()
    yield from many(chance)


def ruled():
    """Long lists, made by rule: the masks choose the rows."""
    for n in (65, 1000, 8191, 8192):
        yield Rule(n, 1 + n, (1000, 64, 0), (1700000000, 60, 0))
    for bits in (5, 6, 7, 8, 9, 11, 12, 16, 31):
        yield Rule(2000, 77 + bits, (5, 0, 2**bits - 1), (-5, 1, 2**bits - 1))
    yield Rule(8192, 5, (2**64 - 5000, 1, 0xFFF), (-62135596800, 0, 0xFF))
    yield Rule(8192, 6, (0, 0, 2**64 - 1), (-(2**63), 0, 2**32 - 1))
    yield Rule(8192, 7, (0, 2**63, 2**62 - 1), (0, 2**62, 2**31 - 1))
