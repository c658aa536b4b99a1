"""The images that are read: good, damaged, and good ones that no writer makes."""
from .lists import EDGES, ROWS, following, many, one_row, paired, two, wraps
from .oracle import image_of, listed

PREFIXES = {0: "0", 7: "10", 9: "110", 12: "1110", 32: "1111"}
P5 = [(100, 0), (164, 60)]
ALL_ROWS = paired(following(100, [5, 0, -64, 2047, -2048]), following(-9, [0, 2**31 - 1, 255, -1, 256]))


def code(d, width):
    """The bits of a difference at a width, which need not be the one that the writer takes."""
    return PREFIXES[width] + (format(d % 2**width, f"0{width}b") if width else "")


def array(count, first=None, codes=""):
    """One array; the codes are a string of bits, padded with zeros."""
    data = count.to_bytes(4, "big")
    if first is not None:
        data += (first % 2**64).to_bytes(8, "big")
    codes += "0" * (-len(codes) % 8)
    return data + bytes(int(codes[i : i + 8], 2) for i in range(0, len(codes), 8))


def image(count, seqs, secs):
    return b"\x01" + count.to_bytes(4, "little") + seqs + secs


def encoded(oracle, lists):
    return [image_of(a) for a in oracle.ask("encode" + listed(pairs) for pairs in lists)]


def good(oracle, chance):
    lists = [[], [(5, 60)], P5, ALL_ROWS, *two(EDGES[::2]), *one_row(), *wraps(), *chance.some(many(chance), 14)]
    return encoded(oracle, lists)


def cut(bases):
    for base in bases:
        for n in range(len(base)):
            yield base[:n]


def flipped(base, places):
    """One bit another, for each bit of the bytes at `places`."""
    for i in places:
        for bit in range(8):
            yield base[:i] + bytes([base[i] ^ 1 << bit]) + base[i + 1 :]


def longer_codes():
    """Each difference at each width that holds it, -64 in 7 bits among them."""
    fits = [(d, w) for d in sorted({d for row in ROWS for d in row} | {65, -65, 257, -257, -256, 2**11, -(2**11)})
            for w in (7, 9, 12, 32) if -(2 ** (w - 1)) <= d < 2 ** (w - 1)]
    for i, (d, w) in enumerate(fits):
        other, v = fits[(i * 7 + 3) % len(fits)]
        yield image(2, array(2, i, code(d, w)), array(2, -i, code(other, v)))
        yield image(3, array(3, -1, code(d, w) + code(other, v)), array(3, 2**63, "0" + code(d, w)))


def ends(chance):
    """Ends in codes: every last byte in the sequences, some in the seconds; the rest of the input is gone."""
    full = array(20, 7, "0" * 19)
    for byte in range(256):
        yield image(20, array(20, 7, format(byte, "08b")), b"")
    for byte in range(0, 256, 5):
        yield image(20, full, array(20, 7, format(byte, "08b")))
    for _ in range(60):
        tail = "".join(chance.of(list(PREFIXES.values())) + format(chance.word(), "064b")[: chance.of([0, 7, 9, 12])]
                       for _ in range(chance.between(1, 4)))
        yield image(20, array(20, 7, tail[: len(tail) // 8 * 8]), b"")
        yield image(20, full, array(20, 7, tail[: len(tail) // 8 * 8]))
    first = array(2, 5)
    yield image(2, first + b"\x80", b"")
    yield image(2, first, b"")
    yield image(9, array(9, 5) + b"\x01", b"")


def by_chance(chance):
    """Codes by chance; what they leave of the bytes is more than the image."""
    for _ in range(60):
        n = chance.between(1, 10)
        yield image(n, array(n, chance.word()) + chance.bytes(chance.between(0, 60)), b"")
        bits = "".join(code(chance.word(), chance.of([0, 7, 9, 12, 32])) for _ in range(n - 1))
        bits_too = "".join(code(chance.word(), chance.of([0, 7, 9, 12, 32])) for _ in range(n - 1))
        yield image(n, array(n, chance.word(), bits), array(n, chance.word(), bits_too)) + chance.bytes(chance.below(4))
    for n in range(0, 16):
        yield chance.bytes(n)
        yield b"\x01" + chance.bytes(n)


def heads(bases):
    """Wrong versions, header counts and array counts."""
    for base in bases:
        for version in (0, 2, 3, 127, 128, 255):
            for n in (1, 4, 5, len(base)):
                yield bytes([version]) + base[1:n]
        count = int.from_bytes(base[1:5], "little")
        for other in (count + 1, max(count - 1, 0), 0, count << 8, count << 24, count + 2**31, 2**32 - 1):
            yield base[:1] + other.to_bytes(4, "little") + base[5:]
    zeros = "0" * 40
    for header in (0, 1, 2, 3):
        for seqs in (0, 1, 2, 3):
            for secs in (0, 1, 2, 3):
                arrays = [array(n, 9, zeros[: n - 1]) if n else array(0) for n in (seqs, secs)]
                yield image(header, *arrays)


def followed(bases, chance):
    for base in bases:
        for n in (1, 2, 3, 7, 8, 16):
            yield base + bytes(n)
            yield base + b"\xff" * n
            yield base + chance.bytes(n)
        yield base + base


def dirty_padding():
    for zeros in range(8):
        for ones in range(1, 9 - zeros):
            codes = "0" * zeros + "1" * ones
            if len(codes) % 8 == 0:
                yield image(zeros + 1, array(zeros + 1, 3, codes), array(zeros + 1, -3, codes))


def large():
    """Counts at 8,192 and above it: what the list reader takes, and what only the length tells."""
    for n in (8191, 8192, 8193):
        regular = array(n, 4, code(64, 9) + "0" * (n - 2))
        yield image(n, regular, regular)
        yield image(8192, regular, array(0))
        yield image(1, array(1, 3), regular)
    for n in (8192, 8193, 65536, 2**31, 2**32 - 1):
        yield image(n, array(n, 4), b"")
        yield image(n, array(n), b"")
        yield image(1, array(1, 3), array(n, 4))
        yield image(1, array(1, 3), array(n))


def all_images(oracle, chance):
    p5, rows, empty = encoded(oracle, [P5, ALL_ROWS, []])
    yield from good(oracle, chance)
    yield from cut([empty, p5, rows])
    yield from flipped(p5, range(len(p5)))
    yield from flipped(rows, [*range(17, 27), *range(len(rows) - 10, len(rows))])
    yield from longer_codes()
    yield from ends(chance)
    yield from by_chance(chance)
    yield from heads([empty, p5])
    yield from followed([empty, p5, rows], chance)
    yield from dirty_padding()
    yield from large()
