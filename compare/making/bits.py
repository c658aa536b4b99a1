"""Bits written, bits read, sign extension."""
from .oracle import hexed, unhexed
from .records import u8, u32, u64

END = 24  # in the list of refusals (docs/RULES.md): fewer bits left than asked


def edge_values(width):
    """Values at the limits of a width, with bits above it too."""
    top = 2**width
    return sorted({v % 2**64 for v in (0, 1, top // 2 - 1, top // 2, top - 1, top, top + 1, 2**64 - 1, 2**63)})


def write_lists(chance):
    for width in range(65):
        values = edge_values(width)
        yield [(chance.of(values), width)]
        yield [(v, width) for v in chance.some(values, 4)]
    for _ in range(60):
        yield [(chance.word(), chance.between(0, 64)) for _ in range(chance.between(2, 8))]
    yield [(1, 1)] * 8
    yield [(1, 1)] * 9
    yield [(2**64 - 1, 0)]


def writes(oracle, records, chance):
    lists = list(write_lists(chance))
    answers = oracle.ask("write" + "".join(f" {v}:{n}" for v, n in pushed) for pushed in lists)
    for pushed, answer in zip(lists, answers):
        data = unhexed(answer.removeprefix("ok "))
        if len(data) != (sum(n for _, n in pushed) + 7) // 8:
            raise ValueError(answer)
        body = u8(len(pushed)) + b"".join(u64(v) + u8(n) for v, n in pushed) + data
        records.add("W", body, writes=1)


def read_lists(chance):
    full = bytes.fromhex("80ff007f01fe55aa0123456789abcdef")
    for width in range(65):
        yield full, [chance.between(0, 7), width]
        yield full[: (width + 7) // 8], [width, 1]
    for left in range(64):
        for width in sorted({left + 1, 64}):
            yield full[:8], [64 - left, width]
    yield b"", [0, 1]
    yield b"", [64]
    yield b"\xff", [8, 0, 0, 1]
    yield b"\xff", [7, 1, 1]
    yield b"\xff", [9]
    for _ in range(80):
        data = chance.bytes(chance.between(0, 20))
        yield data, [chance.of([0, 1, 2, 7, 8, 9, 12, 31, 32, 33, 63, 64]) for _ in range(chance.between(1, 10))]


def read_all(oracle, lists):
    """For each list the values read, the word `end` after them where the next read is refused."""
    answers = oracle.ask(f"read {hexed(data)} " + " ".join(str(n) for n in widths) for data, widths in lists)
    return [answer.split(" ")[1:] for answer in answers]


def bits_left(oracle, lists, read):
    """The bits that are left after the reads before the last one, which are as many single bits as can be read from there. Where the last one is refused
    they are fewer than it asks for."""
    single = [(data, widths[: len(got) - 1] + [1] * 64) for (data, widths), got in zip(lists, read)]
    for (_, widths), got, bits in zip(lists, read, read_all(oracle, single)):
        left = bits.index("end") - len(got) + 1 if "end" in bits else 64
        if (got[-1] == "end") != (left < widths[len(got) - 1]):
            raise ValueError(f"{widths}: {got}, and {left} bits left")
        yield left


def reads(oracle, records, chance):
    lists = list(read_lists(chance))
    read = read_all(oracle, lists)
    for (data, widths), got, left in zip(lists, read, bits_left(oracle, lists, read)):
        body = u8(len(data)) + data + u8(len(got))
        for width, word in zip(widths, got):
            body += u8(width) + (u8(END) + u64(left) if word == "end" else u8(0) + u64(int(word)))
        records.add("B", body, reads=len(got))


def extensions(oracle, records, chance):
    asked = []
    for width in range(1, 33):
        edges = {v % 2**32 for v in edge_values(width)} | {2 ** (width - 1) ^ 0xFFFFFFFF}
        asked += [(v, width) for v in sorted(edges)]
        asked.append((chance.below(2**32), width))
    for (value, width), answer in zip(asked, oracle.ask(f"sx {v} {n}" for v, n in asked)):
        records.add("N", u32(value) + u8(width) + u32(int(answer) % 2**32), extensions=1)


def add(oracle, records, chance):
    writes(oracle, records, chance)
    reads(oracle, records, chance)
    extensions(oracle, records, chance)
