"""Where the bytes of an image stop. Of refusals 4 to 8 the Rust tells neither array nor index nor place. They are found from what it reads: the array is the
first that it refuses by itself, the index the highest count with which it reads that array, and the place the first bit that has no part in what it then reads."""
from .oracle import hexed, refusal
from .records import u8, u16, u32

HEADER = 5
COUNT_CUT = 4
STOPS = range(COUNT_CUT, 9)
NOWHERE = bytes(8)  # where no array is cut
MOST_LEFT = 64  # no item has more bits: one less at most is left


def taken(oracle, parts):
    """The bytes that each array takes, None where it is none or is refused."""
    asked = [p for p in parts if p is not None]
    told = dict(zip(asked, oracle.ask(f"decarr {hexed(p)}" for p in asked)))
    return [int(told[p].split(" ")[1]) if p is not None and told[p].startswith("ok ") else None for p in parts]


def arrays_of(oracle, datas):
    """For each image, the bytes that its first array takes and its second, each None where it is refused."""
    firsts = taken(oracle, [d[HEADER:] for d in datas])
    seconds = taken(oracle, [d[HEADER + n :] if n is not None else None for d, n in zip(datas, firsts)])
    return list(zip(firsts, seconds))


class Stop:
    """The array that an image is refused for, with all bytes from its start on."""

    def __init__(self, image, first, number, words):
        self.which = 0 if first is None else 1
        self.start = HEADER + (first or 0)
        self.data = image[self.start :]
        self.number, self.words = number, words
        self.index, self.bits, self.answer = 0, 0, None

    def counted(self, n):
        return n.to_bytes(4, "big") + self.data[4:]

    def counts(self):
        """The array with each count up to its own, or up to the number of its bits where that is less."""
        for n in range(min(int.from_bytes(self.data[:4], "big"), 8 * len(self.data)) + 1):
            yield self.counted(n)

    def take_whole(self, answers):
        if answers != [self.words]:
            raise ValueError(f"{hexed(self.data)}: {answers}, and of the image {self.words}")

    def take_index(self, answers):
        """The highest count that is read. From the next one on, all are refused as the image is."""
        read = [a for a in answers if a.startswith("ok ")]
        if not read or set(answers[len(read) :]) != {self.words}:
            raise ValueError(f"{hexed(self.data)}: {answers}")
        self.index, self.answer = len(read) - 1, read[-1]

    def fillings(self):
        """With the index for its count, the array with its last 1, 2, .. bits all ones, and all zeros."""
        whole = int.from_bytes(self.counted(self.index), "big")
        for n in range(1, min(MOST_LEFT, 8 * len(self.data)) + 1):
            for filled in (whole | 2**n - 1, whole >> n << n):
                yield filled.to_bytes(len(self.data), "big")

    def take_bits(self, answers):
        """The bits before the first one that has no part in the answer. The Rust takes the bytes that they begin."""
        others = [i // 2 for i, a in enumerate(answers) if a != self.answer]
        if not others:
            raise ValueError(f"{hexed(self.data)}: none of its last {MOST_LEFT} bits has a part in {self.answer}")
        self.bits = 8 * len(self.data) - others[0]
        if int(self.answer.split(" ")[1]) != (self.bits + 7) // 8:
            raise ValueError(f"{hexed(self.data)}: {self.bits} bits, {self.answer}")

    def body(self):
        return u8(self.which) + u32(self.index) + u16(self.start + self.bits // 8) + u8(self.bits % 8)


def ask_each(oracle, stops, made, take):
    """Each stop takes the Rust's answers to the arrays that are made of it."""
    lists = [list(made(stop)) for stop in stops]
    answers = iter(oracle.ask(f"decarr {hexed(data)}" for datas in lists for data in datas))
    for stop, datas in zip(stops, lists):
        take(stop, [next(answers) for _ in datas])


def places(oracle, datas, answers):
    """For each image and what the Rust answers to it: array, index and place, as a record has them."""
    numbers = [0 if words.startswith("ok") else refusal(words)[0] for words in answers]
    stops = {d: Stop(d, first, number, words)
             for d, number, words, (first, _) in zip(datas, numbers, answers, arrays_of(oracle, datas)) if number in STOPS}
    counted = [stop for stop in stops.values() if stop.number != COUNT_CUT]
    ask_each(oracle, stops.values(), lambda stop: [stop.data], Stop.take_whole)
    ask_each(oracle, counted, Stop.counts, Stop.take_index)
    ask_each(oracle, counted, Stop.fillings, Stop.take_bits)
    return [stops[d].body() if d in stops else NOWHERE for d in datas]
