"""Encoded bytes, and images read back."""
from . import images, lists
from .oracle import State, hexed, image_of, listed, refusal
from .places import arrays_of, places
from .records import LISTED, digest, i64s, u8, u16, u32, u64, u64s

ROOM = 8192  # the length of the arrays that the list reader is lent


def read_back(oracle, datas):
    return [State(a.removeprefix("ok ")) for a in oracle.ask(f"decode {d.hex()}" for d in datas)]


def encodes(oracle, records, chance):
    given = list(lists.short(chance))
    datas = images.encoded(oracle, given)
    for pairs, data, back in zip(given, datas, read_back(oracle, datas)):
        seqs, secs = [a for a, _ in pairs], [b for _, b in pairs]
        body = u8(len(pairs)) + u8(back.pairs == pairs) + u64s(seqs) + i64s(secs) + data
        records.add("E", body, encodings=1, readbacks=1)


def ruled_encodes(oracle, records):
    for rule in lists.ruled():
        pairs = list(rule.pairs())
        data = image_of(oracle.ask(["encode" + listed(pairs)])[0])
        [back] = read_back(oracle, [data])
        body = rule.body() + u8(back.pairs == pairs) + u32(len(data)) + u64(digest(data))
        records.add("Y", body + u64(digest(back.seqs)) + u64(digest(back.secs)), encodings=1, readbacks=1, decodings=1)


def over_room(data, first, number, tells):
    """1 or 2 where the count of the first or the second array is above ROOM and is met: there refusal 10 is due."""
    if number in (1, 2, 3):
        return 0
    if len(data) >= 9 and int.from_bytes(data[5:9], "big") > ROOM:
        return 1
    if first is None or (number, tells) == (9, 0):
        return 0
    second = data[5 + first : 9 + first]
    return 2 if len(second) == 4 and int.from_bytes(second, "big") > ROOM else 0


def decodes(oracle, records, chance):
    datas = list(dict.fromkeys(images.all_images(oracle, chance)))
    answers = oracle.ask(f"decode {hexed(d)}" for d in datas)
    arrays, stops = arrays_of(oracle, datas), places(oracle, datas, answers)
    for data, answer, (first, second), stop in zip(datas, answers, arrays, stops):
        if answer.startswith("ok "):
            state = State(answer.removeprefix("ok "))
            over = over_room(data, first, 0, 0)
            told = u8(0) + u8(0) + u8(over) + u16(len(data)) + data + u16(5 + first + second)
            told += u16(len(state.pairs))
            if len(state.pairs) <= LISTED:
                told += u64s(state.seqs) + i64s(state.secs)
            else:
                told += u64(digest(state.seqs)) + u64(digest(state.secs))
        else:
            number, tells = refusal(answer)
            over = over_room(data, first, number, tells)
            told = u8(number) + u8(tells) + u8(over) + u16(len(data)) + data + stop
        if over:
            records.add("D", told, lengths=1)
        else:
            records.add("D", told, lengths=1, decodings=1)


def add(oracle, records, chance):
    encodes(oracle, records, chance)
    ruled_encodes(oracle, records)
    decodes(oracle, records, chance)
