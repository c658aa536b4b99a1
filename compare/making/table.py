"""Tables: offers, what stands after them, lookups, extend_from, save and restore."""
from .images import ALL_ROWS, P5, encoded, image
from .oracle import REFUSED, State, hexed, image_of, listed, offered, refusal
from .places import places
from .reasons import RECORDED, TOO_SOON, WENT_BACK, outcome, outcomes
from .records import LISTED, Rule, digest, i64, i64s, last, u8, u16, u32, u64, u64s

FIRST_SECOND, LAST_SECOND = -62135596800, 253402300799
LAST_SEQ = 2**64 - 1
LONGEST_INTERVAL = 2**63 - 1
WAYS = ["up", "down"]


class Table:
    """A table of the Rust: the commands that made it. Each step appends to them and to the records."""

    def __init__(self, oracle, records, capacity, interval):
        self.oracle, self.records, self.commands = oracle, records, []
        self.step(f"table {capacity} {interval}")
        records.add("T", u32(capacity) + u64(interval), tables=1)

    def ask(self, commands):
        return self.oracle.ask(self.commands + commands)[len(self.commands) :]

    def step(self, command):
        """One more command; its answer, and the state after it."""
        answer, shown = self.ask([command, "show"])
        self.commands.append(command)
        self.state = State(shown)
        return answer

    def offer(self, seq, sec):
        stood = self.state
        came = outcome(offered(self.step(f"offer {seq}:{sec}")), stood.last, stood.interval, sec)
        self.records.add("O", u64(seq) + i64(sec) + u8(came), offers=1)

    def counts(self, pairs):
        """Pairs offered in turn, up to the first refusal: how many were recorded, went back and came too soon, the refusal's number, and
        the table that they would leave. They are offered to the Rust as a list and one by one, which has to come to the same."""
        answer, left = self.ask(["offer" + listed(pairs), "show"])
        recorded, skipped, refused = offered(answer)
        pairs = pairs[: recorded + skipped + (refused == REFUSED)]
        *answers, shown = self.ask([f"offer {seq}:{sec}" for seq, sec in pairs] + ["show"])
        came, followed = outcomes(map(offered, answers), pairs, self.state.last, self.state.interval)
        back, soon = came.count(WENT_BACK), came.count(TOO_SOON)
        told = came.count(RECORDED), back + soon, REFUSED if REFUSED in came else 0
        if told != (recorded, skipped, refused) or shown != left or State(left).last != followed:
            raise ValueError(f"{answer}; one by one: {told}, and the last recorded second {followed}")
        return recorded, back, soon, refused, left

    def offer_rule(self, rule):
        pairs = list(rule.pairs())
        recorded, back, soon, refused, _ = self.counts(pairs)
        self.step("offer" + listed(pairs))
        self.records.add("G", rule.body() + u32(recorded) + u32(back) + u32(soon) + u8(refused), runs=1)

    def show(self):
        """The table as it stands: listed where it is short, else by digests."""
        state = self.state
        head = u16(len(state.pairs)) + last(state.last)
        if len(state.pairs) <= LISTED:
            self.records.add("S", head + u64s(state.seqs) + i64s(state.secs), tables=1)
        else:
            self.records.add("H", head + u64(digest(state.seqs)) + u64(digest(state.secs)), tables=1)

    def save(self):
        data = image_of(self.ask(["save"])[0])
        self.records.add("V", u32(len(data)) + u64(digest(data)), saves=1)

    def find(self, seqs, secs):
        """Both lookups, both roundings. Among equal keys the Rust may answer any: the partners of all are stored, from the lowest position to
        the highest, each once."""
        self.find_by("F", "findts", seqs, self.state.pairs, u64, i64s)
        self.find_by("K", "findseq", secs, [(sec, seq) for seq, sec in self.state.pairs], i64, u64s)

    def find_by(self, kind, command, keys, pairs, packed, packed_all):
        asked = [(key, way) for key in keys for way in WAYS]
        for (key, way), answer in zip(asked, self.ask([f"{command} {key} {way}" for key, way in asked])):
            answers = [] if answer == "none" else [int(answer)]
            equals = list(dict.fromkeys(partner for k, partner in pairs if k == key))
            if equals:
                if answers[0] not in equals:
                    raise ValueError(f"{command} {key} {way}: {answer} is no partner of an equal key")
                answers = equals
            body = packed(key) + u8(WAYS.index(way)) + u8(len(answers)) + packed_all(answers)
            self.records.add(kind, body, lookups=1)

    def extend(self, capacity, interval, pairs):
        """extend_from. Its counts are those of the same pairs offered one by one, which has to leave the same table."""
        command = f"extend {capacity} {interval}" + listed(pairs)
        recorded, back, soon, refused, one_by_one = self.counts(pairs)
        answer = self.step(command)
        if self.ask(["show"]) != [one_by_one] or (answer != "ok") != (refused != 0):
            raise ValueError(f"{command}: {answer}; one by one: {one_by_one}")
        seqs, secs = [a for a, _ in pairs], [b for _, b in pairs]
        body = u32(capacity) + u64(interval) + u8(len(pairs)) + u64s(seqs) + i64s(secs)
        self.records.add("X", body + u16(recorded) + u16(back) + u16(soon) + u8(refused), extends=1)
        self.show()

    def restore(self, data):
        answer = self.step(f"restore {hexed(data)}")
        number, tells = (0, 0) if answer == "ok" else refusal(answer)
        [stop] = places(self.oracle, [data], [answer])
        body = u8(number) + u8(tells) + u32(self.state.capacity) + u64(self.state.interval) + stop + data
        self.records.add("R", body, restores=1)
        self.show()


def clamp(sec):
    return max(FIRST_SECOND, min(LAST_SECOND, sec))


def next_offer(chance, state, far):
    """An offer at a limit of what the state records, skips or refuses."""
    if state.last is None:
        return chance.of([0, 1, 2**63 - 2, 1000]), chance.of([0, FIRST_SECOND, -5, 1700000000])
    step = min(state.interval, 10**10)
    sec = state.last + chance.of([step, step, step, step + 1, step - 1, 0, -1, step + chance.below(100)])
    kept = state.seqs[-1]
    seq = kept + chance.of([0, 1, 1, 2, 64, -1, chance.below(1000), -chance.below(5)])
    if far and chance.below(6) == 0:
        seq = chance.of([0, 2**63 - 1, 2**63, 2**63 + 1, kept + 2**32])
    if far and chance.below(10) == 0:
        sec = chance.of([FIRST_SECOND, 0, state.last + 2**32])
    return max(0, min(LAST_SEQ, seq)), clamp(sec)


def keys_of(chance, values, lowest, highest, extra, n):
    near = {v + k for v in values for k in (-1, 0, 1)} | {lowest, highest}
    keys = [v for v in sorted(near) if lowest <= v <= highest]
    return chance.some(keys, n) + extra


def look(table, chance, n):
    state = table.state
    table.find(keys_of(chance, state.seqs, 0, LAST_SEQ, [], n),
               keys_of(chance, state.secs, FIRST_SECOND, LAST_SECOND, [LAST_SECOND + 1, FIRST_SECOND - 1], n))


def walk(table, chance, steps, keys):
    """Offers at the limits, the table after each, lookups at some."""
    table.show()
    table.find([0, LAST_SEQ], [0])
    for step in range(steps):
        table.offer(*next_offer(chance, table.state, far=step > 10))
        table.show()
        if step in (0, 4, steps - 1):
            look(table, chance, keys)
    table.offer(LAST_SEQ, LAST_SECOND)
    table.show()
    table.save()


def settings(oracle, records, chance):
    """Every capacity with every interval."""
    for capacity in (0, 1, 2, 3, 4, 5, 8191, 8192):
        for interval in (0, 1, 10, 60, LONGEST_INTERVAL):
            short = capacity > 5 or interval == LONGEST_INTERVAL
            walk(Table(oracle, records, capacity, interval), chance, 6 if short else 22, 5 if short else 7)


def worked(oracle, records):
    """The cases P8 to P12 of docs/RULES.md, a second that is the last recorded one: recorded at interval 0, too soon at 1; and the cases of equal keys."""
    offers = [(1, 10), (2, 20), (3, 30), (4, 40), (5, 50)]
    for capacity, n, later in ((4, 5, []), (3, 4, [(3, 45)]), (3, 4, [(9, 39)]), (0, 2, [])):
        table = Table(oracle, records, capacity, 0)
        for seq, sec in offers[:n] + later:
            table.offer(seq, sec)
            table.show()
        table.find([0, 1, 2, 3, 4, 5, 6], [9, 10, 11, 29, 30, 31, 50, 51])
        table.save()
    equal = [(1, 100), (2, 100)]
    for interval, pairs in ((60, [(1, 100), (2, 159), (2, 99), (2, 160)]), (0, equal), (1, equal)):
        table = Table(oracle, records, 8192, interval)
        for seq, sec in pairs:
            table.offer(seq, sec)
            table.show()
    for seqs, secs in (([1, 2, 3, 4, 5], [10, 20, 20, 20, 30]), ([1, 2, 2, 2, 3], [10, 20, 30, 40, 50]), ([1, 2, 3], [10, 10, 20]), ([1, 1, 2], [10, 20, 30]),
                       ([1, 2, 3], [10, 20, 20]), ([1, 2, 2], [10, 20, 30]), ([1, 2, 3], [10, 10, 10]), ([4, 4, 4], [10, 20, 30])):
        table = Table(oracle, records, 5, 0)
        for pair in zip(seqs, secs):
            table.offer(*pair)
        table.show()
        table.find(around(seqs), around(secs))


def around(keys):
    """Keys and their neighbours; those that stand more than once come first."""
    near = {k + d for k in keys for d in (-1, 0, 1)}
    return sorted(near, key=lambda k: (keys.count(k) < 2, k))


def skips(oracle, records):
    """Seconds at the limits of each reason, with a sequence below the last kept one and with one above it. At capacity 3 halving drops the
    newest pair, so that the last recorded second is not the last kept one's, but at the longest interval, where one pair is recorded; at 4 it is."""
    for capacity in (3, 4):
        for interval in (0, 1, 60, LONGEST_INTERVAL):
            table = Table(oracle, records, capacity, interval)
            for i in range(capacity + 1):
                table.offer(i + 1, 1000 + 60 * i)
            from_sec = table.state.last
            for sec in (FIRST_SECOND, from_sec - 1, from_sec, clamp(from_sec + interval - 1), clamp(from_sec + interval)):
                for seq in (0, 9):
                    table.offer(seq, sec)
                    table.show()


def equal_keys(oracle, records, chance):
    for capacity in (16, 33, 60):
        table = Table(oracle, records, capacity, 0)
        seq, sec = 10, -20
        for _ in range(capacity + chance.below(capacity)):
            seq, sec = seq + chance.of([0, 0, 0, 1, 5]), sec + chance.of([0, 0, 0, 1, 7])
            table.offer(seq, sec)
        table.show()
        look(table, chance, 40)
        table.save()
    for pairs in ([(4, 4)] * 12, [(4, s) for s in range(12)], [(s, 4) for s in range(12)]):
        table = Table(oracle, records, 12, 0)
        for seq, sec in pairs:
            table.offer(seq, sec)
        table.show()
        look(table, chance, 20)


def stand(table, chance):
    """A full table at one point: what stands, its image, and lookups at its ends and in between."""
    table.show()
    table.save()
    state = table.state
    some = chance.some(range(len(state.pairs)), 8)
    table.find(keys_of(chance, [state.seqs[i] for i in some], 0, LAST_SEQ, [], 14),
               keys_of(chance, [state.secs[i] for i in some], FIRST_SECOND, LAST_SECOND, [], 14))


def full(oracle, records, chance):
    """Capacities 8,191 and 8,192: up to the edge, full, over it."""
    for capacity, interval, seqs, secs in (
        (8191, 0, (10, 3, 0), (-100, 1, 0)),
        (8192, 0, (2**63 - 100000, 0, 31), (FIRST_SECOND, 0, 3)),
        (8192, 60, (1000, 64, 0), (1700000000, 60, 0)),
    ):
        table = Table(oracle, records, capacity, interval)
        table.offer_rule(Rule(capacity - 1, 3 + capacity + interval, seqs, secs))
        table.show()
        state = table.state
        table.offer(state.seqs[-1] + 1, state.last + interval)
        stand(table, chance)
        table.offer(state.seqs[-1] + 1, state.last - 1)
        table.offer(state.seqs[-1], state.last + 2 * interval)
        table.show()
        table.offer(state.seqs[-1] + 1, state.last + 2 * interval)
        stand(table, chance)
        table.offer(state.seqs[-1] + 7, state.last + 3 * interval)
        table.show()


def long_runs(oracle, records, chance):
    """Skipped ones among the offers, for one reason and for both, a second halving, and rules whose offers end in a refusal."""
    table = Table(oracle, records, 8192, 10)
    table.offer_rule(Rule(16000, 8202, (5, 0, 0xFFFFF), (LAST_SECOND - 16000 * 15, 8, 7)))
    stand(table, chance)
    state = table.state
    table.offer_rule(Rule(10, 9, (state.seqs[-1] + 3, -1, 0), (state.last + 50, 10, 0)))
    table.show()
    for capacity in (64, 65):
        table = Table(oracle, records, capacity, 10)
        table.offer_rule(Rule(1000, 21, (1, 1, 7), (-500, 6, 7)))
        table.show()
        table.save()
        state = table.state
        table.offer_rule(Rule(1000, 22, (state.seqs[-1], 0, 7), (state.last, -6, 15)))
        table.show()
        state = table.state
        table.offer_rule(Rule(1000, 23, (state.seqs[-1] + 60, -9, 15), (state.last, -6, 15)))
        table.show()


def rising(chance, n, seq, sec, steps):
    pairs = []
    for _ in range(n):
        pairs.append((seq, sec))
        seq, sec = seq + chance.of(steps), sec + chance.of(steps)
    return pairs


def extends(oracle, records, chance):
    for capacity in (0, 1, 2, 3, 5, 64):
        for interval in (0, 10, 60, LONGEST_INTERVAL):
            own = rising(chance, chance.of([0, 1, 3]), 100, 1000, [0, 30, 60])
            for seq, sec in ((100, 1000), (99, 2000), (0, 0), (161, 1100)):
                table = Table(oracle, records, capacity, interval)
                for pair in own:
                    table.offer(*pair)
                n = chance.of([0, 1, 2, 7, 16])
                table.extend(max(n, 1), 60, rising(chance, n, seq, sec, [0, 1, 5, 10, 59, 60, 61]))
    table = Table(oracle, records, 3, 0)
    table.offer(5, 5)
    table.extend(0, 0, [])
    table.extend(0, LONGEST_INTERVAL, [(5, 5)])
    table.extend(2, 7, [(4, 4), (9, 9)])
    table.extend(2, 7, [(4, 6), (9, 9)])
    for capacity in (3, 4):
        table = Table(oracle, records, capacity, 60)
        table.offer(5, 1000)
        table.extend(8, 0, list(enumerate((900, 999, 1000, 1059, 1060, 1119, 1120, 1180), 3)))
        table.extend(4, 0, [(1, sec) for sec in (1179, 1180, 1239, 1240)])


def restores(oracle, records, chance):
    tables = [[], [(5, 60)], P5, [(0, FIRST_SECOND), (LAST_SEQ, FIRST_SECOND + 100)], [(7, LAST_SECOND)],
              rising(chance, 40, 1, -1000, [0, 1, 64, 2047, 2048]), rising(chance, 64, 2**63 - 9, 0, [0, 5, 255, 256])]
    datas = encoded(oracle, tables)
    rows = encoded(oracle, [ALL_ROWS])[0]
    bad = [b"", b"\x02", b"\x01\x00", b"\x01\x05" + datas[2][2:], image(0, datas[2][5:], b"")]
    bad += [rows[:n] for n in range(0, len(rows), 3)]
    table = Table(oracle, records, 4, 0)
    table.offer(9, 9)
    for data in bad:
        table.restore(data)
    for data in datas:
        table.restore(data)
        table.save()
        look(table, chance, 6)
        for _ in range(4):
            table.offer(*next_offer(chance, table.state, far=False))
        table.show()
        table.restore(data + chance.bytes(5))


def after_restores(oracle, records):
    """Offers to a table just restored, at the limits of the interval that slatedb gives it, 60, and of our default one, 10, which it has before: from 10 to 59 seconds after the last
    restored one they come too soon at 60, and at 10 they do not. The sequence is below the last kept one, and above it. Then an empty table, a list, and another table's pairs."""
    table = Table(oracle, records, 8192, 10)
    empty, *datas = encoded(oracle, [[], [(5, 60)], P5])
    limits = (9, 10, 59, 60)
    for data in datas:
        for after in limits:
            for above in (-1, 1):
                table.restore(data)
                seq, sec = table.state.pairs[-1]
                table.offer(seq + above, sec + after)
                table.show()
    table.restore(empty)
    for after in (0, *limits):
        table.offer(1, 1000 + after)
        table.show()
    table.restore(datas[1])
    table.offer_rule(Rule(40, 1, (200, 1, 0), (61, 10, 0)))
    table.show()
    table.restore(datas[1])
    table.extend(8, 10, [(200 + i, 70 + 10 * i) for i in range(8)])


def add(oracle, records, chance):
    worked(oracle, records)
    skips(oracle, records)
    settings(oracle, records, chance)
    equal_keys(oracle, records, chance)
    full(oracle, records, chance)
    long_runs(oracle, records, chance)
    extends(oracle, records, chance)
    restores(oracle, records, chance)
    after_restores(oracle, records)
