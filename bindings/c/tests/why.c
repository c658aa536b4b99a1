/* Why a lookup answers as it does: each reason by hand, by sequence and by second, and many questions beside a plain look at every key. Whatever the reason, the
 * answer is that of the lookup. */
#include "cases.h"

#include <stdio.h>

#define TS "skut_why_ts"
#define SEQ "skut_why_seq"

/* What is told, by the reason. A partner is a second by its 64 bits, or a sequence. */
#define EXACT(at, partner) ((struct skut_why){.answer = {.a = 1, .b = (uint64_t)(partner)}, .reason = SKUT_WHY_EXACT, .position = (at)})
#define UP(low, high, partner) \
    ((struct skut_why){.answer = {.a = 1, .b = (uint64_t)(partner)}, .reason = SKUT_WHY_ROUNDED_UP, .has_below = 1, .has_above = 1, .position = (high), \
                       .below = (low), .above = (high)})
#define UP_TO_FIRST(partner) ((struct skut_why){.answer = {.a = 1, .b = (uint64_t)(partner)}, .reason = SKUT_WHY_ROUNDED_UP, .has_above = 1})
#define DOWN(low, high, partner) \
    ((struct skut_why){.answer = {.a = 1, .b = (uint64_t)(partner)}, .reason = SKUT_WHY_ROUNDED_DOWN, .has_below = 1, .has_above = 1, .position = (low), \
                       .below = (low), .above = (high)})
#define DOWN_TO_LAST(last, partner) \
    ((struct skut_why){.answer = {.a = 1, .b = (uint64_t)(partner)}, .reason = SKUT_WHY_ROUNDED_DOWN, .has_below = 1, .position = (last), .below = (last)})
#define NOTHING(why) ((struct skut_why){.reason = (why)})

/* Any number but 0 rounds down. */
static const uint32_t rounds[] = {SKUT_ROUND_UP, SKUT_ROUND_DOWN, 2, UINT32_MAX};

#define ROUNDS (sizeof rounds / sizeof rounds[0])

/* Six pairs in runs of equal keys: two of one sequence at either end, four of one second. */
static const uint64_t few_seqs[8] = {5, 5, 7, 7, 9, 9};
static const int64_t few_secs[8] = {-30, -20, -20, -20, -20, 40};

static const struct table few = {"six pairs", {6, 7, 1, 0, 40, NO_TOTALS}, few_seqs, few_secs, 8};

static void by_sequence(void)
{
    const struct table *table = &few;
    const struct {
        const char *when;
        uint64_t seq;
        uint32_t round;
        struct skut_why due;
    } cases[] = {
        {"0, up: the first, from below it", 0, SKUT_ROUND_UP, UP_TO_FIRST(-30)},
        {"4, up: the first, from below it", 4, SKUT_ROUND_UP, UP_TO_FIRST(-30)},
        {"5, up: the lowest of equals at the first position", 5, SKUT_ROUND_UP, EXACT(0, -30)},
        {"6, up: between two runs", 6, SKUT_ROUND_UP, UP(1, 2, -20)},
        {"7, up: the lowest of equals between others", 7, SKUT_ROUND_UP, EXACT(2, -20)},
        {"8, up: between two runs", 8, SKUT_ROUND_UP, UP(3, 4, -20)},
        {"9, up: the lowest of equals at the last position", 9, SKUT_ROUND_UP, EXACT(4, -20)},
        {"10, up: after the last", 10, SKUT_ROUND_UP, NOTHING(SKUT_WHY_AFTER_LAST)},
        {"2^64-1, up: after the last", UINT64_MAX, SKUT_ROUND_UP, NOTHING(SKUT_WHY_AFTER_LAST)},
        {"0, down: before the first", 0, SKUT_ROUND_DOWN, NOTHING(SKUT_WHY_BEFORE_FIRST)},
        {"4, down: before the first", 4, SKUT_ROUND_DOWN, NOTHING(SKUT_WHY_BEFORE_FIRST)},
        {"5, down: the highest of equals at the first position", 5, SKUT_ROUND_DOWN, EXACT(1, -20)},
        {"6, down: between two runs", 6, SKUT_ROUND_DOWN, DOWN(1, 2, -20)},
        {"7, down: the highest of equals between others", 7, SKUT_ROUND_DOWN, EXACT(3, -20)},
        {"8, down: between two runs", 8, SKUT_ROUND_DOWN, DOWN(3, 4, -20)},
        {"9, down: the highest of equals at the last position", 9, SKUT_ROUND_DOWN, EXACT(5, 40)},
        {"10, down: the last, from above it", 10, SKUT_ROUND_DOWN, DOWN_TO_LAST(5, 40)},
        {"2^64-1, down: the last, from above it", UINT64_MAX, SKUT_ROUND_DOWN, DOWN_TO_LAST(5, 40)},
        {"8, round 2: down", 8, 2, DOWN(3, 4, -20)},
        {"4, round 2^32-1: before the first", 4, UINT32_MAX, NOTHING(SKUT_WHY_BEFORE_FIRST)},
    };
    for (size_t i = 0; i < sizeof cases / sizeof cases[0]; i++) {
        explains(TS, cases[i].when, skut_why_ts(TABLE, cases[i].seq, cases[i].round), cases[i].due);
    }
}

static void by_second(void)
{
    const struct table *table = &few;
    const struct {
        const char *when;
        int64_t sec;
        uint32_t round;
        struct skut_why due;
    } cases[] = {
        {"-2^63, up: the first, from below it", INT64_MIN, SKUT_ROUND_UP, UP_TO_FIRST(5)},
        {"-31, up: the first, from below it", -31, SKUT_ROUND_UP, UP_TO_FIRST(5)},
        {"-30, up: the first", -30, SKUT_ROUND_UP, EXACT(0, 5)},
        {"-25, up: between two", -25, SKUT_ROUND_UP, UP(0, 1, 5)},
        {"-20, up: the lowest of equals", -20, SKUT_ROUND_UP, EXACT(1, 5)},
        {"0, up: between two", 0, SKUT_ROUND_UP, UP(4, 5, 9)},
        {"40, up: the last", 40, SKUT_ROUND_UP, EXACT(5, 9)},
        {"41, up: after the last", 41, SKUT_ROUND_UP, NOTHING(SKUT_WHY_AFTER_LAST)},
        {"2^63-1, up: after the last", INT64_MAX, SKUT_ROUND_UP, NOTHING(SKUT_WHY_AFTER_LAST)},
        {"-2^63, down: before the first", INT64_MIN, SKUT_ROUND_DOWN, NOTHING(SKUT_WHY_BEFORE_FIRST)},
        {"-31, down: before the first", -31, SKUT_ROUND_DOWN, NOTHING(SKUT_WHY_BEFORE_FIRST)},
        {"-30, down: the first", -30, SKUT_ROUND_DOWN, EXACT(0, 5)},
        {"-25, down: between two", -25, SKUT_ROUND_DOWN, DOWN(0, 1, 5)},
        {"-20, down: the highest of equals", -20, SKUT_ROUND_DOWN, EXACT(4, 9)},
        {"0, down: between two", 0, SKUT_ROUND_DOWN, DOWN(4, 5, 9)},
        {"40, down: the last", 40, SKUT_ROUND_DOWN, EXACT(5, 9)},
        {"41, down: the last, from above it", 41, SKUT_ROUND_DOWN, DOWN_TO_LAST(5, 9)},
        {"2^63-1, down: the last, from above it", INT64_MAX, SKUT_ROUND_DOWN, DOWN_TO_LAST(5, 9)},
        {"0, round 2: down", 0, 2, DOWN(4, 5, 9)},
        {"-31, round 2^32-1: before the first", -31, UINT32_MAX, NOTHING(SKUT_WHY_BEFORE_FIRST)},
    };
    for (size_t i = 0; i < sizeof cases / sizeof cases[0]; i++) {
        explains(SEQ, cases[i].when, skut_why_seq(TABLE, cases[i].sec, cases[i].round), cases[i].due);
    }
}

/* A table with no pair, whatever its arrays hold. */
static void empty(void)
{
    const struct table none = {"no pair", {0, 7, 0, 0, 0, NO_TOTALS}, few_seqs, few_secs, 8}, *table = &none;
    for (size_t i = 0; i < ROUNDS; i++) {
        explains(TS, "no pair, a sequence that stands in the array", skut_why_ts(TABLE, 5, rounds[i]), NOTHING(SKUT_WHY_EMPTY));
        explains(TS, "no pair, the least sequence", skut_why_ts(TABLE, 0, rounds[i]), NOTHING(SKUT_WHY_EMPTY));
        explains(TS, "no pair, the greatest sequence", skut_why_ts(TABLE, UINT64_MAX, rounds[i]), NOTHING(SKUT_WHY_EMPTY));
        explains(SEQ, "no pair, a second that stands in the array", skut_why_seq(TABLE, -20, rounds[i]), NOTHING(SKUT_WHY_EMPTY));
        explains(SEQ, "no pair, the least second", skut_why_seq(TABLE, INT64_MIN, rounds[i]), NOTHING(SKUT_WHY_EMPTY));
        explains(SEQ, "no pair, the greatest second", skut_why_seq(TABLE, INT64_MAX, rounds[i]), NOTHING(SKUT_WHY_EMPTY));
    }
}

/* Keys at the ends of what a table can keep. Past the first and the last second there are others to ask for, past the sequences there are none. */
static void ends(void)
{
    static const uint64_t seqs[2] = {0, UINT64_MAX};
    static const int64_t secs[2] = {FIRST_SECOND, LAST_SECOND};
    const struct table both = {"both ends", {2, 2, 1, 0, LAST_SECOND, NO_TOTALS}, seqs, secs, 2}, *table = &both;
    explains(TS, "sequence 0, up", skut_why_ts(TABLE, 0, SKUT_ROUND_UP), EXACT(0, FIRST_SECOND));
    explains(TS, "sequence 0, down", skut_why_ts(TABLE, 0, SKUT_ROUND_DOWN), EXACT(0, FIRST_SECOND));
    explains(TS, "sequence 1, up", skut_why_ts(TABLE, 1, SKUT_ROUND_UP), UP(0, 1, LAST_SECOND));
    explains(TS, "sequence 2^64-2, down", skut_why_ts(TABLE, UINT64_MAX - 1, SKUT_ROUND_DOWN), DOWN(0, 1, FIRST_SECOND));
    explains(TS, "sequence 2^63, down: a sequence is not signed", skut_why_ts(TABLE, UINT64_C(1) << 63, SKUT_ROUND_DOWN), DOWN(0, 1, FIRST_SECOND));
    explains(TS, "sequence 2^64-1, up", skut_why_ts(TABLE, UINT64_MAX, SKUT_ROUND_UP), EXACT(1, LAST_SECOND));
    explains(TS, "sequence 2^64-1, down", skut_why_ts(TABLE, UINT64_MAX, SKUT_ROUND_DOWN), EXACT(1, LAST_SECOND));
    explains(SEQ, "the first second, up", skut_why_seq(TABLE, FIRST_SECOND, SKUT_ROUND_UP), EXACT(0, 0));
    explains(SEQ, "one before it, up", skut_why_seq(TABLE, FIRST_SECOND - 1, SKUT_ROUND_UP), UP_TO_FIRST(0));
    explains(SEQ, "one before it, down", skut_why_seq(TABLE, FIRST_SECOND - 1, SKUT_ROUND_DOWN), NOTHING(SKUT_WHY_BEFORE_FIRST));
    explains(SEQ, "the second -2^63, up", skut_why_seq(TABLE, INT64_MIN, SKUT_ROUND_UP), UP_TO_FIRST(0));
    explains(SEQ, "the second -1, down", skut_why_seq(TABLE, -1, SKUT_ROUND_DOWN), DOWN(0, 1, 0));
    explains(SEQ, "the last second, down", skut_why_seq(TABLE, LAST_SECOND, SKUT_ROUND_DOWN), EXACT(1, UINT64_MAX));
    explains(SEQ, "one after it, down", skut_why_seq(TABLE, LAST_SECOND + 1, SKUT_ROUND_DOWN), DOWN_TO_LAST(1, UINT64_MAX));
    explains(SEQ, "one after it, up", skut_why_seq(TABLE, LAST_SECOND + 1, SKUT_ROUND_UP), NOTHING(SKUT_WHY_AFTER_LAST));
    explains(SEQ, "the second 2^63-1, down", skut_why_seq(TABLE, INT64_MAX, SKUT_ROUND_DOWN), DOWN_TO_LAST(1, UINT64_MAX));
}

static uint64_t seqs[PLACES];
static int64_t secs[PLACES];

/* The first and the last position of a full table: of keys that all rise, and of keys that are all equal. */
static void full(void)
{
    const struct table all = {"8,192 pairs", {PLACES, PLACES, 1, 0, 5 * (PLACES - 1) - 20000, NO_TOTALS}, seqs, secs, PLACES}, *table = &all;
    for (size_t i = 0; i < PLACES; i++) {
        seqs[i] = 3 * i + 1;
        secs[i] = 5 * (int64_t)i - 20000;
    }
    explains(TS, "8,192 pairs, below the first, up", skut_why_ts(TABLE, 0, SKUT_ROUND_UP), UP_TO_FIRST(-20000));
    explains(TS, "8,192 pairs, below the first, down", skut_why_ts(TABLE, 0, SKUT_ROUND_DOWN), NOTHING(SKUT_WHY_BEFORE_FIRST));
    explains(TS, "8,192 pairs, before the last, up", skut_why_ts(TABLE, 24573, SKUT_ROUND_UP), UP(8190, 8191, 20955));
    explains(TS, "8,192 pairs, before the last, down", skut_why_ts(TABLE, 24573, SKUT_ROUND_DOWN), DOWN(8190, 8191, 20950));
    explains(TS, "8,192 pairs, the last, up", skut_why_ts(TABLE, 24574, SKUT_ROUND_UP), EXACT(8191, 20955));
    explains(TS, "8,192 pairs, above the last, up", skut_why_ts(TABLE, 24575, SKUT_ROUND_UP), NOTHING(SKUT_WHY_AFTER_LAST));
    explains(TS, "8,192 pairs, above the last, down", skut_why_ts(TABLE, 24575, SKUT_ROUND_DOWN), DOWN_TO_LAST(8191, 20955));
    explains(SEQ, "8,192 pairs, below the first, up", skut_why_seq(TABLE, -20001, SKUT_ROUND_UP), UP_TO_FIRST(1));
    explains(SEQ, "8,192 pairs, before the last, down", skut_why_seq(TABLE, 20954, SKUT_ROUND_DOWN), DOWN(8190, 8191, 24571));
    explains(SEQ, "8,192 pairs, above the last, down", skut_why_seq(TABLE, 20956, SKUT_ROUND_DOWN), DOWN_TO_LAST(8191, 24574));

    const struct table equal = {"8,192 equal pairs", {PLACES, PLACES, 1, 0, -3, NO_TOTALS}, seqs, secs, PLACES};
    table = &equal;
    for (size_t i = 0; i < PLACES; i++) {
        seqs[i] = 7;
        secs[i] = -3;
    }
    explains(TS, "8,192 equal pairs, up", skut_why_ts(TABLE, 7, SKUT_ROUND_UP), EXACT(0, -3));
    explains(TS, "8,192 equal pairs, down", skut_why_ts(TABLE, 7, SKUT_ROUND_DOWN), EXACT(8191, -3));
    explains(TS, "8,192 equal pairs, below them, up", skut_why_ts(TABLE, 6, SKUT_ROUND_UP), UP_TO_FIRST(-3));
    explains(TS, "8,192 equal pairs, above them, down", skut_why_ts(TABLE, 8, SKUT_ROUND_DOWN), DOWN_TO_LAST(8191, -3));
    explains(SEQ, "8,192 equal pairs, up", skut_why_seq(TABLE, -3, SKUT_ROUND_UP), EXACT(0, 7));
    explains(SEQ, "8,192 equal pairs, down", skut_why_seq(TABLE, -3, SKUT_ROUND_DOWN), EXACT(8191, 7));
}

/* A second as a number whose order without a sign is that of the seconds, so that one look does for both columns. */
static uint64_t ordered(int64_t sec)
{
    return (uint64_t)sec ^ UINT64_C(1) << 63;
}

/* What is due, by how many of the keys are below the one asked for and how many equal it. */
static struct skut_why looked_at(const uint64_t *keys, const uint64_t *partners, size_t n, uint64_t asked, uint32_t round)
{
    size_t below = 0, equal = 0;
    for (size_t i = 0; i < n; i++) {
        below += keys[i] < asked;
        equal += keys[i] == asked;
    }
    if (n == 0) {
        return NOTHING(SKUT_WHY_EMPTY);
    }
    if (equal != 0) {
        size_t at = round == SKUT_ROUND_UP ? below : below + equal - 1;
        return EXACT(at, partners[at]);
    }
    if (round == SKUT_ROUND_UP) {
        return below == n ? NOTHING(SKUT_WHY_AFTER_LAST) : below == 0 ? UP_TO_FIRST(partners[0]) : UP(below - 1, below, partners[below]);
    }
    return below == 0   ? NOTHING(SKUT_WHY_BEFORE_FIRST)
           : below == n ? DOWN_TO_LAST(n - 1, partners[n - 1])
                        : DOWN(below - 1, below, partners[below - 1]);
}

/* How often each reason was due in what was looked at. */
static size_t due_of[SKUT_WHY_EMPTY + 1];

static int same_answer(struct skut_answer one, struct skut_answer other)
{
    return same_why((struct skut_why){.answer = one}, (struct skut_why){.answer = other});
}

/* About each key of a table, and at the ends of the numbers: what is told is what is due, and its answer is the lookup's. */
static void beside_a_look(const struct table *table)
{
    static uint64_t seq_bits[PLACES], sec_bits[PLACES], sec_keys[PLACES];
    size_t n = table->state.count, step = n > 100 ? 1367 : 1;
    for (size_t i = 0; i < n; i++) {
        seq_bits[i] = table->seqs[i];
        sec_bits[i] = (uint64_t)table->secs[i];
        sec_keys[i] = ordered(table->secs[i]);
    }
    for (size_t r = 0; r < ROUNDS; r++) {
        char when[80];
        size_t other = 0, unlike = 0;
        struct skut_why got = {0}, due = {0};
        for (size_t i = 0; i < n + 5; i += i < n ? step : 1) {
            for (int near = -1; near <= 1; near++) {
                static const uint64_t far_seqs[] = {0, 1, UINT64_C(1) << 63, UINT64_MAX - 1, UINT64_MAX};
                static const int64_t far_secs[] = {INT64_MIN + 1, FIRST_SECOND, 0, LAST_SECOND, INT64_MAX - 1};
                size_t far = i < n ? 0 : i - n;
                uint64_t seq = (i < n ? table->seqs[i] : far_seqs[far]) + (uint64_t)near;
                int64_t sec = (i < n ? table->secs[i] : far_secs[far]) + near;
                struct skut_why why[] = {skut_why_ts(TABLE, seq, rounds[r]), skut_why_seq(TABLE, sec, rounds[r])};
                struct skut_answer alone[] = {skut_find_ts(TABLE, seq, rounds[r]), skut_find_seq(TABLE, sec, rounds[r])};
                struct skut_why look[] = {looked_at(seq_bits, sec_bits, n, seq, rounds[r]), looked_at(sec_keys, seq_bits, n, ordered(sec), rounds[r])};
                for (size_t k = 0; k < 2; k++) {
                    due_of[look[k].reason]++;
                    unlike += !same_answer(why[k].answer, alone[k]);
                    if (!same_why(why[k], look[k]) && other++ == 0) {
                        got = why[k];
                        due = look[k];
                    }
                }
            }
        }
        snprintf(when, sizeof when, "%s, round %u", table->name, rounds[r]);
        holds(TS ", " SEQ ", beside a look at every key", when, other == 0, "%zu are others, the first expected %s, and it is %s", other, why_text(due),
              why_text(got));
        holds(TS ", " SEQ ", the answer is the lookup's", when, unlike == 0, "%zu are not", unlike);
    }
}

/* Tables of every number of pairs up to 12, in runs of equal keys of every kind of length, and of those about which the library's search changes. */
static void many(void)
{
    static const size_t sizes[] = {0, 1, 2, 3, 4, 5, 6, 7, 8, 9, 10, 11, 12, 100, 4095, 4096, 4097, 8191, 8192};
    for (size_t s = 0; s < sizeof sizes / sizeof sizes[0]; s++) {
        for (unsigned run = 1; run <= 5; run++) {
            char name[40];
            size_t n = sizes[s];
            for (size_t i = 0; i < n; i++) {
                seqs[i] = 10 + 2 * (i / run);
                secs[i] = 3 * (int64_t)((i + 1) / (6 - run)) - 5000;
            }
            snprintf(name, sizeof name, "%zu pairs in runs of %u and %u", n, run, 6 - run);
            struct skut_state state = {n, PLACES, n != 0, 0, n == 0 ? 0 : secs[n - 1], {.recorded = n}};
            const struct table made = {name, state, seqs, secs, PLACES}, *table = &made;
            answers("skut_check", name, skut_check(TABLE), SKUT_DONE, 0, 0, 0);
            beside_a_look(table);
        }
    }
    beside_a_look(&few);
    for (uint32_t reason = SKUT_WHY_EXACT; reason <= SKUT_WHY_EMPTY; reason++) {
        char when[40];
        snprintf(when, sizeof when, "reason %u", reason);
        holds("what was looked at", when, due_of[reason] >= 100, "it was due %zu times", due_of[reason]);
    }
}

/* A table that is refused by a number and tells a: there is no reason, and no position. */
static void bad(const struct table *table, uint32_t number, uint64_t a)
{
    for (size_t i = 0; i < ROUNDS; i++) {
        char when[80];
        snprintf(when, sizeof when, "%s, round %u", table->name, rounds[i]);
        explains_nothing(TS, when, skut_why_ts(TABLE, 6, rounds[i]), number, a);
        explains_nothing(SEQ, when, skut_why_seq(TABLE, -25, rounds[i]), number, a);
        holds(TS ", as the lookup", when, same_answer(skut_why_ts(TABLE, 6, rounds[i]).answer, skut_find_ts(TABLE, 6, rounds[i])), "it is another answer");
        holds(SEQ ", as the lookup", when, same_answer(skut_why_seq(TABLE, -25, rounds[i]).answer, skut_find_seq(TABLE, -25, rounds[i])),
              "it is another answer");
    }
}

static void bad_tables(void)
{
    static const uint64_t dropping[8] = {5, 5, 7, 7, 9, 8}, dropping_twice[8] = {5, 4, 7, 6, 9, 9};
    static const int64_t earlier[8] = {-30, -31, -20, -20, -20, 40}, outside[8] = {FIRST_SECOND - 1, -20, -20, -20, -20, 40};
    static const int64_t after[8] = {-30, -20, -20, -20, -20, LAST_SECOND + 1};
    struct skut_state good = few.state, unmarked = good, neither = good, any = good, counted = good, large = good, slow = good, past = good, totals = good;
    struct skut_state late = good;
    unmarked.has_last = 0;
    neither.has_last = 2;
    any.has_last = UINT32_MAX;
    counted.count = SIZE_MAX;
    large.capacity = PLACES + 1;
    slow.interval_secs = UINT64_C(1) << 63;
    past.last = 39;
    totals.totals = (struct skut_totals){.recorded = UINT64_MAX, .refused = 1};
    late.last = LAST_SECOND;
    const struct {
        struct table table;
        uint32_t number;
        uint64_t a;
    } tables[] = {
        {{"a mark of 0", unmarked, few_seqs, few_secs, 8}, SKUT_STATE_DISAGREES, 0},
        {{"a mark of 2", neither, few_seqs, few_secs, 8}, SKUT_STATE_DISAGREES, 0},
        {{"a mark of 2^32-1", any, few_seqs, few_secs, 8}, SKUT_STATE_DISAGREES, 0},
        {{"a count of 2^64-1", counted, few_seqs, few_secs, 8}, SKUT_STATE_DISAGREES, 0},
        {{"a capacity of 8,193", large, few_seqs, few_secs, 8}, SKUT_STATE_DISAGREES, 0},
        {{"an interval of 2^63", slow, few_seqs, few_secs, 8}, SKUT_STATE_DISAGREES, 0},
        {{"a last second below the last pair's", past, few_seqs, few_secs, 8}, SKUT_STATE_DISAGREES, 0},
        {{"totals above 2^64-1", totals, few_seqs, few_secs, 8}, SKUT_STATE_DISAGREES, 0},
        {{"too few places", good, few_seqs, few_secs, 6}, SKUT_STATE_DISAGREES, 0},
        {{"a mark of 2, and a sequence drops", neither, dropping, few_secs, 8}, SKUT_STATE_DISAGREES, 0},
        {{"the last sequence drops", good, dropping, few_secs, 8}, SKUT_SEQUENCE_DROPS, 5},
        {{"two sequences drop", good, dropping_twice, few_secs, 8}, SKUT_SEQUENCE_DROPS, 1},
        {{"a sequence and a second drop", good, dropping, earlier, 8}, SKUT_SEQUENCE_DROPS, 5},
        {{"a second drops", good, few_seqs, earlier, 8}, SKUT_SECOND_DROPS, 1},
        {{"the first second is before the year 0001", good, few_seqs, outside, 8}, SKUT_SECOND_OUTSIDE, 0},
        {{"the last second is after the year 9999, and the state's is not", late, few_seqs, after, 8}, SKUT_STATE_DISAGREES, 0},
    };
    for (size_t i = 0; i < sizeof tables / sizeof tables[0]; i++) {
        bad(&tables[i].table, tables[i].number, tables[i].a);
    }
}

void why_cases(void)
{
    by_sequence();
    by_second();
    empty();
    ends();
    full();
    many();
    bad_tables();
}
