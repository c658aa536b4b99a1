/* The totals of a state: what each offer counts, the state that comes with 16 and 17, where 31 comes, sums that 14 refuses, and that nothing else goes by them. */
#include "cases.h"

#include <stdio.h>
#include <string.h>

static uint64_t seqs[PLACES], other_seqs[PLACES], due_seqs[PLACES];
static int64_t secs[PLACES], other_secs[PLACES], due_secs[PLACES];

#define ARRAYS seqs, PLACES, secs, PLACES
#define OTHER other_seqs, PLACES, other_secs, PLACES
#define DUE due_seqs, PLACES, due_secs, PLACES

#define MOST UINT64_MAX
#define BIT(N) ((uint64_t)1 << (N))
#define LENGTH(LIST) (sizeof(LIST) / sizeof(LIST)[0])

/* Totals that add up to 2^64-1. */
static const struct skut_totals full[] = {
    {MOST, 0, 0, 0},
    {0, MOST, 0, 0},
    {0, 0, MOST, 0},
    {0, 0, 0, MOST},
    {BIT(63), BIT(63) - 1, 0, 0},
    {BIT(62), BIT(62), BIT(62), BIT(62) - 1},
    {1, 2, 3, MOST - 6},
};

/* Totals that add up to 2^64 or more, some of them to a small number by 64 bits. */
static const struct skut_totals too_large[] = {
    {MOST, 1, 0, 0},
    {MOST, 0, 1, 0},
    {MOST, 0, 0, 1},
    {1, MOST, 0, 0},
    {0, 1, MOST, 0},
    {0, 0, 1, MOST},
    {BIT(63), BIT(63), 0, 0},
    {BIT(63), 0, 0, BIT(63)},
    {BIT(62), BIT(62), BIT(62), BIT(62)},
    {MOST, MOST, 2, 0},
    {0, 2, MOST, MOST},
    {MOST, MOST, MOST, MOST},
};

/* Two pairs at interval 10, in arrays that hold other values past them. The next cases' offers are to this table. */
static struct skut_state made(struct skut_totals totals)
{
    const uint64_t q[] = {5, 7};
    const int64_t s[] = {100, 120};
    hold(seqs, secs);
    struct skut_state table = skut_offer_pairs(skut_with_config(PLACES, 10).state, ARRAYS, q, 2, s, 2).state;
    table.totals = totals;
    memcpy(due_seqs, seqs, sizeof seqs);
    memcpy(due_secs, secs, sizeof secs);
    return table;
}

static void as_due(const char *call, const char *when)
{
    int same = memcmp(seqs, due_seqs, sizeof seqs) == 0 && memcmp(secs, due_secs, sizeof secs) == 0;
    holds(call, when, same, "the arrays hold other values");
}

/* Each way that an offer to it goes. */
static const struct offer {
    const char *when;
    uint64_t seq;
    int64_t sec;
    uint32_t number;
    struct skut_tally tally;
} offers[] = {
    {"recorded", 7, 130, SKUT_DONE, {.recorded = 1}},
    {"went back", 8, 119, SKUT_DONE, {.went_back = 1}},
    {"went back, and the sequence drops", 6, FIRST_SECOND, SKUT_DONE, {.went_back = 1}},
    {"too soon", 8, 120, SKUT_DONE, {.too_soon = 1}},
    {"too soon, and the sequence drops", 0, 129, SKUT_DONE, {.too_soon = 1}},
    {"17", 6, 130, SKUT_OFFERED_DROPS, {.recorded = 0}},
    {"17 at the last second", 0, LAST_SECOND, SKUT_OFFERED_DROPS, {.recorded = 0}},
    {"16 after the years", 8, LAST_SECOND + 1, SKUT_OFFERED_OUTSIDE, {.recorded = 0}},
    {"16 before the years", 8, FIRST_SECOND - 1, SKUT_OFFERED_OUTSIDE, {.recorded = 0}},
    {"16 at the least second, and the sequence drops", 0, INT64_MIN, SKUT_OFFERED_OUTSIDE, {.recorded = 0}},
};

/* The state that an offer leaves: it counts the offer and, recorded, has the pair. The arrays due have it, too. */
static struct skut_state left_by(const struct offer *offer, struct skut_state table)
{
    struct skut_state after = counting(table, offer->tally, offer->number == SKUT_DONE ? 0 : 1);
    if (offer->tally.recorded == 1) {
        due_seqs[after.count] = offer->seq;
        due_secs[after.count++] = offer->sec;
        after.last = offer->sec;
    }
    return after;
}

/* One offer counts once, from any totals that leave room for it, and nothing else of the state or the arrays is another where it is not recorded. */
static void each_outcome(void)
{
    const struct skut_totals before[] = {
        NO_TOTALS, {1, 2, 3, 4}, {MOST - 1, 0, 0, 0}, {0, MOST - 1, 0, 0}, {0, 0, MOST - 1, 0}, {0, 0, 0, MOST - 1}, {BIT(62), BIT(62), BIT(62), BIT(62) - 2},
    };
    for (size_t i = 0; i < LENGTH(offers); i++) {
        for (size_t j = 0; j < LENGTH(before); j++) {
            char when[80];
            snprintf(when, sizeof when, "%s, totals %zu", offers[i].when, j);
            struct skut_state table = made(before[j]), after = left_by(&offers[i], table);
            struct skut_table_answer said = skut_offer(table, ARRAYS, offers[i].seq, offers[i].sec);
            if (offers[i].number == SKUT_DONE) {
                gives("skut_offer", when, said, offers[i].tally, after);
            } else {
                stops("skut_offer", when, said, offers[i].number, NO_PAIR, after);
                holds("skut_offer, every byte of the state", when, memcmp(&said.state, &after, sizeof after) == 0, "one is another");
            }
            as_due("skut_offer, the arrays", when);
            answers("skut_check after skut_offer", when, skut_check(said.state, ARRAYS), SKUT_DONE, 0, 0, 0);
        }
    }
}

/* After 16 or 17 the state returned goes on, and the one passed goes on with a count less. */
static void goes_on(void)
{
    struct skut_state table = made((struct skut_totals){2, 0, 0, 0});
    struct skut_state outside = skut_offer(table, ARRAYS, 9, INT64_MAX).state, both = skut_offer(outside, ARRAYS, 6, 130).state;
    struct skut_state after = {3, PLACES, 1, 10, 130, {3, 0, 0, 2}};
    gives("skut_offer", "the state of 16, then of 17, goes on", skut_offer(both, ARRAYS, 7, 130), TALLY(.recorded = 1), after);
    after.totals.refused = 0;
    table = made((struct skut_totals){2, 0, 0, 0});
    skut_offer(table, ARRAYS, 9, INT64_MAX);
    skut_offer(table, ARRAYS, 6, 130);
    gives("skut_offer", "the state passed goes on with no refusal counted", skut_offer(table, ARRAYS, 7, 130), TALLY(.recorded = 1), after);
}

/* One pair by each call that offers a list: stopped at it, with this state. */
static void lists_stop(const char *when, struct skut_state table, const struct offer *offer, uint32_t number, struct skut_state state)
{
    stops("skut_offer_pairs of one", when, skut_offer_pairs(table, ARRAYS, &offer->seq, 1, &offer->sec, 1), number, NO_PAIR, state);
    /* No good table has a second outside the years. */
    if (offer->number != SKUT_OFFERED_OUTSIDE) {
        other_seqs[0] = offer->seq;
        other_secs[0] = offer->sec;
        struct skut_state other = {1, PLACES, 1, 0, offer->sec, {MOST, 0, 0, 0}};
        stops("skut_extend_from one", when, skut_extend_from(table, ARRAYS, other, OTHER), number, NO_PAIR, state);
    }
}

/* At 2^64-1 every offer is refused by 31, whatever would come of it, and nothing is counted. */
static void no_more(void)
{
    for (size_t i = 0; i < LENGTH(full); i++) {
        struct skut_state table = made(full[i]);
        for (size_t j = 0; j < LENGTH(offers); j++) {
            char when[100];
            snprintf(when, sizeof when, "totals %zu of 2^64-1: 31 before %s", i, offers[j].when);
            gives_none("skut_offer", when, skut_offer(table, ARRAYS, offers[j].seq, offers[j].sec), SKUT_TOTALS_FULL, 0);
            lists_stop(when, table, &offers[j], SKUT_TOTALS_FULL, table);
        }
        gives("skut_offer_pairs", "no pair is offered at 2^64-1", skut_offer_pairs(table, ARRAYS, NONE, NONE), NO_PAIR, table);
        gives("skut_extend_from", "no pair is offered at 2^64-1", skut_extend_from(table, ARRAYS, skut_new().state, OTHER), NO_PAIR, table);
        as_due("the calls that offer, the arrays", "31 leaves them as they were");
    }
    for (size_t j = 0; j < LENGTH(offers); j++) {
        if (offers[j].number != SKUT_DONE) {
            struct skut_state table = made((struct skut_totals){1, 2, 3, MOST - 7});
            lists_stop(offers[j].when, table, &offers[j], offers[j].number, counting(table, NO_PAIR, 1));
            as_due("the lists of offers, the arrays", offers[j].when);
        }
    }
}

/* 18, 14, 11, 12 and 13 come before 31, and 14 before 11, 12 and 13 where the totals are too large. */
static void order(void)
{
    const struct {
        uint32_t number;
        uint64_t seqs[2];
        int64_t secs[2];
        uint64_t index;
    } bad[] = {
        {SKUT_SEQUENCE_DROPS, {5, 4}, {100, 120}, 1},
        {SKUT_SECOND_DROPS, {5, 7}, {100, 99}, 1},
        {SKUT_SECOND_OUTSIDE, {5, 7}, {FIRST_SECOND - 1, 120}, 0},
    };
    const uint64_t q = 8;
    const int64_t s = INT64_MAX;
    char when[80];
    struct skut_state fresh = skut_new().state, table = made(full[0]), other = {1, PLACES, 1, 0, 130, NO_TOTALS}, neither = table;
    other_seqs[0] = 8;
    other_secs[0] = 130;
    neither.has_last = 2;
    gives_none("skut_offer", "14 before 31", skut_offer(neither, ARRAYS, q, s), SKUT_STATE_DISAGREES, 0);
    gives_none("skut_offer_pairs", "14 before 31", skut_offer_pairs(neither, ARRAYS, &q, 1, &s, 1), SKUT_STATE_DISAGREES, 0);
    gives_none("skut_offer_pairs", "18 before 31", skut_offer_pairs(table, ARRAYS, &q, 1, NONE), SKUT_LENGTHS_DIFFER, 0);
    gives_none("skut_extend_from", "14 of the own table before 31", skut_extend_from(neither, ARRAYS, other, OTHER), SKUT_STATE_DISAGREES, 0);
    gives_none("skut_extend_from", "14 of the other table before 31", skut_extend_from(table, ARRAYS, neither, OTHER), SKUT_STATE_DISAGREES, 1);
    for (size_t i = 0; i < LENGTH(bad); i++) {
        uint32_t number = bad[i].number;
        snprintf(when, sizeof when, "%u before 31", number);
        memcpy(seqs, bad[i].seqs, sizeof bad[i].seqs);
        memcpy(secs, bad[i].secs, sizeof bad[i].secs);
        for (size_t j = 0; j < LENGTH(full); j++) {
            table.totals = full[j];
            gives_none("skut_offer", when, skut_offer(table, ARRAYS, q, s), number, bad[i].index);
            gives_none("skut_offer_pairs", when, skut_offer_pairs(table, ARRAYS, &q, 1, &s, 1), number, bad[i].index);
            gives_none("skut_extend_from, own", when, skut_extend_from(table, ARRAYS, other, OTHER), number, bad[i].index);
            fresh.totals = full[j];
            struct skut_answer due = {number, bad[i].index, 1, 0, 0, 0};
            gives_none_all("skut_extend_from, other", when, skut_extend_from(fresh, OTHER, table, ARRAYS), due);
        }
        snprintf(when, sizeof when, "14 before %u", number);
        table.totals = too_large[i];
        gives_none("skut_offer", when, skut_offer(table, ARRAYS, q, s), SKUT_STATE_DISAGREES, 0);
        answers("skut_check", when, skut_check(table, ARRAYS), SKUT_STATE_DISAGREES, 0, 0, 0);
    }
}

/* Totals that do not add up within 64 bits are refused by every call that takes a table. */
static void not_within(void)
{
    char when[80];
    const uint64_t q = 8;
    for (size_t i = 0; i < LENGTH(too_large); i++) {
        struct skut_state empty = skut_new().state, table = made(too_large[i]);
        empty.totals = too_large[i];
        const char *taker = taken_by(empty);
        snprintf(when, sizeof when, "totals %zu of 2^64 or more are refused by 14", i);
        holds("every call", when, taker == NULL, "%s takes them", taker == NULL ? "none" : taker);
        gives_none("skut_offer", when, skut_offer(table, ARRAYS, 7, 130), SKUT_STATE_DISAGREES, 0);
        gives_none("skut_offer_pairs, 18 first", when, skut_offer_pairs(table, ARRAYS, &q, 1, NONE), SKUT_LENGTHS_DIFFER, 0);
        as_due("skut_offer, the arrays", when);
    }
    for (size_t i = 0; i < LENGTH(full); i++) {
        struct skut_state empty = skut_new().state;
        empty.totals = full[i];
        snprintf(when, sizeof when, "totals %zu of 2^64-1 are not refused by 14", i);
        holds("a state", when, taken_by(empty) != NULL, "every call refuses it");
    }
}

/* What does not offer answers the same at any totals, and writes the same bytes; no image carries them. */
static void nothing_else(void)
{
    uint8_t plain[64], image[64];
    char when[80];
    struct skut_state table = made((struct skut_totals)NO_TOTALS), back = {2, PLACES, 1, 10, 120, NO_TOTALS};
    size_t length = skut_save(table, ARRAYS, plain, sizeof plain).a;
    for (size_t i = 0; i < LENGTH(full) + 1; i++) {
        struct skut_state counted = table;
        counted.totals = i < LENGTH(full) ? full[i] : (struct skut_totals){1, 2, 3, 4};
        snprintf(when, sizeof when, "as with totals of 0, totals %zu", i);
        answers("skut_check", when, skut_check(counted, ARRAYS), SKUT_DONE, 0, 0, 0);
        for (uint32_t round = 0; round < 2; round++) {
            answers_all("skut_find_ts", when, skut_find_ts(counted, ARRAYS, 6, round), skut_find_ts(table, ARRAYS, 6, round));
            answers_all("skut_find_seq", when, skut_find_seq(counted, ARRAYS, 110, round), skut_find_seq(table, ARRAYS, 110, round));
        }
        memset(image, 0, sizeof image);
        answers("skut_save", when, skut_save(counted, ARRAYS, image, sizeof image), SKUT_DONE, length, 0, 0);
        holds("skut_save, the bytes", when, memcmp(image, plain, length) == 0, "they are others");
        memset(image, 0, sizeof image);
        answers("skut_save_strict", when, skut_save_strict(counted, ARRAYS, image, sizeof image), SKUT_DONE, length, 0, 0);
        holds("skut_save_strict, the bytes", when, memcmp(image, plain, length) == 0, "they are others");
        answers("skut_save", "21 at any totals", skut_save(counted, ARRAYS, image, length - 1), SKUT_ROOM, length, 0, 0);
        gives("skut_restore", "the totals are 0", skut_restore(image, length, OTHER), NO_PAIR, back);
        gives("skut_restore_with_interval", "the totals are 0", skut_restore_with_interval(image, length, OTHER, 10), NO_PAIR, back);
    }
    gives("skut_new", "the totals are 0", skut_new(), NO_PAIR, (struct skut_state){0, PLACES, 0, 10, 0, NO_TOTALS});
    gives("skut_with_config", "the totals are 0", skut_with_config(3, 60), NO_PAIR, (struct skut_state){0, 3, 0, 60, 0, NO_TOTALS});
}

/* A list, to totals with room for no offer, for one, and so on: the offers that there is room for go as they do alone, and the next one is refused by 31. With room
 * for more than the pairs before `end`, that one is refused by `number`, and counted; or it is the list's end. */
static void listed(const char *when, const uint64_t *q, const int64_t *s, size_t n, size_t end, uint32_t number, struct skut_tally tally)
{
    for (size_t room = 0; room <= n + 1; room++) {
        for (int extends = 0; extends < 2; extends++) {
            char text[120];
            const char *call = extends ? "skut_extend_from" : "skut_offer_pairs";
            struct skut_state table = made((struct skut_totals){MOST - 6 - room, 1, 2, 3});
            struct skut_table_answer said;
            if (!extends) {
                said = skut_offer_pairs(table, ARRAYS, q, n, s, n);
            } else if (number == SKUT_OFFERED_OUTSIDE) {
                continue; /* no good table has such a second */
            } else {
                memcpy(other_seqs, q, n * sizeof q[0]);
                memcpy(other_secs, s, n * sizeof s[0]);
                struct skut_state other = {n, PLACES, 1, 0, s[n - 1], {4, 3, 2, MOST - 9}};
                said = skut_extend_from(table, ARRAYS, other, OTHER);
            }
            snprintf(text, sizeof text, "%s, with room for %zu", when, room);
            size_t first = room < end ? room : end;
            struct skut_table_answer alone = skut_offer_pairs(table, DUE, q, first, s, first);
            if (room <= end && room < n) {
                stops(call, text, said, SKUT_TOTALS_FULL, alone.tally, alone.state);
            } else if (number != SKUT_DONE) {
                stops(call, text, said, number, tally, counting(alone.state, NO_PAIR, 1));
            } else {
                gives(call, text, said, tally, alone.state);
            }
            as_due("the arrays", text);
        }
    }
}

static void lists(void)
{
    /* two that went back, one too soon, one recorded, one too soon, one recorded */
    const uint64_t q[] = {1, 2, 3, 8, 8, 9};
    const int64_t s[] = {100, 119, 125, 130, 139, 140};
    listed("a list to its end", q, s, 6, 6, SKUT_DONE, TALLY(.recorded = 2, .went_back = 2, .too_soon = 2));
    /* the same up to the fourth, whose sequence drops, or whose second is outside the years */
    const uint64_t low[] = {1, 2, 3, 6, 8, 9};
    const int64_t outside[] = {100, 119, 125, LAST_SECOND + 1, 139, 140};
    listed("a list up to 17", low, s, 6, 3, SKUT_OFFERED_DROPS, TALLY(.went_back = 2, .too_soon = 1));
    listed("a list up to 16", q, outside, 6, 3, SKUT_OFFERED_OUTSIDE, TALLY(.went_back = 2, .too_soon = 1));
}

static uint64_t below(uint64_t end)
{
    static uint64_t chance = 20160101;
    chance ^= chance << 13;
    chance ^= chance >> 7;
    chance ^= chance << 17;
    return chance % end;
}

/* Offers of chance, one by one and in lists, to a table that is halved again and again: the totals are what this counts by the rules. */
static void by_chance(void)
{
    struct skut_state table = skut_with_config(5, 10).state;
    struct skut_totals due = NO_TOTALS;
    uint64_t seq = 1000, lists = 0, wrong = 0;
    int64_t sec = -5000;
    for (size_t i = 0; i < 20000; i++) {
        uint64_t q[4];
        int64_t s[4];
        size_t n = below(3) == 0 ? 1 + below(4) : 0, given = n == 0 ? 1 : n;
        for (size_t j = 0; j < given; j++) {
            seq += below(100);
            sec += (int64_t)below(21);
            q[j] = below(20) == 0 ? seq - 900 : seq;
            s[j] = below(30) == 0 ? LAST_SECOND + 1 : below(8) == 0 ? sec - 25 : sec;
        }
        lists += n > 0;
        /* The rules go by the table before each pair of a list, so that they are offered to a copy, one by one. */
        struct skut_state copy = table;
        memcpy(other_seqs, seqs, 5 * sizeof seqs[0]);
        memcpy(other_secs, secs, 5 * sizeof secs[0]);
        for (size_t j = 0; j < given; j++) {
            int refused = s[j] > LAST_SECOND;
            if (refused) {
                due.refused++;
            } else if (copy.has_last && s[j] < copy.last) {
                due.went_back++;
            } else if (copy.has_last && s[j] - copy.last < 10) {
                due.too_soon++;
            } else if (copy.count > 0 && q[j] < other_seqs[copy.count - 1]) {
                due.refused++;
                refused = 1;
            } else {
                due.recorded++;
            }
            if (refused) {
                break;
            }
            copy = skut_offer(copy, OTHER, q[j], s[j]).state;
        }
        table = n == 0 ? skut_offer(table, ARRAYS, q[0], s[0]).state : skut_offer_pairs(table, ARRAYS, q, n, s, n).state;
        wrong += memcmp(&table.totals, &due, sizeof due) != 0;
    }
    holds("skut_offer, skut_offer_pairs", "20,000 offers and lists of chance count as the rules say", wrong == 0, "%llu times they do not", (unsigned long long)wrong);
    int tried = due.recorded > 5000 && due.went_back > 1000 && due.too_soon > 1000 && due.refused > 500 && lists > 5000;
    holds("skut_offer, skut_offer_pairs", "the offers of chance go every way", tried, "%llu, %llu, %llu, %llu", (unsigned long long)due.recorded,
          (unsigned long long)due.went_back, (unsigned long long)due.too_soon, (unsigned long long)due.refused);
}

void total_cases(void)
{
    each_outcome();
    goes_on();
    no_more();
    order();
    not_within();
    nothing_else();
    lists();
    by_chance();
}
