/* Why an offer is skipped: the second that decides, where each reason begins and ends, and that neither changes more than a total. */
#include "cases.h"

#include <string.h>

#define RECORDED TALLY(.recorded = 1)
#define WENT_BACK TALLY(.went_back = 1)
#define TOO_SOON TALLY(.too_soon = 1)

static uint64_t seqs[PLACES], other_seqs[PLACES];
static int64_t secs[PLACES], other_secs[PLACES];

#define ARRAYS seqs, PLACES, secs, PLACES
#define OTHER other_seqs, PLACES, other_secs, PLACES

/* What the arrays are to hold, to their ends: what they held, and each recorded pair. */
static uint64_t due_seqs[PLACES];
static int64_t due_secs[PLACES];

static void due_as_now(void)
{
    memcpy(due_seqs, seqs, sizeof seqs);
    memcpy(due_secs, secs, sizeof secs);
}

static void due_at(size_t at, uint64_t seq, int64_t sec)
{
    due_seqs[at] = seq;
    due_secs[at] = sec;
}

static void as_due(const char *call, const char *when)
{
    size_t i = 0;
    while (i < PLACES - 1 && seqs[i] == due_seqs[i] && secs[i] == due_secs[i]) {
        i++;
    }
    holds(call, when, seqs[i] == due_seqs[i] && secs[i] == due_secs[i], "the arrays hold (%llu, %lld) at %zu", (unsigned long long)seqs[i], (long long)secs[i], i);
}

/* A table after these pairs, in arrays that hold other values past them. */
static struct skut_state made(uint32_t capacity, uint64_t interval_secs, const uint64_t *q, const int64_t *s, size_t n)
{
    hold(seqs, secs);
    struct skut_state table = skut_offer_pairs(skut_with_config(capacity, interval_secs).state, ARRAYS, q, n, s, n).state;
    due_as_now();
    return table;
}

/* A table after one pair, of sequence 5. */
static struct skut_state made_at(uint64_t interval_secs, int64_t sec)
{
    const uint64_t q[] = {5};
    return made(PLACES, interval_secs, q, &sec, 1);
}

/* One offer to a table with room for it: recorded, the pair follows the kept ones; skipped, the state, but for its totals, and the arrays are as they were. */
static void offered(const char *when, struct skut_state table, uint64_t seq, int64_t sec, struct skut_tally tally)
{
    struct skut_state after = table;
    if (tally.recorded == 1) {
        after = (struct skut_state){table.count + 1, table.capacity, 1, table.interval_secs, sec, table.totals};
        due_at(table.count, seq, sec);
    }
    gives("skut_offer", when, skut_offer(table, ARRAYS, seq, sec), tally, counting(after, tally, 0));
    as_due("skut_offer, the arrays", when);
}

static void limits(void)
{
    const struct {
        const char *when;
        uint64_t interval_secs;
        int64_t last, sec;
        struct skut_tally tally;
    } offers[] = {
        {"interval 60: 99 after 100 went back", 60, 100, 99, WENT_BACK},
        {"interval 60: 100 after 100 is too soon", 60, 100, 100, TOO_SOON},
        {"interval 60: 159 after 100 is too soon", 60, 100, 159, TOO_SOON},
        {"interval 60: 160 after 100 is recorded", 60, 100, 160, RECORDED},
        {"interval 1: 99 after 100 went back", 1, 100, 99, WENT_BACK},
        {"interval 1: 100 after 100 is too soon", 1, 100, 100, TOO_SOON},
        {"interval 1: 101 after 100 is recorded", 1, 100, 101, RECORDED},
        {"interval 0: 99 after 100 went back", 0, 100, 99, WENT_BACK},
        {"interval 0: 100 after 100 is recorded", 0, 100, 100, RECORDED},
        {"interval 10: -11 after -10 went back", 10, -10, -11, WENT_BACK},
        {"interval 10: -1 after -10 is too soon", 10, -10, -1, TOO_SOON},
        {"interval 10: 0 after -10 is recorded", 10, -10, 0, RECORDED},
        {"interval 0: the first second after the last went back", 0, LAST_SECOND, FIRST_SECOND, WENT_BACK},
        {"interval 2^63-1: the first second after the last went back", INT64_MAX, LAST_SECOND, FIRST_SECOND, WENT_BACK},
        {"interval 2^63-1: the last second after the first is too soon", INT64_MAX, FIRST_SECOND, LAST_SECOND, TOO_SOON},
    };
    for (size_t i = 0; i < sizeof offers / sizeof offers[0]; i++) {
        offered(offers[i].when, made_at(offers[i].interval_secs, offers[i].last), 6, offers[i].sec, offers[i].tally);
    }
    offered("interval 2^63-1: the first offer is recorded", made(PLACES, INT64_MAX, NULL, NULL, 0), 6, FIRST_SECOND, RECORDED);
}

/* The pair of the last recorded second is not kept. */
static void last_recorded(void)
{
    const uint64_t q[] = {1, 2, 3, 4};
    const int64_t s[] = {10, 20, 30, 40};
    struct skut_state table = made(3, 0, q, s, 4);
    offered("39 went back, above the last kept second and below the last recorded one", table, 9, 39, WENT_BACK);
    offered("30, the last kept second, went back", table, 9, 30, WENT_BACK);
    offered("40, the last recorded second, is recorded at interval 0", table, 9, 40, RECORDED);
    offered("45 is recorded", made(3, 0, q, s, 4), 3, 45, RECORDED);
}

/* An image has the last kept second, and not the last recorded one; it has no interval, which is the one that is named, or 10. */
static void restored(void)
{
    const uint64_t q[] = {1, 2, 3, 4};
    const int64_t s[] = {10, 20, 30, 40};
    uint8_t image[64];
    struct skut_answer saved = skut_save_strict(made(3, 0, q, s, 4), ARRAYS, image, sizeof image);
    struct skut_state table = skut_restore(image, saved.a, ARRAYS).state;
    due_as_now();
    offered("restored: 29, below the last kept second, went back", table, 9, 29, WENT_BACK);
    offered("restored: 39, which went back before, is too soon", table, 9, 39, TOO_SOON);
    offered("restored: 40 is recorded", table, 9, 40, RECORDED);
    table = skut_restore_with_interval(image, saved.a, ARRAYS, 60).state;
    due_as_now();
    offered("restored at interval 60: 29, below the last kept second, went back", table, 9, 29, WENT_BACK);
    offered("restored at interval 60: 39, which went back before, is too soon", table, 9, 39, TOO_SOON);
    offered("restored at interval 60: 89 is too soon", table, 9, 89, TOO_SOON);
    offered("restored at interval 60: 90 is recorded", table, 9, 90, RECORDED);
}

/* One offer that is refused: the arrays are as they were, and so is the state, but that it counts the refusal. */
static void refused(const char *when, struct skut_state table, uint64_t seq, int64_t sec, uint32_t number)
{
    stops("skut_offer", when, skut_offer(table, ARRAYS, seq, sec), number, NO_PAIR, counting(table, NO_PAIR, 1));
}

/* 16 comes before the skip, and 17 after it. */
static void order(void)
{
    struct skut_state table = made_at(60, 100);
    offered("a sequence drops where a second went back", table, 4, 99, WENT_BACK);
    offered("a sequence drops where a second is too soon", table, 4, 159, TOO_SOON);
    refused("a sequence drops where nothing is skipped", table, 4, 160, SKUT_OFFERED_DROPS);
    refused("a second outside the years that is below the last", table, 6, FIRST_SECOND - 1, SKUT_OFFERED_OUTSIDE);
    as_due("skut_offer, the arrays", "refused by 17 and by 16");
    table = made_at(INT64_MAX, 100);
    refused("a second outside the years within the interval", table, 6, LAST_SECOND + 1, SKUT_OFFERED_OUTSIDE);
    as_due("skut_offer, the arrays", "refused by 16");
}

static void lists(void)
{
    /* recorded, went back, too soon, recorded, went back, recorded; then a sequence that drops, and a pair that is not offered any more */
    const uint64_t q[] = {5, 6, 6, 6, 7, 7, 6, 8};
    const int64_t s[] = {100, 99, 109, 110, 100, 125, 200, 300};
    const int64_t outside[] = {100, 99, 109, 110, 100, 125, LAST_SECOND + 1, 300};
    const struct skut_tally tally = {.recorded = 3, .went_back = 2, .too_soon = 1};
    struct skut_state after = {3, PLACES, 1, 10, 125, {.recorded = 3, .went_back = 2, .too_soon = 1}};
    const struct {
        const char *when;
        const int64_t *secs;
        size_t length;
        uint32_t number;
    } offers[] = {
        {"each number of the tally", s, 6, SKUT_DONE},
        {"each number of the tally, then 17", s, 8, SKUT_OFFERED_DROPS},
        {"each number of the tally, then 16", outside, 8, SKUT_OFFERED_OUTSIDE},
    };
    for (size_t i = 0; i < 3; i++) {
        struct skut_state table = made(PLACES, 10, NULL, NULL, 0);
        struct skut_table_answer said = skut_offer_pairs(table, ARRAYS, q, offers[i].length, offers[i].secs, offers[i].length);
        if (offers[i].number == SKUT_DONE) {
            gives("skut_offer_pairs", offers[i].when, said, tally, after);
        } else {
            stops("skut_offer_pairs", offers[i].when, said, offers[i].number, tally, counting(after, NO_PAIR, 1));
        }
        due_at(0, 5, 100);
        due_at(1, 6, 110);
        due_at(2, 7, 125);
        as_due("skut_offer_pairs, the arrays", offers[i].when);
    }

    const uint64_t low[] = {1, 1, 1};
    const int64_t near[] = {124, 125, 134};
    const struct skut_tally skipped = {.went_back = 1, .too_soon = 2};
    gives("skut_offer_pairs", "all are skipped", skut_offer_pairs(after, ARRAYS, low, 3, near, 3), skipped, counting(after, skipped, 0));
    as_due("skut_offer_pairs, the arrays", "all are skipped");
}

static struct skut_state other_of(const uint64_t *q, const int64_t *s, size_t n)
{
    return skut_offer_pairs(skut_with_config(PLACES, 0).state, OTHER, q, n, s, n).state;
}

static void extended(void)
{
    /* of 25, the last recorded second: three below it, two within 15 above it, one at 15 */
    const uint64_t q[] = {1, 2, 3, 4, 5, 6};
    const int64_t s[] = {10, 20, 24, 30, 39, 40};
    struct skut_state table = made_at(15, 25), after = {2, PLACES, 1, 15, 40, {.recorded = 2, .went_back = 3, .too_soon = 2}};
    struct skut_table_answer said = skut_extend_from(table, ARRAYS, other_of(q, s, 6), OTHER);
    gives("skut_extend_from", "each number of the tally", said, TALLY(.recorded = 1, .went_back = 3, .too_soon = 2), after);
    due_at(1, 6, 40);
    as_due("skut_extend_from, the arrays", "each number of the tally");

    /* of 15: two below it, one within 10 above it; then one past that, of a sequence that drops */
    const uint64_t low[] = {1, 1, 2, 3};
    const int64_t past[] = {5, 10, 20, 30};
    table = made_at(10, 15);
    said = skut_extend_from(table, ARRAYS, other_of(low, past, 4), OTHER);
    const struct skut_tally skipped = {.went_back = 2, .too_soon = 1};
    stops("skut_extend_from", "both reasons, then 17", said, SKUT_OFFERED_DROPS, skipped, counting(table, skipped, 1));
    as_due("skut_extend_from, the arrays", "both reasons, then 17");
}

void reason_cases(void)
{
    limits();
    last_recorded();
    restored();
    order();
    lists();
    extended();
}
