/* A restore at a named interval: one above 2^63-1 is refused before all else; at any other it answers as skut_restore, and the next offers go by it. */
#include "cases.h"

#include <stdio.h>
#include <string.h>

#define CALL "skut_restore_with_interval"

static uint64_t seqs[PLACES], plain_seqs[PLACES];
static int64_t secs[PLACES], plain_secs[PLACES];
static uint8_t image[4096];

#define ARRAYS seqs, PLACES, secs, PLACES
#define PLAIN plain_seqs, PLACES, plain_secs, PLACES

static const uint64_t intervals[] = {0, 1, 10, 60, INT64_MAX};

#define INTERVALS (sizeof intervals / sizeof intervals[0])

/* The image of pairs, with one byte that may be another, up to a length. */
struct input {
    uint32_t number; /* what skut_restore answers to it */
    size_t length, at;
    uint8_t byte;
    const uint64_t *seqs;
    const int64_t *secs;
    size_t pairs;
};

/* The first byte of an image is 1. */
#define WHOLE SIZE_MAX, 0, 1
#define UP_TO(LENGTH) LENGTH, 0, 1
#define WITH(AT, BYTE) SIZE_MAX, AT, BYTE

static const uint64_t zeros[PLACES + 1];
static const int64_t zero_secs[PLACES + 1];
static const uint64_t two[] = {100, 164}, rising[] = {1, 2, 3}, dropping[] = {1, 2, 1};
static const int64_t two_secs[] = {0, 60}, rising_secs[] = {0, 1, 1}, dropping_secs[] = {0, 1, 0}, outside[] = {LAST_SECOND, LAST_SECOND + 1, LAST_SECOND + 1};

/* Each number that skut_restore answers to bytes. Zeros have codes of one bit: with a byte of 1 for eight of them, the prefix of the last is cut off. */
static const struct input inputs[] = {
    {SKUT_DONE, WHOLE, NULL, NULL, 0},
    {SKUT_DONE, WHOLE, two, two_secs, 1},
    {SKUT_DONE, WHOLE, two, two_secs, 2},
    {SKUT_DONE, WHOLE, zeros, zero_secs, PLACES},
    {SKUT_EMPTY, UP_TO(0), two, two_secs, 2},
    {SKUT_VERSION, WITH(0, 2), two, two_secs, 2},
    {SKUT_HEADER_CUT, UP_TO(4), two, two_secs, 2},
    {SKUT_COUNT_CUT, UP_TO(22), two, two_secs, 2},
    {SKUT_FIRST_CUT, UP_TO(16), two, two_secs, 2},
    {SKUT_CODE_MISSING, UP_TO(31), two, two_secs, 2},
    {SKUT_PREFIX_CUT, 18, 17, 1, zeros, zero_secs, 9},
    {SKUT_DIFFERENCE_CUT, UP_TO(32), two, two_secs, 2},
    {SKUT_COUNT_DIFFERS, WITH(22, 1), two, two_secs, 2},
    {SKUT_TOO_MANY_PAIRS, WHOLE, zeros, zero_secs, PLACES + 1},
    {SKUT_SEQUENCE_DROPS, WHOLE, dropping, rising_secs, 3},
    {SKUT_SECOND_DROPS, WHOLE, rising, dropping_secs, 3},
    {SKUT_SECOND_OUTSIDE, WHOLE, rising, outside, 3},
};

#define INPUTS (sizeof inputs / sizeof inputs[0])

/* Writes the bytes, and gives their length. */
static size_t written(const struct input *input)
{
    size_t whole = skut_encode(input->seqs, input->pairs, input->secs, input->pairs, image, sizeof image).a;
    image[input->at] = input->byte;
    return input->length < whole ? input->length : whole;
}

/* Both restores, of the same bytes into arrays that hold the same: they differ in the interval alone, and a place past the pairs is as it was. */
static void as_restore(const struct input *input)
{
    char when[80];
    size_t length = written(input), pairs = input->number == SKUT_DONE ? input->pairs : 0;
    struct skut_state state = {pairs, PLACES, pairs > 0, 10, pairs > 0 ? input->secs[pairs - 1] : 0, NO_TOTALS};
    hold(plain_seqs, plain_secs);
    struct skut_table_answer plain = skut_restore(image, length, PLAIN);
    snprintf(when, sizeof when, "answers %u to %zu bytes, and its interval is 10", input->number, length);
    holds("skut_restore", when, plain.answer.number == input->number && (input->number != SKUT_DONE || same_state(plain.state, state)),
          "it answers %u, with interval %llu", plain.answer.number, (unsigned long long)plain.state.interval_secs);
    for (size_t i = 0; i < INTERVALS; i++) {
        snprintf(when, sizeof when, "as skut_restore, %u to %zu bytes, at interval %llu", input->number, length, (unsigned long long)intervals[i]);
        hold(seqs, secs);
        struct skut_table_answer got = skut_restore_with_interval(image, length, ARRAYS, intervals[i]);
        state.interval_secs = intervals[i];
        if (input->number == SKUT_DONE) {
            gives(CALL, when, got, NO_PAIR, state);
        } else {
            gives_none_all(CALL, when, got, plain.answer);
        }
        int same = memcmp(seqs, plain_seqs, sizeof seqs) == 0 && memcmp(secs, plain_secs, sizeof secs) == 0;
        holds(CALL ", the arrays", when, same && held_from(pairs, seqs, secs), "they hold other values");
    }
}

/* 15 comes before 14 and before what the bytes are refused for; 14 before the latter. */
static void order(void)
{
    const struct {
        const char *when;
        size_t seqs_len, secs_len;
    } lent[] = {{"arrays with room", PLACES, PLACES}, {"8,191 sequences", PLACES - 1, PLACES}, {"8,191 seconds", PLACES, PLACES - 1}};
    char when[80];
    hold(seqs, secs);
    for (size_t i = 0; i < INPUTS; i++) {
        size_t length = written(&inputs[i]);
        for (size_t j = 0; j < 3; j++) {
            size_t n = lent[j].seqs_len, m = lent[j].secs_len;
            snprintf(when, sizeof when, "%s, %zu bytes, to which %u is answered", lent[j].when, length, inputs[i].number);
            gives_none(CALL " at 2^63", when, skut_restore_with_interval(image, length, seqs, n, secs, m, (uint64_t)1 << 63), SKUT_SETTINGS, 0);
            gives_none(CALL " at 2^64-1", when, skut_restore_with_interval(image, length, seqs, n, secs, m, UINT64_MAX), SKUT_SETTINGS, 0);
            if (j > 0) {
                gives_none(CALL " at 2^63-1", when, skut_restore_with_interval(image, length, seqs, n, secs, m, INT64_MAX), SKUT_STATE_DISAGREES, 0);
            }
        }
    }
    holds(CALL, "15 and 14 leave the arrays as they were", held_from(0, seqs, secs), "they hold other values");
}

/* One offer to a restored table of the pair (5, 100). */
static void offered(const char *when, struct skut_table_answer restored, int64_t sec, struct skut_tally tally)
{
    struct skut_state after = restored.state;
    if (tally.recorded == 1) {
        after = (struct skut_state){2, PLACES, 1, restored.state.interval_secs, sec, NO_TOTALS};
    }
    gives("skut_offer", when, skut_offer(restored.state, ARRAYS, 6, sec), tally, counting(after, tally, 0));
}

/* The image of one pair has 29 bytes. */
static struct skut_table_answer restored_at(uint64_t interval_secs)
{
    return skut_restore_with_interval(image, 29, ARRAYS, interval_secs);
}

static void next_offers(void)
{
    const uint64_t q[] = {5};
    const int64_t s[] = {100};
    written(&(struct input){SKUT_DONE, WHOLE, q, s, 1});
    offered("restored by skut_restore: 109 after 100 is too soon", skut_restore(image, 29, ARRAYS), 109, TALLY(.too_soon = 1));
    offered("restored by skut_restore: 110 after 100 is recorded", skut_restore(image, 29, ARRAYS), 110, TALLY(.recorded = 1));
    offered("restored at interval 60: 159 after 100 is too soon", restored_at(60), 159, TALLY(.too_soon = 1));
    offered("restored at interval 60: 160 after 100 is recorded", restored_at(60), 160, TALLY(.recorded = 1));
    offered("restored at interval 1: 100 after 100 is too soon", restored_at(1), 100, TALLY(.too_soon = 1));
    offered("restored at interval 1: 101 after 100 is recorded", restored_at(1), 101, TALLY(.recorded = 1));
    offered("restored at interval 0: 99 after 100 went back", restored_at(0), 99, TALLY(.went_back = 1));
    offered("restored at interval 0: 100 after 100 is recorded", restored_at(0), 100, TALLY(.recorded = 1));
    offered("restored at interval 2^63-1: the last second after 100 is too soon", restored_at(INT64_MAX), LAST_SECOND, TALLY(.too_soon = 1));
    offered("restored at interval 2^63-1: the first second after 100 went back", restored_at(INT64_MAX), FIRST_SECOND, TALLY(.went_back = 1));
}

/* At capacity 8,192 a table of any interval, saved strictly, comes back as it was but for its totals where the restore names its own. */
static void as_it_was(void)
{
    const uint64_t q[] = {5, 6, 7, 7};
    const int64_t s[] = {-100, -99, -40, 0};
    char when[80];
    for (size_t i = 0; i < INTERVALS; i++) {
        snprintf(when, sizeof when, "a table of interval %llu comes back as it was", (unsigned long long)intervals[i]);
        struct skut_state table = skut_offer_pairs(skut_with_config(PLACES, intervals[i]).state, PLAIN, q, 4, s, 4).state;
        struct skut_answer saved = skut_save_strict(table, PLAIN, image, sizeof image);
        hold(seqs, secs);
        gives(CALL, when, skut_restore_with_interval(image, saved.a, ARRAYS, table.interval_secs), NO_PAIR, uncounted(table));
        int same = memcmp(seqs, plain_seqs, table.count * sizeof seqs[0]) == 0 && memcmp(secs, plain_secs, table.count * sizeof secs[0]) == 0;
        holds(CALL ", the pairs", when, same && held_from(table.count, seqs, secs), "they are others");
    }
}

void interval_cases(void)
{
    for (size_t i = 0; i < INPUTS; i++) {
        as_restore(&inputs[i]);
    }
    order();
    next_offers();
    as_it_was();
}
