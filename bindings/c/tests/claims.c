/* What the header says of saves, restores, lookups and sign extension: when a table comes back as it was, small ones that do not, which key answers, and which signed number bits are. */
#include "cases.h"

static uint64_t seqs[PLACES];
static int64_t secs[PLACES];
static uint8_t image[64];

#define ARRAYS seqs, PLACES, secs, PLACES

/* The first pairs that stand in the arrays. */
static void pairs(const char *call, const char *when, const uint64_t *q, const int64_t *s, size_t n)
{
    size_t i = 0;
    while (i < n && seqs[i] == q[i] && secs[i] == s[i]) {
        i++;
    }
    holds(call, when, i == n, "pair %zu is (%llu, %lld)", i, (unsigned long long)seqs[i], (long long)secs[i]);
}

/* The arrays hold nothing of what was saved when the image is restored. */
static struct skut_table_answer restored(size_t length)
{
    hold(seqs, secs);
    return skut_restore(image, length, ARRAYS);
}

static struct skut_table_answer restored_at(uint64_t interval_secs, size_t length)
{
    hold(seqs, secs);
    return skut_restore_with_interval(image, length, ARRAYS, interval_secs);
}

static void as_it_was(void)
{
    const uint64_t q[] = {100, 164};
    const int64_t s[] = {0, 60};
    struct skut_state table = skut_offer_pairs(skut_new().state, ARRAYS, q, 2, s, 2).state;
    answers("skut_save_strict", "the default settings", skut_save_strict(table, ARRAYS, image, sizeof image), SKUT_DONE, 33, 0, 0);
    gives("skut_restore", "the table is as it was but for its totals", restored(33), NO_PAIR, uncounted(table));
    pairs("skut_restore", "the pairs are as they were", q, s, 2);

    const uint64_t other[] = {101, 165};
    image[16] ^= 1;
    gives("skut_restore", "a changed bit is taken", restored(33), NO_PAIR, uncounted(table));
    pairs("skut_restore", "a changed bit makes other pairs", other, s, 2);
}

static void other_settings(void)
{
    const uint64_t q[] = {1, 2, 3, 4}, kept_q[] = {1, 3};
    const int64_t s[] = {10, 20, 30, 40}, kept_s[] = {10, 30};
    struct skut_state saved = {2, 3, 1, 0, 40, {.recorded = 4}}, back = {2, PLACES, 1, 10, 30, NO_TOTALS}, back_at_0 = {2, PLACES, 1, 0, 30, NO_TOTALS};
    struct skut_table_answer table = skut_offer_pairs(skut_with_config(3, 0).state, ARRAYS, q, 4, s, 4);
    gives("skut_offer_pairs", "capacity 3 drops the newest pair", table, TALLY(.recorded = 4), saved);
    pairs("skut_offer_pairs", "capacity 3 keeps two pairs", kept_q, kept_s, 2);
    struct skut_answer written = skut_save_strict(table.state, ARRAYS, image, sizeof image);
    gives("skut_restore", "capacity 3 comes back with last 30 and the default settings", restored(written.a), NO_PAIR, back);
    pairs("skut_restore", "capacity 3 comes back with the pairs", kept_q, kept_s, 2);
    gives("skut_restore_with_interval", "capacity 3 comes back with last 30 and capacity 8,192", restored_at(0, written.a), NO_PAIR, back_at_0);
    pairs("skut_restore_with_interval", "capacity 3 comes back with the pairs", kept_q, kept_s, 2);
}

/* Restored at another interval than its own, a table has the same pairs, and takes an offer that came too soon. */
static void other_interval(void)
{
    const uint64_t q[] = {5, 6};
    const int64_t s[] = {100, 110};
    struct skut_state table = skut_offer(skut_with_config(PLACES, 60).state, ARRAYS, 5, 100).state, too_soon = counting(table, TALLY(.too_soon = 1), 0);
    struct skut_state back = {1, PLACES, 1, 10, 100, NO_TOTALS}, after = {2, PLACES, 1, 10, 110, {.recorded = 1}};
    gives("skut_offer", "110 after 100 is too soon at interval 60", skut_offer(table, ARRAYS, 6, 110), TALLY(.too_soon = 1), too_soon);
    struct skut_answer written = skut_save_strict(table, ARRAYS, image, sizeof image);
    gives("skut_restore_with_interval", "interval 60 comes back as it was but for its totals", restored_at(60, written.a), NO_PAIR, uncounted(table));
    pairs("skut_restore_with_interval", "interval 60 comes back with the pair", q, s, 1);
    gives("skut_offer", "110 is too soon again", skut_offer(table, ARRAYS, 6, 110), TALLY(.too_soon = 1), too_soon);
    gives("skut_restore", "interval 60 comes back as 10", restored(written.a), NO_PAIR, back);
    pairs("skut_restore", "interval 60 comes back with the pair", q, s, 1);
    gives("skut_offer", "110, which was too soon, is recorded", skut_offer(back, ARRAYS, 6, 110), TALLY(.recorded = 1), after);
    pairs("skut_offer", "110, which was too soon, is kept", q, s, 2);
}

static void own_state(void)
{
    const uint64_t q[] = {1};
    const int64_t s[] = {10};
    struct skut_state made = {1, PLACES, 1, 10, 20, {1, 2, 3, 4}}, back = {1, PLACES, 1, 10, 10, NO_TOTALS};
    seqs[0] = 1;
    secs[0] = 10;
    answers("skut_check", "last 20 above the last pair", skut_check(made, ARRAYS), SKUT_DONE, 0, 0, 0);
    answers("skut_save_strict", "last 20 above the last pair", skut_save_strict(made, ARRAYS, image, sizeof image), SKUT_DONE, 29, 0, 0);
    gives("skut_restore", "last 20 comes back as 10", restored(29), NO_PAIR, back);
    pairs("skut_restore", "last 20 comes back with the pair", q, s, 1);
    gives("skut_restore_with_interval", "last 20 comes back as 10, also at the own interval", restored_at(made.interval_secs, 29), NO_PAIR, back);
}

static void plain_save(void)
{
    const uint64_t q[] = {0, (uint64_t)1 << 33}, back[] = {0, 0};
    const int64_t s[] = {0, 60};
    struct skut_state table = skut_offer_pairs(skut_new().state, ARRAYS, q, 2, s, 2).state;
    answers("skut_save_strict", "a step of 2^33", skut_save_strict(table, ARRAYS, image, sizeof image), SKUT_WIDE, 0, 1, 0);
    struct skut_answer saved = skut_save(table, ARRAYS, image, sizeof image);
    answers("skut_save", "a step of 2^33", saved, SKUT_DONE, 36, 0, 0);
    gives("skut_restore", "a step of 2^33 is taken", restored(saved.a), NO_PAIR, uncounted(table));
    pairs("skut_restore", "a step of 2^33 comes back as 0", back, s, 2);
}

static void lookups(void)
{
    const uint64_t q[] = {5, 5, 7, 9};
    const int64_t s[] = {10, 20, 20, 30};
    struct skut_state table = skut_offer_pairs(skut_with_config(4, 0).state, ARRAYS, q, 4, s, 4).state;
    answers("skut_find_ts", "the lowest of equal sequences, up", skut_find_ts(table, ARRAYS, 5, SKUT_ROUND_UP), SKUT_DONE, 1, 10, 0);
    answers("skut_find_ts", "the highest of equal sequences, down", skut_find_ts(table, ARRAYS, 5, SKUT_ROUND_DOWN), SKUT_DONE, 1, 20, 0);
    answers("skut_find_seq", "the lowest of equal seconds, up", skut_find_seq(table, ARRAYS, 20, SKUT_ROUND_UP), SKUT_DONE, 1, 5, 0);
    answers("skut_find_seq", "the highest of equal seconds, down", skut_find_seq(table, ARRAYS, 20, SKUT_ROUND_DOWN), SKUT_DONE, 1, 7, 0);
    answers("skut_find_seq", "any other number takes the highest of equal seconds", skut_find_seq(table, ARRAYS, 20, UINT32_MAX), SKUT_DONE, 1, 7, 0);
    answers("skut_find_ts", "the greatest number, down", skut_find_ts(table, ARRAYS, UINT64_MAX, SKUT_ROUND_DOWN), SKUT_DONE, 1, 30, 0);
    answers("skut_find_ts", "the greatest number, up", skut_find_ts(table, ARRAYS, UINT64_MAX, SKUT_ROUND_UP), SKUT_DONE, 0, 0, 0);
    answers("skut_find_seq", "the greatest second, down", skut_find_seq(table, ARRAYS, INT64_MAX, SKUT_ROUND_DOWN), SKUT_DONE, 1, 9, 0);
    answers("skut_find_seq", "the greatest second, up", skut_find_seq(table, ARRAYS, INT64_MAX, SKUT_ROUND_UP), SKUT_DONE, 0, 0, 0);
    answers("skut_find_seq", "the least second, down", skut_find_seq(table, ARRAYS, INT64_MIN, SKUT_ROUND_DOWN), SKUT_DONE, 0, 0, 0);
    answers("skut_find_seq", "the least second, up", skut_find_seq(table, ARRAYS, INT64_MIN, SKUT_ROUND_UP), SKUT_DONE, 1, 5, 0);
    answers("skut_find_ts", "the next greater", skut_find_ts(table, ARRAYS, 8, SKUT_ROUND_UP), SKUT_DONE, 1, 30, 0);
    answers("skut_find_ts", "the next smaller", skut_find_ts(table, ARRAYS, 8, SKUT_ROUND_DOWN), SKUT_DONE, 1, 20, 0);
    answers("skut_find_ts", "any other number rounds down", skut_find_ts(table, ARRAYS, 8, 2), SKUT_DONE, 1, 20, 0);
    answers("skut_find_seq", "the next greater", skut_find_seq(table, ARRAYS, 15, SKUT_ROUND_UP), SKUT_DONE, 1, 5, 0);
    answers("skut_find_seq", "any other number rounds down", skut_find_seq(table, ARRAYS, 29, UINT32_MAX), SKUT_DONE, 1, 7, 0);
}

static void extensions(void)
{
    answers("skut_sign_extend", "63 in 7 bits", skut_sign_extend(63, 7), SKUT_DONE, 63, 0, 0);
    answers("skut_sign_extend", "63 in 7 bits, ones above them", skut_sign_extend(UINT32_MAX - 64, 7), SKUT_DONE, 63, 0, 0);
    answers("skut_sign_extend", "64 in 7 bits", skut_sign_extend(64, 7), SKUT_DONE, (uint64_t)-64, 0, 0);
    answers("skut_sign_extend", "2^31 in 32 bits", skut_sign_extend(UINT32_C(1) << 31, 32), SKUT_DONE, (uint64_t)INT32_MIN, 0, 0);
    answers("skut_sign_extend", "1 in 1 bit", skut_sign_extend(1, 1), SKUT_DONE, (uint64_t)-1, 0, 0);
    answers("skut_sign_extend", "in 0 bits", skut_sign_extend(1, 0), SKUT_WIDTH, 0, 0, 0);
    answers("skut_sign_extend", "in 33 bits", skut_sign_extend(1, 33), SKUT_WIDTH, 0, 0, 0);
}

void claim_cases(void)
{
    as_it_was();
    other_settings();
    other_interval();
    own_state();
    plain_save();
    lookups();
    extensions();
}
