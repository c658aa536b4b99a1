/* Every call with NULL and length 0 for each of its slices. */
#include "cases.h"

#include <string.h>

static uint64_t seqs[PLACES], other_seqs[PLACES];
static int64_t secs[PLACES], other_secs[PLACES];
static uint8_t out[29];

static const uint64_t one_seq[] = {5};
static const int64_t one_sec[] = {60};
static const uint8_t empty[13] = {1};
static const uint8_t single[29] = {1, 1, 0, 0, 0, 0, 0, 0, 1, 0, 0, 0, 0, 0, 0, 0, 5, 0, 0, 0, 1, 0, 0, 0, 0, 0, 0, 0, 60};

/* Two arrays with room for any table, apart from those of a lending. */
#define ROOM other_seqs, PLACES, other_secs, PLACES

struct lending {
    const char *name;
    uint64_t *seqs;
    size_t seqs_len;
    int64_t *secs;
    size_t secs_len;
};

#define LENT lent->seqs, lent->seqs_len, lent->secs, lent->secs_len

/* One question on a sheet, more than a sheet has, and lists of one question and of none. */
static void bad_questions(struct skut_state table, const struct lending *lent)
{
    struct skut_ts_sheet ts = {.used = 1}, many_ts = {.used = 17};
    struct skut_seq_sheet seq = {.used = 1}, many_seq = {.used = 17};
    int64_t sec_to[1] = {7};
    uint64_t seq_to[1] = {7};
    uint8_t mark[1] = {7};
    answers("skut_find_ts_16", lent->name, skut_find_ts_16(table, LENT, ts, SKUT_ROUND_UP).answer, SKUT_STATE_DISAGREES, 0, 0, 0);
    answers("skut_find_ts_16, 35 first", lent->name, skut_find_ts_16(table, LENT, many_ts, SKUT_ROUND_UP).answer, SKUT_TOO_MANY_QUESTIONS, 0, 0, 0);
    answers("skut_find_seq_16", lent->name, skut_find_seq_16(table, LENT, seq, SKUT_ROUND_DOWN).answer, SKUT_STATE_DISAGREES, 0, 0, 0);
    answers("skut_find_seq_16, 35 first", lent->name, skut_find_seq_16(table, LENT, many_seq, SKUT_ROUND_DOWN).answer, SKUT_TOO_MANY_QUESTIONS, 0, 0, 0);
    answers("skut_find_ts_each", lent->name, skut_find_ts_each(table, LENT, one_seq, 1, sec_to, 1, mark, 1, SKUT_ROUND_UP), SKUT_STATE_DISAGREES, 0, 0, 0);
    answers("skut_find_ts_each of none", lent->name, skut_find_ts_each(table, LENT, NONE, NONE, NONE, SKUT_ROUND_UP), SKUT_STATE_DISAGREES, 0, 0, 0);
    answers("skut_find_ts_each, 18 first", lent->name, skut_find_ts_each(table, LENT, NONE, sec_to, 1, mark, 1, SKUT_ROUND_UP), SKUT_LENGTHS_DIFFER, 0, 0, 0);
    answers("skut_find_seq_each", lent->name, skut_find_seq_each(table, LENT, one_sec, 1, seq_to, 1, mark, 1, SKUT_ROUND_UP), SKUT_STATE_DISAGREES, 0, 0, 0);
    answers("skut_find_seq_each of none", lent->name, skut_find_seq_each(table, LENT, NONE, NONE, NONE, SKUT_ROUND_UP), SKUT_STATE_DISAGREES, 0, 0, 0);
    answers("skut_find_seq_each, 18 first", lent->name, skut_find_seq_each(table, LENT, one_sec, 1, NONE, mark, 1, SKUT_ROUND_UP), SKUT_LENGTHS_DIFFER, 0, 0, 0);
    holds("the lists of questions", lent->name, sec_to[0] == 7 && seq_to[0] == 7 && mark[0] == 7, "a refused call wrote to them");
}

/* A table needs room for a pair at least, so that no table is good whose arrays are NULL. */
static void bad_tables(struct skut_state table, const struct lending *lent)
{
    struct skut_state least = skut_with_config(0, 0).state;
    answers("skut_check", lent->name, skut_check(table, LENT), SKUT_STATE_DISAGREES, 0, 0, 0);
    answers("skut_check of capacity 0", lent->name, skut_check(least, LENT), SKUT_STATE_DISAGREES, 0, 0, 0);
    gives_none("skut_offer", lent->name, skut_offer(table, LENT, 5, 60), SKUT_STATE_DISAGREES, 0);
    gives_none("skut_offer_pairs", lent->name, skut_offer_pairs(table, LENT, one_seq, 1, one_sec, 1), SKUT_STATE_DISAGREES, 0);
    gives_none("skut_offer_pairs of none", lent->name, skut_offer_pairs(table, LENT, NONE, NONE), SKUT_STATE_DISAGREES, 0);
    gives_none("skut_offer_pairs, 18 first", lent->name, skut_offer_pairs(table, LENT, NONE, one_sec, 1), SKUT_LENGTHS_DIFFER, 0);
    gives_none("skut_extend_from, own", lent->name, skut_extend_from(table, LENT, table, ROOM), SKUT_STATE_DISAGREES, 0);
    gives_none("skut_extend_from, both", lent->name, skut_extend_from(table, LENT, table, NONE, NONE), SKUT_STATE_DISAGREES, 0);
    gives_none("skut_extend_from, other", lent->name, skut_extend_from(table, ROOM, table, LENT), SKUT_STATE_DISAGREES, 1);
    answers("skut_find_ts", lent->name, skut_find_ts(table, LENT, 5, SKUT_ROUND_UP), SKUT_STATE_DISAGREES, 0, 0, 0);
    answers("skut_find_seq", lent->name, skut_find_seq(table, LENT, 60, SKUT_ROUND_DOWN), SKUT_STATE_DISAGREES, 0, 0, 0);
    explains_nothing("skut_why_ts", lent->name, skut_why_ts(table, LENT, 5, SKUT_ROUND_UP), SKUT_STATE_DISAGREES, 0);
    explains_nothing("skut_why_ts of capacity 0", lent->name, skut_why_ts(least, LENT, 5, SKUT_ROUND_DOWN), SKUT_STATE_DISAGREES, 0);
    explains_nothing("skut_why_seq", lent->name, skut_why_seq(table, LENT, 60, SKUT_ROUND_DOWN), SKUT_STATE_DISAGREES, 0);
    explains_nothing("skut_why_seq of capacity 0", lent->name, skut_why_seq(least, LENT, 60, SKUT_ROUND_UP), SKUT_STATE_DISAGREES, 0);
    bad_questions(table, lent);
    answers("skut_save", lent->name, skut_save(table, LENT, out, sizeof out), SKUT_STATE_DISAGREES, 0, 0, 0);
    answers("skut_save, output NULL", lent->name, skut_save(table, LENT, NONE), SKUT_STATE_DISAGREES, 0, 0, 0);
    answers("skut_save_strict", lent->name, skut_save_strict(table, LENT, out, sizeof out), SKUT_STATE_DISAGREES, 0, 0, 0);
    answers("skut_save_strict, output NULL", lent->name, skut_save_strict(table, LENT, NONE), SKUT_STATE_DISAGREES, 0, 0, 0);
    gives_none("skut_restore", lent->name, skut_restore(empty, sizeof empty, LENT), SKUT_STATE_DISAGREES, 0);
    gives_none("skut_restore of NULL", lent->name, skut_restore(NONE, LENT), SKUT_STATE_DISAGREES, 0);
    gives_none("skut_restore_with_interval", lent->name, skut_restore_with_interval(empty, sizeof empty, LENT, 60), SKUT_STATE_DISAGREES, 0);
    gives_none("skut_restore_with_interval of NULL", lent->name, skut_restore_with_interval(NONE, LENT, 60), SKUT_STATE_DISAGREES, 0);
    gives_none("skut_restore_with_interval, 15 first", lent->name, skut_restore_with_interval(NONE, LENT, UINT64_MAX), SKUT_SETTINGS, 0);
}

static void good_tables(struct skut_state table)
{
    struct skut_state as_new = {0, PLACES, 0, 10, 0, NO_TOTALS}, least = {0, 0, 0, 0, 0, NO_TOTALS};
    gives("skut_new", "has no slice", skut_new(), NO_PAIR, as_new);
    gives("skut_with_config", "has no slice", skut_with_config(0, 0), NO_PAIR, least);
    answers("skut_check", "an empty table in room", skut_check(table, ROOM), SKUT_DONE, 0, 0, 0);
    answers("skut_check of capacity 0", "room for one pair", skut_check(least, seqs, 1, secs, 1), SKUT_DONE, 0, 0, 0);
    gives("skut_offer_pairs", "both lists NULL", skut_offer_pairs(table, ROOM, NONE, NONE), NO_PAIR, table);
    gives_none("skut_offer_pairs", "the list of sequences NULL", skut_offer_pairs(table, ROOM, NONE, one_sec, 1), SKUT_LENGTHS_DIFFER, 0);
    gives_none("skut_offer_pairs", "the list of seconds NULL", skut_offer_pairs(table, ROOM, one_seq, 1, NONE), SKUT_LENGTHS_DIFFER, 0);
    gives("skut_extend_from", "an empty table of capacity 0", skut_extend_from(table, ROOM, least, seqs, 1, secs, 1), NO_PAIR, table);
    answers("skut_find_ts", "an empty table", skut_find_ts(table, ROOM, 5, SKUT_ROUND_DOWN), SKUT_DONE, 0, 0, 0);
    answers("skut_find_seq", "an empty table", skut_find_seq(table, ROOM, 60, SKUT_ROUND_UP), SKUT_DONE, 0, 0, 0);
    explains("skut_why_ts", "an empty table", skut_why_ts(table, ROOM, 5, SKUT_ROUND_DOWN), (struct skut_why){.reason = SKUT_WHY_EMPTY});
    explains("skut_why_seq", "an empty table", skut_why_seq(table, ROOM, 60, SKUT_ROUND_UP), (struct skut_why){.reason = SKUT_WHY_EMPTY});
    answers("skut_save", "an empty table, output NULL", skut_save(table, ROOM, NONE), SKUT_ROOM, 13, 0, 0);
    answers("skut_save_strict", "an empty table, output NULL", skut_save_strict(table, ROOM, NONE), SKUT_ROOM, 13, 0, 0);
}

/* Lists of no question, and lists of which one or two are NULL. */
static void good_questions(struct skut_state table)
{
    int64_t sec_to[1] = {7};
    uint64_t seq_to[1] = {7};
    uint8_t mark[1] = {7};
    answers("skut_find_ts_each", "all NULL", skut_find_ts_each(table, ROOM, NONE, NONE, NONE, SKUT_ROUND_UP), SKUT_DONE, 0, 0, 0);
    answers("skut_find_ts_each", "the questions NULL", skut_find_ts_each(table, ROOM, NONE, sec_to, 1, mark, 1, SKUT_ROUND_UP), SKUT_LENGTHS_DIFFER, 0, 0, 0);
    answers("skut_find_ts_each", "the answers NULL", skut_find_ts_each(table, ROOM, one_seq, 1, NONE, mark, 1, SKUT_ROUND_UP), SKUT_LENGTHS_DIFFER, 0, 0, 0);
    answers("skut_find_ts_each", "the marks NULL", skut_find_ts_each(table, ROOM, one_seq, 1, sec_to, 1, NONE, SKUT_ROUND_UP), SKUT_LENGTHS_DIFFER, 0, 0, 0);
    answers("skut_find_seq_each", "all NULL", skut_find_seq_each(table, ROOM, NONE, NONE, NONE, SKUT_ROUND_UP), SKUT_DONE, 0, 0, 0);
    answers("skut_find_seq_each", "the questions NULL", skut_find_seq_each(table, ROOM, NONE, seq_to, 1, mark, 1, SKUT_ROUND_UP), SKUT_LENGTHS_DIFFER, 0, 0, 0);
    answers("skut_find_seq_each", "the answers NULL", skut_find_seq_each(table, ROOM, one_sec, 1, NONE, mark, 1, SKUT_ROUND_UP), SKUT_LENGTHS_DIFFER, 0, 0, 0);
    answers("skut_find_seq_each", "the marks NULL", skut_find_seq_each(table, ROOM, one_sec, 1, seq_to, 1, NONE, SKUT_ROUND_UP), SKUT_LENGTHS_DIFFER, 0, 0, 0);
    holds("the lists of questions", "one is NULL", sec_to[0] == 7 && seq_to[0] == 7 && mark[0] == 7, "a refused call wrote to them");
}

static void encoders(void)
{
    const struct {
        const char *name;
        struct skut_answer (*encode)(const uint64_t *, size_t, const int64_t *, size_t, uint8_t *, size_t);
    } calls[] = {{"skut_encode", skut_encode}, {"skut_encode_strict", skut_encode_strict}};
    for (size_t i = 0; i < 2; i++) {
        answers(calls[i].name, "all NULL", calls[i].encode(NONE, NONE, NONE), SKUT_ROOM, 13, 0, 0);
        answers(calls[i].name, "both arrays NULL", calls[i].encode(NONE, NONE, out, sizeof out), SKUT_DONE, 13, 0, 0);
        holds(calls[i].name, "both arrays NULL, the bytes", memcmp(out, empty, sizeof empty) == 0, "they are others");
        memset(out, 0xAA, sizeof out);
        answers(calls[i].name, "the sequences NULL", calls[i].encode(NONE, one_sec, 1, out, sizeof out), SKUT_LENGTHS_DIFFER, 0, 0, 0);
        answers(calls[i].name, "the seconds NULL", calls[i].encode(one_seq, 1, NONE, out, sizeof out), SKUT_LENGTHS_DIFFER, 0, 0, 0);
        answers(calls[i].name, "the output NULL", calls[i].encode(one_seq, 1, one_sec, 1, NONE), SKUT_ROOM, 29, 0, 0);
    }
    answers("skut_encoded_len", "both arrays NULL", skut_encoded_len(NONE, NONE), SKUT_DONE, 13, 0, 0);
    answers("skut_encoded_len", "the sequences NULL", skut_encoded_len(NONE, one_sec, 1), SKUT_LENGTHS_DIFFER, 0, 0, 0);
    answers("skut_encoded_len", "the seconds NULL", skut_encoded_len(one_seq, 1, NONE), SKUT_LENGTHS_DIFFER, 0, 0, 0);
}

static void readers(void)
{
    answers("skut_decode", "the bytes NULL", skut_decode(NONE, ROOM), SKUT_EMPTY, 0, 0, 0);
    answers("skut_image_len", "the bytes NULL", skut_image_len(NONE), SKUT_EMPTY, 0, 0, 0);
    gives_none("skut_restore", "the bytes NULL", skut_restore(NONE, ROOM), SKUT_EMPTY, 0);
    gives_none("skut_restore_with_interval", "the bytes NULL", skut_restore_with_interval(NONE, ROOM, 60), SKUT_EMPTY, 0);
}

static void lists(const struct lending *lent)
{
    answers("skut_decode of NULL", lent->name, skut_decode(NONE, LENT), SKUT_EMPTY, 0, 0, 0);
    answers("skut_decode of no pair", lent->name, skut_decode(empty, sizeof empty, LENT), SKUT_DONE, 0, 0, 0);
    answers("skut_decode of a pair", lent->name, skut_decode(single, sizeof single, LENT), SKUT_TOO_MANY_PAIRS, 0, 0, 0);
}

/* Any place in no bytes is their end. */
static void bits(void)
{
    answers("skut_sign_extend", "has no slice", skut_sign_extend(64, 7), SKUT_DONE, (uint64_t)-64, 0, 0);
    answers("skut_read_bits", "0 bits of NULL", skut_read_bits(NONE, 0, 0, 0), SKUT_DONE, 0, 0, 0);
    answers("skut_read_bits", "0 bits of NULL at byte 5", skut_read_bits(NONE, 5, 3, 0), SKUT_DONE, 0, 0, 0);
    answers("skut_read_bits", "1 bit of NULL", skut_read_bits(NONE, 0, 0, 1), SKUT_BITS_SHORT, 0, 0, 0);
    answers("skut_read_bits", "65 bits of NULL", skut_read_bits(NONE, 0, 0, 65), SKUT_WIDTH, 0, 0, 0);
    answers("skut_write_bits", "0 bits to NULL", skut_write_bits(NONE, 0, 0, 1, 0), SKUT_DONE, 0, 0, 0);
    answers("skut_write_bits", "0 bits to NULL at byte 5", skut_write_bits(NONE, 5, 3, 1, 0), SKUT_DONE, 0, 0, 0);
    answers("skut_write_bits", "1 bit to NULL", skut_write_bits(NONE, 0, 0, 1, 1), SKUT_ROOM, 1, 0, 0);
    answers("skut_write_bits", "64 bits to NULL", skut_write_bits(NONE, 0, 0, 1, 64), SKUT_ROOM, 8, 0, 0);
    answers("skut_write_bits", "65 bits to NULL", skut_write_bits(NONE, 0, 0, 1, 65), SKUT_WIDTH, 0, 0, 0);
}

static void dates(void)
{
    answers("skut_write_date", "the output NULL", skut_write_date(0, NONE), SKUT_ROOM, 20, 0, 0);
    answers("skut_write_date", "the output NULL, 27 first", skut_write_date(INT64_MAX, NONE), SKUT_DATE_OUTSIDE, 0, 0, 0);
    answers("skut_read_date", "the bytes NULL", skut_read_date(NONE), SKUT_DATE_GRAMMAR, 0, 0, 0);
}

void null_cases(void)
{
    const struct lending lendings[] = {
        {"both arrays NULL", NONE, NONE},
        {"the sequences NULL", NONE, secs, PLACES},
        {"the seconds NULL", seqs, PLACES, NONE},
    };
    for (size_t i = 0; i < 3; i++) {
        bad_tables(skut_new().state, &lendings[i]);
        lists(&lendings[i]);
    }
    good_tables(skut_new().state);
    good_questions(skut_new().state);
    encoders();
    readers();
    bits();
    dates();
}
