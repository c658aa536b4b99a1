/* Many questions to one table at once, on sheets and in lists: each is answered as the single lookup answers it, and what nobody asked for stays as it was. */
#include "cases.h"

#include <stdio.h>
#include <string.h>

#define TS_16 "skut_find_ts_16"
#define SEQ_16 "skut_find_seq_16"
#define TS_EACH "skut_find_ts_each"
#define SEQ_EACH "skut_find_seq_each"

#define LONGEST 1000

static uint64_t full_seqs[PLACES];
static int64_t full_secs[PLACES];

/* Five pairs: two of one sequence, three of one second. */
static const uint64_t few_seqs[6] = {5, 5, 7, 9, 9};
static const int64_t few_secs[6] = {-3, 20, 20, 20, 30};

/* What is asked for: the ends of the numbers, and what stands in the tables or next to it. */
static const uint64_t seq_keys[16] = {5, 4, 6, 9, 10, 0, UINT64_MAX, 7, 8, UINT64_C(1) << 63, 5, 24573, 24574, 12288, 12287, 1};
static const int64_t sec_keys[16] = {20, -4, -3, 30, 31, INT64_MIN, INT64_MAX, 0, 19, 21, -1, -20000, -20001, 20955, 20956, 4};

/* Any number but 0 rounds down. */
static const uint32_t rounds[] = {SKUT_ROUND_UP, SKUT_ROUND_DOWN, 2, UINT32_MAX};

#define ROUNDS (sizeof rounds / sizeof rounds[0])

static struct skut_ts_answer ts_due(const struct table *table, uint64_t key, uint32_t round)
{
    struct skut_answer one = skut_find_ts(TABLE, key, round);
    return (struct skut_ts_answer){one.a, (int64_t)one.b};
}

static struct skut_seq_answer seq_due(const struct table *table, int64_t key, uint32_t round)
{
    struct skut_answer one = skut_find_seq(TABLE, key, round);
    return (struct skut_seq_answer){one.a, one.b};
}

/* Sheets whose answers hold what no call writes. No struct of a sheet has a gap, so that memcmp compares them. */
static struct skut_ts_sheet ts_sheet(size_t used)
{
    struct skut_ts_sheet sheet;
    memset(&sheet, 0xA7, sizeof sheet);
    memcpy(sheet.keys, seq_keys, sizeof seq_keys);
    sheet.used = used;
    return sheet;
}

static struct skut_seq_sheet seq_sheet(size_t used)
{
    struct skut_seq_sheet sheet;
    memset(&sheet, 0xA7, sizeof sheet);
    memcpy(sheet.keys, sec_keys, sizeof sec_keys);
    sheet.used = used;
    return sheet;
}

/* What a sheet is answered, and that it comes back so. */
static void ts_comes(const char *when, struct skut_ts_sheet_answer got, uint32_t number, uint64_t a, struct skut_ts_sheet due)
{
    answers(TS_16, when, got.answer, number, a, 0, 0);
    holds(TS_16 ", the sheet", when, memcmp(&got.sheet, &due, sizeof due) == 0, "it holds other values");
}

static void seq_comes(const char *when, struct skut_seq_sheet_answer got, uint32_t number, uint64_t a, struct skut_seq_sheet due)
{
    answers(SEQ_16, when, got.answer, number, a, 0, 0);
    holds(SEQ_16 ", the sheet", when, memcmp(&got.sheet, &due, sizeof due) == 0, "it holds other values");
}

static void sheets(const struct table *table, uint32_t round)
{
    char when[80];
    for (size_t used = 0; used <= 16; used++) {
        snprintf(when, sizeof when, "%s, round %u, %zu used", table->name, round, used);
        struct skut_ts_sheet ts = ts_sheet(used);
        struct skut_seq_sheet seq = seq_sheet(used);
        struct skut_ts_sheet_answer by_seq = skut_find_ts_16(TABLE, ts, round);
        struct skut_seq_sheet_answer by_sec = skut_find_seq_16(TABLE, seq, round);
        for (size_t i = 0; i < used; i++) {
            ts.answers[i] = ts_due(table, seq_keys[i], round);
            seq.answers[i] = seq_due(table, sec_keys[i], round);
        }
        ts_comes(when, by_seq, SKUT_DONE, 0, ts);
        seq_comes(when, by_sec, SKUT_DONE, 0, seq);
    }
}

/* The slices of a list, with two places more that no call may write to. The keys are those of a sheet, over and over. */
static uint64_t keys_seq[LONGEST], to_seq[LONGEST + 2];
static int64_t keys_sec[LONGEST], to_sec[LONGEST + 2];
static uint8_t marks[LONGEST + 2];

#define HELD_SEQ 70
#define HELD_SEC (-70)
#define HELD_MARK 7

static void hold_lists(void)
{
    for (size_t i = 0; i < LONGEST + 2; i++) {
        to_seq[i] = HELD_SEQ;
        to_sec[i] = HELD_SEC;
        marks[i] = HELD_MARK;
    }
}

/* Whether the slices hold from a place on what they held. */
static int lists_held_from(size_t place)
{
    while (place < LONGEST + 2 && to_seq[place] == HELD_SEQ && to_sec[place] == HELD_SEC && marks[place] == HELD_MARK) {
        place++;
    }
    return place >= LONGEST + 2;
}

static void list(const struct table *table, uint32_t round, size_t length)
{
    char when[80];
    size_t i = 0;
    snprintf(when, sizeof when, "%s, round %u, %zu questions", table->name, round, length);
    hold_lists();
    answers(TS_EACH, when, skut_find_ts_each(TABLE, keys_seq, length, to_sec, length, marks, length, round), SKUT_DONE, 0, 0, 0);
    for (; i < length; i++) {
        struct skut_ts_answer due = ts_due(table, keys_seq[i], round);
        if (marks[i] != due.found || to_sec[i] != due.second) {
            break;
        }
    }
    holds(TS_EACH ", the answers", when, i == length, "number %zu is %lld, marked %u", i, (long long)to_sec[i], marks[i]);
    holds(TS_EACH ", past the end", when, lists_held_from(length), "it was written to");

    hold_lists();
    answers(SEQ_EACH, when, skut_find_seq_each(TABLE, keys_sec, length, to_seq, length, marks, length, round), SKUT_DONE, 0, 0, 0);
    for (i = 0; i < length; i++) {
        struct skut_seq_answer due = seq_due(table, keys_sec[i], round);
        if (marks[i] != due.found || to_seq[i] != due.seq) {
            break;
        }
    }
    holds(SEQ_EACH ", the answers", when, i == length, "number %zu is %llu, marked %u", i, (unsigned long long)to_seq[i], marks[i]);
    holds(SEQ_EACH ", past the end", when, lists_held_from(length), "it was written to");
}

/* More than sixteen questions, before what the table is refused for. */
static void too_many(const struct table *table)
{
    const size_t used[] = {17, 18, (size_t)1 << 32, SIZE_MAX};
    char when[80];
    for (size_t i = 0; i < sizeof used / sizeof used[0]; i++) {
        snprintf(when, sizeof when, "%s, %zu used", table->name, used[i]);
        ts_comes(when, skut_find_ts_16(TABLE, ts_sheet(used[i]), SKUT_ROUND_UP), SKUT_TOO_MANY_QUESTIONS, 0, ts_sheet(used[i]));
        seq_comes(when, skut_find_seq_16(TABLE, seq_sheet(used[i]), SKUT_ROUND_DOWN), SKUT_TOO_MANY_QUESTIONS, 0, seq_sheet(used[i]));
    }
}

/* Lists whose lengths are not one, before what the table is refused for. */
static void uneven(const struct table *table)
{
    static const size_t lengths[][3] = {{2, 1, 1}, {1, 2, 1}, {1, 1, 2}, {0, 1, 1}, {1, 0, 1}, {1, 1, 0}, {0, 0, 1}, {0, 1, 0}, {1, 0, 0}, {2, 0, 1}};
    char when[80];
    hold_lists();
    for (size_t i = 0; i < sizeof lengths / sizeof lengths[0]; i++) {
        size_t k = lengths[i][0], a = lengths[i][1], f = lengths[i][2];
        snprintf(when, sizeof when, "%s, %zu questions, %zu answers, %zu marks", table->name, k, a, f);
        answers(TS_EACH, when, skut_find_ts_each(TABLE, keys_seq, k, to_sec, a, marks, f, SKUT_ROUND_UP), SKUT_LENGTHS_DIFFER, 0, 0, 0);
        answers(SEQ_EACH, when, skut_find_seq_each(TABLE, keys_sec, k, to_seq, a, marks, f, SKUT_ROUND_UP), SKUT_LENGTHS_DIFFER, 0, 0, 0);
        holds("the lists", when, lists_held_from(0), "a refused call wrote to them");
    }
}

/* A table that is refused by a number and tells a: nothing is answered. */
static void bad(const struct table *table, uint32_t number, uint64_t a)
{
    const size_t used[] = {0, 1, 16};
    char when[80];
    hold_lists();
    for (size_t i = 0; i < 3; i++) {
        size_t n = used[i];
        snprintf(when, sizeof when, "%s, %zu questions", table->name, n);
        ts_comes(when, skut_find_ts_16(TABLE, ts_sheet(n), SKUT_ROUND_UP), number, a, ts_sheet(n));
        seq_comes(when, skut_find_seq_16(TABLE, seq_sheet(n), SKUT_ROUND_DOWN), number, a, seq_sheet(n));
        answers(TS_EACH, when, skut_find_ts_each(TABLE, keys_seq, n, to_sec, n, marks, n, SKUT_ROUND_UP), number, a, 0, 0);
        answers(SEQ_EACH, when, skut_find_seq_each(TABLE, keys_sec, n, to_seq, n, marks, n, SKUT_ROUND_DOWN), number, a, 0, 0);
        holds("the lists", when, lists_held_from(0), "a refused call wrote to them");
    }
    too_many(table);
    uneven(table);
}

static void bad_tables(void)
{
    static const uint64_t dropping[] = {5, 5, 4, 9, 9, 0};
    static const int64_t earlier[] = {-3, -4, 20, 20, 30, 0}, outside[] = {INT64_MIN, 20, 20, 20, 30, 0};
    struct skut_state good = {5, 6, 1, 0, 30, NO_TOTALS}, neither = good, counted = good;
    neither.has_last = 2;
    counted.count = SIZE_MAX;
    const struct table tables[] = {
        {"a mark of 2", neither, few_seqs, few_secs, 6},
        {"a count of 2^64-1", counted, few_seqs, few_secs, 6},
        {"too few places", good, few_seqs, few_secs, 5},
        {"a sequence drops", good, dropping, few_secs, 6},
        {"a second drops", good, few_seqs, earlier, 6},
        {"a second outside the years", good, few_seqs, outside, 6},
    };
    bad(&tables[0], SKUT_STATE_DISAGREES, 0);
    bad(&tables[1], SKUT_STATE_DISAGREES, 0);
    bad(&tables[2], SKUT_STATE_DISAGREES, 0);
    bad(&tables[3], SKUT_SEQUENCE_DROPS, 2);
    bad(&tables[4], SKUT_SECOND_DROPS, 1);
    bad(&tables[5], SKUT_SECOND_OUTSIDE, 0);
}

/* One sheet and one list by hand. */
static void by_hand(const struct table *table)
{
    const uint64_t asked[] = {4, 5, 9, 10};
    struct skut_ts_sheet sheet = {.keys = {4, 5, 9, 10}, .used = 4};
    struct skut_ts_answer *got = sheet.answers;
    sheet = skut_find_ts_16(TABLE, sheet, SKUT_ROUND_UP).sheet;
    holds(TS_16, "4, 5, 9, 10, up: -3, -3, 20, none",
          got[0].found == 1 && got[0].second == -3 && got[1].found == 1 && got[1].second == -3 && got[2].found == 1 && got[2].second == 20 &&
              got[3].found == 0 && got[3].second == 0,
          "it is answered otherwise");
    hold_lists();
    skut_find_ts_each(TABLE, asked, 4, to_sec, 4, marks, 4, SKUT_ROUND_DOWN);
    holds(TS_EACH, "4, 5, 9, 10, down: none, 20, 30, 30",
          marks[0] == 0 && to_sec[0] == 0 && marks[1] == 1 && to_sec[1] == 20 && marks[2] == 1 && to_sec[2] == 30 && marks[3] == 1 && to_sec[3] == 30,
          "it is answered otherwise");
}

void question_cases(void)
{
    static const size_t lengths[] = {0, 1, 17, LONGEST};
    const struct table tables[] = {
        {"no pair", {0, 6, 0, 0, 0, NO_TOTALS}, few_seqs, few_secs, 6},
        {"one pair", {1, 6, 1, 0, -3, NO_TOTALS}, few_seqs, few_secs, 6},
        {"equal keys", {5, 6, 1, 0, 30, NO_TOTALS}, few_seqs, few_secs, 6},
        {"8,192 pairs", {PLACES, PLACES, 1, 0, 5 * (PLACES - 1) - 20000, NO_TOTALS}, full_seqs, full_secs, PLACES},
    };
    for (size_t i = 0; i < PLACES; i++) {
        full_seqs[i] = 3 * i;
        full_secs[i] = 5 * (int64_t)i - 20000;
    }
    for (size_t i = 0; i < LONGEST; i++) {
        keys_seq[i] = seq_keys[i % 16];
        keys_sec[i] = sec_keys[i % 16];
    }
    for (size_t i = 0; i < sizeof tables / sizeof tables[0]; i++) {
        const struct table *table = &tables[i];
        answers("skut_check", table->name, skut_check(TABLE), SKUT_DONE, 0, 0, 0);
        for (size_t j = 0; j < ROUNDS; j++) {
            sheets(table, rounds[j]);
            for (size_t k = 0; k < sizeof lengths / sizeof lengths[0]; k++) {
                list(table, rounds[j], lengths[k]);
            }
        }
        too_many(table);
        uneven(table);
    }
    by_hand(&tables[2]);
    bad_tables();
}
