/* A table from C: offers and why some are skipped, what they come to, a strict save, a restore, lookups by sequence and by date, many at once, and why one is
 * answered as it is. The table outlives every refused call. */
#include "skutlaneb.h"

#include <stdio.h>
#include <string.h>

/* The library was built for this layout. */
_Static_assert(sizeof(struct skut_answer) == 48 && offsetof(struct skut_answer, a) == 8 && offsetof(struct skut_answer, byte) == 32, "skut_answer");
_Static_assert(sizeof(struct skut_totals) == 32 && offsetof(struct skut_totals, went_back) == 8 && offsetof(struct skut_totals, refused) == 24, "skut_totals");
_Static_assert(sizeof(struct skut_state) == 64 && offsetof(struct skut_state, has_last) == 12 && offsetof(struct skut_state, totals) == 32, "skut_state");
_Static_assert(sizeof(struct skut_tally) == 24 && offsetof(struct skut_tally, too_soon) == 16, "skut_tally");
_Static_assert(sizeof(struct skut_table_answer) == 136 && offsetof(struct skut_table_answer, state) == 72, "skut_table_answer");
_Static_assert(sizeof(struct skut_ts_answer) == 16 && offsetof(struct skut_ts_answer, second) == 8, "skut_ts_answer");
_Static_assert(sizeof(struct skut_seq_answer) == 16 && offsetof(struct skut_seq_answer, seq) == 8, "skut_seq_answer");
_Static_assert(sizeof(struct skut_ts_sheet) == 392 && offsetof(struct skut_ts_sheet, answers) == 128 && offsetof(struct skut_ts_sheet, used) == 384, "skut_ts_sheet");
_Static_assert(sizeof(struct skut_seq_sheet) == 392 && offsetof(struct skut_seq_sheet, answers) == 128 && offsetof(struct skut_seq_sheet, used) == 384, "skut_seq_sheet");
_Static_assert(sizeof(struct skut_ts_sheet_answer) == 440 && offsetof(struct skut_ts_sheet_answer, sheet) == 48, "skut_ts_sheet_answer");
_Static_assert(sizeof(struct skut_seq_sheet_answer) == 440 && offsetof(struct skut_seq_sheet_answer, sheet) == 48, "skut_seq_sheet_answer");
_Static_assert(sizeof(struct skut_why) == 88 && offsetof(struct skut_why, reason) == 48 && offsetof(struct skut_why, position) == 64, "skut_why");

#define PLACES 8192

/* The table's interval, named where it is made and where it is restored: an image does not have it. skut_new and skut_restore take 10. */
#define INTERVAL_SECS 60

static uint64_t seqs[PLACES];
static int64_t secs[PLACES];
static uint8_t image[9 * PLACES + 21];

/* The state to go on with: the answer's where it gives one, else the one that the caller has, whose arrays a refused call leaves as they were. Refused with 16
 * or 17, an offer gives one that counts the refusal. */
static struct skut_state kept(struct skut_state had, struct skut_table_answer said)
{
    uint32_t number = said.answer.number;
    return number == SKUT_DONE || number == SKUT_OFFERED_OUTSIDE || number == SKUT_OFFERED_DROPS ? said.state : had;
}

/* The same after skut_offer_pairs or skut_extend_from: refused with 31, too, they give what stood before that record. */
static struct skut_state kept_of_list(struct skut_state had, struct skut_table_answer said)
{
    return said.answer.number == SKUT_TOTALS_FULL ? said.state : kept(had, said);
}

/* What came of one offer that was not refused, in words. */
static const char *outcome(struct skut_tally tally)
{
    return tally.recorded == 1 ? "recorded" : tally.went_back == 1 ? "went back" : "too soon";
}

static void print_totals(const char *since, struct skut_totals totals)
{
    printf("since the table was %s: %llu recorded, %llu went back, %llu too soon, %llu refused\n", since, (unsigned long long)totals.recorded,
           (unsigned long long)totals.went_back, (unsigned long long)totals.too_soon, (unsigned long long)totals.refused);
}

/* Prints the date of a sequence's second, and gives whether it has one. A date has twenty bytes and no zero byte after them. */
static int print_date_of(struct skut_state table, uint64_t seq)
{
    uint8_t date[20];
    struct skut_answer found = skut_find_ts(table, seqs, PLACES, secs, PLACES, seq, SKUT_ROUND_DOWN);
    if (found.number != SKUT_DONE || found.a != 1 || skut_write_date((int64_t)found.b, date, sizeof date).number != SKUT_DONE) {
        return 0;
    }
    printf("sequence %llu: second %lld or later, %.20s\n", (unsigned long long)seq, (long long)(int64_t)found.b, (const char *)date);
    return 1;
}

/* Prints the last sequence as of a date, which may have an offset and a fraction, or why it is no date, and gives whether it could. */
static int print_as_of(struct skut_state table, const char *date)
{
    struct skut_answer read = skut_read_date((const uint8_t *)date, strlen(date));
    if (read.number != SKUT_DONE) {
        printf("as of %s: refused %u\n", date, read.number);
        return 1;
    }
    struct skut_answer found = skut_find_seq(table, seqs, PLACES, secs, PLACES, (int64_t)read.a, SKUT_ROUND_DOWN);
    if (found.number != SKUT_DONE || found.a != 1) {
        return 0;
    }
    printf("as of %s: sequence %llu\n", date, (unsigned long long)found.b);
    return 1;
}

/* Prints the seconds of three sequences, and gives whether it could. The table is checked once for the sheet. Who has more than sixteen questions, or does not
 * know how many, calls skut_find_ts_each. */
static int print_at_once(struct skut_state table)
{
    struct skut_ts_sheet asked = {.keys = {99, 163, 164}, .used = 3};
    struct skut_ts_sheet_answer said = skut_find_ts_16(table, seqs, PLACES, secs, PLACES, asked, SKUT_ROUND_DOWN);
    if (said.answer.number != SKUT_DONE) {
        return 0;
    }
    for (size_t i = 0; i < said.sheet.used; i++) {
        printf("at once, sequence %llu: ", (unsigned long long)said.sheet.keys[i]);
        if (said.sheet.answers[i].found) {
            printf("second %lld or later\n", (long long)said.sheet.answers[i].second);
        } else {
            printf("nothing\n");
        }
    }
    return 1;
}

/* Prints why the lookup of a sequence answers as it does, and gives whether it could. */
static int print_why(struct skut_state table, uint64_t seq, uint32_t round)
{
    struct skut_why why = skut_why_ts(table, seqs, PLACES, secs, PLACES, seq, round);
    if (why.answer.number != SKUT_DONE) {
        return 0;
    }
    printf("why, sequence %llu, %s: ", (unsigned long long)seq, round == SKUT_ROUND_UP ? "up" : "down");
    switch (why.reason) {
    case SKUT_WHY_EXACT:
        printf("pair %zu has it\n", why.position);
        return 1;
    case SKUT_WHY_ROUNDED_UP:
    case SKUT_WHY_ROUNDED_DOWN:
        if (why.has_below && why.has_above) {
            printf("it is between pairs %zu and %zu, and pair %zu answers\n", why.below, why.above, why.position);
        } else {
            printf("it is %s, and pair %zu answers\n", why.has_below ? "after the last pair" : "before the first pair", why.position);
        }
        return 1;
    case SKUT_WHY_BEFORE_FIRST:
        printf("nothing, it is before the first pair\n");
        return 1;
    case SKUT_WHY_AFTER_LAST:
        printf("nothing, it is after the last pair\n");
        return 1;
    default: /* SKUT_WHY_EMPTY */
        printf("nothing, the table is empty\n");
        return 1;
    }
}

int main(void)
{
    const uint64_t from_seqs[] = {100, 164, 170, 170, 170, 150};
    const int64_t from_secs[] = {0, 60, 65, 59, 119, 125};
    struct skut_state table = skut_with_config(PLACES, INTERVAL_SECS).state;
    struct skut_table_answer said = skut_offer_pairs(table, seqs, PLACES, secs, PLACES, from_seqs, 6, from_secs, 6);
    table = kept_of_list(table, said);
    printf("%zu recorded, %zu went back, %zu too soon, refused %u at %llu: %zu pairs\n", said.tally.recorded, said.tally.went_back, said.tally.too_soon,
           said.answer.number, (unsigned long long)said.answer.a, table.count);

    /* The last recorded second is 60: 59 is below it, and 119 less than the interval, 60, above it. */
    const int64_t skipped[] = {59, 119};
    for (size_t i = 0; i < 2; i++) {
        said = skut_offer(table, seqs, PLACES, secs, PLACES, 170, skipped[i]);
        if (said.answer.number != SKUT_DONE) {
            return 1;
        }
        table = kept(table, said);
        printf("one offer, second %lld: %s: %zu pairs\n", (long long)skipped[i], outcome(said.tally), table.count);
    }

    said = skut_offer(table, seqs, PLACES, secs, PLACES, 150, 125);
    table = kept(table, said);
    printf("one offer, second 125: refused %u: %zu pairs\n", said.answer.number, table.count);
    print_totals("made", table.totals);

    struct skut_answer saved = skut_save_strict(table, seqs, PLACES, secs, PLACES, image, sizeof image);
    if (saved.number != SKUT_DONE) {
        return 1;
    }
    printf("%llu bytes\n", (unsigned long long)saved.a);

    /* 4 to 8 tell the place at which the item begins that is not there in full. */
    said = skut_restore_with_interval(image, saved.a - 1, seqs, PLACES, secs, PLACES, INTERVAL_SECS);
    table = kept(table, said);
    printf("one byte less: refused %u at byte %llu, bit %llu: %zu pairs\n", said.answer.number, (unsigned long long)said.answer.byte,
           (unsigned long long)said.answer.bit, table.count);

    said = skut_restore_with_interval(image, saved.a, seqs, PLACES, secs, PLACES, INTERVAL_SECS);
    table = kept(table, said);
    if (said.answer.number != SKUT_DONE || !print_date_of(table, 163)) {
        return 1;
    }
    if (!print_as_of(table, "1970-01-01T01:01:59.5+01:00") || !print_as_of(table, "1970-01-01T24:00:00Z") || !print_at_once(table)) {
        return 1;
    }
    if (!print_why(table, 163, SKUT_ROUND_DOWN) || !print_why(table, 164, SKUT_ROUND_DOWN) || !print_why(table, 99, SKUT_ROUND_UP) ||
        !print_why(table, 99, SKUT_ROUND_DOWN)) {
        return 1;
    }
    print_totals("restored", table.totals); /* an image does not carry them */
    return 0;
}
