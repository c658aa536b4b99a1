/* What the cases share: they are compared and counted. */
#include "cases.h"

#include <stdarg.h>
#include <stdio.h>

static unsigned passed, failed;

void holds(const char *call, const char *when, int truth, const char *said, ...)
{
    printf("%s %s: %s", truth ? "ok" : "FAILED", call, when);
    if (truth) {
        passed++;
    } else {
        failed++;
        va_list rest;
        va_start(rest, said);
        printf(": ");
        vprintf(said, rest);
        va_end(rest);
    }
    printf("\n");
}

static int same(struct skut_answer got, struct skut_answer due)
{
    return got.number == due.number && got.a == due.a && got.b == due.b && got.c == due.c && got.byte == due.byte && got.bit == due.bit;
}

/* An answer as text, in one of two places that are used in turn. */
static const char *shown(struct skut_answer answer)
{
    static char texts[2][160];
    static int turn;
    char *text = texts[turn ^= 1];
    snprintf(text, sizeof texts[0], "%u with %llu, %llu, %llu at byte %llu, bit %llu", answer.number, (unsigned long long)answer.a,
             (unsigned long long)answer.b, (unsigned long long)answer.c, (unsigned long long)answer.byte, (unsigned long long)answer.bit);
    return text;
}

void answers_all(const char *call, const char *when, struct skut_answer got, struct skut_answer due)
{
    holds(call, when, same(got, due), "expected %s, and it is %s", shown(due), shown(got));
}

void answers(const char *call, const char *when, struct skut_answer got, uint32_t number, uint64_t a, uint64_t b, uint64_t c)
{
    answers_all(call, when, got, (struct skut_answer){number, a, b, c, 0, 0});
}

int same_why(struct skut_why one, struct skut_why other)
{
    return same(one.answer, other.answer) && one.reason == other.reason && one.has_below == other.has_below && one.has_above == other.has_above &&
           one.position == other.position && one.below == other.below && one.above == other.above;
}

const char *why_text(struct skut_why why)
{
    static char texts[2][320];
    static int turn;
    char *text = texts[turn ^= 1];
    snprintf(text, sizeof texts[0], "%s, reason %u, position %zu, below %zu marked %u, above %zu marked %u", shown(why.answer), why.reason, why.position,
             why.below, why.has_below, why.above, why.has_above);
    return text;
}

void explains(const char *call, const char *when, struct skut_why got, struct skut_why due)
{
    holds(call, when, same_why(got, due), "expected %s, and it is %s", why_text(due), why_text(got));
}

void explains_nothing(const char *call, const char *when, struct skut_why got, uint32_t number, uint64_t a)
{
    explains(call, when, got, (struct skut_why){.answer = {.number = number, .a = a}, .reason = SKUT_WHY_REFUSED});
}

static int same_totals(struct skut_totals one, struct skut_totals other)
{
    return one.recorded == other.recorded && one.went_back == other.went_back && one.too_soon == other.too_soon && one.refused == other.refused;
}

int same_state(struct skut_state one, struct skut_state other)
{
    return one.count == other.count && one.capacity == other.capacity && one.has_last == other.has_last && one.interval_secs == other.interval_secs &&
           one.last == other.last && same_totals(one.totals, other.totals);
}

struct skut_state counting(struct skut_state state, struct skut_tally tally, uint64_t refused)
{
    state.totals.recorded += tally.recorded;
    state.totals.went_back += tally.went_back;
    state.totals.too_soon += tally.too_soon;
    state.totals.refused += refused;
    return state;
}

struct skut_state uncounted(struct skut_state state)
{
    state.totals = (struct skut_totals)NO_TOTALS;
    return state;
}

#define HELD 0x5555555555555555

void hold(uint64_t *seqs, int64_t *secs)
{
    for (size_t i = 0; i < PLACES; i++) {
        seqs[i] = HELD;
        secs[i] = HELD;
    }
}

int held_from(size_t place, const uint64_t *seqs, const int64_t *secs)
{
    while (place < PLACES && seqs[place] == HELD && secs[place] == HELD) {
        place++;
    }
    return place >= PLACES;
}

static int same_tally(struct skut_tally one, struct skut_tally other)
{
    return one.recorded == other.recorded && one.went_back == other.went_back && one.too_soon == other.too_soon;
}

/* An answer with a state, whose only value is a. */
static void has_state(const char *call, const char *when, struct skut_table_answer got, uint32_t number, uint64_t a, struct skut_tally tally,
                      struct skut_state state)
{
    struct skut_answer due = {number, a, 0, 0, 0, 0};
    int truth = same(got.answer, due) && same_tally(got.tally, tally) && same_state(got.state, state);
    struct skut_totals totals = got.state.totals;
    holds(call, when, truth,
          "expected %s, and it is %s, %zu recorded, %zu went back, %zu too soon, count %zu, capacity %u, interval %llu, last %lld, totals %llu, %llu, %llu, %llu",
          shown(due), shown(got.answer), got.tally.recorded, got.tally.went_back, got.tally.too_soon, got.state.count, got.state.capacity,
          (unsigned long long)got.state.interval_secs, (long long)got.state.last, (unsigned long long)totals.recorded, (unsigned long long)totals.went_back,
          (unsigned long long)totals.too_soon, (unsigned long long)totals.refused);
}

void gives(const char *call, const char *when, struct skut_table_answer got, struct skut_tally tally, struct skut_state state)
{
    has_state(call, when, got, SKUT_DONE, 0, tally, state);
}

void stops(const char *call, const char *when, struct skut_table_answer got, uint32_t number, struct skut_tally tally, struct skut_state state)
{
    has_state(call, when, got, number, tally.recorded + tally.went_back + tally.too_soon, tally, state);
}

void gives_none_all(const char *call, const char *when, struct skut_table_answer got, struct skut_answer due)
{
    const char *taker = taken_by(got.state);
    int truth = same(got.answer, due) && same_tally(got.tally, NO_PAIR) && taker == NULL;
    holds(call, when, truth, "expected %s and no state, and it is %s; it counts %zu, %zu, %zu; its state is taken by %s", shown(due), shown(got.answer),
          got.tally.recorded, got.tally.went_back, got.tally.too_soon, taker == NULL ? "no call" : taker);
}

void gives_none(const char *call, const char *when, struct skut_table_answer got, uint32_t number, uint64_t a)
{
    gives_none_all(call, when, got, (struct skut_answer){number, a, 0, 0, 0, 0});
}

int all_passed(void)
{
    printf("%u passed, %u failed\n", passed, failed);
    return failed == 0;
}
