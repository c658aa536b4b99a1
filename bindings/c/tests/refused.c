/* The state that stands in a refused answer: every call that takes a table refuses it by 14, but where an offered pair is refused, and not the table. */
#include "cases.h"

static uint64_t seqs[PLACES], other_seqs[PLACES];
static int64_t secs[PLACES], other_secs[PLACES];
static uint8_t out[32];

#define OWN seqs, PLACES, secs, PLACES
#define OTHER other_seqs, PLACES, other_secs, PLACES

const char *taken_by(struct skut_state state)
{
    struct skut_state good = skut_new().state;
    struct skut_table_answer other = skut_extend_from(good, OWN, state, OTHER);
    const struct {
        const char *name;
        uint32_t number;
    } calls[] = {
        {"skut_check", skut_check(state, OWN).number},
        {"skut_offer", skut_offer(state, OWN, 1, 1).answer.number},
        {"skut_offer_pairs", skut_offer_pairs(state, OWN, NONE, NONE).answer.number},
        {"skut_extend_from", skut_extend_from(state, OWN, good, OTHER).answer.number},
        {"skut_extend_from, as the other", other.answer.a == 1 ? other.answer.number : SKUT_DONE},
        {"skut_find_ts", skut_find_ts(state, OWN, 1, SKUT_ROUND_UP).number},
        {"skut_find_seq", skut_find_seq(state, OWN, 1, SKUT_ROUND_DOWN).number},
        {"skut_find_ts_16", skut_find_ts_16(state, OWN, (struct skut_ts_sheet){.used = 1}, SKUT_ROUND_UP).answer.number},
        {"skut_find_seq_16", skut_find_seq_16(state, OWN, (struct skut_seq_sheet){.used = 1}, SKUT_ROUND_DOWN).answer.number},
        {"skut_find_ts_each", skut_find_ts_each(state, OWN, NONE, NONE, NONE, SKUT_ROUND_UP).number},
        {"skut_find_seq_each", skut_find_seq_each(state, OWN, NONE, NONE, NONE, SKUT_ROUND_DOWN).number},
        {"skut_why_ts", skut_why_ts(state, OWN, 1, SKUT_ROUND_UP).answer.number},
        {"skut_why_seq", skut_why_seq(state, OWN, 1, SKUT_ROUND_DOWN).answer.number},
        {"skut_save", skut_save(state, OWN, out, sizeof out).number},
        {"skut_save_strict", skut_save_strict(state, OWN, out, sizeof out).number},
    };
    for (size_t i = 0; i < sizeof calls / sizeof calls[0]; i++) {
        if (calls[i].number != SKUT_STATE_DISAGREES) {
            return calls[i].name;
        }
    }
    return NULL;
}

static uint64_t kept_seqs[PLACES] = {5};
static int64_t kept_secs[PLACES] = {10};

#define KEPT kept_seqs, PLACES, kept_secs, PLACES

static void without_state(struct skut_state good, struct skut_state fresh)
{
    const uint64_t one[] = {1};
    const uint8_t cut[12] = {1};
    struct skut_state bad = good, full = good;
    bad.has_last = 2;
    full.totals = (struct skut_totals){.recorded = UINT64_MAX};
    gives_none("skut_with_config", "15 has no state", skut_with_config(8193, 0), SKUT_SETTINGS, 0);
    gives_none("skut_offer", "14 has no state", skut_offer(bad, KEPT, 9, 70), SKUT_STATE_DISAGREES, 0);
    gives_none("skut_offer", "31 has no state", skut_offer(full, KEPT, 9, 70), SKUT_TOTALS_FULL, 0);
    gives_none("skut_offer_pairs", "14 has no state", skut_offer_pairs(bad, KEPT, NONE, NONE), SKUT_STATE_DISAGREES, 0);
    gives_none("skut_offer_pairs", "18 has no state", skut_offer_pairs(good, KEPT, one, 1, NONE), SKUT_LENGTHS_DIFFER, 0);
    gives_none("skut_extend_from", "14 of the own table has no state", skut_extend_from(bad, KEPT, fresh, OTHER), SKUT_STATE_DISAGREES, 0);
    gives_none("skut_extend_from", "14 of the other table has no state", skut_extend_from(good, KEPT, bad, OTHER), SKUT_STATE_DISAGREES, 1);
    struct skut_answer count_cut = {SKUT_COUNT_CUT, .a = 1, .byte = 9};
    gives_none_all("skut_restore", "4 has no state", skut_restore(cut, sizeof cut, KEPT), count_cut);
    gives_none_all("skut_restore_with_interval", "4 has no state", skut_restore_with_interval(cut, sizeof cut, KEPT, good.interval_secs), count_cut);
    gives_none("skut_restore_with_interval", "15 has no state", skut_restore_with_interval(cut, sizeof cut, KEPT, UINT64_MAX), SKUT_SETTINGS, 0);
}

/* Tables whose kept pairs are refused. */
static void bad_pairs(void)
{
    uint64_t rising[] = {5, 6}, dropping[] = {5, 4};
    int64_t same[] = {10, 10}, earlier[] = {10, 9}, outside[] = {INT64_MIN, 10};
    struct skut_state state = {2, 2, 1, 0, 10, NO_TOTALS};
    gives_none("skut_offer", "11 has no state", skut_offer(state, dropping, 2, same, 2, 9, 70), SKUT_SEQUENCE_DROPS, 1);
    gives_none("skut_offer_pairs", "12 has no state", skut_offer_pairs(state, rising, 2, earlier, 2, NONE, NONE), SKUT_SECOND_DROPS, 1);
    gives_none("skut_extend_from", "13 has no state", skut_extend_from(state, rising, 2, outside, 2, skut_new().state, OTHER), SKUT_SECOND_OUTSIDE, 0);
}

/* An offer that is refused for its pair gives the state that counts it: of a list, the one that those before it left. */
static void with_state(struct skut_state good, struct skut_state fresh)
{
    const uint64_t q[] = {6, 4};
    const int64_t s[] = {70, 130}, late[] = {130, INT64_MAX}, later[] = {200};
    struct skut_state once = counting(good, NO_PAIR, 1);
    stops("skut_offer", "16 has the state that counts it", skut_offer(good, KEPT, 9, INT64_MAX), SKUT_OFFERED_OUTSIDE, NO_PAIR, once);
    stops("skut_offer", "17 has the state that counts it", skut_offer(good, KEPT, 4, 70), SKUT_OFFERED_DROPS, NO_PAIR, once);
    struct skut_table_answer said = skut_offer_pairs(good, KEPT, q, 2, s, 2);
    answers("skut_offer_pairs", "17 tells the position", said.answer, SKUT_OFFERED_DROPS, 1, 0, 0);
    said = skut_offer_pairs(said.state, KEPT, q, 2, late, 2);
    answers("skut_offer_pairs", "16 tells the position", said.answer, SKUT_OFFERED_OUTSIDE, 1, 0, 0);
    struct skut_state other = skut_offer_pairs(fresh, OTHER, q + 1, 1, later, 1).state;
    said = skut_extend_from(said.state, KEPT, other, OTHER);
    answers("skut_extend_from", "17 tells the position", said.answer, SKUT_OFFERED_DROPS, 0, 0, 0);
    answers("skut_check", "16 and 17 of a list have a state", skut_check(said.state, KEPT), SKUT_DONE, 0, 0, 0);
    holds("skut_offer_pairs", "the records before are kept", said.state.count == 3 && said.state.last == 130, "%zu pairs, last %lld", said.state.count,
          (long long)said.state.last);
    holds("skut_offer_pairs, skut_extend_from", "each refusal at a record is counted", said.state.totals.refused == 3, "%llu are counted",
          (unsigned long long)said.state.totals.refused);
}

void refused_cases(void)
{
    struct skut_state fresh = skut_new().state;
    struct skut_state good = {1, PLACES, 1, 60, 10, {.recorded = 1}};
    answers("skut_check", "the table of the next cases is good", skut_check(good, KEPT), SKUT_DONE, 0, 0, 0);
    holds("a good state", "is not refused", taken_by(fresh) != NULL, "every call refuses it");
    without_state(good, fresh);
    bad_pairs();
    answers("skut_check", "the table is good after all of these", skut_check(good, KEPT), SKUT_DONE, 0, 0, 0);
    with_state(good, fresh);
}
