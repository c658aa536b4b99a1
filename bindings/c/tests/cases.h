/* A case compares one answer, and prints `ok CALL: WHEN`, or `FAILED CALL: WHEN` with what was expected and what came. */
#ifndef CASES_H
#define CASES_H

#include "../skutlaneb.h"

#define PLACES 8192

/* The first and the last second of the years 0001 to 9999. */
#define FIRST_SECOND (-INT64_C(62135596800))
#define LAST_SECOND INT64_C(253402300799)

/* A pointer and its length: no values. */
#define NONE NULL, 0

/* A tally by the names of its numbers; those not named are 0. */
#define TALLY(...) ((struct skut_tally){__VA_ARGS__})
#define NO_PAIR TALLY(.recorded = 0)

/* The totals of a state that has counted no offer, as its last initializer. */
#define NO_TOTALS {.recorded = 0}

/* A case, and what is said of it if it failed, as by printf. */
void holds(const char *call, const char *when, int truth, const char *said, ...);

/* The number and the values of an answer, which tells no place. */
void answers(const char *call, const char *when, struct skut_answer got, uint32_t number, uint64_t a, uint64_t b, uint64_t c);

/* An answer, with its place. */
void answers_all(const char *call, const char *when, struct skut_answer got, struct skut_answer due);

/* Why a lookup answers as it does: all that a struct skut_why tells. */
void explains(const char *call, const char *when, struct skut_why got, struct skut_why due);

/* The same of a table that is refused by this number, with a. */
void explains_nothing(const char *call, const char *when, struct skut_why got, uint32_t number, uint64_t a);

/* A call that is not refused: what it counts, and its state. */
void gives(const char *call, const char *when, struct skut_table_answer got, struct skut_tally tally, struct skut_state state);

/* A list of offers that is refused at a record: the number; the position, to which the tally adds up; and the state that its offer left. */
void stops(const char *call, const char *when, struct skut_table_answer got, uint32_t number, struct skut_tally tally, struct skut_state state);

/* A call that is refused and gives no state: what it answers, that it counts nothing, and that every call refuses the state that stands there. Its only value is a. */
void gives_none(const char *call, const char *when, struct skut_table_answer got, uint32_t number, uint64_t a);

/* The same of any answer, with its place. */
void gives_none_all(const char *call, const char *when, struct skut_table_answer got, struct skut_answer due);

/* The call that does not refuse a state by 14, where there is one. */
const char *taken_by(struct skut_state state);

int same_state(struct skut_state one, struct skut_state other);
int same_why(struct skut_why one, struct skut_why other);

/* What a struct skut_why tells, as text, in one of two places that are used in turn. */
const char *why_text(struct skut_why why);

/* The state, with the offers of a tally and these refused ones counted more, and with none counted. */
struct skut_state counting(struct skut_state state, struct skut_tally tally, uint64_t refused);
struct skut_state uncounted(struct skut_state state);

/* Fills two arrays of PLACES places with a value that no case stores, and gives whether they still hold it from a place on. */
void hold(uint64_t *seqs, int64_t *secs);
int held_from(size_t place, const uint64_t *seqs, const int64_t *secs);

/* A table with its name and its arrays, and what a call takes of one that `table` points to. */
struct table {
    const char *name;
    struct skut_state state;
    const uint64_t *seqs;
    const int64_t *secs;
    size_t places;
};

#define TABLE table->state, table->seqs, table->places, table->secs, table->places

void null_cases(void);
void refused_cases(void);
void claim_cases(void);
void reason_cases(void);
void place_cases(void);
void interval_cases(void);
void question_cases(void);
void why_cases(void);
void total_cases(void);
void date_cases(void);

/* Prints `N passed, M failed`, and gives whether nothing failed. */
int all_passed(void);

#endif
