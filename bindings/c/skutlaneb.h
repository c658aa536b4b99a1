/* The sequence table's calls for C, and for whatever links C. `rt staticlib skutlaneb` writes the library, target/staticlib/libskutlaneb.a,
 * for x86-64 and the System V convention of calls. docs/STATEMENTS.md has what is proved of each call.
 *
 * No argument makes a call misread, as long as each pointer and its length name memory of the caller's own that stays allocated and that nothing
 * else changes during the call, an array of uint64_t or int64_t is aligned for its type (to 8 bytes), and what a call writes to overlaps nothing else of
 * the same call: numbers that make no table, width, length or date are then refused by a number of the list below; only `round` takes any number. A length counts values, not bytes. Where it is 0, its pointer
 * is not used and may be NULL.
 *
 * Why an output may not overlap an input: the proofs take the arrays of a call to be apart. A call looks over its input first and reads it again
 * while it writes. If it then reads what it has just written, its answer is wrong, and a call that writes an image can write past the output's end,
 * since the length that it counted first is not that of the values which it finds. Offers write to both arrays of a table, so these are apart, too.
 *
 * A refused call leaves every array as it was and returns no state: keep the state you have until an answer gives one. Two cases are different:
 * - skut_offer, refused with 16 or 17, leaves the arrays as they were but returns a state to go on with: the one that it was given, its total `refused` one more
 *   and nothing else of it another. Who goes on with the one given loses that count alone.
 * - skut_offer_pairs and skut_extend_from, refused at a record (31, 16 or 17; of skut_extend_from 31 or 17), keep and return what stood before that record; with 16
 *   or 17 the state's total `refused` is one more.
 * example.c shows both.
 *
 * No call uses a heap or keeps anything after it returns. What stack each call needs stands beside it; a test holds the library to that. */
#ifndef SKUTLANEB_H
#define SKUTLANEB_H

#include <stddef.h>
#include <stdint.h>

#ifdef __cplusplus
extern "C" {
#endif

/* Ties a program to the library of its header: the number goes up with each change of a struct below, so that a program and a library of different numbers do
 * not link. The function does nothing. The tie is a pointer that nothing reads, so a file that includes this header needs the library, also where it calls nothing;
 * with SKUT_NO_TIE defined, for who wants the types alone or finds the calls by dlsym, there is no tie. A compiler without GNU's attributes leaves it out, and one
 * without `retain` lets the linker's --gc-sections drop it. */
void skut_layout_4(void);
#if defined(__GNUC__) && !defined(SKUT_NO_TIE)
#if defined(__has_attribute)
#if __has_attribute(retain)
#define SKUT_KEPT __attribute__((used, retain))
#endif
#endif
#ifndef SKUT_KEPT
#define SKUT_KEPT __attribute__((used))
#endif
static void (*const skut_layout_used)(void) SKUT_KEPT = skut_layout_4;
#undef SKUT_KEPT
#endif

/* What a call answers: number 0 and the values that it gives, or the number of its refusal and what that also tells. Values that are
 * not told are 0. 4 to 8 also tell a place, at which the item begins that is not there in full: `byte` of the input, from 0 on, and `bit` of it, from 0, the most
 * significant, to 7. The item is the count (4), the first value (5), or the code, which begins with its prefix (6, 7, 8). Where no bit of the item is there, the
 * place is the input's end, and `byte` is the input's length. In every other answer `byte` and `bit` are 0. */
struct skut_answer {
    uint32_t number;
    uint64_t a, b, c;
    uint64_t byte, bit;
};

/* How many offers a table has counted since it was made or restored, by what became of each. An offer is one pair, also in a list. All are counted but those refused
 * with 14, 11, 12, 13 or 31, so that the four add up to the number of offers counted. Creation and restore set them to 0: an image does not carry them. */
struct skut_totals {
    uint64_t recorded;  /* recorded, whether or not the pair is still kept */
    uint64_t went_back; /* skipped, as the second was below the last recorded one */
    uint64_t too_soon;  /* skipped, as the second was not below that one but less than the interval above it */
    uint64_t refused;   /* refused with 16 or 17 */
};

/* A table's state. Its pairs stand in two arrays of the caller's, each of as many places as the capacity says and at least one; `count` places
 * are in use. `has_last` of 0 says that no second was recorded yet, 1 that `last` is the last recorded one; a state with any other number there is
 * refused by 14 (after 18 and 35, by the calls that have them), and so is one whose totals add up to more than 2^64-1. A caller passes a state on as a call
 * returned it, with the same arrays, and changes nothing in either. */
struct skut_state {
    size_t count;
    uint32_t capacity;
    uint32_t has_last;
    uint64_t interval_secs;
    int64_t last;
    struct skut_totals totals;
};

/* What came of the pairs offered. A pair that is not refused is recorded, or it is skipped, for one of two reasons: it went back, its second being below the
 * last recorded one, or it came too soon, its second being not below that one but less than the interval above it. Skipped, it changes no array, and of the
 * state only the total of its reason, which is one more. At interval 0 none comes too soon; before a second was recorded none is skipped. The last recorded
 * second is the state's `last`, and not the last of the array: its pair need not be kept any more. A pair that is refused is not counted here. */
struct skut_tally {
    size_t recorded, went_back, too_soon;
};

/* What a call answers that returns a state. Where it returns none, `state` is one that every call refuses by 14, after 18 and 35 as above, and the numbers of
 * `tally` are 0; they are 0, too, where a table is made or restored, and where skut_offer is refused with 16 or 17. */
struct skut_table_answer {
    struct skut_answer answer;
    struct skut_tally tally;
    struct skut_state state;
};

/* Up to sixteen questions and their answers, in one struct that is passed and returned by value: by sequence, answered by a second, and by second, answered by a
 * sequence. `used` says how many of the places are questions: the first so many. An answer has `found` 1 and what was found, or both are 0, and there is none.
 * Keys, `used`, and the answers past it, whatever they hold, come back as they went in. */
struct skut_ts_answer {
    uint64_t found;
    int64_t second;
};

struct skut_ts_sheet {
    uint64_t keys[16];
    struct skut_ts_answer answers[16];
    size_t used;
};

struct skut_seq_answer {
    uint64_t found;
    uint64_t seq;
};

struct skut_seq_sheet {
    int64_t keys[16];
    struct skut_seq_answer answers[16];
    size_t used;
};

/* What a call on a sheet answers: number 0, and the sheet with the answers to its questions; or the number of its refusal, and the sheet as it went in. */
struct skut_ts_sheet_answer {
    struct skut_answer answer;
    struct skut_ts_sheet sheet;
};

struct skut_seq_sheet_answer {
    struct skut_answer answer;
    struct skut_seq_sheet sheet;
};

/* A lookup's answer, and why it is that. `answer` is what skut_find_ts or skut_find_seq answers to the same question, in all of its numbers. `reason` is a number
 * of the list SKUT_WHY_. `position` is that of the pair that answers, with the reasons 1, 2 and 3. Where no key equals the one asked for, and one answers (2 and 3),
 * `below` is the position of the last smaller key and `above` that of the first greater one; the one that the rounding takes is always there, and answers, and the
 * other is there unless the one asked for is below the first key or above the last. `has_below` and `has_above` are 1 where there is such a position, and else 0; with every other reason both are 0.
 * Positions count the kept pairs from 0; one that is not told is 0. Refused, all but `answer` is 0. */
struct skut_why {
    struct skut_answer answer;
    uint32_t reason, has_below, has_above;
    size_t position, below, above;
};

/* The numbers. "Array" is 0 for the sequences and 1 for the seconds; an index or a position counts from 0. What is told stands in a, b, c in
 * the order named. A place comes last, and stands in byte and bit. */
enum {
    SKUT_DONE = 0,
    SKUT_EMPTY = 1,             /* the input is empty */
    SKUT_VERSION = 2,           /* the first byte is not 1, the version: the byte */
    SKUT_HEADER_CUT = 3,        /* the input has fewer than 5 bytes */
    SKUT_COUNT_CUT = 4,         /* the input ends in an array's count: array; place of the count */
    SKUT_FIRST_CUT = 5,         /* the input ends in an array's first value: array; place of the value */
    SKUT_CODE_MISSING = 6,      /* the input ends before a code: array, index; place of the code, the input's end */
    SKUT_PREFIX_CUT = 7,        /* the input ends in a code's prefix: array, index; place of the code */
    SKUT_DIFFERENCE_CUT = 8,    /* the input ends in a code's difference: array, index, width of the difference; place of the code */
    SKUT_COUNT_DIFFERS = 9,     /* an array's count is not the header's: array */
    SKUT_TOO_MANY_PAIRS = 10,   /* an array's count is above the shorter lent array or, in the two restores, above 8,192: array */
    SKUT_SEQUENCE_DROPS = 11,   /* a sequence is below the one before it: index */
    SKUT_SECOND_DROPS = 12,     /* a second is below the one before it: index */
    SKUT_SECOND_OUTSIDE = 13,   /* a second is outside the years 0001 to 9999: index */
    SKUT_STATE_DISAGREES = 14,  /* the state and the arrays do not fit together, or the totals add up to more than 2^64-1 */
    SKUT_SETTINGS = 15,         /* the capacity is above 8,192 or the interval above 2^63-1 */
    SKUT_OFFERED_OUTSIDE = 16,  /* the offered second is outside the years 0001 to 9999: of a list, the position */
    SKUT_OFFERED_DROPS = 17,    /* the offered sequence is below the last kept one: of a list, the position */
    SKUT_LENGTHS_DIFFER = 18,   /* the two arrays to encode, the two lists of offers, or the questions, answers and marks of a list, differ in length */
    SKUT_TOO_MANY_VALUES = 19,  /* each array to encode has more than 65,536 values */
    SKUT_WIDE = 20,             /* strict: a difference of deltas is outside -2^31..2^31-1: array, index */
    SKUT_ROOM = 21,             /* the output is too short: the bytes needed */
    SKUT_INPUT_TOO_LONG = 22,   /* the input of the program listing or listing_dates is above 16,384 bytes, or that of why above 65,536; no call here answers it */
    SKUT_WIDTH = 23,            /* a bit width is above 64, or outside 1..32 in sign extension */
    SKUT_BITS_SHORT = 24,       /* fewer bits are left than asked for: the bits left, 0 to 63 */
    SKUT_DATE_GRAMMAR = 25,     /* the text is not a date-time of RFC 3339's grammar, or its fraction has more than nine digits */
    SKUT_NO_SUCH_TIME = 26,     /* the text is of that form, but there is no such date, time of day or offset */
    SKUT_DATE_OUTSIDE = 27,     /* the second to write, or the one read once the offset is applied, is outside the years 0001 to 9999 */
    SKUT_TOTALS_FULL = 31,      /* the totals add up to 2^64-1, and one more offer would pass that: of a list, the position */
    SKUT_TOO_MANY_QUESTIONS = 35, /* a sheet's `used` is above 16 */
    SKUT_BAD_QUESTION = 36      /* the input of the program why does not begin with the line of a question; no call here answers it */
};

/* Which of the kept keys answers a lookup. */
enum {
    SKUT_ROUND_UP = 0,  /* the first that is not below the one asked for */
    SKUT_ROUND_DOWN = 1 /* the last that is not above it; any other number does the same */
};

/* Why a lookup answers as it does. Each question to a good table has exactly one of the reasons 1 to 6: with 1, 2 and 3 a pair answers, with 4, 5 and 6 none. */
enum {
    SKUT_WHY_REFUSED = 0,      /* the call is refused, by the number of its answer */
    SKUT_WHY_EXACT = 1,        /* a kept key equals the one asked for; of several, SKUT_ROUND_UP takes the lowest position and SKUT_ROUND_DOWN the highest */
    SKUT_WHY_ROUNDED_UP = 2,   /* none equals it, and the first greater one answers: `position` is `above`; `below` is the one before it, where there is one */
    SKUT_WHY_ROUNDED_DOWN = 3, /* none equals it, and the last smaller one answers: `position` is `below`; `above` is the one after it, where there is one */
    SKUT_WHY_BEFORE_FIRST = 4, /* SKUT_ROUND_DOWN, and all kept keys are greater */
    SKUT_WHY_AFTER_LAST = 5,   /* SKUT_ROUND_UP, and all kept keys are smaller */
    SKUT_WHY_EMPTY = 6         /* the table keeps no pair */
};

/* ---- A table */

/* An empty table of the default settings: capacity 8,192 and interval 10, where slatedb's default interval is 60. Stack: 256 bytes. */
struct skut_table_answer skut_new(void);

/* An empty table: 15. Stack: 256 bytes. */
struct skut_table_answer skut_with_config(uint32_t capacity, uint64_t interval_secs);

/* Whether a table is good: 14, 11, 12, 13, in this order. Every call below that takes a table checks this first, skut_offer_pairs and the lists of questions after
 * 18, the sheets after 35. Stack: 256 bytes. */
struct skut_answer skut_check(struct skut_state state, const uint64_t *seqs, size_t seqs_len, const int64_t *secs, size_t secs_len);

/* Offers a pair: 31; 16; then it may be skipped; then 17; else it is recorded. Where it is not refused, exactly one number of `tally` is 1. With 16 or 17 a state
 * is returned, which counts that; with 31 nothing is counted, and none is returned. Where more pairs than the capacity would stand, every second one is dropped:
 * the project's README says how coarse old answers may then be. Stack: 512 bytes. */
struct skut_table_answer skut_offer(struct skut_state state, uint64_t *seqs, size_t seqs_len, int64_t *secs, size_t secs_len, uint64_t seq, int64_t sec);

/* Offers pairs in order, from two lists of one length, up to the first that is refused (31, 16, 17). Lists of different length are refused before all else: 18.
 * Where a state is returned, the numbers of `tally` add up to the length or, with 31, 16 or 17, to the position that is told. With 16 or 17 the state counts that
 * refusal; with 31 it is as the pairs before left it. Stack: 896 bytes. */
struct skut_table_answer skut_offer_pairs(struct skut_state state, uint64_t *seqs, size_t seqs_len, int64_t *secs, size_t secs_len,
                                          const uint64_t *from_seqs, size_t from_seqs_len, const int64_t *from_secs, size_t from_secs_len);

/* Offers the pairs of another table, whose arrays are not those of the own one, up to the first that is refused (31, 17). Where a table is bad (14, 11, 12, 13),
 * which of the two is told last: 0 for the own one, 1 for the other. Where a state is returned, the numbers of `tally` add up to the other table's `count` or,
 * with 31 or 17, to the position that is told. With 17 the state counts that refusal; with 31 it is as the pairs before left it. The other table's totals are
 * checked, by 14, and else they do not matter. Stack: 1,152 bytes. */
struct skut_table_answer skut_extend_from(struct skut_state state, uint64_t *seqs, size_t seqs_len, int64_t *secs, size_t secs_len,
                                          struct skut_state other, const uint64_t *other_seqs, size_t other_seqs_len,
                                          const int64_t *other_secs, size_t other_secs_len);

/* The second of a sequence. a is 1, and b the second by its 64 bits; or a is 0, and there is none. Where several kept sequences are equal to the one asked for,
 * SKUT_ROUND_UP takes the one at the lowest position and SKUT_ROUND_DOWN the one at the highest. Where none is equal, SKUT_ROUND_UP takes the first greater one
 * and SKUT_ROUND_DOWN the last smaller one. Stack: 384 bytes. */
struct skut_answer skut_find_ts(struct skut_state state, const uint64_t *seqs, size_t seqs_len, const int64_t *secs, size_t secs_len, uint64_t seq, uint32_t round);

/* The sequence of a second, likewise: a is 1 and b the sequence, or a is 0. Of the pairs of one second SKUT_ROUND_UP gives the first one's sequence and
 * SKUT_ROUND_DOWN the last one's. Stack: 384 bytes. */
struct skut_answer skut_find_seq(struct skut_state state, const uint64_t *seqs, size_t seqs_len, const int64_t *secs, size_t secs_len, int64_t sec, uint32_t round);

/* The seconds of up to sixteen sequences: 35, before all else. The table is checked once; each question is answered as skut_find_ts would answer it, with one
 * `round` for all. With 0 nothing is told in a, b, c. Stack: 1,920 bytes; until memcpy is found, more by what the dynamic linker
 * takes. */
struct skut_ts_sheet_answer skut_find_ts_16(struct skut_state state, const uint64_t *seqs, size_t seqs_len, const int64_t *secs, size_t secs_len,
                                            struct skut_ts_sheet sheet, uint32_t round);

/* The sequences of up to sixteen seconds, likewise, as skut_find_seq would answer. Stack: 1,920 bytes; until memcpy is found, more, too. */
struct skut_seq_sheet_answer skut_find_seq_16(struct skut_state state, const uint64_t *seqs, size_t seqs_len, const int64_t *secs, size_t secs_len,
                                              struct skut_seq_sheet sheet, uint32_t round);

/* The second of each sequence of a list, of any length: 18 where the three lengths are not one, before all else. The table is checked once; each question is
 * answered as skut_find_ts would answer it, with one `round` for all: the second in `answers` and 1 in `found` at the question's place, or 0 in both, and there is
 * none. Refused, both are as they were. With 0 nothing is told in a, b, c. Stack: 768 bytes. */
struct skut_answer skut_find_ts_each(struct skut_state state, const uint64_t *seqs, size_t seqs_len, const int64_t *secs, size_t secs_len,
                                     const uint64_t *keys, size_t keys_len, int64_t *answers, size_t answers_len, uint8_t *found, size_t found_len, uint32_t round);

/* The sequence of each second of a list, likewise, as skut_find_seq would answer. Stack: 768 bytes. */
struct skut_answer skut_find_seq_each(struct skut_state state, const uint64_t *seqs, size_t seqs_len, const int64_t *secs, size_t secs_len,
                                      const int64_t *keys, size_t keys_len, uint64_t *answers, size_t answers_len, uint8_t *found, size_t found_len, uint32_t round);

/* What skut_find_ts answers to the same question, and why. Stack: 384 bytes. */
struct skut_why skut_why_ts(struct skut_state state, const uint64_t *seqs, size_t seqs_len, const int64_t *secs, size_t secs_len, uint64_t seq, uint32_t round);

/* What skut_find_seq answers to the same question, and why. Stack: 384 bytes. */
struct skut_why skut_why_seq(struct skut_state state, const uint64_t *seqs, size_t seqs_len, const int64_t *secs, size_t secs_len, int64_t sec, uint32_t round);

/* Writes the table's image, and a is its length: 21. An image of n pairs has at most 9n + 21 bytes. The bytes are those that slatedb writes, also where
 * they read back as other pairs: (0, 0), (2^33, 60) come back as (0, 0), (0, 60). Stack: 640 bytes. */
struct skut_answer skut_save(struct skut_state state, const uint64_t *seqs, size_t seqs_len, const int64_t *secs, size_t secs_len, uint8_t *out, size_t out_len);

/* The same, but an image that would read back as other pairs is refused: 20, 21. The table comes back as it was but for its totals, which are 0, from
 * skut_restore_with_interval with the table's own interval, if its capacity is 8,192, it was made by skut_new, skut_with_config or a restore and by offers alone,
 * and nobody changes the bytes. At the default interval, 10, it does from skut_restore, too. Else its pairs come back as long as the bytes are the same, and the
 * rest may differ, since the image has neither the settings nor the last recorded second:
 * - capacity 8,192, interval 60, and (5, 100) offered: it comes back from skut_restore with interval 10, and records (6, 110), which came too soon before;
 * - capacity 3, interval 0, and (1, 10), (2, 20), (3, 30), (4, 40) offered: `last` is 40, and comes back as 30, with capacity 8,192, from skut_restore with
 *   interval 10, and from skut_restore_with_interval with the one that is named;
 * - a state that no call made, with count 1, the default settings, `last` 20 and totals of 0, and the pair (1, 10): 14 accepts it, and `last` comes back as 10.
 * Nor has it a checksum: bytes that were changed may read as another table, with no refusal. Stack: 640 bytes. */
struct skut_answer skut_save_strict(struct skut_state state, const uint64_t *seqs, size_t seqs_len, const int64_t *secs, size_t secs_len, uint8_t *out, size_t out_len);

/* The table of an image, of capacity 8,192 and interval 10, its pairs in arrays of at least 8,192 places, its last recorded second that of the last
 * pair, its totals 0: 14, 1 to 10, 11 to 13; 4 to 8 with their place. Bytes after the image are ignored. The arrays' places from `count` on keep what they held.
 * skut_save_strict says when this is the table that was saved. Stack: 133,120 bytes; and, in a program that is linked without -z now, until a call has found
 * memset and memcpy, what the dynamic linker takes to find them, which differs by machine: 134,768 bytes in all were measured on one. */
struct skut_table_answer skut_restore(const uint8_t *bytes, size_t bytes_len, uint64_t *seqs, size_t seqs_len, int64_t *secs, size_t secs_len);

/* The same, of the interval that is named: 15 where that is above 2^63-1, before all else; then as skut_restore, which is this with 10. An image has no
 * interval, so name the one that the table had: 60, where it is slatedb's and has its defaults. Stack: 133,120 bytes; until memset and memcpy are found, as in
 * skut_restore, 134,792 bytes in all were measured. */
struct skut_table_answer skut_restore_with_interval(const uint8_t *bytes, size_t bytes_len, uint64_t *seqs, size_t seqs_len, int64_t *secs, size_t secs_len,
                                                    uint64_t interval_secs);

/* ---- Images of two arrays, with no table */

/* The length of the image, in a: 18, 19. Stack: 256 bytes. */
struct skut_answer skut_encoded_len(const uint64_t *seqs, size_t seqs_len, const int64_t *secs, size_t secs_len);

/* Writes the image, and a is its length: 18, 19, 21. Stack: 512 bytes. */
struct skut_answer skut_encode(const uint64_t *seqs, size_t seqs_len, const int64_t *secs, size_t secs_len, uint8_t *out, size_t out_len);

/* The same, but an image that would read back as other values is refused: 18, 19, 20, 21. Stack: 640 bytes. */
struct skut_answer skut_encode_strict(const uint64_t *seqs, size_t seqs_len, const int64_t *secs, size_t secs_len, uint8_t *out, size_t out_len);

/* Fills two arrays, and a is the number of pairs: 1 to 10, 4 to 8 with their place. The arrays' places from that number on keep what they held. Stack: 1,024 bytes. */
struct skut_answer skut_decode(const uint8_t *bytes, size_t bytes_len, uint64_t *seqs, size_t seqs_len, int64_t *secs, size_t secs_len);

/* The length of the image at the start of the bytes, in a: 1 to 9, 4 to 8 with their place. Stack: 768 bytes. */
struct skut_answer skut_image_len(const uint8_t *bytes, size_t bytes_len);

/* ---- Bits, the most significant first. A place is a byte and a bit of it; one past the end, or with a bit above 7, counts as the end. */

/* The low `bits` bits of a value as a signed number, by its 64 bits in a: 23. Stack: 256 bytes. */
struct skut_answer skut_sign_extend(uint32_t val, uint8_t bits);

/* Reads 0 to 64 bits: the value in a, the place after them in b and c: 23, 24. With 24 a is how many bits are left from the place on. Stack: 256 bytes. */
struct skut_answer skut_read_bits(const uint8_t *s, size_t s_len, size_t byte, uint8_t bit, uint8_t width);

/* Writes the low 0 to 64 bits of a value: the place after them in a and b: 23, 21. The bits before the place stay, what is left of the last byte written
 * becomes 0; a write of no bits changes nothing. Stack: 256 bytes. */
struct skut_answer skut_write_bits(uint8_t *buf, size_t buf_len, size_t byte, uint8_t bit, uint64_t value, uint8_t width);

/* ---- Dates, as RFC 3339 writes them. The texts have no zero byte at their end. */

/* Writes the date of a second as YYYY-MM-DDTHH:MM:SSZ, and a is its length, 20: 27, 21. Bytes past the twenty stay. The order of two seconds is that of their
 * dates by memcmp, and skut_read_date gives the second back. Stack: 384 bytes. */
struct skut_answer skut_write_date(int64_t sec, uint8_t *out, size_t out_len);

/* The second of a date-time, by its 64 bits in a: 25, 26, 27, in this order. The date-time is all of the bytes: YYYY-MM-DD, `T` or `t`, HH:MM:SS; then, or not,
 * a point and one to nine digits, which are left out, so that the second is the one that has begun, also before 1970; then `Z`, `z`, +HH:MM or -HH:MM. Year
 * 0000, second 60, and an offset's hours above 23 or minutes above 59 are refused by 26. Stack: 512 bytes. */
struct skut_answer skut_read_date(const uint8_t *bytes, size_t bytes_len);

#ifdef __cplusplus
}
#endif
#endif
