/* Where bytes stop: 4 to 8 tell the place at which the item begins that is not there in full, and 24 tells how many bits are left. */
#include "cases.h"

#include <stdio.h>
#include <string.h>

static uint64_t seqs[PLACES];
static int64_t secs[PLACES];
static uint8_t image[64];

#define ARRAYS seqs, PLACES, secs, PLACES

/* The bytes of an array that the input ends in: so many, of its count in 4 bytes, the first value 0 in 8, and codes. */
struct ending {
    const char *when;
    uint8_t count;
    size_t length;
    uint8_t codes[5];
    struct skut_answer due; /* as it is for the sequences */
};

#define CUT(NUMBER, INDEX, WIDTH, BYTE, BIT) {NUMBER, .b = INDEX, .c = WIDTH, .byte = BYTE, .bit = BIT}
#define COUNT_CUT CUT(SKUT_COUNT_CUT, 0, 0, 5, 0)
#define FIRST_CUT CUT(SKUT_FIRST_CUT, 0, 0, 9, 0)
#define MISSING(INDEX, BYTE) CUT(SKUT_CODE_MISSING, INDEX, 0, BYTE, 0)
#define PREFIX_CUT(INDEX, BIT) CUT(SKUT_PREFIX_CUT, INDEX, 0, 17, BIT)
#define DIFFERENCE_CUT(INDEX, WIDTH, BIT) CUT(SKUT_DIFFERENCE_CUT, INDEX, WIDTH, 17, BIT)

static const struct ending endings[] = {
    {"nothing of the count", 2, 0, {0}, COUNT_CUT},
    {"3 bytes of the count", 2, 3, {0}, COUNT_CUT},
    {"nothing of the first value", 2, 4, {0}, FIRST_CUT},
    {"7 bytes of the first value", 2, 11, {0}, FIRST_CUT},
    {"no code", 2, 12, {0}, MISSING(1, 17)},
    {"8 codes of one bit", 10, 13, {0}, MISSING(9, 18)},
    {"16 codes of one bit", 18, 14, {0}, MISSING(17, 19)},
    {"a code of 12 bits, and 4 of one bit", 7, 14, {0xC0}, MISSING(6, 19)},
    {"a prefix of one 1", 9, 13, {0x01}, PREFIX_CUT(8, 7)},
    {"a prefix of two 1", 9, 13, {0x03}, PREFIX_CUT(7, 6)},
    {"a prefix of three 1", 9, 13, {0x07}, PREFIX_CUT(6, 5)},
    {"6 of 7 bits", 2, 13, {0x80}, DIFFERENCE_CUT(1, 7, 0)},
    {"5 of 7 bits", 3, 13, {0x40}, DIFFERENCE_CUT(2, 7, 1)},
    {"none of 7 bits", 9, 13, {0x02}, DIFFERENCE_CUT(7, 7, 6)},
    {"5 of 9 bits", 2, 13, {0xC0}, DIFFERENCE_CUT(1, 9, 0)},
    {"6 of 9 bits, in another byte than the code's first", 9, 14, {0x01, 0x80}, DIFFERENCE_CUT(8, 9, 7)},
    {"4 of 12 bits", 2, 13, {0xE0}, DIFFERENCE_CUT(1, 12, 0)},
    {"none of 32 bits", 9, 13, {0x0F}, DIFFERENCE_CUT(5, 32, 4)},
    {"28 of 32 bits, four bytes from the code's first", 2, 16, {0xF0}, DIFFERENCE_CUT(1, 32, 0)},
};

/* Appends the start of an array, and gives the length after it. */
static size_t array(size_t at, const struct ending *ending, size_t length, const uint8_t *codes)
{
    uint8_t bytes[17] = {0, 0, 0, ending->count};
    if (codes != NULL) {
        memcpy(bytes + 12, codes, sizeof ending->codes);
    }
    memcpy(image + at, bytes, length);
    return at + length;
}

/* The input of an ending, by every call that reads an image. For the seconds the sequences are whole, each 0: a bit for each but the first. */
static void ends(const struct ending *ending, const char *name, uint64_t which)
{
    char when[100];
    size_t header = 5, sequences = which == 0 ? 0 : 12 + (ending->count - 1 + 7) / 8;
    struct skut_answer due = ending->due;
    due.a = which;
    due.byte += sequences;
    memset(image, 0, sizeof image);
    image[0] = 1;
    image[1] = ending->count;
    size_t length = array(array(header, ending, sequences, NULL), ending, ending->length, ending->codes);
    snprintf(when, sizeof when, "the %s end with %s", name, ending->when);
    hold(seqs, secs);
    answers_all("skut_decode", when, skut_decode(image, length, ARRAYS), due);
    answers_all("skut_image_len", when, skut_image_len(image, length), due);
    struct skut_table_answer restored = skut_restore(image, length, ARRAYS), at_60 = skut_restore_with_interval(image, length, ARRAYS, 60);
    holds("skut_decode, the two restores, the arrays", when, held_from(0, seqs, secs), "they hold other values");
    gives_none_all("skut_restore", when, restored, due);
    gives_none_all("skut_restore_with_interval", when, at_60, due);
}

/* Every other refusal of a reader tells no place. */
static void placeless(void)
{
    const uint8_t other[] = {2}, cut[] = {1, 2, 0, 0}, differs[29] = {1, 2, [8] = 1}, more[29] = {1, 1, [8] = 1, [20] = 1};
    answers("skut_image_len", "1 has no place", skut_image_len(NONE), SKUT_EMPTY, 0, 0, 0);
    answers("skut_image_len", "2 has no place", skut_image_len(other, sizeof other), SKUT_VERSION, 2, 0, 0);
    answers("skut_image_len", "3 has no place", skut_image_len(cut, sizeof cut), SKUT_HEADER_CUT, 0, 0, 0);
    answers("skut_image_len", "9 has no place", skut_image_len(differs, sizeof differs), SKUT_COUNT_DIFFERS, 0, 0, 0);
    answers("skut_decode", "10 has no place", skut_decode(more, sizeof more, seqs, 0, secs, 1), SKUT_TOO_MANY_PAIRS, 0, 0, 0);
    answers("skut_image_len", "0 has no place", skut_image_len(more, sizeof more), SKUT_DONE, 29, 0, 0);
}

static void bits_left(void)
{
    const uint8_t bytes[9] = {0};
    const struct {
        const char *when;
        size_t length, byte;
        uint8_t bit, width;
        uint64_t left;
    } reads[] = {
        {"16 left at the start", 2, 0, 0, 17, 16},
        {"13 left inside", 2, 0, 3, 14, 13},
        {"8 left at the last byte", 2, 1, 0, 64, 8},
        {"1 left at the last bit", 2, 1, 7, 2, 1},
        {"63 left", 9, 1, 1, 64, 63},
        {"0 left at the end", 2, 2, 0, 1, 0},
        {"0 left past the end", 2, 3, 0, 1, 0},
        {"0 left past the end, in a bit", 2, 2, 1, 64, 0},
        {"0 left far past the end", 2, SIZE_MAX, 7, 64, 0},
        {"0 left at bit 8, inside", 2, 0, 8, 1, 0},
        {"0 left at bit 255, inside", 2, 1, 255, 64, 0},
        {"0 left of no bytes", 0, 0, 0, 64, 0},
    };
    for (size_t i = 0; i < sizeof reads / sizeof reads[0]; i++) {
        answers("skut_read_bits", reads[i].when, skut_read_bits(bytes, reads[i].length, reads[i].byte, reads[i].bit, reads[i].width), SKUT_BITS_SHORT,
                reads[i].left, 0, 0);
    }
    answers("skut_read_bits", "23 comes before 24", skut_read_bits(bytes, 2, 0, 0, 65), SKUT_WIDTH, 0, 0, 0);
    answers("skut_read_bits", "as many as are left", skut_read_bits(bytes, 2, 0, 3, 13), SKUT_DONE, 0, 2, 0);
}

void place_cases(void)
{
    for (size_t i = 0; i < sizeof endings / sizeof endings[0]; i++) {
        ends(&endings[i], "sequences", 0);
        ends(&endings[i], "seconds", 1);
    }
    placeless();
    bits_left();
}
