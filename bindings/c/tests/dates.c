/* Dates: what is written, what is read, and what each call refuses, in which order. */
#include "cases.h"

#include <stdio.h>
#include <string.h>

#define LENGTH(array) (sizeof(array) / sizeof (array)[0])

/* The bytes of a date as it is written, and of a buffer with some more. */
#define DATE 20
#define ROOM 32

static struct skut_answer read_text(const char *text)
{
    return skut_read_date((const uint8_t *)text, strlen(text));
}

/* Whether a call gives this value, and tells nothing else. */
static int gave(struct skut_answer got, uint64_t a)
{
    return got.number == SKUT_DONE && got.a == a && got.b == 0 && got.c == 0 && got.byte == 0 && got.bit == 0;
}

/* Whether a call that reads is refused by this number, which tells nothing. */
static int refuses(struct skut_answer got, uint32_t number)
{
    return got.number == number && got.a == 0 && got.b == 0 && got.c == 0 && got.byte == 0 && got.bit == 0;
}

/* A case of many tries, each of which is right or wrong. */
struct tries {
    size_t all, wrong;
};

static void count(struct tries *tries, int right)
{
    tries->all++;
    tries->wrong += !right;
}

static void all_right(const char *call, const char *when, struct tries tries, size_t due)
{
    holds(call, when, tries.wrong == 0 && tries.all == due, "%zu of %zu are wrong, and %zu were to be tried", tries.wrong, tries.all, due);
}

static void texts(void)
{
    const struct {
        const char *text;
        uint32_t number;
        int64_t second;
    } cases[] = {
        {"1970-01-01T00:00:00Z", SKUT_DONE, 0},
        {"0001-01-01T00:00:00Z", SKUT_DONE, FIRST_SECOND},
        {"9999-12-31T23:59:59Z", SKUT_DONE, LAST_SECOND},
        {"2000-02-29T00:00:00Z", SKUT_DONE, 951782400},
        {"1900-02-29T00:00:00Z", SKUT_NO_SUCH_TIME, 0},
        {"2100-02-29T00:00:00Z", SKUT_NO_SUCH_TIME, 0},
        {"2024-02-29T00:00:00Z", SKUT_DONE, 1709164800},
        {"2023-02-29T00:00:00Z", SKUT_NO_SUCH_TIME, 0},
        {"1969-12-31T23:59:59.999999999Z", SKUT_DONE, -1},
        {"1969-12-31T23:59:59.0Z", SKUT_DONE, -1},
        {"0001-01-01T00:00:00.999999999Z", SKUT_DONE, FIRST_SECOND},
        {"9999-12-31T23:59:59.999999999Z", SKUT_DONE, LAST_SECOND},
        {"0001-01-01T00:00:00+00:01", SKUT_DATE_OUTSIDE, 0},
        {"9999-12-31T23:59:59-00:01", SKUT_DATE_OUTSIDE, 0},
        {"0001-01-01T00:01:00+00:01", SKUT_DONE, FIRST_SECOND},
        {"9999-12-31T23:58:59-00:01", SKUT_DONE, LAST_SECOND},
        {"0000-12-31T23:59:59-00:01", SKUT_NO_SUCH_TIME, 0},
        {"1990-12-31T23:59:60Z", SKUT_NO_SUCH_TIME, 0},
        {"1990-12-31T15:59:60-08:00", SKUT_NO_SUCH_TIME, 0},
        {"1985-04-12t23:20:50.52z", SKUT_DONE, 482196050},
        {"1985-04-12T23:20:50.52z", SKUT_DONE, 482196050},
        {"1985-04-12t23:20:50.52Z", SKUT_DONE, 482196050},
        {"1996-12-19T16:39:57-08:00", SKUT_DONE, 851042397},
        {"1937-01-01T12:00:27.87+00:20", SKUT_DONE, -1041337173},
        {"1970-01-01T00:00:00-00:00", SKUT_DONE, 0},
        {"1970-01-01T00:00:00+00:00", SKUT_DONE, 0},
        {"1970-01-01T23:59:00+23:59", SKUT_DONE, 0},
        {"1969-12-31T00:01:00-23:59", SKUT_DONE, 0},
        {"1970-01-01T00:00:00+24:00", SKUT_NO_SUCH_TIME, 0},
        {"1970-01-01T00:00:00-00:60", SKUT_NO_SUCH_TIME, 0},
        {"1970-01-01T24:00:00Z", SKUT_NO_SUCH_TIME, 0},
        {"1970-01-01T00:60:00Z", SKUT_NO_SUCH_TIME, 0},
        {"1970-00-01T00:00:00Z", SKUT_NO_SUCH_TIME, 0},
        {"1970-13-01T00:00:00Z", SKUT_NO_SUCH_TIME, 0},
        {"1970-01-00T00:00:00Z", SKUT_NO_SUCH_TIME, 0},
        {"1970-04-31T00:00:00Z", SKUT_NO_SUCH_TIME, 0},
        {"9999-12-31T23:59:60-00:01", SKUT_NO_SUCH_TIME, 0}, /* 26 before 27 */
        {"0001-01-01T00:00:00+24:00", SKUT_NO_SUCH_TIME, 0},
        {"", SKUT_DATE_GRAMMAR, 0},
        {"1970-01-01", SKUT_DATE_GRAMMAR, 0},
        {"1970-01-01 00:00:00Z", SKUT_DATE_GRAMMAR, 0},
        {"1970-01-01T00:00:00", SKUT_DATE_GRAMMAR, 0},
        {"1970-01-01T00:00:00.Z", SKUT_DATE_GRAMMAR, 0},
        {"1970-01-01T00:00:00,5Z", SKUT_DATE_GRAMMAR, 0},
        {"1970-01-01T00:00:00.1234567890Z", SKUT_DATE_GRAMMAR, 0},
        {"1970-01-01T00:00:00Z ", SKUT_DATE_GRAMMAR, 0},
        {" 1970-01-01T00:00:00Z", SKUT_DATE_GRAMMAR, 0},
        {"1970-01-01T00:00:00+0100", SKUT_DATE_GRAMMAR, 0},
        {"1970-01-01T00:00:00+01", SKUT_DATE_GRAMMAR, 0},
        {"1970-01-01T00:00:00+01:00Z", SKUT_DATE_GRAMMAR, 0},
        {"1970-01-01T00:00Z", SKUT_DATE_GRAMMAR, 0},
        {"+1970-01-01T00:00:00Z", SKUT_DATE_GRAMMAR, 0},
        {"12024-01-01T00:00:00Z", SKUT_DATE_GRAMMAR, 0},
        {"0000-13-32T24:60:60+24:60!", SKUT_DATE_GRAMMAR, 0}, /* 25 before 26 */
        {"1990-12-31T23:59:60.Z", SKUT_DATE_GRAMMAR, 0},
        {"0001-01-01T00:00:00+00:01 ", SKUT_DATE_GRAMMAR, 0}, /* 25 before 27 */
    };
    for (size_t i = 0; i < LENGTH(cases); i++) {
        answers("skut_read_date", cases[i].text, read_text(cases[i].text), cases[i].number, (uint64_t)cases[i].second, 0, 0);
    }
}

/* A buffer that holds what no date has, and whether it still does from a place on. */
static void fill(uint8_t *out)
{
    memset(out, 0xAA, ROOM);
}

static int filled_from(const uint8_t *out, size_t place)
{
    while (place < ROOM && out[place] == 0xAA) {
        place++;
    }
    return place == ROOM;
}

/* Whether a second is written as this date, in any room, with no byte past it changed, and is read back from it. */
static int written_as(int64_t second, const char *date)
{
    int right = gave(read_text(date), (uint64_t)second);
    for (size_t room = DATE; room <= ROOM; room++) {
        uint8_t out[ROOM];
        fill(out);
        right = right && gave(skut_write_date(second, out, room), DATE) && memcmp(out, date, DATE) == 0 && filled_from(out, DATE);
    }
    return right;
}

/* Whether a second is refused in a room, and the buffer is as it was. */
static int not_written(int64_t second, size_t room, struct skut_answer due)
{
    uint8_t out[ROOM];
    fill(out);
    struct skut_answer got = skut_write_date(second, out, room);
    return got.number == due.number && got.a == due.a && got.b == 0 && got.c == 0 && got.byte == 0 && got.bit == 0 && filled_from(out, 0);
}

static void written(void)
{
    const struct {
        int64_t second;
        const char *date;
    } cases[] = {
        {0, "1970-01-01T00:00:00Z"},
        {-1, "1969-12-31T23:59:59Z"},
        {FIRST_SECOND, "0001-01-01T00:00:00Z"},
        {LAST_SECOND, "9999-12-31T23:59:59Z"},
        {951782400, "2000-02-29T00:00:00Z"},
        {951868800, "2000-03-01T00:00:00Z"},
        {-2203891201, "1900-02-28T23:59:59Z"},
        {-2203891200, "1900-03-01T00:00:00Z"},
        {4107542400, "2100-03-01T00:00:00Z"},
        {1709210096, "2024-02-29T12:34:56Z"},
        {INT64_C(253370764800), "9999-01-01T00:00:00Z"},
    };
    for (size_t i = 0; i < LENGTH(cases); i++) {
        holds("skut_write_date, skut_read_date", cases[i].date, written_as(cases[i].second, cases[i].date), "it is another date or second, or another byte changed");
    }
}

/* 27 before 21, and 21 with the bytes needed; neither writes a byte. */
static void not_written_cases(void)
{
    const int64_t outside[] = {FIRST_SECOND - 1, LAST_SECOND + 1, INT64_MIN, INT64_MAX}, inside[] = {FIRST_SECOND, -1, 0, LAST_SECOND};
    const struct skut_answer no_date = {.number = SKUT_DATE_OUTSIDE}, no_room = {.number = SKUT_ROOM, .a = DATE};
    for (size_t i = 0; i < 4; i++) {
        char when[80];
        struct tries tries = {0, 0}, short_of = {0, 0};
        for (size_t room = 0; room <= ROOM; room++) {
            count(&tries, not_written(outside[i], room, no_date));
        }
        for (size_t room = 0; room < DATE; room++) {
            count(&short_of, not_written(inside[i], room, no_room));
        }
        snprintf(when, sizeof when, "second %lld is refused by 27 in any room", (long long)outside[i]);
        all_right("skut_write_date", when, tries, ROOM + 1);
        snprintf(when, sizeof when, "second %lld needs 20 bytes: 21", (long long)inside[i]);
        all_right("skut_write_date", when, short_of, DATE);
    }
}

/* Every offset of two digits and two, at the start of 1970 and at both ends of the years, once they are applied and before. */
static void offsets(void)
{
    const struct {
        const char *local;
        int64_t second;
    } starts[] = {{"1970-01-01T00:00:00", 0}, {"0001-01-01T00:00:00", FIRST_SECOND}, {"9999-12-31T23:59:59", LAST_SECOND}};
    for (size_t i = 0; i < LENGTH(starts); i++) {
        struct tries tries = {0, 0};
        char text[40], when[80];
        for (int offset = 0; offset < 20000; offset++) {
            int hours = offset / 100 % 100, minutes = offset % 100, behind = offset >= 10000;
            snprintf(text, sizeof text, "%s%c%02d:%02d", starts[i].local, behind ? '-' : '+', hours, minutes);
            int64_t ahead = (behind ? -60 : 60) * (60 * hours + minutes), second = starts[i].second - ahead;
            if (hours > 23 || minutes > 59) {
                count(&tries, refuses(read_text(text), SKUT_NO_SUCH_TIME));
            } else if (second < FIRST_SECOND || second > LAST_SECOND) {
                count(&tries, refuses(read_text(text), SKUT_DATE_OUTSIDE));
            } else {
                count(&tries, gave(read_text(text), (uint64_t)second));
            }
        }
        snprintf(when, sizeof when, "%s with every offset", starts[i].local);
        all_right("skut_read_date", when, tries, 20000);
    }
}

/* The days of a month, by the Gregorian rule. */
static int days_of(int year, int month)
{
    static const int days[] = {31, 28, 31, 30, 31, 30, 31, 31, 30, 31, 30, 31};
    int leap = (year % 4 == 0 && year % 100 != 0) || year % 400 == 0;
    return days[month - 1] + (month == 2 && leap);
}

/* Every month and day of two digits, every hour, minute and second: those that there are not are refused by 26. */
static void fields(void)
{
    const int years[] = {0, 1, 4, 100, 400, 1900, 2000, 2023, 2024, 2100, 9999};
    struct tries tries = {0, 0};
    char text[40];
    for (size_t i = 0; i < LENGTH(years); i++) {
        for (int day = 0; day < 10000; day++) {
            int month = day / 100, there = years[i] > 0 && 1 <= month && month <= 12 && 1 <= day % 100 && day % 100 <= days_of(years[i], month);
            snprintf(text, sizeof text, "%04d-%02d-%02dT00:00:00Z", years[i], month, day % 100);
            struct skut_answer got = read_text(text);
            count(&tries, there ? got.number == SKUT_DONE : refuses(got, SKUT_NO_SUCH_TIME));
        }
    }
    all_right("skut_read_date", "every month and day of two digits, in years of each kind", tries, 110000);
    tries = (struct tries){0, 0};
    for (int64_t at = 0; at < 1000000; at += at < 300000 ? 1 : 7) {
        int64_t hour = at / 10000, minute = at / 100 % 100, second = at % 100;
        snprintf(text, sizeof text, "1970-01-01T%02d:%02d:%02dZ", (int)hour, (int)minute, (int)second);
        struct skut_answer got = read_text(text);
        int there = hour < 24 && minute < 60 && second < 60;
        count(&tries, there ? gave(got, (uint64_t)(3600 * hour + 60 * minute + second)) : refuses(got, SKUT_NO_SUCH_TIME));
    }
    all_right("skut_read_date", "every hour below 30, minute and second of two digits, and some later hours", tries, 400000);
}

/* Good texts cut short, with a byte more, and with a byte changed to one that no date has: 25. What stands after the length is not read. */
static void damaged(void)
{
    const char *good[] = {"1970-01-01T00:00:00Z", "0001-01-01t00:00:00.123456789-23:59", "9999-12-31T23:59:59.9+00:00"};
    const uint8_t strange[] = {0, '\n', ' ', '/', ',', '_', 'U', 0x7F, 0x80, 0xB0, 0xFF};
    for (size_t i = 0; i < LENGTH(good); i++) {
        struct tries cut = {0, 0}, changed = {0, 0}, longer = {0, 0};
        size_t length = strlen(good[i]);
        uint8_t text[40];
        for (size_t j = 0; j < length; j++) {
            memcpy(text, good[i], length);
            count(&cut, refuses(skut_read_date(text, j), SKUT_DATE_GRAMMAR));
            for (size_t k = 0; k < LENGTH(strange); k++) {
                text[j] = strange[k];
                count(&changed, refuses(skut_read_date(text, length), SKUT_DATE_GRAMMAR));
            }
        }
        memcpy(text, good[i], length);
        for (int byte = 0; byte < 256; byte++) {
            text[length] = (uint8_t)byte;
            count(&longer, refuses(skut_read_date(text, length + 1), SKUT_DATE_GRAMMAR));
            count(&longer, skut_read_date(text, length).number == SKUT_DONE);
        }
        all_right("skut_read_date, cut after each byte", good[i], cut, length);
        all_right("skut_read_date, each byte another", good[i], changed, LENGTH(strange) * length);
        all_right("skut_read_date, any byte after it", good[i], longer, 512);
    }
}

/* Fractions of one to nine digits are left out, on both sides of 1970. */
static void fractions(void)
{
    const struct {
        const char *local;
        int64_t second;
    } starts[] = {{"1969-12-31T23:59:59", -1}, {"1970-01-01T00:00:00", 0}, {"0001-01-01T00:00:00", FIRST_SECOND}, {"9999-12-31T23:59:59", LAST_SECOND}};
    const char *digits[] = {"000000000000", "999999999999", "500000000000", "123456789012", "000000001000"};
    for (size_t i = 0; i < LENGTH(starts); i++) {
        struct tries tries = {0, 0};
        for (size_t j = 0; j < LENGTH(digits); j++) {
            for (int length = 0; length <= 12; length++) {
                char text[60];
                snprintf(text, sizeof text, "%s.%.*sZ", starts[i].local, length, digits[j]);
                struct skut_answer got = read_text(text);
                int taken = 1 <= length && length <= 9;
                count(&tries, taken ? gave(got, (uint64_t)starts[i].second) : refuses(got, SKUT_DATE_GRAMMAR));
            }
        }
        all_right("skut_read_date, a fraction of 0 to 12 digits", starts[i].local, tries, 65);
    }
}

/* Whether the first and the last second of a day are written with that date and read back from it. */
static int day_right(int year, int month, int day, int64_t start)
{
    uint8_t out[ROOM];
    char text[40];
    snprintf(text, sizeof text, "%04d-%02d-%02dT00:00:00Z", year, month, day);
    fill(out);
    int right = gave(skut_write_date(start, out, ROOM), DATE) && memcmp(out, text, DATE) == 0 && gave(skut_read_date(out, DATE), (uint64_t)start);
    memcpy(text + 11, "23:59:59", 8);
    right = right && gave(skut_write_date(start + 86399, out, ROOM), DATE) && memcmp(out, text, DATE) == 0;
    return right && filled_from(out, DATE) && gave(skut_read_date(out, DATE), (uint64_t)(start + 86399));
}

/* The first and the last day of each month, by counting days from the first of year 0001. */
static void each_month(void)
{
    struct tries tries = {0, 0};
    int64_t start = FIRST_SECOND;
    for (int year = 1; year <= 9999; year++) {
        for (int month = 1; month <= 12; month++) {
            int64_t days = days_of(year, month);
            count(&tries, day_right(year, month, 1, start) && day_right(year, month, (int)days, start + 86400 * (days - 1)));
            start += 86400 * days;
        }
    }
    all_right("skut_write_date, skut_read_date", "the first and the last day of each month of the years 0001 to 9999", tries, 119988);
    holds("the count of the days", "ends with the years", start == LAST_SECOND + 1, "it ends at %lld", (long long)start);
}

static int64_t some_second(void)
{
    static uint64_t chance = 20240229;
    chance ^= chance << 13;
    chance ^= chance >> 7;
    chance ^= chance << 17;
    return FIRST_SECOND + (int64_t)(chance % (uint64_t)(LAST_SECOND - FIRST_SECOND + 1));
}

/* Seconds of chance read back, and two of them have dates in their order, also where they are next to each other. */
static void by_chance(void)
{
    struct tries back = {0, 0}, ordered = {0, 0};
    int64_t last = 0;
    uint8_t last_date[DATE], date[DATE];
    skut_write_date(last, last_date, DATE);
    for (size_t i = 0; i < 100000; i++) {
        int64_t second = i % 2 == 0 || last == LAST_SECOND ? some_second() : last + 1;
        count(&back, gave(skut_write_date(second, date, DATE), DATE) && gave(skut_read_date(date, DATE), (uint64_t)second));
        int order = memcmp(last_date, date, DATE);
        count(&ordered, last < second ? order < 0 : last > second ? order > 0 : order == 0);
        last = second;
        memcpy(last_date, date, DATE);
    }
    all_right("skut_write_date, skut_read_date", "seconds of chance are read back from their dates", back, 100000);
    all_right("skut_write_date", "dates are in the order of their seconds", ordered, 100000);
}

void date_cases(void)
{
    texts();
    written();
    not_written_cases();
    offsets();
    fields();
    fractions();
    damaged();
    each_month();
    by_chance();
}
