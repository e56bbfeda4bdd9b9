/* A handful of known values through the header, as a caller in C or in C++ (it is compiled as both). */
#include "honigzange.h"

#include <stdio.h>
#include <string.h>

#define HALF (HZ_TICKS / 2)
#define FIRST (-(INT64_C(1) << 40) * 2)
#define LAST ((INT64_C(1) << 41) - 1)

static int wrong = 0;

static void expect(const char *what, int holds)
{
    if (!holds) {
        printf("smoke: wrong: %s\n", what);
        wrong = 1;
    }
}

static void meanings(void)
{
    int number, other;

    expect("0 is done", strcmp(HZ_MEANING(0), "done") == 0);
    expect("6 has a text", strcmp(HZ_MEANING(HZ_NO_SUCH_SECOND), "no leap second on this day") == 0);
    for (number = 0; number <= HZ_OFF_GRID + 1; number++) {
        for (other = 0; other < number; other++) {
            expect("each number has a text of its own", strcmp(HZ_MEANING(number), HZ_MEANING(other)) != 0);
        }
    }
}

static void differences(void)
{
    int64_t sec = 17;
    uint64_t ticks = 18;

    expect("an invalid record is refused", hz_difference(0, HZ_TICKS, 0, 0, &sec, &ticks) == HZ_RANGE);
    expect("a refusal writes nothing", sec == 17 && ticks == 18);
    expect("minus half a second",
           hz_difference(0, 0, 0, HALF, &sec, &ticks) == 0 && sec == -1 && ticks == HALF);
    expect("2016-12-31T23:59:59 to 2017-01-01T00:00:00, over a leap second",
           hz_difference(1861920037, 0, 1861920035, 0, &sec, &ticks) == 0 && sec == 2 && ticks == 0);
    expect("first record less the last",
           hz_difference(FIRST, 0, LAST, HZ_TICKS - 1, &sec, &ticks) == 0 && sec == 2 * FIRST && ticks == 1);
    expect("last record less the first",
           hz_difference(LAST, HZ_TICKS - 1, FIRST, 0, &sec, &ticks) == 0 && sec == 2 * LAST + 1 &&
               ticks == HZ_TICKS - 1);
}

static void shifts(void)
{
    int64_t sec = 17;
    uint64_t ticks = 18;

    expect("a tick past the last record is refused",
           hz_shift(LAST, HZ_TICKS - 1, 0, 1, &sec, &ticks) == HZ_RANGE);
    expect("a tick before the first record is refused",
           hz_shift(FIRST, 0, -1, HZ_TICKS - 1, &sec, &ticks) == HZ_RANGE);
    expect("an invalid span is refused", hz_shift(0, 0, 2 * FIRST - 1, 0, &sec, &ticks) == HZ_RANGE);
    expect("a refusal writes nothing", sec == 17 && ticks == 18);
    expect("half a second earlier",
           hz_shift(948216067, UINT64_C(505675776000000), -1, HALF, &sec, &ticks) == 0 && sec == 948216066 &&
               ticks == UINT64_C(2553675776000000));
    expect("the last record is reached",
           hz_shift(LAST, 0, 0, HZ_TICKS - 1, &sec, &ticks) == 0 && sec == LAST && ticks == HZ_TICKS - 1);
    expect("the first record is reached",
           hz_shift(LAST, HZ_TICKS - 1, 2 * FIRST, 1, &sec, &ticks) == 0 && sec == FIRST && ticks == 0);
}

static void days(void)
{
    int64_t number = 17;

    expect("February 29 in 1900 is refused", hz_day_of_date(1900, 2, 29, &number) == HZ_FIELD);
    expect("year 0 is refused", hz_day_of_date(0, 12, 31, &number) == HZ_FIELD);
    expect("day 366 of 2023 is refused", hz_day_of_ordinal(2023, 366, &number) == HZ_FIELD);
    expect("a refusal writes nothing", number == 17);
    expect("day 0", hz_day_of_date(1958, 1, 1, &number) == 0 && number == 0);
    expect("the first day", hz_day_of_date(1, 1, 1, &number) == 0 && number == HZ_FIRST_DAY);
    expect("the last day", hz_day_of_date(9999, 12, 31, &number) == 0 && number == HZ_LAST_DAY);
    expect("February 29 in 2000", hz_day_of_date(2000, 2, 29, &number) == 0 && number == 15399);
    expect("day 366 of 2016", hz_day_of_ordinal(2016, 366, &number) == 0 && number == 21549);
}

static void dates(void)
{
    uint64_t year = 17, month = 18, day = 19;

    expect("the day before the first is refused",
           hz_date_of_day(HZ_FIRST_DAY - 1, &year, &month, &day) == HZ_RANGE);
    expect("the day after the last is refused", hz_ordinal_of_day(HZ_LAST_DAY + 1, &year, &day) == HZ_RANGE);
    expect("a refusal writes nothing", year == 17 && month == 18 && day == 19);
    expect("the day before day 0",
           hz_date_of_day(-1, &year, &month, &day) == 0 && year == 1957 && month == 12 && day == 31);
    expect("the first date",
           hz_date_of_day(HZ_FIRST_DAY, &year, &month, &day) == 0 && year == 1 && month == 1 && day == 1);
    expect("day of the year of 2016-12-31",
           hz_ordinal_of_day(21549, &year, &day) == 0 && year == 2016 && day == 366);
}

static void readings(void)
{
    int64_t day = 17, offset = 18;
    uint64_t second = 19;

    expect("the second before the cover is refused",
           hz_utc_of_second(HZ_COVER_START - 1, &day, &second, &offset) == HZ_UNCOVERED);
    expect("the second after the cover is refused",
           hz_utc_of_second(HZ_COVER_END, &day, &second, &offset) == HZ_UNCOVERED);
    expect("a refusal writes nothing", day == 17 && second == 19 && offset == 18);
    expect("1972-01-01T00:00:00",
           hz_utc_of_second(HZ_COVER_START, &day, &second, &offset) == 0 && day == 5113 && second == 0 &&
               offset == 10);
    expect("2025-12-31T23:59:59",
           hz_utc_of_second(HZ_COVER_END - 1, &day, &second, &offset) == 0 && day == 24836 && second == 86399 &&
               offset == 37);
    expect("2016-12-31T23:59:60", hz_utc_of_second(1861920036, &day, &second, &offset) == 0 && day == 21549 &&
                                      second == 86400 && offset == 36);
    expect("2017-01-01T00:00:00", hz_utc_of_second(1861920037, &day, &second, &offset) == 0 && day == 21550 &&
                                      second == 0 && offset == 37);
}

static void seconds(void)
{
    int64_t sec = 17;

    expect("a second over 86400 is refused first", hz_second_of_utc(24837, 86401, &sec) == HZ_FIELD);
    expect("then 2026-01-01", hz_second_of_utc(24837, 86400, &sec) == HZ_UNCOVERED);
    expect("then 2015-12-31T23:59:60", hz_second_of_utc(21183, 86400, &sec) == HZ_NO_SUCH_SECOND);
    expect("a refusal writes nothing", sec == 17);
    expect("back to the leap second", hz_second_of_utc(21549, 86400, &sec) == 0 && sec == 1861920036);
    expect("back to the midnight after it", hz_second_of_utc(21550, 0, &sec) == 0 && sec == 1861920037);
}

/* 2016-12-31T23:59:60 in every code, the P octet in front. */
static const struct {
    size_t length;
    uint8_t bytes[8];
} codes[] = {
    {5, {0x1C, 0x6E, 0xFA, 0xA5, 0x24}},
    {7, {0x40, 0x54, 0x2D, 0x05, 0x26, 0x5C, 0x00}},
    {8, {0x58, 0x20, 0x16, 0x03, 0x66, 0x23, 0x59, 0x60}},
    {8, {0x50, 0x20, 0x16, 0x12, 0x31, 0x23, 0x59, 0x60}},
};

static void reads(void)
{
    int64_t sec = 17;
    uint64_t ticks = 18;
    size_t used = 19, i;

    expect("no P octet is refused", hz_read_binary(NULL, 0, true, 0x1C, 0, &sec, &ticks, &used) == HZ_SHORT);
    expect("no T-field is refused", hz_read_binary(NULL, 0, false, 0x1C, 0, &sec, &ticks, &used) == HZ_SHORT);
    expect("before that a bad epoch is",
           hz_read_binary(NULL, 0, false, 0x2C, INT64_C(1) << 40, &sec, &ticks, &used) == HZ_RANGE);
    for (i = 0; i < sizeof codes / sizeof *codes; i++) {
        const uint8_t *bytes = codes[i].bytes;
        size_t length = codes[i].length;

        expect("a code cut short is refused",
               hz_read_binary(bytes, length - 1, true, 0, 0, &sec, &ticks, &used) == HZ_SHORT);
        expect("a refusal writes nothing", sec == 17 && ticks == 18 && used == 19);
        expect("the leap second, P octet in front",
               hz_read_binary(bytes, length, true, 0, 0, &sec, &ticks, &used) == 0 && sec == 1861920036 &&
                   ticks == 0 && used == length);
        sec = 17;
        expect("the leap second, P octet apart",
               hz_read_binary(bytes + 1, length - 1, false, bytes[0], 0, &sec, &ticks, &used) == 0 &&
                   sec == 1861920036 && ticks == 0 && used == length - 1);
        sec = 17, ticks = 18, used = 19;
    }
}

static void writes(void)
{
    uint8_t out[HZ_BINARY_ROOM], none[HZ_BINARY_ROOM];
    size_t written = 17, i;

    memset(none, 0xEE, sizeof none);
    expect("no room is refused", hz_write_binary(0, 0, false, 0x1C, 0, NULL, 0, &written) == HZ_ROOM);
    for (i = 0; i < sizeof codes / sizeof *codes; i++) {
        const uint8_t *bytes = codes[i].bytes;
        size_t length = codes[i].length;

        memset(out, 0xEE, sizeof out);
        expect("a room too short is refused",
               hz_write_binary(1861920036, 0, true, bytes[0], 0, out, length - 1, &written) == HZ_ROOM);
        expect("a refusal writes nothing", memcmp(out, none, sizeof out) == 0 && written == 17);
        expect("the leap second, P octet in front",
               hz_write_binary(1861920036, 0, true, bytes[0], 0, out, sizeof out, &written) == 0 &&
                   written == length && memcmp(out, bytes, length) == 0);
        expect("later bytes stay", memcmp(out + length, none, sizeof out - length) == 0);
        expect("a tick after it, P octet apart",
               hz_write_binary(1861920036, 1, false, bytes[0], 0, out, length - 1, &written) == 0 &&
                   written == length - 1 && memcmp(out, bytes + 1, length - 1) == 0);
        written = 17;
    }
}

/* Document 01's moments and refusals as texts, without the NUL. Where there is a refusal, sec and ticks are
 * what they were before. */
static const struct {
    const char *text;
    uint8_t answer;
    int64_t sec;
    uint64_t ticks;
} texts[] = {
    {"1988-018T17:20:43.123456Z", 0, 948216067, UINT64_C(505675776000000)},
    {"1988-01-18T17:20:43.123456", 0, 948216067, UINT64_C(505675776000000)},
    {"2016-12-31T23:59:59", 0, 1861920035, 0},
    {"2016-12-31T23:59:60", 0, 1861920036, 0},
    {"2016-366T23:59:60.999999999999Z", 0, 1861920036, HZ_TICKS - 4096},
    {"2017-01-01T00:00:00Z", 0, 1861920037, 0},
    {"", HZ_SHORT, 17, 18},
    {"2016-12-31T23:59:60.0000000000000", HZ_FIELD, 17, 18},
    {"2016-12-31T23:59:60z", HZ_FIELD, 17, 18},
    {"2016-12-31T23:59:60Z ", HZ_FIELD, 17, 18},
    {"2016-12-31T12:00:60", HZ_FIELD, 17, 18},
    {"2026-01-01T00:00:00", HZ_UNCOVERED, 17, 18},
    {"1971-12-31T23:59:59", HZ_UNCOVERED, 17, 18},
    {"2015-12-31T23:59:60", HZ_NO_SUCH_SECOND, 17, 18},
};

static void reads_of_texts(void)
{
    int64_t sec = 17;
    uint64_t ticks = 18;
    size_t i;

    expect("no text at NULL is refused", hz_read_ascii(NULL, 0, &sec, &ticks) == HZ_SHORT);
    for (i = 0; i < sizeof texts / sizeof *texts; i++) {
        const uint8_t *text = (const uint8_t *)texts[i].text;

        sec = 17, ticks = 18;
        expect(texts[i].text, hz_read_ascii(text, strlen(texts[i].text), &sec, &ticks) == texts[i].answer &&
                                  sec == texts[i].sec && ticks == texts[i].ticks);
    }
    sec = 17, ticks = 18;
    expect("a text's own NUL is refused",
           hz_read_ascii((const uint8_t *)"2017-01-01T00:00:00Z", 21, &sec, &ticks) == HZ_FIELD && sec == 17 &&
               ticks == 18);
}

/* One text, in a room that is one byte more than it takes, and in one that is one byte less. */
static void expect_text(int64_t sec, uint64_t ticks, bool day_of_year, uint8_t digits, bool z, const char *text)
{
    uint8_t out[HZ_ASCII_ROOM + 1];
    size_t length = strlen(text), written = 17;

    memset(out, 0xEE, sizeof out);
    expect(text, hz_write_ascii(sec, ticks, day_of_year, digits, z, out, length - 1, &written) == HZ_ROOM);
    expect("a refusal writes nothing",
           out[0] == 0xEE && memcmp(out, out + 1, sizeof out - 1) == 0 && written == 17);
    expect(text, hz_write_ascii(sec, ticks, day_of_year, digits, z, out, length + 1, &written) == 0 &&
                     written == length && memcmp(out, text, length) == 0);
    expect("a later byte stays", out[length] == 0xEE);
}

static void writes_of_texts(void)
{
    const uint64_t fraction = HZ_TICKS / 256 * 31;
    uint8_t out[HZ_ASCII_ROOM];
    size_t written = 17;

    expect_text(948216067, fraction, true, 6, true, "1988-018T17:20:43.121093Z");
    expect_text(948216067, fraction, false, 0, false, "1988-01-18T17:20:43");
    expect_text(1861920036, HZ_TICKS - 1, false, 12, true, "2016-12-31T23:59:60.999999999999Z");
    expect_text(1861920036, HZ_TICKS - 1, true, 1, false, "2016-366T23:59:60.9");
    written = 17;
    expect("an invalid record is refused first",
           hz_write_ascii(441763209, HZ_TICKS, false, 13, true, NULL, 0, &written) == HZ_RANGE);
    expect("then 13 digits",
           hz_write_ascii(441763209, 0, false, 13, true, NULL, 0, &written) == HZ_UNSUPPORTED);
    expect("then the second before the cover",
           hz_write_ascii(441763209, 0, false, 12, true, NULL, 0, &written) == HZ_UNCOVERED);
    expect("then no room", hz_write_ascii(441763210, 0, false, 12, true, NULL, 0, &written) == HZ_ROOM);
    expect("a refusal writes nothing", written == 17);
    expect("a room of HZ_ASCII_ROOM is just enough",
           hz_write_ascii(441763210, 0, false, 12, true, out, sizeof out, &written) == 0 &&
               written == sizeof out);
}

static void walls(void)
{
    uint8_t face[HZ_WALL_ROOM + 1], none[HZ_WALL_ROOM + 1];
    size_t written = 17;

    memset(face, 0xEE, sizeof face);
    memset(none, 0xEE, sizeof none);
    expect("an invalid record is refused first",
           hz_write_wall(2145916837, HZ_TICKS, NULL, 0, &written) == HZ_RANGE);
    expect("then the second after the cover", hz_write_wall(2145916837, 0, NULL, 0, &written) == HZ_UNCOVERED);
    expect("then a room too short",
           hz_write_wall(1861920036, 0, face, HZ_WALL_ROOM - 1, &written) == HZ_ROOM);
    expect("a refusal writes nothing", memcmp(face, none, sizeof face) == 0 && written == 17);
    expect("the wall in a leap second", hz_write_wall(1861920036, 0, face, sizeof face, &written) == 0 &&
                                            written == HZ_WALL_ROOM &&
                                            memcmp(face, "2016-12-31T23:59:60.000Z", HZ_WALL_ROOM) == 0);
    expect("a later byte stays", face[HZ_WALL_ROOM] == 0xEE);
}

/* One octet wraps every 256 seconds. */
static void lists_of_counters(void)
{
    static const uint8_t tag[] = {0x10, 0x00, 0x00}, half[] = {0x11, 0x00, 0x80};
    int64_t list[5] = {-1, -1, -1, -1, -1};
    uint64_t ticks = 17;
    size_t count = 18;
    bool more = true;

    expect("no P octet is refused",
           hz_list_cuc(NULL, 0, true, 0x10, 0, 0, 0, 0, 0, NULL, 0, &ticks, &count, &more) == HZ_SHORT);
    expect("CDS is refused", hz_list_cuc(tag, 3, false, 0xC3, 0, 0, 0, 0, 0, list, 5, &ticks, &count, &more) ==
                                 HZ_IDENTIFICATION);
    expect("a byte too many is refused",
           hz_list_cuc(tag, 3, true, 0, 0, 1, HZ_TICKS, 0, 0, list, 5, &ticks, &count, &more) == HZ_FIELD);
    expect("then an invalid record",
           hz_list_cuc(tag, 2, true, 0, 0, 1, HZ_TICKS, 0, 0, list, 5, &ticks, &count, &more) == HZ_RANGE);
    expect("then a window that ends before its start",
           hz_list_cuc(tag, 2, true, 0, 0, 0, 1, 0, 0, list, 5, &ticks, &count, &more) == HZ_WINDOW);
    expect("a refusal writes nothing", list[0] == -1 && ticks == 17 && count == 18 && more);
    expect("0 to 1024", hz_list_cuc(tag, 2, true, 0, 0, 0, 0, 1024, 0, list, 5, &ticks, &count, &more) == 0 &&
                            ticks == 0 && count == 4 && !more && list[0] == 0 && list[1] == 256 &&
                            list[2] == 512 && list[3] == 768);
    expect("a later element stays", list[4] == -1);
    list[2] = -1;
    expect("room for 2",
           hz_list_cuc(tag + 1, 1, false, 0x10, 0, 0, 0, 1024, 0, list, 2, &ticks, &count, &more) == 0 &&
               count == 2 && more && list[0] == 0 && list[1] == 256 && list[2] == -1);
    expect("no room at NULL",
           hz_list_cuc(tag, 2, true, 0, 0, 0, 1, 1024, 0, NULL, 0, &ticks, &count, &more) == 0 && count == 0 &&
               more);
    expect("the room that holds all, 256 / 256 + 1, is used up",
           hz_list_cuc(half, 3, true, 0, 0, 0, 0, 256, HALF + 1, list, 2, &ticks, &count, &more) == 0 &&
               count == 2 && !more && list[0] == 0 && list[1] == 256);
}

/* What is named in all covered time: how many, the first and the last. Where there is a refusal, or nothing
 * named, the list is what it was before. */
static const struct {
    const char *tag;
    uint8_t answer;
    size_t count;
    int64_t first, last;
} tags[] = {
    {"::60", 0, 27, 457488010, 1861920036},
    {"::60Z", 0, 27, 457488010, 1861920036},
    {"-366T23:59:60", 0, 4, 473385611, 1861920036},
    {"-02-29", 0, 14, 446860810, 2087856037},
    {"2016-12-31T23:59:60.000", 0, 1, 1861920036, 1861920036},
    {"2015-12-31T23:59:60", 0, 0, -1, -1},
    {"1971", 0, 0, -1, -1},
    {"2026-01-01", 0, 0, -1, -1},
    {"", HZ_SHORT, 17, -1, -1},
    {"-02-30", HZ_FIELD, 17, -1, -1},
    {"2023-366", HZ_FIELD, 17, -1, -1},
    {":58:60", HZ_FIELD, 17, -1, -1},
    {"2016-12T00", HZ_FIELD, 17, -1, -1},
    {"2016Z", HZ_FIELD, 17, -1, -1},
};

static void lists_of_texts(void)
{
    const int64_t first = 441763210, end = 2145916837;
    const uint8_t *half = (const uint8_t *)"::.5";
    int64_t list[30];
    uint64_t ticks = 16;
    size_t count, i, k;
    bool more;

    for (i = 0; i < sizeof tags / sizeof *tags; i++) {
        const uint8_t *tag = (const uint8_t *)tags[i].tag;
        size_t length = strlen(tags[i].tag);

        for (k = 0; k < 30; k++) {
            list[k] = -1;
        }
        count = 17, more = tags[i].answer != 0;
        expect(tags[i].tag, hz_list_ascii(tag, length, first, 0, end, 0, list, 30, &ticks, &count, &more) ==
                                    tags[i].answer &&
                                count == tags[i].count && more == (tags[i].answer != 0) &&
                                list[0] == tags[i].first);
        k = tags[i].answer == 0 ? count : 0;
        expect("the last one listed", list[k > 0 ? k - 1 : 0] == tags[i].last);
        expect("a later element stays", list[k] == -1);
    }
    ticks = 16, count = 17, more = true;
    expect("a window past the cover is refused",
           hz_list_ascii(half, 4, first, 0, end, 1, NULL, 0, &ticks, &count, &more) == HZ_UNCOVERED);
    expect("before that its end before its start",
           hz_list_ascii(half, 4, end, 1, first, 0, NULL, 0, &ticks, &count, &more) == HZ_WINDOW);
    expect("a refusal writes nothing", ticks == 16 && count == 17 && more);
    expect("the last second but one, and more",
           hz_list_ascii(half, 4, end - 2, HALF, end, 0, list, 1, &ticks, &count, &more) == 0 &&
               ticks == HALF && count == 1 && more && list[0] == end - 2);
    expect("the last second",
           hz_list_ascii(half, 4, end - 2, HALF + 1, end, 0, list, 1, &ticks, &count, &more) == 0 &&
               count == 1 && !more && list[0] == end - 1);
    expect("the room that holds all, 1 + 1, is used up",
           hz_list_ascii(half, 4, first, 0, first + 1, HALF + 1, list, 2, &ticks, &count, &more) == 0 &&
               count == 2 && !more && list[0] == first && list[1] == first + 1);
    expect("nothing in an empty window",
           hz_list_ascii(half, 4, end, 0, end, 0, NULL, 0, &ticks, &count, &more) == 0 && ticks == HALF &&
               count == 0 && !more);
}

static void rates(void)
{
    int64_t num = 17;
    uint64_t den = 18;

    expect("the grid has 2^24 steps in a second", HZ_GRID << 24 == HZ_TICKS);
    expect("an invalid record is refused first",
           hz_rate(0, 0, 0, 1, 1, HZ_TICKS, 1, 0, &num, &den) == HZ_RANGE);
    expect("then one off the grid", hz_rate(0, 0, 0, 1, LAST, 0, 0, 1, &num, &den) == HZ_OFF_GRID);
    expect("then 2^42 s, almost", hz_rate(FIRST, 0, 0, 0, LAST, 0, 0, 0, &num, &den) == HZ_RANGE);
    expect("then ground elapsed zero", hz_rate(0, 0, 5, 0, 1, 0, 5, 0, &num, &den) == HZ_NOT_ELAPSED);
    expect("or negative", hz_rate(0, 0, 5, 0, 1, 0, 4, 0, &num, &den) == HZ_NOT_ELAPSED);
    expect("a refusal writes nothing", num == 17 && den == 18);
    expect("-3/2", hz_rate(10, 0, 1, 0, 4, 0, 5, 0, &num, &den) == 0 && num == -3 && den == 2);
    expect("0/1", hz_rate(10, 0, 1, 0, 10, 0, 5, 0, &num, &den) == 0 && num == 0 && den == 1);
    expect("one step of the grid over the longest time",
           hz_rate(0, 0, 0, 0, 0, HZ_GRID, (INT64_C(1) << 32) - 1, HZ_TICKS - HZ_GRID, &num, &den) == 0 && num == 1 &&
               den == (UINT64_C(1) << 56) - 1);
}

static void runs(void)
{
    static const hz_pair run[] = {{0, 0, 0, 0}, {2, 0, 2, 0}, {1, 0, 3, 0}, {0, 0, 4, 0}, {3, 0, 7, 1}, {3, 0, 9, 0}};
    hz_report report, none;

    expect("the structs have no gaps",
           sizeof(hz_pair) == 32 && sizeof(hz_extreme) == 24 && sizeof(hz_report) == 80);
    memset(&none, 0, sizeof none);
    memset(&report, 0xEE, sizeof report);
    expect("no pair at NULL", hz_rates(NULL, 0, &report) == 0 && memcmp(&report, &none, sizeof report) == 0);
    memset(&report, 0xEE, sizeof report);
    expect("a run is done", hz_rates(run, sizeof run / sizeof *run, &report) == 0);
    expect("each two is counted",
           report.rates == 3 && report.range == 0 && report.not_elapsed == 0 && report.off_grid == 2);
    expect("the first of two equal ones is the smallest",
           report.smallest.num == -1 && report.smallest.den == 1 && report.smallest.place == 1);
    expect("the largest", report.largest.num == 1 && report.largest.den == 1 && report.largest.place == 0);
}

static void makings(void)
{
    hz_receiver receiver, before;

    memset(&receiver, 0xEE, sizeof receiver);
    before = receiver;
    expect("identification 110 is refused", hz_receiver_make(0xE0, 0, &receiver) == HZ_IDENTIFICATION);
    expect("the extension bit is refused", hz_receiver_make(0xAC, INT64_MAX, &receiver) == HZ_UNSUPPORTED);
    expect("then a bad epoch", hz_receiver_make(0x48, INT64_C(1) << 24, &receiver) == HZ_RANGE);
    expect("a refusal writes nothing", memcmp(&receiver, &before, sizeof receiver) == 0);
    expect("an epoch that is not used may be any", hz_receiver_make(0x1C, INT64_MIN, &receiver) == 0);
    expect("a receiver holds nothing at first", receiver.p == 0x1C && receiver.epoch[0] == 0x80 &&
                                                    receiver.epoch[7] == 0 && receiver.count == 0 &&
                                                    receiver.pending[0] == 0 && receiver.pending[11] == 0);
    expect("an epoch is big-endian",
           hz_receiver_make(0x2C, -2, &receiver) == 0 && receiver.epoch[0] == 0xFF && receiver.epoch[7] == 0xFE);
}

/* The header's own example, and what it says of rows and of receivers that no call left. */
static void pieces(void)
{
    static const uint8_t first[] = {0x54, 0x2D, 0x05, 0x26}, second[] = {0x5C, 0x00, 0x54, 0x2D};
    hz_receiver receiver, copy;
    hz_row rows[2], none[2];
    size_t count = 17;

    expect("the structs have no gaps", sizeof(hz_receiver) == 22 && sizeof(hz_row) == 24);
    memset(rows, 0xEE, sizeof rows);
    memcpy(none, rows, sizeof none);
    expect("a receiver is made", hz_receiver_make(0x40, 0, &receiver) == 0);
    expect("no bytes and no rows at NULL", hz_receive(&receiver, NULL, 0, NULL, 0, &count) == 0 && count == 0);
    count = 17;
    expect("a piece that completes nothing asks for no room",
           hz_receive(&receiver, first, sizeof first, NULL, 0, &count) == 0 && count == 0);
    expect("its octets are pending", receiver.count == 4 && memcmp(receiver.pending, first, sizeof first) == 0);
    copy = receiver;
    count = 17;
    expect("a row too few is refused", hz_receive(&receiver, second, sizeof second, rows, 0, &count) == HZ_ROOM);
    expect("a refusal writes nothing", memcmp(&receiver, &copy, sizeof copy) == 0 &&
                                           memcmp(rows, none, sizeof rows) == 0 && count == 17);
    expect("the leap second",
           hz_receive(&receiver, second, sizeof second, rows, 2, &count) == 0 && count == 1 && rows[0].refusal == 0 &&
               rows[0].sec == 1861920036 && rows[0].ticks == 0 && receiver.count == 2);
    expect("a later row stays", memcmp(&rows[1], &none[1], sizeof *rows) == 0);
    expect("a copy goes on where it was made",
           hz_receive(&copy, second, sizeof second, rows, 1, &count) == 0 &&
               memcmp(&receiver, &copy, sizeof copy) == 0);
    copy.pending[2] = 1;
    expect("an octet behind those pending is refused", hz_receive(&copy, first, 1, rows, 2, &count) == HZ_RANGE);
    copy = receiver;
    copy.count = 6;
    expect("so is a whole T-field pending", hz_receive(&copy, first, 1, rows, 2, &count) == HZ_RANGE);
    copy.p = 0x47;
    expect("before that the P octet is judged", hz_receive(&copy, first, 1, rows, 2, &count) == HZ_UNSUPPORTED);
}

int main(void)
{
    meanings();
    differences();
    shifts();
    days();
    dates();
    readings();
    seconds();
    reads();
    writes();
    reads_of_texts();
    writes_of_texts();
    walls();
    lists_of_counters();
    lists_of_texts();
    rates();
    runs();
    makings();
    pieces();
    if (!wrong) {
        printf("smoke: all as known\n");
    }
    return wrong;
}
