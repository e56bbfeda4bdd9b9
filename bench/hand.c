#include "hand.h"

#define TICKS UINT64_C(4096000000000000)
#define DAY 86400

/* Days are counted from 1958-01-01. */
#define FIRST_COVERED 5113
#define LAST_COVERED 24836
#define FIRST_SECOND INT64_C(441763210)
#define LAST_SECOND INT64_C(2145916836)

#define SECOND_LIMIT (INT64_C(1) << 41)

/* The days from which TAI - UTC is FIRST_OFFSET, FIRST_OFFSET + 1 and so on (IERS Bulletin C). */
#define FIRST_OFFSET 10
#define ROWS 28

static const int32_t rows[ROWS] = {
    5113,  5295,  5479,  5844,  6209,  6574,  6940,  7305,  7670,  8035,  8582,  8947,  9312,  10043,
    10957, 11688, 12053, 12600, 12965, 13330, 13879, 14426, 14975, 17532, 18628, 19905, 21000, 21550,
};

static const uint8_t month_lengths[2][12] = {
    {31, 28, 31, 30, 31, 30, 31, 31, 30, 31, 30, 31},
    {31, 29, 31, 30, 31, 30, 31, 31, 30, 31, 30, 31},
};

static const uint16_t days_before_month[2][12] = {
    {0, 31, 59, 90, 120, 151, 181, 212, 243, 273, 304, 334},
    {0, 31, 60, 91, 121, 152, 182, 213, 244, 274, 305, 335},
};

static const uint64_t powers[13] = {
    1,         10,         100,         1000,         10000,         100000,        1000000,
    10000000,  100000000,  1000000000,  10000000000,  100000000000,  1000000000000,
};

static bool is_leap(unsigned year)
{
    return year % 4 == 0 && (year % 100 != 0 || year % 400 == 0);
}

/* The number of days from 1958-01-01 to the first day of a year. */
static int32_t year_start(unsigned year)
{
    unsigned y = year - 1;

    return (int32_t)(y * 365 + y / 4 - y / 100 + y / 400) - 714779;
}

/* The row that a covered day stands in. Most days are late ones. */
static int row_of_day(int32_t day)
{
    int row = ROWS - 1;

    while (day < rows[row])
        row--;
    return row;
}

static bool ends_with_leap_second(int32_t day, int row)
{
    return row + 1 < ROWS && day + 1 == rows[row + 1];
}

static bool number(const uint8_t *text, int digits, unsigned *value)
{
    unsigned n = 0;
    int i;

    for (i = 0; i < digits; i++) {
        unsigned digit = text[i] - (unsigned)'0';
        if (digit > 9)
            return false;
        n = n * 10 + digit;
    }
    *value = n;
    return true;
}

/* Reads the date at the start of a text of at least 17 bytes. Answers its bytes, or 0. */
static size_t read_date(const uint8_t *text, int32_t *day)
{
    unsigned year, month, of_month, of_year;
    bool leap;

    if (!number(text, 4, &year) || year == 0 || text[4] != '-')
        return 0;
    leap = is_leap(year);
    if (text[7] != '-') {
        if (!number(text + 5, 3, &of_year) || of_year < 1 || of_year > (leap ? 366u : 365u))
            return 0;
        *day = year_start(year) + (int32_t)of_year - 1;
        return 8;
    }
    if (!number(text + 5, 2, &month) || !number(text + 8, 2, &of_month) || month < 1 || month > 12 ||
        of_month < 1 || of_month > month_lengths[leap][month - 1])
        return 0;
    *day = year_start(year) + days_before_month[leap][month - 1] + (int32_t)of_month - 1;
    return 10;
}

/* Reads Thh:mm:ss, which are 9 bytes. */
static bool read_time(const uint8_t *text, unsigned *second_of_day)
{
    unsigned hour, minute, second;

    if (text[0] != 'T' || text[3] != ':' || text[6] != ':' || !number(text + 1, 2, &hour) ||
        !number(text + 4, 2, &minute) || !number(text + 7, 2, &second))
        return false;
    if (hour > 23 || minute > 59 || (second > 59 && !(second == 60 && minute == 59 && hour == 23)))
        return false;
    *second_of_day = (hour * 60 + minute) * 60 + second;
    return true;
}

/* Reads what follows the seconds, to the end. */
static bool read_fraction(const uint8_t *text, size_t len, uint64_t *ticks)
{
    size_t i = 0;
    uint64_t fraction = 0;

    if (i < len && text[i] == '.') {
        size_t digits = 0;
        for (i++; i < len && text[i] >= '0' && text[i] <= '9'; i++) {
            if (++digits > 12)
                return false;
            fraction = fraction * 10 + (text[i] - (uint64_t)'0');
        }
        if (digits == 0)
            return false;
        fraction *= TICKS / powers[12] * powers[12 - digits];
    }
    if (i < len && text[i] == 'Z')
        i++;
    *ticks = fraction;
    return i == len;
}

uint8_t hand_read_ascii(const uint8_t *text, size_t len, int64_t *sec, uint64_t *ticks)
{
    int32_t day;
    unsigned second;
    uint64_t fraction;
    size_t date;
    int row;

    if (len == 0)
        return 1;
    if (len < 17)
        return 4;
    date = read_date(text, &day);
    if (date == 0 || len < date + 9 || !read_time(text + date, &second) ||
        !read_fraction(text + date + 9, len - date - 9, &fraction))
        return 4;
    if (day < FIRST_COVERED || day > LAST_COVERED)
        return 5;
    row = row_of_day(day);
    if (second == DAY && !ends_with_leap_second(day, row))
        return 6;
    *sec = (int64_t)day * DAY + second + FIRST_OFFSET + row;
    *ticks = fraction;
    return 0;
}

static uint8_t *put(uint8_t *to, unsigned number, int digits)
{
    int i;

    for (i = digits - 1; i >= 0; i--) {
        to[i] = (uint8_t)('0' + number % 10);
        number /= 10;
    }
    return to + digits;
}

static uint8_t *put_date(uint8_t *to, int32_t day, bool day_of_year)
{
    unsigned year = 1958 + (unsigned)day / 365, of_year, month;
    bool leap;

    while (year_start(year) > day)
        year--;
    of_year = (unsigned)(day - year_start(year));
    leap = is_leap(year);
    to = put(to, year, 4);
    *to++ = '-';
    if (day_of_year)
        return put(to, of_year + 1, 3);
    month = of_year / 31;
    if (month < 11 && of_year >= days_before_month[leap][month + 1])
        month++;
    to = put(to, month + 1, 2);
    *to++ = '-';
    return put(to, of_year - days_before_month[leap][month] + 1, 2);
}

static uint8_t *put_time(uint8_t *to, unsigned second)
{
    unsigned minute = second == DAY ? DAY / 60 - 1 : second / 60;

    *to++ = 'T';
    to = put(to, minute / 60, 2);
    *to++ = ':';
    to = put(to, minute % 60, 2);
    *to++ = ':';
    return put(to, second - minute * 60, 2);
}

static uint8_t *put_fraction(uint8_t *to, uint64_t ticks, int digits)
{
    uint64_t fraction = ticks / (TICKS / powers[12]) / powers[12 - digits];
    int i;

    *to++ = '.';
    for (i = digits - 1; i >= 0; i--) {
        to[i] = (uint8_t)('0' + fraction % 10);
        fraction /= 10;
    }
    return to + digits;
}

/* The row of a covered second: a leap second belongs to the row that it ends. */
static int row_of_second(int64_t sec)
{
    int row = ROWS - 1;

    while (sec < (int64_t)rows[row] * DAY + FIRST_OFFSET + row)
        row--;
    return row;
}

uint8_t hand_write_ascii(int64_t sec, uint64_t ticks, bool day_of_year, uint8_t digits, bool z, uint8_t *out,
                         size_t room, size_t *written)
{
    size_t len = (day_of_year ? 17u : 19u) + (digits > 0 ? digits + 1u : 0u) + z;
    int64_t utc;
    int32_t day;
    int row;

    if (sec < -SECOND_LIMIT || sec >= SECOND_LIMIT || ticks >= TICKS)
        return 7;
    if (digits > 12)
        return 3;
    if (sec < FIRST_SECOND || sec > LAST_SECOND)
        return 5;
    if (room < len)
        return 8;
    row = row_of_second(sec);
    utc = sec - FIRST_OFFSET - row;
    day = (int32_t)(utc / DAY);
    if (row + 1 < ROWS && day == rows[row + 1])
        day--;
    out = put_date(out, day, day_of_year);
    out = put_time(out, (unsigned)(utc - (int64_t)day * DAY));
    if (digits > 0)
        out = put_fraction(out, ticks, digits);
    if (z)
        *out = 'Z';
    *written = len;
    return 0;
}

uint8_t hand_write_wall(int64_t sec, uint64_t ticks, uint8_t *out, size_t room, size_t *written)
{
    return hand_write_ascii(sec, ticks, false, 3, true, out, room, written);
}
