/* ERFA: dates in two doubles, with the table of leap seconds. It reads and writes no text: the digits are taken
 * and put here, by their places. It rounds to the nearest millisecond. */
#include <erfa.h>
#include <stdint.h>
#include <string.h>

#define TICKS 4096e12
#define TICKS_OF_MILLISECOND UINT64_C(4096000000000)

/* 1958-01-01, as a Julian date. */
#define EPOCH 2436204.5

const int peer_counts_tai = 1;

static int number(const uint8_t *text, int digits, int *value)
{
    int i, n = 0;

    for (i = 0; i < digits; i++) {
        if (text[i] < '0' || text[i] > '9')
            return 0;
        n = n * 10 + text[i] - '0';
    }
    *value = n;
    return 1;
}

uint8_t peer_read(const uint8_t *text, size_t len, int64_t *sec, uint64_t *ticks)
{
    int year, month, day, hour, minute, second, millisecond;
    double utc1, utc2, tai1, tai2, milliseconds;
    int64_t count;

    if (len != 24 || text[4] != '-' || text[7] != '-' || text[10] != 'T' || text[13] != ':' || text[16] != ':' ||
        text[19] != '.' || text[23] != 'Z' || !number(text, 4, &year) || !number(text + 5, 2, &month) ||
        !number(text + 8, 2, &day) || !number(text + 11, 2, &hour) || !number(text + 14, 2, &minute) ||
        !number(text + 17, 2, &second) || !number(text + 20, 3, &millisecond))
        return 1;
    if (eraDtf2d("UTC", year, month, day, hour, minute, second + millisecond / 1e3, &utc1, &utc2) != 0)
        return 1;
    if (eraUtctai(utc1, utc2, &tai1, &tai2) != 0)
        return 1;
    milliseconds = ((tai1 - EPOCH) + tai2) * 86400e3;
    count = (int64_t)(milliseconds + 0.5);
    *sec = count / 1000;
    *ticks = (uint64_t)(count % 1000) * TICKS_OF_MILLISECOND;
    return 0;
}

static uint8_t *put(uint8_t *to, int number, int digits, char mark)
{
    int i;

    for (i = digits - 1; i >= 0; i--) {
        to[i] = (uint8_t)('0' + number % 10);
        number /= 10;
    }
    to[digits] = (uint8_t)mark;
    return to + digits + 1;
}

uint8_t peer_write(int64_t sec, uint64_t ticks, uint8_t *out, size_t room, size_t *written)
{
    double utc1, utc2;
    int year, month, day, time[4];

    if (room < 24)
        return 1;
    if (eraTaiutc(EPOCH + (double)(sec / 86400), ((double)(sec % 86400) + (double)ticks / TICKS) / 86400, &utc1,
                  &utc2) != 0)
        return 1;
    if (eraD2dtf("UTC", 3, utc1, utc2, &year, &month, &day, time) != 0)
        return 1;
    out = put(out, year, 4, '-');
    out = put(out, month, 2, '-');
    out = put(out, day, 2, 'T');
    out = put(out, time[0], 2, ':');
    out = put(out, time[1], 2, ':');
    out = put(out, time[2], 2, '.');
    put(out, time[3], 3, 'Z');
    *written = 24;
    return 0;
}
