/* glibc: strptime, with timegm, or with mktime where RIGHT is defined: TZ=right/UTC counts leap seconds and has
 * their table. The fraction and the Z are read and written here: strptime knows neither. */
#define _GNU_SOURCE

#include <stdint.h>
#include <stdio.h>
#include <stdlib.h>
#include <string.h>
#include <time.h>

#define TICKS_OF_MILLISECOND UINT64_C(4096000000000)

#ifdef RIGHT
/* 1958-01-01T00:00:00 TAI to 1970-01-01, whose offset the zone takes to be 10. */
#define EPOCH (4383 * INT64_C(86400) + 10)
const int peer_counts_tai = 1;

void peer_begin(void)
{
    setenv("TZ", "right/UTC", 1);
    tzset();
}
#else
#define EPOCH 0

void peer_begin(void)
{
    setenv("TZ", "UTC", 1);
    tzset();
}
#endif

uint8_t peer_read(const uint8_t *text, size_t len, int64_t *sec, uint64_t *ticks)
{
    char copy[32], *rest, *end;
    struct tm tm = {0};
    unsigned long millisecond;
    time_t at;

    if (len >= sizeof copy)
        return 1;
    memcpy(copy, text, len);
    copy[len] = 0;
    rest = strptime(copy, "%Y-%m-%dT%H:%M:%S", &tm);
    if (rest == NULL || *rest != '.')
        return 1;
    millisecond = strtoul(rest + 1, &end, 10);
    if (end != rest + 4 || strcmp(end, "Z") != 0)
        return 1;
#ifdef RIGHT
    at = mktime(&tm);
#else
    at = timegm(&tm);
#endif
    *sec = at + EPOCH;
    *ticks = millisecond * TICKS_OF_MILLISECOND;
    return 0;
}

uint8_t peer_write(int64_t sec, uint64_t ticks, uint8_t *out, size_t room, size_t *written)
{
    time_t at = sec - EPOCH;
    struct tm tm;
    char text[32];
    size_t len;

#ifdef RIGHT
    localtime_r(&at, &tm);
#else
    gmtime_r(&at, &tm);
#endif
    len = strftime(text, sizeof text, "%Y-%m-%dT%H:%M:%S", &tm);
    len += (size_t)snprintf(text + len, sizeof text - len, ".%03uZ", (unsigned)(ticks / TICKS_OF_MILLISECOND % 1000));
    if (len > room)
        return 1;
    memcpy(out, text, len);
    *written = len;
    return 0;
}
