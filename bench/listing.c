/* Times listings, each as the best of some rounds, and holds two ratios to their bounds: a tag that leaves the
 * date free takes no more than ten times as long as a tag of one day of the year, and a counter's list no more
 * than twice as long as writing its numbers. Ends with status 1 when a ratio is over its bound. */
#define _POSIX_C_SOURCE 199309L

#include "honigzange.h"

#include <stdio.h>
#include <stdlib.h>
#include <string.h>
#include <time.h>

#define ROUNDS 300
#define MOMENTS 1000000
#define PERIOD 256

static int64_t list[MOMENTS];

static void expect(const char *what, int holds)
{
    if (!holds) {
        printf("listing: wrong: %s\n", what);
        exit(1);
    }
}

/* A tag over all covered time. */
static void list_text(const char *tag, size_t named)
{
    uint64_t ticks;
    size_t count = 0;
    bool more = true;
    uint8_t refusal = hz_list_ascii((const uint8_t *)tag, strlen(tag), 441763210, 0, 2145916837, 0, list,
                                    MOMENTS, &ticks, &count, &more);

    expect(tag, refusal == 0 && count == named && !more);
}

static void leap_seconds(void)
{
    list_text("::60", 27);
}

static void leap_days(void)
{
    list_text("-02-29", 14);
}

static void counter(void)
{
    static const uint8_t tag[] = {0x10, 0x00};
    const int64_t end = (int64_t)MOMENTS * PERIOD;
    uint64_t ticks;
    size_t count = 0;
    bool more = true;
    uint8_t refusal =
        hz_list_cuc(tag, sizeof tag, true, 0, 0, 0, 0, end, 0, list, MOMENTS, &ticks, &count, &more);

    expect("counter", refusal == 0 && count == MOMENTS && !more && list[MOMENTS - 1] == end - PERIOD);
}

/* The compiler can know neither where the numbers are written nor that nobody reads them. */
static void writing(void)
{
    int64_t *to = list, sec = 0;
    size_t i;

    __asm__ volatile("" : "+r"(to) : : "memory");
    for (i = 0; i < MOMENTS; i++) {
        to[i] = sec;
        sec += PERIOD;
    }
    __asm__ volatile("" : : "r"(to) : "memory");
}

static double microseconds(void (*job)(void))
{
    struct timespec begun, done;

    clock_gettime(CLOCK_MONOTONIC, &begun);
    job();
    clock_gettime(CLOCK_MONOTONIC, &done);
    return (double)(done.tv_sec - begun.tv_sec) * 1e6 + (double)(done.tv_nsec - begun.tv_nsec) / 1e3;
}

static double lesser(double one, double other)
{
    return one < other ? one : other;
}

static int in_bounds(const char *what, void (*job)(void), const char *beside, void (*other)(void), int most)
{
    double took = microseconds(job), other_took = microseconds(other), ratio;
    int round;

    for (round = 1; round < ROUNDS; round++) {
        took = lesser(took, microseconds(job));
        other_took = lesser(other_took, microseconds(other));
    }
    ratio = took / other_took;
    printf("%-28s %9.1f us\n%-28s %9.1f us\n", what, took, beside, other_took);
    printf("%-28s %9.2f (at most %d%s)\n", "ratio", ratio, most, ratio <= most ? "" : ": over its bound");
    return ratio <= most;
}

int main(void)
{
    int dates, counters;

    printf("listings, the best of %d rounds:\n", ROUNDS);
    dates = in_bounds("::60 in all covered time", leap_seconds, "-02-29 in it", leap_days, 10);
    counters = in_bounds("a million of a counter", counter, "writing their seconds", writing, 2);
    return dates && counters ? 0 : 1;
}
