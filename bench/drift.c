/* A run of a million pairs, reported on by the library and by a plain loop in C that does the same job: it judges
 * each two, lowers every rate by Euclid with %, and compares by products of 128 bits. The two take turns, and of
 * each the best round counts. Ends with status 1 when the library takes longer than the loop. */
#define _POSIX_C_SOURCE 199309L

#include "honigzange.h"

#include <stdio.h>
#include <stdlib.h>
#include <string.h>
#include <time.h>

#define PAIRS 1000000
#define ROUNDS 20
#define BOUND 1.0
#define STEPS (INT64_C(1) << 24)
#define LIMIT (INT64_C(1) << 32)

static hz_pair run[PAIRS];

/* ---- the plain loop ---- */

static bool valid(int64_t sec, uint64_t ticks)
{
    return sec >= -(INT64_C(1) << 41) && sec < INT64_C(1) << 41 && ticks < HZ_TICKS;
}

static uint64_t divisor(uint64_t a, uint64_t b)
{
    while (b != 0) {
        uint64_t rest = a % b;

        a = b;
        b = rest;
    }
    return a;
}

/* Steps of the grid from one record to another, or LIMIT * STEPS where they are too many. */
static int64_t elapsed(int64_t from, uint64_t from_ticks, int64_t to, uint64_t to_ticks)
{
    __int128 steps = (__int128)(to - from) * STEPS + (int64_t)(to_ticks / HZ_GRID) - (int64_t)(from_ticks / HZ_GRID);
    __int128 size = steps < 0 ? -steps : steps;

    return size < (__int128)LIMIT * STEPS ? (int64_t)steps : LIMIT * STEPS;
}

static uint8_t plain_rate(const hz_pair *a, const hz_pair *b, int64_t *num, uint64_t *den)
{
    int64_t onboard, ground;
    uint64_t common;

    if (!valid(a->onboard_sec, a->onboard_ticks) || !valid(a->ground_sec, a->ground_ticks) ||
        !valid(b->onboard_sec, b->onboard_ticks) || !valid(b->ground_sec, b->ground_ticks))
        return HZ_RANGE;
    if (a->onboard_ticks % HZ_GRID != 0 || a->ground_ticks % HZ_GRID != 0 || b->onboard_ticks % HZ_GRID != 0 ||
        b->ground_ticks % HZ_GRID != 0)
        return HZ_OFF_GRID;
    onboard = elapsed(a->onboard_sec, a->onboard_ticks, b->onboard_sec, b->onboard_ticks);
    ground = elapsed(a->ground_sec, a->ground_ticks, b->ground_sec, b->ground_ticks);
    if (onboard == LIMIT * STEPS || ground == LIMIT * STEPS)
        return HZ_RANGE;
    if (ground <= 0)
        return HZ_NOT_ELAPSED;
    common = divisor((uint64_t)(onboard < 0 ? -onboard : onboard), (uint64_t)ground);
    *num = onboard / (int64_t)common;
    *den = (uint64_t)ground / common;
    return 0;
}

static bool less(int64_t a_num, uint64_t a_den, int64_t b_num, uint64_t b_den)
{
    return (__int128)a_num * b_den < (__int128)b_num * a_den;
}

static void plain_rates(hz_report *to)
{
    hz_report report = {0};
    size_t i;

    for (i = 0; i + 1 < PAIRS; i++) {
        int64_t num;
        uint64_t den;

        switch (plain_rate(&run[i], &run[i + 1], &num, &den)) {
        case 0:
            if (report.rates == 0 || less(num, den, report.smallest.num, report.smallest.den))
                report.smallest = (hz_extreme){num, den, i};
            if (report.rates == 0 || less(report.largest.num, report.largest.den, num, den))
                report.largest = (hz_extreme){num, den, i};
            report.rates++;
            break;
        case HZ_RANGE:
            report.range++;
            break;
        case HZ_NOT_ELAPSED:
            report.not_elapsed++;
            break;
        default:
            report.off_grid++;
        }
    }
    *to = report;
}

static void library_rates(hz_report *to)
{
    hz_rates(run, PAIRS, to);
}

/* ---- runs ---- */

static uint64_t state = 302;

/* splitmix64 */
static uint64_t any(void)
{
    uint64_t z = state += UINT64_C(0x9E3779B97F4A7C15);

    z = (z ^ (z >> 30)) * UINT64_C(0xBF58476D1CE4E5B9);
    z = (z ^ (z >> 27)) * UINT64_C(0x94D049BB133111EB);
    return z ^ (z >> 31);
}

static void move(int64_t *sec, uint64_t *ticks, int64_t steps)
{
    int64_t all = (int64_t)(*ticks / HZ_GRID) + steps, whole = (all - (all & (STEPS - 1))) / STEPS;

    *sec += whole;
    *ticks = (uint64_t)(all - whole * STEPS) * HZ_GRID;
}

/* Telemetry: a pair each second, and the onboard clock off by some parts in a million. One in a thousand is no
 * record on the grid, and one in a thousand comes twice. */
static void steady(void)
{
    hz_pair now = {1000000000, 0, 1000000000, 0};
    size_t i;

    for (i = 0; i < PAIRS; i++) {
        run[i] = now;
        if (any() % 1000 == 0)
            run[i].ground_ticks++;
        if (any() % 1000 != 0) {
            move(&now.onboard_sec, &now.onboard_ticks, STEPS + (int64_t)(any() % 65) - 32);
            move(&now.ground_sec, &now.ground_ticks, STEPS);
        }
    }
}

/* Up to 2^21 s, in steps. */
static int64_t distance(void)
{
    return (int64_t)(any() >> (64 - 21 - 24)) + 1;
}

/* Pairs at any distance up to 24 days: every two has a rate, which is another each time and has many digits. */
static void scattered(void)
{
    hz_pair now = {-(INT64_C(1) << 40), 0, -(INT64_C(1) << 40), 0};
    size_t i;

    for (i = 0; i < PAIRS; i++) {
        run[i] = now;
        move(&now.onboard_sec, &now.onboard_ticks, distance());
        move(&now.ground_sec, &now.ground_ticks, distance());
    }
}

/* ---- rounds ---- */

static double nanoseconds(void (*job)(hz_report *), hz_report *report)
{
    struct timespec begun, done;

    clock_gettime(CLOCK_MONOTONIC, &begun);
    job(report);
    clock_gettime(CLOCK_MONOTONIC, &done);
    return ((double)(done.tv_sec - begun.tv_sec) * 1e9 + (double)(done.tv_nsec - begun.tv_nsec)) / PAIRS;
}

static double lesser(double one, double other)
{
    return one < other ? one : other;
}

static bool in_bounds(const char *what, void (*fill)(void))
{
    double library = 1e18, plain = 1e18;
    hz_report one, other;
    bool good;
    int round;

    fill();
    for (round = 0; round < ROUNDS; round++) {
        library = lesser(library, nanoseconds(library_rates, &one));
        plain = lesser(plain, nanoseconds(plain_rates, &other));
    }
    if (memcmp(&one, &other, sizeof one) != 0) {
        printf("drift: %s: the two report differently\n", what);
        exit(1);
    }
    good = library <= BOUND * plain;
    printf("| %-9s | %7zu | %7.1f | %7.1f | %5.2f | %-4s |\n", what, (size_t)one.rates, library, plain,
           library / plain, good ? "" : "over");
    return good;
}

int main(void)
{
    bool good;

    printf("a run of %d pairs: ns a pair, best of %d rounds; at most %.1f times the plain loop's\n\n", PAIRS, ROUNDS,
           BOUND);
    printf("| run       |   rates | library |   plain | ratio |      |\n");
    printf("|-----------|--------:|--------:|--------:|------:|------|\n");
    good = in_bounds("steady", steady);
    good = in_bounds("scattered", scattered) && good;
    return good ? 0 : 1;
}
