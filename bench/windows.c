/* Times listings whose windows grow from a hundredth of the covered time to all of it, each as the best of some
 * rounds that all take their turn in. Prints a line for each: the tag, the seconds of the window, the moments
 * listed and the nanoseconds taken, with tabs between them. */
#define _POSIX_C_SOURCE 199309L

#include "honigzange.h"

#include <stdio.h>
#include <stdlib.h>
#include <string.h>
#include <time.h>

#define ROUNDS 200
#define FIRST INT64_C(441763210)
#define COVER (INT64_C(2145916837) - FIRST)

/* A counter that wraps after 256 seconds names the most moments. */
#define ROOM (COVER / 256 + 1)

static int64_t list[ROOM];

static const char *const tags[] = {"CUC 10 00", "12:00", "-02-29", "::60"};
static const int64_t windows[] = {COVER / 100, COVER / 32, COVER / 10, COVER * 10 / 32, COVER};

#define TAGS (sizeof tags / sizeof *tags)
#define WINDOWS (sizeof windows / sizeof *windows)

static size_t listed(const char *tag, int64_t window)
{
    static const uint8_t counter[] = {0x10, 0x00};
    uint64_t ticks;
    size_t count = 0;
    bool more = true;
    uint8_t refusal;

    if (tag == tags[0])
        refusal = hz_list_cuc(counter, sizeof counter, true, 0, 0, FIRST, 0, FIRST + window, 0, list, ROOM, &ticks,
                              &count, &more);
    else
        refusal = hz_list_ascii((const uint8_t *)tag, strlen(tag), FIRST, 0, FIRST + window, 0, list, ROOM, &ticks,
                                &count, &more);
    if (refusal != 0 || more) {
        fprintf(stderr, "windows: wrong: %s\n", tag);
        exit(1);
    }
    return count;
}

static double nanoseconds(const char *tag, int64_t window)
{
    struct timespec begun, done;

    clock_gettime(CLOCK_MONOTONIC, &begun);
    listed(tag, window);
    clock_gettime(CLOCK_MONOTONIC, &done);
    return (double)(done.tv_sec - begun.tv_sec) * 1e9 + (double)(done.tv_nsec - begun.tv_nsec);
}

int main(void)
{
    double best[TAGS][WINDOWS];
    size_t tag, window;
    int round;

    for (round = 0; round < ROUNDS; round++)
        for (tag = 0; tag < TAGS; tag++)
            for (window = 0; window < WINDOWS; window++) {
                double took = nanoseconds(tags[tag], windows[window]);
                if (round == 0 || took < best[tag][window])
                    best[tag][window] = took;
            }
    for (tag = 0; tag < TAGS; tag++)
        for (window = 0; window < WINDOWS; window++)
            printf("%s\t%lld\t%zu\t%.0f\n", tags[tag], (long long)windows[window],
                   listed(tags[tag], windows[window]), best[tag][window]);
    return 0;
}
