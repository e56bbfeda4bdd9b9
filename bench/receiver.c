/* A megabyte of T-fields end to end, in pieces of 1, 16 and 4096 bytes to a receiver, beside hz_read_binary on the
 * whole, one T-field after another. One T-field in sixteen has an octet that is any. All take turns, and of each the
 * best round counts. Ends with status 1 when pieces of 4096 bytes take more than 1.5 times as long as reading whole. */
#define _POSIX_C_SOURCE 199309L

#include "honigzange.h"

#include <stdio.h>
#include <stdlib.h>
#include <string.h>
#include <time.h>

#define BYTES 1000000
#define ROUNDS 20
#define BOUND 1.5
#define LARGE 4096
#define FIRST INT64_C(441763210)
#define SECONDS UINT64_C(1704153627)

/* The epochs are not used. */
static const struct layout {
    const char *name;
    uint8_t p;
    size_t width;
} layouts[] = {
    {"CUC 1C", 0x1C, 4}, {"CUC 1F", 0x1F, 7}, {"CDS 40", 0x40, 6},
    {"CDS 42", 0x42, 10}, {"CCS 50", 0x50, 7}, {"CCS 56", 0x56, 13},
};

static const size_t pieces[] = {1, 16, LARGE};

#define PIECES (sizeof pieces / sizeof *pieces)

static uint8_t run[BYTES];

/* The answers of reading whole, and those of a receiver. */
static hz_row whole[BYTES], told[BYTES];

static uint64_t state = 303;

/* splitmix64 */
static uint64_t any(void)
{
    uint64_t z = state += UINT64_C(0x9E3779B97F4A7C15);

    z = (z ^ (z >> 30)) * UINT64_C(0xBF58476D1CE4E5B9);
    z = (z ^ (z >> 27)) * UINT64_C(0x94D049BB133111EB);
    return z ^ (z >> 31);
}

static void fill(const struct layout *layout)
{
    size_t at, written;

    for (at = 0; at + layout->width <= BYTES; at += layout->width) {
        int64_t sec = FIRST + (int64_t)(any() % SECONDS);

        if (hz_write_binary(sec, any() % HZ_TICKS, false, layout->p, 0, run + at, BYTES - at, &written) != 0 ||
            written != layout->width) {
            printf("receiver: %s: a moment is not written\n", layout->name);
            exit(1);
        }
        if (any() % 16 == 0)
            run[at + any() % layout->width] = (uint8_t)any();
    }
}

static size_t read_whole(const struct layout *layout)
{
    size_t at, used, rows = 0;

    for (at = 0; at + layout->width <= BYTES; at += layout->width) {
        hz_row row = {0, 0, 0};

        row.refusal =
            hz_read_binary(run + at, BYTES - at, false, layout->p, 0, &row.sec, &row.ticks, &used);
        whole[rows++] = row;
    }
    return rows;
}

static size_t receive(const struct layout *layout, size_t piece)
{
    hz_receiver receiver;
    size_t at, count, rows = 0;

    if (hz_receiver_make(layout->p, 0, &receiver) != 0)
        return 0;
    for (at = 0; at < BYTES; at += piece) {
        size_t len = BYTES - at < piece ? BYTES - at : piece;

        if (hz_receive(&receiver, run + at, len, told + rows, BYTES - rows, &count) != 0)
            return 0;
        rows += count;
    }
    return rows;
}

/* ---- rounds ---- */

static double now(void)
{
    struct timespec time;

    clock_gettime(CLOCK_MONOTONIC, &time);
    return (double)time.tv_sec * 1e9 + (double)time.tv_nsec;
}

static void note(double begun, size_t rows, double *best)
{
    double took = (now() - begun) / (double)rows;

    *best = took < *best ? took : *best;
}

static void compare(const struct layout *layout, size_t rows, size_t received)
{
    if (received != rows || memcmp(told, whole, rows * sizeof *whole) != 0) {
        printf("receiver: %s: the two answer differently\n", layout->name);
        exit(1);
    }
}

static bool in_bounds(const struct layout *layout)
{
    double read = 1e18, received[PIECES] = {1e18, 1e18, 1e18}, begun;
    size_t rows = 0, refused = 0, i;
    int round;
    bool good;

    fill(layout);
    for (round = 0; round < ROUNDS; round++) {
        begun = now();
        rows = read_whole(layout);
        note(begun, rows, &read);
        for (i = 0; i < PIECES; i++) {
            size_t count;

            begun = now();
            count = receive(layout, pieces[i]);
            note(begun, rows, &received[i]);
            compare(layout, rows, count);
        }
    }
    for (i = 0; i < rows; i++)
        refused += whole[i].refusal != 0;
    good = received[PIECES - 1] <= BOUND * read;
    printf("| %s | %8zu | %7zu | %5.1f | %6.1f | %5.1f | %5.1f | %5.2f | %-4s |\n", layout->name, rows, refused, read,
           received[0], received[1], received[2], received[2] / read, good ? "" : "over");
    return good;
}

int main(void)
{
    bool good = true;
    size_t i;

    printf("a megabyte: ns a T-field, best of %d rounds; in pieces of %d bytes at most %.1f times whole\n\n", ROUNDS,
           LARGE, BOUND);
    printf("| layout | T-fields | refused | whole |      1 |    16 |  4096 | ratio |      |\n");
    printf("|--------|---------:|--------:|------:|-------:|------:|------:|------:|------|\n");
    for (i = 0; i < sizeof layouts / sizeof *layouts; i++)
        good = in_bounds(&layouts[i]) && good;
    return good ? 0 : 1;
}
