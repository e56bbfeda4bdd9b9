/* Reads and writes a million ASCII codes of 24 bytes: the library, the same job by hand (hand.c), memcpy of the
 * same bytes, and the peers whose shared objects are in the directory that the first argument names. The codes
 * are cut into slices, on each of which all take their turn in each round; of each the best round on each slice
 * counts. Ends with status 1 when the library is slower than the hand-written C or not faster than a peer. */
#define _POSIX_C_SOURCE 200809L

#include "hand.h"
#include "honigzange.h"

#include <dlfcn.h>
#include <stdio.h>
#include <stdlib.h>
#include <string.h>
#include <time.h>

#define CODES 1000000
#define BYTES 24
#define ROUNDS 9
#define SLICES 20
#define SLICE (CODES / SLICES)
#define MOST 16
#define OURS 4

/* 1958-01-01 to 1970-01-01, in days. */
#define POSIX_DAY 4383

typedef uint8_t reader(const uint8_t *text, size_t len, int64_t *sec, uint64_t *ticks);
typedef uint8_t writer(int64_t sec, uint64_t ticks, uint8_t *out, size_t room, size_t *written);

/* A contender counts TAI seconds from 1958, as the library does, or else POSIX seconds from 1970: these pass a
 * leap second over, and are given it as the second before it with a whole second of ticks on top. */
struct contender {
    const char *name;
    bool tai;
    void (*begin)(void);
    reader *read;
    writer *write;
};

/* The codes, and the moments that they show, counted in both ways. */
static struct codes {
    uint8_t text[CODES][BYTES];
    int64_t tai[CODES], posix[CODES];
    uint64_t ticks[CODES], posix_ticks[CODES];
} codes;

static uint8_t out[CODES][BYTES];
static int64_t sec[CODES];
static uint64_t ticks[CODES];
static uint8_t refused[CODES];

static uint64_t state = 1958;

/* splitmix64 */
static uint64_t random_below(uint64_t end)
{
    uint64_t z = state += UINT64_C(0x9E3779B97F4A7C15);

    z = (z ^ (z >> 30)) * UINT64_C(0xBF58476D1CE4E5B9);
    z = (z ^ (z >> 27)) * UINT64_C(0x94D049BB133111EB);
    return (z ^ (z >> 31)) % end;
}

static void expect(const char *what, bool holds)
{
    if (!holds) {
        printf("ascii: wrong: %s\n", what);
        exit(1);
    }
}

/* ---- codes ---- */

static void set_code(size_t i, int64_t at, uint64_t millisecond)
{
    int64_t day, offset;
    uint64_t second;
    size_t written;

    expect("utc", hz_utc_of_second(at, &day, &second, &offset) == 0);
    codes.tai[i] = at;
    codes.ticks[i] = millisecond * (HZ_TICKS / 1000);
    codes.posix[i] = (day - POSIX_DAY) * 86400 + (int64_t)second - (second == 86400);
    codes.posix_ticks[i] = codes.ticks[i] + (second == 86400 ? HZ_TICKS : 0);
    expect("code", hz_write_wall(at, codes.ticks[i], codes.text[i], BYTES, &written) == 0 && written == BYTES);
}

/* Any moments of the cover, and a leap second once in fifty. */
static void random_codes(void)
{
    static const uint8_t tag[] = "::60";
    int64_t leaps[27];
    uint64_t none;
    size_t count, i;
    bool more;

    state = 1958;
    expect("leap seconds", hz_list_ascii(tag, 4, 441763210, 0, 2145916837, 0, leaps, 27, &none, &count, &more) == 0 &&
                               count == 27);
    for (i = 0; i < CODES; i++) {
        int64_t any = 441763210 + (int64_t)random_below(2145916837 - 441763210);
        set_code(i, random_below(50) == 0 ? leaps[random_below(27)] : any, random_below(1000));
    }
}

/* Telemetry: 7 to 9 ms from one code to the next, from 2016-12-31T22:53:20 on, over the leap second. */
static void rising_codes(void)
{
    uint64_t at = 0;
    size_t i;

    for (i = 0; i < CODES; i++) {
        set_code(i, 1861920036 - 4000 + (int64_t)(at / 1000), at % 1000);
        at += 7 + random_below(3);
    }
}

/* Codes that break a rule (4) or have a second 60 on a day without one (6), made of good ones. */
#define BAD_ROOM 40

/* What is put where; from place 20 on the code ends with it. */
static const struct {
    size_t place;
    const char *put;
} bad_kinds[] = {
    {5, "13"},         {5, "00"},   {5, "04-31"}, {0, "2023-02-29"},      {8, "00"},
    {8, "32"},         {11, "24"},  {14, "60"},   {17, "61"},             {11, "12:00:60"},
    {2, "x"},          {2, " "},    {10, " "},    {13, "."},              {4, "/"},
    {20, "x23Z"},      {20, "Z"},   {20, "123z"}, {20, "1234567890123Z"}, {20, "123Z "},
    {20, "123+01:00"}, {0, "2015-12-31T23:59:60"},
};

#define BAD_KINDS (sizeof bad_kinds / sizeof *bad_kinds)

static size_t bad_code(size_t kind, uint8_t *text)
{
    size_t place = bad_kinds[kind].place, put = strlen(bad_kinds[kind].put);

    memcpy(text, codes.text[random_below(CODES)], BYTES);
    memcpy(text + place, bad_kinds[kind].put, put);
    return place < 20 ? BYTES : place + put;
}

/* ---- contenders ---- */

static struct contender contenders[MOST];
static size_t contenders_count;

static uint8_t hz_write(int64_t at, uint64_t part, uint8_t *to, size_t room, size_t *written)
{
    return hz_write_ascii(at, part, false, 3, true, to, room, written);
}

static uint8_t hand_write(int64_t at, uint64_t part, uint8_t *to, size_t room, size_t *written)
{
    return hand_write_ascii(at, part, false, 3, true, to, room, written);
}

static void load_contenders(const char *directory)
{
    static const char *const peers[] = {"humantime", "time", "chrono", "glibc", "glibc-right", "erfa"};
    size_t i;

    contenders[contenders_count++] = (struct contender){"library", true, NULL, hz_read_ascii, hz_write};
    contenders[contenders_count++] = (struct contender){"hand", true, NULL, hand_read_ascii, hand_write};
    contenders[contenders_count++] = (struct contender){"library, wall", true, NULL, NULL, hz_write_wall};
    contenders[contenders_count++] = (struct contender){"hand, wall", true, NULL, NULL, hand_write_wall};
    for (i = 0; i < sizeof peers / sizeof *peers; i++) {
        struct contender peer = {peers[i], false, NULL, NULL, NULL};
        char path[4096];
        void *object;

        snprintf(path, sizeof path, "%s/%s.so", directory, peers[i]);
        object = dlopen(path, RTLD_NOW | RTLD_LOCAL);
        if (object == NULL)
            continue;
        peer.tai = dlsym(object, "peer_counts_tai") != NULL;
        *(void **)&peer.begin = dlsym(object, "peer_begin");
        *(void **)&peer.read = dlsym(object, "peer_read");
        *(void **)&peer.write = dlsym(object, "peer_write");
        expect(peers[i], peer.read != NULL && peer.write != NULL);
        contenders[contenders_count++] = peer;
    }
}

/* ---- jobs ---- */

/* Each job is done on the slice that begins with code `from`. */
typedef void job(const struct contender *by, size_t from);

static void read_slice(const struct contender *by, size_t from)
{
    reader *const read = by->read;
    size_t i;

    for (i = from; i < from + SLICE; i++)
        refused[i] = read(codes.text[i], BYTES, &sec[i], &ticks[i]);
}

static void write_slice(const struct contender *by, size_t from)
{
    writer *const write = by->write;
    const int64_t *const at = by->tai ? codes.tai : codes.posix;
    const uint64_t *const part = by->tai ? codes.ticks : codes.posix_ticks;
    size_t i, written;

    for (i = from; i < from + SLICE; i++)
        refused[i] = write(at[i], part[i], out[i], BYTES, &written);
}

static void copy_slice(const struct contender *by, size_t from)
{
    (void)by;
    memcpy(out[from], codes.text[from], sizeof *out * SLICE);
    __asm__ volatile("" : : "r"(out) : "memory");
}

static size_t read_otherwise(const struct contender *by, size_t from)
{
    const int64_t *const at = by->tai ? codes.tai : codes.posix;
    const uint64_t *const part = by->tai ? codes.ticks : codes.posix_ticks;
    size_t i, count = 0;

    for (i = from; i < from + SLICE; i++)
        count += refused[i] != 0 || sec[i] != at[i] || ticks[i] != part[i];
    return count;
}

static size_t written_otherwise(const struct contender *by, size_t from)
{
    size_t i, count = 0;

    (void)by;
    for (i = from; i < from + SLICE; i++)
        count += refused[i] != 0 || memcmp(out[i], codes.text[i], BYTES) != 0;
    return count;
}

/* Prints the kinds of bad codes that a reader takes, told by what was put into a good code. */
static void report_bad_codes(const struct contender *by)
{
    size_t i, kind, kinds_taken = 0;

    printf("| %-13s |", by->name);
    for (kind = 0; kind < BAD_KINDS; kind++) {
        size_t taken = 0;

        for (i = 0; i < 100; i++) {
            uint8_t text[BAD_ROOM], number;
            int64_t at;
            uint64_t part;
            size_t len = bad_code(kind, text);

            number = by->read(text, len, &at, &part);
            taken += number == 0;
            if (by->read == hand_read_ascii)
                expect("the hand-written reader's refusal", number == hz_read_ascii(text, len, &at, &part));
        }
        if (taken > 0)
            printf("%s `%s`", kinds_taken++ == 0 ? "" : ",", bad_kinds[kind].put);
    }
    printf("%s |\n", kinds_taken == 0 ? " none" : "");
}

/* ---- rounds ---- */

static double nanoseconds(job *job, const struct contender *by, size_t from)
{
    struct timespec begun, done;

    clock_gettime(CLOCK_MONOTONIC, &begun);
    job(by, from);
    clock_gettime(CLOCK_MONOTONIC, &done);
    return (double)(done.tv_sec - begun.tv_sec) * 1e9 + (double)(done.tv_nsec - begun.tv_nsec);
}

/* Nanoseconds a code; and how many codes are answered otherwise than by the library. */
struct times {
    double took[MOST], floor;
    size_t otherwise[MOST];
};

static double lesser(double one, double other)
{
    return one < other ? one : other;
}

static bool takes_part(const struct contender *by, bool reading)
{
    return reading ? by->read != NULL : by->write != NULL;
}

/* Ours answer all alike. */
static void count_otherwise(struct times *times, bool reading)
{
    size_t i, from;

    for (i = 0; i < contenders_count; i++) {
        const struct contender *by = &contenders[i];

        if (!takes_part(by, reading))
            continue;
        if (by->begin != NULL)
            by->begin();
        for (from = 0; from < CODES; from += SLICE) {
            (reading ? read_slice : write_slice)(by, from);
            times->otherwise[i] += (reading ? read_otherwise : written_otherwise)(by, from);
        }
        expect(by->name, i >= OURS || times->otherwise[i] == 0);
    }
}

/* All take their turn on a slice. */
static void measure_slice(double best[MOST], double *floor, bool reading, size_t from)
{
    size_t i;

    *floor = lesser(*floor, nanoseconds(copy_slice, NULL, from));
    for (i = 0; i < contenders_count; i++) {
        const struct contender *by = &contenders[i];

        if (!takes_part(by, reading))
            continue;
        if (by->begin != NULL)
            by->begin();
        best[i] = lesser(best[i], nanoseconds(reading ? read_slice : write_slice, by, from));
    }
}

static struct times measure(bool reading)
{
    static double best[SLICES][MOST], floor[SLICES];
    struct times times = {{0}, 0, {0}};
    size_t slice, i;
    int round;

    for (slice = 0; slice < SLICES; slice++)
        for (floor[slice] = 1e18, i = 0; i < MOST; i++)
            best[slice][i] = 1e18;
    for (round = 0; round < ROUNDS; round++)
        for (slice = 0; slice < SLICES; slice++)
            measure_slice(best[slice], &floor[slice], reading, slice * SLICE);
    for (slice = 0; slice < SLICES; slice++)
        times.floor += floor[slice] / CODES;
    for (i = 0; i < contenders_count; i++)
        for (slice = 0; takes_part(&contenders[i], reading) && slice < SLICES; slice++)
            times.took[i] += best[slice][i] / CODES;
    count_otherwise(&times, reading);
    return times;
}

/* Ours are pairs: the library's call, and the same by hand. */
static bool in_bounds(const struct times *times, bool reading)
{
    size_t library, i;
    bool good = true;

    for (library = 0; library < OURS; library += 2) {
        if (!takes_part(&contenders[library], reading))
            continue;
        good = good && times->took[library] <= times->took[library + 1];
        for (i = OURS; i < contenders_count; i++)
            good = good && times->took[library] < times->took[i];
    }
    return good;
}

/* Ours are told in multiples of their own hand-written call, all others of the first. */
static bool report(bool reading)
{
    struct times any, rising;
    size_t i;
    bool good;

    random_codes();
    any = measure(reading);
    rising_codes();
    rising = measure(reading);
    good = in_bounds(&any, reading) && in_bounds(&rising, reading);
    printf("\n%s a million codes: ns a code, best of %d rounds%s\n\n", reading ? "reading" : "writing", ROUNDS,
           good ? "" : "; THE LIBRARY IS OVER ITS BOUND");
    printf("|               | random | to hand | rising | to hand | other answers |\n");
    printf("|---------------|-------:|--------:|-------:|--------:|--------------:|\n");
    printf("| %-13s | %6.1f | %7.2f | %6.1f | %7.2f | %13s |\n", "memcpy", any.floor, any.floor / any.took[1],
           rising.floor, rising.floor / rising.took[1], "");
    for (i = 0; i < contenders_count; i++) {
        size_t hand = i < OURS ? i | 1 : 1;

        if (takes_part(&contenders[i], reading))
            printf("| %-13s | %6.1f | %7.2f | %6.1f | %7.2f | %6zu, %5zu |\n", contenders[i].name, any.took[i],
                   any.took[i] / any.took[hand], rising.took[i], rising.took[i] / rising.took[hand],
                   any.otherwise[i], rising.otherwise[i]);
    }
    return good;
}

int main(int count, char **arguments)
{
    bool reading, writing;
    size_t i;

    load_contenders(count > 1 ? arguments[1] : ".");
    random_codes();
    printf("\nbad codes that are taken, by what was put into a good one\n\n| | |\n|---------------|-|\n");
    for (i = 0; i < contenders_count; i++)
        if (contenders[i].read != NULL)
            report_bad_codes(&contenders[i]);
    reading = report(true);
    writing = report(false);
    return reading && writing ? 0 : 1;
}
