/* Every call of the library beside the same call of the second program (bench/second), on the same inputs: most
 * are good, and one in sixteen is refused; of a run's pairs, one in sixteen comes twice. The two take turns, in
 * several sweeps over all calls, since a machine has slow times, and of each the best round counts. Ends with
 * status 1 when a call takes more than 1.3 times as long as the second program's. */
#define _POSIX_C_SOURCE 199309L

#include "honigzange.h"

#include <stdio.h>
#include <stdlib.h>
#include <string.h>
#include <time.h>

#define INPUTS 4096
#define SWEEPS 10
#define ROUNDS 30
#define BOUND 1.3
#define LISTED 16
#define RUN 16
#define FIRST INT64_C(441763210)
#define END INT64_C(2145916837)

/* The arguments of any call: each takes those that it has. */
struct input {
    int64_t sec;
    uint64_t ticks;
    int64_t to_sec;
    uint64_t to_ticks;
    int64_t epoch;
    uint64_t year, month, day;
    uint8_t bytes[HZ_ASCII_ROOM];
    hz_receiver receiver;
    uint8_t len, room, p, digits;
    bool front, day_of_year, z;
};

/* The cells of any call's results, and what it lends. */
struct cells {
    uint8_t refusal;
    bool more;
    int64_t sec, offset;
    uint64_t ticks, year, month, day;
    size_t count;
    uint8_t out[HZ_ASCII_ROOM];
    int64_t list[LISTED];
    hz_report report;
    hz_receiver receiver;
    hz_row row;
};

static struct input inputs[INPUTS];

/* Pairs in a row: the rate or the run of an input begins at its own place. */
static hz_pair pairs[INPUTS + RUN];

static uint64_t state;

/* splitmix64 */
static uint64_t any(void)
{
    uint64_t z = state += UINT64_C(0x9E3779B97F4A7C15);

    z = (z ^ (z >> 30)) * UINT64_C(0xBF58476D1CE4E5B9);
    z = (z ^ (z >> 27)) * UINT64_C(0x94D049BB133111EB);
    return z ^ (z >> 31);
}

static uint64_t below(uint64_t end)
{
    return any() % end;
}

static int64_t between(int64_t first, int64_t last)
{
    return first + (int64_t)below((uint64_t)(last - first) + 1);
}

static bool spoiled(void)
{
    return below(16) == 0;
}

/* ---- inputs ---- */

static void two_records(struct input *in)
{
    in->sec = between(FIRST, END);
    in->ticks = below(HZ_TICKS) + (spoiled() ? HZ_TICKS : 0);
    in->to_sec = between(-(END - FIRST), END - FIRST);
    in->to_ticks = below(HZ_TICKS);
}

static void date(struct input *in)
{
    in->year = 1 + below(9999);
    in->month = 1 + below(12);
    in->day = 1 + below(28);
    if (spoiled())
        in->day = 32;
}

static void ordinal(struct input *in)
{
    in->year = 1 + below(9999);
    in->day = spoiled() ? 367 : 1 + below(365);
}

static void day_number(struct input *in)
{
    in->sec = spoiled() ? HZ_LAST_DAY + 1 : between(HZ_FIRST_DAY, HZ_LAST_DAY);
}

static void covered_second(struct input *in)
{
    in->sec = spoiled() ? END + (int64_t)below(1000000) : between(FIRST, END - 1);
}

static void covered_day(struct input *in)
{
    in->sec = spoiled() ? 24837 : between(5113, 24836);
    in->day = below(86400);
}

static void moment(struct input *in)
{
    in->sec = between(FIRST, END - 1);
    in->ticks = below(HZ_TICKS);
}

/* A P octet and a moment that its code can hold, for all the codes alike. */
static void binary_setting(struct input *in)
{
    size_t written;

    do {
        static const uint8_t codes[] = {0x10, 0x20, 0x40, 0x50};
        uint8_t code[HZ_BINARY_ROOM];

        moment(in);
        in->p = codes[below(4)] | (uint8_t)below(16);
        in->front = below(2) == 0;
        in->epoch = in->p < 0x40 ? in->sec - (int64_t)below(256) : 5000;
        in->room = HZ_BINARY_ROOM;
        in->len = (uint8_t)(hz_write_binary(in->sec, in->ticks, in->front, in->p, in->epoch, code, sizeof code,
                                            &written) == 0
                                ? written
                                : 0);
    } while (in->len == 0);
}

static void binary_write(struct input *in)
{
    binary_setting(in);
    if (spoiled())
        in->room = in->len - 1;
}

static void binary_read(struct input *in)
{
    size_t written;

    binary_setting(in);
    hz_write_binary(in->sec, in->ticks, in->front, in->p, in->epoch, in->bytes, in->room, &written);
    if (spoiled())
        in->len--;
}

static void making(struct input *in)
{
    binary_setting(in);
    if (spoiled())
        in->p |= 0x80;
}

/* A piece that completes the T-field of which a receiver holds some octets, and leaves as many of another. */
static void piece(struct input *in)
{
    uint8_t t[HZ_BINARY_ROOM];
    size_t written, held, count;

    binary_setting(in);
    hz_write_binary(in->sec, in->ticks, false, in->p, in->epoch, t, sizeof t, &written);
    held = below(written);
    hz_receiver_make(in->p, in->epoch, &in->receiver);
    hz_receive(&in->receiver, t, held, NULL, 0, &count);
    memcpy(in->bytes, t + held, written - held);
    memcpy(in->bytes + (written - held), t, held);
    in->len = (uint8_t)written;
    in->room = !spoiled();
}

static void ascii_setting(struct input *in)
{
    moment(in);
    in->day_of_year = below(2) == 0;
    in->digits = (uint8_t)below(13);
    in->z = below(2) == 0;
    in->room = HZ_ASCII_ROOM;
}

static void ascii_write(struct input *in)
{
    ascii_setting(in);
    if (spoiled())
        in->sec = END;
}

static void ascii_read(struct input *in)
{
    size_t written;

    ascii_setting(in);
    hz_write_ascii(in->sec, in->ticks, in->day_of_year, in->digits, in->z, in->bytes, in->room, &written);
    in->len = (uint8_t)written;
    if (spoiled())
        in->bytes[below(written)] = 'x';
}

/* From a minute to a year. */
static void window(struct input *in)
{
    int64_t length = 60 + (int64_t)below(UINT64_C(1) << (6 + below(20)));

    in->sec = between(FIRST, END - length);
    in->to_sec = in->sec + length;
    in->ticks = in->to_ticks = 0;
    in->room = LISTED;
}

static void cuc_tag(struct input *in)
{
    size_t i;

    window(in);
    in->front = true;
    in->bytes[0] = 0x10 | (uint8_t)below(16);
    in->len = 1 + ((in->bytes[0] >> 2) & 3) + 1 + (in->bytes[0] & 3) + spoiled();
    for (i = 1; i < in->len; i++)
        in->bytes[i] = (uint8_t)any();
}

static void ascii_tag(struct input *in)
{
    static const char *const tags[] = {
        "::60", "-02-29", "12:00", "12:00", ":30", "::15.5Z", "--01", "-12-25T08:30", "2016-12-31T23:59:60",
        "-366T23:59:60", "1999", "2004-200T12:34:56.789Z", "::.5", "-100", "07Z",
    };
    const char *tag = spoiled() ? "-02-30" : tags[below(sizeof tags / sizeof *tags)];

    window(in);
    in->len = (uint8_t)strlen(tag);
    memcpy(in->bytes, tag, in->len);
}

/* All pairs are made with the first input: some seconds apart, and one in sixteen comes twice. */
static void run_of_pairs(struct input *in)
{
    hz_pair now = {FIRST, 0, FIRST, 0};
    size_t i;

    if (in != inputs)
        return;
    for (i = 0; i < INPUTS + RUN; i++) {
        pairs[i] = now;
        if (!spoiled())
            now = (hz_pair){now.onboard_sec + 1, below(1 << 24) * HZ_GRID,
                            now.ground_sec + 1, below(1 << 24) * HZ_GRID};
    }
}

/* ---- calls ---- */

#define CALLS(call, ...)                                                                                       \
    extern __typeof__(hz_##call) second_##call;                                                                \
    static void hz_pass_##call(const struct input *in, struct cells *to, size_t count)                         \
    {                                                                                                          \
        for (; count > 0; count--, in++)                                                                       \
            to->refusal = hz_##call(__VA_ARGS__);                                                              \
    }                                                                                                          \
    static void second_pass_##call(const struct input *in, struct cells *to, size_t count)                     \
    {                                                                                                          \
        for (; count > 0; count--, in++)                                                                       \
            to->refusal = second_##call(__VA_ARGS__);                                                          \
    }

CALLS(difference, in->sec, in->ticks, in->to_sec, in->to_ticks, &to->sec, &to->ticks)
CALLS(shift, in->sec, in->ticks, in->to_sec, in->to_ticks, &to->sec, &to->ticks)
CALLS(day_of_date, in->year, in->month, in->day, &to->sec)
CALLS(date_of_day, in->sec, &to->year, &to->month, &to->day)
CALLS(day_of_ordinal, in->year, in->day, &to->sec)
CALLS(ordinal_of_day, in->sec, &to->year, &to->day)
CALLS(utc_of_second, in->sec, &to->sec, &to->ticks, &to->offset)
CALLS(second_of_utc, in->sec, in->day, &to->sec)
CALLS(read_binary, in->bytes, in->len, in->front, in->p, in->epoch, &to->sec, &to->ticks, &to->count)
CALLS(write_binary, in->sec, in->ticks, in->front, in->p, in->epoch, to->out, in->room, &to->count)
CALLS(receiver_make, in->p, in->epoch, &to->receiver)
CALLS(receive, (to->receiver = in->receiver, &to->receiver), in->bytes, in->len, &to->row, in->room, &to->count)
CALLS(read_ascii, in->bytes, in->len, &to->sec, &to->ticks)
CALLS(write_ascii, in->sec, in->ticks, in->day_of_year, in->digits, in->z, to->out, in->room, &to->count)
CALLS(write_wall, in->sec, in->ticks, to->out, in->room, &to->count)
CALLS(list_cuc, in->bytes, in->len, in->front, in->p, in->epoch, in->sec, in->ticks, in->to_sec, in->to_ticks,
      to->list, in->room, &to->ticks, &to->count, &to->more)
CALLS(list_ascii, in->bytes, in->len, in->sec, in->ticks, in->to_sec, in->to_ticks, to->list, in->room, &to->ticks,
      &to->count, &to->more)
#define FROM pairs[in - inputs]
#define TO pairs[in - inputs + 1]
CALLS(rate, FROM.onboard_sec, FROM.onboard_ticks, FROM.ground_sec, FROM.ground_ticks, TO.onboard_sec, TO.onboard_ticks,
      TO.ground_sec, TO.ground_ticks, &to->sec, &to->ticks)
CALLS(rates, &FROM, RUN, &to->report)

typedef void pass(const struct input *in, struct cells *to, size_t count);

#define CALL(call, inputs, count) {#call, hz_pass_##call, second_pass_##call, inputs, count}

/* A call that takes long has fewer inputs. */
static const struct call {
    const char *name;
    pass *library, *second;
    void (*input)(struct input *);
    size_t count;
} calls[] = {
    CALL(difference, two_records, INPUTS),       CALL(shift, two_records, INPUTS),
    CALL(day_of_date, date, INPUTS),             CALL(date_of_day, day_number, INPUTS),
    CALL(day_of_ordinal, ordinal, INPUTS),       CALL(ordinal_of_day, day_number, INPUTS),
    CALL(utc_of_second, covered_second, INPUTS), CALL(second_of_utc, covered_day, INPUTS),
    CALL(read_binary, binary_read, INPUTS),      CALL(write_binary, binary_write, INPUTS),
    CALL(read_ascii, ascii_read, INPUTS),        CALL(write_ascii, ascii_write, INPUTS),
    CALL(write_wall, ascii_write, INPUTS),       CALL(list_cuc, cuc_tag, INPUTS),
    CALL(list_ascii, ascii_tag, 256),            CALL(rate, run_of_pairs, INPUTS),
    CALL(rates, run_of_pairs, INPUTS),           CALL(receiver_make, making, INPUTS),
    CALL(receive, piece, INPUTS),
};

#define COUNT (sizeof calls / sizeof *calls)

/* ---- rounds ---- */

static double nanoseconds(pass *pass, size_t count)
{
    static struct cells cells;
    struct timespec begun, done;

    clock_gettime(CLOCK_MONOTONIC, &begun);
    pass(inputs, &cells, count);
    clock_gettime(CLOCK_MONOTONIC, &done);
    return ((double)(done.tv_sec - begun.tv_sec) * 1e9 + (double)(done.tv_nsec - begun.tv_nsec)) / (double)count;
}

/* Makes the inputs, and sees that both answer alike. Answers how many are refused. */
static size_t prepare(const struct call *call)
{
    size_t i, refused = 0;

    state = 301;
    memset(inputs, 0, sizeof inputs);
    for (i = 0; i < call->count; i++) {
        static struct cells one, other;

        call->input(&inputs[i]);
        memset(&one, 0, sizeof one);
        memset(&other, 0, sizeof other);
        call->library(&inputs[i], &one, 1);
        call->second(&inputs[i], &other, 1);
        if (memcmp(&one, &other, sizeof one) != 0) {
            printf("calls: %s: the two answer differently\n", call->name);
            exit(1);
        }
        refused += one.refusal != 0;
    }
    return refused;
}

/* A call's best times so far. */
struct times {
    double library, second;
    size_t refused;
};

static double lesser(double one, double other)
{
    return one < other ? one : other;
}

static void sweep(const struct call *call, struct times *best)
{
    int round;

    best->refused = prepare(call);
    for (round = 0; round < ROUNDS; round++) {
        best->library = lesser(best->library, nanoseconds(call->library, call->count));
        best->second = lesser(best->second, nanoseconds(call->second, call->count));
    }
}

static bool report(const struct call *call, const struct times *best)
{
    bool good = best->library <= BOUND * best->second;

    printf("| hz_%-14s | %6zu | %7zu | %7.1f | %7.1f | %5.2f | %-4s |\n", call->name, call->count, best->refused,
           best->library, best->second, best->library / best->second, good ? "" : "over");
    return good;
}

int main(void)
{
    struct times best[COUNT];
    bool good = true;
    size_t i;
    int turn;

    for (i = 0; i < COUNT; i++)
        best[i] = (struct times){1e18, 1e18, 0};
    for (turn = 0; turn < SWEEPS; turn++)
        for (i = 0; i < COUNT; i++)
            sweep(&calls[i], &best[i]);
    printf("ns a call, best of %d rounds; at most %.1f times the second program's\n\n", SWEEPS * ROUNDS, BOUND);
    printf("| call              | inputs | refused | library |  second | ratio |      |\n");
    printf("|-------------------|-------:|--------:|--------:|--------:|------:|------|\n");
    for (i = 0; i < COUNT; i++)
        good = report(&calls[i], &best[i]) && good;
    return good ? 0 : 1;
}
