/* Known answers of documents 01 and 02 that are run: each on a line, to be the lines of known.out. */
#include "honigzange.h"

#include <inttypes.h>
#include <stdio.h>
#include <string.h>

/* The first covered moment, and the first past the cover. */
#define START INT64_C(441763210)
#define END INT64_C(2145916837)
#define ROOM 32

/* 2^32 s, which no elapsed time may reach in size. */
#define LIMIT INT64_C(4294967296)

static int64_t list[ROOM];

/* A moment as the program prints it. */
static void print_wall(int64_t sec, uint64_t ticks)
{
    uint8_t face[HZ_WALL_ROOM];
    size_t written;
    uint8_t refusal = hz_write_wall(sec, ticks, face, sizeof face, &written);

    if (refusal != 0) {
        printf("refused %d\n", refusal);
    } else {
        printf("%.*s\n", (int)written, (const char *)face);
    }
}

/* A line of the program. */
static void print_answer(const char *line)
{
    int64_t sec;
    uint64_t ticks;
    uint8_t refusal = hz_read_ascii((const uint8_t *)line, strlen(line), &sec, &ticks);

    if (refusal != 0) {
        printf("refused %d\n", refusal);
    } else {
        print_wall(sec, ticks);
    }
}

/* How many moments a tag names in all covered time; the list has them. */
static size_t print_count(const char *tag)
{
    uint64_t ticks;
    size_t count;
    bool more;
    uint8_t refusal = hz_list_ascii((const uint8_t *)tag, strlen(tag), START, 0, END, 0, list, ROOM, &ticks,
                                    &count, &more);

    if (refusal != 0) {
        printf("%s: refused %d\n", tag, refusal);
        return 0;
    }
    printf("%s: %zu moments at tick %" PRIu64 "%s\n", tag, count, ticks, more ? ", more" : ", no more");
    return count;
}

/* The rate from nothing elapsed to so much onboard and on the ground. */
static void print_rate(int64_t onboard, uint64_t onboard_ticks, int64_t ground, uint64_t ground_ticks)
{
    int64_t num;
    uint64_t den;
    uint8_t refusal = hz_rate(0, 0, 0, 0, onboard, onboard_ticks, ground, ground_ticks, &num, &den);

    if (refusal != 0) {
        printf("refused %d\n", refusal);
    } else {
        printf("%" PRId64 "/%" PRIu64 "\n", num, den);
    }
}

static void print_extreme(const char *what, hz_extreme extreme)
{
    printf(", %s %" PRId64 "/%" PRIu64 " at %" PRIu64, what, extreme.num, extreme.den, extreme.place);
}

static void print_report(const hz_pair *run, size_t len)
{
    hz_report report;
    uint8_t refusal = hz_rates(run, len, &report);

    printf("%d: 7: %" PRIu64 ", 10: %" PRIu64 ", 11: %" PRIu64 ", %" PRIu64 " rates", refusal, report.range,
           report.not_elapsed, report.off_grid, report.rates);
    print_extreme("smallest", report.smallest);
    print_extreme("largest", report.largest);
    printf("\n");
}

static void print_octets(const char *what, const uint8_t *octets, size_t len)
{
    size_t i;

    printf("%s", what);
    for (i = 0; i < len; i++) {
        printf(" %02X", octets[i]);
    }
}

/* A piece, with so many rows: its rows, and what is pending then. */
static void print_piece(hz_receiver *receiver, const uint8_t *piece, size_t len, size_t room)
{
    hz_row rows[2];
    size_t count, i;
    uint8_t refusal = hz_receive(receiver, piece, len, rows, room, &count);

    print_octets("piece", piece, len);
    printf(", room %zu: %d", room, refusal);
    for (i = 0; refusal == 0 && i < count; i++) {
        printf(", row %" PRIu64 " %" PRId64 " %" PRIu64, rows[i].refusal, rows[i].sec, rows[i].ticks);
    }
    print_octets(", pending", receiver->pending, receiver->count);
    printf("\n");
}

/* A T-field of days and milliseconds, cut in its millisecond, which the rest makes one too large; and the same start
 * again behind it. */
static void print_receiver(void)
{
    static const uint8_t day[] = {0x54, 0x2D, 0x05, 0x26}, rest[] = {0x5F, 0xE8, 0x54, 0x2D, 0x05, 0x26};
    hz_receiver receiver;

    printf("made: %d, ", hz_receiver_make(0x1C, INT64_MAX, &receiver));
    printf("%d, ", hz_receiver_make(0x2C, INT64_C(1) << 40, &receiver));
    printf("%d\n", hz_receiver_make(0x40, 0, &receiver));
    print_piece(&receiver, day, sizeof day, 0);
    print_piece(&receiver, rest, sizeof rest, 0);
    print_piece(&receiver, rest, sizeof rest, 1);
}

int main(void)
{
    static const hz_pair run[] = {{0, 0, 0, 0}, {1, 0, 2, 0}, {1, 0, 2, 0}, {2, 0, 4, 0}, {5, 0, 4, 0}, {4, 0, 6, 0}};
    size_t count, i;

    count = print_count("::60");
    if (count > 0) {
        printf("first %" PRId64 ", last %" PRId64 "\n", list[0], list[count - 1]);
    }
    count = print_count("-366T23:59:60");
    for (i = 0; i < count; i++) {
        printf("%" PRId64 " ", list[i]);
        print_wall(list[i], 0);
    }
    count = print_count("-02-29");
    for (i = 0; i < count; i++) {
        print_wall(list[i], 0);
    }
    print_answer("2016-12-31T23:59:60");
    print_answer("2015-12-31T23:59:60");
    /* invalid before off the grid; too long before nothing elapsed; and the size is the exact absolute value */
    print_rate(0, HZ_TICKS, 1, 1);
    print_rate(LIMIT, 0, 0, 0);
    print_rate(-LIMIT, HZ_GRID, 1, 0);
    print_rate(-LIMIT, 0, 1, 0);
    print_rate(1, 0, -LIMIT, 0);
    print_rate(1, 0, -LIMIT, HZ_GRID);
    print_rate(0, 1, 1, 0);
    print_rate(0, 0, 1, 0);
    print_report(run, 6);
    print_report(run, 1);
    print_receiver();
    return 0;
}
