/*
 * A small display: it shows what a link delivers, code by code, and what a code that can't be shown is refused
 * for. A serial port cuts codes anywhere, and a receiver puts them together again. Of a counter that has wrapped, and
 * of a tag that was shortened, it shows every moment that they can mean around the time at which they came. Of an
 * onboard clock it shows the drift. What it prints is display.out.
 */
#include <honigzange.h>

#include <inttypes.h>
#include <stdio.h>

#define PAGE 4
#define HOUR 3600
#define DAY 86400

/* Bytes of the link: binary codes end to end, each behind its P octet, or one ASCII code. */
struct frame {
    const char *what;
    bool ascii;
    const char *bytes;
    size_t len;
};

/* As many moments as the display has lines for. */
struct page {
    int64_t secs[PAGE];
    uint64_t ticks;
    size_t count;
    bool more;
};

#define BINARY(what, bytes) {what, false, bytes, sizeof bytes - 1}
#define ASCII(what, bytes) {what, true, bytes, sizeof bytes - 1}

static const struct frame frames[] = {
    BINARY("CUC, a leap second", "\x1C\x6E\xFA\xA5\x24"),
    BINARY("CDS, the same", "\x40\x54\x2D\x05\x26\x5C\x00"),
    BINARY("CCS, by day of year", "\x58\x20\x16\x03\x66\x23\x59\x60"),
    ASCII("ASCII A", "2016-12-31T23:59:60"),
    ASCII("ASCII B, microseconds", "1988-018T17:20:43.123456Z"),
    BINARY("CUC, one fine octet", "\x1D\x38\x84\xA1\x03\x1F"),
    BINARY("CUC, then CCS", "\x1C\x6E\xFA\xA5\x24\x50\x20\x17\x01\x01\x00\x00\x00"),
    BINARY("CUC, then half a CDS", "\x1C\x6E\xFA\xA5\x24\x40\x54\x2D\x05"),
    ASCII("ASCII, empty", ""),
    BINARY("agency code", "\x60\x6E\xFA\xA5\x24"),
    BINARY("CUC, second P octet", "\x9C\x00\x6E\xFA\xA5\x24"),
    BINARY("CUC, epoch unknown", "\x2C\x00\x00\x00\x3C"),
    BINARY("CCS, month 13", "\x50\x20\x16\x13\x31\x23\x59\x60"),
    BINARY("CCS, a digit over 9", "\x50\x20\x1A\x12\x31\x23\x59\x60"),
    ASCII("ASCII, a blank behind", "2016-12-31T23:59:60 "),
    ASCII("ASCII, 2026", "2026-01-01T00:00:00Z"),
    ASCII("ASCII, no such second", "2015-12-31T23:59:60Z"),
};

/* No epoch is known on this link, and a number outside its range says so: a code that asks for one is refused. */
#define NO_EPOCH INT64_MAX

/* What a serial port handed over: T-fields of CDS, days and milliseconds, as they came. */
static const struct frame pieces[] = {
    BINARY("", "\x54\x2D\x05\x26\x58"),
    BINARY("", "\x18\x54\x2D"),
    BINARY("", ""),
    BINARY("", "\x05\x26\x5C\x00\x54\x2D\x05\x26\x5F\xE8\x54\x2E\x00\x00"),
    BINARY("", "\x00\x00"),
};

static const struct frame counter = BINARY("counter A5 24", "\x14\xA5\x24");
static const struct frame leaps = ASCII("tag ::60", "::60");
static const struct frame minute = ASCII("tag :30", ":30");
static const struct frame nothing = ASCII("tag -02-29", "-02-29");
static const struct frame damaged = ASCII("tag -02-30", "-02-30");

/* What an onboard clock said, in CUC with three fine octets, and the ground's time at which that came. */
static const struct contact {
    struct frame onboard, ground;
} contacts[] = {
    {BINARY("", "\x1F\x6E\xFA\xA5\x22\x00\x00\x00"), ASCII("", "2016-12-31T23:59:58Z")},
    {BINARY("", "\x1F\x6E\xFA\xA5\x24\x00\x00\x02"), ASCII("", "2016-12-31T23:59:60Z")},
    {BINARY("", "\x1F\x6E\xFA\xA5\x24\x00\x00\x02"), ASCII("", "2016-12-31T23:59:60Z")},
    {BINARY("", "\x1F\x6E\xFA\xA5\x26\x00\x00\x00"), ASCII("", "2017-01-01T00:00:01Z")},
    {BINARY("", "\x1F\x6E\xFA\xA5\x27\x00\x00\x00"), ASCII("", "2017-01-01T00:00:02.001Z")},
    {BINARY("", "\x1F\x6E\xFA\xA5\x28\x00\x00\x00"), ASCII("", "2017-01-01T00:00:03Z")},
    {BINARY("", "\x1F\x6E\xFA\xA5\x2A\x00\x00\x00"), ASCII("", "2017-01-01T00:00:05Z")},
};

#define CONTACTS (sizeof contacts / sizeof *contacts)

static void show_refusal(uint8_t refusal)
{
    printf("refused %d: %s\n", refusal, HZ_MEANING(refusal));
}

/* A moment as the wall shows it. The text has no NUL at its end. */
static void show_moment(int64_t sec, uint64_t ticks)
{
    uint8_t face[HZ_WALL_ROOM];
    size_t written;
    uint8_t refusal = hz_write_wall(sec, ticks, face, sizeof face, &written);

    if (refusal != 0) {
        show_refusal(refusal);
    } else {
        printf("%.*s\n", (int)written, (const char *)face);
    }
}

/* The moment of the first code of a frame, and the frame after it. */
static uint8_t read_code(struct frame *frame, int64_t *sec, uint64_t *ticks)
{
    const uint8_t *bytes = (const uint8_t *)frame->bytes;
    size_t used = frame->len;
    uint8_t refusal = frame->ascii ? hz_read_ascii(bytes, frame->len, sec, ticks)
                                   : hz_read_binary(bytes, frame->len, true, 0, NO_EPOCH, sec, ticks, &used);

    frame->bytes += used;
    frame->len -= used;
    return refusal;
}

/* Each code of a frame. Where a refused code ends nobody knows, so what follows it is dropped. */
static void show_frame(struct frame frame)
{
    do {
        int64_t sec;
        uint64_t ticks;
        uint8_t refusal = read_code(&frame, &sec, &ticks);

        printf("  %-22s ", frame.what);
        if (refusal != 0) {
            show_refusal(refusal);
            return;
        }
        show_moment(sec, ticks);
    } while (frame.len > 0);
}

/* Each piece that the port handed over, what is pending after it, and the T-fields that it completed. */
static void show_port(void)
{
    hz_receiver receiver;
    hz_row rows[PAGE];
    size_t seen = 0, count, i, row;
    uint8_t refusal = hz_receiver_make(0x40, NO_EPOCH, &receiver);

    for (i = 0; refusal == 0 && i < sizeof pieces / sizeof *pieces; i++) {
        refusal = hz_receive(&receiver, (const uint8_t *)pieces[i].bytes, pieces[i].len, rows, PAGE, &count);
        if (refusal != 0) {
            break;
        }
        printf("  %zu bytes, %d pending\n", pieces[i].len, receiver.count);
        for (row = 0; row < count; row++) {
            printf("  %22zu ", seen++);
            if (rows[row].refusal != 0) {
                show_refusal((uint8_t)rows[row].refusal);
            } else {
                show_moment(rows[row].sec, rows[row].ticks);
            }
        }
    }
    if (refusal != 0) {
        printf("  ");
        show_refusal(refusal);
    }
}

/* The first moments that a tag names from one moment on and before a second. */
static uint8_t list(const struct frame *tag, int64_t from_sec, uint64_t from_ticks, int64_t to_sec,
                    struct page *page)
{
    const uint8_t *bytes = (const uint8_t *)tag->bytes;

    if (tag->ascii) {
        return hz_list_ascii(bytes, tag->len, from_sec, from_ticks, to_sec, 0, page->secs, PAGE, &page->ticks,
                             &page->count, &page->more);
    }
    return hz_list_cuc(bytes, tag->len, true, 0, NO_EPOCH, from_sec, from_ticks, to_sec, 0, page->secs, PAGE,
                       &page->ticks, &page->count, &page->more);
}

/* A page, each moment with its whole seconds from the time at which the tag came. */
static void show_page(const struct page *page, int64_t about)
{
    size_t i;

    if (page->count == 0) {
        printf("  none\n");
    }
    for (i = 0; i < page->count; i++) {
        int64_t sec;
        uint64_t part;

        if (hz_difference(page->secs[i], page->ticks, about, 0, &sec, &part) == 0) {
            printf("  %+22" PRId64 " ", sec);
            show_moment(page->secs[i], page->ticks);
        }
    }
}

/* Every moment that a tag names within so many seconds, page by page. */
static void show_tag(const struct frame *tag, int64_t about, int64_t reach)
{
    int64_t from_sec = about - reach, to_sec = about + reach;
    uint64_t from_ticks = 0;
    struct page page;

    printf("%s, %" PRId64 " s around ", tag->what, reach);
    show_moment(about, 0);
    do {
        uint8_t refusal = list(tag, from_sec, from_ticks, to_sec, &page);

        if (refusal != 0) {
            printf("  ");
            show_refusal(refusal);
            return;
        }
        show_page(&page, about);
        if (page.more) {
            /* The next page begins one tick after the last moment of this one. */
            from_sec = page.secs[page.count - 1];
            from_ticks = page.ticks + 1;
            printf("  more\n");
        }
    } while (page.more);
}

static void show_extreme(const char *what, hz_extreme extreme)
{
    if (extreme.den == 0) {
        printf("  %s: no rate\n", what);
    } else {
        printf("  %s: %" PRId64 "/%" PRIu64 " at %" PRIu64 "\n", what, extreme.num, extreme.den, extreme.place);
    }
}

/* The rate from each contact to the next, and what they come to. */
static void show_drift(void)
{
    hz_pair run[CONTACTS];
    hz_report report;
    size_t i;

    for (i = 0; i < CONTACTS; i++) {
        struct contact contact = contacts[i];
        uint8_t refusal = read_code(&contact.onboard, &run[i].onboard_sec, &run[i].onboard_ticks);

        if (refusal == 0) {
            refusal = read_code(&contact.ground, &run[i].ground_sec, &run[i].ground_ticks);
        }
        if (refusal != 0) {
            printf("  ");
            show_refusal(refusal);
            return;
        }
    }
    for (i = 0; i + 1 < CONTACTS; i++) {
        const hz_pair a = run[i], b = run[i + 1];
        int64_t num;
        uint64_t den;
        uint8_t refusal =
            hz_rate(a.onboard_sec, a.onboard_ticks, a.ground_sec, a.ground_ticks, b.onboard_sec, b.onboard_ticks,
                    b.ground_sec, b.ground_ticks, &num, &den);

        printf("  %22zu ", i);
        if (refusal != 0) {
            show_refusal(refusal);
        } else {
            printf("%" PRId64 "/%" PRIu64 "\n", num, den);
        }
    }
    hz_rates(run, CONTACTS, &report);
    printf("  rates: %" PRIu64 ", refused 7: %" PRIu64 ", 10: %" PRIu64 ", 11: %" PRIu64 "\n", report.rates,
           report.range, report.not_elapsed, report.off_grid);
    show_extreme("smallest", report.smallest);
    show_extreme("largest", report.largest);
}

int main(void)
{
    /* 2016-12-31T23:50:00 UTC, ten minutes before a leap second. */
    const int64_t about = 1861919436;
    size_t i;
    int number;

    printf("link\n");
    for (i = 0; i < sizeof frames / sizeof *frames; i++) {
        show_frame(frames[i]);
    }
    printf("serial port\n");
    show_port();
    show_tag(&counter, about, 2 * DAY);
    show_tag(&leaps, about, 1000 * DAY);
    show_tag(&minute, about, 2 * HOUR);
    show_tag(&nothing, about, DAY);
    show_tag(&damaged, about, DAY);
    show_tag(&counter, about, -DAY);
    printf("drift\n");
    show_drift();
    printf("refusals\n");
    for (number = HZ_SHORT; number <= HZ_OFF_GRID; number++) {
        printf("  %d %s\n", number, HZ_MEANING(number));
    }
    return 0;
}
