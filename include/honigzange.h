/*
 * Honigzange: CCSDS 301.0-B-4 time codes on one exact scale.
 *
 * RECORD. A moment is a record: a signed count of whole TAI seconds from 1958-01-01T00:00:00 TAI,
 * from -2^41 to 2^41 - 1, and ticks from 0 to HZ_TICKS - 1. Anything else is an invalid record.
 *
 * SPAN. A distance is a span: signed seconds from -2^42 to 2^42 - 1, and ticks in the same range as a
 * record's, never negative. Minus half a second is -1 s and 2048000000000000 ticks.
 *
 * COVER. The table of leap seconds covers the UTC days 1972-01-01 to 2025-12-31 and no others. A call that
 * needs UTC outside them, as a clock of 2026 does, is refused with HZ_UNCOVERED: nothing is extrapolated.
 *
 * DAY. A day is a signed number: day 0 is 1958-01-01, and a day before it is negative. The calendar is
 * Gregorian throughout, years 1 to 9999: day HZ_FIRST_DAY is 0001-01-01, day HZ_LAST_DAY 9999-12-31.
 *
 * UTC READING. A day number and a second of that day, from 0 at 00:00:00 to 86399 at 23:59:59, or to 86400
 * at 23:59:60 on a day that ends with a leap second. In the cover, 27 days do.
 *
 * ANSWERS. Each function answers 0 when it is done, or one of the refusal numbers below. Results are
 * written only with the answer 0. After a refusal every byte and cell lent to the call is unchanged.
 *
 * POINTERS. Behind a pointer to lent bytes, len bytes can be read, and behind one to a run of pairs len pairs;
 * behind one to lent room, room bytes, or room elements of a list, or room rows, can be written. A list, a run
 * and rows are aligned for their elements. Such a pointer may be NULL only when its len or room is 0. A pointer to
 * a result or to a receiver is never NULL and is aligned for its type. No two result cells, receivers or lent
 * buffers of a call overlap. A bool is true or false. No other argument is bounded: every bit pattern is allowed,
 * in a receiver too.
 *
 * TEXT. Text is bytes and a length, read and written. It is NOT terminated by a NUL: a written text ends after
 * as many bytes as the call says, and a NUL that is read is a character like any other, and refused.
 *
 * STATE. No function allocates, keeps a pointer, or keeps state: what a receiver holds between two calls is in the
 * caller's own struct. All may be called from any threads at once, as long as no two calls share memory that one of
 * them writes. The library needs no other library.
 */
#ifndef HONIGZANGE_H
#define HONIGZANGE_H

#include <stdbool.h>
#include <stddef.h>
#include <stdint.h>

#ifdef __cplusplus
extern "C" {
#endif

/* Ticks of a second: 2^-24 s is 244140625 ticks, and a picosecond is 4096. */
#define HZ_TICKS UINT64_C(4096000000000000)

/* Ticks of 2^-24 s: a record is on the grid of rates where its ticks are a multiple of them. */
#define HZ_GRID UINT64_C(244140625)

/* The first day number of the calendar: 0001-01-01. */
#define HZ_FIRST_DAY (-INT64_C(714779))

/* The last day number of the calendar: 9999-12-31. */
#define HZ_LAST_DAY INT64_C(2937279)

/* The table of leap seconds covers the TAI seconds from this one on: 1972-01-01T00:00:00 UTC. */
#define HZ_COVER_START INT64_C(441763210)

/* The table of leap seconds covers the TAI seconds before this one: the first after 2025-12-31 UTC. */
#define HZ_COVER_END INT64_C(2145916837)

/* Bytes that hold any binary code, its P octet in front: at most 8 for CUC, 12 for CDS and 14 for CCS. */
#define HZ_BINARY_ROOM 14

/* Bytes that hold any ASCII code. There is no NUL among them. */
#define HZ_ASCII_ROOM 33

/* Bytes that hold what hz_write_wall writes. There is no NUL among them. */
#define HZ_WALL_ROOM 24

/* Refusal numbers. */
#define HZ_SHORT 1          /* binary bytes run out, or ASCII is empty */
#define HZ_IDENTIFICATION 2 /* identification 000, 011, 110 or 111; in a listing any but CUC */
#define HZ_UNSUPPORTED 3    /* extension bit set, CDS 11, CCS 7, or a writer's digits over 12 */
#define HZ_FIELD 4          /* a field, BCD digit, character or length breaks its rule */
#define HZ_UNCOVERED 5      /* UTC day outside the table of leap seconds */
#define HZ_NO_SUCH_SECOND 6 /* a second 60 (or millisecond from 86400000) on a day without one */
#define HZ_RANGE 7          /* invalid record, span, epoch, state; sum, day, elapsed out of range; target can't hold it */
#define HZ_ROOM 8           /* output too short */
#define HZ_WINDOW 9         /* window's end before its start */
#define HZ_NOT_ELAPSED 10   /* ground elapsed zero or negative */
#define HZ_OFF_GRID 11      /* a record off the grid of 2^-24 s */

/*
 * A short text for an answer: "done" for 0, and for a refusal number what it means. It is a constant string,
 * made by the preprocessor, so that nothing is linked. The number is evaluated more than once.
 *
 *     if (refusal != 0)
 *         printf("refused %d: %s\n", refusal, HZ_MEANING(refusal));
 */
#define HZ_MEANING(number)                                                         \
    ((number) == 0                   ? "done"                                      \
     : (number) == HZ_SHORT          ? "input too short"                           \
     : (number) == HZ_IDENTIFICATION ? "no time code of this identification"       \
     : (number) == HZ_UNSUPPORTED    ? "unsupported variation of the code"         \
     : (number) == HZ_FIELD          ? "a field breaks its rule"                   \
     : (number) == HZ_UNCOVERED      ? "UTC day outside the table of leap seconds" \
     : (number) == HZ_NO_SUCH_SECOND ? "no leap second on this day"                \
     : (number) == HZ_RANGE          ? "out of range"                              \
     : (number) == HZ_ROOM           ? "output too short"                          \
     : (number) == HZ_WINDOW         ? "window's end before its start"             \
     : (number) == HZ_NOT_ELAPSED    ? "ground elapsed time is not positive"       \
     : (number) == HZ_OFF_GRID       ? "a record off the grid of 2^-24 s"          \
                                     : "no refusal number")

/*
 * The span a - b, exactly: hz_shift of b by it gives a.
 *
 * a_sec, a_ticks and b_sec, b_ticks: two records.
 * sec, ticks: the span is written here.
 *
 * 0         done. The difference of two valid records is always a valid span.
 * HZ_RANGE  one of the records is invalid.
 */
uint8_t hz_difference(int64_t a_sec, uint64_t a_ticks, int64_t b_sec, uint64_t b_ticks,
                      int64_t *sec, uint64_t *ticks);

/*
 * The record that lies a span after another (before it, when the span is negative), exactly.
 *
 * sec, ticks: the record.
 * by_sec, by_ticks: the span.
 * to_sec, to_ticks: the shifted record is written here.
 *
 * 0         done.
 * HZ_RANGE  the record or the span is invalid, or the sum's seconds are not from -2^41 to 2^41 - 1.
 */
uint8_t hz_shift(int64_t sec, uint64_t ticks, int64_t by_sec, uint64_t by_ticks,
                 int64_t *to_sec, uint64_t *to_ticks);

/*
 * The day number of a date: 0 for 1958-01-01. hz_date_of_day of it gives the date.
 *
 * year: 1 to 9999.
 * month: 1 to 12.
 * day: 1 to the length of that month in that year, 28 to 31.
 * number: the day number is written here, HZ_FIRST_DAY to HZ_LAST_DAY.
 *
 * 0         done.
 * HZ_FIELD  there is no such date: the year, the month or the day is outside its range, as in 1900-02-29.
 */
uint8_t hz_day_of_date(uint64_t year, uint64_t month, uint64_t day, int64_t *number);

/*
 * The date of a day number. hz_day_of_date of it gives the number.
 *
 * number: HZ_FIRST_DAY to HZ_LAST_DAY.
 * year, month, day: the date is written here, year 1 to 9999, month 1 to 12, day 1 to 31.
 *
 * 0         done.
 * HZ_RANGE  the number is below HZ_FIRST_DAY or above HZ_LAST_DAY.
 */
uint8_t hz_date_of_day(int64_t number, uint64_t *year, uint64_t *month, uint64_t *day);

/*
 * The day number of a day of a year: 0 for day 1 of 1958. hz_ordinal_of_day of it gives the year and day.
 *
 * year: 1 to 9999.
 * day: 1, which is 1 January, to 365, or to 366 in a leap year.
 * number: the day number is written here, HZ_FIRST_DAY to HZ_LAST_DAY.
 *
 * 0         done.
 * HZ_FIELD  there is no such day: the year or the day is outside its range, as day 366 of 2023.
 */
uint8_t hz_day_of_ordinal(uint64_t year, uint64_t day, int64_t *number);

/*
 * The year and day of the year of a day number. hz_day_of_ordinal of them gives the number.
 *
 * number: HZ_FIRST_DAY to HZ_LAST_DAY.
 * year, day: the year, 1 to 9999, and the day of the year, 1 to 366, are written here.
 *
 * 0         done.
 * HZ_RANGE  the number is below HZ_FIRST_DAY or above HZ_LAST_DAY.
 */
uint8_t hz_ordinal_of_day(int64_t number, uint64_t *year, uint64_t *day);

/*
 * The UTC reading of a TAI second. Each covered TAI second is exactly one reading, and hz_second_of_utc of
 * that gives the second: 23:59:60 is a second of its own day, and the next midnight is one second later.
 *
 * sec: whole TAI seconds from 1958-01-01T00:00:00 TAI, as in a record. Covered are 441763210, which is
 *      1972-01-01T00:00:00 UTC, to 2145916836, which is 2025-12-31T23:59:59 UTC.
 * day: the number of the UTC day is written here, 5113 to 24836.
 * second_of_day: the second of that day is written here, 0 to 86399, and 86400 at 23:59:60.
 * offset: TAI minus UTC on that day, in seconds, is written here, 10 to 37. A leap second still has the
 *         offset of the day that it ends. Always sec = day * 86400 + second_of_day + offset.
 *
 * 0             done.
 * HZ_UNCOVERED  the second is not covered, however far outside it is.
 */
uint8_t hz_utc_of_second(int64_t sec, int64_t *day, uint64_t *second_of_day, int64_t *offset);

/*
 * The TAI second of a UTC reading: day * 86400 + second_of_day + TAI minus UTC on that day.
 * hz_utc_of_second of it gives the reading.
 *
 * day: the number of a covered UTC day, 5113 (1972-01-01) to 24836 (2025-12-31).
 * second_of_day: 0 to 86399; and 86400, which is 23:59:60, on a day that ends with a leap second.
 * sec: whole TAI seconds from 1958-01-01T00:00:00 TAI are written here, 441763210 to 2145916836.
 *
 * 0                  done.
 *
 * Refused with the first of these that holds:
 * HZ_FIELD           second_of_day is over 86400.
 * HZ_UNCOVERED       the day is not covered, however far outside it is.
 * HZ_NO_SUCH_SECOND  second_of_day is 86400 and the day does not end with a leap second.
 */
uint8_t hz_second_of_utc(int64_t day, uint64_t second_of_day, int64_t *sec);

/*
 * BINARY CODES. A code is a T-field, and a P octet that says how it is laid out. The P octet stands in front
 * of the T-field or is known to both ends. Its bit 0 is the most significant:
 *
 *   bit  CUC                   CDS                   CCS
 *   0    0                     0                     0
 *   1-3  001 epoch 1958        100                   101
 *        010 caller's epoch
 *   4    coarse octets         0 epoch 1958          0 month and day
 *        less one, bits 4-5    1 caller's epoch      1 day of the year
 *   5                          0 day in 16 bits      two-digit segments
 *                              1 day in 24 bits      of the fraction,
 *   6-7  fine octets, 0 to 3   00 no remainder       bits 5-7: 0 to 6
 *                              01 microsecond        (7 refused)
 *                              10 picosecond
 *                              11 refused
 *
 * CUC counts TAI, the others show UTC. Counts are big-endian. The T-field:
 *
 *   CUC    Whole seconds from the epoch in the coarse octets; the fraction in the fine octets, in units of
 *          1/256, 1/256^2 or 1/256^3 s. 1958 is 1958-01-01T00:00:00 TAI. The caller's epoch is a count of
 *          whole TAI seconds from there, from -2^40 to 2^40 - 1.
 *   CDS    UTC days from the epoch; millisecond of the day (32 bits, 0 to 86400999, from 86400000 on in a
 *          leap second); remainder, the microsecond (16 bits, 0 to 999) or the picosecond (32 bits, 0 to
 *          999999999) of the millisecond. 1958 is 1958-01-01. The caller's epoch is a day number, from
 *          -2^24 to 2^24 - 1.
 *   CCS    Two decimal digits an octet: year (2 octets, 0001 to 9999); month and day, or day of the year (2
 *          octets, the first digit 0); hour; minute; second (60 at 23:59 alone); then two digits of the
 *          fraction a segment.
 *
 * 2016-12-31T23:59:60 UTC, which is TAI second 1861920036, with the P octet in front:
 *
 *   CUC    1C 6E FA A5 24
 *   CDS    40 54 2D 05 26 5C 00
 *   CCS    50 20 16 12 31 23 59 60 by month and day, 58 20 16 03 66 23 59 60 by day of the year
 *
 *     uint8_t code[HZ_BINARY_ROOM], refusal;
 *     size_t written, used;
 *     int64_t sec;
 *     uint64_t ticks;
 *     refusal = hz_write_binary(1861920036, 0, true, 0x50, 0, code, sizeof code, &written);
 *     if (refusal == 0)
 *         refusal = hz_read_binary(code, written, true, 0, 0, &sec, &ticks, &used);
 *
 * Now refusal is 0, written and used are 8, sec is 1861920036 and ticks 0.
 */

/*
 * The moment of a binary code. hz_write_binary of it, with the same P octet and epoch, gives the same bytes.
 *
 * bytes, len: the code is at their start, and any bytes may follow it. NULL only when len is 0.
 * front: true, the P octet is the first byte; false, it is p and the T-field begins at the first byte.
 * p: the P octet. Ignored when front is true.
 * epoch: whole TAI seconds (CUC 010) or a day number (CDS with bit 4 set). Ignored, whatever it is, by a
 *        code that does not use it.
 * sec, ticks: the record is written here.
 * used: the number of bytes that are the code's, the P octet in front among them, is written here: the
 *       unread part is the last len - used bytes. After a refusal nothing is written, and all are unread.
 *
 * 0                  done.
 *
 * Refused with the first of these that holds:
 * HZ_SHORT           front is true and len is 0.
 * HZ_IDENTIFICATION  bits 1-3 of the P octet are 000, 011, 110 or 111.
 * HZ_UNSUPPORTED     its bit 0 is set; it is CDS with 11 in bits 6-7; it is CCS with 111 in bits 5-7.
 * HZ_RANGE           the code uses the epoch, and that is outside its range.
 * HZ_SHORT           the bytes end before the T-field does.
 * HZ_FIELD           a field of CDS or CCS is outside its range, a digit of CCS is over 9, or there is no
 *                    such date in the calendar. CUC has no such rule.
 * HZ_UNCOVERED       the UTC day of CDS or CCS is outside the table of leap seconds.
 * HZ_NO_SUCH_SECOND  second 60 in CCS, or a millisecond from 86400000 on in CDS, on a UTC day that does not
 *                    end with a leap second.
 */
uint8_t hz_read_binary(const uint8_t *bytes, size_t len, bool front, uint8_t p, int64_t epoch,
                       int64_t *sec, uint64_t *ticks, size_t *used);

/*
 * The binary code of a moment. What the code can't hold of the fraction is dropped, never rounded up: the
 * code shows the latest time it can that is not after the moment, and hz_read_binary of it gives that time.
 *
 * sec, ticks: the record.
 * front: true, the P octet is written before the T-field; false, the T-field alone is.
 * p: the P octet.
 * epoch: whole TAI seconds (CUC 010) or a day number (CDS with bit 4 set). Ignored, whatever it is, by a
 *        code that does not use it.
 * out, room: the code is written to the first bytes; later ones stay as they were. NULL only when room is
 *            0. A room of HZ_BINARY_ROOM is always enough.
 * written: the number of bytes of the code, the P octet in front among them, is written here.
 *
 * 0                  done.
 *
 * Refused with the first of these that holds:
 * HZ_RANGE           the record is invalid.
 * HZ_IDENTIFICATION  bits 1-3 of the P octet are 000, 011, 110 or 111.
 * HZ_UNSUPPORTED     its bit 0 is set; it is CDS with 11 in bits 6-7; it is CCS with 111 in bits 5-7.
 * HZ_RANGE           the code uses the epoch, and that is outside its range.
 * HZ_UNCOVERED       the code is CDS or CCS, and the moment is outside the table of leap seconds.
 * HZ_RANGE           the moment's whole seconds (CUC) or UTC day (CDS) are before the epoch, or too far
 *                    after it for the octets of their field.
 * HZ_ROOM            room is less than the bytes of the code. Nothing of it is written.
 */
uint8_t hz_write_binary(int64_t sec, uint64_t ticks, bool front, uint8_t p, int64_t epoch,
                        uint8_t *out, size_t room, size_t *written);

/*
 * RECEIVER. A serial port hands bytes over as they come, and cuts codes anywhere. A receiver has one P octet and one
 * epoch, and takes the T-fields that arrive one after another, without a P octet, in pieces of any length, 0 among
 * them. It holds the octets of an unfinished T-field until the others come. However the bytes are cut, the answers
 * are those of hz_read_binary, the P octet apart, on all of them: one T-field, and then the one behind it.
 *
 * Each T-field that a piece completes has a row: its record, or why it is refused, which is HZ_FIELD, HZ_UNCOVERED or
 * HZ_NO_SUCH_SECOND. A refused T-field uses up its length as a good one does. A receiver does not look for the start of
 * a T-field: when the link has lost a byte, another one is made where a T-field begins.
 *
 *     static const uint8_t first[] = {0x54, 0x2D, 0x05, 0x26}, second[] = {0x5C, 0x00, 0x54, 0x2D};
 *     hz_receiver receiver;
 *     hz_row rows[4];
 *     size_t count;
 *     uint8_t refusal = hz_receiver_make(0x40, 0, &receiver);
 *     if (refusal == 0)
 *         refusal = hz_receive(&receiver, first, sizeof first, rows, 4, &count);
 *     if (refusal == 0)
 *         refusal = hz_receive(&receiver, second, sizeof second, rows, 4, &count);
 *
 * The first piece completes nothing, and its count is 0. Now refusal is 0, count 1, rows[0] is 0, 1861920036 and 0,
 * which is 2016-12-31T23:59:60, and 54 2D are pending.
 */

/* A receiver: 22 octets, without gap or pointer. It may be copied and kept anywhere, and a copy goes on as it does. */
typedef struct hz_receiver {
    uint8_t p;           /* the P octet */
    uint8_t epoch[8];    /* the epoch, signed, big-endian */
    uint8_t count;       /* how many octets are pending */
    uint8_t pending[12]; /* these octets, and zeros behind them */
} hz_receiver;

/* What a T-field says: refusal 0 and a record, or a refusal number, and 0 for the others. */
typedef struct hz_row {
    uint64_t refusal;
    int64_t sec;
    uint64_t ticks;
} hz_row;

/*
 * A receiver that holds nothing yet.
 *
 * p: the P octet of all its T-fields.
 * epoch: whole TAI seconds (CUC 010) or a day number (CDS with bit 4 set). Ignored, whatever it is, by a
 *        code that does not use it.
 * receiver: the receiver is written here.
 *
 * 0                  done.
 *
 * Refused with the first of these that holds:
 * HZ_IDENTIFICATION  bits 1-3 of the P octet are 000, 011, 110 or 111.
 * HZ_UNSUPPORTED     its bit 0 is set; it is CDS with 11 in bits 6-7; it is CCS with 111 in bits 5-7.
 * HZ_RANGE           the code uses the epoch, and that is outside its range.
 */
uint8_t hz_receiver_make(uint8_t p, int64_t epoch, hz_receiver *receiver);

/*
 * A piece for a receiver: a row for each T-field that it completes, in their order. The bytes left at the end stay
 * pending.
 *
 * receiver: the receiver. What is then pending is written here.
 * piece, len: the bytes that follow those of the calls before. NULL only when len is 0.
 * rows, room: the rows are written to the first of these; later ones stay as they were. NULL only when room is 0.
 *             T-fields of w octets take (pending + len) / w rows: a room of len is always enough, and none is
 *             asked for where no T-field is completed.
 * count: the number of rows is written here.
 *
 * 0                  done, also when every row is a refusal.
 *
 * Refused with the first of these that holds. The receiver is as it was, and no byte of the piece is taken:
 * HZ_IDENTIFICATION  hz_receiver_make would refuse the receiver's P octet so.
 * HZ_UNSUPPORTED     likewise.
 * HZ_RANGE           its epoch likewise; as many octets are pending as a T-field has, or more; or an octet behind
 *                    those pending is not 0. No call leaves such a receiver.
 * HZ_ROOM            room is less than the T-fields that the piece completes.
 */
uint8_t hz_receive(hz_receiver *receiver, const uint8_t *piece, size_t len,
                   hz_row *rows, size_t room, size_t *count);

/*
 * ASCII CODES. A code is the whole text and shows UTC, with Z or without:
 *
 *   date        YYYY-MM-DD, which is form A, or YYYY-DDD with the day of the year, which is form B
 *   T           capital
 *   time        hh:mm:ss, second 60 at 23:59 alone
 *   fraction    a period and 1 to 12 digits, or nothing
 *   Z           capital, or nothing
 *
 * Nothing stands before, between or after these, not even a blank, a line feed or a NUL. The longest code has
 * HZ_ASCII_ROOM bytes. 1988-018T17:20:43.123456Z and 1988-01-18T17:20:43.123456 are TAI second 948216067 and
 * 505675776000000 ticks; 2016-12-31T23:59:60 is TAI second 1861920036.
 *
 *     static const char text[] = "1988-018T17:20:43.123456Z";
 *     uint8_t face[HZ_WALL_ROOM], refusal;
 *     size_t written;
 *     int64_t sec;
 *     uint64_t ticks;
 *     refusal = hz_read_ascii((const uint8_t *)text, sizeof text - 1, &sec, &ticks);
 *     if (refusal == 0)
 *         refusal = hz_write_wall(sec, ticks, face, sizeof face, &written);
 *     if (refusal == 0)
 *         printf("%.*s\n", (int)written, (const char *)face);
 *
 * This prints 1988-01-18T17:20:43.123Z. The text's own NUL is not given to the call: sizeof text - 1.
 */

/*
 * The moment of an ASCII code. hz_write_ascii of it, in the form, with the digits and with the Z of the text,
 * gives the same bytes.
 *
 * text, len: the code and nothing else. NULL only when len is 0.
 * sec, ticks: the record is written here.
 *
 * 0                  done.
 *
 * Refused with the first of these that holds:
 * HZ_SHORT           len is 0.
 * HZ_FIELD           the text has another shape, as with 13 digits of the fraction or with a byte too many;
 *                    there is no such date in the years 0001 to 9999; the hour is over 23, the minute over
 *                    59, or the second over 59 and not 60 at 23:59.
 * HZ_UNCOVERED       the UTC day is outside the table of leap seconds.
 * HZ_NO_SUCH_SECOND  second 60 on a UTC day that does not end with a leap second.
 */
uint8_t hz_read_ascii(const uint8_t *text, size_t len, int64_t *sec, uint64_t *ticks);

/*
 * The ASCII code of a moment. What the digits can't hold of the fraction is dropped, never rounded up: the
 * code shows the latest time it can that is not after the moment, and hz_read_ascii of it gives that time.
 *
 * sec, ticks: the record.
 * day_of_year: false, the date is written as YYYY-MM-DD; true, as YYYY-DDD.
 * digits: digits of the fraction, 0 to 12. With 0 there is no period either.
 * z: whether Z is written at the end.
 * out, room: the code is written to the first bytes, without a NUL; later ones stay as they were. NULL only
 *            when room is 0. A room of HZ_ASCII_ROOM is always enough.
 * written: the number of bytes of the code is written here.
 *
 * 0               done.
 *
 * Refused with the first of these that holds:
 * HZ_RANGE        the record is invalid.
 * HZ_UNSUPPORTED  digits is over 12.
 * HZ_UNCOVERED    the moment is outside the table of leap seconds.
 * HZ_ROOM         room is less than the bytes of the code. Nothing of it is written.
 */
uint8_t hz_write_ascii(int64_t sec, uint64_t ticks, bool day_of_year, uint8_t digits, bool z,
                       uint8_t *out, size_t room, size_t *written);

/*
 * The text of a moment for a wall clock: its ASCII code in the default setting, which is form A with 3 digits
 * and Z, as 2016-12-31T23:59:60.000Z.
 *
 * sec, ticks: the record.
 * out, room: the text is written to the first HZ_WALL_ROOM bytes, without a NUL; later ones stay as they
 *            were. NULL only when room is 0.
 * written: the number of bytes of the text, HZ_WALL_ROOM, is written here.
 *
 * 0             done.
 *
 * Refused with the first of these that holds:
 * HZ_RANGE      the record is invalid.
 * HZ_UNCOVERED  the moment is outside the table of leap seconds.
 * HZ_ROOM       room is less than HZ_WALL_ROOM. Nothing is written.
 */
uint8_t hz_write_wall(int64_t sec, uint64_t ticks, uint8_t *out, size_t room, size_t *written);

/*
 * SHORTENED TAGS. A tag is what a link sends of a code when the rest is plain from the context: it names every
 * moment that it may stand for. A call lists those that lie in a window.
 *
 *   window      Its start is taken and its end is not. Equal ends make an empty window.
 *   list        The seconds of the named moments of the window, ascending, each once, from the first on: all
 *               of them, or as many as there is room for. None up to the last one listed is skipped. All
 *               moments that a tag names have the same ticks, which are told once, beside the list.
 *   more        Whether the window has named moments beyond those listed. They are listed by a call whose
 *               window starts one tick after the last one listed.
 *   room        Any will do. All moments of a window have room in to_sec - from_sec + 1 elements, and those of
 *               a CUC tag of c coarse octets in (to_sec - from_sec) / 256^c + 1.
 *
 * A good tag that names nothing in the window is not refused: the answer is 0, the ticks are the tag's, the
 * count is 0 and more is false. So it is with a tag's own date outside the table of leap seconds, as 1971, and
 * with a second 60 on a day without one.
 *
 * A CUC tag is a P octet, in front or known to both ends, and exactly its T-field: a counter of c coarse octets
 * that wraps. It names epoch + T + k * 256^c seconds for every whole k from 0 on, T taken with its fraction.
 *
 * An ASCII tag is one run of neighbouring subfields of an ASCII code:
 *
 *   calendar    YYYY-MM-DD, -MM-DD, --DD, YYYY-MM, -MM, YYYY, YYYY-DDD or -DDD
 *   time        begins at hh, with : at mm, with :: at ss or with ::. at the first digit of the fraction, and
 *               ends after any of its subfields, of which each of up to 12 digits is one; then Z, or nothing
 *   both        a calendar that ends with its day, T, and a time that begins at hh
 *
 * Subfields dropped on the left are free, and their separators stay. Subfields dropped on the right have their
 * lowest value, and their separators go. So a calendar alone means 00:00:00, and a time alone leaves the date
 * free. Second 60 stands in a tag whose minute, if there, is 59 and whose hour, if there, is 23.
 *
 *   ::60             the leap seconds; 27 are covered, the first TAI second 457488010, the last 1861920036
 *   -366T23:59:60    the leap seconds that end leap years, 1972, 1976, 2008 and 2016
 *   -02-29           the first second of every 29 February, 14 times
 *   12               12:00:00 of every day
 *   ::.5             the middle of every second
 *
 *     int64_t leaps[16];
 *     uint64_t ticks;
 *     size_t count;
 *     bool more;
 *     uint8_t refusal = hz_list_ascii((const uint8_t *)"::60", 4, HZ_COVER_START, 0, HZ_COVER_END, 0,
 *                                     leaps, sizeof leaps / sizeof *leaps, &ticks, &count, &more);
 *
 * Now refusal is 0, ticks 0, count 16, leaps[0] 457488010, and more is true. For the others the call is made
 * again from leaps[15] and 1 tick on.
 */

/*
 * The moments of a window that a CUC tag names.
 *
 * tag, len: the tag and nothing else. NULL only when len is 0.
 * front: true, the P octet is the first byte; false, it is p and all bytes are the T-field.
 * p: the P octet. Ignored when front is true.
 * epoch: whole TAI seconds (CUC 010). Ignored, whatever it is, by a tag that does not use it.
 * from_sec, from_ticks and to_sec, to_ticks: two records, the window's start and its end.
 * list, room: the seconds are written to the first elements; later ones stay as they were. NULL only when room
 *             is 0: then nothing is listed, and more tells whether the window has any.
 * ticks: the tick count of all moments that the tag names is written here, also when nothing is listed.
 * count: the number listed is written here, room or the number of named moments in the window, whichever is
 *        less.
 * more: whether the window has named moments beyond those listed is written here.
 *
 * 0                  done.
 *
 * Refused with the first of these that holds:
 * HZ_SHORT           front is true and len is 0.
 * HZ_IDENTIFICATION  bits 1-3 of the P octet are neither 001 nor 010: other codes have no such tags.
 * HZ_UNSUPPORTED     its bit 0 is set.
 * HZ_RANGE           the tag uses the epoch, and that is outside its range.
 * HZ_SHORT           the bytes end before the T-field does.
 * HZ_FIELD           the T-field ends before the bytes do.
 * HZ_RANGE           one of the records is invalid.
 * HZ_WINDOW          the window's end is before its start.
 */
uint8_t hz_list_cuc(const uint8_t *tag, size_t len, bool front, uint8_t p, int64_t epoch,
                    int64_t from_sec, uint64_t from_ticks, int64_t to_sec, uint64_t to_ticks,
                    int64_t *list, size_t room, uint64_t *ticks, size_t *count, bool *more);

/*
 * The moments of a window that an ASCII tag names. The window is inside the cover: it starts at HZ_COVER_START
 * or later, which is 1972-01-01T00:00:00 UTC, and ends at HZ_COVER_END and 0 ticks or earlier, which is the
 * first moment after 2025-12-31.
 *
 * tag, len: the tag and nothing else. NULL only when len is 0.
 * from_sec, from_ticks and to_sec, to_ticks: two records, the window's start and its end.
 * list, room: the seconds are written to the first elements; later ones stay as they were. NULL only when room
 *             is 0: then nothing is listed, and more tells whether the window has any.
 * ticks: the tick count of all moments that the tag names is written here, also when nothing is listed.
 * count: the number listed is written here, room or the number of named moments in the window, whichever is
 *        less.
 * more: whether the window has named moments beyond those listed is written here.
 *
 * 0             done.
 *
 * Refused with the first of these that holds:
 * HZ_SHORT      len is 0.
 * HZ_FIELD      the tag has another shape, as with 13 digits of the fraction, with T beside a calendar that
 *               does not end with its day, or with Z after a calendar; no year has such a month and day, as
 *               -02-30; the tag's own year, from 0001 to 9999, has no such date, as 2023-366; the hour is over
 *               23, the minute over 59, or the second over 59 and not 60 as said above.
 * HZ_RANGE      one of the records is invalid.
 * HZ_WINDOW     the window's end is before its start.
 * HZ_UNCOVERED  the window starts before the cover or ends after it, be it empty or not.
 */
uint8_t hz_list_ascii(const uint8_t *tag, size_t len,
                      int64_t from_sec, uint64_t from_ticks, int64_t to_sec, uint64_t to_ticks,
                      int64_t *list, size_t room, uint64_t *ticks, size_t *count, bool *more);

/*
 * DRIFT. A pair is an onboard record, and the ground record that it came with. From one pair to another the
 * elapsed time, onboard and on the ground, is the second record less the first, and the rate is onboard elapsed
 * over ground elapsed: 1/1 for an onboard clock that runs as the ground's does, less for one that loses. A pair
 * of a run and the next one are a neighbouring two.
 *
 * A rate is exact, a signed numerator over a positive denominator in lowest terms, and 0 is 0/1. It is never
 * rounded: a plot that wants a floating-point number divides the two itself, once it has seen that there is a
 * rate, which is where hz_rate answers 0, or where den of an extreme is not 0.
 *
 * Rates are of records on the grid of 2^-24 s, whose ticks are multiples of HZ_GRID, and of elapsed times less
 * than 2^32 s in size. The size is the exact absolute value. All times that CUC can show are on the grid; CDS,
 * CCS and ASCII show others too, which are refused and never taken down to the grid.
 *
 *     hz_pair run[3] = {{0, 0, 0, 0}, {1, 0, 2, 0}, {2, HZ_TICKS / 2, 3, 0}};
 *     hz_report report;
 *     int64_t num;
 *     uint64_t den;
 *     uint8_t refusal = hz_rate(0, 0, 0, 0, 1, 0, 2, 0, &num, &den);
 *     if (refusal == 0)
 *         refusal = hz_rates(run, 3, &report);
 *
 * Now refusal is 0, num is 1 and den 2; report has 2 rates, the smallest 1/2 at place 0 and the largest 3/2 at
 * place 1.
 */

/* A pair of records. */
typedef struct hz_pair {
    int64_t onboard_sec;
    uint64_t onboard_ticks;
    int64_t ground_sec;
    uint64_t ground_ticks;
} hz_pair;

/* A rate of a run, and its first place among all neighbouring twos, from 0. A denominator 0 is no rate. */
typedef struct hz_extreme {
    int64_t num;
    uint64_t den;
    uint64_t place;
} hz_extreme;

/* What the neighbouring twos of a run come to: each is counted once. */
typedef struct hz_report {
    uint64_t rates;       /* those that have a rate */
    uint64_t range;       /* those that hz_rate refuses with HZ_RANGE, for either cause */
    uint64_t not_elapsed; /* .. with HZ_NOT_ELAPSED */
    uint64_t off_grid;    /* .. with HZ_OFF_GRID */
    hz_extreme smallest;
    hz_extreme largest;
} hz_report;

/*
 * The rate from one pair to another.
 *
 * onboard_sec, onboard_ticks, ground_sec, ground_ticks: the first pair.
 * then_onboard_sec, then_onboard_ticks, then_ground_sec, then_ground_ticks: the second pair.
 * num, den: the rate is written here, in lowest terms. den is positive.
 *
 * 0               done.
 *
 * Refused with the first of these that holds:
 * HZ_RANGE        one of the four records is invalid.
 * HZ_OFF_GRID     one of the four records is off the grid.
 * HZ_RANGE        onboard or ground elapsed is 2^32 s or more in size.
 * HZ_NOT_ELAPSED  ground elapsed is zero or negative.
 */
uint8_t hz_rate(int64_t onboard_sec, uint64_t onboard_ticks, int64_t ground_sec, uint64_t ground_ticks,
                int64_t then_onboard_sec, uint64_t then_onboard_ticks,
                int64_t then_ground_sec, uint64_t then_ground_ticks,
                int64_t *num, uint64_t *den);

/*
 * The rates between each pair of a run and the next: how many there are, how many are refused with which number,
 * and the smallest and the largest. No neighbouring two is skipped: the four counts add up to their number, which
 * is len - 1, or 0 for an empty run. Comparison is exact. The run is read once.
 *
 * run, len: the pairs, in their order. NULL only when len is 0. A run of no pair or of one has no twos.
 * report: the report is written here, all of it. Where there is no rate, num, den and place of the smallest and
 *         of the largest are 0. A place counts all neighbouring twos before it, refused ones too: the rate at
 *         place i is that from run[i] to run[i + 1].
 *
 * 0  done. A run is never refused.
 */
uint8_t hz_rates(const hz_pair *run, size_t len, hz_report *report);

#ifdef __cplusplus
}
#endif

#endif
