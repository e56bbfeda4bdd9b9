//! A small display: it shows what a link delivers, code by code, and what a code that can't be shown is refused
//! for. A serial port cuts codes anywhere, and a receiver puts them together again. Of a counter that has wrapped, and
//! of a tag that was shortened, it shows every moment that they can mean around the time at which they came. Of an
//! onboard clock it shows the drift. It prints what `examples/c/display.c` does, which is `display.out` there.

#![forbid(unsafe_code)]

use honigzange::{
    difference, list_ascii, list_cuc, rate, rates, read_ascii, read_binary, shift, write_wall,
    Extreme, Pair, Preamble, Receiver, Record, Refusal, Row, Span, WALL_ROOM,
};

const PAGE: usize = 4;
const HOUR: i64 = 3_600;
const DAY: i64 = 86_400;

/// No epoch is known on this link, and a number outside its range says so: a code that asks for one is refused.
const NO_EPOCH: i64 = i64::MAX;

/// 2016-12-31T23:50:00 UTC, ten minutes before a leap second.
const ABOUT: Record = Record {
    sec: 1_861_919_436,
    ticks: 0,
};

/// Bytes of the link: binary codes end to end, each behind its P octet, or one ASCII code.
#[derive(Clone, Copy)]
enum Frame {
    Binary(&'static [u8]),
    Ascii(&'static [u8]),
}

use Frame::{Ascii, Binary};

#[rustfmt::skip]
const FRAMES: [(&str, Frame); 17] = [
    ("CUC, a leap second", Binary(b"\x1C\x6E\xFA\xA5\x24")),
    ("CDS, the same", Binary(b"\x40\x54\x2D\x05\x26\x5C\x00")),
    ("CCS, by day of year", Binary(b"\x58\x20\x16\x03\x66\x23\x59\x60")),
    ("ASCII A", Ascii(b"2016-12-31T23:59:60")),
    ("ASCII B, microseconds", Ascii(b"1988-018T17:20:43.123456Z")),
    ("CUC, one fine octet", Binary(b"\x1D\x38\x84\xA1\x03\x1F")),
    ("CUC, then CCS", Binary(b"\x1C\x6E\xFA\xA5\x24\x50\x20\x17\x01\x01\x00\x00\x00")),
    ("CUC, then half a CDS", Binary(b"\x1C\x6E\xFA\xA5\x24\x40\x54\x2D\x05")),
    ("ASCII, empty", Ascii(b"")),
    ("agency code", Binary(b"\x60\x6E\xFA\xA5\x24")),
    ("CUC, second P octet", Binary(b"\x9C\x00\x6E\xFA\xA5\x24")),
    ("CUC, epoch unknown", Binary(b"\x2C\x00\x00\x00\x3C")),
    ("CCS, month 13", Binary(b"\x50\x20\x16\x13\x31\x23\x59\x60")),
    ("CCS, a digit over 9", Binary(b"\x50\x20\x1A\x12\x31\x23\x59\x60")),
    ("ASCII, a blank behind", Ascii(b"2016-12-31T23:59:60 ")),
    ("ASCII, 2026", Ascii(b"2026-01-01T00:00:00Z")),
    ("ASCII, no such second", Ascii(b"2015-12-31T23:59:60Z")),
];

/// What a serial port handed over: T-fields of CDS, days and milliseconds, as they came.
const PIECES: [&[u8]; 5] = [
    b"\x54\x2D\x05\x26\x58",
    b"\x18\x54\x2D",
    b"",
    b"\x05\x26\x5C\x00\x54\x2D\x05\x26\x5F\xE8\x54\x2E\x00\x00",
    b"\x00\x00",
];

const COUNTER: (&str, Frame) = ("counter A5 24", Binary(b"\x14\xA5\x24"));
const LEAPS: (&str, Frame) = ("tag ::60", Ascii(b"::60"));
const MINUTE: (&str, Frame) = ("tag :30", Ascii(b":30"));
const NOTHING: (&str, Frame) = ("tag -02-29", Ascii(b"-02-29"));
const DAMAGED: (&str, Frame) = ("tag -02-30", Ascii(b"-02-30"));

/// What an onboard clock said, in CUC with three fine octets, and the ground's time at which that came.
#[rustfmt::skip]
const CONTACTS: [(&[u8], &[u8]); 7] = [
    (b"\x1F\x6E\xFA\xA5\x22\x00\x00\x00", b"2016-12-31T23:59:58Z"),
    (b"\x1F\x6E\xFA\xA5\x24\x00\x00\x02", b"2016-12-31T23:59:60Z"),
    (b"\x1F\x6E\xFA\xA5\x24\x00\x00\x02", b"2016-12-31T23:59:60Z"),
    (b"\x1F\x6E\xFA\xA5\x26\x00\x00\x00", b"2017-01-01T00:00:01Z"),
    (b"\x1F\x6E\xFA\xA5\x27\x00\x00\x00", b"2017-01-01T00:00:02.001Z"),
    (b"\x1F\x6E\xFA\xA5\x28\x00\x00\x00", b"2017-01-01T00:00:03Z"),
    (b"\x1F\x6E\xFA\xA5\x2A\x00\x00\x00", b"2017-01-01T00:00:05Z"),
];

/// A moment as the wall shows it, or why it can't be shown.
fn face(moment: Result<Record, Refusal>) -> String {
    let mut text = [0; WALL_ROOM];
    match moment.and_then(|record| write_wall(record, &mut text)) {
        Ok(written) => String::from_utf8_lossy(&text[..written]).into_owned(),
        Err(refusal) => refusal.to_string(),
    }
}

/// Each code of a frame. Where a refused code ends nobody knows, so what follows it is dropped.
fn show_frame(what: &str, frame: Frame) {
    let show = |moment| println!("  {what:22} {}", face(moment));
    match frame {
        Ascii(text) => show(read_ascii(text)),
        Binary(bytes) => {
            let mut unread = bytes;
            while !unread.is_empty() {
                let read = read_binary(unread, Preamble::Front, NO_EPOCH);
                show(read.map(|(record, _)| record));
                unread = read.map_or(&[], |(_, rest)| rest);
            }
        }
    }
}

/// Each piece that the port handed over, what is pending after it, and the T-fields that it completed.
fn show_port() -> Result<(), Refusal> {
    let mut receiver = Receiver::new(0x40, NO_EPOCH)?;
    let (mut rows, mut seen) = ([Row::EMPTY; PAGE], 0);
    for piece in PIECES {
        let (next, answered) = receiver.feed(piece, &mut rows)?;
        println!("  {} bytes, {} pending", piece.len(), next.pending().len());
        for row in answered {
            println!("  {seen:22} {}", face(row.answer()));
            seen += 1;
        }
        receiver = next;
    }
    Ok(())
}

/// A page of moments that a tag names from `from` on and before `to`, and whether there are more.
fn page(tag: Frame, from: Record, to: Record) -> Result<(Vec<Record>, bool), Refusal> {
    let mut secs = [0; PAGE];
    let listing = match tag {
        Ascii(text) => list_ascii(text, from, to, &mut secs)?,
        Binary(bytes) => list_cuc(bytes, Preamble::Front, NO_EPOCH, from, to, &mut secs)?,
    };
    let record = |&sec| Record {
        sec,
        ticks: listing.ticks,
    };
    Ok((
        secs[..listing.count].iter().map(record).collect(),
        listing.more,
    ))
}

/// Every moment that a tag names within so many seconds of [`ABOUT`], page by page.
fn show_moments(tag: Frame, reach: i64) -> Result<(), Refusal> {
    let by = |sec, ticks| Span { sec, ticks };
    let mut from = shift(ABOUT, by(-reach, 0))?;
    let to = shift(ABOUT, by(reach, 0))?;
    loop {
        let (moments, more) = page(tag, from, to)?;
        if moments.is_empty() {
            println!("  none");
        }
        for &moment in &moments {
            println!(
                "  {:+22} {}",
                difference(moment, ABOUT)?.sec,
                face(Ok(moment))
            );
        }
        match moments.last() {
            // The next page begins one tick after the last moment of this one.
            Some(&last) if more => from = shift(last, by(0, 1))?,
            _ => return Ok(()),
        }
        println!("  more");
    }
}

fn show_tag((what, tag): (&str, Frame), reach: i64) {
    println!("{what}, {reach} s around {}", face(Ok(ABOUT)));
    if let Err(refusal) = show_moments(tag, reach) {
        println!("  {refusal}");
    }
}

/// The rate from each contact to the next, and what they come to.
fn show_drift() -> Result<(), Refusal> {
    let pair = |(onboard, ground)| {
        Ok(Pair {
            onboard: read_binary(onboard, Preamble::Front, NO_EPOCH)?.0,
            ground: read_ascii(ground)?,
        })
    };
    let run = CONTACTS.into_iter().map(pair);
    let run = run.collect::<Result<Vec<_>, Refusal>>()?;
    for (place, two) in run.windows(2).enumerate() {
        match rate(two[0], two[1]) {
            Ok(rate) => println!("  {place:22} {rate}"),
            Err(refusal) => println!("  {place:22} {refusal}"),
        }
    }
    let report = rates(&run);
    println!(
        "  rates: {}, refused 7: {}, 10: {}, 11: {}",
        report.rates, report.range, report.not_elapsed, report.off_grid
    );
    for (what, extreme) in [("smallest", report.smallest), ("largest", report.largest)] {
        match extreme {
            Some(Extreme { rate, place }) => println!("  {what}: {rate} at {place}"),
            None => println!("  {what}: no rate"),
        }
    }
    Ok(())
}

fn main() {
    println!("link");
    for (what, frame) in FRAMES {
        show_frame(what, frame);
    }
    println!("serial port");
    if let Err(refusal) = show_port() {
        println!("  {refusal}");
    }
    show_tag(COUNTER, 2 * DAY);
    show_tag(LEAPS, 1000 * DAY);
    show_tag(MINUTE, 2 * HOUR);
    show_tag(NOTHING, DAY);
    show_tag(DAMAGED, DAY);
    show_tag(COUNTER, -DAY);
    println!("drift");
    if let Err(refusal) = show_drift() {
        println!("  {refusal}");
    }
    println!("refusals");
    for refusal in (1..=u8::MAX).map_while(Refusal::from_number) {
        println!("  {} {}", refusal.number(), refusal.meaning());
    }
}
