//! Reading binary codes, compared with the second program.

mod common;

use common::codes::{
    any_bytes, ccs_field, cds_field, damage, date, edge_epochs, leaps, length, octets, octets_of,
    octets_of_text, uses_epoch, Answers, Kind, Moments, Tallies, FIRST_DAY, KNOWN, LAST_DAY,
};
use common::{after, fewer};
use honigzange::{raw, Preamble, Record, Refusal};
use second::binary;
use second::rng::Rng;
use std::ptr::null;

mod c {
    extern "C" {
        pub fn hz_read_binary(
            bytes: *const u8,
            len: usize,
            front: bool,
            p: u8,
            epoch: i64,
            sec: *mut i64,
            ticks: *mut u64,
            used: *mut usize,
        ) -> u8;
    }
}

/// What reading can answer. Without bytes no code is named.
const ALL: Answers = Answers {
    cuc: &[0, 1, 3, 7],
    cds: &[0, 1, 3, 4, 5, 6, 7],
    ccs: &[0, 1, 3, 4, 5, 6],
    none: &[1, 2],
};

/// One input to both programs: the number and the result cells in C's terms, and the answer and the place
/// of the unread part in Rust's. With the P octet in front, the one given besides is any.
fn compare(rng: &mut Rng, tallies: &mut Tallies, bytes: &[u8], preamble: Preamble, epoch: i64) {
    let (front, p, named) = match preamble {
        Preamble::Front => (true, rng.u64() as u8, bytes.first().copied()),
        Preamble::Given(p) => (false, p, Some(p)),
    };
    let expected = binary::read(bytes, front, p, epoch);
    tallies.of(named).count(&expected);
    let before = (rng.i64(), rng.u64(), rng.u64() as usize);
    let (mut sec, mut ticks, mut used) = before;
    let number = raw::read_binary(bytes, front, p, epoch, &mut sec, &mut ticks, &mut used);
    let found = (number, (sec, ticks, used));
    let wanted = after(expected, before);
    assert_eq!(found, wanted, "{bytes:02X?}, {preamble:02X?}, {epoch}");
    let found = honigzange::read_binary(bytes, preamble, epoch)
        .map(|(record, unread)| (record.sec, record.ticks, unread.as_ptr_range()))
        .map_err(Refusal::number);
    let wanted = expected.map(|(sec, ticks, used)| (sec, ticks, bytes[used..].as_ptr_range()));
    assert_eq!(found, wanted, "{bytes:02X?}, {preamble:02X?}, {epoch}");
}

/// The P octet apart from the T-field, and in front of it.
fn compare_both(rng: &mut Rng, tallies: &mut Tallies, p: u8, t: &[u8], epoch: i64) {
    compare(rng, tallies, t, Preamble::Given(p), epoch);
    let bytes = [&[p], t].concat();
    compare(rng, tallies, &bytes, Preamble::Front, epoch);
}

#[test]
fn every_p_octet_with_edge_epochs() {
    let (mut rng, mut tallies, moments) = (Rng::new(41), Tallies::default(), Moments::new());
    for p in 0..=u8::MAX {
        for epoch in edge_epochs() {
            let count = rng.below(16) as usize;
            let bytes = any_bytes(&mut rng, count);
            compare_both(&mut rng, &mut tallies, p, &bytes, epoch);
            compare_both(&mut rng, &mut tallies, p, &[], epoch);
            if binary::octets(p).is_ok() {
                let (t, _) = moments.t_field(&mut rng, p);
                compare_both(&mut rng, &mut tallies, p, &t, epoch);
            }
        }
    }
    let answers = Answers { none: &[2], ..ALL };
    tallies.assert_each_over(30, answers);
}

/// Bytes that follow are not the code's, and bytes that are lacking are short.
#[test]
fn every_cut_of_every_layout() {
    let (mut rng, mut tallies, moments) = (Rng::new(42), Tallies::default(), Moments::new());
    for p in octets() {
        for _ in 0..fewer(500) {
            let (t, epoch) = moments.t_field(&mut rng, p);
            let bytes = [&[p], &t[..], &any_bytes(&mut rng, 3)].concat();
            for cut in 0..=bytes.len() {
                let bytes = &bytes[..cut];
                compare(&mut rng, &mut tallies, bytes, Preamble::Front, epoch);
                let t = bytes.get(1..).unwrap_or_default();
                compare(&mut rng, &mut tallies, t, Preamble::Given(p), epoch);
            }
        }
    }
    let answers = Answers {
        cuc: &[0, 1, 7],
        cds: &[0, 1, 4, 5, 6, 7],
        ccs: &[0, 1, 4, 5, 6],
        none: &[1],
    };
    tallies.assert_each_over(1_000, answers);
}

/// Each octet of a code, the P octet too, takes every value.
#[test]
fn every_change_of_one_octet() {
    let (mut rng, mut tallies, moments) = (Rng::new(43), Tallies::default(), Moments::new());
    for p in octets() {
        for _ in 0..8 {
            let (t, epoch) = moments.t_field(&mut rng, p);
            let mut bytes = [&[p], &t[..], &any_bytes(&mut rng, 2)].concat();
            for place in 0..=length(p) {
                let kept = bytes[place];
                for octet in 0..=u8::MAX {
                    bytes[place] = octet;
                    compare(&mut rng, &mut tallies, &bytes, Preamble::Front, epoch);
                }
                bytes[place] = kept;
            }
        }
    }
    let answers = Answers { none: &[2], ..ALL };
    tallies.assert_each_over(500, answers);
}

/// Mostly good codes; some damaged, cut, followed by bytes, or of any P octet.
#[test]
fn codes_of_all_kinds() {
    let (mut rng, mut tallies, moments) = (Rng::new(44), Tallies::default(), Moments::new());
    let good = octets();
    for _ in 0..fewer(2_000_000) {
        let p = rng.pick(&good);
        let (t, epoch) = moments.t_field(&mut rng, p);
        let mut bytes = [&[p], &t[..]].concat();
        if rng.once_in(2) {
            damage(&mut rng, &mut bytes);
        }
        let (cut, more) = (rng.below(16) as usize, rng.below(4) as usize);
        if rng.once_in(8) {
            bytes.truncate(cut);
        }
        bytes.extend(any_bytes(&mut rng, more));
        if rng.once_in(2) || bytes.is_empty() {
            compare(&mut rng, &mut tallies, &bytes, Preamble::Front, epoch);
        } else {
            let p = Preamble::Given(bytes[0]);
            compare(&mut rng, &mut tallies, &bytes[1..], p, epoch);
        }
    }
    tallies.assert_each_over(3_000, ALL);
}

#[test]
fn any_bytes_at_all() {
    let (mut rng, mut tallies) = (Rng::new(45), Tallies::default());
    for _ in 0..fewer(1_000_000) {
        let (count, p) = (rng.below(20) as usize, rng.u64() as u8);
        let bytes = any_bytes(&mut rng, count);
        let epoch = rng.i64() >> rng.below(64);
        compare(&mut rng, &mut tallies, &bytes, Preamble::Front, epoch);
        compare(&mut rng, &mut tallies, &bytes, Preamble::Given(p), epoch);
    }
    tallies
        .cuc
        .assert_each_over(&[(0, 100_000), (1, 30_000), (3, 200_000), (7, 30_000)]);
    tallies.none.assert_each_over(&[(1, 40_000), (2, 900_000)]);
}

/// Days, milliseconds and remainders around every value at which a rule changes, in every combination.
#[test]
fn edge_fields_of_cds() {
    let (mut rng, mut tallies) = (Rng::new(46), Tallies::default());
    let milliseconds = [
        0,
        999,
        43_200_000,
        86_399_999,
        86_400_000,
        86_400_999,
        86_401_000,
        1 << 31,
        u64::MAX,
    ];
    let remainders = [0, 999, 1_000, 999_999_999, 1_000_000_000, 1 << 31, u64::MAX];
    let ends = [FIRST_DAY - 1, FIRST_DAY, LAST_DAY, LAST_DAY + 1, 0, 65_535];
    let long = leaps().into_iter().flat_map(|(_, day)| [day, day + 1]);
    let days = long.chain(ends).collect::<Vec<_>>();
    for p in octets_of(Kind::Cds) {
        for &day in &days {
            let any = rng.between(0, 65_535);
            let count = if uses_epoch(p) { any } else { day };
            for millisecond in milliseconds {
                for remainder in remainders {
                    let t = cds_field(p, count, millisecond, remainder);
                    compare_both(&mut rng, &mut tallies, p, &t, day - count);
                }
            }
        }
    }
    tallies
        .cds
        .assert_each_over(&[(0, 30_000), (4, 50_000), (5, 2_000), (6, 6_000)]);
}

/// The farthest days that epoch and field make: none is taken for a covered one.
#[test]
fn far_days_of_cds() {
    let (mut rng, mut tallies) = (Rng::new(47), Tallies::default());
    let ends = [-1 << 24, (1 << 24) - 1, LAST_DAY, LAST_DAY + 1];
    let below = [FIRST_DAY - 65_536, FIRST_DAY - 65_535];
    for p in octets_of(Kind::Cds).into_iter().filter(|&p| uses_epoch(p)) {
        for epoch in ends.into_iter().chain(below) {
            for count in [0, 1, 65_535, 65_536, (1 << 24) - 1] {
                for millisecond in [0, 86_400_000] {
                    let t = cds_field(p, count, millisecond, 0);
                    compare_both(&mut rng, &mut tallies, p, &t, epoch);
                }
            }
        }
    }
    tallies.cds.assert_each_over(&[(0, 40), (5, 600), (6, 40)]);
}

/// Both forms of the date in every edge year, good and bad.
#[test]
fn every_date_of_edge_years_in_ccs() {
    let (mut rng, mut tallies) = (Rng::new(48), Tallies::default());
    let layouts = octets_of(Kind::Ccs);
    let times = ["000000", "120000", "235959", "235960", "240000"];
    let covered = [1972, 1973, 2000, 2015, 2016, 2025];
    for year in covered
        .into_iter()
        .chain([0, 1, 1900, 1971, 2026, 2100, 9999])
    {
        for date in 0..=9_999 {
            for form in [0, 8] {
                let p = rng.pick(&layouts) & !8 | form;
                let text = format!("{year:04}{date:04}{}", rng.pick(&times));
                let t = ccs_field(&mut rng, p, &text);
                compare_both(&mut rng, &mut tallies, p, &t, 0);
            }
        }
    }
    tallies
        .ccs
        .assert_each_over(&[(0, 5_000), (4, 500_000), (5, 6_000), (6, 1_500)]);
}

/// All six digits of the time, on the last day of a year in the cover or outside it.
#[test]
fn every_time_in_ccs() {
    let (mut rng, mut tallies) = (Rng::new(49), Tallies::default());
    let layouts = octets_of(Kind::Ccs);
    let days = [21_549, LAST_DAY, LAST_DAY + 365];
    for time in 0..1_000_000 {
        let (p, day) = (rng.pick(&layouts), rng.pick(&days));
        let t = ccs_field(&mut rng, p, &format!("{}{time:06}", date(p, day)));
        compare_both(&mut rng, &mut tallies, p, &t, 0);
    }
    tallies
        .ccs
        .assert_each_over(&[(0, 100_000), (4, 1_800_000), (5, 50_000)]);
}

/// Around midnight on every day of the cover, and on some outside it.
#[test]
fn last_seconds_of_every_day_in_ccs() {
    let (mut rng, mut tallies) = (Rng::new(50), Tallies::default());
    let layouts = octets_of(Kind::Ccs);
    for day in FIRST_DAY - 400..=LAST_DAY + 400 {
        for time in ["000000", "235959", "235960", "235961", "235860", "225960"] {
            let p = rng.pick(&layouts);
            let t = ccs_field(&mut rng, p, &[&date(p, day), time].concat());
            compare_both(&mut rng, &mut tallies, p, &t, 0);
        }
    }
    let (days, outside, leaps) = (19_724, 800, 27);
    tallies.ccs.assert_exactly(&[
        (0, 2 * (2 * days + leaps)),
        (4, 2 * 3 * (days + outside)),
        (5, 2 * 3 * outside),
        (6, 2 * (days - leaps)),
    ]);
}

#[test]
fn no_bytes_at_null() {
    let mut rng = Rng::new(51);
    for p in 0..=u8::MAX {
        for (front, epoch) in [(true, 0), (false, 0), (false, i64::MAX)] {
            let before = (rng.i64(), rng.u64(), rng.u64() as usize);
            let (mut sec, mut ticks, mut used) = before;
            // SAFETY: a pointer to no bytes may be null, and the cells are three.
            let number = unsafe {
                c::hz_read_binary(null(), 0, front, p, epoch, &mut sec, &mut ticks, &mut used)
            };
            let wanted = after(binary::read(&[], front, p, epoch), before);
            assert_eq!((number, (sec, ticks, used)), wanted, "{p:02X}");
        }
    }
}

/// Document 01's own moments, in every code.
#[test]
fn known_codes() {
    for (text, sec, ticks) in KNOWN {
        let bytes = octets_of_text(text);
        let found = honigzange::read_binary(&bytes, Preamble::Front, i64::MIN);
        assert_eq!(found, Ok((Record { sec, ticks }, &[][..])), "{text}");
    }
}

/// Of two faults the first in document 01's order is told. The epoch is out of range in all of these.
#[test]
fn known_refusals() {
    let known = [
        ("", Refusal::Short),
        ("80", Refusal::Identification),
        ("F8", Refusal::Identification),
        ("AC", Refusal::Unsupported),
        ("C8", Refusal::Unsupported),
        ("4B", Refusal::Unsupported),
        ("57", Refusal::Unsupported),
        ("2C", Refusal::Range),
        ("48", Refusal::Range),
        ("48FFFFFFFFFFFF", Refusal::Range),
        ("1C", Refusal::Short),
        ("50FFFFFFFFFFFF", Refusal::Short),
        ("40FFFFFFFFFF", Refusal::Short),
        ("40000005266000", Refusal::Field),
        ("40FFFF05265FE8", Refusal::Field),
        ("41000005265C0003E8", Refusal::Field),
        ("502026010100006A", Refusal::Field),
        ("5120260101000000A0", Refusal::Field),
        ("5000000101000000", Refusal::Field),
        ("5820161366000000", Refusal::Field),
        ("5020161231120060", Refusal::Field),
        ("5020260101120060", Refusal::Field),
        ("5019711231235959", Refusal::Uncovered),
        ("5020260101000000", Refusal::Uncovered),
        ("5020260101235960", Refusal::Uncovered),
        ("40FFFF05265C00", Refusal::Uncovered),
        ("5020151231235960", Refusal::NoSuchSecond),
        ("4052BF05265C00", Refusal::NoSuchSecond),
    ];
    for (text, refusal) in known {
        let bytes = octets_of_text(text);
        let found = honigzange::read_binary(&bytes, Preamble::Front, i64::MAX);
        assert_eq!(found, Err(refusal), "{text}");
    }
}
