//! The second program's tags by themselves: what is known of them, and its shortcuts beside the plain rule.

mod common;

use common::codes::{any_bytes, counts, length, octets_of, Kind};
use common::lists::{pair, COVER};
use common::tags::{fill, shapes, Numbers, Seconds};
use common::{fewer, floor};
use second::ascii_tag::{names, SHORT_RANGE};
use second::listing::Listing;
use second::rng::Rng;
use second::{ascii, ascii_tag, binary, cuc_tag, scale};
use std::ops::RangeInclusive;

const BAD: u8 = 4;

/// What a tag names in all covered time.
fn in_cover(tag: &str) -> Result<Listing, u8> {
    ascii_tag::list(tag.as_bytes(), pair(COVER.0), pair(COVER.1), 40)
}

fn listing(secs: &[i64], more: bool) -> Listing {
    Listing {
        ticks: 0,
        secs: secs.to_vec(),
        more,
    }
}

#[test]
fn known_lists() {
    let leaps = in_cover("::60").expect("the tag is good");
    assert_eq!((leaps.ticks, leaps.secs.len(), leaps.more), (0, 27, false));
    assert_eq!(
        (leaps.secs[0], leaps.secs[26]),
        (457_488_010, 1_861_920_036)
    );
    let ends = ["1972", "1976", "2008", "2016"].map(|year| {
        let text = format!("{year}-366T23:59:60");
        ascii::read(text.as_bytes()).expect("the text is good").0
    });
    assert_eq!(in_cover("-366T23:59:60"), Ok(listing(&ends, false)));
    let days = in_cover("-02-29").expect("the tag is good");
    assert_eq!((days.ticks, days.secs.len(), days.more), (0, 14, false));
    for nothing in ["2015-12-31T23:59:60", "1971", "2026-01-01"] {
        assert_eq!(in_cover(nothing), Ok(listing(&[], false)), "{nothing}");
    }
    for bad in ["-02-30", "2023-366", ":58:60", "2016-12T00", "2016Z", "::."] {
        assert_eq!(in_cover(bad), Err(BAD), "{bad}");
    }
    let counter = |room| cuc_tag::list(&[0x10, 0], true, 0, 0, (0, 0), (1_024, 0), room);
    assert_eq!(counter(9), Ok(listing(&[0, 256, 512, 768], false)));
    assert_eq!(counter(2), Ok(listing(&[0, 256], true)));
}

/// In a long range days and seconds are looked up. What is found is what going through all seconds finds.
#[test]
fn no_second_is_overlooked() {
    let (mut rng, seconds, mut named) = (Rng::new(161), Seconds::new(), 0);
    for shape in shapes() {
        for _ in 0..fewer(4) {
            let sec = seconds.any(&mut rng);
            let tag = fill(&mut rng, &shape, Numbers::of(sec));
            let from = sec - rng.between(SHORT_RANGE, 2 * SHORT_RANGE);
            let to = sec + rng.between(1, 2 * SHORT_RANGE);
            let (from, to) = (from.max(COVER.0.sec), to.min(COVER.1.sec));
            let found = ascii_tag::list(&tag, (from, 0), (to, 0), 10_000);
            let found = found.expect("the tag is good");
            let wanted = (from..to).filter(|&sec| names(&tag, sec, found.ticks));
            assert!(
                wanted.eq(found.secs.iter().copied()),
                "{}",
                tag.escape_ascii()
            );
            named += found.secs.len();
        }
    }
    assert!(named as u64 > floor(50_000), "too few: {named}");
}

/// Few numbers are tried for those deleted on the left. With all of them no other tag is good.
#[test]
fn no_good_tag_is_refused() {
    let years = (1..=400).map(|year| format!("{year:04}-"));
    let years = years.collect::<Vec<_>>();
    let months = with_each(&years, 1..=12, "-");
    let hours = with_each(&["2001-01-01T".to_string()], 0..=23, ":");
    let minutes = with_each(&hours, 0..=59, ":");
    for number in 0..=9_999 {
        let (first, second) = (number / 100, number % 100);
        let (date, time) = (
            format!("{first:02}-{second:02}"),
            format!("{first:02}:{second:02}"),
        );
        assert_good_with_any("-", &years, &date, "T00:00:00");
        assert_good_with_any(":", &hours, &time, "");
    }
    for day_of_year in 0..=999 {
        assert_good_with_any("-", &years, &format!("{day_of_year:03}"), "T00:00:00");
    }
    for number in (0..=99).map(|number| format!("{number:02}")) {
        assert_good_with_any("-", &years, &number, "-01T00:00:00");
        assert_good_with_any("--", &months, &number, "T00:00:00");
        assert_good_with_any(":", &hours, &number, ":00");
        assert_good_with_any("::", &minutes, &number, "");
    }
}

fn with_each(starts: &[String], numbers: RangeInclusive<u64>, end: &str) -> Vec<String> {
    let all = starts.iter().flat_map(|start| {
        let numbers = numbers.clone();
        numbers.map(move |number| format!("{start}{number:02}{end}"))
    });
    all.collect()
}

/// A tag is good exactly if some start in place of its separators makes a code with it that breaks no rule.
fn assert_good_with_any(separators: &str, starts: &[String], tag: &str, end: &str) {
    let good = starts.iter().any(|start| {
        let code = format!("{start}{tag}{end}");
        ascii::read(code.as_bytes()) != Err(BAD)
    });
    let tag = format!("{separators}{tag}");
    assert_eq!(
        in_cover(&tag).map(|_| ()),
        good.then_some(()).ok_or(BAD),
        "{tag}"
    );
}

/// Whole steps before the window are taken at once. What is found is what stepping from the first one finds.
#[test]
fn no_step_is_left_out() {
    let (mut rng, mut named) = (Rng::new(162), 0);
    for p in octets_of(Kind::Cuc) {
        for _ in 0..fewer(1_000) {
            let (t, epoch) = (any_bytes(&mut rng, length(p)), rng.between(-1_000, 1_000));
            let (sec, ticks, _) = binary::read(&t, false, p, epoch).expect("the tag is a code");
            let from = (
                sec + rng.between(-9, 9) * counts(p) / 2,
                rng.below(scale::TICKS),
            );
            let to = (
                from.0 + rng.between(1, 9) * counts(p) / 2,
                rng.below(scale::TICKS),
            );
            let found = cuc_tag::list(&t, false, p, epoch, from, to, 100);
            let found = found.expect("the tag and the window are good");
            let steps = (0..100).map(|step| sec + step * counts(p));
            let wanted = steps.filter(|&sec| (from..to).contains(&(sec, ticks)));
            assert!(
                wanted.eq(found.secs.iter().copied()),
                "{p:02X}, {t:02X?}, {from:?}, {to:?}"
            );
            assert_eq!((found.ticks, found.more), (ticks, false));
            named += found.secs.len();
        }
    }
    assert!(named as u64 > floor(20_000), "too few: {named}");
}
