//! Listing ASCII tags, compared with the second program.

mod common;

use common::codes::{any_bytes, leaps, FIRST_DAY, FIRST_SECOND, LAST_DAY, LAST_SECOND};
use common::lists::{
    around, compare_cuts, compare_listed, pair, room, spoil, told, Listed, COVER, RECORDS,
};
use common::tags::{edge_shapes, fill, shapes, Numbers, Seconds};
use common::texts::{any_characters, damage};
use common::{after, fewer, floor, stride, Scale};
use honigzange::{raw, Listing, Record, Refusal};
use second::rng::Rng;
use second::{ascii_tag, leap};
use std::ptr::{null, null_mut};

mod c {
    extern "C" {
        pub fn hz_list_ascii(
            tag: *const u8,
            len: usize,
            from_sec: i64,
            from_ticks: u64,
            to_sec: i64,
            to_ticks: u64,
            list: *mut i64,
            room: usize,
            ticks: *mut u64,
            count: *mut usize,
            more: *mut bool,
        ) -> u8;
    }
}

type Window = (Record, Record);

/// One input to both programs: the number and the result cells in C's terms, and the answer in Rust's.
fn compare(rng: &mut Rng, listed: &mut Listed, tag: &[u8], window: Window, room: usize) {
    let (from, to) = window;
    let expected = ascii_tag::list(tag, pair(from), pair(to), room);
    listed.count(&expected);
    let input = (tag.escape_ascii().to_string(), window);
    compare_listed(
        rng,
        &input,
        &expected,
        room,
        |list, (ticks, count, more)| {
            raw::list_ascii(
                tag, from.sec, from.ticks, to.sec, to.ticks, list, ticks, count, more,
            )
        },
    );
    compare_listed(rng, &input, &expected, room, |list, cells| {
        told(honigzange::list_ascii(tag, from, to, list), cells)
    });
}

/// The ticks that the second program finds in a good tag.
fn ticks(tag: &[u8]) -> u64 {
    let none = ascii_tag::list(tag, pair(COVER.0), pair(COVER.0), 0);
    none.map_or(0, |listing| listing.ticks)
}

/// A window in the cover, most often a short one around a second.
fn any_window(rng: &mut Rng, sec: i64, tag: &[u8]) -> Window {
    let reach = match rng.below(256) {
        0..=9 => 0,
        10..=129 => 1,
        130..=219 => rng.between(0, 40),
        220..=229 => rng.between(0, 400),
        230..=239 => rng.between(0, 4_000),
        240..=251 => rng.between(0, 200_000),
        252 | 253 => rng.between(0, 40_000_000),
        254 => 1 << 31,
        _ => return COVER,
    };
    let ticks = ticks(tag);
    around(rng, Record { sec, ticks }, reach, COVER)
}

/// Tags of a moment in every shape, most often in windows around it.
#[test]
fn every_shape() {
    let (mut rng, mut listed, seconds) = (Rng::new(141), Listed::default(), Seconds::new());
    let each = fewer(150);
    for shape in shapes() {
        for _ in 0..each {
            let sec = seconds.any(&mut rng);
            let tag = fill(&mut rng, &shape, Numbers::of(sec));
            let (window, rooms) = (any_window(&mut rng, sec, &tag), room(&mut rng));
            compare(&mut rng, &mut listed, &tag, window, rooms);
        }
    }
    listed.tally.assert_exactly(&[(0, 266 * each)]);
    listed.assert_each_over(5_000);
}

/// Numbers at and next to the ends of their ranges.
#[test]
fn edge_numbers_in_every_shape() {
    let (mut rng, mut listed, seconds) = (Rng::new(142), Listed::default(), Seconds::new());
    for shape in shapes() {
        for _ in 0..fewer(150) {
            let sec = seconds.any(&mut rng);
            let numbers = Numbers::of(sec).edge(&mut rng).edge(&mut rng);
            let tag = fill(&mut rng, &shape, numbers);
            let (window, rooms) = (any_window(&mut rng, sec, &tag), room(&mut rng));
            compare(&mut rng, &mut listed, &tag, window, rooms);
        }
    }
    listed.tally.assert_each_over(&[(0, 10_000), (4, 10_000)]);
    listed.assert_each_over(1_000);
}

/// A tag of a moment around a leap second, and a window of some seconds around it.
fn tag_and_window(rng: &mut Rng, seconds: &Seconds, shape: &str) -> (Vec<u8>, Window) {
    let sec = match rng.below(3) {
        0 => seconds.any(rng),
        _ => seconds.leap(rng),
    };
    let tag = fill(rng, shape, Numbers::of(sec));
    let ticks = ticks(&tag);
    (tag, around(rng, Record { sec, ticks }, 2, COVER))
}

/// Each byte of a tag takes every value.
#[test]
fn every_change_of_one_byte() {
    let (mut rng, mut listed, seconds) = (Rng::new(143), Listed::default(), Seconds::new());
    for shape in edge_shapes() {
        let (mut tag, window) = tag_and_window(&mut rng, &seconds, &shape);
        for place in 0..tag.len() {
            let kept = tag[place];
            for byte in 0..=u8::MAX {
                tag[place] = byte;
                compare(&mut rng, &mut listed, &tag, window, 3);
            }
            tag[place] = kept;
        }
    }
    listed.tally.assert_each_over(&[(0, 5_000), (4, 200_000)]);
}

/// Every byte is put at every place of a tag, before and after it too.
#[test]
fn every_byte_inserted() {
    let (mut rng, mut listed, seconds) = (Rng::new(144), Listed::default(), Seconds::new());
    for shape in edge_shapes() {
        let (tag, window) = tag_and_window(&mut rng, &seconds, &shape);
        for place in 0..=tag.len() {
            let mut longer = tag.clone();
            longer.insert(place, 0);
            for byte in 0..=u8::MAX {
                longer[place] = byte;
                compare(&mut rng, &mut listed, &longer, window, 3);
            }
        }
    }
    listed.tally.assert_each_over(&[(0, 300), (4, 200_000)]);
}

/// Every run of bytes is cut out of a tag, its ends too. Much of what is left is a tag of another shape.
#[test]
fn every_run_removed() {
    let (mut rng, mut listed, seconds) = (Rng::new(145), Listed::default(), Seconds::new());
    for shape in edge_shapes() {
        for _ in 0..fewer(10) {
            let (tag, window) = tag_and_window(&mut rng, &seconds, &shape);
            for start in 0..=tag.len() {
                for end in start..=tag.len() {
                    let shorter = [&tag[..start], &tag[end..]].concat();
                    compare(&mut rng, &mut listed, &shorter, window, 3);
                }
                // What was cut off lies behind what is left.
                compare(&mut rng, &mut listed, &tag[..start], window, 3);
            }
        }
    }
    let tally = &listed.tally;
    tally.assert_each_over(&[(0, 20_000), (1, 1_000), (4, 50_000)]);
}

/// Every run of bytes of a tag stands twice.
#[test]
fn every_run_doubled() {
    let (mut rng, mut listed, seconds) = (Rng::new(146), Listed::default(), Seconds::new());
    for shape in edge_shapes() {
        for _ in 0..fewer(3) {
            let (tag, window) = tag_and_window(&mut rng, &seconds, &shape);
            for start in 0..tag.len() {
                for end in start + 1..=tag.len() {
                    let longer = [&tag[..end], &tag[start..]].concat();
                    compare(&mut rng, &mut listed, &longer, window, 3);
                }
            }
        }
    }
    listed.tally.assert_each_over(&[(0, 100), (4, 20_000)]);
}

/// All digits of calendars without a year, and of a year alone, over all covered time.
#[test]
fn every_calendar() {
    let (mut rng, mut listed) = (Rng::new(147), Listed::default());
    let years = (0..=3).chain(1_000..=2_100).chain(9_997..=9_999);
    let years = years.map(|year| format!("{year:04}"));
    let months = (0..=99).map(|month| format!("-{month:02}"));
    let days = (0..=99).map(|day| format!("--{day:02}"));
    let dates = (0..=9_999).map(|date| format!("-{:02}-{:02}", date / 100, date % 100));
    let days_of_year = (0..=999).map(|day| format!("-{day:03}"));
    for calendar in years
        .chain(months)
        .chain(days)
        .chain(dates)
        .chain(days_of_year)
    {
        let rooms = rng.pick(&[0, 13, 60, 700]);
        compare(&mut rng, &mut listed, calendar.as_bytes(), COVER, rooms);
        let time = rng.pick(&["T00", "T23:59:60", "T12:30:00.5Z"]);
        compare(
            &mut rng,
            &mut listed,
            format!("{calendar}{time}").as_bytes(),
            COVER,
            60,
        );
    }
    // Good are all years but one, 12 months, 31 days, 366 dates and as many days of the year. The last three
    // may go on with a time.
    let (years, all) = (4 + 1_101 + 3, 100 + 100 + 10_000 + 1_000);
    let done = (years - 1) + 12 + 2 * (31 + 366 + 366);
    let tally = &listed.tally;
    tally.assert_exactly(&[(0, done), (4, 2 * (years + all) - done)]);
}

/// All digits of dates in edge years, in a window that holds all of the year or of the nearest covered one.
#[test]
fn every_date_of_edge_years() {
    let (mut rng, mut listed) = (Rng::new(148), Listed::default());
    let years = [
        0, 1, 1900, 1971, 1972, 1973, 2000, 2016, 2025, 2026, 2100, 9_999,
    ];
    for year in years {
        let months = (0..=99).map(|month| format!("{year:04}-{month:02}"));
        let days = (0..=999).map(|day| format!("{year:04}-{day:03}"));
        let dates = (0..=9_999).map(|date| (date / 100, date % 100));
        let dates = dates.map(|(month, day)| format!("{year:04}-{month:02}-{day:02}"));
        let window = around_year(year);
        for date in months.chain(days).chain(dates) {
            let time = rng.pick(&["", "", "T00", "T23:59:60", "T23:59:59.9Z"]);
            let tag = format!("{date}{time}");
            compare(&mut rng, &mut listed, tag.as_bytes(), window, 2);
        }
    }
    listed.tally.assert_each_over(&[(0, 5_000), (4, 100_000)]);
    assert!(listed.whole > 2_000 && listed.empty > 2_000, "{listed:?}");
}

/// The years before 1972 make a year begin up to 17 days later than 365 days for each would have it.
fn around_year(year: i64) -> Window {
    let begins = (year.clamp(1972, 2025) - 1958) * 365;
    [begins - 1, begins + 366 + 20]
        .map(|day| Record {
            sec: day * 86_400,
            ticks: 0,
        })
        .map(|end| end.clamp(COVER.0, COVER.1))
        .into()
}

/// All digits of a time's whole numbers, in two days around a leap second.
#[test]
fn every_time() {
    let (mut rng, mut listed, seconds) = (Rng::new(149), Listed::default(), Seconds::new());
    let mut times = Vec::new();
    for number in 0..=99 {
        times.extend(["", ":", "::"].map(|start| format!("{start}{number:02}")));
    }
    for numbers in 0..=9_999 {
        let (first, second) = (numbers / 100, numbers % 100);
        times.extend(["", ":", "--30T"].map(|start| format!("{start}{first:02}:{second:02}")));
    }
    for numbers in (0..=999_999).step_by(stride(7)) {
        let (hour, minute, second) = (numbers / 10_000, numbers / 100 % 100, numbers % 100);
        times.push(format!("{hour:02}:{minute:02}:{second:02}"));
    }
    for time in times {
        let tag = format!("{time}{}", rng.pick(&["", "Z", ".0", ".25Z"]));
        let leap = seconds.leap(&mut rng);
        let window = [leap - 86_400, leap + 86_400].map(|sec| Record { sec, ticks: 0 });
        let rooms = rng.below(5) as usize;
        compare(&mut rng, &mut listed, tag.as_bytes(), window.into(), rooms);
    }
    listed.tally.assert_each_over(&[(0, 10_000), (4, 100_000)]);
    listed.assert_each_over(200);
}

/// Tags that name some of the seconds around a leap second or an end of the cover.
const AT_LEAPS_AND_ENDS: [&str; 22] = [
    "::60",
    "::59.5",
    "::00",
    ":59:60.5Z",
    ":59:59",
    "00",
    "23:59:60",
    "23:59:58.999999999999",
    "::.0",
    "::.5",
    ":00",
    "--01",
    "-01",
    "-07-01",
    "-001",
    "-366T23:59:60",
    "--31T23:59:60",
    "-06-30T23:59:60.5",
    "-12-31T23:59",
    "1972",
    "2025-12-31T23:59:59.9",
    "2017-001T00:00:00Z",
];

/// Every window of some seconds at each leap second and at the ends of the cover.
#[test]
fn windows_around_each_leap_and_the_ends() {
    let (mut rng, mut listed) = (Rng::new(150), Listed::default());
    let leaps = leaps().into_iter().map(|(sec, _)| sec);
    for centre in leaps.chain([FIRST_SECOND, LAST_SECOND]) {
        for from in centre - 2..=centre + 2 {
            for to in from..=centre + 3 {
                for tag in AT_LEAPS_AND_ENDS.map(str::as_bytes) {
                    let ticks = ticks(tag);
                    let near = [ticks.saturating_sub(1), ticks, ticks + 1];
                    let [from, to] = [from, to].map(|sec| Record {
                        sec,
                        ticks: rng.pick(&near),
                    });
                    let rooms = rng.below(5) as usize;
                    compare(&mut rng, &mut listed, tag, (from, to), rooms);
                }
            }
        }
    }
    listed.assert_each_over(500);
    let tally = &listed.tally;
    tally.assert_each_over(&[(0, 10_000), (5, 200), (9, 200)]);
}

/// Both ends of the window at and next to both ends of the cover: outside it is refused, equal ends too.
#[test]
fn windows_at_the_ends_of_the_cover() {
    let (mut rng, mut listed) = (Rng::new(151), Listed::default());
    let ends = [COVER.0.sec, COVER.1.sec].map(|sec| {
        let secs = [sec - 1, sec, sec + 1];
        secs.map(|sec| [0, 1, Record::TICKS - 1].map(|ticks| Record { sec, ticks }))
    });
    let ends = ends.concat().concat();
    for tag in [
        "::00",
        "::59",
        "::59.999999999999",
        "::.5",
        "1972-001",
        "00Z",
        "2026",
        "-02-29",
    ] {
        for &from in &ends {
            for &to in &ends {
                for rooms in 0..=3 {
                    compare(&mut rng, &mut listed, tag.as_bytes(), (from, to), rooms);
                }
            }
        }
    }
    // Of these 18 moments the 4th to the 13th are in the cover or end it.
    let (tags_and_rooms, inside, backward) = (8 * 4, 10 * 11 / 2, 18 * 17 / 2);
    let outside = 18 * 18 - backward - inside;
    listed.tally.assert_exactly(&[
        (0, tags_and_rooms * inside),
        (5, tags_and_rooms * outside),
        (9, tags_and_rooms * backward),
    ]);
}

/// Each fault of a tag with each fault of a window.
#[test]
fn faults_of_all_kinds_together() {
    let (mut rng, mut listed, scale) = (Rng::new(152), Listed::default(), Scale::new());
    let edges = scale.edges();
    let tags = [
        "",
        " ",
        "-02-30",
        "2023-366",
        ":58:60",
        "::60",
        "2015-12-31T23:59:60",
        "1971",
    ];
    for tag in tags.map(str::as_bytes) {
        for &(sec, ticks) in &edges {
            let (edge, rooms) = (Record { sec, ticks }, room(&mut rng));
            for other in [COVER.0, COVER.1, RECORDS.0, scale.any_record(&mut rng)] {
                compare(&mut rng, &mut listed, tag, (edge, other), rooms);
                compare(&mut rng, &mut listed, tag, (other, edge), rooms);
            }
        }
    }
    let tally = &listed.tally;
    tally.assert_each_over(&[(1, 2_000), (4, 10_000), (5, 300), (7, 5_000), (9, 300)]);
}

/// Good tags and damaged ones, and windows of all kinds, some outside the cover, backward or invalid.
#[test]
fn tags_of_all_kinds() {
    let (mut rng, mut listed, scale) = (Rng::new(153), Listed::default(), Scale::new());
    let (shapes, seconds) = (shapes(), Seconds::new());
    for _ in 0..fewer(200_000) {
        let sec = seconds.any(&mut rng);
        let mut numbers = Numbers::of(sec);
        if rng.once_in(4) {
            numbers = numbers.edge(&mut rng);
        }
        let shape = &shapes[rng.below(shapes.len() as u64) as usize];
        let mut tag = fill(&mut rng, shape, numbers);
        if rng.once_in(3) {
            damage(&mut rng, &mut tag);
        }
        let mut window = any_window(&mut rng, sec, &tag);
        if rng.once_in(16) {
            window = spoil(&mut rng, &scale, window);
        }
        let rooms = room(&mut rng);
        compare(&mut rng, &mut listed, &tag, window, rooms);
    }
    listed.assert_each_over(10_000);
    listed.tally.assert_each_over(&[
        (0, 80_000),
        (1, 50),
        (4, 40_000),
        (5, 1_000),
        (7, 1_000),
        (9, 1_000),
    ]);
}

#[test]
fn any_text_at_all() {
    let (mut rng, mut listed, shapes) = (Rng::new(154), Listed::default(), shapes());
    for _ in 0..fewer(200_000) {
        let count = rng.below(12) as usize;
        let tag = match rng.below(4) {
            0 => any_bytes(&mut rng, count),
            1 => any_characters(&mut rng, count),
            _ => {
                let shape = &shapes[rng.below(shapes.len() as u64) as usize];
                any_digits(&mut rng, shape)
            }
        };
        let sec = rng.between(FIRST_SECOND, LAST_SECOND);
        let (window, rooms) = (any_window(&mut rng, sec, &tag), room(&mut rng));
        compare(&mut rng, &mut listed, &tag, window, rooms);
    }
    let tally = &listed.tally;
    tally.assert_each_over(&[(0, 10_000), (1, 5_000), (4, 100_000)]);
}

/// A text whose marks stand as in a shape, while its digits are any.
fn any_digits(rng: &mut Rng, shape: &str) -> Vec<u8> {
    let bytes = shape.bytes().map(|byte| match byte {
        b'-' | b':' | b'.' | b'T' | b'Z' => byte,
        _ => b'0' + rng.below(10) as u8,
    });
    bytes.collect()
}

/// The first second of every day of the cover, by all calendars, and now and then what lies before and after.
#[test]
fn every_day_of_the_cover() {
    let (mut rng, mut listed) = (Rng::new(155), Listed::default());
    for day in FIRST_DAY..=LAST_DAY {
        let sec = leap::second_of_utc(day, 0).expect("the day is covered");
        let (from, to) = (Record { sec, ticks: 0 }, Record { sec, ticks: 1 });
        let calendars = [
            "YYYY-MM-DD",
            "-MM-DD",
            "--DD",
            "YYYY-MM",
            "-MM",
            "YYYY",
            "YYYY-DDD",
            "-DDD",
        ];
        for shape in calendars {
            let tag = fill(&mut rng, shape, Numbers::of(sec));
            compare(&mut rng, &mut listed, &tag, (from, to), 2);
            if rng.once_in(100) {
                compare(&mut rng, &mut listed, &tag, (from, COVER.1), 20);
                compare(&mut rng, &mut listed, &tag, (COVER.0, from), 20);
            }
        }
    }
    // All days by five of the calendars, the first of each month by two, and of each year by one.
    assert!(listed.whole > 5 * 19_724 + 2 * 12 * 54 + 54, "{listed:?}");
    listed.assert_each_over(500);
}

/// Some lists of many thousands, each with all of the room that it needs and with one less.
#[test]
fn long_lists() {
    let (mut rng, mut listed) = (Rng::new(156), Listed::default());
    let tags = [
        ("12:34:56.789", 19_724),
        ("00", 19_724),
        (":59:60", 27),
        (":30Z", 24 * 19_724),
        ("--01", 12 * 54),
        ("--31T23:59:60", 16),
        ("-06-30T23:59:60", 11),
        ("-12", 54),
        ("-365T23:59:59", 54),
        ("-366", 14),
    ];
    for (tag, count) in tags {
        for rooms in [count - 1, count] {
            compare(&mut rng, &mut listed, tag.as_bytes(), COVER, rooms);
        }
    }
    assert_eq!((listed.whole, listed.more), (10, 10));
}

/// Windows that adjoin, and lists that are gone on with, give the list of the whole.
#[test]
fn cut_windows_and_cut_lists() {
    let (mut rng, seconds, mut named) = (Rng::new(157), Seconds::new(), 0);
    for shape in shapes() {
        for _ in 0..fewer(50) {
            let sec = seconds.any(&mut rng);
            let tag = fill(&mut rng, &shape, Numbers::of(sec));
            let moment = Record {
                sec,
                ticks: ticks(&tag),
            };
            let reach = match shape.trim_end_matches(['d', 'Z']) {
                "::." => 400,
                "::ss" | "::ss." => 20_000,
                ":mm" | ":mm:ss" | ":mm:ss." => 1_000_000,
                _ => 20_000_000,
            };
            let window = around(&mut rng, moment, reach, COVER);
            named += compare_cuts(&mut rng, window, |from, to, list| {
                honigzange::list_ascii(&tag, from, to, list)
            });
        }
    }
    assert!(named as u64 > floor(300_000), "too few: {named}");
}

#[test]
fn nothing_lent_at_null() {
    let mut rng = Rng::new(158);
    for (tag, number, named) in [
        ("", 1, false),
        ("::6", 4, false),
        ("::60", 0, true),
        ("2026", 0, false),
    ] {
        let before = (rng.u64(), rng.u64() as usize, rng.once_in(2));
        let (mut ticks, mut count, mut more) = before;
        let bytes = match tag {
            "" => null(),
            _ => tag.as_ptr(),
        };
        let (list, cells) = (null_mut(), (&mut ticks, &mut count, &mut more));
        let (from, to) = COVER;
        // SAFETY: a pointer to no bytes or elements may be null, the bytes are as many as said, and the cells
        // are three.
        let found = unsafe {
            c::hz_list_ascii(
                bytes,
                tag.len(),
                from.sec,
                from.ticks,
                to.sec,
                to.ticks,
                list,
                0,
                cells.0,
                cells.1,
                cells.2,
            )
        };
        let expected = if number == 0 {
            Ok((0, 0, named))
        } else {
            Err(number)
        };
        assert_eq!(
            (found, (ticks, count, more)),
            after(expected, before),
            "{tag}"
        );
    }
}

/// What a tag names in all covered time.
fn in_cover(tag: &str) -> (Vec<i64>, u64) {
    let mut list = vec![17; 40];
    let listing = honigzange::list_ascii(tag.as_bytes(), COVER.0, COVER.1, &mut list);
    let Listing { ticks, count, more } =
        listing.unwrap_or_else(|refusal| panic!("{tag}: {refusal}"));
    assert!(!more, "{tag}");
    let later = list.split_off(count);
    assert!(later.iter().all(|&sec| sec == 17), "{tag}");
    (list, ticks)
}

/// Document 01's own.
#[test]
fn known_lists() {
    let (leaps, ticks) = in_cover("::60");
    assert_eq!((leaps.len(), ticks), (27, 0));
    assert_eq!((leaps[0], leaps[26]), (457_488_010, 1_861_920_036));
    let ends = ["1972", "1976", "2008", "2016"].map(|year| {
        let text = format!("{year}-12-31T23:59:60");
        honigzange::read_ascii(text.as_bytes())
            .expect("the text is good")
            .sec
    });
    assert_eq!(in_cover("-366T23:59:60"), (ends.to_vec(), 0));
    assert_eq!(ends[3], 1_861_920_036);
    let (days, ticks) = in_cover("-02-29");
    assert_eq!((days.len(), ticks), (14, 0));
    let known = [
        ("2015-12-31T23:59:60", 0),
        ("1971", 0),
        ("2026-01-01", 0),
        ("2015-365T23:59:60.5Z", Record::TICKS / 2),
    ];
    for (tag, ticks) in known {
        assert_eq!(in_cover(tag), (vec![], ticks), "{tag}");
    }
    let full = "1988-018T17:20:43.123456Z";
    assert_eq!(in_cover(full), (vec![948_216_067], 505_675_776_000_000));
}

/// A window from one leap second to another takes the first and not the last, one of equal ends takes none.
#[test]
fn known_ends_of_windows() {
    let (leaps, _) = in_cover("::60");
    let [from, to] = [leaps[0], leaps[26]].map(|sec| Record { sec, ticks: 0 });
    let list = |from, to| {
        let mut list = [17; 30];
        let listing = honigzange::list_ascii(b"::60", from, to, &mut list);
        listing.map(|listing| (list[..listing.count].to_vec(), listing.more))
    };
    assert_eq!(list(from, to), Ok((leaps[..26].to_vec(), false)));
    for at in [from, to, COVER.0, COVER.1] {
        assert_eq!(list(at, at), Ok((vec![], false)));
    }
    let later = |at| Record { ticks: 1, ..at };
    assert_eq!(list(from, later(from)), Ok((vec![leaps[0]], false)));
    assert_eq!(
        list(later(from), later(to)),
        Ok((leaps[1..].to_vec(), false))
    );
}

/// Shapes and numbers that break their rule.
#[test]
fn known_faults() {
    let known = [
        " ",
        "Z",
        "T",
        "-",
        "--",
        "---01",
        ":",
        "::",
        "::.",
        "::.Z",
        ":::",
        "1",
        "016",
        "02016",
        "2016-",
        "2016-1",
        "2016-1-1",
        "2016-12-",
        "2016-12-1",
        "2016--31",
        "16-12-31",
        "-1",
        "-2016",
        "--1",
        "--001",
        "--12-31",
        "---31",
        "2016-02-30",
        "2023-02-29",
        "-02-30",
        "-04-31",
        "-00-01",
        "-13-01",
        "-13",
        "-00",
        "--00",
        "--32",
        "-000",
        "-367",
        "2023-366",
        "2016-000",
        "0000",
        "0000-01",
        "0000-001",
        "2016-12-31T",
        "2016-12-31T1",
        "2016-12-31T:30",
        "2016-12-31T::60",
        "2016-12-31T::.5",
        "2016T00",
        "2016-12T00",
        "-12T00",
        "T00",
        "T00:00",
        "2016-12-31t00",
        "2016-12-31 00",
        "2016Z",
        "2016-12Z",
        "2016-12-31Z",
        "-12Z",
        "--31Z",
        "-366Z",
        "12z",
        "12ZZ",
        "12 ",
        " 12",
        "24",
        "1:30",
        "12:",
        "12:3",
        "12:60",
        ":60",
        ":5",
        "12:30:",
        "12:30:6",
        "12:30:60",
        "23:58:60",
        "22:59:60",
        ":58:60",
        ":00:60",
        "::61",
        "::6",
        "::60:",
        "12.5",
        "12:30.5",
        ":30.5",
        "12:30:15.",
        "12:30:15.Z",
        "12:30:15,5",
        "::15.1234567890123",
        "::.1234567890123",
        "2016-12-31T23:59:59.1234567890123Z",
        "12::15",
        "12-30",
        "-12:30",
        "2016:12",
        "2016-366-01",
        "2016-12-31-",
        "2016-12-31T23:59:60.5.5",
        "2016-12-31T23:59:60\0",
        "::60\n",
        "+016",
        "-+1",
        "\u{661}2",
    ];
    for tag in known {
        let mut list = [17; 3];
        let found = honigzange::list_ascii(tag.as_bytes(), RECORDS.1, RECORDS.0, &mut list);
        assert_eq!(found, Err(Refusal::Field), "{}", tag.escape_debug());
        assert_eq!(list, [17; 3], "{}", tag.escape_debug());
    }
}

/// Of two faults the first in document 01's order is told.
#[test]
fn known_refusals() {
    let (first, end) = COVER;
    let invalid = Record {
        sec: 0,
        ticks: Record::TICKS,
    };
    let outside = [first.sec - 9, first.sec - 1, end.sec, end.sec + 9];
    let [much_earlier, earlier, later, much_later] = outside.map(|sec| Record { sec, ticks: 1 });
    let known = [
        ("", invalid, invalid, Refusal::Short),
        ("-02-30", invalid, invalid, Refusal::Field),
        ("::60", invalid, earlier, Refusal::Range),
        ("::60", later, invalid, Refusal::Range),
        ("::60", later, earlier, Refusal::Window),
        ("::60", first, earlier, Refusal::Window),
        ("::60", earlier, much_earlier, Refusal::Window),
        ("::60", much_later, later, Refusal::Window),
        ("::60", earlier, first, Refusal::Uncovered),
        ("::60", end, later, Refusal::Uncovered),
        ("::60", earlier, earlier, Refusal::Uncovered),
        ("::60", later, later, Refusal::Uncovered),
        ("1971", earlier, later, Refusal::Uncovered),
    ];
    for (tag, from, to, refusal) in known {
        let mut list = [17; 3];
        let found = honigzange::list_ascii(tag.as_bytes(), from, to, &mut list);
        assert_eq!((found, list), (Err(refusal), [17; 3]), "{tag}");
    }
}
