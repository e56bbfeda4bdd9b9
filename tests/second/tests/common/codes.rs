//! Binary codes: their P octets, epochs, moments and T-fields, and the tally of each code's answers.

use super::Tally;
use honigzange::Record;
use second::rng::{i64_edges, Rng};
use second::{binary, calendar, leap};

/// The covered TAI seconds and UTC days.
pub const FIRST_SECOND: i64 = 441_763_210;
pub const LAST_SECOND: i64 = 2_145_916_836;
pub const FIRST_DAY: i64 = 5_113;
pub const LAST_DAY: i64 = 24_836;

/// Document 01's own moments, and the seconds before and after its leap second: code, second and ticks.
pub const KNOWN: [(&str, i64, u64); 14] = [
    ("1C6EFAA524", 1_861_920_036, 0),
    ("40542D05265C00", 1_861_920_036, 0),
    ("5820160366235960", 1_861_920_036, 0),
    ("5020161231235960", 1_861_920_036, 0),
    ("1C6EFAA523", 1_861_920_035, 0),
    ("40542D05265818", 1_861_920_035, 0),
    ("5020161231235959", 1_861_920_035, 0),
    ("1C6EFAA525", 1_861_920_037, 0),
    ("40542E00000000", 1_861_920_037, 0),
    ("5820170001000000", 1_861_920_037, 0),
    ("1D3884A1031F", 948_216_067, 31 * (Record::TICKS / 256)),
    ("412ADE03B8CE7301C8", 948_216_067, 505_675_776_000_000),
    ("422ADE03B8CE731B2E0200", 948_216_067, 505_675_776_000_000),
    ("5B19880018172043123456", 948_216_067, 505_675_776_000_000),
];

#[derive(Clone, Copy, PartialEq)]
pub enum Kind {
    Cuc,
    Cds,
    Ccs,
}

/// The code that a P octet names, be it good or not.
pub fn kind(p: u8) -> Option<Kind> {
    match p >> 4 & 7 {
        1 | 2 => Some(Kind::Cuc),
        4 => Some(Kind::Cds),
        5 => Some(Kind::Ccs),
        _ => None,
    }
}

/// The good P octets of a code.
pub fn octets_of(wanted: Kind) -> Vec<u8> {
    let all = octets().into_iter();
    all.filter(|&p| kind(p) == Some(wanted)).collect()
}

/// The good P octets.
pub fn octets() -> Vec<u8> {
    let good = (0..=u8::MAX).filter(|&p| binary::octets(p).is_ok());
    let good = good.collect::<Vec<_>>();
    assert_eq!(good.len(), 32 + 12 + 14);
    good
}

/// How many bytes the T-field of a good P octet has.
pub fn length(p: u8) -> usize {
    binary::octets(p).expect("the P octet is good")
}

/// How many numbers the count from the epoch has room for, in CUC and CDS.
pub fn counts(p: u8) -> i64 {
    match kind(p) {
        Some(Kind::Cuc) => 256i64.pow(u32::from(p >> 2 & 3) + 1),
        _ => 256i64.pow(u32::from(p >> 2 & 1) + 2),
    }
}

/// Whether a code counts from the caller's epoch.
pub fn uses_epoch(p: u8) -> bool {
    p >> 4 & 7 == 2 || kind(p) == Some(Kind::Cds) && p >> 3 & 1 == 1
}

/// The ticks of a code's smallest step.
pub fn unit(p: u8) -> u64 {
    let low = u32::from(p & 7);
    Record::TICKS
        / match kind(p) {
            Some(Kind::Cuc) => 256u64.pow(low & 3),
            Some(Kind::Cds) => 1_000u64.pow([1, 2, 4, 0][low as usize & 3]),
            _ => 100u64.pow(low),
        }
}

/// How often each answer was given to the inputs of each code, and of none.
#[derive(Default)]
pub struct Tallies {
    pub cuc: Tally,
    pub cds: Tally,
    pub ccs: Tally,
    pub none: Tally,
}

impl Tallies {
    pub fn of(&mut self, p: Option<u8>) -> &mut Tally {
        match p.and_then(kind) {
            Some(Kind::Cuc) => &mut self.cuc,
            Some(Kind::Cds) => &mut self.cds,
            Some(Kind::Ccs) => &mut self.ccs,
            None => &mut self.none,
        }
    }

    /// Each answer of these was given more often than said, and no other was given.
    pub fn assert_each_over(&self, floor: u64, answers: Answers) {
        let codes = [&self.cuc, &self.cds, &self.ccs, &self.none];
        let answers = [answers.cuc, answers.cds, answers.ccs, answers.none];
        for (tally, answers) in codes.into_iter().zip(answers) {
            let floors = answers.iter().map(|&answer| (answer, floor));
            tally.assert_each_over(&floors.collect::<Vec<_>>());
        }
    }
}

/// The answers to the inputs of each code, and of none: 0 and the refusal numbers.
pub struct Answers {
    pub cuc: &'static [u8],
    pub cds: &'static [u8],
    pub ccs: &'static [u8],
    pub none: &'static [u8],
}

/// Around the ends of both codes' epochs, and numbers whose low bits alone are good ones.
pub fn edge_epochs() -> Vec<i64> {
    let ends = [-1 << 40, 1 << 40, -1 << 24, 1 << 24];
    let narrow = [-1 << 48, -1 << 32, 1 << 32, 1 << 48];
    i64_edges(&[ends, narrow].concat())
}

/// The leap seconds, and the days that end with them.
pub fn leaps() -> Vec<(i64, i64)> {
    (FIRST_DAY..=LAST_DAY)
        .filter_map(|day| Some((leap::second_of_utc(day, 86_400).ok()?, day)))
        .collect()
}

/// Moments of all kinds for a code, with an epoch that most often suits them.
pub struct Moments {
    leaps: Vec<(i64, i64)>,
    epochs: Vec<i64>,
}

impl Moments {
    pub fn new() -> Moments {
        Moments {
            leaps: leaps(),
            epochs: edge_epochs(),
        }
    }

    /// A valid record.
    pub fn record(&self, rng: &mut Rng, p: u8) -> Record {
        Record {
            sec: self.sec(rng, p),
            ticks: ticks(rng),
        }
    }

    fn sec(&self, rng: &mut Rng, p: u8) -> i64 {
        let leap = rng.pick(&self.leaps).0;
        let end = rng.pick(&[FIRST_SECOND, LAST_SECOND]);
        match rng.below(16) {
            0 => rng.between(-1 << 41, (1 << 41) - 1),
            1 => end + rng.between(-2, 2),
            2..=4 => leap + rng.between(-2, 2),
            _ if kind(p) == Some(Kind::Cuc) => rng.below(counts(p) as u64) as i64,
            _ => rng.between(FIRST_SECOND, LAST_SECOND),
        }
    }

    /// An epoch from which the second's count most often fits its field.
    pub fn epoch(&self, rng: &mut Rng, p: u8, sec: i64) -> i64 {
        let count = rng.between(0, counts(p) - 1);
        let start = match kind(p) {
            Some(Kind::Cds) => leap::utc_of_second(sec).map_or(0, |(day, _, _)| day),
            _ => sec,
        };
        match rng.below(16) {
            0 => rng.i64(),
            1 => rng.pick(&self.epochs),
            2 => start - rng.pick(&[-1, 0, counts(p) - 1, counts(p)]),
            _ if uses_epoch(p) => start - count,
            _ => rng.i64(),
        }
    }

    /// An epoch that the code takes.
    pub fn good_epoch(&self, rng: &mut Rng, p: u8) -> i64 {
        let sec = self.sec(rng, p);
        let reach = if kind(p) == Some(Kind::Cds) { 24 } else { 40 };
        let epoch = self.epoch(rng, p, sec);
        match uses_epoch(p) {
            true => epoch.clamp(-1 << reach, (1 << reach) - 1),
            false => epoch,
        }
    }

    /// A good T-field under an epoch more often than not.
    pub fn field_from(&self, rng: &mut Rng, p: u8, epoch: i64) -> Vec<u8> {
        if kind(p) != Some(Kind::Cuc) && rng.once_in(3) {
            let day = self.edge_day(rng);
            let from = if uses_epoch(p) { epoch } else { 0 };
            return edge_on(rng, p, day, day - from);
        }
        let Record { sec, ticks } = self.record(rng, p);
        let code = binary::write(sec, ticks, false, p, epoch, usize::MAX);
        code.unwrap_or_else(|_| self.t_field(rng, p).0)
    }

    /// A good T-field more often than not, and its epoch.
    pub fn t_field(&self, rng: &mut Rng, p: u8) -> (Vec<u8>, i64) {
        if kind(p) != Some(Kind::Cuc) && rng.once_in(4) {
            return self.edge_field(rng, p);
        }
        let Record { sec, ticks } = self.record(rng, p);
        let epoch = self.epoch(rng, p, sec);
        let code = binary::write(sec, ticks, false, p, epoch, usize::MAX);
        (code.unwrap_or_else(|_| any_bytes(rng, length(p))), epoch)
    }

    /// A T-field at midnight or around it, most often on a day at which a rule changes, and its epoch.
    fn edge_field(&self, rng: &mut Rng, p: u8) -> (Vec<u8>, i64) {
        let day = self.edge_day(rng);
        if kind(p) == Some(Kind::Ccs) {
            return (edge_on(rng, p, day, 0), rng.i64());
        }
        let count = match uses_epoch(p) {
            true => rng.between(0, counts(p) - 1),
            false => day,
        };
        (edge_on(rng, p, day, count), day - count)
    }

    fn edge_day(&self, rng: &mut Rng) -> i64 {
        let leap = rng.pick(&self.leaps).1;
        let end = rng.pick(&[FIRST_DAY, LAST_DAY]);
        match rng.below(3) {
            0 => end + rng.between(-2, 2),
            1 => leap + rng.between(0, 1),
            _ => rng.between(FIRST_DAY, LAST_DAY),
        }
    }
}

/// A T-field at midnight or around it on a day, which CDS counts so.
fn edge_on(rng: &mut Rng, p: u8, day: i64, count: i64) -> Vec<u8> {
    if kind(p) == Some(Kind::Ccs) {
        let time = rng.pick(&["000000", "235959", "235960", "235961"]);
        return ccs_field(rng, p, &[&date(p, day), time].concat());
    }
    let millisecond = rng.pick(&[0, 86_399_999, 86_400_000, 86_400_999, 86_401_000]);
    let remainder = rng.below(1_001);
    cds_field(p, count, millisecond, remainder)
}

/// Good ticks: any, or at most one tick from a step of some code.
pub fn ticks(rng: &mut Rng) -> u64 {
    let unit = unit(rng.pick(&[0x1C, 0x1D, 0x1E, 0x1F, 0x40, 0x41, 0x42, 0x51, 0x53, 0x55]));
    let step = unit * rng.below(Record::TICKS / unit);
    match rng.below(8) {
        0 => step,
        1 => step + 1,
        2 => step.saturating_sub(1),
        3 => Record::TICKS - 1,
        _ => rng.below(Record::TICKS),
    }
}

pub fn any_bytes(rng: &mut Rng, count: usize) -> Vec<u8> {
    (0..count).map(|_| rng.u64() as u8).collect()
}

/// One bit, digit or octet is changed, the digit more often to a decimal one.
pub fn damage(rng: &mut Rng, code: &mut [u8]) {
    let place = rng.below(code.len() as u64) as usize;
    let (octet, digit) = (code[place], rng.pick(&[10, 10, 16]));
    let digit = rng.below(digit) as u8;
    code[place] = match rng.below(4) {
        0 => octet ^ 1 << rng.below(8),
        1 => octet & 0xF0 | digit,
        2 => octet & 0x0F | digit << 4,
        _ => rng.u64() as u8,
    };
}

/// The T-field of these numbers in CDS. What does not fit a field is cut off.
pub fn cds_field(p: u8, day: i64, millisecond: u64, remainder: u64) -> Vec<u8> {
    let remainder_octets = [0, 2, 4, 0][usize::from(p & 3)];
    [
        &day.to_be_bytes()[8 - usize::from(p >> 2 & 1) - 2..],
        &millisecond.to_be_bytes()[4..],
        &remainder.to_be_bytes()[8 - remainder_octets..],
    ]
    .concat()
}

/// The T-field of CCS that begins with this text. Its fraction is any digits.
pub fn ccs_field(rng: &mut Rng, p: u8, text: &str) -> Vec<u8> {
    let mut t = octets_of_text(text);
    t.resize_with(length(p), || {
        let (high, low) = (rng.below(10) as u8, rng.below(10) as u8);
        high << 4 | low
    });
    t
}

/// The year and date of a day, as the P octet of CCS has them.
pub fn date(p: u8, day: i64) -> String {
    if p & 8 == 0 {
        let (year, month, day) = calendar::date_of_day(day).expect("the day has a date");
        format!("{year:04}{month:02}{day:02}")
    } else {
        let (year, day) = calendar::ordinal_of_day(day).expect("the day has an ordinal");
        format!("{year:04}{day:04}")
    }
}

/// The octets whose hexadecimal text this is.
pub fn octets_of_text(text: &str) -> Vec<u8> {
    (0..text.len())
        .step_by(2)
        .map(|place| u8::from_str_radix(&text[place..place + 2], 16).expect("digits"))
        .collect()
}
