//! Prints as many lines as it is told, the same ones each time: random moments of the cover in every shape,
//! inserted seconds among them, and some lines that are refused.

#![forbid(unsafe_code)]

use second::ascii::{self, Setting};
use second::leap;
use second::rng::Rng;
use second::scale::TICKS;
use std::io::{self, BufWriter, Write};
use std::{env, process};

const FIRST_SECOND: i64 = 441_763_210;
const LAST_SECOND: i64 = 2_145_916_836;

const REFUSED: [&str; 6] = [
    "",
    "2015-12-31T23:59:60",
    "2026-01-01T00:00:00Z",
    "2023-02-29T12:00:00.5Z",
    "2016-12-31T12:00:60",
    "2016-12-31 12:00:00",
];

fn main() {
    let count = env::args().nth(1).and_then(|count| count.parse().ok());
    let Some(count) = count else {
        eprintln!("how many lines? as in: bench-lines 1000000");
        process::exit(2);
    };
    // A reader that has gone wants no more lines.
    let _ = print(
        count,
        BufWriter::with_capacity(1 << 16, io::stdout().lock()),
    );
}

fn print(count: u64, mut out: impl Write) -> io::Result<()> {
    let mut rng = Rng::new(1958);
    let leaps = inserted_seconds();
    for _ in 0..count {
        match rng.below(100) {
            0..=4 => out.write_all(rng.pick(&REFUSED).as_bytes())?,
            5 | 6 => {
                let leap = rng.pick(&leaps);
                out.write_all(code(&mut rng, leap).as_bytes())?;
            }
            _ => {
                let sec = rng.between(FIRST_SECOND, LAST_SECOND);
                out.write_all(code(&mut rng, sec).as_bytes())?;
            }
        }
        out.write_all(b"\n")?;
    }
    out.flush()
}

fn code(rng: &mut Rng, sec: i64) -> ascii::Text {
    let setting = Setting {
        by_day_of_year: rng.once_in(2),
        digits: rng.below(13) as u8,
        z: rng.once_in(2),
    };
    let text = ascii::write(sec, rng.below(TICKS), setting, usize::MAX);
    text.unwrap_or_else(|number| panic!("second {sec} is refused {number}"))
}

fn inserted_seconds() -> Vec<i64> {
    (0..30_000)
        .filter_map(|day| leap::second_of_utc(day, 86_400).ok())
        .collect()
}
