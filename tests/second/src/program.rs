//! The program's job: an answer to each line of an input.

use crate::ascii;

const BAD_LENGTH: u8 = 4;

/// A longer line is refused, whatever it holds.
pub const LONGEST_LINE: usize = 64;

/// What the program prints for a whole input. The last line may lack its line feed.
pub fn printed(input: &[u8]) -> Vec<u8> {
    let mut out = Vec::new();
    for line in input.split_inclusive(|&byte| byte == b'\n') {
        answer(line.strip_suffix(b"\n").unwrap_or(line), &mut out);
    }
    out
}

/// Adds what the program prints for a line, which is without its line feed here.
pub fn answer(line: &[u8], out: &mut Vec<u8>) {
    match in_default_setting(line) {
        Ok(text) => out.extend_from_slice(text.as_bytes()),
        Err(number) => {
            out.extend_from_slice(b"refused ");
            out.push(b'0' + number);
        }
    }
    out.push(b'\n');
}

fn in_default_setting(line: &[u8]) -> Result<ascii::Text, u8> {
    if line.len() > LONGEST_LINE {
        return Err(BAD_LENGTH);
    }
    let (sec, ticks) = ascii::read(line)?;
    ascii::write(sec, ticks, ascii::DEFAULT, usize::MAX)
}
