//! The second program at the program's job, written for speed: it reads and writes by large pieces, looks at
//! each line where it lies and allocates nothing for it.

#![no_main]

use second::program::{answer, LONGEST_LINE};
use std::fs::File;
use std::io::{self, ErrorKind, Read, Write};
use std::mem::ManuallyDrop;
use std::os::fd::FromRawFd;

const PIECE: usize = 1 << 16;

/// Of a line that is not whole yet no more than this is kept: it is too long then, whatever follows.
const KEPT: usize = LONGEST_LINE + 1;

/// How often an interrupted call is made again.
const TRIES: usize = 1_000;

/// Rust's own start would open another file for a stream that is closed, and have broken pipes ignored. So the
/// program starts as one in C does.
#[no_mangle]
pub extern "C" fn main() -> i32 {
    // SAFETY: nothing else in the program uses the two descriptors, and neither is closed here.
    let [input, output] = [0, 1].map(|fd| ManuallyDrop::new(unsafe { File::from_raw_fd(fd) }));
    if let Err((stream, error)) = pump(&*input, &*output) {
        let text = error.to_string();
        let text = text.split(" (os error").next().unwrap_or_default();
        eprintln!("zange: standard {stream}: {text}");
    }
    0
}

/// The stream that failed, and why.
type Failure = (&'static str, io::Error);

fn pump(mut input: impl Read, mut output: impl Write) -> Result<(), Failure> {
    let mut buffer = vec![0; KEPT + PIECE];
    let mut answers = Vec::with_capacity(PIECE);
    let mut kept = 0;
    loop {
        let count = tried(|| input.read(&mut buffer[kept..])).map_err(|error| ("input", error))?;
        if count == 0 {
            break;
        }
        let end = kept + count;
        let start = end - answer_whole_lines(&buffer[..end], &mut answers).len();
        kept = KEPT.min(end - start);
        buffer.copy_within(start..start + kept, 0);
        write(&mut output, &answers)?;
        answers.clear();
    }
    if kept > 0 {
        answer(&buffer[..kept], &mut answers);
    }
    write(&mut output, &answers)
}

/// Answers the lines that have their line feed, and gives back what follows them.
fn answer_whole_lines<'a>(mut bytes: &'a [u8], answers: &mut Vec<u8>) -> &'a [u8] {
    while let Some(end) = bytes.iter().position(|&byte| byte == b'\n') {
        answer(&bytes[..end], answers);
        bytes = &bytes[end + 1..];
    }
    bytes
}

fn write(output: &mut impl Write, mut bytes: &[u8]) -> Result<(), Failure> {
    while !bytes.is_empty() {
        let count = tried(|| output.write(bytes)).map_err(|error| ("output", error))?;
        bytes = &bytes[count..];
    }
    Ok(())
}

fn tried(mut call: impl FnMut() -> io::Result<usize>) -> io::Result<usize> {
    for _ in 0..TRIES {
        match call() {
            Err(error) if error.kind() == ErrorKind::Interrupted => {}
            done => return done,
        }
    }
    call()
}
