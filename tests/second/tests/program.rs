//! The program `zange` over its standard input, compared with the second program.

mod common;

use common::codes::any_bytes;
use common::texts::{line, Texts};
use common::{fewer, floor};
use second::program;
use second::rng::Rng;
use std::ffi::OsString;
use std::fs::{self, File, OpenOptions};
use std::io::{Read, Write};
use std::os::unix::fs::OpenOptionsExt;
use std::os::unix::process::ExitStatusExt;
use std::path::{Path, PathBuf};
use std::process::{Child, Command, ExitStatus, Stdio};
use std::sync::atomic::{AtomicU64, Ordering::Relaxed};
use std::sync::{Mutex, MutexGuard, OnceLock, PoisonError};
use std::time::{Duration, Instant};
use std::{env, process, thread};

const GOOD: &[u8] = b"2016-12-31T23:59:60";

/// The proved program: the one that ZANGE names, or else the repository's own.
fn zange() -> PathBuf {
    let named = env::var_os("ZANGE").filter(|path| !path.is_empty());
    let path = named.map_or_else(|| PathBuf::from("../../target/bin/zange"), PathBuf::from);
    let path = Path::new(env!("CARGO_MANIFEST_DIR")).join(path);
    assert!(
        path.is_file(),
        "{} is missing: run `make` at the root of the repository, or set ZANGE to the program",
        path.display()
    );
    path
}

/// Both programs, since the second one is measured against the first.
fn programs() -> [PathBuf; 2] {
    [zange(), PathBuf::from(env!("CARGO_BIN_EXE_second-zange"))]
}

/// A program is for x86-64: elsewhere it stands behind the emulator that HZ_RUN names.
fn emulator() -> Option<OsString> {
    env::var_os("HZ_RUN").filter(|run| !run.is_empty())
}

/// An emulated process can hang when it starts another while threads of it are busy: there the tests of this file
/// take turns.
fn turn() -> Option<MutexGuard<'static, ()>> {
    static TURN: Mutex<()> = Mutex::new(());
    emulator().map(|_| TURN.lock().unwrap_or_else(PoisonError::into_inner))
}

fn command(program: &Path) -> Command {
    match emulator() {
        Some(emulator) => {
            let mut command = Command::new(emulator);
            command.arg(program);
            command
        }
        None => Command::new(program),
    }
}

/// The same by a shell, which has done something to its own streams or signals before.
fn command_after(done: &str, program: &Path) -> Command {
    let command = command(program);
    let mut shell = Command::new("sh");
    shell.args(["-c", &format!("{done}; exec \"$@\""), "sh"]);
    shell.arg(command.get_program()).args(command.get_args());
    shell
}

fn spawn(command: &mut Command, output: Stdio) -> Child {
    let child = command.stdout(output).stderr(Stdio::piped()).spawn();
    child.unwrap_or_else(|error| panic!("{command:?}: {error}"))
}

fn start(program: &Path, output: Stdio) -> Child {
    spawn(command(program).stdin(Stdio::piped()), output)
}

/// What a program prints for an input that comes in pieces. It must end well and complain of nothing.
fn printed(program: &Path, pieces: &[&[u8]], pause: Duration) -> Vec<u8> {
    let mut child = start(program, Stdio::piped());
    let mut input = child.stdin.take().expect("the input is a pipe");
    let output = thread::scope(|scope| {
        scope.spawn(move || {
            for piece in pieces {
                // A program that ends too early is told by what it printed.
                if input.write_all(piece).is_err() {
                    break;
                }
                thread::sleep(pause);
            }
        });
        child.wait_with_output().expect("the program ends")
    });
    assert!(output.status.success(), "{:?}", output.status);
    assert!(output.stderr.is_empty(), "{}", output.stderr.escape_ascii());
    output.stdout
}

/// One input to the programs, whole or in pieces, and to the second program's own function.
fn compare(pieces: &[&[u8]], pause: Duration) {
    let input = pieces.concat();
    let expected = program::printed(&input);
    for program in programs() {
        let found = printed(&program, pieces, pause);
        if found != expected {
            panic!(
                "{}: {}",
                program.display(),
                difference(&input, &found, &expected)
            );
        }
    }
}

fn compare_whole(input: &[u8]) {
    compare(&[input], Duration::ZERO);
}

/// The first line of which the answers differ.
fn difference(input: &[u8], found: &[u8], expected: &[u8]) -> String {
    let lines = |bytes| <[u8]>::split(bytes, |&byte: &u8| byte == b'\n').collect::<Vec<_>>();
    let (input, found, expected) = (lines(input), lines(found), lines(expected));
    let same = found.iter().zip(&expected).take_while(|(a, b)| a == b);
    let place = same.count();
    let shown = |lines: &[&[u8]]| match lines.get(place) {
        Some(line) => line.escape_ascii().to_string(),
        None => "nothing".to_string(),
    };
    format!(
        "line {}: {}\nprinted: {}\nexpected: {}",
        place + 1,
        shown(&input),
        shown(&found),
        shown(&expected)
    )
}

/// The input cut at any places, in pieces that are short at times.
fn pieces<'a>(rng: &mut Rng, mut input: &'a [u8]) -> Vec<&'a [u8]> {
    let mut pieces = Vec::new();
    while !input.is_empty() {
        let most = rng.pick(&[1, 3, 30, 1_000, 60_000, 200_000]);
        let length = input.len().min(1 + rng.below(most) as usize);
        let (piece, rest) = input.split_at(length);
        pieces.push(piece);
        input = rest;
    }
    pieces
}

/// Lines of all kinds. The last one has its line feed.
fn lines(rng: &mut Rng, count: usize) -> Vec<u8> {
    let texts = Texts::new();
    let mut input = Vec::new();
    for _ in 0..count {
        input.extend(line(rng, &texts));
        input.push(b'\n');
    }
    input
}

/// Good, damaged, long and empty lines, with and without carriage returns, in pieces of all sizes.
#[test]
fn a_million_lines_in_pieces() {
    let _turn = turn();
    let mut rng = Rng::new(121);
    let input = lines(&mut rng, fewer(1_000_000) as usize);
    let answers = program::printed(&input);
    for refusal in ["", "refused 1", "refused 4", "refused 5", "refused 6"] {
        let told = |line: &[u8]| match refusal {
            "" => !line.starts_with(b"refused"),
            refusal => line == refusal.as_bytes(),
        };
        let count = answers
            .split(|&byte| byte == b'\n')
            .filter(|line| told(line))
            .count();
        assert!(
            count as u64 > floor(30_000),
            "too few of {refusal:?}: {count}"
        );
    }
    compare(&pieces(&mut rng, &input), Duration::ZERO);
}

/// Each kind of input anew, in pieces, with the last line feed or without.
#[test]
fn many_short_inputs() {
    let _turn = turn();
    let mut rng = Rng::new(122);
    for _ in 0..fewer(1_000) {
        let count = rng.below(8) as usize;
        let mut input = lines(&mut rng, count);
        if rng.once_in(2) {
            input.pop();
        }
        compare(&pieces(&mut rng, &input), Duration::ZERO);
    }
}

/// Two pieces with a pause between them, so that the program reads each by itself.
#[test]
fn a_cut_at_every_place() {
    let _turn = turn();
    let long = [&[b'0'; 66][..], GOOD].concat();
    let all = [
        GOOD,
        b"",
        b"2015-365T23:59:60Z",
        b"\r",
        &long,
        b"2017-01-01T00:00:00.5Z",
    ];
    let input = all.join(&b'\n');
    for cut in 0..=input.len() {
        let (first, second) = input.split_at(cut);
        compare(&[first, second], Duration::from_millis(3));
    }
}

#[test]
fn one_byte_at_a_time() {
    let _turn = turn();
    let mut rng = Rng::new(123);
    let input = lines(&mut rng, 100);
    let bytes = input.chunks(1).collect::<Vec<_>>();
    compare(&bytes, Duration::from_micros(50));
}

/// Document 01's own example, to the letter.
#[test]
fn known_lines() {
    let _turn = turn();
    let input = b"2016-12-31T23:59:60\n2015-12-31T23:59:60\n";
    for program in programs() {
        let found = printed(&program, &[input], Duration::ZERO);
        assert_eq!(found, b"2016-12-31T23:59:60.000Z\nrefused 6\n");
    }
}

/// Inputs without a line, with empty lines alone, and with a last line that lacks its line feed.
#[test]
fn edge_inputs() {
    let _turn = turn();
    let known: [(&[u8], &[u8]); 12] = [
        (b"", b""),
        (b"\n", b"refused 1\n"),
        (b"\n\n", b"refused 1\nrefused 1\n"),
        (b"\r", b"refused 4\n"),
        (b"\r\n", b"refused 4\n"),
        (b"\0", b"refused 4\n"),
        (b"\0\n\0", b"refused 4\nrefused 4\n"),
        (b"2016-12-31T23:59:60", b"2016-12-31T23:59:60.000Z\n"),
        (b"2016-12-31T23:59:60\r\n", b"refused 4\n"),
        (
            b"\n2016-366T23:59:60.9999Z",
            b"refused 1\n2016-12-31T23:59:60.999Z\n",
        ),
        (b"2016-12-31T23:59:60\0\n", b"refused 4\n"),
        (b"1971-365T23:59:59\n\n", b"refused 5\nrefused 1\n"),
    ];
    for (input, output) in known {
        assert_eq!(program::printed(input), output, "{}", input.escape_ascii());
        compare_whole(input);
    }
}

/// Lines around the longest that is looked at, and far longer ones. What is behind the longest length is as
/// good a code as what is before it.
#[test]
fn long_lines() {
    let _turn = turn();
    let padding: [&[u8]; 6] = [b"0", b" ", b"\0", b"\r", b"Z", b"2016-12-31T23:59:60Z\r"];
    let mut rng = Rng::new(124);
    for length in (0..=140).chain([255, 256, 257, 4_096, 65_535, 65_536, 65_537, 100_000]) {
        let mut input = Vec::new();
        for padding in padding {
            let padding = padding.repeat(length);
            let padding = &padding[..length];
            input.extend([GOOD, padding, b"\n", padding, GOOD, b"\n", padding, b"\n"].concat());
        }
        input.extend([&any_bytes(&mut rng, length)[..], b"\n", GOOD].concat());
        compare(&pieces(&mut rng, &input), Duration::ZERO);
    }
}

/// A single line of ten million bytes, and any bytes at all.
#[test]
fn rubbish() {
    let _turn = turn();
    let mut rng = Rng::new(125);
    let rubbish = any_bytes(&mut rng, 3_000_000);
    compare(&pieces(&mut rng, &rubbish), Duration::ZERO);
    let line = vec![b'7'; 10_000_000];
    compare(&[&line], Duration::ZERO);
    compare(&[&line, b"\n", GOOD], Duration::ZERO);
}

/// Feeds a program until it takes no more, or far more than any buffer holds.
fn feed_without_end(child: &mut Child) {
    let mut input = child.stdin.take().expect("the input is a pipe");
    let block = [GOOD, b"\n"].concat().repeat(5_000);
    for _ in 0..2_000 {
        if input.write_all(&block).is_err() {
            return;
        }
    }
    panic!("the program reads on though its output has failed");
}

fn end_of(child: &mut Child) -> ExitStatus {
    let begun = Instant::now();
    while begun.elapsed() < Duration::from_secs(20) {
        if let Some(status) = child.try_wait().expect("the program can be waited for") {
            return status;
        }
        thread::sleep(Duration::from_millis(5));
    }
    child.kill().expect("the program can be ended");
    panic!("the program does not end though its output has failed");
}

/// What a program printed and said, and how it ended.
fn ended(mut child: Child) -> (Vec<u8>, String, ExitStatus) {
    let status = end_of(&mut child);
    let output = child.wait_with_output().expect("the program ends");
    let said = String::from_utf8(output.stderr).expect("it says text");
    (output.stdout, said, status)
}

fn assert_ended(found: (Vec<u8>, String, ExitStatus), printed: &[u8], said: &str) {
    let (output, errors, status) = found;
    assert_eq!(
        output.escape_ascii().to_string(),
        printed.escape_ascii().to_string()
    );
    assert_eq!(errors, said);
    assert!(status.success(), "{status:?}");
}

/// A directory can be opened and not read.
#[test]
fn input_from_a_directory() {
    let _turn = turn();
    for program in programs() {
        let folder = File::open("/").expect("there is a directory");
        let child = spawn(command(&program).stdin(folder), Stdio::piped());
        assert_ended(ended(child), b"", "zange: standard input: Is a directory\n");
    }
}

#[test]
fn input_closed() {
    let _turn = turn();
    for program in programs() {
        let child = spawn(&mut command_after("exec <&-", &program), Stdio::piped());
        assert_ended(
            ended(child),
            b"",
            "zange: standard input: Bad file descriptor\n",
        );
    }
}

/// A pipe in which more is still to come, and from which a program would not wait for it. Whole lines are
/// answered, and what is there of another is not: nobody sent it so.
#[test]
fn input_cut_in_a_line() {
    let _turn = turn();
    let line = [GOOD, b"\n"].concat();
    let answer = b"2016-12-31T23:59:60.000Z\n";
    let inputs: [(&[u8], &[u8]); 5] = [
        (b"", b""),
        (b"2016-12-31T23:59:59", b""),
        (&line, answer),
        (&[&line, &b"2016-12-31T23:59:59"[..]].concat(), answer),
        (&[&line, &[b'0'; 100][..]].concat(), answer),
    ];
    for program in programs() {
        for (input, printed) in inputs {
            let (from, mut to) = pipe_without_waiting();
            to.write_all(input).expect("the pipe takes it");
            let child = spawn(command(&program).stdin(from), Stdio::piped());
            let said = "zange: standard input: Resource temporarily unavailable\n";
            assert_ended(ended(child), printed, said);
        }
    }
}

/// Both ends of a pipe, of which the one to read from does not block.
fn pipe_without_waiting() -> (File, File) {
    static COUNT: AtomicU64 = AtomicU64::new(0);
    let name = format!("pipe-{}-{}", process::id(), COUNT.fetch_add(1, Relaxed));
    let path = env::temp_dir().join(name);
    let made = Command::new("mkfifo").arg(&path).status();
    assert!(made.expect("there is mkfifo").success());
    const NO_WAIT: i32 = 0o4000;
    let from = OpenOptions::new()
        .read(true)
        .custom_flags(NO_WAIT)
        .open(&path);
    let to = OpenOptions::new().write(true).open(&path);
    fs::remove_file(&path).expect("the pipe needs its name no more");
    (
        from.expect("it is there to read"),
        to.expect("and to write"),
    )
}

/// A library that has the first calls of a stream interrupted, before they move a byte.
fn interrupting() -> PathBuf {
    static BUILT: OnceLock<PathBuf> = OnceLock::new();
    let build = || {
        let source = Path::new(env!("CARGO_MANIFEST_DIR")).join("../c/interrupted.c");
        let library = Path::new(env!("CARGO_TARGET_TMPDIR")).join("interrupted.so");
        let compiler = env::var("HZ_CC").unwrap_or_else(|_| "gcc".to_string());
        let mut command = Command::new(compiler);
        command.args(["-std=c99", "-shared", "-fPIC", "-o"]);
        let status = command.arg(&library).arg(source).status();
        assert!(status.expect("there is a C compiler").success());
        library
    };
    BUILT.get_or_init(build).clone()
}

/// An interrupted call is made again, a thousand times at most.
#[test]
fn interrupted_calls() {
    let _turn = turn();
    let line = [GOOD, b"\n"].concat();
    for program in programs() {
        for (stream, times) in ["input", "output"]
            .into_iter()
            .flat_map(|stream| [0, 1, 1_000, 1_001, u32::MAX].map(|times| (stream, times)))
        {
            let mut command = command(&program);
            command.env("LD_PRELOAD", interrupting());
            command.env("INTERRUPTED_STREAM", stream);
            command.env("INTERRUPTED_TIMES", times.to_string());
            let mut child = spawn(command.stdin(Stdio::piped()), Stdio::piped());
            let mut input = child.stdin.take().expect("the input is a pipe");
            // A program that has ended takes none, which its answers tell.
            let _ = input.write_all(&line);
            drop(input);
            let failed = format!("zange: standard {stream}: Interrupted system call\n");
            match times {
                0..=1_000 => assert_ended(ended(child), b"2016-12-31T23:59:60.000Z\n", ""),
                _ => assert_ended(ended(child), b"", &failed),
            }
        }
    }
}

/// The signal of a broken pipe ends a program without a word, unless it is ignored: then the program says so. In a program in
/// Rattle it is always ignored, from the start on.
#[test]
fn output_closed_early() {
    let _turn = turn();
    const BROKEN_PIPE: i32 = 13;
    for program in programs() {
        for wanted in [0, 1, 25, 100_000] {
            for ignored in [false, true] {
                let mut command = match ignored {
                    false => command(&program),
                    true => command_after("trap '' PIPE", &program),
                };
                let mut child = spawn(command.stdin(Stdio::piped()), Stdio::piped());
                let output = child.stdout.take().expect("the output is a pipe");
                let reader = thread::spawn(move || {
                    let mut taken = Vec::new();
                    let read = output.take(wanted).read_to_end(&mut taken);
                    read.expect("the output is read");
                });
                feed_without_end(&mut child);
                let (_, said, status) = ended(child);
                let ignored = ignored || program == zange();
                match ignored {
                    false => assert_eq!((said.as_str(), status.signal()), ("", Some(BROKEN_PIPE))),
                    true => assert_eq!(said, "zange: standard output: Broken pipe\n"),
                }
                assert_eq!(status.success(), ignored, "{status:?}");
                reader.join().expect("the reader ends");
            }
        }
    }
}

#[test]
fn output_to_a_full_device() {
    let _turn = turn();
    for program in programs() {
        let full = OpenOptions::new().write(true).open("/dev/full");
        let full = full.expect("there is a full device");
        let mut child = start(&program, full.into());
        feed_without_end(&mut child);
        let said = "zange: standard output: No space left on device\n";
        assert_ended(ended(child), b"", said);
    }
}

/// Also when the only answer is that of a last line without its line feed.
#[test]
fn output_closed() {
    let _turn = turn();
    for program in programs() {
        let mut command = command_after("exec >&-", &program);
        let mut child = spawn(command.stdin(Stdio::piped()), Stdio::piped());
        let mut input = child.stdin.take().expect("the input is a pipe");
        input.write_all(GOOD).expect("the program takes it");
        drop(input);
        let said = "zange: standard output: Bad file descriptor\n";
        assert_ended(ended(child), b"", said);
    }
}
