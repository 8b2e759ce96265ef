//! Inputs that can't be read and outputs that can't be written. A program says so in one line on standard error, and no
//! part of an answer stands on standard output.

use std::ffi::OsStr;
use std::fs::{self, File};
use std::io;
use std::path::{Path, PathBuf};
use std::process::{Command, Output, Stdio};

use blocks::{record, BLOCK};
use trials::c;
use trials::calls::List;
use trials::lists;
use trials::program;
use trials::rng::Rng;
use trials::trial::say;
use trials::writes;
use trials::year::Year;

const EINTR: u64 = 4;
const EIO: u64 = 5;
const EAGAIN: u64 = 11;
/// How often a read that a signal interrupts is tried.
const TRIES: u64 = 100;
/// How often a read fails: once, as often as may be where it is tried again, once more, and for good.
const TIMES: [u64; 4] = [1, TRIES - 1, TRIES, u64::MAX];
/// The most bytes that a read answers: all that were asked for, some of a block, and one.
const MOST: [usize; 3] = [65_536, 200, 1];

/// A file of the test's own.
fn file(name: &str, bytes: &[u8]) -> PathBuf {
    let path = Path::new(env!("CARGO_TARGET_TMPDIR")).join(name);
    fs::write(&path, bytes).expect("the file is written");
    path
}

fn open(path: &Path) -> Stdio {
    File::open(path).expect("the file is there").into()
}

/// A program on an input, with its output on a pipe.
fn run(command: &mut Command, stdin: Stdio) -> Output {
    let out = command.stdin(stdin).output().expect("the program runs");
    assert!(out.status.success(), "ended with {}", out.status);
    out
}

/// A program that a shell starts with a descriptor closed.
fn closed(program: &Path, descriptor: &str) -> Command {
    let mut command = Command::new("sh");
    command
        .arg("-c")
        .arg(format!("exec \"$0\" {descriptor}"))
        .arg(program);
    command
}

fn unread(name: &str) -> String {
    format!("{name}: standard input can't be read\n")
}

fn unwritten(name: &str) -> String {
    format!("{name}: standard output can't be written\n")
}

/// Stops where a program wrote something else.
fn expect(what: &str, out: &Output, stdout: &[u8], stderr: &str) {
    let written = String::from_utf8_lossy(&out.stdout);
    assert_eq!(written, String::from_utf8_lossy(stdout), "{what}");
    assert_eq!(String::from_utf8_lossy(&out.stderr), stderr, "{what}");
}

/// A journal of so many blocks that is taken.
fn journal(blocks: usize) -> Vec<u8> {
    let mut rng = Rng::new(7);
    loop {
        let year = Year::any(&mut rng).blocks();
        if year.len() >= blocks {
            return year[..blocks].as_flattened().to_vec();
        }
    }
}

/// The same with a bit of one block turned.
fn refused(blocks: usize, place: usize) -> Vec<u8> {
    let mut bytes = journal(blocks);
    bytes[place * BLOCK + 20] ^= 1;
    bytes
}

/// A list of calls with reports among them.
fn list() -> List {
    lists::mixed(&mut Rng::new(11))
}

/// An input for each program.
fn inputs() -> [(&'static str, PathBuf); 3] {
    let records = writes::of_journal(&blocks::xylene::year());
    [
        ("filing", file("whole.journal", &journal(7))),
        ("replay", file("whole.list", &list().records)),
        ("write", file("whole.records", &records)),
    ]
}

#[test]
fn what_is_no_input_is_told() {
    for (name, _) in inputs() {
        let program = program::built(name);
        let folder = open(Path::new(env!("CARGO_MANIFEST_DIR")));
        let out = run(&mut Command::new(&program), folder);
        expect("a directory", &out, b"", &unread(name));
        let out = run(&mut closed(&program, "<&-"), Stdio::null());
        expect("a closed input", &out, b"", &unread(name));
    }
}

#[test]
fn what_is_no_output_is_told() {
    for (name, input) in inputs() {
        let program = program::built(name);
        let full = File::options().write(true).open("/dev/full");
        let mut command = Command::new(&program);
        command.stdout(full.expect("the full device is there"));
        let child = command.stdin(open(&input)).stderr(Stdio::piped()).spawn();
        let out = child.and_then(|child| child.wait_with_output());
        let out = out.expect("the program runs");
        assert!(out.status.success(), "ended with {}", out.status);
        expect("a full device", &out, b"", &unwritten(name));
        let out = run(&mut closed(&program, ">&-"), open(&input));
        expect("a closed output", &out, b"", &unwritten(name));
    }
}

#[test]
fn a_pipe_whose_reader_is_gone_is_told() {
    for (name, input) in inputs() {
        let (reader, writer) = io::pipe().expect("there is a pipe");
        drop(reader);
        let mut command = Command::new(program::built(name));
        command.stdin(open(&input)).stdout(writer);
        let child = command.stderr(Stdio::piped()).spawn();
        let out = child.and_then(|child| child.wait_with_output());
        let out = out.expect("the program runs");
        assert!(out.status.success(), "ended with {}", out.status);
        expect("a pipe with no reader", &out, b"", &unwritten(name));
    }
}

/// A read of standard input that fails: from which call on, how often, with which error, and how many bytes another read
/// answers at most.
#[derive(Clone, Copy, Debug)]
struct Fault {
    first: u64,
    times: u64,
    error: u64,
    most: usize,
}

impl Fault {
    /// No read fails.
    fn none(most: usize) -> Fault {
        Fault {
            first: 0,
            times: 0,
            error: 0,
            most,
        }
    }

    /// Whether the input can be read for all that, where so many reads are made without it.
    fn passes(&self, reads: u64) -> bool {
        let again = self.error == EINTR && self.times < TRIES;
        again || self.first == 0 || self.first > reads
    }

    fn run(&self, program: &Path, library: &OsStr, input: &Path) -> Output {
        let mut command = Command::new(program);
        command
            .env("LD_PRELOAD", library)
            .env("READ_FIRST", self.first.to_string())
            .env("READ_TIMES", self.times.to_string())
            .env("READ_ERROR", self.error.to_string())
            .env("READ_MOST", self.most.to_string());
        run(&mut command, open(input))
    }
}

/// Every error, so often, from each of the calls on.
fn faults(most: usize, calls: &[u64]) -> impl Iterator<Item = Fault> + '_ {
    calls.iter().flat_map(move |&first| {
        TIMES.into_iter().flat_map(move |times| {
            [EIO, EINTR, EAGAIN].map(|error| Fault {
                first,
                times,
                error,
                most,
            })
        })
    })
}

/// The first calls, and those around the last.
fn calls(reads: u64) -> Vec<u64> {
    let mut calls: Vec<u64> = (1..=3).chain(reads.max(2) - 1..=reads + 1).collect();
    calls.sort();
    calls.dedup();
    calls
}

/// The library with the failing read, for one test.
fn preloaded(name: &str) -> PathBuf {
    let library = Path::new(env!("CARGO_TARGET_TMPDIR")).join(name);
    let source = Path::new(env!("CARGO_MANIFEST_DIR")).join("tests/c/read.c");
    let mut command = c::command();
    command
        .args(["-std=c11", "-shared", "-fPIC"])
        .arg(source)
        .arg("-o")
        .arg(&library);
    c::compile(&mut command);
    library
}

/// How many reads a part of so many bytes takes.
fn reads_of(bytes: usize, most: usize) -> u64 {
    bytes.div_ceil(most) as u64
}

/// A journal, and the place of the block that is refused.
fn filing_with(bytes: &[u8], refused: Option<usize>, library: &Path) -> u64 {
    let program = program::built("filing");
    let input = file("faulty.journal", bytes);
    let text = model::filing(bytes);
    assert_eq!(text.starts_with(b"refused"), refused.is_some());
    let mut runs = 0;
    for most in MOST {
        let parts = refused.map_or(bytes.len() / BLOCK, |place| place + 1) as u64;
        let end = u64::from(refused.is_none());
        let reads = parts * reads_of(BLOCK, most) + end;
        for fault in faults(most, &calls(reads)).chain([Fault::none(most)]) {
            let out = fault.run(&program, library.as_os_str(), &input);
            let (stdout, stderr) = match fault.passes(reads) {
                true => (&text[..], String::new()),
                false => (&b""[..], unread("filing")),
            };
            expect(&format!("filing, {fault:?}"), &out, stdout, &stderr);
            runs += 1;
        }
    }
    runs
}

#[test]
fn filing_never_files_from_a_failed_read() {
    let library = preloaded("filing_read.so");
    let mut runs = 0;
    for blocks in [0, 1, 3, 7] {
        runs += filing_with(&journal(blocks), None, &library);
    }
    runs += filing_with(&refused(7, 3), Some(3), &library);
    say(&format!("filing: {runs} runs with reads that fail"));
}

/// The reads of each record of a list: those of its tag and length, and those of what follows.
fn reads_of_records(mut records: &[u8], most: usize) -> Vec<u64> {
    let mut reads = Vec::new();
    while let [_, low, high, rest @ ..] = records {
        let size = usize::from(u16::from_le_bytes([*low, *high]));
        reads.push(reads_of(3, most) + reads_of(size, most));
        records = &rest[size..];
    }
    reads
}

/// The lines of the records that were read before a call.
fn lines_before(lines: &str, reads: &[u64], call: u64) -> String {
    let ends = reads.iter().scan(0, |sum, reads| {
        *sum += reads;
        Some(*sum)
    });
    let whole = ends.take_while(|&end| end < call).count();
    lines.split_inclusive('\n').take(whole).collect()
}

#[test]
fn replay_goes_no_further_than_a_failed_read() {
    let library = preloaded("replay_read.so");
    let program = program::built("replay");
    let List { records, lines, .. } = list();
    let input = file("faulty.list", &records);
    let mut runs = 0;
    for most in MOST {
        let reads = reads_of_records(&records, most);
        let all = reads.iter().sum::<u64>() + 1;
        for fault in faults(most, &calls(all)).chain([Fault::none(most)]) {
            let out = fault.run(&program, library.as_os_str(), &input);
            let (stdout, stderr) = match fault.passes(all) {
                true => (lines.clone(), String::new()),
                false => (lines_before(&lines, &reads, fault.first), unread("replay")),
            };
            let what = format!("replay, {fault:?}");
            expect(&what, &out, stdout.as_bytes(), &stderr);
            runs += 1;
        }
    }
    say(&format!("replay: {runs} runs with reads that fail"));
}

#[test]
fn write_never_writes_from_a_failed_read() {
    let library = preloaded("write_read.so");
    let program = program::built("write");
    let year = blocks::xylene::year();
    let records = writes::of_journal(&year);
    let input = file("faulty.records", &records);
    let mut runs = 0;
    for most in MOST {
        let all = reads_of_records(&records, most).iter().sum::<u64>() + 1;
        for fault in faults(most, &calls(all)).chain([Fault::none(most)]) {
            let out = fault.run(&program, library.as_os_str(), &input);
            let (stdout, stderr) = match fault.passes(all) {
                true => (year.as_flattened(), String::new()),
                false => (&b""[..], unread("write")),
            };
            expect(&format!("write, {fault:?}"), &out, stdout, &stderr);
            runs += 1;
        }
    }
    say(&format!("write: {runs} runs with reads that fail"));
}

/// A program's lines on standard error, piece by piece: each is tried, whatever became of the one before, and none is made again.
fn pieces_told(name: &str, library: &Path, input: &Path, pieces: &[&str]) -> u64 {
    let program = program::built(name);
    let mut runs = 0;
    for first in 1..=pieces.len() as u64 + 1 {
        for times in [1, 2, u64::MAX] {
            for error in [EIO, EINTR, EAGAIN] {
                let mut command = Command::new(&program);
                command
                    .env("LD_PRELOAD", library)
                    .env("TELL_FIRST", first.to_string())
                    .env("TELL_TIMES", times.to_string())
                    .env("TELL_ERROR", error.to_string());
                let out = run(&mut command, open(input));
                let fails = |place: u64| place >= first && place - first < times;
                let told = (1..)
                    .zip(pieces)
                    .filter(|(place, _)| !fails(*place))
                    .map(|(_, piece)| *piece);
                let what = format!("{name}, {times} times from {first}, {error}");
                expect(&what, &out, b"", &told.collect::<String>());
                runs += 1;
            }
        }
    }
    runs
}

#[test]
fn a_line_goes_on_behind_a_piece_that_fails() {
    let library = preloaded("told.so");
    let folder = Path::new(env!("CARGO_MANIFEST_DIR"));
    let mut runs = 0;
    for name in ["filing", "write", "replay"] {
        runs += pieces_told(
            name,
            &library,
            folder,
            &[name, ": standard input can't be read\n"],
        );
    }
    let mut records = Vec::new();
    record(&mut records, b'S', &[9]);
    record(&mut records, b'P', &[]);
    record(&mut records, b'Z', &[]);
    let input = file("refused.records", &records);
    let declined = |place, decline| ["record ", place, " ", decline, "\n"];
    let malformed = ["record ", "2", " malformed\n"];
    let pieces = [&declined("0", "6")[..], &declined("1", "4"), &malformed[..]];
    runs += pieces_told("write", &library, &input, &pieces.concat());
    say(&format!("lines: {runs} runs with writes that fail"));
}
