//! Lists of records for the writer of journals, and what the model makes of them.

use std::fmt::Write;

use blocks::{record, set_up, Block, Post, BODY, MOST_IN_RECORD, POST, SUMS};

use crate::floats::{self, RANGES, SPECIALS};
use crate::lists::{faulty, faulty_post};
use crate::rng::Rng;
use crate::site;
use crate::year::Year;

/// The status of a record that is cut short or has another tag.
pub const MALFORMED: u8 = 255;

/// A record as the writer takes it.
#[derive(Clone, Copy, Debug)]
pub enum Record<'a> {
    /// A set-up block by its kind, count and body.
    SetUp(u8, u8, &'a [u8]),
    /// A post.
    Post(&'a [u8]),
    /// The end of a block.
    End,
    /// Cut short, or with another tag; nothing behind it is read.
    Malformed,
}

/// The records of a list.
pub struct Records<'a> {
    rest: &'a [u8],
}

/// The records that a list's bytes say.
pub fn records(list: &[u8]) -> Records<'_> {
    Records { rest: list }
}

impl<'a> Iterator for Records<'a> {
    type Item = Record<'a>;

    fn next(&mut self) -> Option<Record<'a>> {
        if self.rest.is_empty() {
            return None;
        }
        let read = cut(self.rest).and_then(|(tag, bytes, rest)| Some((meaning(tag, bytes)?, rest)));
        let (record, rest) = read.unwrap_or((Record::Malformed, &[]));
        self.rest = rest;
        Some(record)
    }
}

/// The first record's tag and bytes, and what is behind it; none where it is cut short.
fn cut(list: &[u8]) -> Option<(u8, &[u8], &[u8])> {
    let [tag, low, high, rest @ ..] = list else {
        return None;
    };
    let length = usize::from(u16::from_le_bytes([*low, *high]));
    let (bytes, rest) = rest.split_at_checked(length)?;
    Some((*tag, bytes, rest))
}

/// What a record says; none for another tag.
fn meaning(tag: u8, bytes: &[u8]) -> Option<Record<'_>> {
    let byte = |place: usize| bytes.get(place).copied().unwrap_or(0);
    match tag {
        b'S' => {
            let body = bytes.get(2..).unwrap_or(&[]);
            Some(Record::SetUp(byte(0), byte(1), body))
        }
        b'P' => Some(Record::Post(bytes)),
        b'E' => Some(Record::End),
        _ => None,
    }
}

/// What the model's writer answers to a record.
fn give(writer: &mut model::Writer, record: Record) -> Result<(), u8> {
    match record {
        Record::SetUp(kind, count, body) => writer.set_up(kind, count, body),
        Record::Post(bytes) => writer.post(bytes),
        Record::End => {
            writer.end();
            Ok(())
        }
        Record::Malformed => Err(MALFORMED),
    }
}

/// What the host call should answer: a writer that has the journal, or the status and the place of the first record that
/// isn't taken.
pub fn whole(list: &[u8], room: usize) -> Result<model::Writer, (u8, usize)> {
    let mut writer = model::Writer::new(room);
    for (place, record) in records(list).enumerate() {
        give(&mut writer, record).map_err(|status| (status, place))?;
    }
    writer.end();
    Ok(writer)
}

/// What the program should write: the journal of the records that are taken, and the place and status of each other.
pub fn taken(list: &[u8], room: usize) -> (Vec<u8>, Vec<(usize, u8)>) {
    let mut writer = model::Writer::new(room);
    let mut refused = Vec::new();
    for (place, record) in records(list).enumerate() {
        if let Err(status) = give(&mut writer, record) {
            refused.push((place, status));
        }
    }
    writer.end();
    (writer.journal().to_vec(), refused)
}

/// The program's lines for records that aren't taken.
pub fn lines(refused: &[(usize, u8)]) -> String {
    let mut lines = String::new();
    for (place, status) in refused {
        let written = match *status {
            MALFORMED => writeln!(lines, "record {place} malformed"),
            number => writeln!(lines, "record {place} {number}"),
        };
        written.expect("a string takes all");
    }
    lines
}

/// Adds the record of a set-up block.
pub fn add_set_up(list: &mut Vec<u8>, block: &Block) {
    record(list, b'S', &set_up(block[4], block[5], &block[BODY..SUMS]));
}

/// Adds the record of a post.
pub fn add_post(list: &mut Vec<u8>, post: &[u8]) {
    record(list, b'P', post);
}

/// Adds the record of an end.
pub fn add_end(list: &mut Vec<u8>) {
    record(list, b'E', &[]);
}

/// The records of a journal: its set-up blocks, and its posts with an end before each block of them.
pub fn of_journal(blocks: &[Block]) -> Vec<u8> {
    let mut list = Vec::new();
    for block in blocks {
        if block[4] != 3 {
            add_set_up(&mut list, block);
            continue;
        }
        add_end(&mut list);
        let posts = block[BODY..].chunks(POST).take(block[5].into());
        posts.for_each(|post| add_post(&mut list, post));
    }
    list
}

/// A year's records with an end here and there, and before a record, once in so many, one that is mostly refused; 0 is
/// none of them.
pub fn any(rng: &mut Rng, faults: u64) -> Vec<u8> {
    let year = Year::any(rng);
    let blocks = year.blocks();
    let mut list = Vec::new();
    for block in year.site.blocks() {
        perhaps_faulty(rng, &mut list, &blocks, faults);
        add_set_up(&mut list, &block);
        perhaps_end(rng, &mut list, 20);
    }
    let pace = rng.pick(&[2, 5, 12, 40, 1_000]);
    for post in &year.posts {
        perhaps_faulty(rng, &mut list, &blocks, faults);
        add_post(&mut list, &post.bytes());
        perhaps_end(rng, &mut list, pace);
    }
    perhaps_faulty(rng, &mut list, &blocks, faults);
    list
}

/// Ends, once in so many times: one, two, or one with bytes that are passed over.
fn perhaps_end(rng: &mut Rng, list: &mut Vec<u8>, pace: u64) {
    if !rng.once_in(pace) {
        return;
    }
    match rng.below(6) {
        0 => (0..2).for_each(|_| add_end(list)),
        1 => record(list, b'E', &vec![b'S'; rng.size(600) as usize]),
        _ => add_end(list),
    }
}

fn perhaps_faulty(rng: &mut Rng, list: &mut Vec<u8>, blocks: &[Block], faults: u64) {
    if faults > 0 && rng.once_in(faults) {
        add_faulty(rng, list, blocks);
    }
}

/// A record that is mostly refused, made of a journal's blocks.
fn add_faulty(rng: &mut Rng, list: &mut Vec<u8>, blocks: &[Block]) {
    let block = rng.pick(blocks);
    match rng.below(15) {
        0 | 1 => add_set_up(list, &block),
        2 | 3 => add_set_up(list, &faulty(rng, &block)),
        4 => {
            let other = site::any(rng).blocks();
            add_set_up(list, &rng.pick(&other));
        }
        5 => record(list, b'S', &odd_set_up(rng, &block)),
        6 => record(list, b'S', &any_bytes(rng, &[0, 1, 2, 3, 502])),
        7 => record(list, b'P', &any_bytes(rng, &[0, 1, 47, 48, 49, 96, 500])),
        8 => record(list, b'P', &vec![0; MOST_IN_RECORD - rng.place(2)]),
        9..=12 => add_post(list, &odd_floats(rng).bytes()),
        _ => add_post(list, &odd_post(rng, blocks)),
    }
}

/// A set-up block of another kind, count or length of its body.
fn odd_set_up(rng: &mut Rng, block: &Block) -> Vec<u8> {
    let mut bytes = set_up(block[4], block[5], &block[BODY..SUMS]);
    match rng.below(4) {
        0 => bytes[0] = rng.pick(&[0, 1, 2, 3, 4, 5, 6, 255]),
        1 => bytes[1] = rng.below(10) as u8,
        _ => bytes.resize(rng.pick(&[0, 1, 2, 412, 501, 503, 514, MOST_IN_RECORD]), 0),
    }
    bytes
}

/// A post of the journal with a fault, which may be one that only a book declines.
fn odd_post(rng: &mut Rng, blocks: &[Block]) -> Vec<u8> {
    let of_posts: Vec<Block> = blocks
        .iter()
        .copied()
        .filter(|block| block[4] == 3)
        .collect();
    if of_posts.is_empty() {
        return vec![0; POST];
    }
    let block = rng.pick(&of_posts);
    faulty_post(rng, &block)
}

/// A post whose floats are of any sort, and which is else laid out right.
fn odd_floats(rng: &mut Rng) -> Post {
    let form = rng.range(1, 3) as u8;
    if rng.once_in(3) {
        let mut post = match form {
            3 => Post::found((0, 0), 1, 1),
            kind => Post::stock(kind, 0, 1),
        };
        post.floats[rng.place(4)] = rng.pick(&SPECIALS);
        return post;
    }
    let floats = RANGES[form as usize - 1].map(|range| floats::any(rng, range));
    Post::vapour(form, (0, 0), floats)
}

fn any_bytes(rng: &mut Rng, lengths: &[usize]) -> Vec<u8> {
    (0..rng.pick(lengths)).map(|_| rng.word() as u8).collect()
}

/// A list that is cut anywhere, or has another byte where a tag or a length may be.
pub fn malformed(rng: &mut Rng) -> Vec<u8> {
    let mut list = any(rng, 0);
    let start = rng.pick(&starts(&list));
    match rng.below(5) {
        0 => list.truncate(rng.place(list.len())),
        1 => list.truncate(start + rng.range(1, 3) as usize),
        2 => list[start] = rng.word() as u8,
        3 => list[start] = rng.pick(&[0, b'B', b'R', b's', b'p', b'e', b'T', 255]),
        _ => list[start + 1 + rng.place(2)] = rng.word() as u8,
    }
    list
}

/// Where the records of a list that isn't malformed start.
fn starts(list: &[u8]) -> Vec<usize> {
    let mut starts = Vec::new();
    let mut rest = list;
    while let Some((_, _, behind)) = cut(rest) {
        starts.push(list.len() - rest.len());
        rest = behind;
    }
    starts
}
