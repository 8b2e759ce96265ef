//! Document 02 (a): the writer of journals, its turns, its declines and its room.

mod common;
use blocks::{xylene, BLOCK, BODY, SUMS};
use common::*;
use model::{filing, Book, Writer};

/// Room for so many blocks.
const fn room(blocks: usize) -> usize {
    blocks * BLOCK
}

/// Gives a set-up block by its kind, count and body.
fn give(writer: &mut Writer, block: &Block) -> Result<(), u8> {
    writer.set_up(block[4], block[5], &block[BODY..SUMS])
}

/// A writer with this room that has taken these set-up blocks.
fn writer(room: usize, set_up: &[Block]) -> Writer {
    let mut writer = Writer::new(room);
    for block in set_up {
        assert_eq!(give(&mut writer, block), Ok(()));
    }
    writer
}

/// Tries a set-up block that is to be declined, and that the writer stays as it was.
fn refuses(writer: &Writer, kind: u8, count: u8, body: &[u8], decline: u8) {
    let mut tried = writer.clone();
    assert_eq!(tried.set_up(kind, count, body), Err(decline));
    assert_eq!(&tried, writer);
}

/// The same of a block's kind, count and body.
fn refuses_block(writer: &Writer, block: &Block, decline: u8) {
    refuses(writer, block[4], block[5], &block[BODY..SUMS], decline);
}

/// The same of a post.
fn refuses_post(writer: &Writer, post: &[u8], decline: u8) {
    let mut tried = writer.clone();
    assert_eq!(tried.post(post), Err(decline), "{post:?}");
    assert_eq!(&tried, writer);
}

/// Gives posts that are taken.
fn take(writer: &mut Writer, posts: &[Post]) {
    for post in posts {
        assert_eq!(writer.post(post), Ok(()));
    }
}

/// Openings of 1 g, 2 g and so on.
fn openings(count: u64) -> Vec<Post> {
    (1..=count).map(|grams| opening(0, grams)).collect()
}

/// What a writer has written and what waits.
fn state(writer: &Writer) -> (usize, usize) {
    assert_eq!(writer.journal().len(), room(writer.blocks()));
    (writer.blocks(), writer.waiting())
}

#[test]
fn the_xylene_year_is_written_and_filed() {
    let mut writer = writer(room(3), &xylene());
    take(&mut writer, &xylene::posts());
    assert_eq!(state(&writer), (2, 5));
    assert_eq!(writer.journal(), xylene().concat());
    writer.end();
    assert_eq!(state(&writer), (3, 0));
    assert_eq!(writer.journal(), xylene::year().concat());
    assert_eq!(filing(writer.journal()), xylene::PRINTED.as_bytes());
}

#[test]
fn a_tenth_post_writes_its_block() {
    let mut writer = writer(room(4), &xylene());
    let given = openings(20);
    take(&mut writer, &given[..9]);
    assert_eq!(state(&writer), (2, 9));
    take(&mut writer, &given[9..10]);
    assert_eq!(state(&writer), (3, 0));
    assert_eq!(writer.journal()[room(2)..], posts(2, &given[..10]));
    let ten = writer.clone();
    writer.end();
    assert_eq!(writer, ten);
    take(&mut writer, &given[10..]);
    assert_eq!(state(&writer), (4, 0));
    assert_eq!(writer.journal()[room(3)..], posts(3, &given[10..]));
    let twenty = writer.clone();
    writer.end();
    assert_eq!(writer, twenty);
}

#[test]
fn an_end_with_nothing_waiting_writes_nothing() {
    let mut writer = Writer::new(room(9));
    writer.end();
    assert_eq!(writer, Writer::new(room(9)));
    for block in xylene() {
        give(&mut writer, &block).unwrap();
        let before = writer.clone();
        writer.end();
        writer.end();
        assert_eq!(writer, before);
    }
    take(&mut writer, &openings(1));
    writer.end();
    let ended = writer.clone();
    writer.end();
    assert_eq!(writer, ended);
    assert_eq!(state(&writer), (3, 0));
}

/// "A post after it begins a new block."
#[test]
fn an_end_in_the_middle_begins_a_new_block() {
    let mut writer = writer(room(9), &xylene());
    let given = openings(16);
    take(&mut writer, &given[..3]);
    writer.end();
    assert_eq!(state(&writer), (3, 0));
    take(&mut writer, &given[3..15]);
    assert_eq!(state(&writer), (4, 2));
    writer.end();
    take(&mut writer, &given[15..]);
    writer.end();
    let blocks = blocks::journal(xylene(), &given, &[3, 10, 2, 1]);
    assert_eq!(writer.journal(), blocks.concat());
}

/// 13 at the kind 1 block, at the stage, or at the first post, and what was refused isn't taken.
#[test]
fn too_little_room() {
    let [first, second] = [0, 1].map(|place| xylene()[place]);
    for room in [0, 1, 511] {
        let writer = Writer::new(room);
        refuses_block(&writer, &first, 13);
        refuses_block(&writer, &second, 4);
        refuses_post(&writer, &opening(0, 1), 4);
    }
    for room in [512, 513, 1_023] {
        let writer = writer(room, &[first]);
        refuses_block(&writer, &first, 4);
        refuses_block(&writer, &second, 13);
        refuses_post(&writer, &opening(0, 1), 4);
    }
    for room in [1_024, 1_025, 1_535] {
        let mut writer = writer(room, &[first, second]);
        refuses_post(&writer, &opening(0, 1), 13);
        writer.end();
        assert_eq!(state(&writer), (2, 0));
    }
}

/// Posts that join a block, the tenth and an end have the room that its first post found.
#[test]
fn what_joins_a_block_needs_no_room() {
    let mut writer = writer(room(3), &xylene());
    take(&mut writer, &openings(9));
    assert_eq!(state(&writer), (2, 9));
    let mut ended = writer.clone();
    ended.end();
    assert_eq!(state(&ended), (3, 0));
    refuses_post(&ended, &opening(0, 1), 13);
    take(&mut writer, &openings(1));
    assert_eq!(state(&writer), (3, 0));
    refuses_post(&writer, &opening(0, 1), 13);
}

/// 13 comes "after all others".
#[test]
fn no_room_is_asked_last() {
    let full = writer(room(2), &xylene());
    refuses_post(&full, &[], 6);
    refuses_post(&full, &opening(1, 1), 6);
    refuses_post(&full, &with_floats(opening(0, 1), [1; 4]), 7);
    refuses_post(&full, &opening(0, 1), 13);
    for block in xylene() {
        refuses_block(&full, &block, 4);
    }
    let none = Writer::new(0);
    refuses_block(&none, &altered(xylene()[0], 507, &[1]), 6);
    refuses(&none, 1, 1, &[], 6);
    refuses(&none, 1, 9, &xylene()[0][BODY..SUMS], 6);
}

/// The turns: kind 1 first and once, kind 2 in order, posts from the last stage on.
#[test]
fn out_of_turn() {
    let first = plan(&[(80, 1)], &[&[450_000]], 2);
    let stages = [0, 1].map(|place| stage(place, 1, 1, &[TO_AIR]));
    let mut writer = Writer::new(room(9));
    refuses_block(&writer, &stages[0], 4);
    refuses_post(&writer, &opening(0, 1), 4);
    refuses_post(&writer, &[], 4);
    give(&mut writer, &first).unwrap();
    refuses_block(&writer, &first, 4);
    refuses_block(&writer, &stages[1], 4);
    refuses_block(&writer, &block(2, 255, 0, &[]), 4);
    refuses_post(&writer, &opening(0, 1), 4);
    give(&mut writer, &stages[0]).unwrap();
    refuses_block(&writer, &stages[0], 4);
    refuses_post(&writer, &[255; 48], 4);
    give(&mut writer, &stages[1]).unwrap();
    refuses_block(&writer, &stages[1], 4);
    refuses_block(&writer, &block(2, 2, 0, &[]), 4);
    take(&mut writer, &openings(1));
}

/// While posts wait, a set-up block is out of its turn whatever it holds, and the posts stay.
#[test]
fn a_set_up_while_posts_wait() {
    let mut writer = writer(room(9), &xylene());
    take(&mut writer, &openings(3));
    for block in xylene() {
        refuses_block(&writer, &block, 4);
        refuses(&writer, block[4], block[5], &[], 4);
    }
    refuses(&writer, 2, 1, &[0; 500], 4);
    refuses(&writer, 3, 1, &[0; 500], 6);
    writer.end();
    assert_eq!(writer.journal()[room(2)..], posts(2, &openings(3)));
}

/// "A set-up kind other than 1 or 2 is a 6 in any turn."
#[test]
fn another_kind_is_a_6_in_any_turn() {
    let mut writer = Writer::new(room(9));
    for block in xylene() {
        for kind in [0, 3, 4, 255] {
            refuses(&writer, kind, block[5], &block[BODY..SUMS], 6);
            refuses(&writer, kind, 1, &[], 6);
        }
        give(&mut writer, &block).unwrap();
    }
    refuses(&writer, 3, 1, &posts(2, &openings(1))[BODY..SUMS], 6);
}

/// "A body of another length is a 6 after 4."
#[test]
fn a_body_of_another_length() {
    let [first, second] = [0, 1].map(|place| xylene()[place]);
    let long = [&first[BODY..SUMS], &[0]].concat();
    let fresh = Writer::new(room(9));
    let begun = writer(room(9), &[first]);
    for length in [0, 1, 410, 499, 501] {
        refuses(&fresh, 1, 1, &long[..length], 6);
        refuses(&fresh, 2, 0, &long[..length], 4);
        refuses(&begun, 1, 1, &long[..length], 4);
        refuses(&begun, 2, 1, &long[..length], 4);
        let body: Vec<u8> = second[BODY..].iter().copied().take(length).collect();
        refuses(&begun, 2, 0, &body, 6);
    }
}

#[test]
fn the_layout_of_a_set_up() {
    let [first, second] = [0, 1].map(|place| xylene()[place]);
    let fresh = Writer::new(room(9));
    let begun = writer(room(9), &[first]);
    for (at, byte) in [(5, 0), (5, 2), (8, 0), (9, 9), (10, 0), (26, 3), (38, 1)] {
        refuses_block(&fresh, &altered(first, at, &[byte]), 6);
    }
    for (at, byte) in [(8, 0), (9, 3), (10, 0), (14, 255), (27, 1), (507, 1)] {
        refuses_block(&begun, &altered(second, at, &[byte]), 6);
    }
}

#[test]
fn the_layout_and_the_floats_of_a_post() {
    let mut writer = writer(room(9), &xylene());
    take(&mut writer, &openings(4));
    for length in [0, 1, 47, 49, 96, 512] {
        refuses_post(&writer, &vec![0; length], 6);
    }
    for wrong in [
        post(0, 0, 0, 0, 0, 0),
        post(15, 0, 0, 0, 1, 1),
        found(0, 0, 1_000_001, 1),
        opening(1, 1),
        opening(0, 0),
        issued(0, 1, 1),
        formed(0, 1, 1),
        leaves(5, 0, 0, 1_000_001, 1),
        post(13, 0, 0, 0, 0, 1),
        vapour(4, 0, 0, [f64::NAN; 4]),
    ] {
        refuses_post(&writer, &wrong, 6);
    }
    for wrong in [
        with_floats(opening(0, 1), [0, 0, 0, 1]),
        with_floats(close(), [f64::INFINITY.to_bits(), 0, 0, 0]),
        vapour(1, 0, 0, [0.5, 0.0, 0.0, 0.0]),
        vapour(2, 0, 0, [1.0, 1.0, 0.0, 1.0]),
        vapour(3, 0, 0, [f64::NAN, 0.0, 0.0, 0.0]),
        vapour(3, 0, 0, [-f64::from_bits(1), 0.0, 0.0, 0.0]),
    ] {
        refuses_post(&writer, &wrong, 7);
    }
    take(&mut writer, &[with_floats(opening(0, 1), [1 << 63; 4])]);
    assert_eq!(state(&writer), (2, 5));
}

/// "It has no book: 5, 8, 9, 10 and 11 are not its matter, so that it takes posts after a close."
#[test]
fn what_only_a_book_declines_is_written() {
    let mut writer = writer(
        room(500),
        &[plan(&[(7, 1)], &[&[0]], 1), stage(0, 1, 1, &[TO_AIR])],
    );
    let odd = [
        close(),
        opening(0, 1),
        vapour(1, 0, 0, [1.0, 0.0, 0.0, 0.0]),
        vapour(3, 0, 0, [1e9; 4]),
        issued(0, 0, 2_000_000_000),
        leaves(5, 0, 0, 1, 1),
        close(),
    ];
    take(&mut writer, &odd);
    take(&mut writer, &openings(4_004));
    writer.end();
    assert_eq!(state(&writer), (2 + 402, 0));
    assert_eq!(filing(writer.journal()), b"refused 2 5\n");
}

/// With room left, 65,536 blocks are the most; the last one is filled as any other.
#[test]
fn the_most_blocks() {
    let mut writer = writer(room(65_540), &xylene());
    for _ in 2..65_535 {
        take(&mut writer, &openings(1));
        writer.end();
    }
    assert_eq!(state(&writer), (65_535, 0));
    take(&mut writer, &openings(9));
    assert_eq!(state(&writer), (65_535, 9));
    take(&mut writer, &openings(1));
    assert_eq!(state(&writer), (65_536, 0));
    let last = &writer.journal()[room(65_535)..];
    assert_eq!(
        last,
        posts(65_535, &[openings(9), openings(1)].concat()),
        "the last block has the number 65,535"
    );
    refuses_post(&writer, &opening(0, 1), 13);
    refuses_post(&writer, &opening(0, 0), 6);
    refuses_post(&writer, &with_floats(close(), [1; 4]), 7);
    refuses_block(&writer, &xylene()[0], 4);
    writer.end();
    assert_eq!(state(&writer), (65_536, 0));
}

/// A small generator (xorshift), so that a run can be repeated.
fn below(dice: &mut u64, end: u64) -> u64 {
    *dice ^= *dice << 13;
    *dice ^= *dice >> 7;
    *dice ^= *dice << 17;
    *dice % end
}

/// A post of the xylene plant, at times one that a writer or a book declines.
fn draw(dice: &mut u64) -> Post {
    let grams = 1 + below(dice, 1_000);
    match below(dice, 33) {
        0..=9 => opening(0, grams * 10),
        10..=18 => issued(0, 0, grams),
        19..=26 => leaves(5 + below(dice, 7) as u8, 0, 0, 100_000, grams),
        27 => vapour(3, 0, 0, [grams as f64 * 1e-6, 1.0, 0.0, 0.0]),
        28 => opening(below(dice, 2) as u8, grams - 1),
        29 | 30 => found(0, 0, 1 + below(dice, 1_000_001) as u32, grams),
        _ => with_floats(opening(0, grams), [below(dice, 2), 0, 0, 1 << 63]),
    }
}

/// The posts of a journal behind its set-up, in order.
fn written_posts(journal: &[u8]) -> Vec<u8> {
    let of_block = |block: &[u8]| block[BODY..BODY + 48 * usize::from(block[5])].to_vec();
    journal[room(2)..]
        .chunks(BLOCK)
        .flat_map(of_block)
        .collect()
}

/// What a writer wrote, and what a book took of the same posts, one by one.
struct Written {
    journal: Vec<u8>,
    /// The posts that the writer took, in order.
    taken: Vec<u8>,
    book: Book,
    /// Whether the book took them all.
    all: bool,
}

/// Posts and ends drawn at random, and an end behind them.
fn written(dice: &mut u64) -> Written {
    let mut writer = writer(room(2 + below(dice, 5) as usize), &xylene());
    let (mut book, mut taken, mut all) = (book(&xylene()), vec![], true);
    for _ in 0..below(dice, 40) {
        let post = draw(dice);
        if writer.post(&post).is_ok() {
            all &= book.post(&post).is_ok();
            taken.extend(post);
        }
        if below(dice, 9) == 0 {
            writer.end();
        }
    }
    writer.end();
    Written {
        journal: writer.journal().to_vec(),
        taken,
        book,
        all,
    }
}

/// The answers to a journal's blocks, each given to the book that the one before it left.
fn answers(book: &mut Book, journal: &[u8]) -> Vec<Result<(), u8>> {
    let blocks = journal.chunks(BLOCK);
    blocks.map(|block| book.block(block)).collect()
}

/// "If a fresh book takes the set-up and posts that the writer took, one by one, it also takes the
/// written journal, once ended, and then holds the same [...]; in every case the blocks, once
/// ended, hold the same posts in order."
#[test]
fn a_journal_says_what_its_writer_took() {
    let mut dice = 0x2545_f491_4f6c_dd1d;
    let (mut held, mut refused) = (0, 0);
    for _ in 0..600 {
        let mut written = written(&mut dice);
        assert_eq!(written_posts(&written.journal), written.taken);
        let mut whole = Book::new();
        let answers = answers(&mut whole, &written.journal);
        if !written.all {
            refused += 1;
            assert!(answers.contains(&Err(11)));
            continue;
        }
        held += 1;
        assert!(answers.iter().all(|answer| *answer == Ok(())));
        assert_eq!(whole.report(0), written.book.report(0));
        assert_eq!(whole.post(&close()), written.book.post(&close()));
        assert_eq!(whole.report(0), written.book.report(0));
    }
    assert!(held > 100 && refused > 100, "{held} {refused}");
}
