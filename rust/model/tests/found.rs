//! Document 02 (b): drums that come in as waste, post kind 14.

mod common;
use blocks::BLOCK;
use common::*;
use model::{filing, Book, Report, Writer};

/// The most of a post's content and grams.
const CONTENT: u32 = 1_000_000;
const GRAMS: u64 = 2_000_000_000;

/// The plant's report of a substance after posts that it takes.
fn report(posts: &[Post], substance: usize) -> Report {
    let mut book = plant();
    for post in posts {
        assert_eq!(book.post(post), Ok(()), "{post:?}");
    }
    book.report(substance).unwrap()
}

/// A report of the plant's substance in which so much was found, in so many posts, and nothing else moved.
fn only_found(posts: u32, number: u16, amount: u64) -> Report {
    Report {
        posts,
        number,
        handled: amount,
        due: false,
        store: 0,
        held: 0,
        shipped: 0,
        consumed: 0,
        destroyed: 0,
        headings: [0, 0, 0, 0, 0, amount],
        figures: None,
    }
}

/// "Its amount goes to off site in the same step and counts as handled", wherever the stage's residues
/// and water go.
#[test]
fn it_goes_off_site_where_nothing_is_held() {
    for stage in 0..2 {
        for (substance, number) in [(0, 7), (1, 300), (2, 400)] {
            let year = [found(stage, substance, 30, 7)];
            let place = usize::from(substance);
            assert_eq!(report(&year, place), only_found(1, number, 210));
            let other = (place + 1) % 3;
            assert_eq!(report(&year, other).handled, 0);
            assert_eq!(report(&year, other).headings, [0; 6]);
        }
    }
}

/// The close moves what is held, and of what was found nothing is.
#[test]
fn the_close_leaves_it() {
    let year = [found(0, 2, 1_000, 3), found(1, 2, 1_000, 4), close()];
    assert_eq!(report(&year, 2), only_found(3, 400, 7_000));
}

/// "Kind 14 needs no holding and leaves it alone": no 11, and what is held is neither more nor less.
#[test]
fn the_holding_is_left_alone() {
    let mut book = plant();
    book.post(&formed(0, 1, 10)).unwrap();
    for (content, grams) in [(1, 9), (1, 10), (1, 11), (CONTENT, GRAMS)] {
        assert_eq!(book.post(&found(0, 1, content, grams)), Ok(()));
        assert_eq!(book.report(1).unwrap().held, 10);
        declines(&book, &leaves(6, 0, 1, 1, 11), 11);
        declines(&book, &leaves(6, 1, 1, 1, 1), 11);
    }
    assert_eq!(book.post(&leaves(6, 0, 1, 1, 10)), Ok(()));
    let report = book.report(1).unwrap();
    let found = 9 + 10 + 11 + 2_000_000_000_000_000;
    assert_eq!((report.handled, report.held), (10 + found, 0));
    assert_eq!(report.headings, [0, 0, 0, 0, 0, 10 + found]);
}

/// The store is neither asked nor altered, also where a material has the substance.
#[test]
fn the_store_is_left_alone() {
    let report = report(&[opening(0, 5), found(0, 1, 400_000, 9)], 1);
    assert_eq!((report.store, report.handled), (2_000_000, 3_600_000));
}

/// "This cut is for materials only, never for contents stated in a post."
#[test]
fn its_content_is_not_cut() {
    for (substance, contents) in [(0, [1, 9_999, 10_000]), (2, [1, 999, 1_000])] {
        for content in contents {
            let report = report(&[found(0, substance, content, 1)], substance.into());
            let amount = u64::from(content);
            assert_eq!((report.handled, report.headings[5]), (amount, amount));
        }
    }
}

#[test]
fn both_ends_of_content_and_grams() {
    let book = plant();
    for content in [1, CONTENT] {
        for grams in [1, GRAMS] {
            let report = report(&[found(1, 2, content, grams)], 2);
            assert_eq!(report.headings[5], u64::from(content) * grams);
        }
    }
    for content in [0, CONTENT + 1, 1 << 24, u32::MAX] {
        declines(&book, &found(1, 2, content, 1), 6);
        declines(&book, &found(1, 2, content, GRAMS), 6);
    }
    for grams in [0, GRAMS + 1, 1 << 32, u64::MAX] {
        declines(&book, &found(1, 2, 1, grams), 6);
        declines(&book, &found(1, 2, CONTENT, grams), 6);
    }
}

#[test]
fn its_stage_and_substance_are_the_book_s_and_it_has_no_material() {
    let book = plant();
    for stage in [2, 8, 255] {
        declines(&book, &found(stage, 0, 1, 1), 6);
    }
    for substance in [3, 8, 255] {
        declines(&book, &found(0, substance, 1, 1), 6);
    }
    for material in [1, 2, 3, 255] {
        declines(&book, &post(14, material, 0, 0, 1, 1), 6);
    }
}

/// "A field that a kind doesn't use is zero (in a float, either sign of zero)"; 6 comes before 7.
#[test]
fn its_floats_are_zeros_of_either_sign() {
    let mut book = plant();
    for place in 0..4 {
        for value in [f64::from_bits(1), 1.0, -1.0, f64::INFINITY, f64::NAN] {
            let mut floats = [0; 4];
            floats[place] = value.to_bits();
            declines(&book, &with_floats(found(0, 0, 1, 1), floats), 7);
            declines(&book, &with_floats(found(0, 0, 0, 1), floats), 6);
            declines(&book, &with_floats(post(14, 1, 0, 0, 1, 1), floats), 6);
        }
        let mut floats = [0; 4];
        floats[place] = (-0.0f64).to_bits();
        assert_eq!(book.post(&with_floats(found(0, 0, 1, 1), floats)), Ok(()));
    }
    let all = with_floats(found(0, 0, 1, 1), [1 << 63; 4]);
    assert_eq!(book.post(&all), Ok(()));
    assert_eq!(book.report(0).unwrap(), only_found(5, 7, 5));
}

#[test]
fn not_before_the_last_stage_nor_after_the_close() {
    let mut book = Book::new();
    declines(&book, &found(0, 0, 1, 1), 4);
    for block in &xylene() {
        declines(&book, &found(0, 0, 1, 1), 4);
        book.block(block).unwrap();
    }
    assert_eq!(book.post(&found(0, 0, 1, 1)), Ok(()));
    assert_eq!(book.post(&close()), Ok(()));
    declines(&book, &found(0, 0, 1, 1), 5);
    declines(&book, &found(9, 9, 0, 0), 5);
    declines_block(&book, &posts(2, &[found(0, 0, 1, 1)]), 5);
}

/// The plant's book after so many openings.
fn filled(count: usize) -> Book {
    let mut book = plant();
    for _ in 0..count {
        book.post(&opening(0, 1)).unwrap();
    }
    book
}

/// "10 holds of it": it is taken as the 4,000th post and not as the 4,001st, where 6 and 7 still come before.
#[test]
fn the_4_000th_post_and_the_next() {
    let mut book = filled(3_999);
    let two = posts(3, &[found(0, 0, 1, 1), found(0, 0, 1, 1)]);
    declines_block(&book, &two, 10);
    assert_eq!(book.post(&found(0, 0, 1, 1)), Ok(()));
    assert_eq!(book.report(0).unwrap().posts, 4_000);
    declines(&book, &found(0, 0, 1, 1), 10);
    declines_block(&book, &posts(3, &[found(0, 0, 1, 1)]), 10);
    declines(&book, &found(0, 0, 1, 0), 6);
    declines(&book, &with_floats(found(0, 0, 1, 1), [1; 4]), 7);
    declines(&book, &leaves(6, 0, 0, 1, 1), 10);
    assert_eq!(book.post(&close()), Ok(()));
    assert_eq!(book.report(0).unwrap(), only_found(4_001, 7, 1));
}

/// 4,000 of them are all that a book takes, and their sum fits.
#[test]
fn the_greatest_sum() {
    let mut book = book(&xylene());
    for _ in 0..4_000 {
        assert_eq!(book.post(&found(0, 0, CONTENT, GRAMS)), Ok(()));
    }
    declines(&book, &found(0, 0, 1, 1), 10);
    let report = book.report(0).unwrap();
    let all = 8_000_000_000_000_000_000;
    assert_eq!((report.handled, report.headings[5]), (all, all));
    assert_eq!(report.posts, 4_000);
}

/// A substance is due by what was found alone: a microgram below the threshold it isn't, in either class.
#[test]
fn due_by_what_was_found_alone() {
    for (substance, grams) in [(0, 1_000_000), (1, 1_000_000), (2, 500_000)] {
        let below = [
            found(0, substance, CONTENT, grams - 1),
            found(1, substance, 999_999, 1),
        ];
        let place = usize::from(substance);
        let not_due = report(&below, place);
        assert_eq!((not_due.due, not_due.figures), (false, None));
        let at = [&below[..], &[found(1, substance, 1, 1)]].concat();
        let due = grams * u64::from(CONTENT);
        let report = report(&at, place);
        assert_eq!((report.handled, report.due), (due, true));
        assert_eq!(report.figures, Some([0, 0, 0, 0, 0, due]));
    }
}

/// What was formed and what was found count together.
#[test]
fn due_by_what_was_formed_and_found() {
    for (grams, due) in [(999_999, false), (1_000_000, true)] {
        let year = [formed(0, 2, 499_999_000_000), found(1, 2, 1, grams)];
        assert_eq!(report(&year, 2).due, due);
    }
}

/// "A block is taken whole or not at all": of a block with a later decline nothing was found.
#[test]
fn a_declined_block_leaves_nothing_found() {
    let mut book = plant();
    book.post(&found(0, 1, 5, 5)).unwrap();
    let late: [(Post, u8); 5] = [
        (opening(0, 0), 6),
        (with_floats(opening(0, 1), [1; 4]), 7),
        (vapour(1, 0, 0, [1.0, 0.0, 0.0, 0.0]), 8),
        (vapour(3, 0, 0, [1e9; 4]), 9),
        (leaves(6, 0, 1, 5, 5), 11),
    ];
    for (last, decline) in late {
        for before in 1..10 {
            let ten = [&vec![found(0, 1, 1, 1); before][..], &[last]].concat();
            declines_block(&book, &posts(3, &ten), decline);
        }
    }
    let closed = [found(0, 1, 1, 1), close(), found(0, 1, 1, 1)];
    declines_block(&book, &posts(3, &closed), 5);
    assert_eq!(book.block(&posts(3, &[found(0, 1, 1, 1); 10])), Ok(()));
    assert_eq!(book.report(1).unwrap(), only_found(11, 300, 35));
}

/// The writer takes it, and declines what is wrong with it by 6 and 7.
#[test]
fn the_writer_takes_it() {
    let mut writer = Writer::new(9 * BLOCK);
    for block in xylene() {
        writer.set_up(block[4], block[5], &block[8..508]).unwrap();
    }
    let odd = with_floats(found(0, 0, 1, 1), [0, 0, 1, 0]);
    assert_eq!(writer.post(&odd), Err(7));
    for wrong in [
        found(0, 0, 0, 1),
        found(0, 1, 1, 1),
        post(14, 1, 0, 0, 1, 1),
        post(15, 0, 0, 0, 1, 1),
    ] {
        assert_eq!(writer.post(&wrong), Err(6), "{wrong:?}");
    }
    let year = [
        found(0, 0, CONTENT, GRAMS),
        found(0, 0, 1, 1),
        close(),
        found(0, 0, 1, 1),
    ];
    for post in &year {
        assert_eq!(writer.post(post), Ok(()));
    }
    writer.end();
    let journal = blocks::journal(xylene(), &year, &[4]).concat();
    assert_eq!(writer.journal(), journal);
}

/// A sorting site's year as `filing` prints it: 1,000 kg came in as waste and went off site.
#[test]
fn the_return_of_a_sorting_site() {
    let prints = |year: &[Post], line: &str| {
        let journal = blocks::journal(xylene(), year, &[year.len()]).concat();
        let title = "substance handled due air water soil land sewer offsite";
        let text = String::from_utf8(filing(&journal)).unwrap();
        assert_eq!(text, format!("{title}\n{line}\n"));
    };
    let drums = [found(0, 0, 500_000, 1_999_998), found(0, 0, 999_999, 1)];
    prints(&drums, "80 999999999999 N - - - - - -");
    let drums = [&drums[..], &[found(0, 0, 1, 1), close()]].concat();
    prints(&drums, "80 1000000000000 Y 0.0 0.0 0.0 0.0 0.0 1000");
}
