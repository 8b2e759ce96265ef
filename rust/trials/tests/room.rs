//! The bytes that a journal's text may and may not alter, and the longest texts.

use blocks::{tens, Pair, Post, Site, Stage, MOST_POSTS};
use prtr::ROOM;
use trials::case;
use trials::ledger::{MOST_GRAMS, MOST_MICROGRAMS};
use trials::rng::Rng;
use trials::trial::Trial;
use trials::year::Year;

/// What the lent bytes hold before a call.
const FILL: u8 = 0xc3;

/// No bytes, no journal, and a year.
fn journals(trial: &mut Trial) -> [Vec<u8>; 3] {
    let year = Year::any(&mut trial.rng(1, 0)).blocks();
    [vec![], vec![0; 100], year.as_flattened().to_vec()]
}

/// The answer to a call, and the lent bytes after it.
fn answer(journal: &[u8], room: usize) -> Vec<u8> {
    let mut out = vec![FILL; room];
    let length = prtr::filing_into(journal, &mut out);
    said(length, out)
}

/// A length and lent bytes as one text.
fn said(length: Option<usize>, out: Vec<u8>) -> Vec<u8> {
    [format!("{length:?}\n").into_bytes(), out].concat()
}

#[test]
fn too_little_room_is_left_alone() {
    let mut trial = Trial::new("too little room");
    for journal in journals(&mut trial) {
        for room in (0..ROOM).step_by(89).chain([1, 12, 56, ROOM - 1]) {
            let library = case::text("library", || answer(&journal, room));
            trial.agree(&journal, &library, &said(None, vec![FILL; room]));
        }
    }
}

#[test]
fn enough_room_holds_the_text_and_the_rest_stays() {
    let mut trial = Trial::new("enough room");
    for journal in journals(&mut trial) {
        for room in [ROOM, ROOM + 1, 4_096] {
            let library = case::text("library", || answer(&journal, room));
            let mut out = case::text("model", || model::filing(&journal));
            let length = out.len();
            out.resize(room, FILL);
            trial.agree(&journal, &library, &said(Some(length), out));
        }
    }
}

#[test]
fn no_bytes_print_the_title() {
    assert_eq!(
        prtr::filing(&[]).as_deref(),
        Ok("substance handled due air water soil land sewer offsite\n")
    );
}

/// Eight substances with long numbers, and two stages that send water and residues to all four headings.
fn great_site(rates: [u32; 4]) -> Site {
    let stage = |place: u8| Stage {
        water: place,
        residues: place,
        pairs: vec![Pair { side: place, rates }; 8],
    };
    Site {
        numbers: (65_528..=65_535).collect(),
        classes: vec![1, 2, 1, 2, 1, 2, 1, 2],
        contents: vec![vec![125_000; 8]],
        stages: vec![stage(1), stage(2)],
    }
}

/// The most that a year can form: of the first `spread` substances, and left under every heading or for the close.
fn great_year(rates: [u32; 4], spread: usize, leaving: bool) -> Year {
    let site = great_site(rates);
    let mut rng = Rng::new(spread as u64);
    let mut year = Year::open(&mut rng, site, 0);
    for place in 0..4_000 {
        let holding = ((place / 2 % 2) as u8, (place / 4 % spread) as u8);
        let kind = 6 + (place / 8 % 6) as u8;
        year.add(match leaving && place % 2 == 1 {
            true => Post::left(kind, holding, 1_000_000, MOST_GRAMS),
            false => Post::formed(holding, MOST_MICROGRAMS),
        });
    }
    year.posts.push(Post::CLOSE);
    year.sizes = tens(4_000);
    year.sizes.push(1);
    assert_eq!(year.sizes[0], MOST_POSTS);
    year
}

/// The most that a year can find, of the first `spread` substances.
fn greatest_found(rates: [u32; 4], spread: usize) -> Year {
    let mut year = great_year(rates, spread, false);
    for post in year.posts.iter_mut().filter(|post| post.kind == 4) {
        *post = Post::found((post.stage, post.substance), 1_000_000, MOST_GRAMS);
    }
    year
}

#[test]
fn the_greatest_years() {
    let mut trial = Trial::new("greatest years");
    let rates = [
        [0; 4],
        [1_000_000; 4],
        [999_999, 999_999, 999_999, 999_999],
        [500_000, 1, 1, 500_000],
    ];
    for rates in rates {
        for (spread, leaving) in [(1, false), (1, true), (8, false), (8, true)] {
            let blocks = great_year(rates, spread, leaving).blocks();
            trial.expect(blocks.as_flattened(), None, "a great year");
        }
        for spread in [1, 8] {
            let blocks = greatest_found(rates, spread).blocks();
            trial.expect(blocks.as_flattened(), None, "a great year of found posts");
        }
    }
    trial.finish();
}
