//! Worked lists of records, with the journal and the refusals that document 02 (a) gives them.

use blocks::{journal, plan, record, set_up, with_floats, xylene, Block, Post, BODY, POST, SUMS};

use crate::ledger::MOST_GRAMS;
use crate::site::WHOLE;
use crate::writes::{add_end, add_post, add_set_up, of_journal, MALFORMED};

/// A list, and what is written of it with room enough.
pub struct Fixed {
    /// What it shows.
    pub name: &'static str,
    /// The records.
    pub list: Vec<u8>,
    /// The place and status of each record that isn't taken.
    pub refused: Vec<(usize, u8)>,
    /// The blocks of those that are.
    pub journal: Vec<Block>,
}

/// A step of a worked list.
#[derive(Clone, Copy)]
enum Step<'a> {
    /// The set-up block of the xylene plant at a place.
    Plant(usize),
    /// A set-up block by its kind, count and body.
    SetUp(u8, u8, &'a [u8]),
    /// So many openings, of 1 g, 2 g and so on.
    Openings(u64),
    /// A post by its bytes.
    Post(&'a [u8]),
    /// An end.
    End,
}

use Step::{End, Openings, Plant, SetUp};

/// A list of these steps; the posts that are taken are openings, in blocks of so many.
fn fixed(
    name: &'static str,
    steps: &[Step],
    refused: &[(usize, u8)],
    set_up: usize,
    sizes: &[usize],
) -> Fixed {
    let mut list = Vec::new();
    steps.iter().for_each(|step| add(&mut list, *step));
    let posts: Vec<[u8; POST]> = steps.iter().flat_map(|step| openings(*step)).collect();
    let blocks = xylene::site().blocks()[..set_up].to_vec();
    Fixed {
        name,
        list,
        refused: refused.to_vec(),
        journal: journal(blocks, &posts, sizes),
    }
}

/// The openings of a step.
fn openings(step: Step) -> Vec<[u8; POST]> {
    let Openings(count) = step else {
        return Vec::new();
    };
    (1..=count).map(opening).collect()
}

fn opening(grams: u64) -> [u8; POST] {
    Post::stock(1, 0, grams).bytes()
}

fn add(list: &mut Vec<u8>, step: Step) {
    match step {
        Plant(place) => add_set_up(list, &xylene::site().blocks()[place]),
        SetUp(kind, count, body) => record(list, b'S', &set_up(kind, count, body)),
        Openings(_) => openings(step).iter().for_each(|post| add_post(list, post)),
        Step::Post(bytes) => add_post(list, bytes),
        End => add_end(list),
    }
}

/// Every worked list.
pub fn all() -> Vec<Fixed> {
    [
        vec![xylene_year()],
        tens(),
        ends(),
        set_up_turns(),
        post_turns(),
        kinds_and_lengths(),
        layouts(),
        floats(),
        vec![found()],
        malformed(),
    ]
    .into_iter()
    .flatten()
    .collect()
}

/// Document 01's xylene year, which `filing` takes.
pub fn xylene_year() -> Fixed {
    Fixed {
        name: "the xylene year",
        list: of_journal(&xylene::year()),
        refused: Vec::new(),
        journal: xylene::year(),
    }
}

/// "A tenth post writes its block."
fn tens() -> Vec<Fixed> {
    let plant = [Plant(0), Plant(1)];
    let of =
        |name, last: &[Step], sizes: &[usize]| fixed(name, &[&plant, last].concat(), &[], 2, sizes);
    vec![
        of("nine posts", &[Openings(9)], &[9]),
        of("ten posts", &[Openings(10)], &[10]),
        of("ten posts and an end", &[Openings(10), End], &[10]),
        of("eleven posts", &[Openings(11)], &[10, 1]),
        of("twenty posts", &[Openings(20)], &[10, 10]),
        of(
            "twenty posts and ends",
            &[Openings(10), End, Openings(10), End],
            &[10, 10],
        ),
    ]
}

/// "Ending with no post waiting writes nothing", and a post after an end begins a new block.
fn ends() -> Vec<Fixed> {
    vec![
        fixed("no record", &[], &[], 0, &[]),
        fixed("an end", &[End], &[], 0, &[]),
        fixed(
            "ends in the set-up",
            &[End, Plant(0), End, End, Plant(1), End],
            &[],
            2,
            &[],
        ),
        fixed(
            "ends in the middle",
            &[
                Plant(0),
                Plant(1),
                Openings(3),
                End,
                End,
                Openings(12),
                End,
                Openings(1),
            ],
            &[],
            2,
            &[3, 10, 2, 1],
        ),
    ]
}

/// A list of these steps without openings, of which one record isn't taken.
fn set_up_with(name: &'static str, steps: &[Step], refused: (usize, u8), set_up: usize) -> Fixed {
    fixed(name, steps, &[refused], set_up, &[])
}

/// Decline 4 of set-up blocks, also while posts wait.
fn set_up_turns() -> Vec<Fixed> {
    let waiting = [Plant(0), Plant(1), Openings(2), Plant(0), Plant(1)];
    let first = [Plant(1), Plant(0), Plant(1)];
    vec![
        set_up_with("a stage first", &first, (0, 4), 2),
        set_up_with("a second plan", &[Plant(0), Plant(0)], (1, 4), 1),
        set_up_with("a second stage", &[Plant(0), Plant(1), Plant(1)], (2, 4), 2),
        another_stage(),
        fixed(
            "a set-up while posts wait",
            &[&waiting[..], &[Openings(9)]].concat(),
            &[(4, 4), (5, 4)],
            2,
            &[10, 1],
        ),
    ]
}

/// Decline 4 of posts: before the last stage is described.
fn post_turns() -> Vec<Fixed> {
    let post = opening(7);
    let post = Step::Post(&post);
    let steps = [post, Plant(0), post, Plant(1), Openings(1)];
    vec![
        fixed("posts too early", &steps, &[(0, 4), (2, 4)], 2, &[1]),
        fixed("no post first", &[Step::Post(&[])], &[(0, 4)], 0, &[]),
    ]
}

/// A plan of two stages, whose second is given first.
fn another_stage() -> Fixed {
    let first = plan(&[(80, 1)], &[[450_000]], 2);
    let stage = |place| xylene::site().stages[0].block(place);
    let mut list = Vec::new();
    for block in [first, stage(1), stage(0), stage(0), stage(1)] {
        add_set_up(&mut list, &block);
    }
    Fixed {
        name: "stages out of order",
        list,
        refused: vec![(1, 4), (3, 4)],
        journal: vec![first, stage(0), stage(1)],
    }
}

/// Decline 6 of another kind, before 4, and of a body of another length, after it.
fn kinds_and_lengths() -> Vec<Fixed> {
    let blocks = xylene::site().blocks();
    let [first, second] = [0, 1].map(|place: usize| &blocks[place][BODY..SUMS]);
    let long = [first, &[0]].concat();
    let in_turn = |name, kind, body| {
        let steps = [SetUp(kind, 1, body), Plant(0)];
        set_up_with(name, &steps, (0, 6), 1)
    };
    let behind = |name, kind, count, body, number| {
        let steps = [Plant(0), SetUp(kind, count, body)];
        set_up_with(name, &steps, (1, number), 1)
    };
    vec![
        in_turn("kind 3 on a fresh writer", 3, first),
        in_turn("499 bytes in turn", 1, &first[..499]),
        in_turn("501 bytes in turn", 1, &long),
        behind("kind 3 behind a plan", 3, 1, first, 6),
        behind("kind 0 without a body", 0, 0, &[], 6),
        behind("499 bytes out of turn", 1, 1, &first[..499], 4),
        behind("499 bytes of a stage", 2, 0, &second[..499], 6),
        behind("499 bytes of the next stage", 2, 1, &second[..499], 4),
    ]
}

/// Decline 6 of a body's layout and of a post.
fn layouts() -> Vec<Fixed> {
    let blocks = xylene::site().blocks();
    let plan = &blocks[0][BODY..SUMS];
    let post = opening(1);
    let unknown = Post::stock(1, 1, 1).bytes();
    let posts = [&post[..47], &[], &unknown].map(Step::Post);
    let plant = [Plant(0), Plant(1), Openings(1)];
    vec![
        set_up_with("a plan of no substance", &[SetUp(1, 0, plan)], (0, 6), 0),
        set_up_with(
            "a plan as a stage",
            &[Plant(0), SetUp(2, 0, plan)],
            (1, 6),
            1,
        ),
        fixed(
            "posts of other lengths, and of another material",
            &[&plant[..], &posts, &[Openings(1)]].concat(),
            &[(3, 6), (4, 6), (5, 6)],
            2,
            &[2],
        ),
    ]
}

/// Decline 7, of a post that joins a block and of one that would begin it.
fn floats() -> Vec<Fixed> {
    let odd = with_floats(opening(1), [0, 0, 0, 1]);
    let odd = Step::Post(&odd);
    let infinite = Post::vapour(3, (0, 0), [f64::INFINITY.to_bits(), 0, 0, 0]).bytes();
    let infinite = Step::Post(&infinite);
    vec![fixed(
        "odd floats",
        &[
            Plant(0),
            Plant(1),
            odd,
            Openings(3),
            infinite,
            odd,
            End,
            Openings(1),
            odd,
        ],
        &[(2, 7), (6, 7), (7, 7), (10, 7)],
        2,
        &[3, 1],
    )]
}

/// A post of kind 14 at the xylene plant.
fn found_post(content: u32, grams: u64) -> Post {
    Post::found((0, 0), content, grams)
}

/// Posts of kind 14 that break a limit each, and one of kind 15.
fn beyond_found() -> [Post; 8] {
    let one = found_post(1, 1);
    [
        found_post(0, 1),
        found_post(WHOLE + 1, 1),
        found_post(1, 0),
        found_post(1, MOST_GRAMS + 1),
        Post { stage: 1, ..one },
        Post {
            substance: 1,
            ..one
        },
        Post { material: 1, ..one },
        Post { kind: 15, ..one },
    ]
}

/// Document 02 (b): posts of kind 14 at both ends of their limits are taken, and 6 and 7 of those beyond.
fn found() -> Fixed {
    let blocks = xylene::site().blocks();
    let ends = [(1, 1), (WHOLE, 1), (1, MOST_GRAMS), (WHOLE, MOST_GRAMS)];
    let taken = ends.map(|(content, grams)| found_post(content, grams).bytes());
    let beyond = beyond_found().map(|post| post.bytes());
    let odd = with_floats(taken[0], [0, 0, 1, 0]);
    let mut list = Vec::new();
    blocks.iter().for_each(|block| add_set_up(&mut list, block));
    for post in taken.iter().chain(&beyond).chain([&odd]).chain(&taken) {
        add_post(&mut list, post);
    }
    let first = blocks.len() + taken.len();
    let sixes = (first..).zip([6; 8]);
    Fixed {
        name: "found posts and their limits",
        list,
        refused: sixes.chain([(first + beyond.len(), 7)]).collect(),
        journal: journal(blocks, &[taken, taken].concat(), &[8]),
    }
}

/// A malformed record ends the reading: what is behind it isn't written.
fn malformed() -> Vec<Fixed> {
    let cut = |name, bytes: &[u8]| {
        let steps = [Plant(0), Plant(1), Openings(2)];
        let mut cut = fixed(name, &steps, &[(4, MALFORMED)], 2, &[2]);
        cut.list.extend(bytes);
        cut
    };
    let mut other = cut("another tag", b"X\x00\x00");
    add_post(&mut other.list, &opening(1));
    vec![
        other,
        cut("a tag alone", b"P"),
        cut("half a length", b"P\x30"),
        cut("no byte of a post", b"P\x30\x00"),
        cut(
            "a post short of a byte",
            &[&b"P\x30\x00"[..], &[0; 47]].concat(),
        ),
        cut("a cut end", b"E\x01\x00"),
    ]
}
