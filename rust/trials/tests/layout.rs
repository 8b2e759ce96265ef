//! Each rule of the layout broken alone, with the number that document 01 gives; two rules at once; and every byte.

use blocks::{
    block, frame, posts_block, put_sums, seal, sums, Block, Pair, Post, Site, Stage, BLOCK, BODY,
    MODULUS, POST, SUMS,
};
use trials::floats::{edges, RANGES, SPECIALS};
use trials::ledger::{MOST_GRAMS, MOST_MICROGRAMS};
use trials::rng::Rng;
use trials::site::WHOLE;
use trials::trial::{cases, Trial};

/// How a block is broken.
enum Fault {
    /// Bytes at an offset of what the check sums cover, which are mended.
    Put(usize, Vec<u8>),
    /// A bit of a byte of the check sums, flipped after they are mended.
    Flip(usize),
    /// The journal ends so many bytes into the block.
    Cut(usize),
}

/// A fault of a block, and the decline that follows.
struct Rule {
    name: String,
    block: usize,
    fault: Fault,
    number: u8,
}

impl Rule {
    /// The block's place and the decline's number.
    fn refused(&self) -> Option<(u64, u8)> {
        Some((self.block as u64, self.number))
    }
}

/// The usual floats of each form, in their ranges.
const USUAL: [[f64; 4]; 3] = [
    [14.0, 0.62, 36_000.0, 0.0],
    [2_000.0, 1_550.0, 98_100.0, 1.0],
    [1_500.0, 0.0027, 1_420.0, 0.0034],
];

fn rule(name: &str, block: usize, offset: usize, bytes: impl AsRef<[u8]>, number: u8) -> Rule {
    Rule {
        name: name.into(),
        block,
        fault: Fault::Put(offset, bytes.as_ref().to_vec()),
        number,
    }
}

/// Three substances, the last without a coefficient row, two materials and two stages.
fn site() -> Site {
    let pair = |side| Pair {
        side,
        rates: [900_000, 800_000, 700_000, 600_000],
    };
    Site {
        numbers: vec![80, 300, 500],
        classes: vec![1, 2, 1],
        contents: vec![vec![400_000, 300_000, 300_000], vec![0, 500_000, 9_999]],
        stages: vec![
            Stage {
                water: 1,
                residues: 1,
                pairs: vec![pair(1), pair(2), pair(1)],
            },
            Stage {
                water: 2,
                residues: 2,
                pairs: vec![pair(2), pair(1), pair(2)],
            },
        ],
    }
}

/// One post of each kind in order, the close last, each taken by a book of the site.
fn posts() -> Vec<Post> {
    let holding = (1, 1);
    let mut posts = vec![
        Post::stock(1, 1, 9_000_000),
        Post::stock(2, 1, 9_000_000),
        Post::issued(1, 1, 8_000_000),
        Post::formed(holding, 70_000_000_000),
    ];
    posts.extend((5..=11).map(|kind| Post::left(kind, holding, 600_000, 100_000)));
    posts.push(Post::vapour(2, holding, USUAL[1].map(f64::to_bits)));
    posts.push(Post::found((0, 2), 600_000, 100_000));
    posts.push(Post::CLOSE);
    posts
}

/// The site's three blocks, then ten posts, then four.
fn journal() -> Vec<Block> {
    journal_of(&posts())
}

/// The same of other posts.
fn journal_of(posts: &[Post]) -> Vec<Block> {
    let mut blocks = site().blocks();
    blocks.push(posts_block(3, &posts[..10]));
    blocks.push(posts_block(4, &posts[10..]));
    blocks
}

/// The rules of the frame, which every block has.
fn frame_rules() -> Vec<Rule> {
    let of_block = |block| {
        vec![
            rule("first letter", block, 0, b"p", 1),
            rule("last letter", block, 3, [0], 1),
            rule("kind 0", block, 4, [0], 3),
            rule("kind 4", block, 4, [4], 3),
            rule(
                "number too high",
                block,
                6,
                (block as u16 + 1).to_le_bytes(),
                3,
            ),
            rule("number with a high byte", block, 7, [1], 3),
            rule("last byte of the body", block, SUMS - 1, [1], 6),
        ]
    };
    (0..5).flat_map(of_block).collect()
}

/// The check sums and the length, which every block has too.
fn sum_and_length_rules() -> Vec<Rule> {
    let named = |name: &str, block, fault, number| Rule {
        name: name.into(),
        block,
        fault,
        number,
    };
    let of_block = |block| {
        let flip = |offset| named(&format!("sum at {offset}"), block, Fault::Flip(offset), 2);
        let cut = |length| named(&format!("{length} bytes"), block, Fault::Cut(length), 1);
        let sums = (SUMS..BLOCK).map(flip);
        sums.chain([1, 4, SUMS, BLOCK - 1].map(cut))
            .collect::<Vec<Rule>>()
    };
    (0..5).flat_map(of_block).collect()
}

/// The rules of the counts, numbers and classes of a set-up.
fn setup_rules() -> Vec<Rule> {
    vec![
        rule("no substance", 0, 5, [0], 6),
        rule("fewer substances than named", 0, 5, [2], 6),
        rule("more substances than named", 0, 5, [4], 6),
        rule("nine substances", 0, 5, [9], 6),
        rule("no material", 0, 8, [0], 6),
        rule("fewer materials than named", 0, 8, [1], 6),
        rule("thirteen materials", 0, 8, [13], 6),
        rule("no stage", 0, 9, [0], 6),
        rule("nine stages", 0, 9, [9], 6),
        rule("number 0", 0, 10, [0, 0], 6),
        rule("equal numbers", 0, 12, 80u16.to_le_bytes(), 6),
        rule("falling numbers", 0, 14, 299u16.to_le_bytes(), 6),
        rule("falling by the high byte", 0, 10, 336u16.to_le_bytes(), 6),
        rule("unused number", 0, 16, 501u16.to_le_bytes(), 6),
        rule("last unused number", 0, 24, [1], 6),
        rule("class 0", 0, 26, [0], 6),
        rule("class 3", 0, 28, [3], 6),
        rule("unused class", 0, 29, [1], 6),
        rule("behind the contents", 0, 418, [1], 6),
    ]
}

/// The rules of a set-up's contents, by their places.
fn content_rules() -> Vec<Rule> {
    let content = |name, place: usize, bytes: &[u8]| rule(name, 0, 34 + 4 * place, bytes, 6);
    vec![
        content("over the whole", 0, &400_001u32.to_le_bytes()),
        content("second over the whole", 8, &490_002u32.to_le_bytes()),
        content("sum past 32 bits", 8, &[0, 0, 0, 128, 0, 0, 0, 128]),
        content("unused substance", 3, &[1]),
        content("unused material", 16, &[1]),
        content("last content", 95, &[1]),
    ]
}

/// The rules of a stage, the second one too.
fn stage_rules() -> Vec<Rule> {
    let rate = |block, pair: usize, rate: usize| {
        let offset = BODY + 2 + 17 * pair + 1 + 4 * rate;
        rule(
            &format!("rate {rate} of pair {pair}"),
            block,
            offset,
            1_000_001u32.to_le_bytes(),
            6,
        )
    };
    let of_block = |block: usize| {
        let mut rules = vec![
            rule("another stage", block, 5, [2 - block as u8], 4),
            rule("a stage that the site hasn't", block, 5, [2], 4),
            rule("water 0", block, 8, [0], 6),
            rule("water 3", block, 8, [3], 6),
            rule("residues 0", block, 9, [0], 6),
            rule("residues 3", block, 9, [3], 6),
            rule("side 0", block, 10, [0], 6),
            rule("side 3", block, 10 + 17 * 2, [3], 6),
            rule("unused side", block, 10 + 17 * 3, [1], 6),
            rule("unused rate", block, 11 + 17 * 7 + 12, [1], 6),
            rule("behind the pairs", block, 10 + 17 * 8, [1], 6),
        ];
        rules.extend((0..12).map(|place| rate(block, place / 4, place % 4)));
        rules
    };
    (1..3).flat_map(of_block).collect()
}

/// The rules of a block of posts, its posts aside.
fn count_rules() -> Vec<Rule> {
    vec![
        rule("no post", 3, 5, [0], 6),
        rule("nine posts and a tenth behind", 3, 5, [9], 6),
        rule("eleven posts", 3, 5, [11], 6),
        rule("behind the last post", 3, BODY + 10 * POST, [1], 6),
        rule("behind the fourth post", 4, BODY + 4 * POST, [1], 6),
        rule("a fifth post after the close", 4, 5, [5], 5),
    ]
}

/// A material, stage, substance, content and quantity that a kind of post doesn't take, each at its offset.
fn wrong_fields(kind: u8) -> [(&'static str, usize, Vec<u8>); 6] {
    let used = |uses: bool, beyond: u8| if uses { beyond } else { 1 };
    let material = if kind == 12 { 4 } else { used(kind <= 3, 2) };
    let content: u32 = if is_part(kind) { 1_000_001 } else { 1 };
    let quantity: u64 = match kind {
        4 => MOST_MICROGRAMS + 1,
        12 | 13 => 1,
        _ => MOST_GRAMS + 1,
    };
    [
        ("kind", 0, vec![if kind < 13 { 0 } else { kind + 2 }]),
        ("material", 1, vec![material]),
        ("stage", 2, vec![used(kind >= 3 && kind != 13, 2)]),
        ("substance", 3, vec![used(kind >= 4 && kind != 13, 3)]),
        ("content", 4, content.to_le_bytes().to_vec()),
        ("quantity", 8, quantity.to_le_bytes().to_vec()),
    ]
}

/// Whether a kind uses stage, substance, content and grams.
fn is_part(kind: u8) -> bool {
    matches!(kind, 5..=11 | 14)
}

/// Every field of the post at a place, with a value that its kind doesn't take.
fn rules_of_post(place: usize) -> Vec<Rule> {
    let kind = posts()[place].kind;
    let (block, at) = (3 + place / 10, BODY + POST * (place % 10));
    let field = |name: &str, offset: usize, bytes: &[u8], number| {
        let name = format!("{name} of kind {kind}");
        rule(&name, block, at + offset, bytes, number)
    };
    let wrong = wrong_fields(kind);
    let mut rules: Vec<Rule> = wrong
        .iter()
        .map(|(name, offset, bytes)| field(name, *offset, bytes, 6))
        .collect();
    rules.extend((0..4).map(|place| field("float", 16 + 8 * place, &[255; 8], 7)));
    if is_part(kind) {
        rules.push(field("no content", 4, &[0; 4], 6));
    }
    if kind < 12 || kind == 14 {
        rules.push(field("no quantity", 8, &[0; 8], 6));
    }
    rules
}

fn post_rules() -> Vec<Rule> {
    (0..posts().len()).flat_map(rules_of_post).collect()
}

/// Faults of vapour posts and of balance.
fn late_rules() -> Vec<Rule> {
    let vapour = BODY + POST;
    vec![
        rule("form 0", 4, vapour + 1, [0], 6),
        rule("no coefficient row", 4, vapour + 3, [2], 8),
        rule("great volume", 4, vapour + 16, 1e9f64.to_le_bytes(), 9),
        rule("the other stage holds nothing", 4, vapour + 2, [0], 11),
        rule(
            "more issued than is in store",
            3,
            BODY + 2 * POST + 8,
            18_000_001u64.to_le_bytes(),
            11,
        ),
        rule(
            "the other material isn't in store",
            3,
            BODY + 2 * POST + 1,
            [0],
            11,
        ),
    ]
}

fn rules() -> Vec<Rule> {
    [
        frame_rules(),
        sum_and_length_rules(),
        setup_rules(),
        content_rules(),
        stage_rules(),
        count_rules(),
        post_rules(),
        late_rules(),
    ]
    .into_iter()
    .flatten()
    .collect()
}

/// The journal with these rules broken: first what is sealed, then the check sums, then the length.
fn broken(rules: &[&Rule]) -> Vec<u8> {
    let mut blocks = journal();
    for rule in rules {
        if let Fault::Put(offset, bytes) = &rule.fault {
            blocks[rule.block][*offset..*offset + bytes.len()].copy_from_slice(bytes);
            seal(&mut blocks[rule.block]);
        }
    }
    let mut journal = blocks.as_flattened().to_vec();
    for rule in rules {
        if let Fault::Flip(offset) = rule.fault {
            journal[BLOCK * rule.block + offset] ^= 1;
        }
    }
    for rule in rules {
        if let Fault::Cut(length) = rule.fault {
            journal.truncate(BLOCK * rule.block + length);
        }
    }
    journal
}

#[test]
fn each_rule_alone() {
    let mut trial = Trial::new("rules alone");
    trial.expect(&broken(&[]), None, "the unbroken journal");
    for rule in rules() {
        trial.expect(&broken(&[&rule]), rule.refused(), &rule.name);
    }
    trial.finish();
}

/// The rule that decides where the paper's order alone says it: the earlier block's, or in one block that of the
/// checks 1 to 3 which comes first.
fn deciding<'a>(one: &'a Rule, other: &'a Rule) -> Option<&'a Rule> {
    let first = if (one.block, one.number) < (other.block, other.number) {
        one
    } else {
        other
    };
    (one.block != other.block || first.number <= 3).then_some(first)
}

#[test]
fn two_rules_at_once() {
    let mut trial = Trial::new("two rules");
    let rules = rules();
    for (place, one) in rules.iter().enumerate() {
        for other in &rules[..place] {
            let journal = broken(&[one, other]);
            match deciding(one, other) {
                Some(rule) => {
                    let what = format!("{} and {}", one.name, other.name);
                    trial.expect(&journal, rule.refused(), &what)
                }
                None => trial.give(&journal),
            };
        }
    }
    trial.finish();
}

/// Edges, and what is near to a byte.
fn values(byte: u8) -> [u8; 8] {
    let [more, less] = [byte.wrapping_add(1), byte.wrapping_sub(1)];
    [0, 1, 2, 255, more, less, byte ^ 16, byte ^ 128]
}

/// A byte that differs breaks the tag or a check sum; with the sums mended, what it means.
#[test]
fn every_byte() {
    let mut trial = Trial::new("every byte");
    let base = journal();
    for (block, offset) in (0..base.len()).flat_map(|block| (0..BLOCK).map(move |at| (block, at))) {
        let byte = base[block][offset];
        for value in values(byte) {
            let mut blocks = base.clone();
            blocks[block][offset] = value;
            let number = if offset < 4 { 1 } else { 2 };
            let refused = (value != byte).then_some((block as u64, number));
            let what = format!("{value} at {offset} of block {block}");
            trial.expect(blocks.as_flattened(), refused, &what);
            seal(&mut blocks[block]);
            trial.give_blocks(&blocks);
        }
    }
    trial.finish();
}

#[test]
fn vapour_floats() {
    let mut trial = Trial::new("vapour floats");
    for (form, ranges) in (1u8..).zip(RANGES) {
        for (place, range) in ranges.into_iter().enumerate() {
            for bits in edges(range) {
                let mut posts = posts();
                posts[11].material = form;
                posts[11].floats = USUAL[form as usize - 1].map(f64::to_bits);
                posts[11].floats[place] = bits;
                let blocks = journal_of(&posts);
                let refused = trial.give_blocks(&blocks).refused;
                let within = (range.0..=range.1).contains(&f64::from_bits(bits));
                if (refused == Some((4, 7))) == within {
                    let said = format!("form {form}, place {place}, {bits:016x}: {refused:?}");
                    trial.fail(blocks.as_flattened(), &said);
                }
            }
        }
    }
    trial.finish();
}

#[test]
fn unused_floats() {
    let mut trial = Trial::new("unused floats");
    for place in (0..posts().len()).filter(|&place| place != 11) {
        for (float, bits) in (0..4).flat_map(|float| SPECIALS.map(|bits| (float, bits))) {
            let mut posts = posts();
            posts[place].floats[float] = bits;
            let blocks = journal_of(&posts);
            let refused = (bits << 1 != 0).then_some((3 + place as u64 / 10, 7));
            let what = format!("kind {}, float {float}, {bits:016x}", posts[place].kind);
            trial.expect(blocks.as_flattened(), refused, &what);
        }
    }
    trial.finish();
}

/// Every kind with the fields of a part: those that a book has take it where it is held, and 14 where nothing is.
#[test]
fn kinds_of_a_part() {
    let mut trial = Trial::new("kinds of a part");
    for kind in 0..=255 {
        for (holding, held) in [((1, 1), true), ((0, 2), false)] {
            let mut posts = posts();
            posts[12] = Post::left(kind, holding, 1, 1);
            let number = match kind {
                14 => None,
                5..=11 => (!held).then_some(11),
                _ => Some(6),
            };
            let refused = number.map(|number| (4, number));
            let what = format!("kind {kind} of {holding:?}");
            trial.expect(journal_of(&posts).as_flattened(), refused, &what);
        }
    }
    trial.finish();
}

/// Both ends of a found post's content and grams, and one beyond each, in each place of the site.
#[test]
fn found_limits() {
    let mut trial = Trial::new("found limits");
    let holdings = (0..3).flat_map(|stage| (0..4).map(move |substance| (stage, substance)));
    for holding in holdings {
        for content in [0, 1, WHOLE, WHOLE + 1] {
            for grams in [0, 1, MOST_GRAMS, MOST_GRAMS + 1] {
                let mut posts = posts();
                posts[12] = Post::found(holding, content, grams);
                let of_site = holding.0 < 2 && holding.1 < 3;
                let in_limits = (1..=WHOLE).contains(&content) && (1..=MOST_GRAMS).contains(&grams);
                let refused = (!of_site || !in_limits).then_some((4, 6));
                let what = format!("{content} ppm of {grams} g found at {holding:?}");
                trial.expect(journal_of(&posts).as_flattened(), refused, &what);
            }
        }
    }
    trial.finish();
}

/// What a set-up, a stage and an empty block of posts get, after so many blocks of the journal were taken.
const TURNS: [[u8; 3]; 6] = [
    [6, 4, 4],
    [4, 6, 4],
    [4, 6, 4],
    [4, 4, 6],
    [4, 4, 6],
    [4, 4, 5],
];

#[test]
fn turns() {
    let mut trial = Trial::new("turns");
    for (taken, numbers) in TURNS.into_iter().enumerate() {
        let next_stage = taken.saturating_sub(1) as u8;
        for (kind, number) in [(1, 0), (2, next_stage), (3, 0)].into_iter().zip(numbers) {
            for (off, number) in [(0, number), (1, 3)] {
                let mut blocks = journal()[..taken].to_vec();
                blocks.push(block(kind.0, kind.1, taken as u16 + off, &[]));
                let what = format!("kind {} after {taken}", kind.0);
                trial.expect(blocks.as_flattened(), Some((taken as u64, number)), &what);
            }
        }
    }
    trial.finish();
}

/// Junk behind the tag, altered until one of its check sums would fit in 16 bits unreduced.
fn junk(rng: &mut Rng, which: usize) -> Block {
    let mut block = frame(0, 0, 0);
    block[4..SUMS].fill_with(|| rng.word() as u8);
    while sums(&block)[which] > u16::MAX - MODULUS as u16 || (which == 0 && plain(&block) < MODULUS)
    {
        block[rng.range(4, SUMS as u64 - 1) as usize] = rng.word() as u8;
    }
    block
}

/// The sum of a block's bytes, not reduced.
fn plain(block: &Block) -> u32 {
    block[..SUMS].iter().map(|&byte| byte as u32).sum()
}

#[test]
fn unreduced_sums() {
    let mut trial = Trial::new("unreduced sums");
    for case in cases(20) {
        let mut rng = trial.rng(1, case);
        for which in 0..2 {
            let mut block = junk(&mut rng, which);
            let mut stored = sums(&block);
            put_sums(&mut block, stored);
            if trial.give_blocks(&[block]).refused == Some((0, 2)) {
                trial.fail(&block, "reduced sums are right");
            }
            stored[which] += MODULUS as u16;
            put_sums(&mut block, stored);
            let what = format!("sum {which} is not reduced");
            trial.expect(&block, Some((0, 2)), &what);
        }
    }
    trial.finish();
}
