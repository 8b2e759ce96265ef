//! Lists of records given to the library's writer and to the model's: status, place, length and every lent byte.

use blocks::{xylene, Block, BLOCK, BODY, POST};
use prtr::{raw, Cause, Unwritten};
use trials::fixed;
use trials::rng::Rng;
use trials::trial::{cases, declines, say, Trial};
use trials::writes::{self, add_end, add_post, add_set_up, of_journal, records, Record, MALFORMED};

/// What the cells hold before a call.
const WRITTEN: usize = 0x5a5a_5a5a;
const PLACE: usize = 0xa5a5;
/// How often each answer must have been met.
const MET: u64 = 200;
/// The most blocks of a journal.
const MOST: usize = 65_536;

/// What a call left: its status, both cells and the lent bytes.
type Left = (u8, usize, usize, Vec<u8>);

/// Bytes that differ from their neighbours, and from those a block before.
fn lent(room: usize) -> Vec<u8> {
    (0..room)
        .map(|place| (place * 31 + place / BLOCK * 7 + 1) as u8)
        .collect()
}

fn library(list: &[u8], room: usize) -> Left {
    let mut journal = lent(room);
    let (mut written, mut place) = (WRITTEN, PLACE);
    let status = raw::write(list, &mut journal, &mut written, &mut place);
    (status, written, place, journal)
}

fn model(list: &[u8], room: usize) -> Left {
    let mut journal = lent(room);
    match writes::whole(list, room) {
        Ok(writer) => {
            let length = writer.journal().len();
            journal[..length].copy_from_slice(writer.journal());
            (0, length, PLACE, journal)
        }
        Err((status, place)) => (status, WRITTEN, place, journal),
    }
}

/// The same records in a safe writer; none where one is malformed, which it can't say.
fn safe(list: &[u8]) -> Option<prtr::Writer> {
    let mut writer = prtr::Writer::new();
    for record in records(list) {
        match record {
            Record::SetUp(kind, count, body) => writer.set_up(kind, count, body).ok()?,
            Record::Post(bytes) => writer.post(bytes).ok()?,
            Record::End => writer.end(),
            Record::Malformed => return None,
        }
    }
    Some(writer)
}

/// The status and the place of what isn't written, as the cells say it.
fn cells(unwritten: Unwritten) -> (u8, usize) {
    let status = match unwritten.cause {
        Cause::Declined(decline) => decline.number(),
        Cause::Malformed => MALFORMED,
    };
    (status, unwritten.record)
}

/// The bytes of a list's set-up blocks and posts, its ends aside.
fn kept(list: &[u8]) -> Vec<u8> {
    let kept = |record| match record {
        Record::SetUp(kind, count, body) => [&[b'S', kind, count], body].concat(),
        Record::Post(bytes) => [b"P", bytes].concat(),
        _ => Vec::new(),
    };
    records(list).flat_map(kept).collect()
}

/// A journal with each of its posts in a block of its own.
fn singly(blocks: &[Block]) -> Vec<Block> {
    let (set_up, posts): (Vec<&Block>, Vec<&Block>) =
        blocks.iter().partition(|block| block[4] != 3);
    let of_block = |block: &&Block| block[BODY..].as_chunks::<POST>().0[..block[5].into()].to_vec();
    let posts: Vec<[u8; POST]> = posts.iter().flat_map(of_block).collect();
    let set_up = set_up.into_iter().copied().collect();
    blocks::journal(set_up, &posts, &vec![1; posts.len()])
}

/// The library beside the model.
struct Runs {
    trial: Trial,
    /// How often each status was answered, that of a malformed record aside.
    met: [u64; 14],
    malformed: u64,
    blocks: usize,
    /// Journals whose posts a book takes one by one.
    singly: u64,
}

impl Runs {
    fn new(name: &'static str) -> Runs {
        Runs {
            trial: Trial::new(name),
            met: [0; 14],
            malformed: 0,
            blocks: 0,
            singly: 0,
        }
    }

    /// Gives a list to both; stops where they differ, in a written journal's return too.
    fn give(&mut self, list: &[u8], room: usize) -> Left {
        let left = model(list, room);
        let said = |left: &Left| format!("room {room}: {} {} {}\n", left.0, left.1, left.2);
        let given = library(list, room);
        let [one, other] = [&given, &left].map(|left| [said(left).as_bytes(), &left.3].concat());
        self.trial.agree(list, &one, &other);
        if let Some(writer) = safe(list) {
            self.finish_safe(&writer, list, &left);
        }
        self.count(&left);
        if left.0 == 0 {
            self.compare_journal(list, &left.3[..left.1]);
        }
        left
    }

    /// Finishes a safe writer of the list's records in the room of the model's answer, and in its own.
    fn finish_safe(&mut self, writer: &prtr::Writer, list: &[u8], left: &Left) {
        let room = left.3.len();
        let mut journal = lent(room);
        let lent = writer.finish_into(&mut journal).map_err(cells);
        let wanted = match left.0 {
            0 => Ok(left.1),
            status => Err((status, left.2)),
        };
        let call = || format!("the safe writer, room {room}, on\n{list:02x?}");
        self.trial
            .same(call, || (lent, &journal), || (wanted, &left.3));
        let own = || writer.finish().map_err(cells);
        let model = || Ok(writes::whole(list, usize::MAX)?.journal().to_vec());
        self.trial.same(call, own, model);
    }

    fn count(&mut self, left: &Left) {
        match left.0 {
            MALFORMED => self.malformed += 1,
            status => self.met[usize::from(status)] += 1,
        }
    }

    /// A written journal has the list's set-up and posts in order, and where a book takes them one by one, it takes the
    /// journal too and files the same.
    fn compare_journal(&mut self, list: &[u8], journal: &[u8]) {
        self.blocks += journal.len() / BLOCK;
        let (blocks, _) = journal.as_chunks::<BLOCK>();
        self.trial
            .agree(list, &kept(&of_journal(blocks)), &kept(list));
        let filed = self.trial.give(journal).text;
        let singly = model::filing(singly(blocks).as_flattened());
        if !singly.starts_with(b"refused") {
            self.singly += 1;
            self.trial.agree(journal, &filed, &singly);
        }
    }

    fn finish(&self, least: u64) {
        let Runs {
            met,
            malformed,
            blocks,
            singly,
            ..
        } = self;
        say(&format!(
            "writes: {} lists written in {blocks} blocks, {singly} taken post by post, {malformed} malformed; declined{}",
            met[0],
            declines(met)
        ));
        self.trial.finish();
        for status in [0, 4, 6, 7, 13] {
            let met = met[status];
            assert!(met >= least, "{status} was answered only {met} times");
        }
        assert!(*malformed >= least, "only {malformed} lists were malformed");
        assert!(
            (least..met[0]).contains(singly),
            "{singly} of {} lists were taken post by post",
            met[0]
        );
    }
}

/// Room for a journal of so many bytes: none, a byte too few, all of it, or more.
fn any_room(rng: &mut Rng, bytes: usize) -> usize {
    match rng.below(12) {
        0 => rng.pick(&[0, 1, 511, 512, 513, 1_023, 1_024, 1_025]),
        1 => rng.place(bytes + 1),
        2 => rng.place(bytes / BLOCK + 1) * BLOCK,
        3 => bytes.saturating_sub(1),
        4..=6 => bytes,
        7 => bytes + 1,
        8 => bytes + BLOCK - 1,
        _ => bytes + rng.place(3 * BLOCK),
    }
}

/// The bytes that a list's journal takes where there is room for all, refused records aside.
fn full(list: &[u8]) -> usize {
    writes::taken(list, usize::MAX).0.len()
}

#[test]
fn library_and_model_write_the_same() {
    let mut runs = Runs::new("writes");
    for case in cases(4_000) {
        let mut rng = runs.trial.rng(1, case);
        let faults = rng.pick(&[0, 0, 400, 100, 30, 8]);
        let list = writes::any(&mut rng, faults);
        let bytes = full(&list);
        for _ in 0..3 {
            runs.give(&list, any_room(&mut rng, bytes));
        }
    }
    for case in cases(2_000) {
        let mut rng = runs.trial.rng(2, case);
        let list = writes::malformed(&mut rng);
        let room = any_room(&mut rng, full(&list));
        runs.give(&list, room);
    }
    runs.finish(MET);
}

#[test]
fn worked_lists() {
    let mut runs = Runs::new("worked lists");
    for fixed in fixed::all() {
        let journal = fixed.journal.as_flattened();
        let left = runs.give(&fixed.list, journal.len() + BLOCK);
        let wanted = match fixed.refused.first() {
            Some(&(place, status)) => (status, WRITTEN, place),
            None => (0, journal.len(), PLACE),
        };
        assert_eq!((left.0, left.1, left.2), wanted, "{}", fixed.name);
        if left.0 == 0 {
            assert_eq!(&left.3[..left.1], journal, "{}", fixed.name);
        }
    }
    runs.trial.finish();
}

/// Each worked list with too little room, so that a 13 comes before its refusal, at the same record or not at all.
#[test]
fn worked_lists_in_every_room() {
    let mut runs = Runs::new("worked lists in every room");
    for fixed in fixed::all() {
        let most = fixed.journal.len() + 1;
        for room in (0..=most).flat_map(|blocks| [blocks * BLOCK, blocks * BLOCK + BLOCK - 1]) {
            runs.give(&fixed.list, room);
        }
    }
    runs.trial.finish();
}

/// 13 at the plan, at the stage, at the post that begins a block, and at none.
#[test]
fn worked_rooms() {
    let mut runs = Runs::new("worked rooms");
    let list = fixed::xylene_year().list;
    let rooms = [
        (0, 0),
        (511, 0),
        (512, 1),
        (1_023, 1),
        (1_024, 3),
        (1_535, 3),
    ];
    for (room, place) in rooms {
        let left = runs.give(&list, room);
        assert_eq!((left.0, left.1, left.2), (13, WRITTEN, place), "{room}");
        assert_eq!(left.3, lent(room), "{room}");
    }
    for room in [1_536, 1_537, 2_048] {
        let left = runs.give(&list, room);
        assert_eq!((left.0, left.1, left.2), (0, 1_536, PLACE), "{room}");
        assert_eq!(left.3[..1_536], *xylene::year().as_flattened());
        assert_eq!(left.3[1_536..], lent(room)[1_536..]);
    }
    runs.trial.finish();
}

/// Every length of a list that is cut, and every tag.
#[test]
fn every_cut_and_every_tag() {
    let mut runs = Runs::new("cuts and tags");
    let list = fixed::xylene_year().list;
    let room = 4 * BLOCK;
    for length in 0..list.len() {
        runs.give(&list[..length], room);
    }
    let last = list.len() - 51;
    for tag in 0..=255 {
        let mut list = list.clone();
        list[last] = tag;
        let left = runs.give(&list, room);
        let other = !b"SPE".contains(&tag);
        assert_eq!((left.0, left.2) == (MALFORMED, 7), other, "tag {tag}");
    }
    runs.trial.finish();
}

/// A set-up and a post to each other block, and then one post more, with room left.
#[test]
#[ignore = "it lends 32 MiB several times"]
fn the_most_blocks() {
    let mut list = Vec::new();
    for block in xylene::site().blocks() {
        add_set_up(&mut list, &block);
    }
    let post = xylene::posts()[0];
    for _ in 2..MOST {
        add_post(&mut list, &post);
        add_end(&mut list);
    }
    let room = (MOST + 3) * BLOCK;
    let left = library(&list, room);
    assert_eq!((left.0, left.1, left.2), (0, MOST * BLOCK, PLACE));
    assert!(left == model(&list, room), "the written bytes differ");
    let end = list.len() - 3;
    for joining in 1..10 {
        list.truncate(end);
        (0..joining).for_each(|_| add_post(&mut list, &post));
        let left = library(&list, room);
        assert_eq!((left.0, left.1, left.2), (0, MOST * BLOCK, PLACE));
    }
    add_post(&mut list, &post);
    let place = records(&list).count() - 1;
    let left = library(&list, room);
    assert_eq!((left.0, left.1, left.2), (13, WRITTEN, place));
    assert!(left.3 == lent(room), "a refused list leaves all bytes");
    assert!(left == model(&list, room), "the model refuses it too");
}
