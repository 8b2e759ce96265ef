//! A journal from its set-up and posts.

use crate::raw;
use crate::unwritten::{Cause, TooLong, Unwritten};

/// The bytes of a block.
const BLOCK: usize = 512;
/// The posts of a full block.
const FULL: usize = 10;
/// The most blocks of a journal.
const MOST: usize = 65_536;

/// Gathers a set-up and posts, and then lets the library write them as a journal.
///
/// What is gathered isn't checked until it is written. A block of posts is full with ten; [`end`](Writer::end) ends it
/// earlier, and the last one is ended anyhow. Block numbers, counts and check sums are put in.
///
/// The writer keeps no book: of a post it asks its turn, its layout and its floats, so that a journal may yet be refused
/// by [`filing`](crate::filing).
///
/// ```
/// /// A post of the one material, stage and substance.
/// fn post(kind: u8, content: u32, grams: u64) -> Vec<u8> {
///     [&[kind, 0, 0, 0][..], &content.to_le_bytes(), &grams.to_le_bytes(), &[0; 32]].concat()
/// }
///
/// // One material with 450,000 ppm of xylene (80, class 1).
/// let mut site = [0; 500];
/// site[0] = 1;
/// site[1] = 1;
/// site[2] = 80;
/// site[18] = 1;
/// site[26..30].copy_from_slice(&450_000u32.to_le_bytes());
/// // One stage: public water, residues off site, side gas, all rates 0.
/// let mut stage = [0; 500];
/// stage[..3].copy_from_slice(&[1, 1, 1]);
///
/// let mut writer = prtr::Writer::new();
/// writer.set_up(1, 1, &site)?;
/// writer.set_up(2, 0, &stage)?;
/// // Opening, bought, issued, shipped and the close.
/// writer.post(&post(1, 0, 500_000))?;
/// writer.post(&post(2, 0, 2_500_000))?;
/// writer.post(&post(3, 0, 2_700_000))?;
/// writer.post(&post(5, 450_000, 2_200_000))?;
/// writer.post(&post(13, 0, 0))?;
///
/// let journal = writer.finish()?;
/// assert_eq!(journal.len(), 3 * 512);
/// let title = "substance handled due air water soil land sewer offsite\n";
/// let xylene = "80 1215000000000 Y 230 0.0 0.0 0.0 0.0 0.0\n";
/// assert_eq!(prtr::filing(&journal)?, [title, xylene].concat());
/// # Ok::<(), Box<dyn std::error::Error>>(())
/// ```
#[derive(Clone, Debug, Default)]
pub struct Writer {
    /// As [`write_into`] takes them.
    records: Vec<u8>,
    /// Blocks that are begun.
    blocks: usize,
    /// Posts in the last of them, where it is a block of posts and not full or ended.
    waiting: usize,
}

impl Writer {
    /// Nothing gathered, which is written as a journal of no bytes.
    pub fn new() -> Writer {
        Writer::default()
    }

    /// A set-up block by its kind, 1 or 2, its count and its body of 500 bytes.
    ///
    /// Fails, and adds nothing, where the body has more than 65,533 bytes.
    pub fn set_up(&mut self, kind: u8, count: u8, body: &[u8]) -> Result<(), TooLong> {
        self.add(b'S', &[&[kind, count], body])?;
        self.blocks += 1;
        Ok(())
    }

    /// A post of 48 bytes.
    ///
    /// Fails, and adds nothing, where it has more than 65,535.
    pub fn post(&mut self, post: &[u8]) -> Result<(), TooLong> {
        self.add(b'P', &[post])?;
        self.blocks += usize::from(self.waiting == 0);
        self.waiting = (self.waiting + 1) % FULL;
        Ok(())
    }

    /// Ends the block of posts that is begun; where none is, it does nothing.
    pub fn end(&mut self) {
        self.add(b'E', &[]).expect("an end has no bytes");
        self.waiting = 0;
    }

    /// The bytes that the journal takes where all is written.
    ///
    /// ```
    /// let mut writer = prtr::Writer::new();
    /// writer.set_up(1, 1, &[0; 500])?;
    /// for _ in 0..11 {
    ///     writer.post(&[0; 48])?;
    /// }
    /// assert_eq!(writer.room(), 3 * 512);
    /// # Ok::<(), prtr::TooLong>(())
    /// ```
    pub fn room(&self) -> usize {
        self.blocks.min(MOST) * BLOCK
    }

    /// The journal.
    ///
    /// Fails at the first record that isn't taken: a set-up block by [`Layout`](crate::Decline::Layout) for another kind
    /// than 1 and 2, by [`OutOfTurn`](crate::Decline::OutOfTurn), by `Layout` for its count or body or by
    /// [`NoRoom`](crate::Decline::NoRoom), in this order; a post by `OutOfTurn`, `Layout`,
    /// [`Range`](crate::Decline::Range) or `NoRoom`, in this order. `NoRoom` is here for the 65,537th block.
    pub fn finish(&self) -> Result<Vec<u8>, Unwritten> {
        let mut journal = vec![0; self.room()];
        let written = self.finish_into(&mut journal)?;
        journal.truncate(written);
        Ok(journal)
    }

    /// Puts the journal at the start of `journal` and gives its length; the bytes behind it stay as they were.
    ///
    /// Fails as [`finish`](Writer::finish) does, and by `NoRoom` too for a block that finds fewer than 512 bytes left;
    /// then all of `journal` stays as it was.
    ///
    /// ```
    /// use prtr::{Cause, Decline, Unwritten};
    ///
    /// let mut site = [0; 500];
    /// site[..3].copy_from_slice(&[1, 1, 80]);
    /// site[18] = 1;
    /// let mut writer = prtr::Writer::new();
    /// writer.set_up(1, 1, &site)?;
    ///
    /// let mut journal = [b'.'; 600];
    /// assert_eq!(writer.finish_into(&mut journal), Ok(512));
    /// assert_eq!(&journal[..6], b"PRTR\x01\x01");
    /// assert_eq!(&journal[512..], [b'.'; 88]);
    ///
    /// let no_room = Unwritten { record: 0, cause: Cause::Declined(Decline::NoRoom) };
    /// assert_eq!(writer.finish_into(&mut journal[..511]), Err(no_room));
    /// # Ok::<(), prtr::TooLong>(())
    /// ```
    pub fn finish_into(&self, journal: &mut [u8]) -> Result<usize, Unwritten> {
        write_into(&self.records, journal)
    }

    /// Adds a record of these parts.
    fn add(&mut self, tag: u8, parts: &[&[u8]]) -> Result<(), TooLong> {
        let length = parts.iter().map(|part| part.len()).sum();
        let stored = u16::try_from(length).map_err(|_| TooLong { length })?;
        self.records.push(tag);
        self.records.extend(stored.to_le_bytes());
        parts.iter().for_each(|part| self.records.extend(*part));
        Ok(())
    }
}

/// [`Writer::finish_into`] by the records' bytes, which may be anything: for each a tag `S`, `P` or `E`, a length of 16
/// bits, little-endian, and that many bytes.
///
/// The bytes of an `S` are the kind, the count and the body, of a `P` the post; those of an `E` are passed over.
///
/// ```
/// use prtr::{write_into, Cause, Decline, Unwritten};
///
/// let mut journal = [0; 512];
/// assert_eq!(write_into(b"", &mut journal), Ok(0));
/// assert_eq!(write_into(b"E\x02\x00..", &mut journal), Ok(0));
///
/// let malformed = Unwritten { record: 1, cause: Cause::Malformed };
/// assert_eq!(write_into(b"E\x00\x00P\x30", &mut journal), Err(malformed));
/// assert_eq!(write_into(b"E\x00\x00X\x00\x00", &mut journal), Err(malformed));
/// let out_of_turn = Unwritten { record: 0, cause: Cause::Declined(Decline::OutOfTurn) };
/// assert_eq!(write_into(b"P\x00\x00X", &mut journal), Err(out_of_turn));
/// ```
#[inline]
pub fn write_into(records: &[u8], journal: &mut [u8]) -> Result<usize, Unwritten> {
    let (mut written, mut record) = (0, 0);
    let cause = match raw::write(records, journal, &mut written, &mut record) {
        0 => return Ok(written),
        raw::MALFORMED => Cause::Malformed,
        number => Cause::Declined(crate::declined(number)),
    };
    Err(Unwritten { record, cause })
}
