//! The lists of records that programs read: a tag, a length of 16 bits and that many bytes.

/// The most bytes of a record, its tag and length aside.
pub const MOST_IN_RECORD: usize = u16::MAX as usize;

/// Adds a record; panics where its bytes are more than a length of 16 bits can say.
pub fn record(records: &mut Vec<u8>, tag: u8, bytes: &[u8]) {
    let length = u16::try_from(bytes.len()).expect("a record has at most 65,535 bytes");
    records.push(tag);
    records.extend(length.to_le_bytes());
    records.extend(bytes);
}

/// The bytes of a stock count: the material's place and the counted grams.
pub fn stock(material: u8, counted: u64) -> Vec<u8> {
    [&[material], &counted.to_le_bytes()[..]].concat()
}

/// The bytes of a set-up record: kind, count and body.
pub fn set_up(kind: u8, count: u8, body: &[u8]) -> Vec<u8> {
    [&[kind, count], body].concat()
}
