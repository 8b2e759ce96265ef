//! The frame of a journal block, and the reading of stored numbers.

use crate::decline::{CHECK_SUM, NO_BLOCK};

/// "A block is 512 bytes."
pub(crate) const SIZE: usize = 512;
/// "8–507 body."
pub(crate) const BODY: usize = 8;
/// Where the body ends and the check sums start.
pub(crate) const SUMS: usize = 508;

pub(crate) type Block = [u8; SIZE];

/// The bytes of a body.
pub(crate) const BODY_SIZE: usize = SUMS - BODY;

/// A block with its check sums; what its body leaves is zero.
pub(crate) fn framed(kind: u8, count: u8, number: u16, body: &[u8]) -> Block {
    let mut block = [0; SIZE];
    block[..4].copy_from_slice(b"PRTR");
    block[4] = kind;
    block[5] = count;
    block[6..8].copy_from_slice(&number.to_le_bytes());
    block[BODY..BODY + body.len()].copy_from_slice(body);
    let (plain, weighted) = sums(&block);
    block[508..510].copy_from_slice(&(plain as u16).to_le_bytes());
    block[510..].copy_from_slice(&(weighted as u16).to_le_bytes());
    block
}

/// Passes the bytes of a block through declines 1 and 2.
pub(crate) fn open(bytes: &[u8]) -> Result<&Block, u8> {
    let block: &Block = bytes.try_into().map_err(|_| NO_BLOCK)?;
    if !block.starts_with(b"PRTR") {
        return Err(NO_BLOCK);
    }
    if sums(block) != (u32::from(u16_at(block, 508)), u32::from(u16_at(block, 510))) {
        return Err(CHECK_SUM);
    }
    Ok(block)
}

/// "The sum of bytes 0–507 modulo 65,521" and "the sum, over the same bytes, of each byte times
/// (its offset + 1), modulo 65,521". The larger stays below 33 million before its remainder.
fn sums(block: &Block) -> (u32, u32) {
    let (mut plain, mut weighted) = (0u32, 0u32);
    for (byte, weight) in block[..SUMS].iter().zip(1u16..) {
        plain += u32::from(*byte);
        weighted += u32::from(*byte) * u32::from(weight);
    }
    (plain % 65_521, weighted % 65_521)
}

/// "Bytes not named are zero": of the body, those from `from` on.
pub(crate) fn zero_from(block: &Block, from: usize) -> bool {
    block[from..SUMS].iter().all(|byte| *byte == 0)
}

// "Stored numbers are little-endian."

pub(crate) fn u16_at(bytes: &[u8], at: usize) -> u16 {
    u16::from_le_bytes([bytes[at], bytes[at + 1]])
}

pub(crate) fn u32_at(bytes: &[u8], at: usize) -> u32 {
    u32::from_le_bytes(bytes[at..at + 4].try_into().expect("four bytes"))
}

pub(crate) fn u64_at(bytes: &[u8], at: usize) -> u64 {
    u64::from_le_bytes(bytes[at..at + 8].try_into().expect("eight bytes"))
}
