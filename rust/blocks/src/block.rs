//! The frame of a block, and its check sums.

/// The bytes of a block.
pub const BLOCK: usize = 512;
/// Where a block's body starts.
pub const BODY: usize = 8;
/// Where the check sums start.
pub const SUMS: usize = 508;
/// What check sums are a remainder by.
pub const MODULUS: u32 = 65_521;

/// One block.
pub type Block = [u8; BLOCK];

/// A block without a body, not sealed.
pub fn frame(kind: u8, count: u8, number: u16) -> Block {
    let mut block = [0; BLOCK];
    block[..4].copy_from_slice(b"PRTR");
    block[4] = kind;
    block[5] = count;
    block[6..8].copy_from_slice(&number.to_le_bytes());
    block
}

/// A sealed block; what its body leaves is zero.
pub fn block(kind: u8, count: u8, number: u16, body: &[u8]) -> Block {
    altered(frame(kind, count, number), BODY, body)
}

/// The block with other bytes from `at` on, and its check sums with them.
pub fn altered(mut block: Block, at: usize, bytes: &[u8]) -> Block {
    block[at..at + bytes.len()].copy_from_slice(bytes);
    seal(&mut block);
    block
}

/// The two check sums of a block, as it is.
pub fn sums(block: &Block) -> [u16; 2] {
    let (mut plain, mut placed) = (0u32, 0u32);
    for (place, &byte) in (1..).zip(&block[..SUMS]) {
        plain += byte as u32;
        placed += place * byte as u32;
    }
    [(plain % MODULUS) as u16, (placed % MODULUS) as u16]
}

/// Puts two check sums into a block.
pub fn put_sums(block: &mut Block, sums: [u16; 2]) {
    block[SUMS..SUMS + 2].copy_from_slice(&sums[0].to_le_bytes());
    block[SUMS + 2..].copy_from_slice(&sums[1].to_le_bytes());
}

/// Puts the block's own check sums into it.
pub fn seal(block: &mut Block) {
    put_sums(block, sums(block));
}

/// Gives each block its place as its number, and seals it.
pub fn renumber(blocks: &mut [Block]) {
    for (number, block) in blocks.iter_mut().enumerate() {
        block[6..8].copy_from_slice(&(number as u16).to_le_bytes());
        seal(block);
    }
}
