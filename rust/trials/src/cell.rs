//! The cells that a calculation is lent.

/// What a cell holds before a call.
pub const BEFORE: u64 = 0x5a5a_5a5a_5a5a_5a5a;

/// What a call left: its status, and the cell's value or what it was before.
pub fn left<A>(answer: Result<A, u8>, before: A) -> (u8, A) {
    match answer {
        Ok(value) => (0, value),
        Err(number) => (number, before),
    }
}
