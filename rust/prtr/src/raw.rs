//! The C calls as they are, on borrowed cells: safe, and the only place that isn't checked by the compiler.
//!
//! A borrow is valid, aligned, not null and overlaps no other mutable one, which is all that the library asks.
//! Each function says what the C header's of the same name says.

#![allow(unsafe_code)]

use std::slice;

mod c {
    extern "C" {
        pub fn prtr_counted(class: u8, ppm: u32, counted: *mut u32) -> u8;
        pub fn prtr_split(
            total: u64,
            removal: u32,
            destruction: u32,
            released: *mut u64,
            destroyed: *mut u64,
            residue: *mut u64,
        ) -> u8;
        pub fn prtr_case(amount: u64, number: *mut u8) -> u64;
        pub fn prtr_step(amount: u64) -> u64;
        pub fn prtr_figure(amount: u64) -> u64;
        pub fn prtr_due(class: u8, handled: u64, due: *mut u8) -> u8;
        pub fn prtr_loss(
            form: u8,
            number: u16,
            w: u64,
            u: u64,
            p: u64,
            q: u64,
            micrograms: *mut u64,
        ) -> u8;
        pub fn prtr_pressure(
            contents: *const u64,
            n: usize,
            weights: *const u64,
            m: usize,
            named: usize,
            pressure: u64,
            partial: *mut u64,
        ) -> u8;
        pub fn prtr_filing(journal: *const u8, length: usize, out: *mut u8, room: usize) -> usize;
        pub fn prtr_write(
            records: *const u8,
            length: usize,
            journal: *mut u8,
            room: usize,
            written: *mut usize,
            place: *mut usize,
        ) -> u8;
    }
}

/// What [`write()`] answers for a record that is cut short or has another tag.
pub const MALFORMED: u8 = 255;

/// 0 and the counted content, or a decline and the cell as before.
#[inline]
pub fn counted(class: u8, ppm: u32, counted: &mut u32) -> u8 {
    unsafe { c::prtr_counted(class, ppm, counted) }
}

/// 0 and the three parts, or a decline and the cells as before.
#[inline]
pub fn split(
    total: u64,
    removal: u32,
    destruction: u32,
    released: &mut u64,
    destroyed: &mut u64,
    residue: &mut u64,
) -> u8 {
    unsafe { c::prtr_split(total, removal, destruction, released, destroyed, residue) }
}

/// The step of an amount, and the number of its case in the cell.
#[inline]
pub fn case(amount: u64, number: &mut u8) -> u64 {
    unsafe { c::prtr_case(amount, number) }
}

/// The step of an amount.
#[inline]
pub fn step(amount: u64) -> u64 {
    unsafe { c::prtr_step(amount) }
}

/// The filed figure of an amount.
#[inline]
pub fn figure(amount: u64) -> u64 {
    unsafe { c::prtr_figure(amount) }
}

/// 0 and 1 or 0 in the cell, or a decline and the cell as before.
#[inline]
pub fn due(class: u8, handled: u64, due: &mut u8) -> u8 {
    unsafe { c::prtr_due(class, handled, due) }
}

/// 0 and the micrograms lost, or a decline and the cell as before; the floats w, u, p and q by their bits.
#[inline]
pub fn loss(form: u8, number: u16, floats: [u64; 4], micrograms: &mut u64) -> u8 {
    let [w, u, p, q] = floats;
    unsafe { c::prtr_loss(form, number, w, u, p, q, micrograms) }
}

/// 0 and the partial pressure of the part at the place `named`, or a decline and the cell as before; floats by their bits.
#[inline]
pub fn pressure(
    contents: &[u64],
    weights: &[u64],
    named: usize,
    pressure: u64,
    partial: &mut u64,
) -> u8 {
    unsafe {
        c::prtr_pressure(
            contents.as_ptr(),
            contents.len(),
            weights.as_ptr(),
            weights.len(),
            named,
            pressure,
            partial,
        )
    }
}

// `bits` reads floats in place.
const _: () = {
    assert!(size_of::<f64>() == size_of::<u64>());
    assert!(align_of::<f64>() == align_of::<u64>());
};

/// The bits of floats, where they are.
#[inline]
pub(crate) fn bits(floats: &[f64]) -> &[u64] {
    // Both types have one size and alignment, and any bits are a `u64`.
    unsafe { slice::from_raw_parts(floats.as_ptr().cast(), floats.len()) }
}

/// How many bytes of text are now at the start of `out`, or 0 and `out` as before where it is
/// shorter than [`ROOM`](crate::ROOM).
#[inline]
pub fn filing(journal: &[u8], out: &mut [u8]) -> usize {
    unsafe { c::prtr_filing(journal.as_ptr(), journal.len(), out.as_mut_ptr(), out.len()) }
}

/// 0, the journal at the start of `journal` and its length in `written`; or the decline, or [`MALFORMED`], of the first
/// record that isn't taken and that record's place in `place`. All else is as before.
#[inline]
pub fn write(records: &[u8], journal: &mut [u8], written: &mut usize, place: &mut usize) -> u8 {
    let (length, room) = (records.len(), journal.len());
    unsafe {
        c::prtr_write(
            records.as_ptr(),
            length,
            journal.as_mut_ptr(),
            room,
            written,
            place,
        )
    }
}
