//! One reading of a card's answer by each of the proved library's two readers, for tests: the crates `test_reading` and
//! `test_reading_flat` of the repository's root. [`stack`] reports how deep a call's stack is.

#![no_std]
#![allow(unsafe_code)]

pub mod stack;

/// What a reading gives where the store has another size or the number is no answer.
pub const NOT_READ: u32 = 0xFFFF_FFFF;

extern "C" {
    fn emv_test_read(
        store: *mut u8,
        store_len: usize,
        awaited: u32,
        file: u8,
        card: *const u8,
        card_len: usize,
    ) -> u32;
    fn emv_test_read_flat(
        store: *mut u8,
        store_len: usize,
        awaited: u32,
        file: u8,
        card: *const u8,
        card_len: usize,
    ) -> u32;
}

/// Reads an answer, status bytes included, to GPO (0), a record of this file (1), the cryptogram (2) or the checksum
/// (3), with the reader that calls itself.
///
/// Gives the reason in bits 16 to 23 and the object count below, or [`NOT_READ`].
pub fn read(store: &mut [u8], awaited: u32, file: u8, card: &[u8]) -> u32 {
    // SAFETY: each pointer and length are those of one slice; the one borrowed for writing overlaps nothing.
    unsafe {
        emv_test_read(
            store.as_mut_ptr(),
            store.len(),
            awaited,
            file,
            card.as_ptr(),
            card.len(),
        )
    }
}

/// Reads as [`read`] does, with the reader that keeps its open templates in an array.
pub fn read_flat(store: &mut [u8], awaited: u32, file: u8, card: &[u8]) -> u32 {
    // SAFETY: as above.
    unsafe {
        emv_test_read_flat(
            store.as_mut_ptr(),
            store.len(),
            awaited,
            file,
            card.as_ptr(),
            card.len(),
        )
    }
}
