//! The verdict of the proved library on a session's journal, for tests: the crate `test_journal` of the
//! repository's root.

#![no_std]
#![allow(unsafe_code)]

/// Room for every reply's record.
pub const REPLY_ROOM: usize = 264;

extern "C" {
    fn emv_test_journal(bytes: *const u8, bytes_len: usize, first: usize, part: usize) -> u32;
    fn emv_test_wanted(bytes: *const u8, bytes_len: usize, out: *mut u8, out_len: usize) -> usize;
}

/// Judges a journal that is fed in parts: the first bytes, so many, then parts of one size, 0 for all that is left.
///
/// Gives the record's number in the low 16 bits, and above it 0 for accepted, 1 for a mismatch and 2 for truncated.
pub fn judge(journal: &[u8], first: usize, part: usize) -> u32 {
    // SAFETY: pointer and length are those of one slice.
    unsafe { emv_test_journal(journal.as_ptr(), journal.len(), first, part) }
}

/// Writes the one conforming record in place of the first mismatching one at the front of `out`, and gives its size.
///
/// Size 0 where there is none, and where `out` is too short for it.
pub fn wanted(journal: &[u8], out: &mut [u8]) -> usize {
    // SAFETY: each pointer and length are those of one slice; the one borrowed for writing overlaps nothing.
    unsafe { emv_test_wanted(journal.as_ptr(), journal.len(), out.as_mut_ptr(), out.len()) }
}
