//! The deepest stack of a call: the stack below is painted, the call made, and the paint that is left counted.

use core::hint::black_box;
use core::mem::MaybeUninit;
use core::ptr;

/// How many bytes are painted.
const DEPTH: usize = 65_536;

const PAINT: u8 = 0xA5;

/// How many bytes of stack a call uses, its own return address among them; at most 65,536 are seen.
///
/// The call must not be the first one to a function that is looked up when it is first called: link with symbols bound
/// at start, as is usual for Rust programs.
pub fn depth(call: impl FnOnce()) -> usize {
    // Through pointers, so that each has a frame of its own, at the same place.
    let low = black_box(paint as fn() -> usize)();
    call();
    black_box(used as fn(usize) -> usize)(low)
}

/// Paints the stack below the caller, and gives the painted area's low end.
fn paint() -> usize {
    let mut area = [const { MaybeUninit::<u8>::uninit() }; DEPTH];
    for byte in &mut area {
        // SAFETY: the pointer is that of a byte of a local array.
        unsafe { byte.as_mut_ptr().write_volatile(PAINT) };
    }
    area.as_ptr().expose_provenance()
}

/// How much of the painted area was written over, counted from its high end.
fn used(low: usize) -> usize {
    let is_painted = |at: usize| {
        let byte = ptr::with_exposed_provenance::<u8>(low + at);
        // SAFETY: the area was this thread's stack a moment ago, so it can be read, and nobody writes to it meanwhile.
        // What is read is compared with the paint and counted, no more.
        unsafe { byte.read_volatile() == PAINT }
    };
    DEPTH - (0..DEPTH).take_while(|&at| is_painted(at)).count()
}
