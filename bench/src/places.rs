//! Where a loop and its lists lie in memory. The times of short loops depend on it, so these are timed
//! at several places.
use crate::table::Call;
use std::arch::asm;

/// How many places there are: a line of 64 bytes begins with each of its sixteens.
pub const PLACES: usize = 4;

/// Lets the code that follows begin `16 * PLACE` bytes after a multiple of 64.
#[inline(always)]
pub fn at_place<const PLACE: usize>() {
    // SAFETY: the steps do nothing, and touch no register, memory or flag.
    unsafe {
        asm!(
            ".p2align 6",
            ".skip {bytes}, 0x90",
            bytes = const 16 * PLACE,
            options(nomem, nostack, preserves_flags)
        );
    }
}

/// The calls of a loop's copies, one for each place.
pub fn calls<L>(copies: [L; PLACES], call: impl Fn(&L, u64) -> u64 + Copy + 'static) -> Vec<Call>
where
    L: 'static,
{
    let boxed = |copy: L| Box::new(move |rounds| call(&copy, rounds)) as Call;
    copies.into_iter().map(boxed).collect()
}

/// Blocks that are held while a row is timed at a place, as many as its number and each as long as
/// the longest list of a row, so that lists which are asked for meanwhile lie elsewhere.
pub fn held_blocks(place: usize) -> Vec<Vec<u8>> {
    let blocks = (0..place).map(|_| vec![0; 8000]);
    std::hint::black_box(blocks.collect())
}
