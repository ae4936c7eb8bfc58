//! A vector of words of 64 bits, by the instructions of x86-64-v3.
use std::arch::x86_64::*;

/// How many words there are.
pub const LANES: usize = 4;

/// A vector of words.
#[derive(Clone, Copy)]
pub struct Longs(__m256i);

macro_rules! steps {
    ($($(#[$text:meta])* $name:ident: $instruction:ident,)*) => {
        $(
            $(#[$text])*
            #[inline(always)]
            pub fn $name(self, other: Self) -> Self {
                Longs(unsafe { $instruction(self.0, other.0) })
            }
        )*
    };
}

// SAFETY: the build is for a processor that has these instructions; loads and stores go over the first words of a
// slice that has them.
impl Longs {
    /// The word in all lanes.
    #[inline(always)]
    pub fn splat(word: u64) -> Self {
        Longs(unsafe { _mm256_set1_epi64x(word as i64) })
    }

    /// The first words of the list.
    #[inline(always)]
    pub fn load(words: &[u64]) -> Self {
        Longs(unsafe { _mm256_loadu_si256(words[..LANES].as_ptr().cast()) })
    }

    /// Writes the words over the first ones of the list.
    #[inline(always)]
    pub fn store(self, words: &mut [u64]) {
        unsafe { _mm256_storeu_si256(words[..LANES].as_mut_ptr().cast(), self.0) }
    }

    /// The high halves.
    #[inline(always)]
    pub fn high(self) -> Self {
        Longs(unsafe { _mm256_srli_epi64::<32>(self.0) })
    }

    /// The high halves at the low places; the high places hold what they did.
    #[inline(always)]
    pub fn high_to_low(self) -> Self {
        Longs(unsafe { _mm256_castps_si256(_mm256_movehdup_ps(_mm256_castsi256_ps(self.0))) })
    }

    /// The low halves of the first vector, and above them those of the second one.
    #[inline(always)]
    pub fn join_low(low: Self, high: Self) -> Self {
        Longs(unsafe { _mm256_blend_epi32::<0b1010_1010>(low.0, _mm256_slli_epi64::<32>(high.0)) })
    }

    steps! {
        /// The sums modulo 2^64.
        add: _mm256_add_epi64,
        /// The differences modulo 2^64.
        sub: _mm256_sub_epi64,
        /// The bits that both have.
        and: _mm256_and_si256,
        /// The bits that one of both has.
        xor: _mm256_xor_si256,
        /// All bits where the word is greater than the other one, with signs; none elsewhere.
        greater: _mm256_cmpgt_epi64,
        /// The products of the low halves.
        multiply_low: _mm256_mul_epu32,
    }
}
