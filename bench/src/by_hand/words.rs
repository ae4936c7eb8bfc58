//! Vectors of words of 32 bits, by the processor's own instructions.
use std::arch::x86_64::*;

/// A vector of words. An even word and the odd one after it are also a pair of 64 bits.
pub trait Words: Copy {
    /// How many words there are.
    const LANES: usize;

    /// The word in all lanes.
    fn splat(word: u32) -> Self;

    /// The first words of the list.
    fn load(words: &[u32]) -> Self;

    /// Writes the words over the first ones of the list.
    fn store(self, words: &mut [u32]);

    /// The sums modulo 2^32.
    fn add(self, other: Self) -> Self;

    /// The differences modulo 2^32.
    fn sub(self, other: Self) -> Self;

    /// The lesser words.
    fn min(self, other: Self) -> Self;

    /// The bits that both have.
    fn and(self, other: Self) -> Self;

    /// The sums of the pairs modulo 2^64.
    fn add_pairs(self, other: Self) -> Self;

    /// The products of the even words, as pairs.
    fn multiply_even(self, other: Self) -> Self;

    /// The products of words below 2^15.
    fn multiply_short(self, other: Self) -> Self;

    /// The high 16 bits of the products of words below 2^16.
    fn multiply_short_high(self, other: Self) -> Self;

    /// The odd words at the even places; the odd places hold what they did.
    fn odd_to_even(self) -> Self;

    /// The odd words at the even places, and zeros.
    fn high_words(self) -> Self;

    /// The odd words of the even vector at the even places, and those of the odd one at the odd places.
    fn join_high(even: Self, odd: Self) -> Self;
}

macro_rules! vector {
    ($vector:ty, $lanes:literal, $splat:ident, $load:ident, $store:ident, $shift:ident,
     { $($name:ident: $instruction:ident,)* }, $odd:expr, $blend:expr) => {
        // SAFETY: the build is for a processor that has these instructions; loads and stores go over the
        // first words of a slice that has them.
        impl Words for $vector {
            const LANES: usize = $lanes;

            #[inline(always)]
            fn splat(word: u32) -> Self {
                unsafe { $splat(word as i32) }
            }

            #[inline(always)]
            fn load(words: &[u32]) -> Self {
                unsafe { $load(words[..$lanes].as_ptr().cast()) }
            }

            #[inline(always)]
            fn store(self, words: &mut [u32]) {
                unsafe { $store(words[..$lanes].as_mut_ptr().cast(), self) }
            }

            #[inline(always)]
            fn high_words(self) -> Self {
                unsafe { $shift::<32>(self) }
            }

            #[inline(always)]
            fn odd_to_even(self) -> Self {
                unsafe { $odd(self) }
            }

            #[inline(always)]
            fn join_high(even: Self, odd: Self) -> Self {
                unsafe { $blend(even.odd_to_even(), odd) }
            }

            $(
                #[inline(always)]
                fn $name(self, other: Self) -> Self {
                    unsafe { $instruction(self, other) }
                }
            )*
        }
    };
}

vector!(__m128i, 4, _mm_set1_epi32, _mm_loadu_si128, _mm_storeu_si128, _mm_srli_epi64, {
    add: _mm_add_epi32,
    sub: _mm_sub_epi32,
    min: _mm_min_epu32,
    and: _mm_and_si128,
    add_pairs: _mm_add_epi64,
    multiply_even: _mm_mul_epu32,
    multiply_short: _mm_madd_epi16,
    multiply_short_high: _mm_mulhi_epu16,
}, |x| _mm_castps_si128(_mm_movehdup_ps(_mm_castsi128_ps(x))), |x, y| _mm_blend_epi16::<0b1100_1100>(x, y));

#[cfg(target_feature = "avx2")]
vector!(__m256i, 8, _mm256_set1_epi32, _mm256_loadu_si256, _mm256_storeu_si256, _mm256_srli_epi64, {
    add: _mm256_add_epi32,
    sub: _mm256_sub_epi32,
    min: _mm256_min_epu32,
    and: _mm256_and_si256,
    add_pairs: _mm256_add_epi64,
    multiply_even: _mm256_mul_epu32,
    multiply_short: _mm256_madd_epi16,
    multiply_short_high: _mm256_mulhi_epu16,
}, |x| _mm256_castps_si256(_mm256_movehdup_ps(_mm256_castsi256_ps(x))), |x, y| _mm256_blend_epi32::<0b1010_1010>(x, y));

macro_rules! by_halves {
    ($($name:ident)*) => {
        $(
            #[inline(always)]
            fn $name(self, other: Self) -> Self {
                [self[0].$name(other[0]), self[1].$name(other[1])]
            }
        )*
    };
}

/// Two vectors side by side.
impl<V: Words> Words for [V; 2] {
    const LANES: usize = 2 * V::LANES;

    #[inline(always)]
    fn splat(word: u32) -> Self {
        [V::splat(word); 2]
    }

    #[inline(always)]
    fn load(words: &[u32]) -> Self {
        let (low, high) = words.split_at(V::LANES);
        [V::load(low), V::load(high)]
    }

    #[inline(always)]
    fn store(self, words: &mut [u32]) {
        let (low, high) = words.split_at_mut(V::LANES);
        self[0].store(low);
        self[1].store(high);
    }

    #[inline(always)]
    fn odd_to_even(self) -> Self {
        self.map(V::odd_to_even)
    }

    #[inline(always)]
    fn high_words(self) -> Self {
        self.map(V::high_words)
    }

    #[inline(always)]
    fn join_high(even: Self, odd: Self) -> Self {
        [V::join_high(even[0], odd[0]), V::join_high(even[1], odd[1])]
    }

    by_halves!(add sub min and add_pairs multiply_even multiply_short multiply_short_high);
}

/// Four words.
pub type Words4 = __m128i;

/// Eight words, in one vector where the processor has such.
#[cfg(target_feature = "avx2")]
pub type Words8 = __m256i;
#[cfg(not(target_feature = "avx2"))]
pub type Words8 = [__m128i; 2];

/// Sixteen words.
pub type Words16 = [Words8; 2];

/// The longest vector, and how many of them have eight words.
#[cfg(target_feature = "avx2")]
pub type Longest = Words8;
#[cfg(not(target_feature = "avx2"))]
pub type Longest = Words4;
pub const LONGEST_IN_8: usize = 8 / Longest::LANES;
