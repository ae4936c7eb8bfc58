//! Vectors of words over arrays, as far as the proved sources use them, for stable Rust: LLVM makes vectors of the loops.
use core::ops::{Add, BitAnd, BitOr, BitXor, Div, Index, IndexMut, Mul, Rem, Shl, Shr, Sub};

pub mod prelude {
    pub use super::*;
}

pub trait SimdElement: Copy + Default {}
pub trait ToBytes {}

#[derive(Clone, Copy, PartialEq, Eq, Debug)]
#[repr(transparent)]
pub struct Simd<T, const N: usize>([T; N]);

impl<T: SimdElement, const N: usize> Simd<T, N> {
    #[inline(always)]
    pub const fn splat(value: T) -> Self {
        Simd([value; N])
    }

    #[inline(always)]
    pub const fn from_array(array: [T; N]) -> Self {
        Simd(array)
    }

    #[inline(always)]
    pub const fn to_array(self) -> [T; N] {
        self.0
    }

    #[inline(always)]
    pub fn from_slice(slice: &[T]) -> Self {
        let mut made = [T::default(); N];
        made.copy_from_slice(&slice[..N]);
        Simd(made)
    }

    #[inline(always)]
    pub fn copy_to_slice(self, slice: &mut [T]) {
        slice[..N].copy_from_slice(&self.0);
    }

    #[inline(always)]
    fn made<U: SimdElement, const M: usize>(mut lane: impl FnMut(usize) -> U) -> Simd<U, M> {
        let mut made = [U::default(); M];
        let mut i = 0;
        while i < M {
            made[i] = lane(i);
            i += 1;
        }
        Simd(made)
    }

    #[inline(always)]
    fn by_lanes(self, other: Self, of: impl Fn(T, T) -> T) -> Self {
        Self::made(|i| of(self.0[i], other.0[i]))
    }

    #[inline(always)]
    pub fn cast<U: SimdElement>(self) -> Simd<U, N>
    where
        T: To<U>,
    {
        Self::made(|i| self.0[i].to())
    }

    #[inline(always)]
    pub fn extract<const START: usize, const LEN: usize>(self) -> Simd<T, LEN> {
        Self::made(|i| self.0[START + i])
    }

    #[inline(always)]
    pub fn shuffle<const M: usize>(self, second: Self, positions: [usize; M]) -> Simd<T, M> {
        Self::made(|k| if positions[k] < N { self.0[positions[k]] } else { second.0[positions[k] - N] })
    }

    #[inline(always)]
    pub fn interleave(self, other: Self) -> (Self, Self) {
        let at = |k: usize| if k % 2 == 0 { self.0[k / 2] } else { other.0[k / 2] };
        (Self::made(at), Self::made(|k| at(N + k)))
    }

    #[inline(always)]
    pub fn deinterleave(self, other: Self) -> (Self, Self) {
        let at = |k: usize| if k < N { self.0[k] } else { other.0[k - N] };
        (Self::made(|k| at(2 * k)), Self::made(|k| at(2 * k + 1)))
    }
}

pub trait To<U> {
    fn to(self) -> U;
}

impl<T, const N: usize> Index<usize> for Simd<T, N> {
    type Output = T;
    #[inline(always)]
    fn index(&self, i: usize) -> &T {
        &self.0[i]
    }
}

impl<T, const N: usize> IndexMut<usize> for Simd<T, N> {
    #[inline(always)]
    fn index_mut(&mut self, i: usize) -> &mut T {
        &mut self.0[i]
    }
}

macro_rules! operators {
    ($t:ty: $($trait:ident $name:ident $of:expr;)*) => { $(
        impl<const N: usize> $trait for Simd<$t, N> {
            type Output = Self;
            #[inline(always)]
            fn $name(self, other: Self) -> Self {
                self.by_lanes(other, $of)
            }
        }
    )* };
}

macro_rules! casts {
    ($t:ty: $($u:ty),*) => { $(
        impl To<$u> for $t {
            #[inline(always)]
            fn to(self) -> $u {
                self as $u
            }
        }
    )* };
}

macro_rules! elements {
    ($($t:ty)*) => { $(
        impl SimdElement for $t {}
        casts!($t: u8, u16, u32, u64);
        operators! { $t:
            Add add |a, b| a.wrapping_add(b);
            Sub sub |a, b| a.wrapping_sub(b);
            Mul mul |a, b| a.wrapping_mul(b);
            Div div |a, b| a / b;
            Rem rem |a, b| a % b;
            BitAnd bitand |a, b| a & b;
            BitOr bitor |a, b| a | b;
            BitXor bitxor |a, b| a ^ b;
            Shl shl |a, b| a.wrapping_shl(b as u32);
            Shr shr |a, b| a.wrapping_shr(b as u32);
        }

        impl<const N: usize> Simd<$t, N> {
            #[inline(always)]
            pub fn simd_min(self, other: Self) -> Self {
                self.by_lanes(other, |a, b| if a < b { a } else { b })
            }

            #[inline(always)]
            pub fn strict_add(self, other: Self) -> Self {
                self + other
            }

            #[inline(always)]
            pub fn strict_reduce_sum(self) -> $t {
                self.0.iter().fold(0, |sum: $t, lane| sum.wrapping_add(*lane))
            }
        }
    )* };
}
elements! { u8 u16 u32 u64 }

macro_rules! bytes {
    ($($t:ty, $n:literal, $m:literal;)*) => { $(
        impl Simd<$t, $n> {
            #[inline(always)]
            pub fn to_le_bytes(self) -> Simd<u8, $m> {
                const SIZE: usize = size_of::<$t>();
                let mut made = [0u8; $m];
                let mut i = 0;
                while i < $n {
                    made[SIZE * i..SIZE * i + SIZE].copy_from_slice(&self.0[i].to_le_bytes());
                    i += 1;
                }
                Simd(made)
            }

            #[inline(always)]
            pub fn from_le_bytes(bytes: Simd<u8, $m>) -> Self {
                const SIZE: usize = size_of::<$t>();
                let mut made = [0; $n];
                let mut i = 0;
                while i < $n {
                    let mut word = [0u8; SIZE];
                    word.copy_from_slice(&bytes.0[SIZE * i..SIZE * i + SIZE]);
                    made[i] = <$t>::from_le_bytes(word);
                    i += 1;
                }
                Simd(made)
            }
        }
    )* };
}
bytes! { u16, 8, 16; u16, 16, 32; u32, 4, 16; u32, 8, 32; u64, 2, 16; u64, 4, 32; }

pub type u8x16 = Simd<u8, 16>;
pub type u8x32 = Simd<u8, 32>;
pub type u16x8 = Simd<u16, 8>;
pub type u16x16 = Simd<u16, 16>;
pub type u32x4 = Simd<u32, 4>;
pub type u32x8 = Simd<u32, 8>;
pub type u32x16 = Simd<u32, 16>;
pub type u64x2 = Simd<u64, 2>;
pub type u64x4 = Simd<u64, 4>;
pub type u64x8 = Simd<u64, 8>;
