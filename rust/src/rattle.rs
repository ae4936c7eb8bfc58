//! What the proved sources use of Rattle's standard library where Rust's differs: vectors whose growth may be refused,
//! `AsSlice`, and vectors of words.
//!
//! This module is by hand and is trusted: that each call does what the prover's library says of it.

/// Memory that may be refused.
pub mod alloc {
    /// Memory was refused.
    #[derive(Clone, Copy, PartialEq, Eq, Debug)]
    pub struct AllocError;

    impl core::fmt::Display for AllocError {
        fn fmt(&self, f: &mut core::fmt::Formatter<'_>) -> core::fmt::Result {
            f.write_str("memory allocation failed")
        }
    }

    impl core::error::Error for AllocError {}

    /// Where memory comes from. There is Rust's heap alone.
    pub trait Allocator {}

    /// Rust's heap.
    #[derive(Clone, Copy, Default, Debug)]
    pub struct Global;

    impl Allocator for Global {}
}

use ::alloc::vec as heap;
use alloc::{AllocError, Allocator, Global};
use core::ops::{Deref, DerefMut};

/// A vector whose growth may be refused. `into` makes it Rust's own, without a copy.
#[derive(PartialEq)]
pub struct Vec<T, A: Allocator = Global> {
    items: heap::Vec<T>,
    alloc: A,
}

impl<T: core::fmt::Debug, A: Allocator> core::fmt::Debug for Vec<T, A> {
    fn fmt(&self, f: &mut core::fmt::Formatter<'_>) -> core::fmt::Result {
        self.items.fmt(f)
    }
}

impl<T, A: Allocator> Vec<T, A> {
    /// A vector without items, which takes no memory.
    #[inline]
    pub fn new(alloc: A) -> Self {
        Vec { items: heap::Vec::new(), alloc }
    }

    /// A vector without items, with room for so many.
    #[inline]
    pub fn with_capacity(alloc: A, capacity: usize) -> Result<Self, AllocError> {
        let mut items = heap::Vec::new();
        items.try_reserve_exact(capacity).map_err(|_| AllocError)?;
        Ok(Vec { items, alloc })
    }

    /// A copy of a slice.
    #[inline]
    pub fn from_slice(alloc: A, items: &[T]) -> Result<Self, AllocError>
    where
        T: Copy,
    {
        let mut made = Self::with_capacity(alloc, items.len())?;
        made.items.extend_from_slice(items);
        Ok(made)
    }

    /// Adds an item at the end.
    #[inline]
    pub fn push(&mut self, item: T) -> Result<(), AllocError> {
        self.items.try_reserve(1).map_err(|_| AllocError)?;
        self.items.push(item);
        Ok(())
    }

    /// Cuts the vector to a length, or fills it up with copies of an item.
    #[inline]
    pub fn resize(&mut self, len: usize, item: T) -> Result<(), AllocError>
    where
        T: Copy,
    {
        self.items.try_reserve(len.saturating_sub(self.items.len())).map_err(|_| AllocError)?;
        self.items.resize(len, item);
        Ok(())
    }

    /// Adds copies of a slice's items at the end.
    #[inline]
    pub fn extend_from_slice(&mut self, items: &[T]) -> Result<(), AllocError>
    where
        T: Copy,
    {
        self.items.try_reserve(items.len()).map_err(|_| AllocError)?;
        self.items.extend_from_slice(items);
        Ok(())
    }

    /// The items.
    #[inline]
    pub fn as_slice(&self) -> &[T] {
        &self.items
    }
}

impl<T, A: Allocator> Deref for Vec<T, A> {
    type Target = [T];

    #[inline]
    fn deref(&self) -> &[T] {
        &self.items
    }
}

impl<T, A: Allocator> DerefMut for Vec<T, A> {
    #[inline]
    fn deref_mut(&mut self) -> &mut [T] {
        &mut self.items
    }
}

impl<T> From<heap::Vec<T>> for Vec<T> {
    #[inline]
    fn from(items: heap::Vec<T>) -> Self {
        Vec { items, alloc: Global }
    }
}

impl<T, A: Allocator> From<Vec<T, A>> for heap::Vec<T> {
    #[inline]
    fn from(vector: Vec<T, A>) -> Self {
        vector.items
    }
}

impl<T, A: Allocator> IntoIterator for Vec<T, A> {
    type Item = T;
    type IntoIter = heap::IntoIter<T>;

    #[inline]
    fn into_iter(self) -> Self::IntoIter {
        self.items.into_iter()
    }
}

impl<'a, T, A: Allocator> IntoIterator for &'a Vec<T, A> {
    type Item = &'a T;
    type IntoIter = core::slice::Iter<'a, T>;

    #[inline]
    fn into_iter(self) -> Self::IntoIter {
        self.items.iter()
    }
}

/// What is a slice to read.
pub trait AsSlice<T> {
    /// The items.
    fn as_slice(&self) -> &[T];
}

impl<T> AsSlice<T> for &[T] {
    #[inline]
    fn as_slice(&self) -> &[T] {
        self
    }
}

impl<T, const N: usize> AsSlice<T> for [T; N] {
    #[inline]
    fn as_slice(&self) -> &[T] {
        self
    }
}

impl<T, A: Allocator> AsSlice<T> for Vec<T, A> {
    #[inline]
    fn as_slice(&self) -> &[T] {
        &self.items
    }
}

/// `collect` of the sources' iterators, which is handed an allocator.
pub trait Collect: Iterator + Sized {
    /// The items as a vector.
    #[inline]
    fn collect_in<A: Allocator>(self, alloc: A) -> Result<Vec<Self::Item, A>, AllocError> {
        Ok(Vec { items: self.collect(), alloc })
    }
}

impl<I: Iterator> Collect for I {}

#[cfg(test)]
mod in_tests;
#[cfg(test)]
pub use in_tests::{Abort, AllocGlobal, Fail, HostRuntime, String, shown};
#[cfg(test)]
pub(crate) use in_tests::format;

#[cfg(not(feature = "nightly"))]
#[allow(non_camel_case_types, missing_docs)]
pub mod simd;

/// Vectors of words by `std::simd`, and the calls that the sources' has besides.
#[cfg(feature = "nightly")]
pub mod simd {
    pub mod prelude {
        pub use super::More;
        pub use core::simd::ToBytes;
        pub use core::simd::prelude::*;
    }

    use core::simd::num::SimdUint;
    use core::simd::{Simd, SimdElement};

    /// Calls of the sources' vectors that `std::simd` has under another name.
    pub trait More<T: SimdElement, const N: usize>: Sized {
        /// The lanes at these positions of both vectors, one after the other.
        fn shuffle<const M: usize>(self, second: Self, positions: [usize; M]) -> Simd<T, M>;

        /// The sum, which fits in each lane.
        #[inline(always)]
        fn strict_add(self, other: Self) -> Self
        where
            Self: core::ops::Add<Output = Self>,
        {
            self + other
        }

        /// The sum of all lanes, which fits.
        #[inline(always)]
        fn strict_reduce_sum(self) -> T
        where
            Self: SimdUint<Scalar = T>,
        {
            self.reduce_sum()
        }
    }

    impl<T: SimdElement, const N: usize> More<T, N> for Simd<T, N> {
        #[inline(always)]
        fn shuffle<const M: usize>(self, second: Self, positions: [usize; M]) -> Simd<T, M> {
            Simd::from_array(core::array::from_fn(|k| {
                let at = positions[k];
                if at < N { self[at] } else { second[at - N] }
            }))
        }
    }
}
