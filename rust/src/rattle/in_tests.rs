//! What the sources' tests use: texts whose memory may be refused, what a test is handed, and what it fails with.
use super::Vec;
use super::alloc::{AllocError, Allocator, Global};
use core::fmt;
use core::ops::Deref;
use std::string::ToString;

/// A text.
#[derive(PartialEq)]
pub struct String<A: Allocator = Global>(Vec<u8, A>);

impl<A: Allocator> String<A> {
    pub fn as_str(&self) -> &str {
        str::from_utf8(self.0.as_slice()).expect("a text")
    }

    pub fn into_bytes(self) -> Vec<u8, A> {
        self.0
    }
}

impl<A: Allocator> Deref for String<A> {
    type Target = str;

    fn deref(&self) -> &str {
        self.as_str()
    }
}

impl<A: Allocator> fmt::Display for String<A> {
    fn fmt(&self, f: &mut fmt::Formatter<'_>) -> fmt::Result {
        self.as_str().fmt(f)
    }
}

impl<A: Allocator> fmt::Debug for String<A> {
    fn fmt(&self, f: &mut fmt::Formatter<'_>) -> fmt::Result {
        self.as_str().fmt(f)
    }
}

/// What a value writes.
pub fn shown<A: Allocator>(alloc: A, value: &dyn fmt::Display) -> Result<String<A>, AllocError> {
    Ok(String(Vec::from_slice(alloc, value.to_string().as_bytes())?))
}

macro_rules! format {
    (in $alloc:expr; $($rest:tt)*) => { $crate::rattle::shown($alloc, &::core::format_args!($($rest)*)) };
}
pub(crate) use format;

/// What a test is handed.
pub struct HostRuntime;

impl HostRuntime {
    pub fn alloc(&self) -> Global {
        Global
    }
}

/// Whoever may end a test.
pub trait Abort {}

impl Abort for HostRuntime {}

/// Whoever has memory.
pub trait AllocGlobal {
    fn alloc(&self) -> Global {
        Global
    }
}

impl AllocGlobal for HostRuntime {}

/// What a test fails with.
#[derive(Debug)]
pub struct Fail(pub std::string::String);

/// The errors that end a test.
pub trait Ends: fmt::Debug {}

impl Ends for AllocError {}
impl Ends for &str {}
impl Ends for fmt::Error {}
impl Ends for core::num::ParseIntError {}
impl Ends for core::num::TryFromIntError {}

impl<E: Ends> From<E> for Fail {
    fn from(error: E) -> Self {
        Fail(std::format!("{error:?}"))
    }
}
