//! Why a call is refused.
use crate::calls::status;
use std::fmt;

/// Why a call was refused. All that it was lent is as it was before.
#[derive(Clone, Copy, Debug, PartialEq, Eq, Hash)]
pub enum Error {
    /// The lengths differ, or a length isn't what the call asks for.
    Length,
    /// A word is not below the order.
    Word,
    /// A value has no inverse.
    NoInverse,
    /// No square root is found.
    NoRoot,
    /// The log size is past the two-adicity.
    LogSize,
    /// Memory was refused.
    Memory,
    /// A step's number is unknown, or a register that it names isn't there.
    Step,
    /// The bits of the radix are not what the call asks for.
    Radix,
}

impl fmt::Display for Error {
    fn fmt(&self, f: &mut fmt::Formatter<'_>) -> fmt::Result {
        f.write_str(match self {
            Error::Length => "the lengths differ, or a length isn't what the call asks for",
            Error::Word => "a word is not below the order",
            Error::NoInverse => "a value has no inverse",
            Error::NoRoot => "no square root is found",
            Error::LogSize => "the log size is past the two-adicity",
            Error::Memory => "memory was refused",
            Error::Step => "a step's number is unknown, or a register that it names isn't there",
            Error::Radix => "the bits of the radix are not what the call asks for",
        })
    }
}

impl std::error::Error for Error {}

/// What a status says.
///
/// # Panics
///
/// Where the library that is linked answers a status that this crate doesn't know.
pub(crate) fn done(answer: i32) -> Result<(), Error> {
    Err(match answer {
        status::OK => return Ok(()),
        status::LENGTH => Error::Length,
        status::WORD => Error::Word,
        status::NO_INVERSE => Error::NoInverse,
        status::NO_ROOT => Error::NoRoot,
        status::LOG_SIZE => Error::LogSize,
        status::MEMORY => Error::Memory,
        status::STEP => Error::Step,
        status::RADIX => Error::Radix,
        other => panic!("the library is of another version: it answers the status {other}"),
    })
}

/// What a call writes over `room`, where it isn't refused.
pub(crate) fn written<T>(mut room: T, call: impl FnOnce(&mut T) -> i32) -> Result<T, Error> {
    done(call(&mut room)).map(|()| room)
}
