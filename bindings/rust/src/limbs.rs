//! Values of Goldilocks as limbs of BabyBear or KoalaBear, and back.
use crate::calls;
use crate::error::{Error, done, written};
use crate::field::PrimeField;
use crate::fields::{BabyBear, Goldilocks, KoalaBear};

/// A field whose values can be limbs of a value of [`Goldilocks`].
pub trait Limb: PrimeField {
    /// The value for the number whose digits in radix 2 to the power `radix_bits`, the lowest first, are the limbs.
    ///
    /// Refused by [`Error::Radix`], [`Error::Word`], [`Error::Memory`].
    ///
    /// ```
    /// use p3_field_proved::{BabyBear, Error, Limb, PrimeField};
    /// let mut numbers = [5, 1];
    /// let limbs = BabyBear::from_canonical(&mut numbers)?;
    /// assert_eq!(BabyBear::pack(limbs, 32)?.number()?, (1 << 32) + 5);
    /// assert_eq!(BabyBear::pack(limbs, 0), Err(Error::Radix));
    /// # Ok::<(), Error>(())
    /// ```
    fn pack(limbs: &[Self], radix_bits: u32) -> Result<Goldilocks, Error>;

    /// Writes the lowest digits of the value in radix 2 to the power `radix_bits`, the lowest first, as many as there
    /// are limbs.
    ///
    /// Refused by [`Error::Radix`], [`Error::Word`], [`Error::Memory`].
    ///
    /// ```
    /// use p3_field_proved::{BabyBear, Error, Goldilocks, Limb, PrimeField};
    /// let mut limbs = [BabyBear::from_number(0)?; 3];
    /// BabyBear::split(Goldilocks::from_number((1 << 20) + 7)?, 10, &mut limbs)?;
    /// assert_eq!(BabyBear::to_canonical(&mut limbs)?, [7, 0, 1]);
    /// # Ok::<(), Error>(())
    /// ```
    fn split(value: Goldilocks, radix_bits: u32, limbs: &mut [Self]) -> Result<(), Error>;

    /// How many limbs can be packed into one value at most, so that lists of one length stay apart where the radix is
    /// not below the order.
    ///
    /// Refused by [`Error::Radix`].
    ///
    /// ```
    /// use p3_field_proved::{BabyBear, Error, Limb};
    /// assert_eq!(BabyBear::most_digits(31)?, 2);
    /// # Ok::<(), Error>(())
    /// ```
    fn most_digits(radix_bits: u32) -> Result<usize, Error>;
}

/// A field of 32 bits, by a module of calls, which are safe as those of the prime fields are.
macro_rules! limb {
    ($name:ident, $calls:ident) => {
        impl Limb for $name {
            fn pack(limbs: &[Self], radix_bits: u32) -> Result<Goldilocks, Error> {
                let (at, len) = (limbs.as_ptr().cast(), limbs.len());
                written(Goldilocks(0), |value| unsafe {
                    calls::$calls::pack(at, len, radix_bits, &mut value.0)
                })
            }

            fn split(value: Goldilocks, radix_bits: u32, limbs: &mut [Self]) -> Result<(), Error> {
                let (at, len) = (limbs.as_mut_ptr().cast(), limbs.len());
                done(unsafe { calls::$calls::split(value.0, radix_bits, at, len) })
            }

            fn most_digits(radix_bits: u32) -> Result<usize, Error> {
                written(0, |count| unsafe { calls::$calls::most_digits(radix_bits, count) })
            }
        }
    };
}

limb! { BabyBear, bb }
limb! { KoalaBear, kb }
