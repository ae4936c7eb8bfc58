//! The quartic extension of BabyBear, by the library's calls.
use crate::calls::bbx4;
use crate::error::{Error, done, written};
use crate::fields::BabyBear;

/// A value of the extension of [`BabyBear`] by `X^4 = 31`: its coefficients at 1, X, X^2 and X^3.
///
/// The calls are safe as they are made: a pointer goes with the number of words of its slice, which is borrowed while
/// the call runs, alone where it is written; a value has the layout of four words.
#[derive(Clone, Copy, Debug, PartialEq, Eq, Hash)]
#[repr(transparent)]
pub struct BabyBearx4(pub [BabyBear; 4]);

/// The words of a list: where they are, and how many.
fn words(values: &[BabyBearx4]) -> (*const u32, usize) {
    (values.as_ptr().cast(), 4 * values.len())
}

/// The same of a list that is written.
fn words_mut(values: &mut [BabyBearx4]) -> (*mut u32, usize) {
    (values.as_mut_ptr().cast(), 4 * values.len())
}

impl BabyBearx4 {
    /// The value with these canonical numbers as coefficients.
    ///
    /// ```
    /// use p3_field_proved::{BabyBear, BabyBearx4, Error, PrimeField};
    /// assert_eq!(BabyBearx4::from_numbers([1, 2, 3, 4])?.0[2].number()?, 3);
    /// assert_eq!(BabyBearx4::from_numbers([0, 0, 0, BabyBear::ORDER]), Err(Error::Word));
    /// # Ok::<(), Error>(())
    /// ```
    pub fn from_numbers(numbers: [u32; 4]) -> Result<Self, Error> {
        let [a, b, c, d] = numbers.map(<BabyBear as crate::PrimeField>::from_number);
        Ok(Self([a?, b?, c?, d?]))
    }

    /// The canonical numbers of the coefficients.
    ///
    /// ```
    /// use p3_field_proved::BabyBearx4;
    /// assert_eq!(BabyBearx4::from_numbers([1, 2, 3, 4])?.numbers()?, [1, 2, 3, 4]);
    /// # Ok::<(), p3_field_proved::Error>(())
    /// ```
    pub fn numbers(self) -> Result<[u32; 4], Error> {
        let [a, b, c, d] = self.0.map(<BabyBear as crate::PrimeField>::number);
        Ok([a?, b?, c?, d?])
    }

    /// Multiplies each value on the left by the one on the right at its index.
    ///
    /// Refused by [`Error::Length`], [`Error::Word`].
    ///
    /// ```
    /// use p3_field_proved::BabyBearx4;
    /// let mut values = [BabyBearx4::from_numbers([0, 0, 0, 1])?];
    /// BabyBearx4::mul(&mut values, &[BabyBearx4::from_numbers([0, 2, 0, 0])?])?;
    /// assert_eq!(values[0].numbers()?, [62, 0, 0, 0]);
    /// # Ok::<(), p3_field_proved::Error>(())
    /// ```
    pub fn mul(left: &mut [Self], right: &[Self]) -> Result<(), Error> {
        let ((at, len), (from, count)) = (words_mut(left), words(right));
        done(unsafe { bbx4::mul(at, len, from, count) })
    }

    /// Writes over each value its square.
    ///
    /// Refused by [`Error::Word`].
    ///
    /// ```
    /// use p3_field_proved::BabyBearx4;
    /// let mut values = [BabyBearx4::from_numbers([1, 0, 1, 0])?];
    /// BabyBearx4::square(&mut values)?;
    /// assert_eq!(values[0].numbers()?, [32, 0, 2, 0]);
    /// # Ok::<(), p3_field_proved::Error>(())
    /// ```
    pub fn square(values: &mut [Self]) -> Result<(), Error> {
        let (at, len) = words_mut(values);
        done(unsafe { bbx4::square(at, len) })
    }

    /// Writes over each value its image under the Frobenius map, taken `count` times.
    ///
    /// Refused by [`Error::Word`].
    ///
    /// ```
    /// use p3_field_proved::{BabyBear, BabyBearx4, PrimeField};
    /// let mut values = [BabyBearx4::from_numbers([5, 1, 0, 0])?];
    /// BabyBearx4::frobenius(&mut values, 2)?;
    /// assert_eq!(values[0].numbers()?, [5, BabyBear::ORDER - 1, 0, 0]);
    /// # Ok::<(), p3_field_proved::Error>(())
    /// ```
    pub fn frobenius(values: &mut [Self], count: usize) -> Result<(), Error> {
        let (at, len) = words_mut(values);
        done(unsafe { bbx4::frobenius(at, len, count) })
    }

    /// The sum of the products, index by index.
    ///
    /// Refused by [`Error::Length`], [`Error::Word`].
    ///
    /// ```
    /// use p3_field_proved::BabyBearx4;
    /// let values = [BabyBearx4::from_numbers([0, 1, 0, 0])?, BabyBearx4::from_numbers([2, 0, 0, 0])?];
    /// assert_eq!(BabyBearx4::dot(&values, &values)?.numbers()?, [4, 0, 1, 0]);
    /// # Ok::<(), p3_field_proved::Error>(())
    /// ```
    pub fn dot(left: &[Self], right: &[Self]) -> Result<Self, Error> {
        let ((at, len), (from, count)) = (words(left), words(right));
        written(Self([BabyBear(0); 4]), |dot| unsafe {
            bbx4::dot(at, len, from, count, dot.0.as_mut_ptr().cast(), 4)
        })
    }

    /// The inverse.
    ///
    /// Refused by [`Error::Word`], [`Error::NoInverse`].
    ///
    /// ```
    /// use p3_field_proved::{BabyBearx4, Error};
    /// assert_eq!(BabyBearx4::from_numbers([2, 0, 0, 0])?.inverse()?.numbers()?, [1006632961, 0, 0, 0]);
    /// assert_eq!(BabyBearx4::from_numbers([0; 4])?.inverse(), Err(Error::NoInverse));
    /// # Ok::<(), Error>(())
    /// ```
    pub fn inverse(self) -> Result<Self, Error> {
        let at = self.0.as_ptr().cast();
        written(Self([BabyBear(0); 4]), |inverse| unsafe {
            bbx4::inverse(at, 4, inverse.0.as_mut_ptr().cast(), 4)
        })
    }

    /// Writes over each value its inverse.
    ///
    /// Refused by [`Error::Word`], [`Error::NoInverse`], [`Error::Memory`].
    ///
    /// ```
    /// use p3_field_proved::BabyBearx4;
    /// let mut values = [BabyBearx4::from_numbers([1, 0, 0, 0])?, BabyBearx4::from_numbers([2, 0, 0, 0])?];
    /// BabyBearx4::batch_inverse(&mut values)?;
    /// assert_eq!(values[1].numbers()?, [1006632961, 0, 0, 0]);
    /// # Ok::<(), p3_field_proved::Error>(())
    /// ```
    pub fn batch_inverse(values: &mut [Self]) -> Result<(), Error> {
        let (at, len) = words_mut(values);
        done(unsafe { bbx4::batch_inverse(at, len) })
    }
}
