//! What the three prime fields have in common.
use crate::{Error, RunStep};
use std::fmt::{Debug, Display};
use std::hash::Hash;

/// Keeps [`PrimeField`] to the fields of the library.
pub trait Sealed {}

/// A prime field of the library: calls on values and on slices of them.
///
/// A value is its stored word; it is shown by its canonical number. Words that weren't looked at may be taken as values
/// too, and each call looks at those that it is given: where one isn't below the order it answers [`Error::Word`].
/// So there are no operators, which couldn't: the product of two values is `product(&[a, b])`. What a call says it
/// writes is unchanged where it is refused.
pub trait PrimeField: Sealed + Copy + Eq + Hash + Debug + Display + Send + Sync + 'static {
    /// The word that a value is in memory.
    type Word: Copy + Ord + Debug + Into<u64> + TryFrom<u64, Error: Debug> + 'static;

    /// The order.
    const ORDER: Self::Word;

    /// How often 2 divides the order less one: a coset has at most 2 to this power members.
    const TWO_ADICITY: usize;

    /// The words as values, where all are below the order. No word is copied.
    ///
    /// ```
    /// use p3_field_proved::{BabyBear, Error, PrimeField};
    /// assert!(BabyBear::from_words(&[0, 5, BabyBear::ORDER - 1]).is_ok());
    /// assert_eq!(BabyBear::from_words(&[0, BabyBear::ORDER]), Err(Error::Word));
    /// ```
    fn from_words(words: &[Self::Word]) -> Result<&[Self], Error> {
        let values = Self::from_words_unchecked(words);
        Self::check(values).map(|()| values)
    }

    /// The words as values that can be written, where all are below the order.
    ///
    /// ```
    /// use p3_field_proved::{Goldilocks, PrimeField};
    /// let mut words = [5, 6];
    /// Goldilocks::from_words_mut(&mut words)?.reverse();
    /// assert_eq!(words, [6, 5]);
    /// # Ok::<(), p3_field_proved::Error>(())
    /// ```
    fn from_words_mut(words: &mut [Self::Word]) -> Result<&mut [Self], Error> {
        let values = Self::from_words_unchecked_mut(words);
        Self::check(values).map(|()| values)
    }

    /// The words as values, without a look at them, which the calls take themselves.
    ///
    /// ```
    /// use p3_field_proved::{BabyBear, Error, PrimeField};
    /// let values = BabyBear::from_words_unchecked(&[u32::MAX]);
    /// assert_eq!(BabyBear::sum(values), Err(Error::Word));
    /// ```
    fn from_words_unchecked(words: &[Self::Word]) -> &[Self];

    /// The words as values that can be written, without a look at them.
    ///
    /// ```
    /// use p3_field_proved::{Goldilocks, PrimeField};
    /// let mut words = [0; 4];
    /// let start = Goldilocks::from_number(3)?;
    /// Goldilocks::powers(start, start, Goldilocks::from_words_unchecked_mut(&mut words))?;
    /// assert_eq!(words, [3, 9, 27, 81]);
    /// # Ok::<(), p3_field_proved::Error>(())
    /// ```
    fn from_words_unchecked_mut(words: &mut [Self::Word]) -> &mut [Self];

    /// The words that the values are.
    ///
    /// ```
    /// use p3_field_proved::{BabyBear, PrimeField};
    /// let one = BabyBear::from_number(1)?;
    /// assert_eq!(BabyBear::words(&[one]), [((1u64 << 32) % BabyBear::ORDER as u64) as u32]);
    /// # Ok::<(), p3_field_proved::Error>(())
    /// ```
    fn words(values: &[Self]) -> &[Self::Word];

    /// Writes over each canonical number, which is below the order, the word of its value.
    ///
    /// Refused by [`Error::Word`].
    ///
    /// ```
    /// use p3_field_proved::{KoalaBear, PrimeField};
    /// let mut numbers = [7, 8];
    /// let values = KoalaBear::from_canonical(&mut numbers)?;
    /// assert_eq!(values[0].number()?, 7);
    /// # Ok::<(), p3_field_proved::Error>(())
    /// ```
    fn from_canonical(numbers: &mut [Self::Word]) -> Result<&mut [Self], Error>;

    /// Writes over each value its canonical number.
    ///
    /// Refused by [`Error::Word`].
    ///
    /// ```
    /// use p3_field_proved::{KoalaBear, PrimeField};
    /// let mut values = [KoalaBear::from_number(7)?, KoalaBear::from_number(8)?];
    /// assert_eq!(KoalaBear::to_canonical(&mut values)?, [7, 8]);
    /// # Ok::<(), p3_field_proved::Error>(())
    /// ```
    fn to_canonical(values: &mut [Self]) -> Result<&mut [Self::Word], Error>;

    /// The value of a canonical number.
    ///
    /// ```
    /// use p3_field_proved::{BabyBear, Error, PrimeField};
    /// assert_eq!(BabyBear::from_number(5)?.number()?, 5);
    /// assert_eq!(BabyBear::from_number(BabyBear::ORDER), Err(Error::Word));
    /// # Ok::<(), Error>(())
    /// ```
    fn from_number(number: Self::Word) -> Result<Self, Error> {
        let mut numbers = [number];
        Self::from_canonical(&mut numbers).map(|values| values[0])
    }

    /// The canonical number of the value.
    ///
    /// ```
    /// use p3_field_proved::{Goldilocks, PrimeField};
    /// assert_eq!(Goldilocks::from_number(5)?.number()?, 5);
    /// # Ok::<(), p3_field_proved::Error>(())
    /// ```
    fn number(self) -> Result<Self::Word, Error> {
        let mut values = [self];
        Self::to_canonical(&mut values).map(|numbers| numbers[0])
    }

    /// Whether each word is below the order.
    ///
    /// Refused by [`Error::Word`].
    ///
    /// ```
    /// use p3_field_proved::{Error, Goldilocks, PrimeField};
    /// let values = Goldilocks::from_words_unchecked(&[0, Goldilocks::ORDER]);
    /// assert_eq!(Goldilocks::check(values), Err(Error::Word));
    /// ```
    fn check(values: &[Self]) -> Result<(), Error>;

    /// The sum of the values; of none it is zero.
    ///
    /// Refused by [`Error::Word`].
    ///
    /// ```
    /// use p3_field_proved::{BabyBear, PrimeField};
    /// let mut numbers = [1, 2, BabyBear::ORDER - 1];
    /// let values = BabyBear::from_canonical(&mut numbers)?;
    /// assert_eq!(BabyBear::sum(values)?.number()?, 2);
    /// # Ok::<(), p3_field_proved::Error>(())
    /// ```
    fn sum(values: &[Self]) -> Result<Self, Error>;

    /// The product of the values; of none it is one.
    ///
    /// Refused by [`Error::Word`].
    ///
    /// ```
    /// use p3_field_proved::{BabyBear, PrimeField};
    /// let mut numbers = [2, 3, 7];
    /// let values = BabyBear::from_canonical(&mut numbers)?;
    /// assert_eq!(BabyBear::product(values)?.number()?, 42);
    /// # Ok::<(), p3_field_proved::Error>(())
    /// ```
    fn product(values: &[Self]) -> Result<Self, Error>;

    /// The sum of the products, index by index.
    ///
    /// Refused by [`Error::Length`], [`Error::Word`].
    ///
    /// ```
    /// use p3_field_proved::{Error, Goldilocks, PrimeField};
    /// let values = Goldilocks::from_words(&[1, 2, 3])?;
    /// assert_eq!(Goldilocks::dot(values, values)?.number()?, 14);
    /// assert_eq!(Goldilocks::dot(values, &values[1..]), Err(Error::Length));
    /// # Ok::<(), Error>(())
    /// ```
    fn dot(left: &[Self], right: &[Self]) -> Result<Self, Error>;

    /// Adds to each value on the left the one on the right at its index.
    ///
    /// Refused by [`Error::Length`], [`Error::Word`].
    ///
    /// ```
    /// use p3_field_proved::{Goldilocks, PrimeField};
    /// let mut words = [1, 2];
    /// Goldilocks::add(Goldilocks::from_words_mut(&mut words)?, Goldilocks::from_words(&[10, 20])?)?;
    /// assert_eq!(words, [11, 22]);
    /// # Ok::<(), p3_field_proved::Error>(())
    /// ```
    fn add(left: &mut [Self], right: &[Self]) -> Result<(), Error>;

    /// Multiplies each value on the left by the one on the right at its index.
    ///
    /// Refused by [`Error::Length`], [`Error::Word`].
    ///
    /// ```
    /// use p3_field_proved::{Goldilocks, PrimeField};
    /// let mut words = [1, 2];
    /// Goldilocks::mul(Goldilocks::from_words_mut(&mut words)?, Goldilocks::from_words(&[10, 20])?)?;
    /// assert_eq!(words, [10, 40]);
    /// # Ok::<(), p3_field_proved::Error>(())
    /// ```
    fn mul(left: &mut [Self], right: &[Self]) -> Result<(), Error>;

    /// Multiplies each value by the factor.
    ///
    /// Refused by [`Error::Word`].
    ///
    /// ```
    /// use p3_field_proved::{BabyBear, PrimeField};
    /// let mut numbers = [1, 2];
    /// let values = BabyBear::from_canonical(&mut numbers)?;
    /// BabyBear::scale(values, BabyBear::from_number(5)?)?;
    /// assert_eq!(BabyBear::to_canonical(values)?, [5, 10]);
    /// # Ok::<(), p3_field_proved::Error>(())
    /// ```
    fn scale(values: &mut [Self], factor: Self) -> Result<(), Error>;

    /// Adds to each value on the left the one on the right at its index, times the factor.
    ///
    /// Refused by [`Error::Length`], [`Error::Word`].
    ///
    /// ```
    /// use p3_field_proved::{Goldilocks, PrimeField};
    /// let mut words = [1, 2];
    /// let (left, right) = (Goldilocks::from_words_mut(&mut words)?, Goldilocks::from_words(&[10, 20])?);
    /// Goldilocks::add_scaled(left, right, Goldilocks::from_number(3)?)?;
    /// assert_eq!(words, [31, 62]);
    /// # Ok::<(), p3_field_proved::Error>(())
    /// ```
    fn add_scaled(left: &mut [Self], right: &[Self], factor: Self) -> Result<(), Error>;

    /// The value at the point of the polynomial with these coefficients, the constant one first.
    ///
    /// Refused by [`Error::Word`].
    ///
    /// ```
    /// use p3_field_proved::{Goldilocks, PrimeField};
    /// let coefficients = Goldilocks::from_words(&[1, 0, 2])?;
    /// assert_eq!(Goldilocks::horner(coefficients, Goldilocks::from_number(10)?)?.number()?, 201);
    /// # Ok::<(), p3_field_proved::Error>(())
    /// ```
    fn horner(coefficients: &[Self], point: Self) -> Result<Self, Error>;

    /// Writes `start`, `start * base`, `start * base^2` and so on: as many as there is room for.
    ///
    /// Refused by [`Error::Word`].
    ///
    /// ```
    /// use p3_field_proved::{BabyBear, PrimeField};
    /// let one = BabyBear::from_number(1)?;
    /// let mut powers = [one; 5];
    /// BabyBear::powers(BabyBear::from_number(10)?, one, &mut powers)?;
    /// assert_eq!(BabyBear::to_canonical(&mut powers)?, [1, 10, 100, 1000, 10000]);
    /// # Ok::<(), p3_field_proved::Error>(())
    /// ```
    fn powers(base: Self, start: Self, powers: &mut [Self]) -> Result<(), Error>;

    /// The inverse.
    ///
    /// Refused by [`Error::Word`], [`Error::NoInverse`].
    ///
    /// ```
    /// use p3_field_proved::{BabyBear, Error, PrimeField};
    /// assert_eq!(BabyBear::from_number(2)?.inverse()?.number()?, 1006632961);
    /// assert_eq!(BabyBear::from_number(0)?.inverse(), Err(Error::NoInverse));
    /// # Ok::<(), Error>(())
    /// ```
    fn inverse(self) -> Result<Self, Error>;

    /// Writes over each value its inverse.
    ///
    /// Refused by [`Error::Word`], [`Error::NoInverse`].
    ///
    /// ```
    /// use p3_field_proved::{BabyBear, Error, PrimeField};
    /// let mut values = [BabyBear::from_number(2)?, BabyBear::from_number(1)?];
    /// BabyBear::batch_inverse(&mut values)?;
    /// assert_eq!(BabyBear::to_canonical(&mut values)?, [1006632961, 1]);
    /// # Ok::<(), Error>(())
    /// ```
    fn batch_inverse(values: &mut [Self]) -> Result<(), Error>;

    /// A square root.
    ///
    /// Refused by [`Error::Word`], [`Error::NoRoot`].
    ///
    /// ```
    /// use p3_field_proved::{BabyBear, Error, PrimeField};
    /// let root = BabyBear::from_number(9)?.sqrt()?.number()?;
    /// assert!(root == 3 || root == BabyBear::ORDER - 3);
    /// assert_eq!(BabyBear::from_number(31)?.sqrt(), Err(Error::NoRoot));
    /// # Ok::<(), Error>(())
    /// ```
    fn sqrt(self) -> Result<Self, Error>;

    /// Writes the members of the coset with this shift: the shift times each power, from the first on, of the two-adic
    /// generator of order 2 to the power `log_size`. So many members has the slice, no fewer and no more.
    ///
    /// Refused by [`Error::LogSize`], [`Error::Length`], [`Error::Word`], [`Error::NoInverse`].
    ///
    /// ```
    /// use p3_field_proved::{Goldilocks, PrimeField};
    /// let mut points = [0; 2];
    /// let values = Goldilocks::from_words_mut(&mut points)?;
    /// Goldilocks::coset(Goldilocks::from_number(7)?, 1, values)?;
    /// assert_eq!(points, [7, Goldilocks::ORDER - 7]);
    /// # Ok::<(), p3_field_proved::Error>(())
    /// ```
    fn coset(shift: Self, log_size: usize, points: &mut [Self]) -> Result<(), Error>;

    /// Writes the values of the polynomial with these coefficients, the constant one first, at the members of the coset
    /// that [`PrimeField::coset`] writes, in their order. There may be any number of coefficients; the slice of values
    /// has 2 to the power `log_size`. A shift of zero has no inverse.
    ///
    /// Refused by [`Error::LogSize`], [`Error::Length`], [`Error::Word`], [`Error::NoInverse`], [`Error::Memory`].
    ///
    /// ```
    /// use p3_field_proved::{Goldilocks, PrimeField};
    /// let coefficients = Goldilocks::from_words(&[1, 2])?;
    /// let mut values = [0; 2];
    /// let shift = Goldilocks::from_number(7)?;
    /// Goldilocks::eval_coset(coefficients, shift, 1, Goldilocks::from_words_mut(&mut values)?)?;
    /// assert_eq!(values, [15, Goldilocks::ORDER - 13]);
    /// # Ok::<(), p3_field_proved::Error>(())
    /// ```
    fn eval_coset(
        coefficients: &[Self],
        shift: Self,
        log_size: usize,
        values: &mut [Self],
    ) -> Result<(), Error>;

    /// Carries out the steps, one after the other, over the registers.
    ///
    /// Refused by [`Error::Step`], [`Error::Word`], [`Error::NoInverse`], [`Error::NoRoot`], [`Error::Memory`].
    ///
    /// ```
    /// use p3_field_proved::{Error, Goldilocks, PrimeField, RunStep};
    /// let mut registers = [3, 4];
    /// let steps = [RunStep { op: 2, d: 0, a: 0, b: 1, e: 0 }, RunStep { op: 6, d: 1, a: 0, b: 0, e: 2 }];
    /// Goldilocks::run(Goldilocks::from_words_mut(&mut registers)?, &steps)?;
    /// assert_eq!(registers, [12, 144]);
    /// let unknown = [RunStep { op: 10, d: 0, a: 0, b: 0, e: 0 }];
    /// assert_eq!(Goldilocks::run(Goldilocks::from_words_mut(&mut registers)?, &unknown), Err(Error::Step));
    /// # Ok::<(), Error>(())
    /// ```
    fn run(registers: &mut [Self], steps: &[RunStep]) -> Result<(), Error>;
}
