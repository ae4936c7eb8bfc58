//! The quartic extension of BabyBear: its calls by values that were made elsewhere, and bad input of each kind.
mod common;

use common::{Row, list, table};
use p3_field_proved::Error::{NoInverse, Word};
use p3_field_proved::calls::{bbx4, status};
use p3_field_proved::{BabyBear, BabyBearx4, Error, PrimeField};

/// The values of canonical numbers, four each.
fn values(numbers: &[u64]) -> Vec<BabyBearx4> {
    let number = |x: &u64| u32::try_from(*x).expect("a number of 32 bits");
    let value = |part: &[u64]| {
        let numbers: Vec<u32> = part.iter().map(number).collect();
        BabyBearx4::from_numbers(numbers.try_into().expect("four numbers")).expect("a value")
    };
    numbers.chunks(4).map(value).collect()
}

/// The values of the row's argument.
fn argument(row: &Row, index: usize) -> Vec<BabyBearx4> {
    values(&row.list(index))
}

/// The values of the row's answer.
fn answer(row: &Row) -> Vec<BabyBearx4> {
    values(&list(&row.answer))
}

/// A value of which one coefficient isn't below the order.
fn no_value() -> BabyBearx4 {
    let mut value = values(&[1, 2, 3, 4])[0];
    value.0[2] = common::no_value();
    value
}

/// Lists of many lengths, at each index of which the value is put that is given.
fn lists_with(value: BabyBearx4) -> impl Iterator<Item = Vec<BabyBearx4>> {
    [(1, 0), (2, 1), (9, 4), (300, 0), (300, 255), (300, 299)].into_iter().map(
        move |(length, index)| {
            let mut list = values(&common::mixed::<BabyBear>(4 * length, 5));
            list.iter_mut().for_each(|x| x.0[0] = common::value(1));
            list[index] = value;
            list
        },
    )
}

/// Whether the call on the list is refused for this reason, and the list as it was.
fn refused(
    why: Error,
    list: &mut [BabyBearx4],
    call: impl FnOnce(&mut [BabyBearx4]) -> Result<(), Error>,
) {
    let before = list.to_vec();
    assert_eq!(call(list), Err(why));
    assert_eq!(list, before);
}

#[test]
fn products() {
    for row in table("quartic_mul") {
        let mut left = argument(&row, 0);
        assert_eq!(BabyBearx4::mul(&mut left, &argument(&row, 1)), Ok(()));
        assert_eq!(left, answer(&row));
    }
}

#[test]
fn products_of_a_list() {
    let rows = table("quartic_mul");
    let mut left: Vec<_> = rows.iter().flat_map(|row| argument(row, 0)).collect();
    let right: Vec<_> = rows.iter().flat_map(|row| argument(row, 1)).collect();
    assert_eq!(BabyBearx4::mul(&mut left, &right), Ok(()));
    assert_eq!(left, rows.iter().flat_map(answer).collect::<Vec<_>>());
}

#[test]
fn squares() {
    let rows = table("quartic_square");
    let mut list: Vec<_> = rows.iter().flat_map(|row| argument(row, 0)).collect();
    assert_eq!(BabyBearx4::square(&mut list), Ok(()));
    assert_eq!(list, rows.iter().flat_map(answer).collect::<Vec<_>>());
}

#[test]
fn images() {
    for row in table("quartic_frobenius") {
        let mut list = argument(&row, 0);
        assert_eq!(BabyBearx4::frobenius(&mut list, row.number(1) as usize), Ok(()));
        assert_eq!(list, answer(&row));
    }
}

#[test]
fn dots() {
    assert_eq!(BabyBearx4::dot(&[], &[]), Ok(values(&[0; 4])[0]));
    for row in table("quartic_dot") {
        assert_eq!(BabyBearx4::dot(&argument(&row, 0), &argument(&row, 1)), Ok(answer(&row)[0]));
    }
}

#[test]
fn inverses() {
    let rows = table("quartic_inverse");
    for row in &rows {
        assert_eq!(argument(row, 0)[0].inverse(), Ok(answer(row)[0]));
    }
    let mut list: Vec<_> = rows.iter().flat_map(|row| argument(row, 0)).collect();
    assert_eq!(BabyBearx4::batch_inverse(&mut list), Ok(()));
    assert_eq!(list, rows.iter().flat_map(answer).collect::<Vec<_>>());
}

#[test]
fn words() {
    assert_eq!(no_value().inverse(), Err(Word));
    for mut bad in lists_with(no_value()) {
        let mut good = bad.clone();
        good.fill(values(&[1, 0, 0, 5])[0]);
        assert_eq!(BabyBearx4::dot(&bad, &good), Err(Word));
        assert_eq!(BabyBearx4::dot(&good, &bad), Err(Word));
        refused(Word, &mut bad, |list| BabyBearx4::mul(list, &good));
        refused(Word, &mut good, |list| BabyBearx4::mul(list, &bad));
        refused(Word, &mut bad, BabyBearx4::square);
        refused(Word, &mut bad, |list| BabyBearx4::frobenius(list, 3));
        refused(Word, &mut bad, BabyBearx4::batch_inverse);
    }
}

#[test]
fn zeros() {
    let zero = values(&[0; 4])[0];
    assert_eq!(zero.inverse(), Err(NoInverse));
    for mut list in lists_with(zero) {
        refused(NoInverse, &mut list, BabyBearx4::batch_inverse);
        // the words are looked at before the inverses
        list.push(no_value());
        refused(Word, &mut list, BabyBearx4::batch_inverse);
    }
}

/// Lengths that the safe functions can't give: a list of no whole values, lists of different lengths, and a value or an
/// answer that isn't four words.
#[test]
fn lengths() {
    let mut left = [BabyBear::ORDER; 12];
    let mut room = [77; 12];
    let (at, to) = (left.as_mut_ptr(), room.as_mut_ptr());
    let lengths = unsafe {
        [
            bbx4::mul(at, 8, to, 4),
            bbx4::mul(at, 8, to, 9),
            bbx4::mul(at, 6, to, 6),
            bbx4::square(at, 5),
            bbx4::frobenius(at, 3, 1),
            bbx4::batch_inverse(at, 10),
            bbx4::dot(at, 8, at, 4, to, 4),
            bbx4::dot(at, 7, at, 7, to, 4),
            bbx4::dot(at, 8, at, 8, to, 8),
            bbx4::dot(at, 8, at, 8, to, 3),
            bbx4::inverse(at, 8, to, 4),
            bbx4::inverse(at, 0, to, 0),
            bbx4::inverse(at, 4, to, 5),
        ]
    };
    assert_eq!(lengths, [status::LENGTH; 13]);
    assert_eq!(left, [BabyBear::ORDER; 12]);
    assert_eq!(room, [77; 12]);
}

/// An answer that is written beside what is read stays as it was where the call is refused.
#[test]
fn answers() {
    let bad = [BabyBear::ORDER, 0, 0, 0];
    let mut room = [77; 4];
    let to = room.as_mut_ptr();
    assert_eq!(unsafe { bbx4::inverse(bad.as_ptr(), 4, to, 4) }, status::WORD);
    assert_eq!(unsafe { bbx4::inverse([0; 4].as_ptr(), 4, to, 4) }, status::NO_INVERSE);
    assert_eq!(unsafe { bbx4::dot(bad.as_ptr(), 4, bad.as_ptr(), 4, to, 4) }, status::WORD);
    assert_eq!(room, [77; 4]);
}
