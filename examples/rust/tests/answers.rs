//! Answers that are not understood: such as the library never gives, made by hand.

use super::expect::*;
use crate::velgrodis::answer::{NONE, REFUSED, VALUE};
use crate::velgrodis::declared::{Answer, Validation};
use crate::velgrodis::*;

fn answer(kind: u64, number: u64, place: u64, first: u64, second: u64) -> Answer {
    Answer { kind, number, place, first, second }
}

fn value(first: u64, second: u64) -> Answer {
    answer(VALUE, 0, 0, first, second)
}

/// Kinds, numbers and leftovers that no answer has: whatever is asked of them, they are no value, no refusal and no none.
#[test]
fn no_answers() {
    let wrong = [
        answer(3, 0, 0, 0, 0),
        answer(u64::MAX, 1, 0, 0, 0),
        answer(REFUSED, 0, 0, 0, 0),
        answer(REFUSED, 17, 0, 0, 0),
        answer(REFUSED, u64::MAX, 0, 0, 0),
        answer(REFUSED, 1, 0, 1, 0),
        answer(REFUSED, 1, 0, 0, 1),
        answer(VALUE, 1, 0, 1, 0),
        answer(VALUE, 0, 1, 1, 0),
        answer(NONE, 1, 0, 0, 0),
        answer(NONE, 0, 1, 0, 0),
        answer(NONE, 0, 0, 1, 0),
        answer(NONE, 0, 0, 0, 1),
    ];
    let result = lent(40);
    for answer in wrong {
        assert_eq!(answer.perhaps(), Err(Error::NotUnderstood), "{answer:?}");
        assert_eq!(answer.perhaps_size(), Err(Error::NotUnderstood), "{answer:?}");
        assert_eq!(answer.perhaps_written(&result), Err(Error::NotUnderstood), "{answer:?}");
        assert_eq!(answer.yes(), Err(Error::NotUnderstood), "{answer:?}");
        assert_eq!(values::row(answer, 7.0, &result), Err(Error::NotUnderstood), "{answer:?}");
        assert_eq!(sheets::left(answer, &result), Err(Error::NotUnderstood), "{answer:?}");
        assert_eq!(sheets::step(answer), Err(Error::NotUnderstood), "{answer:?}");
        let validation = Validation { answer, reading: 0 };
        assert_eq!(
            validation::validated(validation, &result),
            Err(ValidationError::NotUnderstood),
            "{answer:?}"
        );
    }
}

/// Values that are out of their range, lengths beyond what is lent, and none where there is always one.
#[test]
fn no_values() {
    const WRONG: Error = Error::NotUnderstood;
    let result = lent(40);
    let none = answer(NONE, 0, 0, 0, 0);
    for answer in [value(1, 0), value(0, 1), none] {
        assert_eq!(answer.accepted(), Err(WRONG));
    }
    for answer in [value(2, 0), value(1, 1), value(u64::MAX, 0), none] {
        assert_eq!(answer.yes(), Err(WRONG));
    }
    for answer in [value(3, 0), value(0, 1), none] {
        assert_eq!(answer.order(), Err(WRONG));
    }
    for answer in [value(17, 0), value(u64::MAX, 0), value(0, 1), none] {
        assert_eq!(answer.count(16), Err(WRONG));
    }
    for answer in [value(MAX_SIZE + 1, 0), value(u64::MAX - 1, 0), value(0, 1), none] {
        assert_eq!(answer.size(), Err(WRONG));
    }
    for answer in [value(41, 0), value(u64::MAX, 0), value(7, 1), none] {
        assert_eq!(answer.written(&result), Err(WRONG));
    }
    for answer in [value(7, 1), value(0, 2), value(41, 0), none] {
        assert_eq!(values::row(answer, 7.0, &result), Err(WRONG));
    }
    for answer in [value(7, 7), value(1, 41), value(u64::MAX, 0), none] {
        assert_eq!(sheets::left(answer, &result), Err(WRONG));
    }
    for answer in [value(0, 0x5055), value(1, 0x5054), value(1, u64::MAX)] {
        assert_eq!(sheets::step(answer), Err(WRONG));
    }
    for answer in [value(0, 0), value(41, 0), value(7, 1), none] {
        assert_eq!(types::length(answer, &result), Err(WRONG));
    }
    assert_eq!(types::length(value(4993, 0), &lent(ROOM)), Err(WRONG));
    for answer in [value(0, 41), value(41, 0), value(40, 1), value(u64::MAX, 1), value(1, u64::MAX)]
    {
        assert_eq!(types::stretch(answer, &result), Err(WRONG));
    }
    for answer in
        [value(1, 1), value(2, 0), value(0, 8), value(0, NO_INDEX - 1), value(1, NO_INDEX), none]
    {
        assert_eq!(shapes::compatible(answer), Err(WRONG));
    }
}

#[test]
fn no_validations_and_no_tables() {
    let (result, refusal) = (lent(40), answer(REFUSED, 6, 7, 0, 0));
    for (answer, reading) in [
        (value(7, 0), 1),
        (value(7, 0), 2),
        (value(7, 0), 3),
        (value(41, 0), 0),
        (refusal, 3),
        (refusal, u64::MAX),
    ] {
        let validation = Validation { answer, reading };
        assert_eq!(validation::validated(validation, &result), Err(ValidationError::NotUnderstood));
    }
    let mut numbers = lent(KIND_TABLE_BYTES);
    let good = kinds(&mut numbers).unwrap().numbers().to_vec();
    assert!(scalars::Kinds::understood(&good).is_some());
    assert_eq!(scalars::Kinds::understood(&good[1..]), None);
    for (place, wrong) in [(0, 2), (199, 255), (200, 10), (299, 254)] {
        let mut numbers = good.clone();
        numbers[place] = wrong;
        assert_eq!(scalars::Kinds::understood(&numbers), None, "{wrong} at {place}");
    }
}
