//! The sheet.

use super::expect::*;
use super::shapes::FILLED;
use crate::velgrodis::*;

/// Document 01's example: put [3] Num, put [?] Num, pervade.
fn example() -> Vec<u8> {
    joined(&[&put(&num("[3]")), &put(&num("[?]")), &pervaded(0)])
}

/// What a sheet leaves, or its refusal, lent enough. A scratch that held anything is cleared, what is behind it stays.
#[track_caller]
pub fn checked(sheet: &[u8]) -> Result<(usize, Vec<u8>), Error> {
    let mut result = lent(SHEET_RESULT_BYTES + 1);
    let mut scratch = lent(SCRATCH_BYTES + 1);
    let answer = check_sheet(sheet, &mut result, &mut scratch);
    let answer = answer.map(|left| (left.types, left.bytes.to_vec()));
    let length = answer.as_ref().map_or(0, |(_, bytes)| bytes.len());
    assert!(as_lent(&result[length..]), "the result after what was written");
    assert!(scratch[..SCRATCH_BYTES].iter().all(|&byte| byte == 0), "the scratch is cleared");
    assert!(as_lent(&scratch[SCRATCH_BYTES..]), "the scratch after that");
    answer
}

#[track_caller]
fn leaves(sheet: &[u8], types: &[Vec<u8>]) {
    assert_eq!(checked(sheet), Ok((types.len(), types.concat())));
}

#[test]
fn sheets() {
    leaves(&example(), &[num("[3]")]);
    leaves(&[], &[]);
    leaves(&joined(&[&put(&num("[2 3]")), b"RW"]), &[num("[3]")]);
    leaves(&joined(&[&put(&num("[3]")), &put(&num("[4]")), b"JN"]), &[num("[?]")]);
    leaves(&joined(&[&put(&num("[3]")), &validated(&num("[?]"))]), &[num("[3]")]);
    leaves(
        &joined(&[&declared("a", &num("[3]")), &used("a"), &used("a")]),
        &[num("[3]"), num("[3]")],
    );
    // As the program prints it.
    assert_eq!(num("[3]"), hex("534801ff0300000000000000534303"));
    assert_eq!(example().len(), 37);
}

/// A house's six largest tables: the most that is ever left.
#[test]
fn six_largest_types() {
    let types: Vec<Vec<u8>> = (1..=6).map(largest).collect();
    let mut sheet: Vec<u8> = types.iter().flat_map(|ty| put(ty)).collect();
    leaves(&sheet, &types);
    assert_eq!(types.concat().len(), SHEET_RESULT_BYTES);
    let mut rest = &types.concat()[..];
    for ty in &types {
        let (next, more) = rest.split_at(type_length(rest).unwrap());
        assert_eq!(next, ty);
        rest = more;
    }
    let place = sheet.len();
    sheet.extend(put(&num("[]")));
    assert_eq!(checked(&sheet), refused(Why::Overflow, place));
}

#[test]
fn buffers_of_a_sheet() {
    let (sheet, mut result, mut scratch) = (example(), lent(14), lent(SCRATCH_BYTES));
    assert_eq!(check_sheet(&sheet, &mut result, &mut scratch), refused(Why::TooShort, sheet.len()));
    assert!(as_lent(&result));
    assert_eq!(scratch, [0; SCRATCH_BYTES]);
    assert_eq!(check_sheet(&sheet, &mut [], &mut scratch), refused(Why::TooShort, sheet.len()));
    let left = Left { types: 0, bytes: &[] };
    assert_eq!(check_sheet(&[], &mut [], &mut scratch), Ok(left));
    // A scratch that is too short is found first of all, and stays.
    for room in [0, 1, SCRATCH_BYTES - 1] {
        for sheet in [&sheet[..], b"XX", &[]] {
            let mut scratch = lent(room);
            assert_eq!(check_sheet(sheet, &mut result, &mut scratch), refused(Why::TooShort, 0));
            assert!(as_lent(&result) && as_lent(&scratch));
        }
    }
}

/// The left column of the table in docs/FORMAT.md, "Pervading in a sheet". The top is the first.
#[test]
fn pervading_in_a_sheet() {
    for (top, below, wanted, _) in FILLED {
        leaves(
            &joined(&[&put(&num(below)), &put(&num(top)), &pervaded(Fill::First.flag())]),
            &[num(wanted)],
        );
        leaves(
            &joined(&[&put(&num(top)), &put(&num(below)), &pervaded(Fill::Second.flag())]),
            &[num(wanted)],
        );
    }
    leaves(
        &joined(&[&put(&num("[?]")), &put(&num("[12]")), &pervaded(Fill::Second.flag())]),
        &[num("[12]")],
    );
}

/// Declarations of the names a to p: sixteen.
pub fn sixteen_names() -> Vec<u8> {
    ('a'..='p').flat_map(|letter| declared(&letter.to_string(), &num("[]"))).collect()
}

/// Sheets that are refused, with the step that is and its mark: the table in docs/FORMAT.md, "Named tables", and every other number.
fn refused_sheets() -> Vec<(Vec<u8>, Why, usize, usize, Mark)> {
    let six = put(&num("[]")).repeat(6);
    let rows = |count: usize| joined(&[&put(&num("[]")), &b"RW".repeat(count)]);
    let then = |before: &[u8], after: &[u8]| joined(&[before, after]);
    let oversized = joined(&[&hex("534801ff 0100000000002000"), &scalar(Kind::Num)]);
    vec![
        (hex("55 53 01 61"), Why::Undeclared, 0, 1, Mark::Use),
        (then(&used("a"), &declared("a", &num("[]"))), Why::Undeclared, 0, 1, Mark::Use),
        (hex("4e 4d 02 61 62 53 48 00 ff 53 43 03 55 53 01 61"), Why::Undeclared, 12, 2, Mark::Use),
        (
            then(&sixteen_names(), &declared("q", &num("[]"))),
            Why::TooManyNames,
            176,
            17,
            Mark::Declaration,
        ),
        (
            then(&sixteen_names(), &hex("4e 4d 01 71 53 48 09")),
            Why::OutOfRange,
            180,
            17,
            Mark::Declaration,
        ),
        (hex("4e 4d 00"), Why::OutOfRange, 0, 1, Mark::Declaration),
        (hex("4e 4d 02 61 09"), Why::OutOfRange, 0, 1, Mark::Declaration),
        (hex("4e 4d 02 61"), Why::Ended, 0, 1, Mark::Declaration),
        (hex("4e 4d 01 61"), Why::Ended, 4, 1, Mark::Declaration),
        (hex("55 53"), Why::Ended, 0, 1, Mark::Use),
        (then(&six, &hex("55 53 00")), Why::Overflow, 54, 7, Mark::Use),
        (b"P".to_vec(), Why::Ended, 0, 1, Mark::NoMark),
        (b"PU".to_vec(), Why::Ended, 2, 1, Mark::Put),
        (b"XX".to_vec(), Why::Unmarked, 0, 1, Mark::NoMark),
        (then(&six[..18], b"RX"), Why::Unmarked, 18, 3, Mark::NoMark),
        (then(&six[..18], b"PV"), Why::Ended, 18, 3, Mark::Pervade),
        (then(&six[..18], &pervaded(4)), Why::OutOfRange, 18, 3, Mark::Pervade),
        (put(&oversized), Why::Oversized, 2, 1, Mark::Put),
        (put(&hex("534800ff 534308 425801").repeat(8)), Why::TooMany, 82, 1, Mark::Put),
        (
            then(&put(&of_kind("[32]", Kind::Any)), &validated(&of("[..]", &def(Some("n"), &[])))),
            Why::TooMany,
            17,
            2,
            Mark::Validate,
        ),
        (
            joined(&[&put(&num("[3]")), &put(&num("[4]")), &pervaded(0)]),
            Why::Unpervaded,
            34,
            3,
            Mark::Pervade,
        ),
        (
            then(&put(&of_kind("[]", Kind::Char)), &validated(&num("[]"))),
            Why::WrongScalar,
            9,
            2,
            Mark::Validate,
        ),
        (then(&put(&num("[3]")), &validated(&num("[2]"))), Why::WrongShape, 17, 2, Mark::Validate),
        (then(&put(&num("[3]")), &validated(&num("[]"))), Why::WrongCount, 17, 2, Mark::Validate),
        (b"RW".to_vec(), Why::Underflow, 0, 1, Mark::Row),
        (then(&six[..9], b"JN"), Why::Underflow, 9, 2, Mark::Join),
        (then(&six, &put(&num("[]"))), Why::Overflow, 54, 7, Mark::Put),
        (rows(64), Why::Overflow, 9 + 2 * 63, 65, Mark::Row),
        (then(&rows(63), b"XX"), Why::Overflow, 9 + 2 * 63, 65, Mark::NoMark),
    ]
}

#[test]
fn refused_sheets_and_their_steps() {
    for (sheet, why, place, number, mark) in refused_sheets() {
        assert_eq!(checked(&sheet), refused(why, place), "{sheet:02x?}");
        assert_eq!(find_step(&sheet, place), Ok(Some(Step { number, mark })), "{sheet:02x?}");
    }
}

/// A damaged type in a sheet is refused as alone, with its place in the sheet. Bytes after a type are the next step's there.
#[test]
fn damaged_types_in_a_sheet() {
    let first = put(&num("[]"));
    for (damaged, why, place) in damages() {
        if why == Why::Trailing {
            continue;
        }
        assert_eq!(checked(&put(&damaged)), refused(why, 2 + place));
        assert_eq!(checked(&declared("a", &damaged)), refused(why, 4 + place));
        let sheet = joined(&[&first, &validated(&damaged)]);
        assert_eq!(checked(&sheet), refused(why, first.len() + 2 + place));
    }
}

/// Document 01's example at every place, and cut off at every place.
#[test]
fn steps_of_the_example() {
    let sheet = example();
    let wanted = |place| match place {
        0..=16 => Some(Step { number: 1, mark: Mark::Put }),
        17..=33 => Some(Step { number: 2, mark: Mark::Put }),
        34..=36 => Some(Step { number: 3, mark: Mark::Pervade }),
        _ => None,
    };
    for place in (0..60).chain([usize::MAX]) {
        assert_eq!(find_step(&sheet, place), Ok(wanted(place)), "place {place}");
        for length in 0..37 {
            // The last step is whole, or has all bytes that are left and the place after them; it has a mark if both its bytes are there.
            let whole = [0, 17, 34].contains(&length);
            let cut_mark = [1, 18, 35].contains(&length);
            let last = if whole { None } else { wanted(length - 1) };
            let step = match wanted(place) {
                _ if place > length || place == length && whole => None,
                _ if place == length => last,
                step => step,
            };
            let step = match step {
                Some(step) if cut_mark && Some(step) == last => {
                    Some(Step { mark: Mark::NoMark, ..step })
                }
                step => step,
            };
            assert_eq!(find_step(&sheet[..length], place), Ok(step), "place {place} of {length}");
        }
    }
}

/// A step of each mark, each with its bytes.
#[test]
fn steps_of_each_mark() {
    let steps = [
        (put(&pair()), Mark::Put),
        (b"RW".to_vec(), Mark::Row),
        (put(&num("[..]")), Mark::Put),
        (pervaded(3), Mark::Pervade),
        (b"JN".to_vec(), Mark::Join),
        (validated(&largest(7)), Mark::Validate),
        (declared("sixteen letters.", &pair()), Mark::Declaration),
        (used("sixteen letters."), Mark::Use),
    ];
    let sheet: Vec<u8> = steps.iter().flat_map(|(step, _)| step.clone()).collect();
    let mut place = 0;
    for (number, (step, mark)) in (1..).zip(&steps) {
        for _ in step {
            assert_eq!(
                find_step(&sheet, place),
                Ok(Some(Step { number, mark: *mark })),
                "place {place}"
            );
            place += 1;
        }
    }
    assert_eq!(find_step(&sheet, place), Ok(None));
    assert_eq!(find_step(&[], 0), Ok(None));
    // By no limit: the hundredth row of nothing is a step.
    assert_eq!(find_step(&b"RW".repeat(100), 199), Ok(Some(Step { number: 100, mark: Mark::Row })));
}

/// One that cannot be read to its end has all bytes that are left, whatever they are, and the place after the last.
#[test]
fn steps_that_cannot_be_read() {
    let first = put(&num("[3]"));
    let mut unread = vec![
        (b"XX".to_vec(), Mark::NoMark),
        (pervaded(4), Mark::Pervade),
        (used(""), Mark::Use),
        (used("tab\t"), Mark::Use),
        (used("seventeen letters"), Mark::Use),
        (declared("", &num("[]")), Mark::Declaration),
    ];
    for (damaged, why, _) in damages() {
        if why != Why::Trailing && why != Why::Ended {
            unread.push((put(&damaged), Mark::Put));
            unread.push((validated(&damaged), Mark::Validate));
            unread.push((declared("a", &damaged), Mark::Declaration));
        }
    }
    for (step, mark) in unread {
        let sheet = joined(&[&first, &step, &first, b"RW"]);
        for place in 0..first.len() {
            assert_eq!(find_step(&sheet, place), Ok(Some(Step { number: 1, mark: Mark::Put })));
        }
        for place in first.len()..=sheet.len() {
            let wanted = Step { number: 2, mark };
            assert_eq!(find_step(&sheet, place), Ok(Some(wanted)), "{place} of {sheet:02x?}");
        }
        assert_eq!(find_step(&sheet, sheet.len() + 1), Ok(None));
    }
}

/// The matinee and the evening, at the same time, in one block of 65,536 bytes. They share the sheet.
#[test]
fn two_sheets_at_once() {
    let mut block = vec![LENT; 65536];
    let (matinee, evening) = block.split_at_mut(SCRATCH_BYTES + TYPE_BYTES);
    let sheet = &example();
    let check = |part: &mut [u8]| {
        let (scratch, result) = part.split_at_mut(SCRATCH_BYTES);
        check_sheet(sheet, result, scratch).map(|left| left.bytes.to_vec())
    };
    let answers = std::thread::scope(|scope| {
        let matinee = scope.spawn(move || check(matinee));
        let evening = scope.spawn(move || check(evening));
        [matinee, evening].map(|thread| thread.join().unwrap())
    });
    assert_eq!(answers, [Ok(num("[3]")), Ok(num("[3]"))]);
}
