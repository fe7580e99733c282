//! Answers that are none: they are written with all their numbers, so that no expected line is the same.

mod common;

use common::{accepted, expected, line, STAND_IN};
use independent::{Call, Entry};
use replay::exports::{Numbers, NUMBERS};
use replay::Exports;

/// A row's function that answers nothing at all.
unsafe extern "C" fn silent(_: *const u8, _: usize, _: *const u8, _: usize, _: u8, _: u32, _: *mut Numbers) {}

/// A row's function that has a row where the texts end.
unsafe extern "C" fn past(_: *const u8, length: usize, _: *const u8, _: usize, _: u8, _: u32, answer: *mut Numbers) {
    let mut numbers = [0; NUMBERS];
    numbers[..3].copy_from_slice(&[3, length as u64, 1]);
    *answer = numbers;
}

/// The words of the row that is shown by a library with this function.
fn shown(row: unsafe extern "C" fn(*const u8, usize, *const u8, usize, u8, u32, *mut Numbers)) -> String {
    let call = Call { file: 1, place: 145, ..Call::of(Entry::Row, accepted()) };
    let given = line(&Exports { row, ..STAND_IN }, &call);
    let (words, digests) = given.split_once(" | ").unwrap();
    assert_eq!(digests, expected(&call).split_once(" | ").unwrap().1);
    words.to_string()
}

#[test]
fn a_function_that_writes_no_answer() {
    assert_eq!(shown(silent), format!("unknown{}", " 18446744073709551615".repeat(NUMBERS)));
}

#[test]
fn a_row_that_is_not_in_its_text() {
    assert_eq!(shown(past), format!("unknown 3 176 1{}", " 0".repeat(NUMBERS - 3)));
}
