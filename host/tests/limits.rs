//! Both sides of every limit of document 01, through the library and both
//! judges. The table with the expected answers stands beside its sheets.

mod common;

use jamturret_host::generate::LIMITS;

fn group(number: u32) {
    let mut tried = 0;
    for (name, sheet, expected, place) in LIMITS {
        if *expected == number {
            common::expect(name, &sheet(), *expected, *place);
            tried += 1;
        }
    }
    assert!(tried > 0, "no limit answers {number}");
}

#[test]
fn just_right() {
    group(0);
}

#[test]
fn sheet_under_16_bytes() {
    group(1);
}

#[test]
fn numbers_outside_their_range() {
    group(2);
}

#[test]
fn offsets_and_length() {
    group(3);
}

#[test]
fn board_entries() {
    group(5);
}

#[test]
fn fields_of_operations() {
    group(6);
}

#[test]
fn slots_areas_and_forgotten_requests() {
    group(7);
}
