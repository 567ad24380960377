//! Wrong CRCs, and the order of refusals: the lowest number first, each over
//! the whole sheet (document 01, When the desk says no).

mod common;

use common::expect;
use jamturret_host::bench_jobs;
use jamturret_host::layout::Edition::{First, Second};
use jamturret_host::layout::{board, header, operation, word, ANY};
use jamturret_host::sheet::{add_word, mend_crc, set_word, Operation, Sheet};

/// A right sheet with a wait that no slot is held for (7, place 2).
fn with_seven() -> Vec<u8> {
    let send = Operation::send(1, 0, 0, 0, 3);
    Sheet::of_scripts(&[&[send, send], &[Operation::wait(0)]], 8).bytes()
}

#[test]
fn every_bit_of_a_sheet_is_covered() {
    each_bit(&bench_jobs::case_1().bytes());
}

/// Another offset of the operation table may tell the other edition, which the
/// payload's offset does not agree with (document 02, K6).
#[test]
fn every_bit_of_edition_2_is_covered() {
    each_bit(&bench_jobs::case_6_in_rooms([3, 3]).bytes());
}

fn each_bit(right: &[u8]) {
    for bit in 0..8 * right.len() {
        let mut sheet = right.to_vec();
        sheet[bit / 8] ^= 1 << (bit % 8);
        // P, C, N, L and the offsets are looked at before the CRC. Another C
        // within its range is only a difference for the CRC.
        let communicators = word(&sheet, header::COMMUNICATORS);
        let number = match bit / 16 {
            0 if !(1..=16).contains(&word(&sheet, header::BOARDS)) => 2,
            1 if !(1..=8).contains(&communicators) => 2,
            2 if word(&sheet, header::OPERATIONS) > 2048 => 2,
            6 if word(&sheet, header::PAYLOAD_LENGTH) > 16_384 => 2,
            0 | 2..=6 => 3,
            _ => 4,
        };
        expect(&format!("bit {bit}"), &sheet, number, 0);
    }
}

#[test]
fn each_lower_number_comes_first() {
    let mut sheet = with_seven();
    expect("7", &sheet, 7, 2);

    set_word(&mut sheet, First.operation_at(2, 1) + operation::ZERO, 1);
    mend_crc(&mut sheet);
    expect("6 and 7", &sheet, 6, 1);

    set_word(&mut sheet, First.entry_at(1) + board::ATTACHED, 16_385);
    mend_crc(&mut sheet);
    expect("5 to 7", &sheet, 5, 1);

    sheet[header::CRC] ^= 1;
    expect("4 to 7", &sheet, 4, 0);

    add_word(&mut sheet, header::PAYLOAD, 1);
    expect("3 to 7", &sheet, 3, 0);

    set_word(&mut sheet, header::COMMUNICATORS, 9);
    expect("2 to 7", &sheet, 2, 0);

    expect("1 to 7", &sheet[..15], 1, 0);
}

/// Document 02, K7: a forgotten request is told where nothing else is wrong,
/// also not behind it or on a later board.
#[test]
fn forgotten_requests_come_last() {
    let send = Operation::send(1, 0, 0, 0, 3);
    let receive = Operation::receive(ANY, 0, 0, 4);
    // Operations 1 and 3 hold slots at the end.
    let mut first = vec![send, receive.nonblocking(9), send];
    let mut last = vec![send.nonblocking(0), send];
    let sheet =
        |first: &[Operation], last: &[Operation]| Sheet::of_scripts(&[first, &[], last], 8).bytes();
    expect("two forgotten", &sheet(&first, &last), 7, 1);
    let freed = [&first[..], &[Operation::wait(9)]].concat();
    expect("one freed", &sheet(&freed, &last), 7, 4);
    let freed_too = [&last[..], &[Operation::wait(0)]].concat();
    expect("both freed", &sheet(&freed, &freed_too), 0, 0);

    last.push(Operation::wait(1));
    expect("a wait for nothing", &sheet(&first, &last), 7, 5);
    last.insert(1, receive.nonblocking(0));
    expect("a slot taken twice", &sheet(&first, &last), 7, 4);
    first.push(receive);
    expect("an area shared", &sheet(&first, &last), 7, 3);
    last[2].zero = 1;
    expect("a wrong field", &sheet(&first, &last), 6, 6);
}

#[test]
fn first_place_of_a_number() {
    let mut sheet = with_seven();
    for index in [2, 1, 0] {
        set_word(
            &mut sheet,
            First.operation_at(2, index) + operation::ZERO,
            1,
        );
        mend_crc(&mut sheet);
        expect("earlier operation", &sheet, 6, index as u64);
    }
    for rank in [1, 0] {
        set_word(&mut sheet, First.entry_at(rank) + board::ATTACHED, 65_535);
        mend_crc(&mut sheet);
        expect("earlier board", &sheet, 5, rank as u64);
    }
}

/// An entry is wrong before the total is: place P only if nothing else is.
#[test]
fn total_comes_after_the_entries() {
    let mut sheet = with_seven();
    add_word(&mut sheet, First.entry_at(1) + board::COUNT, 1);
    mend_crc(&mut sheet);
    expect("only the total", &sheet, 5, 2);
    set_word(&mut sheet, First.entry_at(1) + board::INBOX, 65_535);
    mend_crc(&mut sheet);
    expect("an entry too", &sheet, 5, 1);
}

/// Document 02, K6: a room is asked for with the other numbers of its entry, and
/// before the total.
#[test]
fn rooms_beside_the_other_numbers() {
    let send = Operation::send(1, 0, 0, 0, 3);
    let right = Sheet::of_scripts(&[&[send], &[send], &[]], 8).with_room(16_384);
    let changed = |changes: &[(usize, usize, u16)]| {
        let mut sheet = right.bytes();
        for &(rank, field, number) in changes {
            set_word(&mut sheet, Second.entry_at(rank) + field, number);
        }
        mend_crc(&mut sheet);
        sheet
    };
    expect("as it is", &changed(&[]), 0, 0);
    let (room, total) = ((1, board::ROOM, 16_385), (2, board::COUNT, 7));
    expect("only the total", &changed(&[total]), 5, 3);
    expect("a room too", &changed(&[total, room]), 5, 1);
    let (first, later) = ((0, board::COUNT, 2), (1, board::FIRST, 2));
    expect("a first operation", &changed(&[first]), 5, 1);
    expect(
        "a room behind it",
        &changed(&[first, (2, board::ROOM, 65_535)]),
        5,
        1,
    );
    expect(
        "a room before it",
        &changed(&[first, (0, board::ROOM, 65_535)]),
        5,
        0,
    );
    expect(
        "a room behind the counts",
        &changed(&[first, later, room]),
        5,
        1,
    );
}

/// Counts that come back to N when summed in 16 bits.
#[test]
fn counts_do_not_wrap() {
    let mut sheet = with_seven();
    set_word(&mut sheet, First.entry_at(0) + board::COUNT, 65_535);
    set_word(&mut sheet, First.entry_at(1) + board::FIRST, 65_535);
    set_word(&mut sheet, First.entry_at(1) + board::COUNT, 4);
    mend_crc(&mut sheet);
    expect("total 65,539", &sheet, 5, 2);
}

#[test]
fn every_truncation_is_refused() {
    for sheet in [bench_jobs::case_7(), bench_jobs::case_7().with_room(5)] {
        let sheet = sheet.bytes();
        for length in 0..sheet.len() {
            let number = if length < 16 { 1 } else { 3 };
            expect(&format!("{length} bytes"), &sheet[..length], number, 0);
        }
    }
}
