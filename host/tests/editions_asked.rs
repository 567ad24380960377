//! The cases around the second edition (document 02, K6) that the differential
//! test of check and premise counts, each on a sheet made by hand.

#[path = "common/all_made.rs"]
mod all_made;

use all_made::all_made;
use jamturret_host::command::found;
use jamturret_host::editions::{asked, ASKED};
use jamturret_host::judge;
use jamturret_host::layout::kind::{BUFFERED, READY, STANDARD};
use jamturret_host::layout::Edition::{First, Second};
use jamturret_host::layout::{board, header, Edition, ANY};
use jamturret_host::sheet::{add_word, mend_crc, set_word, Operation, Sheet};

/// What is counted of our judge's answers to these bytes.
fn counted(sheet: &[u8]) -> Vec<&'static str> {
    let cases = asked(sheet, judge::check(sheet), judge::premise(sheet));
    found(ASKED, cases)
}

/// The same of these bytes with a CRC that is right.
fn mended(mut sheet: Vec<u8>) -> Vec<&'static str> {
    mend_crc(&mut sheet);
    counted(&sheet)
}

/// Three boards that do nothing, with these rooms.
fn three(rooms: [u16; 3]) -> Sheet {
    Sheet::of_scripts(&[&[], &[], &[]], 8).with_rooms(&rooms)
}

fn send(length: u16) -> Operation {
    Operation::send(STANDARD, 1, 7, 0, length)
}

#[test]
fn accepted_sheets_are_counted() {
    let [first, second, nothing, none, largest] = [0, 1, 2, 3, 4].map(|place| ASKED[place]);
    assert_eq!(counted(&Sheet::of_scripts(&[&[]], 8).bytes()), [first]);
    assert_eq!(counted(&three([0; 3]).bytes()), [second, nothing, none]);
    assert_eq!(counted(&three([0, 1, 0]).bytes()), [second, nothing]);
    let largest_room = three([0, 0, 16_384]).bytes();
    assert_eq!(counted(&largest_room), [second, nothing, largest]);
    let probe: &[Operation] = &[Operation::probe(0, 7)];
    let probes = Sheet::of_scripts(&[probe], 8).with_room(5);
    assert_eq!(counted(&probes.bytes()), [second]);
}

/// A sheet of three boards with offsets and a length that differ by so much.
fn moved(edition: Edition, [table, payload, length]: [i32; 3]) -> Vec<&'static str> {
    let scripts: [&[Operation]; 3] = [&[send(1)], &[], &[send(2)]];
    let sheet = Sheet::of_scripts(&scripts, 8).with_room(0);
    let mut bytes = Sheet { edition, ..sheet }.bytes();
    add_word(&mut bytes, header::OPERATION_TABLE, table);
    add_word(&mut bytes, header::PAYLOAD, payload);
    let length = bytes.len() as i32 + length;
    bytes.resize(length as usize, 0);
    mended(bytes)
}

#[test]
fn wrong_offsets_are_counted() {
    let between = "refused 3, operation table at 16+9P";
    let all = [
        (First, [3, 0, 0], vec![between]),
        (Second, [-3, 0, 0], vec![between]),
        (
            First,
            [3, 3, 3],
            vec![between, "refused 3, entries of 9 bytes throughout"],
        ),
        (
            Second,
            [-3, -3, -3],
            vec![between, "refused 3, entries of 9 bytes throughout"],
        ),
        (
            First,
            [6, 0, 0],
            vec!["refused 3, operation table of 2, else of 1"],
        ),
        (
            Second,
            [-6, 0, 0],
            vec!["refused 3, operation table of 1, else of 2"],
        ),
        (First, [0, 6, 0], vec!["refused 3, payload of 2, else of 1"]),
        (
            Second,
            [0, -6, 0],
            vec!["refused 3, payload of 1, else of 2"],
        ),
        (First, [0, 0, 6], vec!["refused 3, length of 2, else of 1"]),
        (
            Second,
            [0, 0, -6],
            vec!["refused 3, length of 1, else of 2"],
        ),
        // Others are no case of the editions.
        (First, [1, 0, 0], vec![]),
        (First, [9, 9, 9], vec![]),
        (Second, [0, 0, 1], vec![]),
    ];
    let mut made = Vec::new();
    for (edition, by, names) in all {
        assert_eq!(moved(edition, by), names, "{edition:?} {by:?}");
        made.extend(names);
    }
    all_made(&ASKED, between, "refused 3, length of 1, else of 2", &made);
    // With another wrong offset beside it nothing is told apart.
    let mut sheet = three([0; 3]).bytes();
    add_word(&mut sheet, header::BOARD_TABLE, 1);
    add_word(&mut sheet, header::OPERATION_TABLE, -3);
    assert!(mended(sheet).is_empty());
}

/// What is counted of three boards of edition 2 whose entries are changed: rank,
/// field, number.
fn entries(changes: &[(usize, usize, u16)]) -> Vec<&'static str> {
    let mut sheet = three([0, 16_384, 5]).bytes();
    for &(rank, field, number) in changes {
        set_word(&mut sheet, Second.entry_at(rank) + field, number);
    }
    mended(sheet)
}

#[test]
fn wrong_entries_are_counted() {
    use board::{ATTACHED, COUNT, FIRST, INBOX, ROOM};
    let first = "refused 5, room 16,385, first of several boards";
    let total = "refused 5, the total, edition 2";
    let other = "refused 5, another number, edition 2";
    let behind = "refused 5, another number, then a room";
    let above = 16_385;
    let all: [(&[(usize, usize, u16)], &[&'static str]); 14] = [
        (&[(0, ROOM, above)], &[first]),
        (
            &[(2, ROOM, above)],
            &["refused 5, room 16,385, last of several"],
        ),
        (
            &[(1, ROOM, above)],
            &["refused 5, room 16,385, between them"],
        ),
        (&[(1, ROOM, 16_386)], &[]),
        (&[(1, ROOM, 32_768)], &["refused 5, room above 32,767"]),
        (
            &[(1, ROOM, above), (1, FIRST, 1)],
            &["refused 5, room and first operation"],
        ),
        (
            &[(1, ROOM, above), (1, ATTACHED, above)],
            &["refused 5, room and attached size"],
        ),
        (
            &[(1, ROOM, above), (1, INBOX, above)],
            &["refused 5, room and inbox"],
        ),
        (
            &[(0, ROOM, above), (2, ATTACHED, above)],
            &[first, "refused 5, room, then another number"],
        ),
        (&[(0, ATTACHED, above), (2, ROOM, above)], &[behind, other]),
        (
            &[(0, ROOM, above), (1, ROOM, above)],
            &[first, "refused 5, the first of two rooms"],
        ),
        (&[(1, INBOX, above)], &[other]),
        (&[(2, COUNT, 1)], &[total]),
        (&[(2, COUNT, 1), (0, ROOM, above)], &[first]),
    ];
    let mut made = Vec::new();
    for (changes, names) in all {
        assert_eq!(entries(changes), names, "{changes:?}");
        made.extend(names);
    }
    all_made(&ASKED, first, total, &made);
    // One board is neither the first nor the last of several.
    let alone = Sheet::of_scripts(&[&[]], 8).with_room(above);
    assert!(counted(&alone.bytes()).is_empty());
    let in_first = Sheet::of_scripts(&[&[], &[]], 8).attach(1, above);
    assert!(counted(&in_first.bytes()).is_empty());
}

#[test]
fn refusals_behind_are_counted() {
    let scripts: [&[Operation]; 2] = [&[send(1).nonblocking(3)], &[]];
    let sheet = Sheet::of_scripts(&scripts, 8);
    assert_eq!(
        counted(&sheet.clone().with_room(3).bytes()),
        ["refused 7, edition 2"]
    );
    assert!(counted(&sheet.bytes()).is_empty());
    let mut bytes = sheet.with_room(3).bytes();
    bytes[header::CRC] ^= 1;
    assert_eq!(counted(&bytes), ["refused 4, edition 2"]);
    let wrong: &[Operation] = &[Operation::wait(32)];
    let six = Sheet::of_scripts(&[wrong], 8).with_room(3);
    assert_eq!(counted(&six.bytes()), ["refused 6, edition 2"]);
}

/// What is counted of three boards with these scripts and rooms, each with 40
/// bytes attached, but for what every sheet of edition 2 counts.
fn premise_of(scripts: [&[Operation]; 3], rooms: [u16; 3]) -> Vec<&'static str> {
    let mut sheet = Sheet::of_scripts(&scripts, 8).with_rooms(&rooms);
    sheet
        .boards
        .iter_mut()
        .for_each(|board| board.attached = 40);
    let names = counted(&sheet.bytes());
    let of_premise = |name: &&str| name.starts_with("premise");
    names.into_iter().filter(of_premise).collect()
}

/// Scripts and rooms of three boards, and what is counted of premise's answer.
type Asked<'a> = ([&'a [Operation]; 3], [u16; 3], &'a [&'static str]);

/// Each counts what is said of it and nothing else, and all names from one to
/// another are made.
fn each_counts(all: &[Asked], from: &str, to: &str) {
    let mut made = Vec::new();
    for (scripts, rooms, names) in all {
        assert_eq!(
            premise_of(*scripts, *rooms),
            *names,
            "{scripts:?} {rooms:?}"
        );
        made.extend(*names);
    }
    all_made(&ASKED, from, to, &made);
}

#[test]
fn covering_rooms_are_counted() {
    let (two, four) = (send(2), send(4));
    let covers = "premise 0, a room covers";
    let filled = "premise 0, a room is filled to its last byte";
    let none = "premise 0, room 0, standard sends";
    let beside = "premise 0, room 0 beside one that covers";
    let both = [two, four];
    let all: [Asked; 5] = [
        ([&both, &[], &[]], [7, 0, 0], &[covers]),
        ([&both, &[], &[]], [6, 3, 0], &[covers, filled]),
        ([&both, &[], &[]], [0, 3, 0], &[none]),
        ([&both, &[two], &[]], [0, 3, 0], &[covers, none, beside]),
        ([&[], &[], &[]], [0, 3, 0], &[]),
    ];
    each_counts(&all, covers, beside);
}

#[test]
fn short_rooms_are_counted() {
    let (two, four) = (send(2), send(4));
    let [first, last, between] = [
        "premise 24, first of several boards",
        "premise 24, last of several",
        "premise 24, between them",
    ];
    let missing = "premise 24, one byte is missing";
    let alone = "premise 24, each send alone is covered";
    let of_two = "premise 24, the first of two boards";
    let probed = "premise 24, with a probe";
    let buffered = "premise 24, with a covered buffer";
    let buffer = Operation::send(BUFFERED, 1, 7, 0, 8);
    let probe = Operation::probe(0, 7);
    let both = [two, four];
    let all: [Asked; 8] = [
        ([&both, &[], &[]], [4, 0, 0], &[first, alone]),
        ([&both, &[], &[]], [5, 0, 0], &[first, missing, alone]),
        ([&both, &[], &[]], [3, 0, 0], &[first]),
        ([&[], &[], &[four]], [0, 0, 1], &[last]),
        ([&[], &[four], &[]], [0, 1, 0], &[between]),
        ([&[], &[four], &[four]], [0, 1, 1], &[between, of_two]),
        ([&[probe], &[four], &[]], [0, 1, 0], &[between, probed]),
        ([&[], &[four, buffer], &[]], [0, 1, 0], &[between, buffered]),
    ];
    each_counts(&all, first, buffered);
}

#[test]
fn lower_numbers_are_counted() {
    let (two, four) = (send(2), send(4));
    let buffer = Operation::send(BUFFERED, 1, 7, 0, 8);
    let any = Operation::receive(ANY, 7, 0, 1);
    let ready = Operation::send(READY, 1, 7, 0, 1);
    let held = two.nonblocking(3);
    let queried = [held, Operation::query(3), Operation::wait(3), four];
    let [of_any, of_ready, of_buffer, of_query] = [
        "premise 20, a room is short",
        "premise 21, a room is short",
        "premise 22, a room is short",
        "premise 23, a room is short",
    ];
    let all: [Asked; 4] = [
        ([&[any], &[four], &[]], [0, 1, 0], &[of_any]),
        ([&[ready], &[four], &[]], [0, 1, 0], &[of_ready]),
        ([&[buffer, buffer], &[four], &[]], [0, 1, 0], &[of_buffer]),
        ([&queried, &[], &[]], [5, 0, 0], &[of_query]),
    ];
    each_counts(&all, of_any, of_query);
}
