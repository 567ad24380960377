//! What the answers of check and premise show.

use super::reading::{held_at_once_and_again, left, operations, rank_of};
use super::reading::{receives, script, slot_of, takes, waits, Left, Seven};
use crate::buffers::Buffered;
use crate::editions::Standard;
use crate::layout::{kind, operation, ANY, SLOTS};
use crate::sheet::{boards, field_of, kind_of};
use jamturret::lent::Answer;

/// Document 01's most operations.
const FIRST_MOST: usize = 1024;

/// What `asked` finds: of a forgotten request that is told, of one that is not
/// since another rule goes before, of accepted sheets, and of premise.
pub const ASKED: [&str; TOLD + NOT_TOLD + ACCEPTED + PREMISE] = [
    "forgotten, a send",
    "forgotten, a receive",
    "forgotten on the first of several boards",
    "forgotten on the last of several boards",
    "forgotten, two of a board",
    "forgotten, of two boards",
    "forgotten after the slot was freed once",
    "forgotten, the last of its script",
    "forgotten, slot 0",
    "forgotten, slot 31",
    "forgotten, all 32 slots of a board",
    "forgotten, a wait on another board only",
    "forgotten from operation 1,024 on",
    "not told before a slot taken twice",
    "not told before a wait for a free slot",
    "not told before a slot of a later board",
    "not told before an area of its board",
    "not told before an area of a later board",
    "not told behind a broken slot or area",
    "not told before a wrong field",
    "accepted, a wait ends a script",
    "accepted, all 32 slots held at once",
    "accepted, a slot taken again",
    "premise, forgotten and not 20",
    "premise, forgotten and not 21",
    "premise, forgotten and not 22",
    "premise, forgotten and not 23",
    "premise, forgotten and not 24",
];

const TOLD: usize = 13;
const NOT_TOLD: usize = 7;
const ACCEPTED: usize = 3;
const PREMISE: usize = 5;

/// Which cases the answers of check and premise make.
pub fn asked(sheet: &[u8], check: Answer, premise: Answer) -> [bool; ASKED.len()] {
    let (mut first, mut second) = ([false; TOLD], [false; NOT_TOLD]);
    let (mut third, mut fourth) = ([false; ACCEPTED], [false; PREMISE]);
    let place = check.place as usize;
    // With these numbers the tables can be read.
    match check.number {
        0 => third = accepted(sheet),
        6 => second = wrong_field(sheet, place),
        7 => match Seven::at(sheet, place) {
            Seven::Forgotten => {
                first = told(sheet, place);
                let number = premise_else(sheet);
                fourth = [20, 21, 22, 23, 24].map(|other| premise == check && number == other);
            }
            rule => second = not_told(sheet, place, rule),
        },
        _ => {}
    }
    let found = [&first[..], &second, &third, &fourth].concat();
    found.try_into().expect("the parts of ASKED")
}

/// The place is that of the first request that is left.
fn told(sheet: &[u8], place: usize) -> [bool; TOLD] {
    let left = left(sheet);
    let Some(first) = left.first().filter(|first| first.index == place) else {
        return [false; TOLD];
    };
    let (rank, slot) = (first.rank, first.slot);
    let script = script(sheet, rank);
    let of_board = left.iter().filter(|request| request.rank == rank).count();
    let waits_for = |at: &usize| waits(sheet, *at) && slot_of(sheet, *at) == slot;
    let mut elsewhere = operations(sheet).filter(|at| !script.contains(at));
    [
        !receives(sheet, place),
        receives(sheet, place),
        rank == 0 && boards(sheet) > 1,
        rank > 0 && rank + 1 == boards(sheet),
        of_board > 1,
        of_board < left.len(),
        script.clone().any(|at| waits_for(&at)),
        place + 1 == script.end,
        slot == 0,
        slot == SLOTS - 1,
        of_board == SLOTS,
        elsewhere.any(|at| waits_for(&at)),
        place >= FIRST_MOST,
    ]
}

/// Another rule of 7 is told. Where that is a slot taken twice, the request
/// that holds the slot does not count.
fn not_told(sheet: &[u8], place: usize, rule: Seven) -> [bool; NOT_TOLD] {
    let (slot, area) = (rule == Seven::Slot, rule == Seven::Area);
    let (rank, named) = (rank_of(sheet, place), slot_of(sheet, place));
    let left = left(sheet);
    let before = |request: &&Left| request.index < place;
    let of_board = |other: &Left| other.rank == rank && (area || other.slot != named);
    let here = left.iter().filter(before).any(of_board);
    let earlier = left.iter().any(|request| request.rank < rank);
    [
        slot && takes(sheet, place) && (here || earlier),
        slot && waits(sheet, place) && (here || earlier),
        slot && earlier,
        area && here,
        area && earlier,
        left.iter().any(|request| request.index > place),
        false,
    ]
}

fn wrong_field(sheet: &[u8], place: usize) -> [bool; NOT_TOLD] {
    let mut found = [false; NOT_TOLD];
    found[NOT_TOLD - 1] = left(sheet).iter().any(|request| request.index < place);
    found
}

fn accepted(sheet: &[u8]) -> [bool; ACCEPTED] {
    let ends = |rank| {
        script(sheet, rank)
            .last()
            .is_some_and(|at| waits(sheet, at))
    };
    let (at_once, again) = held_at_once_and_again(sheet);
    [(0..boards(sheet)).any(ends), at_once, again]
}

/// What premise would answer if nothing were forgotten.
fn premise_else(sheet: &[u8]) -> u32 {
    let source = |index| field_of(sheet, index, operation::PEER);
    let of_kind = |index, kind| kind_of(sheet, index) == kind;
    let asks = |index| receives(sheet, index) || of_kind(index, kind::PROBE);
    let any_source = |index| asks(index) && source(index) == usize::from(ANY);
    let uncovered = |rank| {
        let board = Buffered::of(sheet, rank);
        board.charges > board.attached
    };
    if operations(sheet).any(any_source) {
        20
    } else if operations(sheet).any(|index| of_kind(index, kind::READY)) {
        21
    } else if (0..boards(sheet)).any(uncovered) {
        22
    } else if operations(sheet).any(|index| of_kind(index, kind::QUERY)) {
        23
    } else if (0..boards(sheet)).any(|rank| Standard::of(sheet, rank).uncovered()) {
        24
    } else {
        0
    }
}
