//! Attached buffers of accepted sheets: what the buffered sends of a board
//! cost (document 02, K2), and the cases around it that the differential tests
//! have to make: both sides of what a buffer holds, and sizes between the
//! lengths and the charges.

use crate::desk::{figure, row};
use crate::layout::board_row::{IN_USE, PEAK};
use crate::layout::{board, kind, operation, word, BSEND_OVERHEAD};
use crate::sheet::{boards, entry_of, field_of, kind_of};
use jamturret::lent::Answer;

/// The buffered sends of a board together, and its buffer.
pub struct Buffered {
    pub lengths: usize,
    pub charges: usize,
    pub attached: usize,
}

impl Buffered {
    pub fn of(sheet: &[u8], rank: usize) -> Buffered {
        let first = entry_of(sheet, rank, board::FIRST);
        let count = entry_of(sheet, rank, board::COUNT);
        let attached = entry_of(sheet, rank, board::ATTACHED);
        let (mut lengths, mut charges) = (0, 0);
        for index in first..first + count {
            if kind_of(sheet, index) == kind::BUFFERED {
                let length = length(sheet, index);
                lengths += length;
                charges += length + BSEND_OVERHEAD;
            }
        }
        Buffered {
            lengths,
            charges,
            attached,
        }
    }
}

fn length(sheet: &[u8], index: usize) -> usize {
    field_of(sheet, index, operation::LENGTH)
}

/// What `covered` finds.
pub const COVERED: [&str; 3] = [
    "0, a buffer is filled to its last byte",
    "22, one byte is missing",
    "22, the lengths are covered",
];

/// Which cases premise's answer to an accepted sheet makes.
pub fn covered(sheet: &[u8], premise: Answer) -> [bool; COVERED.len()] {
    let exact = |rank| {
        let board = Buffered::of(sheet, rank);
        board.charges > 0 && board.charges == board.attached
    };
    match premise.number {
        0 => [(0..boards(sheet)).any(exact), false, false],
        22 => {
            let board = Buffered::of(sheet, premise.place as usize);
            let missing = board.charges - board.attached;
            [false, missing == 1, board.lengths <= board.attached]
        }
        _ => [false; COVERED.len()],
    }
}

/// What `left` finds.
pub const LEFT: [&str; 7] = [
    "filled to the last byte",
    "charged, and all released",
    "an empty message in a buffer",
    "overflow, one byte is missing",
    "overflow, 32 bytes are missing",
    "overflow, the length does not fit either",
    "overflow of an empty message",
];

/// Which cases a report on an accepted sheet shows.
pub fn left(sheet: &[u8], report: &[u8]) -> [bool; LEFT.len()] {
    let boards = boards(sheet);
    let figure = |rank: usize, place| figure(sheet, report, rank, place);
    let attached = |rank| entry_of(sheet, rank, board::ATTACHED);
    let charged = |rank: &usize| figure(*rank, PEAK) > 0;
    let filled = |rank| figure(rank, PEAK) == attached(rank);
    let released = |rank| figure(rank, IN_USE) == 0;
    let buffered = |index| kind_of(sheet, index) == kind::BUFFERED;
    let empty =
        |index| row(sheet, report, index)[0] == 2 && buffered(index) && length(sheet, index) == 0;
    let (rank, index) = (usize::from(report[1]), usize::from(word(report, 2)));
    let overflow = (report[0] == 3).then(|| length(sheet, index));
    let missing =
        overflow.map(|length| figure(rank, IN_USE) + length + BSEND_OVERHEAD - attached(rank));
    [
        (0..boards).filter(charged).any(filled),
        (0..boards).filter(charged).any(released),
        (0..usize::from(word(report, 8))).any(empty),
        missing == Some(1),
        missing == Some(BSEND_OVERHEAD),
        missing > Some(BSEND_OVERHEAD),
        overflow == Some(0),
    ]
}
