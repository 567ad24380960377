//! The rooms lent to *follow* and *run*, and reading the report, for tests.

use crate::judge::{self, Rooms, SCRATCH_ROOM};
use crate::layout::{board, board_row, word, Edition, OPERATION_ROW_BYTES};
use crate::sheet;
use jamturret::lent::Answer;

/// What every byte of a lent room holds before the call.
pub const FILL: u8 = 0xEE;

/// The row of an operation in a report on a sheet.
pub fn row<'a>(sheet: &[u8], report: &'a [u8], operation: usize) -> &'a [u8] {
    row_in(sheet::edition(sheet), report, operation)
}

fn row_in(edition: Edition, report: &[u8], operation: usize) -> &[u8] {
    let start = edition.operation_row_at(boards(report), operation);
    &report[start..][..OPERATION_ROW_BYTES]
}

/// A number of a board's row in a report on a sheet, by its place there.
pub fn figure(sheet: &[u8], report: &[u8], rank: usize, place: usize) -> usize {
    let start = sheet::edition(sheet).board_row_at(rank);
    usize::from(word(report, start + place))
}

fn boards(report: &[u8]) -> usize {
    usize::from(word(report, 6))
}

/// The rooms before or after a call.
#[derive(Clone, Debug, PartialEq, Eq)]
pub struct Desk {
    /// That of the sheet, which the report itself does not tell.
    pub edition: Edition,
    pub inbox: Vec<u8>,
    pub report: Vec<u8>,
    pub order_out: Vec<u8>,
    pub scratch: Vec<u8>,
}

impl Desk {
    /// Rooms of exactly the size that a sheet needs; its header and board
    /// table have to be right.
    pub fn for_sheet(sheet: &[u8]) -> Desk {
        let edition = sheet::edition(sheet);
        let boards = sheet::boards(sheet);
        let operations = usize::from(word(sheet, 4));
        let inbox = |rank: usize| sheet::entry_of(sheet, rank, board::INBOX);
        Desk {
            edition,
            inbox: vec![FILL; (0..boards).map(inbox).sum()],
            report: vec![FILL; edition.report_bytes(boards, operations)],
            order_out: vec![FILL; 2 * operations],
            scratch: vec![FILL; SCRATCH_ROOM],
        }
    }

    /// The rooms as both services take them, and order out.
    pub fn rooms(&mut self) -> (Rooms<'_>, &mut [u8]) {
        let rooms = Rooms {
            inbox: &mut self.inbox,
            report: &mut self.report,
            scratch: &mut self.scratch,
        };
        (rooms, &mut self.order_out)
    }

    /// The rooms with their names, in the order of refusal 8.
    pub fn by_name(&self) -> [(&'static str, &[u8]); 4] {
        [
            ("inbox", &self.inbox),
            ("report", &self.report),
            ("order out", &self.order_out),
            ("scratch", &self.scratch),
        ]
    }

    /// The naive judge's *run*, which is not proved.
    pub fn naive_run(&mut self, sheet: &[u8]) -> Answer {
        let (rooms, order_out) = self.rooms();
        judge::run(sheet, rooms, order_out)
    }

    /// The naive judge's *follow*, which is not proved.
    pub fn naive_follow(&mut self, sheet: &[u8], order: &[u8]) -> Answer {
        judge::follow(sheet, order, self.rooms().0)
    }

    pub fn verdict(&self) -> u8 {
        self.report[0]
    }

    pub fn steps(&self) -> usize {
        usize::from(word(&self.report, 4))
    }

    pub fn cut_messages(&self) -> usize {
        usize::from(word(&self.report, 14))
    }

    /// The row of an operation in the report.
    pub fn row(&self, operation: usize) -> &[u8] {
        row_in(self.edition, &self.report, operation)
    }

    /// A number of a board's row in the report, by its place there.
    pub fn figure(&self, rank: usize, place: usize) -> usize {
        usize::from(word(&self.report, self.edition.board_row_at(rank) + place))
    }

    /// How many operation rows say matched.
    pub fn matched_rows(&self) -> usize {
        let operations = 0..usize::from(word(&self.report, 8));
        operations.filter(|&index| self.row(index)[0] == 3).count()
    }

    /// The order that run wrote down.
    pub fn order(&self) -> &[u8] {
        &self.order_out[..self.steps()]
    }

    /// The ranks whose board row says able.
    pub fn able(&self) -> Vec<u8> {
        let state = |rank: usize| self.report[self.edition.board_row_at(rank) + board_row::STATE];
        let able = (0..boards(&self.report)).filter(|&rank| state(rank) == 1);
        able.map(|rank| rank as u8).collect()
    }

    /// Inboxes and report, with the peaks of each board row set aside: one in
    /// edition 1, two in edition 2 (document 02, K6).
    pub fn without_peaks(&self) -> (Vec<u8>, Vec<u8>) {
        let mut report = self.report.clone();
        let peaks: &[usize] = match self.edition {
            Edition::First => &[board_row::PEAK],
            Edition::Second => &[board_row::PEAK, board_row::STANDARD_PEAK],
        };
        for rank in 0..boards(&report) {
            for peak in peaks {
                let at = self.edition.board_row_at(rank) + peak;
                report[at..at + 2].fill(0);
            }
        }
        (self.inbox.clone(), report)
    }
}
