//! An accepted sheet, decoded: what the steps of a job read.

use super::boards::{Board, Boards};
use super::header::Header;
use super::operations::{self, Operation};
use super::rooms::Needs;
use crate::layout::{kind, Edition, ANY};

pub struct Script<'a> {
    pub edition: Edition,
    pub boards: Vec<Board>,
    pub operations: Vec<Operation>,
    /// The rank whose script holds each operation.
    pub rank_of: Vec<usize>,
    pub payload: &'a [u8],
}

impl<'a> Script<'a> {
    /// `sheet` has passed *check*.
    pub fn read(sheet: &'a [u8]) -> Script<'a> {
        let header = Header::read(sheet).expect("the sheet was accepted");
        let boards = Boards::read(sheet, &header).expect("the sheet was accepted");
        let boards = boards.in_rank_order().to_vec();
        let table = header.operation_entries(sheet);
        let mut script = Script {
            edition: header.edition,
            boards,
            operations: Vec::new(),
            rank_of: Vec::new(),
            payload: header.payload_bytes(sheet),
        };
        for (rank, board) in script.boards.iter().enumerate() {
            for row in operations::rows(table, board) {
                script.operations.push(Operation::read(row));
                script.rank_of.push(rank);
            }
        }
        script
    }

    pub fn is_receive(&self, index: usize) -> bool {
        self.operations[index].kind == kind::RECEIVE
    }

    /// Document 01, How a board steps: addressed to the receiver,
    /// communicators equal, source equal or any, tag equal or any. A probe is
    /// fitted as a receive is (document 02, K9).
    pub fn fits(&self, message: usize, receive: usize) -> bool {
        self.parts_of_fit(message, receive) == [true; 4]
    }

    /// The parts of a fit, in that order.
    pub fn parts_of_fit(&self, message: usize, receive: usize) -> [bool; 4] {
        let (sent, asked) = (&self.operations[message], &self.operations[receive]);
        let source = self.rank_of[message];
        [
            usize::from(sent.peer) == self.rank_of[receive],
            sent.communicator == asked.communicator,
            asked.peer == ANY || usize::from(asked.peer) == source,
            asked.tag == ANY || asked.tag == sent.tag,
        ]
    }

    /// The inboxes lie one after another in rank order.
    pub fn inbox_start(&self, rank: usize) -> usize {
        self.boards[..rank].iter().map(|board| board.inbox).sum()
    }

    pub fn inbox_total(&self) -> usize {
        self.inbox_start(self.boards.len())
    }

    pub fn needs(&self) -> Needs {
        Needs {
            edition: self.edition,
            boards: self.boards.len(),
            operations: self.operations.len(),
            inbox: self.inbox_total(),
        }
    }
}
