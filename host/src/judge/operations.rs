//! The operation table and refusal 6 (document 01, The sheet, byte by byte).

use super::boards::{Board, Boards};
use super::header::Header;
use crate::layout::{self, kind, operation as at, word, ANY, BSEND_OVERHEAD};

/// An operation as it stands in the sheet.
pub struct Operation {
    pub kind: u8,
    pub flag: u8,
    pub peer: u16,
    pub communicator: u16,
    zero: u16,
    pub tag: u16,
    pub offset: u16,
    pub length: u16,
    pub slot: u16,
}

impl Operation {
    pub fn read(row: &[u8]) -> Operation {
        Operation {
            kind: row[at::KIND],
            flag: row[at::FLAG],
            peer: word(row, at::PEER),
            communicator: word(row, at::COMMUNICATOR),
            zero: word(row, at::ZERO),
            tag: word(row, at::TAG),
            offset: word(row, at::OFFSET),
            length: word(row, at::LENGTH),
            slot: word(row, at::SLOT),
        }
    }

    /// What a buffered send is charged (document 02, K2).
    pub fn charge(&self) -> usize {
        usize::from(self.length) + BSEND_OVERHEAD
    }

    fn right(&self, header: &Header, board: &Board) -> bool {
        match self.kind {
            kind::STANDARD..=kind::READY => self.right_transfer(header, header.payload, false),
            kind::RECEIVE => self.right_transfer(header, board.inbox, true),
            // A query has the fields of a wait (document 02, K9).
            kind::WAIT | kind::QUERY => self.right_wait(),
            kind::PROBE => self.right_probe(header),
            _ => false,
        }
    }

    /// A send or a receive, whose offset and length lie within `room` bytes.
    fn right_transfer(&self, header: &Header, room: usize, receive: bool) -> bool {
        let slot = match self.flag {
            0 => self.slot == 0,
            1 => usize::from(self.slot) < layout::SLOTS,
            _ => false,
        };
        self.right_envelope(header, receive)
            && slot
            && self.length <= layout::MOST_LENGTH
            && usize::from(self.offset) + usize::from(self.length) <= room
    }

    /// Peer, tag and communicator, and the zero between them. A receive's peer
    /// and tag may be any.
    fn right_envelope(&self, header: &Header, receive: bool) -> bool {
        let peer = usize::from(self.peer) < header.boards || (receive && self.peer == ANY);
        let tag = self.tag <= layout::MOST_TAG || (receive && self.tag == ANY);
        peer && tag && self.communicator < header.communicators && self.zero == 0
    }

    /// A receive's peer, communicator and tag, with zeros else (document 02,
    /// K9).
    fn right_probe(&self, header: &Header) -> bool {
        let others = [self.offset, self.length, self.slot];
        self.flag == 0 && others == [0; 3] && self.right_envelope(header, true)
    }

    fn right_wait(&self) -> bool {
        let others = [
            self.peer,
            self.communicator,
            self.zero,
            self.tag,
            self.offset,
            self.length,
        ];
        self.flag == 0 && others == [0; 6] && usize::from(self.slot) < layout::SLOTS
    }
}

/// The rows of one board's operations.
pub fn rows<'a>(table: &'a [u8], board: &Board) -> std::slice::ChunksExact<'a, u8> {
    let start = board.first * layout::OPERATION_BYTES;
    let end = start + board.count * layout::OPERATION_BYTES;
    table[start..end].chunks_exact(layout::OPERATION_BYTES)
}

/// The place of refusal 6 if it applies.
pub fn check(sheet: &[u8], header: &Header, boards: &Boards) -> Result<(), u64> {
    let table = header.operation_entries(sheet);
    for board in boards.in_rank_order() {
        for (index, row) in rows(table, board).enumerate() {
            if !Operation::read(row).right(header, board) {
                return Err((board.first + index) as u64);
            }
        }
    }
    Ok(())
}
