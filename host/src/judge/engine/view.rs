//! The tables of an accepted sheet, read in place but for the board entries,
//! whose length differs by edition.

use crate::judge::rooms::Needs;
use crate::layout::{board, header, operation, word, Edition};
use crate::layout::{ANY, HEADER_BYTES, MOST_BOARDS, OPERATION_BYTES};

/// An entry of edition 2. Of edition 1 its last number is 0, and with room 0
/// standard sends go as in edition 1 (document 02, K6).
pub type Entry = [u8; Edition::Second.entry_bytes()];
pub type Operation = [u8; OPERATION_BYTES];

pub struct View<'a> {
    pub edition: Edition,
    /// The entries from P on are empty.
    entries: [Entry; MOST_BOARDS],
    boards: usize,
    pub operations: &'a [Operation],
    pub payload: &'a [u8],
}

impl<'a> View<'a> {
    /// `sheet` has passed *check*.
    pub fn read(sheet: &'a [u8]) -> View<'a> {
        let boards = usize::from(word(sheet, header::BOARDS));
        let operations = usize::from(word(sheet, header::OPERATIONS));
        let operation_table = usize::from(word(sheet, header::OPERATION_TABLE));
        let edition = Edition::told_by(boards, operation_table).expect("the sheet was accepted");
        let (table, rest) = sheet[HEADER_BYTES..].split_at(operation_table - HEADER_BYTES);
        let mut entries = [[0; Edition::Second.entry_bytes()]; MOST_BOARDS];
        let bytes = edition.entry_bytes();
        for (entry, read) in entries.iter_mut().zip(table.chunks_exact(bytes)) {
            entry[..bytes].copy_from_slice(read);
        }
        let (table, payload) = rest.split_at(OPERATION_BYTES * operations);
        View {
            edition,
            entries,
            boards,
            operations: table.as_chunks().0,
            payload,
        }
    }

    pub fn boards(&self) -> &[Entry] {
        &self.entries[..self.boards]
    }

    pub fn needs(&self) -> Needs {
        let inbox = |entry: &Entry| usize::from(word(entry, board::INBOX));
        Needs {
            edition: self.edition,
            boards: self.boards,
            operations: self.operations.len(),
            inbox: self.boards().iter().map(inbox).sum(),
        }
    }

    /// The first operation of a board.
    pub fn first(&self, rank: usize) -> usize {
        usize::from(word(&self.entries[rank], board::FIRST))
    }

    pub fn count(&self, rank: usize) -> usize {
        usize::from(word(&self.entries[rank], board::COUNT))
    }

    pub fn attached(&self, rank: usize) -> u16 {
        word(&self.entries[rank], board::ATTACHED)
    }

    pub fn room(&self, rank: usize) -> u16 {
        word(&self.entries[rank], board::ROOM)
    }
}

/// Document 01, How a board steps, Fit: `sent` comes from rank `source`,
/// `asked` is a receive or a probe (document 02, K9) of rank `receiver`.
#[inline]
pub fn fits(sent: &Operation, source: u8, asked: &Operation, receiver: u8) -> bool {
    let from = word(asked, operation::PEER);
    let tag = word(asked, operation::TAG);
    word(sent, operation::PEER) == u16::from(receiver)
        && word(sent, operation::COMMUNICATOR) == word(asked, operation::COMMUNICATOR)
        && (from == ANY || from == u16::from(source))
        && (tag == ANY || tag == word(sent, operation::TAG))
}
