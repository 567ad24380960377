//! The board table and refusal 5 (document 01, The sheet, byte by byte; the
//! room for standard sends: document 02, K6).

use super::header::Header;
use crate::layout::{self, board as at, word, Edition};

/// What the other refusals need of a board entry.
#[derive(Clone, Copy, Default)]
pub struct Board {
    pub first: usize,
    pub count: usize,
    pub attached: usize,
    pub inbox: usize,
    /// For standard sends. Edition 1 has none, which is as if it were 0: then
    /// nothing is buffered.
    pub room: usize,
}

impl Board {
    fn read(row: &[u8], edition: Edition) -> Board {
        Board {
            first: usize::from(word(row, at::FIRST)),
            count: usize::from(word(row, at::COUNT)),
            attached: usize::from(word(row, at::ATTACHED)),
            inbox: usize::from(word(row, at::INBOX)),
            room: match edition {
                Edition::First => 0,
                Edition::Second => usize::from(word(row, at::ROOM)),
            },
        }
    }
}

/// The boards in rank order; entries from P on are empty.
pub struct Boards {
    entries: [Board; layout::MOST_BOARDS],
    boards: usize,
}

impl Boards {
    /// The place of refusal 5 if it applies.
    pub fn read(sheet: &[u8], header: &Header) -> Result<Boards, u64> {
        let mut entries = [Board::default(); layout::MOST_BOARDS];
        let mut operations = 0;
        let mut inboxes = 0;
        let rows = header
            .board_entries(sheet)
            .chunks_exact(header.edition.entry_bytes());
        for (rank, row) in rows.enumerate() {
            let board = Board::read(row, header.edition);
            inboxes += board.inbox;
            if board.first != operations
                || board.attached > layout::MOST_ATTACHED
                || inboxes > layout::MOST_INBOX_TOTAL
                || board.room > layout::MOST_ROOM
            {
                return Err(rank as u64);
            }
            operations += board.count;
            entries[rank] = board;
        }
        if operations != header.operations {
            return Err(header.boards as u64);
        }
        Ok(Boards {
            entries,
            boards: header.boards,
        })
    }

    pub fn in_rank_order(&self) -> &[Board] {
        &self.entries[..self.boards]
    }
}
