//! The header of a sheet and refusals 1 to 3, whose place is always 0.

use crate::layout::{self, header as at, word, Edition};

/// The header's four numbers, in their ranges, of a sheet whose offsets and
/// length agree with them and with its edition.
pub struct Header {
    /// Told by the offset of the operation table (document 02, K6).
    pub edition: Edition,
    pub boards: usize,
    pub communicators: u16,
    pub operations: usize,
    pub payload: usize,
}

impl Header {
    /// The number of the first refusal of 1 to 3 if one applies.
    pub fn read(sheet: &[u8]) -> Result<Header, u32> {
        if sheet.len() < layout::HEADER_BYTES {
            return Err(1);
        }
        let number = |place| usize::from(word(sheet, place));
        let boards = number(at::BOARDS);
        let told = Edition::told_by(boards, number(at::OPERATION_TABLE));
        let header = Header {
            edition: told.unwrap_or_default(),
            boards,
            communicators: word(sheet, at::COMMUNICATORS),
            operations: number(at::OPERATIONS),
            payload: number(at::PAYLOAD_LENGTH),
        };
        if !header.in_range() {
            return Err(2);
        }
        let agrees = told.is_some()
            && number(at::BOARD_TABLE) == layout::HEADER_BYTES
            && number(at::PAYLOAD) == header.payload_start()
            && sheet.len() == header.payload_start() + header.payload;
        if agrees {
            Ok(header)
        } else {
            Err(3)
        }
    }

    fn in_range(&self) -> bool {
        (1..=layout::MOST_BOARDS).contains(&self.boards)
            && (1..=layout::MOST_COMMUNICATORS).contains(&usize::from(self.communicators))
            && self.operations <= layout::MOST_OPERATIONS
            && self.payload <= layout::MOST_PAYLOAD
    }

    fn operation_table(&self) -> usize {
        self.edition.entry_at(self.boards)
    }

    fn payload_start(&self) -> usize {
        self.edition.operation_at(self.boards, self.operations)
    }

    /// The bytes of the board table.
    pub fn board_entries<'a>(&self, sheet: &'a [u8]) -> &'a [u8] {
        &sheet[layout::HEADER_BYTES..self.operation_table()]
    }

    /// The payload's bytes.
    pub fn payload_bytes<'a>(&self, sheet: &'a [u8]) -> &'a [u8] {
        &sheet[self.payload_start()..]
    }

    /// The bytes of the operation table.
    pub fn operation_entries<'a>(&self, sheet: &'a [u8]) -> &'a [u8] {
        &sheet[self.operation_table()..self.payload_start()]
    }
}
