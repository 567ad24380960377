//! The bytes of a sheet split into its tables (document 01, The sheet, byte by
//! byte).

use crate::edition::Edition;
use crate::limits::{HEADER_BYTES, OPERATION_BYTES};
use crate::words::{split, words};

/// The sizes and the tables of a sheet.
pub(crate) struct Tables<'a> {
    pub edition: Edition,
    pub boards: usize,
    pub communicators: usize,
    pub operations: usize,
    entries: &'a [u8],
    records: &'a [u8],
}

/// What a board entry says. Its first operation follows from the counts.
pub(crate) struct Entry {
    pub count: usize,
    pub attached: usize,
    pub inbox: usize,
    /// 0 in edition 1.
    pub standard_room: usize,
}

impl<'a> Tables<'a> {
    /// The tables of a sheet, if its operation table starts where one does and
    /// it is long enough for what its header says. The other offsets are not
    /// looked at: of a sheet that passes check they say the same.
    pub fn of(sheet: &'a [u8]) -> Option<Tables<'a>> {
        let [boards, communicators, operations, _board_table, operation_table] = words(sheet)?;
        let edition = Edition::of_sheet(boards, operation_table)?;
        let (_, behind_header) = split(sheet, usize::from(HEADER_BYTES))?;
        let entries = boards.checked_mul(edition.board_bytes())?;
        let (entries, behind_entries) = split(behind_header, entries)?;
        let (records, _) = split(behind_entries, operations.checked_mul(OPERATION_BYTES)?)?;
        Some(Tables {
            edition,
            boards,
            communicators,
            operations,
            entries,
            records,
        })
    }

    /// The board entries in rank order.
    pub fn entries(&self) -> impl Iterator<Item = Entry> + 'a {
        let entries = self.entries.chunks_exact(self.edition.board_bytes());
        entries.filter_map(Entry::read)
    }

    /// The bytes of each operation.
    pub fn operations(&self) -> impl Iterator<Item = &'a [u8]> {
        self.records.chunks_exact(OPERATION_BYTES)
    }
}

impl Entry {
    fn read(bytes: &[u8]) -> Option<Entry> {
        let [_first, count, attached, inbox] = words(bytes)?;
        // Edition 2 has a fifth number.
        let standard_room = words(bytes).map_or(0, |[_, _, _, _, room]| room);
        Some(Entry {
            count,
            attached,
            inbox,
            standard_room,
        })
    }
}
