//! The bytes of a sheet of edition 1, written from its parts, and its scripts
//! read back from any bytes (document 01, The sheet, byte by byte).

use crate::judge::crc::crc_of_sheet;

pub const ANY: u16 = 65_535;

/// Places in the header.
pub const BOARDS: usize = 0;
pub const COMMUNICATORS: usize = 2;
pub const OPERATIONS: usize = 4;
pub const BOARD_TABLE: usize = 6;
pub const OPERATION_TABLE: usize = 8;
pub const PAYLOAD: usize = 10;
pub const PAYLOAD_LENGTH: usize = 12;
pub const CRC: usize = 14;

pub const STANDARD: u8 = 1;
pub const BUFFERED: u8 = 2;
pub const SYNCHRONOUS: u8 = 3;
pub const READY: u8 = 4;
pub const RECEIVE: u8 = 5;
pub const WAIT: u8 = 6;
/// Kinds of document 02's request K9, before it wrong ones.
pub const PROBE: u8 = 7;
pub const QUERY: u8 = 8;

#[derive(Clone, Copy, Default)]
pub struct Operation {
    pub kind: u8,
    pub flag: u8,
    pub peer: u16,
    pub communicator: u16,
    pub tag: u16,
    pub offset: u16,
    pub length: u16,
    pub slot: u16,
}

impl Operation {
    fn write(&self, out: &mut Vec<u8>) {
        out.extend([self.kind, self.flag]);
        put_words(out, &[self.peer, self.communicator, 0, self.tag]);
        put_words(out, &[self.offset, self.length, self.slot]);
    }

    fn read(bytes: &[u8]) -> Operation {
        Operation {
            kind: bytes[0],
            flag: bytes[1],
            peer: word(bytes, 2),
            communicator: word(bytes, 4),
            tag: word(bytes, 8),
            offset: word(bytes, 10),
            length: word(bytes, 12),
            slot: word(bytes, 14),
        }
    }

    pub fn is_send(&self) -> bool {
        (STANDARD..=READY).contains(&self.kind)
    }
}

#[derive(Clone, Default)]
pub struct Board {
    pub script: Vec<Operation>,
    pub attached: u16,
    pub inbox: u16,
}

pub fn bytes(communicators: u16, boards: &[Board], payload: &[u8]) -> Vec<u8> {
    let operations: usize = boards.iter().map(|board| board.script.len()).sum();
    let operation_table = 16 + 8 * boards.len();
    let payload_at = operation_table + 16 * operations;
    let mut out = Vec::with_capacity(payload_at + payload.len());
    let counts = [boards.len() as u16, communicators, operations as u16];
    put_words(&mut out, &counts);
    put_words(&mut out, &[16, operation_table as u16, payload_at as u16]);
    put_words(&mut out, &[payload.len() as u16, 0]);
    let mut first = 0;
    for board in boards {
        let count = board.script.len() as u16;
        put_words(&mut out, &[first, count, board.attached, board.inbox]);
        first += count;
    }
    for operation in boards.iter().flat_map(|board| &board.script) {
        operation.write(&mut out);
    }
    out.extend(payload);
    mend_crc(&mut out);
    out
}

fn put_words(out: &mut Vec<u8>, words: &[u16]) {
    for number in words {
        out.extend(number.to_le_bytes());
    }
}

/// The number at `at`, 0 where the sheet has ended before it.
pub fn word(sheet: &[u8], at: usize) -> u16 {
    match sheet.get(at..at + 2) {
        Some(bytes) => u16::from_le_bytes([bytes[0], bytes[1]]),
        None => 0,
    }
}

pub fn set_word(sheet: &mut [u8], at: usize, value: u16) {
    if let Some(bytes) = sheet.get_mut(at..at + 2) {
        bytes.copy_from_slice(&value.to_le_bytes());
    }
}

/// Writes the right CRC, if there is room for one.
pub fn mend_crc(sheet: &mut [u8]) {
    if sheet.len() >= 16 {
        let crc = crc_of_sheet(sheet);
        set_word(sheet, CRC, crc);
    }
}

/// Whether the offset of the operation table is that of document 02's request
/// K6, where a board entry has 10 bytes.
pub fn second_edition(sheet: &[u8]) -> bool {
    let boards = usize::from(word(sheet, BOARDS));
    boards > 0 && usize::from(word(sheet, OPERATION_TABLE)) == 16 + 10 * boards
}

/// The scripts by rank, as far as the bytes go.
pub fn scripts(sheet: &[u8]) -> Vec<Vec<Operation>> {
    let boards = usize::from(word(sheet, BOARDS));
    let entry = if second_edition(sheet) { 10 } else { 8 };
    let table = sheet.get(16 + entry * boards..).unwrap_or(&[]);
    let all = usize::from(word(sheet, OPERATIONS));
    let mut operations = table.chunks_exact(16).take(all).map(Operation::read);
    let mut script = |rank: usize| {
        let count = usize::from(word(sheet, 16 + entry * rank + 2));
        operations.by_ref().take(count).collect()
    };
    (0..boards).map(&mut script).collect()
}
