//! Builds job sheets of both editions: boards, operations and payload in, bytes
//! with the right offsets and CRC out; fields of right sheets read back; and the
//! means to damage a field of those bytes and to mend the CRC afterwards
//! (document 01, The sheet, byte by byte; document 02, K6).

use crate::judge::crc::crc_of_sheet;
use crate::layout::{board, header, kind, operation, word};
use crate::layout::{Edition, HEADER_BYTES, MOST_LENGTH, OPERATION_BYTES};

#[derive(Clone, Copy, Debug, Default, PartialEq, Eq)]
pub struct Operation {
    pub kind: u8,
    pub flag: u8,
    pub peer: u16,
    pub communicator: u16,
    pub zero: u16,
    pub tag: u16,
    pub offset: u16,
    pub length: u16,
    pub slot: u16,
}

impl Operation {
    /// A blocking send on communicator 0.
    pub fn send(kind: u8, peer: u16, tag: u16, offset: u16, length: u16) -> Operation {
        Operation {
            kind,
            peer,
            tag,
            offset,
            length,
            ..Operation::default()
        }
    }

    /// A blocking receive on communicator 0.
    pub fn receive(peer: u16, tag: u16, offset: u16, capacity: u16) -> Operation {
        Operation::send(kind::RECEIVE, peer, tag, offset, capacity)
    }

    pub fn wait(slot: u16) -> Operation {
        Operation::of_slot(kind::WAIT, slot)
    }

    /// A status query (document 02, K9).
    pub fn query(slot: u16) -> Operation {
        Operation::of_slot(kind::QUERY, slot)
    }

    fn of_slot(kind: u8, slot: u16) -> Operation {
        Operation {
            kind,
            slot,
            ..Operation::default()
        }
    }

    /// A probe on communicator 0 (document 02, K9).
    pub fn probe(peer: u16, tag: u16) -> Operation {
        Operation::send(kind::PROBE, peer, tag, 0, 0)
    }

    pub fn nonblocking(self, slot: u16) -> Operation {
        Operation {
            flag: 1,
            slot,
            ..self
        }
    }

    pub fn on(self, communicator: u16) -> Operation {
        Operation {
            communicator,
            ..self
        }
    }

    /// Takes a slot and holds it after its initiating step.
    pub fn takes_slot(&self) -> bool {
        (kind::STANDARD..=kind::RECEIVE).contains(&self.kind) && self.flag == 1
    }

    fn write(&self, out: &mut Vec<u8>) {
        out.extend([self.kind, self.flag]);
        push_words(
            out,
            &[
                self.peer,
                self.communicator,
                self.zero,
                self.tag,
                self.offset,
                self.length,
                self.slot,
            ],
        );
    }
}

#[derive(Clone, Debug, Default)]
pub struct Board {
    pub attached: u16,
    pub inbox: u16,
    /// For standard sends, in edition 2; edition 1 has none.
    pub room: u16,
    pub script: Vec<Operation>,
}

impl Board {
    /// The lengths of all standard sends together.
    pub fn standard_lengths(&self) -> usize {
        let standard = |each: &&Operation| each.kind == kind::STANDARD;
        let sends = self.script.iter().filter(standard);
        sends.map(|send| usize::from(send.length)).sum()
    }
}

#[derive(Clone, Debug)]
pub struct Sheet {
    pub edition: Edition,
    pub communicators: u16,
    pub boards: Vec<Board>,
    pub payload: Vec<u8>,
}

impl Sheet {
    /// Of edition 1: one board a script, with inboxes of one size, nothing
    /// attached, one communicator and a payload of different bytes.
    pub fn of_scripts(scripts: &[&[Operation]], inbox: u16) -> Sheet {
        let board = |script: &&[Operation]| Board {
            inbox,
            script: script.to_vec(),
            ..Board::default()
        };
        Sheet {
            edition: Edition::First,
            communicators: 1,
            boards: scripts.iter().map(board).collect(),
            payload: (1..=32).collect(),
        }
    }

    pub fn attach(mut self, rank: usize, attached: u16) -> Sheet {
        self.boards[rank].attached = attached;
        self
    }

    /// The same boards in edition 2, with these rooms.
    pub fn with_rooms(mut self, rooms: &[u16]) -> Sheet {
        assert_eq!(rooms.len(), self.boards.len(), "a room a board");
        self.edition = Edition::Second;
        for (board, room) in self.boards.iter_mut().zip(rooms) {
            board.room = *room;
        }
        self
    }

    /// The same boards in edition 2, all with this room.
    pub fn with_room(self, room: u16) -> Sheet {
        let rooms = vec![room; self.boards.len()];
        self.with_rooms(&rooms)
    }

    pub fn operations(&self) -> usize {
        self.boards.iter().map(|board| board.script.len()).sum()
    }

    /// The sheet's bytes. Limits are not looked at, so that sheets beyond
    /// them can be built; the numbers have to fit into 16 bits.
    pub fn bytes(&self) -> Vec<u8> {
        let operation_table = self.edition.entry_at(self.boards.len());
        let payload = operation_table + OPERATION_BYTES * self.operations();
        let mut out = Vec::with_capacity(payload + self.payload.len());
        push_words(
            &mut out,
            &[
                self.boards.len() as u16,
                self.communicators,
                self.operations() as u16,
                HEADER_BYTES as u16,
                operation_table as u16,
                payload as u16,
                self.payload.len() as u16,
                0,
            ],
        );
        let mut first = 0;
        for board in &self.boards {
            let count = board.script.len() as u16;
            let numbers = [first, count, board.attached, board.inbox, board.room];
            push_words(&mut out, &numbers[..self.edition.entry_bytes() / 2]);
            first += count;
        }
        for operation in self.boards.iter().flat_map(|board| &board.script) {
            operation.write(&mut out);
        }
        out.extend(&self.payload);
        mend_crc(&mut out);
        out
    }
}

fn push_words(out: &mut Vec<u8>, words: &[u16]) {
    for number in words {
        out.extend(number.to_le_bytes());
    }
}

/// How many boards a sheet has.
pub fn boards(sheet: &[u8]) -> usize {
    usize::from(word(sheet, header::BOARDS))
}

/// The edition that the operation table's offset tells; the first if it tells
/// none.
pub fn edition(sheet: &[u8]) -> Edition {
    if sheet.len() < HEADER_BYTES {
        return Edition::First;
    }
    let table = usize::from(word(sheet, header::OPERATION_TABLE));
    Edition::told_by(boards(sheet), table).unwrap_or_default()
}

/// Where a board's entry starts.
pub fn entry_at(sheet: &[u8], rank: usize) -> usize {
    edition(sheet).entry_at(rank)
}

/// Where an operation starts.
pub fn operation_at(sheet: &[u8], index: usize) -> usize {
    edition(sheet).operation_at(boards(sheet), index)
}

/// An operation's kind.
pub fn kind_of(sheet: &[u8], index: usize) -> u8 {
    sheet[operation_at(sheet, index) + operation::KIND]
}

/// A number of an operation, by its place there.
pub fn field_of(sheet: &[u8], index: usize, field: usize) -> usize {
    usize::from(word(sheet, operation_at(sheet, index) + field))
}

/// A number of a board's entry, by its place there.
pub fn entry_of(sheet: &[u8], rank: usize, field: usize) -> usize {
    usize::from(word(sheet, entry_at(sheet, rank) + field))
}

/// A board's room for standard sends: 0 in edition 1.
pub fn room_of(sheet: &[u8], rank: usize) -> usize {
    match edition(sheet) {
        Edition::First => 0,
        Edition::Second => entry_of(sheet, rank, board::ROOM),
    }
}

pub fn set_word(sheet: &mut [u8], at: usize, value: u16) {
    sheet[at..at + 2].copy_from_slice(&value.to_le_bytes());
}

/// Adds to a field, modulo 65,536.
pub fn add_word(sheet: &mut [u8], at: usize, amount: i32) {
    let value = i32::from(word(sheet, at)) + amount;
    set_word(sheet, at, value as u16);
}

/// Writes the right CRC, if there is room for one.
pub fn mend_crc(sheet: &mut [u8]) {
    if sheet.len() >= HEADER_BYTES {
        let crc = crc_of_sheet(sheet);
        set_word(sheet, header::CRC, crc);
    }
}

/// The longest area that fits into `room` bytes.
pub fn longest(room: usize) -> usize {
    room.min(usize::from(MOST_LENGTH))
}
