//! What the initiating steps of standard sends show.

use crate::command::note;
use crate::judge::{self, StandardSend};
use crate::layout::{operation as at, Edition};
use crate::sheet::{boards, edition, field_of, operation_at, room_of};

pub const SENT: [&str; IN_ROOM + WITHOUT + AT_ONCE] = [
    "standard send in a room, blocking",
    "standard send in a room, nonblocking",
    "standard send in a room, to oneself",
    "standard send in a room, beside another",
    "standard send in a room, used again",
    "standard send in a room, behind one without",
    "standard send in a room, a buffer is in use",
    "standard send fills a room",
    "empty standard send in a room",
    "empty standard send in a room of 1",
    "empty standard send in a full room",
    "standard send without, one byte is missing",
    "standard send without, beside another",
    "standard send without, longer than the room",
    "standard send without, blocking",
    "standard send without, nonblocking",
    "standard send without, to oneself",
    "standard send without, room 0",
    "empty standard send without, room 0",
    "standard send without, edition 1",
    "standard send matched at once, room for it",
    "standard send matched at once, no room",
    "empty standard send matched at once, room for it",
];

const IN_ROOM: usize = 11;
const WITHOUT: usize = 9;
const AT_ONCE: usize = 3;

/// A standard send and the room that it finds.
struct Sent {
    length: usize,
    room: usize,
    in_use: usize,
    nonblocking: bool,
    to_oneself: bool,
}

impl Sent {
    fn read(sheet: &[u8], send: &StandardSend) -> Sent {
        let index = send.operation;
        Sent {
            length: field_of(sheet, index, at::LENGTH),
            room: room_of(sheet, send.rank),
            in_use: send.in_use,
            nonblocking: sheet[operation_at(sheet, index) + at::FLAG] == 1,
            to_oneself: field_of(sheet, index, at::PEER) == send.rank,
        }
    }

    fn fits(&self) -> bool {
        self.room > 0 && self.in_use + self.length <= self.room
    }
}

/// What a board's room has seen.
#[derive(Clone, Copy, Default)]
struct Seen {
    /// The bytes of all that were charged.
    charged: usize,
    /// A send found no room.
    refused: bool,
}

/// Which cases the standard sends of an accepted order make.
pub fn sent(sheet: &[u8], order: &[u8]) -> [bool; SENT.len()] {
    let mut found = [false; SENT.len()];
    let mut seen = vec![Seen::default(); boards(sheet)];
    let second = edition(sheet) == Edition::Second;
    judge::each_standard_send(sheet, order, |send| {
        let (of, seen) = (Sent::read(sheet, &send), &mut seen[send.rank]);
        let (room, rest) = found.split_at_mut(IN_ROOM);
        let (without, at_once) = rest.split_at_mut(WITHOUT);
        match (send.matched, of.fits()) {
            (true, fits) => note(at_once, &matched(&of, fits)),
            (false, true) => {
                note(room, &in_room(&of, seen, send.buffer_in_use));
                seen.charged += of.length;
            }
            (false, false) => {
                note(without, &without_room(&of, second));
                seen.refused |= of.room > 0;
            }
        }
    });
    found
}

fn in_room(of: &Sent, seen: &Seen, buffer_in_use: usize) -> [bool; IN_ROOM] {
    let empty = of.length == 0;
    [
        !of.nonblocking,
        of.nonblocking,
        of.to_oneself,
        of.in_use > 0,
        seen.charged + of.length > of.room,
        seen.refused,
        buffer_in_use > 0,
        !empty && of.in_use + of.length == of.room,
        empty,
        empty && of.room == 1,
        empty && of.in_use == of.room,
    ]
}

fn without_room(of: &Sent, second: bool) -> [bool; WITHOUT] {
    let short = of.room > 0;
    let none = second && of.room == 0;
    [
        short && of.in_use + of.length == of.room + 1,
        short && of.length <= of.room,
        of.length > of.room && short,
        short && !of.nonblocking,
        short && of.nonblocking,
        short && of.to_oneself,
        none && of.length > 0,
        none && of.length == 0,
        !second,
    ]
}

fn matched(of: &Sent, fits: bool) -> [bool; AT_ONCE] {
    let empty = of.length == 0;
    [!empty && fits, of.room > 0 && !fits, empty && fits]
}
