//! Jobs of the most operations, at times one less or one more; or with a last
//! operation that stops the job, or lets the order matter (document 02, K11);
//! that is nonblocking, or frees the slot of the one before it (K7), which may be
//! queried between (K9). Some are of edition 2, with any rooms (K6).

use super::editions::add_rooms;
use crate::layout::kind::{BUFFERED, READY};
use crate::layout::{ANY, MOST_LENGTH, MOST_OPERATIONS};
use crate::random::Random;
use crate::sheet::Operation;
use crate::traffic;

pub fn any(random: &mut Random) -> Vec<u8> {
    let (_, shape) = random.pick(&traffic::SHAPES);
    let mut sheet = shape(MOST_OPERATIONS);
    // For a message of a length that no buffer of the last board holds.
    let payload = sheet.payload.len().max(usize::from(MOST_LENGTH));
    sheet.payload.resize(payload, 1);
    let rank = sheet.boards.len() - 1;
    let script = &mut sheet.boards[rank].script;
    let last = script.pop().expect("every board has operations");
    let to_oneself = |kind| Operation::send(kind, rank as u16, 0, 0, MOST_LENGTH);
    match random.below(11) {
        0 => {}
        1 => script.extend([last, last]),
        2 => script.push(to_oneself(READY)),
        3 => script.push(to_oneself(BUFFERED)),
        4 => script.push(Operation { peer: ANY, ..last }),
        5 => script.push(last.nonblocking(31)),
        6 => {
            script.pop();
            script.extend([last.nonblocking(31), Operation::wait(31)]);
        }
        7 => {
            script.truncate(script.len() - 2);
            script.extend([last.nonblocking(31), Operation::query(31)]);
            script.push(Operation::wait(31));
        }
        8 => script.push(Operation::probe(ANY, ANY)),
        _ => script.push(last),
    }
    if random.chance(30) {
        add_rooms(&mut sheet, false, random);
    }
    sheet.bytes()
}
