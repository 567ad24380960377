//! The bench jobs of document 01 as sheets, as document 02 has changed them.
//! Where they leave lengths and tags free, short ones are chosen.

use crate::layout::kind::{BUFFERED, READY, STANDARD, SYNCHRONOUS};
use crate::layout::{Edition, ANY};
use crate::sheet::{Board, Operation, Sheet};

const INBOX: u16 = 16;

fn job(scripts: &[&[Operation]]) -> Sheet {
    Sheet::of_scripts(scripts, INBOX)
}

fn send(kind: u8, peer: u16, tag: u16) -> Operation {
    Operation::send(kind, peer, tag, 0, 3)
}

fn receive(peer: u16, tag: u16) -> Operation {
    Operation::receive(peer, tag, 0, 4)
}

/// A synchronous send of 3 bytes, tag 7; a receive of any tag, capacity 4.
pub fn case_1() -> Sheet {
    job(&[&[send(SYNCHRONOUS, 1, 7)], &[receive(0, ANY)]])
}

/// Two buffered sends of one tag; receives of any tag, then of that tag.
pub fn case_2() -> Sheet {
    let sends = [
        Operation::send(BUFFERED, 1, 5, 0, 3),
        Operation::send(BUFFERED, 1, 5, 3, 2),
    ];
    let receives = [
        Operation::receive(0, ANY, 0, 4),
        Operation::receive(0, 5, 4, 4),
    ];
    job(&[&sends, &receives]).attach(0, 3 + 32 + 2 + 32)
}

/// Buffered tag 1, synchronous tag 2; receives tag 2, tag 1.
pub fn case_3(attached: u16) -> Sheet {
    let sends = [
        Operation::send(BUFFERED, 1, 1, 0, 3),
        Operation::send(SYNCHRONOUS, 1, 2, 3, 2),
    ];
    let receives = [
        Operation::receive(0, 2, 0, 4),
        Operation::receive(0, 1, 4, 4),
    ];
    job(&[&sends, &receives]).attach(0, attached)
}

/// Rank 0 sends then receives, rank 1 receives then sends.
pub fn case_4() -> Sheet {
    job(&[
        &[send(STANDARD, 1, 0), receive(1, 0)],
        &[receive(0, 0), send(STANDARD, 0, 0)],
    ])
}

/// Both receive first.
pub fn case_5() -> Sheet {
    job(&[
        &[receive(1, 0), send(STANDARD, 1, 0)],
        &[receive(0, 0), send(STANDARD, 0, 0)],
    ])
}

/// Both standard send first.
pub fn case_6() -> Sheet {
    job(&[
        &[send(STANDARD, 1, 0), receive(1, 0)],
        &[send(STANDARD, 0, 0), receive(0, 0)],
    ])
}

/// The same with these rooms for standard sends (document 02, K6).
pub fn case_6_in_rooms(rooms: [u16; 2]) -> Sheet {
    case_6().with_rooms(&rooms)
}

/// Two nonblocking sends, tag 0; nonblocking receives any tag, tag 0; waits.
pub fn case_7() -> Sheet {
    let waits = [Operation::wait(0), Operation::wait(1)];
    let sends = [
        Operation::send(STANDARD, 1, 0, 0, 3).nonblocking(0),
        Operation::send(STANDARD, 1, 0, 3, 2).nonblocking(1),
    ];
    let receives = [
        Operation::receive(0, ANY, 0, 4).nonblocking(0),
        Operation::receive(0, 0, 4, 4).nonblocking(1),
    ];
    job(&[&[sends, waits].concat(), &[receives, waits].concat()])
}

/// The progress example of document 002.
pub fn case_8() -> Sheet {
    let sends = [
        Operation::send(SYNCHRONOUS, 1, 0, 0, 3),
        Operation::send(STANDARD, 1, 1, 3, 2),
    ];
    let receives = [
        Operation::receive(0, 0, 0, 4).nonblocking(0),
        Operation::receive(0, 1, 4, 4),
        Operation::wait(0),
    ];
    job(&[&sends, &receives])
}

/// A ready send against a receive.
pub fn case_9() -> Sheet {
    job(&[&[send(READY, 1, 0)], &[receive(0, 0)]])
}

/// A synchronous send to oneself, on one board.
pub fn case_10() -> Sheet {
    job(&[&[send(SYNCHRONOUS, 0, 0)]])
}

/// The same with a nonblocking receive before it and a wait after.
pub fn case_10_received() -> Sheet {
    job(&[&[
        receive(0, 0).nonblocking(0),
        send(SYNCHRONOUS, 0, 0),
        Operation::wait(0),
    ]])
}

/// A message of `length` bytes against capacity 4.
pub fn case_11(length: u16) -> Sheet {
    let message = Operation::send(STANDARD, 1, 0, 0, length);
    job(&[&[message], &[receive(0, 0)]])
}

/// Ranks 0 and 1 send to 2, which receives twice from any source.
pub fn case_12() -> Sheet {
    let receives = [
        Operation::receive(ANY, 0, 0, 4),
        Operation::receive(ANY, 0, 4, 4),
    ];
    job(&[
        &[Operation::send(STANDARD, 2, 0, 0, 3)],
        &[Operation::send(STANDARD, 2, 0, 3, 2)],
        &receives,
    ])
}

/// A send on communicator 0 against a receive on communicator 1.
pub fn case_13_communicators() -> Sheet {
    let mut sheet = job(&[&[send(STANDARD, 1, 0)], &[receive(0, ANY).on(1)]]);
    sheet.communicators = 2;
    sheet
}

/// No operations.
pub fn case_13_nothing() -> Sheet {
    job(&[&[], &[]])
}

/// An empty buffered send.
pub fn case_13_empty_send(attached: u16) -> Sheet {
    job(&[&[Operation::send(BUFFERED, 1, 0, 0, 0)], &[]]).attach(0, attached)
}

/// One board with this many operations: 512 empty buffered sends to itself,
/// which fill the largest buffer, their receives, and so on.
pub fn case_14_operations(operations: usize) -> Sheet {
    let operation = |index: usize| match index / 512 % 2 {
        0 => Operation::send(BUFFERED, 0, 0, 0, 0),
        _ => Operation::receive(0, 0, 0, 0),
    };
    let script = (0..operations).map(operation).collect();
    Sheet {
        edition: Edition::First,
        communicators: 1,
        boards: vec![Board {
            attached: 16_384,
            script,
            ..Board::default()
        }],
        payload: Vec::new(),
    }
}

/// A send with this tag.
pub fn case_14_tag(tag: u16) -> Sheet {
    job(&[&[send(STANDARD, 1, tag)], &[]])
}

/// A nonblocking receive in this slot, and its wait.
pub fn case_14_slot(slot: u16) -> Sheet {
    let received = [receive(1, 0).nonblocking(slot), Operation::wait(slot)];
    job(&[&received, &[send(STANDARD, 0, 0)]])
}

/// The same without the wait, which document 02's request K7 refuses.
pub fn case_14_slot_forgotten(slot: u16) -> Sheet {
    let mut sheet = case_14_slot(slot);
    sheet.boards[0].script.pop();
    sheet
}

/// The name and sheet of every bench job that *check* accepts.
pub fn accepted() -> Vec<(&'static str, Sheet)> {
    vec![
        ("1", case_1()),
        ("2", case_2()),
        ("3", case_3(3 + 32)),
        ("3, attached one byte short", case_3(3 + 31)),
        ("4", case_4()),
        ("5", case_5()),
        ("6", case_6()),
        ("6, rooms that cover", case_6_in_rooms([3, 3])),
        ("6, rooms one byte short", case_6_in_rooms([2, 2])),
        ("6, rooms of 0", case_6_in_rooms([0, 0])),
        ("7", case_7()),
        ("8", case_8()),
        ("9", case_9()),
        ("10", case_10()),
        ("10, received", case_10_received()),
        ("11, length 5", case_11(5)),
        ("11, length 4", case_11(4)),
        ("12", case_12()),
        ("13, communicators", case_13_communicators()),
        ("13, no operations", case_13_nothing()),
        ("13, empty send", case_13_empty_send(0)),
        ("13, empty send, attached 31", case_13_empty_send(31)),
        ("13, empty send, attached 32", case_13_empty_send(32)),
        ("14, N 2,048", case_14_operations(2048)),
        ("14, tag 32,767", case_14_tag(32_767)),
        ("14, slot 31", case_14_slot(31)),
    ]
}
