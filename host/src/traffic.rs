//! The jobs that are timed, and that the tests use as large jobs: ring and
//! all-to-one traffic of empty blocking buffered sends and their receives on
//! sixteen boards, both also with probes (document 02, K9), a ring of standard
//! sends in rooms (K6), and messages of 4,096 bytes. Each is made of a number of
//! operations, a multiple of 32.

use crate::layout::kind::{BUFFERED, STANDARD};
use crate::layout::{Edition, BSEND_OVERHEAD, MOST_BOARDS, MOST_COMMUNICATORS};
use crate::layout::{MOST_LENGTH, MOST_OPERATIONS, MOST_PAYLOAD};
use crate::sheet::{Board, Operation, Sheet};

/// All of them. Nothing waits long in the rings but the second, and in the last
/// two; in the others half of the operations are pending at once.
pub const SHAPES: [(&str, fn(usize) -> Sheet); 8] = [
    ("ring", ring),
    ("ring, sends first", ring_sends_first),
    ("ring, probes before receives", ring_probed),
    ("ring, standard sends in rooms", ring_in_rooms),
    ("all to one", all_to_one),
    ("all to one beside a probe", all_to_one_beside_probe),
    ("messages of 4,096 bytes", heavy),
    ("the same, cut to 2,048 bytes", heavy_cut),
];

fn empty_send(to: usize) -> Operation {
    Operation::send(BUFFERED, to as u16, 0, 0, 0)
}

fn empty_receive(from: usize) -> Operation {
    Operation::receive(from as u16, 0, 0, 0)
}

/// Each board has attached what its empty messages cost.
fn of_scripts(scripts: Vec<Vec<Operation>>) -> Sheet {
    let scripts: Vec<&[Operation]> = scripts.iter().map(Vec::as_slice).collect();
    let mut sheet = Sheet::of_scripts(&scripts, 0);
    for board in &mut sheet.boards {
        let sends = board.script.iter().filter(|each| each.kind == BUFFERED);
        board.attached = (BSEND_OVERHEAD * sends.count()) as u16;
    }
    sheet
}

/// Each board sends to the next and receives from the one before, in turn.
pub fn ring(operations: usize) -> Sheet {
    of_scripts(ring_scripts(operations, |send, receive, count| {
        [send, receive].repeat(count / 2)
    }))
}

/// The same with a probe before each receive, but for the last ones, which make
/// up the number.
pub fn ring_probed(operations: usize) -> Sheet {
    of_scripts(ring_scripts(operations, |send, receive, count| {
        let probe = Operation::probe(receive.peer, receive.tag);
        // Both numbers are even.
        let probed = count / 6 * 2;
        let rest = (count - 3 * probed) / 2;
        let first = [send, probe, receive].repeat(probed);
        [first, [send, receive].repeat(rest)].concat()
    }))
}

/// The bytes of a message in a room.
const IN_ROOM: u16 = 8;

/// The same with standard sends of some bytes. The rooms cover them all; without
/// them the first sends of all boards would wait for each other.
pub fn ring_in_rooms(operations: usize) -> Sheet {
    let scripts = ring_scripts(operations, |send, receive, count| {
        let send = Operation {
            kind: STANDARD,
            length: IN_ROOM,
            ..send
        };
        let receive = Operation {
            length: IN_ROOM,
            ..receive
        };
        [send, receive].repeat(count / 2)
    });
    let scripts: Vec<&[Operation]> = scripts.iter().map(Vec::as_slice).collect();
    let sheet = Sheet::of_scripts(&scripts, IN_ROOM);
    let rooms = sheet.boards.iter().map(|board| board.standard_lengths());
    let rooms: Vec<u16> = rooms.map(|room| room as u16).collect();
    sheet.with_rooms(&rooms)
}

/// The longest sheet there is, in edition 2 with all numbers at their limits:
/// the same with the most operations, communicators and payload.
pub fn longest() -> Sheet {
    Sheet {
        communicators: MOST_COMMUNICATORS as u16,
        payload: full_payload(),
        ..ring_in_rooms(MOST_OPERATIONS)
    }
}

/// The same with all sends of a board before its receives, so that half of
/// the operations are pending at once.
pub fn ring_sends_first(operations: usize) -> Sheet {
    of_scripts(ring_scripts(operations, |send, receive, count| {
        [vec![send; count / 2], vec![receive; count / 2]].concat()
    }))
}

/// The script of each board: of its send, its receive and how many operations
/// it has.
fn ring_scripts(
    operations: usize,
    script: impl Fn(Operation, Operation, usize) -> Vec<Operation>,
) -> Vec<Vec<Operation>> {
    let count = operations / MOST_BOARDS;
    let board = |rank: usize| {
        let next = (rank + 1) % MOST_BOARDS;
        let before = (rank + MOST_BOARDS - 1) % MOST_BOARDS;
        script(empty_send(next), empty_receive(before), count)
    };
    (0..MOST_BOARDS).map(board).collect()
}

/// The others send to rank 15, as evenly as it goes; it receives the highest
/// sender's first.
pub fn all_to_one(operations: usize) -> Sheet {
    of_scripts(all_to_one_scripts(0, operations / 2))
}

/// The same without rank 0, which all the while stands at a probe: rank 15
/// sends to it before it receives its last message. Run asks it before each
/// step whether it is able.
pub fn all_to_one_beside_probe(operations: usize) -> Sheet {
    let one = MOST_BOARDS - 1;
    let mut scripts = all_to_one_scripts(1, (operations - 4) / 2);
    let probe = Operation::probe(one as u16, 0);
    scripts[0] = vec![probe, probe, empty_receive(one)];
    let last = scripts[one].len() - 1;
    scripts[one].insert(last, empty_send(0));
    of_scripts(scripts)
}

/// The senders are the ranks from `first` on.
fn all_to_one_scripts(first: usize, messages: usize) -> Vec<Vec<Operation>> {
    let one = MOST_BOARDS - 1;
    let senders = one - first;
    let share = |rank: usize| match rank.checked_sub(first) {
        Some(place) => messages / senders + usize::from(place < messages % senders),
        None => 0,
    };
    let mut scripts: Vec<Vec<Operation>> = (0..one)
        .map(|rank| vec![empty_send(one); share(rank)])
        .collect();
    let receives = (0..one)
        .rev()
        .flat_map(|rank| vec![empty_receive(rank); share(rank)]);
    scripts.push(receives.collect());
    scripts
}

/// Four boards send messages of 4,096 bytes to four others.
pub fn heavy(operations: usize) -> Sheet {
    heavy_into(MOST_LENGTH, operations)
}

/// The same, each message cut to half of it.
pub fn heavy_cut(operations: usize) -> Sheet {
    heavy_into(MOST_LENGTH / 2, operations)
}

fn heavy_into(capacity: u16, operations: usize) -> Sheet {
    const PAIRS: usize = 4;
    let messages = operations / (2 * PAIRS);
    let mut boards = Vec::new();
    for rank in 0..PAIRS {
        let stretch = |message: usize| ((message % 4) * usize::from(MOST_LENGTH)) as u16;
        let to = (rank + PAIRS) as u16;
        let send = |message| Operation::send(STANDARD, to, 0, stretch(message), MOST_LENGTH);
        boards.push(Board {
            script: (0..messages).map(send).collect(),
            ..Board::default()
        });
    }
    for rank in 0..PAIRS {
        boards.push(Board {
            inbox: MOST_LENGTH,
            script: vec![Operation::receive(rank as u16, 0, 0, capacity); messages],
            ..Board::default()
        });
    }
    Sheet {
        edition: Edition::First,
        communicators: 1,
        boards,
        payload: full_payload(),
    }
}

/// The most payload, of different bytes.
pub fn full_payload() -> Vec<u8> {
    (0..MOST_PAYLOAD)
        .map(|at| (at * 7 + at / 256) as u8)
        .collect()
}
