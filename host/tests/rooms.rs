//! Rooms for standard sends (document 02, K6), under *follow* and *run* of the
//! library and both judges, on sheets made by hand: who is buffered, what is
//! charged, and the rows of the report.

#[path = "common/in_rooms.rs"]
mod in_rooms;

use in_rooms::in_rooms;
use jamturret::lent::Answer;
use jamturret_host::bench_jobs::{case_6, case_6_in_rooms};
use jamturret_host::command::hex;
use jamturret_host::compare::{self, agreed, Call};
use jamturret_host::desk::{Desk, FILL};
use jamturret_host::layout::board_row::{IN_USE, PEAK, STANDARD_PEAK, STANDARD_USE};
use jamturret_host::layout::kind::{BUFFERED, READY, STANDARD, SYNCHRONOUS};
use jamturret_host::layout::{word, ANY};
use jamturret_host::sheet::{Operation, Sheet};

const FINISHED: u8 = 1;
const DEADLOCK: u8 = 2;
const OVERFLOW: u8 = 3;
const NOT_READY: u8 = 4;

const PENDING: u8 = 1;
const IN_ROOM: u8 = 2;
const MATCHED: u8 = 3;

fn run(sheet: &Sheet) -> Desk {
    compare::ran(&sheet.bytes())
}

fn follow(sheet: &Sheet, order: &[u8]) -> Desk {
    compare::followed(&sheet.bytes(), order)
}

fn refused(sheet: &Sheet, order: &[u8], index: u64) {
    compare::refused(&sheet.bytes(), order, index);
}

/// Standard use and peak.
fn standard(desk: &Desk, rank: usize) -> [usize; 2] {
    [STANDARD_USE, STANDARD_PEAK].map(|place| desk.figure(rank, place))
}

/// Buffer in use and peak.
fn attached(desk: &Desk, rank: usize) -> [usize; 2] {
    [IN_USE, PEAK].map(|place| desk.figure(rank, place))
}

fn states(desk: &Desk) -> Vec<u8> {
    let operations = 0..usize::from(word(&desk.report, 8));
    operations.map(|index| desk.row(index)[0]).collect()
}

fn pending_messages(desk: &Desk) -> u16 {
    word(&desk.report, 10)
}

/// To rank 1, with tag 7.
fn send(kind: u8, length: u16) -> Operation {
    Operation::send(kind, 1, 7, 0, length)
}

fn receive() -> Operation {
    Operation::receive(0, 7, 0, 4)
}

#[test]
fn whole_report() {
    let ran = run(&case_6_in_rooms([3, 3]));
    // Rank 0's message was in its room; rank 1's met a posted receive.
    let expected = "01 FF FF FF 08 00 02 00 04 00 00 00 00 00 00 00 \
                    02 00 00 00 00 00 02 00 00 00 03 00 \
                    02 00 00 00 00 00 02 00 00 00 00 00 \
                    03 00 03 00 FF FF FF FF 00 00 00 00 \
                    03 00 02 00 01 00 00 00 03 00 00 00 \
                    03 00 01 00 FF FF FF FF 00 00 00 00 \
                    03 00 00 00 00 00 00 00 03 00 00 00";
    assert_eq!(hex(&ran.report), expected);
    assert_eq!(ran.order(), [0, 0, 0, 1, 0, 1, 1, 1]);
    assert_eq!(ran.inbox[16..20], [1, 2, 3, FILL]);

    let sent = follow(&case_6_in_rooms([3, 4]), &[0, 1]);
    assert_eq!(
        sent.report[16..40],
        [
            [0, 0, 0, 0, 0, 0, 1, 0, 3, 0, 3, 0],
            [0, 0, 0, 0, 0, 0, 1, 0, 3, 0, 3, 0]
        ]
        .concat()
    );
    let in_room = [IN_ROOM, 0, 255, 255, 255, 255, 255, 255, 0, 0, 0, 0];
    assert_eq!((sent.row(0), sent.row(2)), (&in_room[..], &in_room[..]));
    assert_eq!((sent.verdict(), pending_messages(&sent)), (0, 2));
}

/// Document 01, bench job 6: it finishes when both rooms cover the messages. One
/// that covers is enough.
#[test]
fn case_6_with_rooms() {
    assert_eq!(run(&case_6()).verdict(), DEADLOCK);
    for (rooms, verdict) in [
        ([3, 3], FINISHED),
        ([16_384, 4], FINISHED),
        ([3, 0], FINISHED),
        ([2, 3], FINISHED),
        ([2, 2], DEADLOCK),
        ([1, 0], DEADLOCK),
        ([0, 0], DEADLOCK),
    ] {
        let ran = run(&case_6_in_rooms(rooms));
        assert_eq!(ran.verdict(), verdict, "{rooms:?}");
        if verdict == DEADLOCK {
            assert_eq!(ran.order(), [0, 1], "{rooms:?}");
            assert_eq!(states(&ran), [PENDING, 0, PENDING, 0]);
            assert_eq!([standard(&ran, 0), standard(&ran, 1)], [[0, 0]; 2]);
        }
    }
}

/// The length counts, beside what is in use; no overhead is charged.
#[test]
fn fits_beside_what_is_in_use() {
    let script = [send(STANDARD, 3), send(STANDARD, 2)];
    for (room, second) in [(4, PENDING), (5, IN_ROOM), (6, IN_ROOM)] {
        let sheet = in_rooms(&[&script, &[]], &[room, 0]);
        let sent = run(&sheet);
        assert_eq!(states(&sent), [IN_ROOM, second], "room {room}");
        let bytes = if second == IN_ROOM { 5 } else { 3 };
        assert_eq!(standard(&sent, 0), [bytes; 2], "room {room}");
        assert_eq!(pending_messages(&sent), 2);
        let verdict = if second == IN_ROOM {
            FINISHED
        } else {
            DEADLOCK
        };
        assert_eq!(sent.verdict(), verdict, "room {room}");
    }
}

/// Room 0 buffers nothing, empty messages included; any other room holds them,
/// full or not.
#[test]
fn empty_messages() {
    let empty = [send(STANDARD, 0)];
    for (room, state) in [(0, PENDING), (1, IN_ROOM), (16_384, IN_ROOM)] {
        let sent = run(&in_rooms(&[&empty, &[]], &[room, 0]));
        assert_eq!(states(&sent), [state], "room {room}");
        assert_eq!(standard(&sent, 0), [0, 0]);
    }
    let script = [send(STANDARD, 3), send(STANDARD, 0), send(STANDARD, 1)];
    let full = run(&in_rooms(&[&script, &[]], &[3, 0]));
    assert_eq!(states(&full), [IN_ROOM, IN_ROOM, PENDING]);
    assert_eq!(standard(&full, 0), [3, 3]);
    assert_eq!(run(&case_6().with_room(0)).verdict(), DEADLOCK);
}

/// The charge goes with the match, and the room is there for the next message.
#[test]
fn room_is_used_again() {
    let sends = [send(STANDARD, 3), send(STANDARD, 2)];
    let sheet = in_rooms(&[&sends, &[receive(), receive()]], &[3, 0]);
    // Rank 1 has received the first before the second is sent.
    let freed = follow(&sheet, &[0, 0, 1]);
    assert_eq!(states(&freed), [MATCHED, 0, MATCHED, 0]);
    assert_eq!(standard(&freed, 0), [0, 3]);
    let again = follow(&sheet, &[0, 0, 1, 0]);
    assert_eq!(states(&again), [MATCHED, IN_ROOM, MATCHED, 0]);
    assert_eq!(standard(&again, 0), [2, 3], "the peak stays");
    assert_eq!(again.able(), [0, 1]);
    // It has not.
    let full = follow(&sheet, &[0, 0, 0]);
    assert_eq!(states(&full), [IN_ROOM, PENDING, 0, 0]);
    assert_eq!(standard(&full, 0), [3, 3]);
    refused(&sheet, &[0, 0, 0, 0], 3);
    // A message that found no room is not taken into it later.
    let later = follow(&sheet, &[0, 0, 0, 1]);
    assert_eq!(states(&later), [MATCHED, PENDING, MATCHED, 0]);
    assert_eq!(standard(&later, 0), [0, 3]);
    refused(&sheet, &[0, 0, 0, 1, 0], 4);
}

/// A send that finds its receive is never charged.
#[test]
fn matched_at_once() {
    let sheet = in_rooms(&[&[send(STANDARD, 3)], &[receive()]], &[16, 0]);
    let met = follow(&sheet, &[1, 0]);
    assert_eq!(states(&met), [MATCHED, MATCHED]);
    assert_eq!(standard(&met, 0), [0, 0]);
    let waited = follow(&sheet, &[0, 1]);
    assert_eq!(standard(&waited, 0), [0, 3]);
    assert_eq!(met.without_peaks(), waited.without_peaks());
}

/// Attached buffer and room have an account each, and only their own kind.
#[test]
fn two_accounts() {
    let script = [send(BUFFERED, 3), send(STANDARD, 2), send(BUFFERED, 1)];
    let both = [receive(), receive(), receive()];
    let sheet = in_rooms(&[&script, &both], &[2, 0]).attach(0, 35 + 33);
    let sent = follow(&sheet, &[0, 0, 0, 0, 0]);
    assert_eq!(states(&sent), [2, IN_ROOM, 2, 0, 0, 0]);
    assert_eq!((attached(&sent, 0), standard(&sent, 0)), ([68; 2], [2; 2]));
    for (received, in_use) in [(1, [33, 2]), (2, [33, 0]), (3, [0, 0])] {
        let order = [&[0; 6][..], &[1, 1].repeat(received)].concat();
        let left = follow(&sheet, &order);
        let [buffer, room] = [attached(&left, 0), standard(&left, 0)];
        assert_eq!([buffer, room], [[in_use[0], 68], [in_use[1], 2]]);
    }
    // No room in the buffer: the other does not help.
    let stopped = run(&in_rooms(&[&[send(BUFFERED, 3)], &[]], &[16_384, 0]).attach(0, 34));
    assert_eq!((stopped.verdict(), stopped.row(0)[0]), (OVERFLOW, 0));
    let waits = run(&in_rooms(&[&[send(STANDARD, 3)], &[]], &[2, 0]).attach(0, 16_384));
    assert_eq!((waits.verdict(), waits.row(0)[0]), (DEADLOCK, PENDING));
    assert_eq!(attached(&waits, 0), [0, 0]);
}

/// Of the other modes nothing is put into a room.
#[test]
fn other_modes() {
    let synchronous = run(&in_rooms(&[&[send(SYNCHRONOUS, 0)], &[]], &[16, 0]));
    assert_eq!(
        (synchronous.verdict(), synchronous.row(0)[0]),
        (DEADLOCK, PENDING)
    );
    let ready = run(&in_rooms(&[&[send(READY, 0)], &[]], &[16, 0]));
    assert_eq!((ready.verdict(), ready.row(0)[0]), (NOT_READY, 0));
    // The room of the receiver is none for what it is sent.
    let other = run(&in_rooms(&[&[send(STANDARD, 1)], &[]], &[0, 16]));
    assert_eq!((other.verdict(), other.row(0)[0]), (DEADLOCK, PENDING));
}

/// A nonblocking one in a room is complete: its wait goes on and its query tells
/// 1; without room it is not.
#[test]
fn waits_and_queries() {
    let held = send(STANDARD, 3).nonblocking(4);
    let script = [held, Operation::query(4), Operation::wait(4)];
    for (room, complete) in [(0, 0), (2, 0), (3, 1)] {
        let ran = run(&in_rooms(&[&script, &[]], &[room, 0]));
        assert_eq!(word(ran.row(1), 8), complete, "room {room}");
        let verdict = if complete == 1 { FINISHED } else { DEADLOCK };
        assert_eq!(
            (ran.verdict(), ran.steps()),
            (verdict, 2 + usize::from(complete))
        );
        assert_eq!(pending_messages(&ran), 1);
    }
}

/// To oneself: in edition 1 a blocking one waits for a receive that never comes.
#[test]
fn to_oneself() {
    let script = [
        Operation::send(STANDARD, 0, 7, 0, 3),
        Operation::receive(0, 7, 4, 4),
    ];
    for (room, verdict) in [(0, DEADLOCK), (2, DEADLOCK), (3, FINISHED)] {
        let ran = run(&in_rooms(&[&script], &[room]));
        assert_eq!(ran.verdict(), verdict, "room {room}");
        let expected = if verdict == FINISHED { 1 } else { FILL };
        assert_eq!(ran.inbox[4], expected);
    }
}

/// A probe tells a message in a room and leaves it there; the receive behind it
/// takes it out, cut to its capacity.
#[test]
fn probed_and_cut() {
    let script = [Operation::probe(0, ANY), Operation::receive(0, 7, 0, 2)];
    let sheet = in_rooms(&[&[send(STANDARD, 3)], &script], &[3, 0]);
    let probed = follow(&sheet, &[0, 1]);
    assert_eq!(probed.row(1), [5, 0, 255, 255, 0, 0, 7, 0, 3, 0, 0, 0]);
    assert_eq!((probed.row(0)[0], standard(&probed, 0)), (IN_ROOM, [3, 3]));
    let taken = follow(&sheet, &[0, 1, 1]);
    assert_eq!(taken.row(2), [MATCHED, 1, 0, 0, 0, 0, 7, 0, 3, 0, 0, 0]);
    assert_eq!(standard(&taken, 0), [0, 3]);
    assert_eq!(taken.inbox[16..19], [1, 2, FILL]);
}

/// Messages of a room and of a buffer are received in the order of their arrival.
#[test]
fn arrival_goes_before_the_kind() {
    let sends = [send(STANDARD, 1), send(BUFFERED, 2), send(STANDARD, 3)];
    let receives = [0, 4, 8].map(|offset| Operation::receive(0, ANY, offset, 4));
    let sheet = in_rooms(&[&sends, &receives], &[4, 0]).attach(0, 34);
    let ran = run(&sheet);
    assert_eq!(ran.verdict(), FINISHED);
    let partners = [0, 1, 2].map(|index| word(ran.row(index), 2));
    assert_eq!(partners, [3, 4, 5]);
}

/// Refusal 8 reads the report of edition 2: 16+12P+12N bytes.
#[test]
fn report_room() {
    let sheet = case_6_in_rooms([3, 3]).bytes();
    let (first, second) = (16 + 8 * 2 + 12 * 4, 16 + 12 * 2 + 12 * 4);
    for call in [Call::Run, Call::Follow(vec![0, 1])] {
        for length in [0, first - 1, first, second - 1, second, second + 1] {
            let mut before = Desk::for_sheet(&sheet);
            before.report.resize(length, FILL);
            let outcome = agreed(&sheet, &call, &before);
            let expected = match length < second {
                true => Answer::refusal(8, 2),
                false => Answer::SUCCESS,
            };
            assert_eq!(outcome.answer, expected, "{call}, {length} bytes");
            // What lies behind keeps its value.
            assert_eq!(outcome.desk.report.get(second), before.report.get(second));
        }
        let mut narrow = Desk::for_sheet(&case_6().bytes());
        narrow.report.truncate(first);
        let outcome = agreed(&case_6().bytes(), &call, &narrow);
        assert_eq!(outcome.answer, Answer::SUCCESS, "edition 1, {call}");
    }
}

/// Why demand 3 asks for rooms that cover all or nothing: whether the second
/// message finds room is a matter of when the first is received.
#[test]
fn order_matters_where_a_room_covers_some() {
    let sends = [send(STANDARD, 3), Operation::send(STANDARD, 2, 7, 0, 3)];
    let scripts: [&[Operation]; 3] = [&sends, &[receive()], &[]];
    let [late, early] = [[0, 0, 0, 1, 1, 0], [0, 0, 1, 1, 0, 0]];
    let some = in_rooms(&scripts, &[3, 0, 0]);
    assert_eq!(follow(&some, &late[..5]).verdict(), DEADLOCK);
    refused(&some, &late, 5);
    assert_eq!(follow(&some, &early).verdict(), FINISHED);
    let all = in_rooms(&scripts, &[6, 0, 0]);
    let [one, other] = [late, early].map(|order| follow(&all, &order));
    assert_eq!(one.without_peaks(), other.without_peaks());
    assert_ne!(one.report, other.report, "the peaks differ");
    assert_eq!([standard(&one, 0), standard(&other, 0)], [[3, 6], [3, 3]]);
}
