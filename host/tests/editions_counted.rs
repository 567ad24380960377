//! The cases around the second edition and its rooms (document 02, K6) that the
//! differential test of calls counts, each on a sheet made by hand.

#[path = "common/all_made.rs"]
mod all_made;
#[path = "common/each_counts.rs"]
mod each_counts;
#[path = "common/in_rooms.rs"]
mod in_rooms;

use all_made::all_made;
use each_counts::Counted;
use in_rooms::in_rooms;
use jamturret_host::bench_jobs::{case_6, case_6_in_rooms};
use jamturret_host::command::found;
use jamturret_host::compare::{agreed, Call};
use jamturret_host::desk::{Desk, FILL};
use jamturret_host::editions::{called, CALLED};
use jamturret_host::layout::kind::{BUFFERED, READY, STANDARD};
use jamturret_host::sheet::{Operation, Sheet};

/// What is counted of a call in such rooms.
fn counted_in(sheet: &Sheet, call: &Call, change: impl Fn(&mut Desk)) -> Vec<&'static str> {
    let bytes = sheet.bytes();
    let mut before = Desk::for_sheet(&bytes);
    change(&mut before);
    let outcome = agreed(&bytes, call, &before);
    found(CALLED, called(&bytes, call, &outcome))
}

/// Each order counts what is said of it and nothing else; the names.
fn each_counts(all: &[Counted<Sheet>]) -> Vec<&'static str> {
    each_counts::each_counts(all, |sheet, order| {
        counted_in(sheet, &Call::Follow(order.to_vec()), |_| {})
    })
}

/// To rank 1, with tag 7.
fn send(kind: u8, length: u16) -> Operation {
    Operation::send(kind, 1, 7, 0, length)
}

fn standard(length: u16) -> Operation {
    send(STANDARD, length)
}

fn receive() -> Operation {
    Operation::receive(0, 7, 0, 4)
}

/// Rank 0 with this script and room; rank 1 receives twice.
fn two(script: &[Operation], room: u16) -> Sheet {
    in_rooms(&[script, &[receive(), receive()]], &[room, 0]).attach(0, 35)
}

fn no_buffer(sheet: Sheet) -> Sheet {
    sheet.attach(0, 0)
}

const BLOCKING: &str = "standard send in a room, blocking";
const AT_LARGE: &str = "verdict 0, a standard message in a room";
const RELEASED: &str = "standard use 0, and a peak";
const PEAK: &str = "standard peak is the room";
const FILLS: &str = "standard send fills a room";
const BESIDE: &str = "standard send in a room, beside another";
const WITHOUT: &str = "standard send without, blocking";
const MISSING: &str = "standard send without, one byte is missing";
const LONGER: &str = "standard send without, longer than the room";
const BUFFER: &str = "no room, the buffer would hold it";
const BOTH: &str = "both accounts of a board in use";
const AT_END: &str = "verdict 1, a standard message in a room";
const STOPPED: &str = "stopped, a standard message in a room";

#[test]
fn sends_in_rooms_are_counted() {
    let held = standard(2).nonblocking(3);
    let waited = [held, Operation::wait(3)];
    let to_oneself = [Operation::send(STANDARD, 0, 7, 0, 2)];
    let again = "standard send in a room, used again";
    let behind = "standard send in a room, behind one without";
    let blocked = [standard(4).nonblocking(1), standard(2), Operation::wait(1)];
    let made = each_counts(&[
        (two(&[standard(2)], 3), &[0], &[BLOCKING, AT_LARGE]),
        (
            two(&waited, 3),
            &[0],
            &["standard send in a room, nonblocking", AT_LARGE],
        ),
        (
            in_rooms(&[&to_oneself], &[3]),
            &[0, 0],
            &[BLOCKING, "standard send in a room, to oneself", AT_END],
        ),
        (
            two(&[standard(2), standard(2)], 5),
            &[0, 0, 0],
            &[BLOCKING, BESIDE, AT_LARGE],
        ),
        (
            two(&[standard(2), standard(2)], 3),
            &[0, 0, 1, 0],
            &[BLOCKING, again, AT_LARGE],
        ),
        (
            no_buffer(two(&blocked, 3)),
            &[0, 0],
            &[
                BLOCKING,
                behind,
                MISSING,
                LONGER,
                "standard send without, nonblocking",
                AT_LARGE,
            ],
        ),
        (
            two(&[send(BUFFERED, 3), standard(2)], 3),
            &[0, 0, 0],
            &[
                BLOCKING,
                "standard send in a room, a buffer is in use",
                BOTH,
                AT_LARGE,
            ],
        ),
    ]);
    let last = "standard send in a room, a buffer is in use";
    all_made(&CALLED, BLOCKING, last, &made);
}

#[test]
fn full_rooms_and_empty_messages_are_counted() {
    let empty = "empty standard send in a room";
    let made = each_counts(&[
        (
            two(&[standard(3)], 3),
            &[0],
            &[BLOCKING, FILLS, PEAK, AT_LARGE],
        ),
        (two(&[standard(0)], 2), &[0], &[BLOCKING, empty, AT_LARGE]),
        (
            two(&[standard(0)], 1),
            &[0],
            &[
                BLOCKING,
                empty,
                "empty standard send in a room of 1",
                AT_LARGE,
            ],
        ),
        (
            two(&[standard(3), standard(0)], 3),
            &[0, 0, 0],
            &[
                BLOCKING,
                BESIDE,
                FILLS,
                empty,
                "empty standard send in a full room",
                PEAK,
                AT_LARGE,
            ],
        ),
    ]);
    all_made(&CALLED, FILLS, "empty standard send in a full room", &made);
}

#[test]
fn sends_without_room_are_counted() {
    let held = [standard(3).nonblocking(3), Operation::wait(3)];
    let to_oneself = [Operation::send(STANDARD, 0, 7, 0, 3)];
    let beside = "standard send without, beside another";
    let first = Sheet::of_scripts(&[&[standard(3)], &[receive()]], 16);
    let room_for_it = "standard send matched at once, room for it";
    let last = "empty standard send matched at once, room for it";
    let made = each_counts(&[
        (
            no_buffer(two(&[standard(3)], 2)),
            &[0],
            &[MISSING, LONGER, WITHOUT],
        ),
        (no_buffer(two(&[standard(4)], 2)), &[0], &[LONGER, WITHOUT]),
        (
            no_buffer(two(&[standard(2), standard(3)], 3)),
            &[0, 0, 0],
            &[BLOCKING, beside, WITHOUT, AT_LARGE],
        ),
        (
            two(&held, 1),
            &[0],
            &[LONGER, "standard send without, nonblocking", BUFFER],
        ),
        (
            in_rooms(&[&to_oneself], &[1]),
            &[0],
            &[LONGER, WITHOUT, "standard send without, to oneself"],
        ),
        (
            two(&[standard(3)], 0),
            &[0],
            &["standard send without, room 0"],
        ),
        (
            two(&[standard(0)], 0),
            &[0],
            &["empty standard send without, room 0"],
        ),
        (first.clone(), &[0], &["standard send without, edition 1"]),
        (first, &[1, 0], &[]),
        (two(&[standard(3)], 3), &[1, 0], &[room_for_it]),
        (
            two(&[standard(3)], 2),
            &[1, 0],
            &["standard send matched at once, no room"],
        ),
        (two(&[standard(3)], 0), &[1, 0], &[]),
        (two(&[standard(0)], 1), &[1, 0], &[last]),
    ]);
    all_made(&CALLED, MISSING, last, &made);
}

#[test]
fn accounts_and_verdicts_are_counted() {
    let overflows = [standard(2), send(BUFFERED, 3), send(BUFFERED, 3)];
    let not_ready = [standard(2), send(READY, 1)];
    let would_hold = "overflow, the room would hold it";
    let hangs = [Operation::probe(0, 6)];
    let made = each_counts(&[
        (two(&[standard(2)], 3), &[0, 1], &[BLOCKING, RELEASED]),
        (
            two(&[standard(2)], 2),
            &[0, 1],
            &[BLOCKING, FILLS, RELEASED, PEAK],
        ),
        (two(&[standard(2)], 3), &[0], &[BLOCKING, AT_LARGE]),
        (
            two(&overflows, 60),
            &[0; 5],
            &[BLOCKING, BOTH, would_hold, STOPPED],
        ),
        (two(&overflows, 36), &[0; 5], &[BLOCKING, BOTH, STOPPED]),
        (two(&not_ready, 3), &[0; 3], &[BLOCKING, STOPPED]),
        (
            two(&[standard(3)], 2),
            &[0],
            &[MISSING, LONGER, WITHOUT, BUFFER],
        ),
        (
            in_rooms(&[&[standard(2)], &[]], &[3, 0]),
            &[0, 0],
            &[BLOCKING, AT_END],
        ),
        (
            in_rooms(&[&[standard(2)], &hangs], &[3, 0]),
            &[0, 0],
            &[BLOCKING, "verdict 2, a standard message in a room"],
        ),
    ]);
    all_made(&CALLED, BOTH, STOPPED, &made);
}

#[test]
fn waits_queries_and_probes_are_counted() {
    let held = standard(2).nonblocking(3);
    let queried = [held, Operation::query(3), Operation::wait(3)];
    let nonblocking = "standard send in a room, nonblocking";
    let of_query = "query of one in a room, complete";
    let waited = "waited for while in a room";
    let told = "probe tells a standard message in a room";
    let made = each_counts(&[
        (
            in_rooms(&[&queried, &[]], &[3, 0]),
            &[0, 0, 0],
            &[nonblocking, AT_END, waited, of_query],
        ),
        (
            in_rooms(&[&queried, &[receive()]], &[1, 0]),
            &[0, 0],
            &[
                MISSING,
                LONGER,
                "standard send without, nonblocking",
                "query of one that found no room, not complete",
            ],
        ),
        (
            in_rooms(&[&queried, &[receive()]], &[0, 0]),
            &[0, 0],
            &[
                "standard send without, room 0",
                "query of one with room 0, not complete",
            ],
        ),
        (
            in_rooms(&[&[standard(2)], &[Operation::probe(0, 7)]], &[3, 0]),
            &[0, 1],
            &[BLOCKING, AT_LARGE, told],
        ),
    ]);
    all_made(&CALLED, waited, told, &made);
}

#[test]
fn calls_are_counted() {
    let sheet = case_6_in_rooms([3, 3]);
    let none = Call::Follow(Vec::new());
    let first = "8 at place 2, room for edition 1's report";
    let short = "8 at place 2, one byte short, edition 2";
    // 16+8P+12N and 16+12P+12N.
    for (length, names) in [
        (79, &[][..]),
        (80, &[first]),
        (86, &[first]),
        (87, &[first, short]),
        (88, &[]),
        (89, &["report room longer than edition 2's"]),
    ] {
        let counted = counted_in(&sheet, &none, |desk| desk.report.resize(length, FILL));
        assert_eq!(counted, names, "{length} bytes");
    }
    let emptied: [(fn(&mut Desk), &str); 3] = [
        (|desk| desk.inbox.clear(), "8 at place 1, edition 2"),
        (|desk| desk.order_out.clear(), "8 at place 3, edition 2"),
        (|desk| desk.scratch.clear(), "8 at place 4, edition 2"),
    ];
    for (change, name) in emptied {
        assert_eq!(counted_in(&sheet, &Call::Run, change), [name]);
        assert!(counted_in(&case_6(), &Call::Run, change).is_empty());
    }
    let refused = counted_in(&sheet, &Call::Follow(vec![2]), |_| {});
    assert_eq!(refused, ["refused 9, edition 2"]);
}

#[test]
fn runs_are_counted() {
    let run = |rooms| {
        let names = counted_in(&case_6_in_rooms(rooms), &Call::Run, |_| {});
        let of_runs = |name: &&str| name.starts_with("run");
        names.into_iter().filter(of_runs).collect::<Vec<_>>()
    };
    assert_eq!(run([0, 0]), ["run of edition 2, all rooms 0"]);
    assert_eq!(run([3, 0]), ["run finishes, without rooms it hangs"]);
    assert_eq!(run([2, 2]), ["run hangs, rooms or not"]);
    // It finishes either way.
    let sheet = in_rooms(&[&[standard(2)], &[receive()]], &[3, 0]);
    let counted = counted_in(&sheet, &Call::Run, |_| {});
    assert_eq!(counted, [BLOCKING, RELEASED]);
}
