//! Requests that are forgotten (document 02, K7), under *follow* and *run* of
//! the library and both judges; the promise No-request-left; and the cases that
//! the differential tests count, each on a sheet made by hand.

use jamturret::lent::Answer;
use jamturret_host::command::found as names;
use jamturret_host::compare::{agreed, ran, Call};
use jamturret_host::desk::Desk;
use jamturret_host::layout::kind::{BUFFERED, READY, STANDARD};
use jamturret_host::layout::{word, Edition, ANY};
use jamturret_host::requests_left::{asked, called, no_request_left, ASKED, CALLED};
use jamturret_host::sheet::{set_word, Operation, Sheet};
use jamturret_host::{bench_jobs, judge};

fn send() -> Operation {
    Operation::send(STANDARD, 1, 0, 0, 3)
}

fn buffered() -> Operation {
    Operation::send(BUFFERED, 1, 7, 0, 3)
}

fn receive() -> Operation {
    Operation::receive(0, 0, 0, 4)
}

fn wait(slot: u16) -> Operation {
    Operation::wait(slot)
}

/// Inboxes of 16 bytes, and room for one buffered message on rank 0.
fn sheet(scripts: &[&[Operation]]) -> Vec<u8> {
    Sheet::of_scripts(scripts, 16).attach(0, 3 + 32).bytes()
}

fn calls() -> [Call; 4] {
    [
        Call::Run,
        Call::Follow(Vec::new()),
        Call::Follow(vec![1, 0]),
        Call::Follow(vec![0, 9]),
    ]
}

/// Whatever is lent, and whatever the order is.
#[test]
fn refused_sheets_leave_every_room() {
    let one = bench_jobs::case_14_slot_forgotten(31).bytes();
    let two = sheet(&[&[send()], &[receive().nonblocking(0), send()]]);
    for (sheet, place) in [(one, 0), (two, 1)] {
        let enough = Desk::for_sheet(&sheet);
        let none = Desk {
            edition: Edition::First,
            inbox: Vec::new(),
            report: Vec::new(),
            order_out: Vec::new(),
            scratch: vec![1; 65_535],
        };
        for before in [enough, none] {
            for call in calls() {
                let outcome = agreed(&sheet, &call, &before);
                assert_eq!(outcome.answer, Answer::refusal(7, place), "{call}");
                assert_eq!(outcome.desk, before, "{call}");
            }
        }
    }
}

/// Rank 0 sends buffered and standard, waits for both; rank 1 receives the
/// second.
fn finished_job() -> Vec<u8> {
    let sends = [
        buffered().nonblocking(1),
        send().nonblocking(0),
        wait(0),
        wait(1),
    ];
    sheet(&[&sends, &[receive().nonblocking(0), wait(0)]])
}

/// Where the row of an operation starts in a report on two boards.
fn row(index: usize) -> usize {
    Edition::First.operation_row_at(2, index)
}

#[test]
fn promise_can_fail() {
    let sheet = finished_job();
    let before = Desk::for_sheet(&sheet);
    let report = agreed(&sheet, &Call::Run, &before).desk.report;
    let states: Vec<u8> = (0..6).map(|index| report[row(index)]).collect();
    assert_eq!((report[0], &states[..]), (1, &[2, 3, 5, 5, 3, 5][..]));
    assert_eq!(no_request_left(&sheet, &report), Ok(()));

    // Operation 0 is the buffered send, 1 the standard one, 4 the receive.
    for (index, state, kept) in [
        (0, 1, false),
        (0, 0, false),
        (0, 3, true),
        (1, 1, false),
        (1, 2, false),
        (2, 0, false),
        (4, 1, false),
        (4, 2, false),
        (5, 0, false),
    ] {
        let mut other = report.clone();
        other[row(index)] = state;
        let said = no_request_left(&sheet, &other);
        assert_eq!(said.is_ok(), kept, "state {state} of {index}");
        other[0] = 2;
        assert_eq!(no_request_left(&sheet, &other), Ok(()), "another verdict");
    }
    let mut counted = report.clone();
    set_word(&mut counted, 12, 1);
    assert!(no_request_left(&sheet, &counted).is_err());
}

/// A standard message may be left in a room, and only of a board that has one
/// (document 02, K6).
#[test]
fn message_in_a_room_is_kept() {
    let script = [send().nonblocking(1), wait(1)];
    let sheet = Sheet::of_scripts(&[&script, &[]], 16).with_rooms(&[3, 0]);
    let bytes = sheet.bytes();
    let report = ran(&bytes).report;
    let state = Edition::Second.operation_row_at(2, 0);
    assert_eq!((report[0], report[state]), (1, 2));
    assert_eq!(no_request_left(&bytes, &report), Ok(()));
    let none = sheet.with_room(0).bytes();
    assert!(no_request_left(&none, &report).is_err());
    let mut other = report.clone();
    other[state] = 1;
    assert!(no_request_left(&bytes, &other).is_err());
}

/// What is counted of our judge's answers to these scripts.
fn counted(scripts: &[&[Operation]]) -> Vec<&'static str> {
    counted_of(&sheet(scripts))
}

fn counted_of(sheet: &[u8]) -> Vec<&'static str> {
    let found = asked(sheet, judge::check(sheet), judge::premise(sheet));
    names(ASKED, found)
}

#[test]
fn forgotten_requests_are_counted() {
    assert_eq!(
        counted(&[&[send().nonblocking(3), send()], &[]]),
        [
            "forgotten, a send",
            "forgotten on the first of several boards"
        ]
    );
    assert_eq!(
        counted(&[&[], &[receive().nonblocking(0)]]),
        [
            "forgotten, a receive",
            "forgotten on the last of several boards",
            "forgotten, the last of its script",
            "forgotten, slot 0"
        ]
    );
    let again = [send().nonblocking(31), wait(31), send().nonblocking(31)];
    assert_eq!(
        counted(&[&[], &again, &[]]),
        [
            "forgotten, a send",
            "forgotten after the slot was freed once",
            "forgotten, the last of its script",
            "forgotten, slot 31"
        ]
    );
    let two = [send().nonblocking(1), send().nonblocking(2), send()];
    let waited = [send().nonblocking(1), wait(1)];
    assert_eq!(
        counted(&[&[], &two, &waited, &two]),
        [
            "forgotten, a send",
            "forgotten, two of a board",
            "forgotten, of two boards",
            "forgotten, a wait on another board only"
        ]
    );
    let all: Vec<Operation> = (0..32).map(|slot| send().nonblocking(slot)).collect();
    let others = vec![send(); 1024];
    assert_eq!(
        counted(&[&others, &all, &[]]),
        [
            "forgotten, a send",
            "forgotten, two of a board",
            "forgotten, slot 0",
            "forgotten, all 32 slots of a board",
            "forgotten from operation 1,024 on"
        ]
    );
}

/// The same of a script beside a board that has none.
fn alone(script: &[Operation]) -> Vec<&'static str> {
    counted(&[script, &[]])
}

#[test]
fn other_rules_before_are_counted() {
    let forgotten = send().nonblocking(9);
    let twice = [send().nonblocking(1), send().nonblocking(1), wait(1)];
    let shared = [receive().nonblocking(1), receive(), wait(1)];
    // Nothing but the slot that is taken twice is left.
    assert!(alone(&twice[..2]).is_empty());
    assert!(alone(&shared).is_empty());
    let behind = |script: &[Operation]| [&[forgotten], script].concat();
    let name = "not told before a slot taken twice";
    assert_eq!(alone(&behind(&twice)), [name]);
    let name = "not told before a wait for a free slot";
    assert_eq!(alone(&behind(&[wait(0)])), [name]);
    let later = "not told before a slot of a later board";
    assert_eq!(counted(&[&[forgotten], &[send(), wait(9)]]), [name, later]);
    let name = "not told before an area of its board";
    assert_eq!(alone(&behind(&shared)), [name]);
    assert_eq!(alone(&shared[..2]), [name]);
    let name = "not told before an area of a later board";
    assert_eq!(counted(&[&[forgotten], &shared]), [name]);
    let name = "not told behind a broken slot or area";
    assert_eq!(counted(&[&shared, &[forgotten]]), [name]);
    let name = "not told before a wrong field";
    let wrong = Operation { zero: 1, ..send() };
    assert_eq!(alone(&behind(&[wrong])), [name]);
    assert!(alone(&[wrong, forgotten]).is_empty());
}

#[test]
fn accepted_sheets_are_counted() {
    let one = send().nonblocking(0);
    let ends = "accepted, a wait ends a script";
    assert_eq!(alone(&[one, wait(0)]), [ends]);
    assert!(alone(&[one, wait(0), send()]).is_empty());
    let again = "accepted, a slot taken again";
    let twice = [one, wait(0), one, wait(0), send()];
    assert_eq!(alone(&twice), [again]);
    let all = (0..32).map(|slot| send().nonblocking(slot));
    let all: Vec<Operation> = all.chain((0..32).map(wait)).collect();
    let at_once = "accepted, all 32 slots held at once";
    assert_eq!(alone(&all), [ends, at_once]);
}

#[test]
fn premise_is_counted() {
    let any_source = Operation {
        peer: ANY,
        ..receive()
    };
    let ready = Operation::send(READY, 0, 0, 0, 0);
    let longer = Operation {
        length: 4,
        ..buffered()
    };
    for (operation, name) in [
        (any_source, Some("premise, forgotten and not 20")),
        (ready, Some("premise, forgotten and not 21")),
        (longer, Some("premise, forgotten and not 22")),
        (Operation::query(1), Some("premise, forgotten and not 23")),
        (buffered(), None),
    ] {
        let script = [send().nonblocking(1), operation];
        assert_eq!(of_premise(&sheet(&[&script, &[]])), name);
    }
    let forgotten = [send().nonblocking(1)];
    let in_rooms = Sheet::of_scripts(&[&forgotten, &[]], 16);
    for (room, name) in [
        (2, Some("premise, forgotten and not 24")),
        (3, None),
        (0, None),
    ] {
        let sheet = in_rooms.clone().with_room(room).bytes();
        assert_eq!(of_premise(&sheet), name, "room {room}");
    }
}

/// The one case around premise's answer that is counted of these bytes, if any.
fn of_premise(sheet: &[u8]) -> Option<&'static str> {
    let found = counted_of(sheet).into_iter();
    let mut of_premise = found.filter(|name| name.starts_with("premise"));
    let first = of_premise.next();
    assert_eq!(of_premise.next(), None);
    first
}

/// What is counted of a call, and the verdict where there is one.
fn counted_call(sheet: &[u8], call: Call) -> (Option<u8>, Vec<&'static str>) {
    let outcome = agreed(sheet, &call, &Desk::for_sheet(sheet));
    let verdict = (outcome.answer == Answer::SUCCESS).then(|| outcome.desk.verdict());
    (verdict, names(CALLED, called(sheet, &call, &outcome)))
}

#[test]
fn calls_are_counted() {
    let forgotten = bench_jobs::case_14_slot_forgotten(31).bytes();
    let refused = counted_call(&forgotten, Call::Run);
    assert_eq!(refused, (None, vec!["run, forgotten"]));
    let order = Call::Follow(vec![0, 2]);
    let names = vec!["follow, forgotten", "forgotten, and the order is wrong"];
    assert_eq!(counted_call(&forgotten, order), (None, names));

    let sheet = finished_job();
    let names = vec![
        "run, verdict 1, slots were taken",
        "verdict 1, a buffered message is pending",
        "verdict 1, such a one was waited for",
    ];
    assert_eq!(counted_call(&sheet, Call::Run), (Some(1), names));
    let order = Call::Follow(vec![1]);
    let names = vec![
        "verdict 0, at the wait for a receive",
        "verdict 0, a receive is pending",
    ];
    assert_eq!(counted_call(&sheet, order), (Some(0), names));
    let order = Call::Follow(vec![0, 0]);
    let names = vec!["verdict 0, a message is pending"];
    assert_eq!(counted_call(&sheet, order), (Some(0), names));
}

#[test]
fn deadlocks_at_a_wait_are_counted() {
    let other = |tag| Operation { tag, ..receive() };
    let sends = [send().nonblocking(5), wait(5)];
    let receives = [other(3).nonblocking(6), wait(6)];
    let sheet = sheet(&[&sends, &receives]);
    let names = vec![
        "verdict 2, at the wait for a receive",
        "verdict 2, at the wait for a send",
        "verdict 2, a receive is pending",
        "verdict 2, a message is pending",
    ];
    assert_eq!(counted_call(&sheet, Call::Run), (Some(2), names));
    let before = Desk::for_sheet(&sheet);
    let report = agreed(&sheet, &Call::Run, &before).desk.report;
    assert_eq!((word(&report, 10), word(&report, 12)), (1, 1));
}
