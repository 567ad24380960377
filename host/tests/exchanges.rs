//! Two neighbouring steps that trade places (document 02, K14), on sheets made by
//! hand: what the claim keeps out, each with both orders and what differs, and
//! what it speaks of, as the differential test of calls counts it.

#[path = "common/all_made.rs"]
mod all_made;
#[path = "common/each_counts.rs"]
mod each_counts;

use all_made::all_made;
use each_counts::{each_counts, Counted};
use jamturret::lent::Answer;
use jamturret_host::command::found;
use jamturret_host::compare::{agreed, Call, Outcome};
use jamturret_host::desk::Desk;
use jamturret_host::exchanges::{alike, Exchange, KEPT_OUT, TRADED};
use jamturret_host::layout::kind::{BUFFERED, READY, STANDARD, SYNCHRONOUS};
use jamturret_host::layout::{word, ANY};
use jamturret_host::sheet::{Operation, Sheet};

/// Three bytes with tag 7.
fn send(kind: u8, peer: u16) -> Operation {
    Operation::send(kind, peer, 7, 0, 3)
}

fn receive(peer: u16) -> Operation {
    Operation::receive(peer, 7, 0, 4)
}

/// Two communicators, inboxes of 16 bytes, and nothing attached.
fn sheet(scripts: &[&[Operation]]) -> Sheet {
    let mut sheet = Sheet::of_scripts(scripts, 16);
    sheet.communicators = 2;
    sheet
}

fn follow(sheet: &[u8], order: &[u8]) -> Outcome {
    agreed(
        sheet,
        &Call::Follow(order.to_vec()),
        &Desk::for_sheet(sheet),
    )
}

/// An exchange that only this keeps out: the outcomes of both orders, which
/// differ.
fn kept_out(name: &str, sheet: &Sheet, order: &[u8], index: usize) -> [Outcome; 2] {
    let bytes = sheet.bytes();
    let exchange = Exchange::new(&bytes, order, index);
    let by = exchange.kept_out_by().expect("one thing keeps it out");
    assert_eq!(KEPT_OUT[by], name);
    let outcomes = [order, &exchange.exchanged()].map(|order| follow(&bytes, order));
    assert!(!alike(&outcomes[0], &outcomes[1]));
    outcomes
}

/// A number of an operation's row, in both outcomes.
fn in_rows(outcomes: &[Outcome; 2], operation: usize, place: usize) -> [u16; 2] {
    outcomes
        .each_ref()
        .map(|outcome| word(outcome.desk.row(operation), place))
}

const STATE: usize = 0;
const PARTNER: usize = 2;
const SOURCE: usize = 4;
const LENGTH: usize = 8;

#[test]
fn two_sends_to_one_any_source_receiver() {
    let any = receive(ANY);
    let sheet = sheet(&[&[send(STANDARD, 2)], &[send(STANDARD, 2)], &[any]]);
    let outcomes = kept_out(KEPT_OUT[0], &sheet, &[0, 1, 2], 0);
    assert_eq!(in_rows(&outcomes, 2, PARTNER), [0, 1]);
}

/// The receive need not be the next one, nor have their tag.
#[test]
fn an_any_source_receive_anywhere_in_the_script() {
    let any = Operation::receive(ANY, 9, 4, 4);
    let sends = [send(STANDARD, 2)];
    let sheet = sheet(&[&sends, &sends, &[receive(0), receive(1), any]]);
    let bytes = sheet.bytes();
    let exchange = Exchange::new(&bytes, &[0, 1], 0);
    assert_eq!(exchange.kept_out_by(), Some(0));
}

#[test]
fn a_query() {
    let held = send(SYNCHRONOUS, 1).nonblocking(3);
    let queried = [held, Operation::query(3), Operation::wait(3)];
    let outcomes = kept_out(
        KEPT_OUT[1],
        &sheet(&[&queried, &[receive(0)]]),
        &[0, 0, 1],
        1,
    );
    assert_eq!(in_rows(&outcomes, 1, LENGTH), [0, 1]);
}

#[test]
fn an_any_source_probe() {
    let asked = [Operation::probe(ANY, 7), receive(0), receive(1)];
    let sheet = sheet(&[&[send(STANDARD, 2)], &[send(STANDARD, 2)], &asked]);
    let outcomes = kept_out(KEPT_OUT[2], &sheet, &[0, 1, 2], 0);
    assert_eq!(in_rows(&outcomes, 2, SOURCE), [0, 1]);
}

#[test]
fn a_step_that_stops_the_job() {
    let ready = sheet(&[&[send(READY, 1)], &[receive(0)]]);
    let twice = [send(BUFFERED, 1), send(BUFFERED, 1)];
    let short = sheet(&[&twice, &[receive(0), receive(0)]]).attach(0, 69);
    for (sheet, order, index) in [(ready, &[0, 1][..], 0), (short, &[0, 0, 0, 1][..], 2)] {
        let [one, other] = kept_out(KEPT_OUT[3], &sheet, order, index);
        assert_eq!(one.answer, Answer::refusal(9, index as u64 + 1));
        assert_eq!(other.answer, Answer::SUCCESS);
    }
}

#[test]
fn a_room_that_does_not_cover() {
    let twice = [send(STANDARD, 1), send(STANDARD, 1)];
    let sheet = sheet(&[&twice, &[receive(0), receive(0)]]).with_rooms(&[5, 0]);
    let outcomes = kept_out(KEPT_OUT[4], &sheet, &[0, 0, 0, 1], 2);
    let states = in_rows(&outcomes, 1, STATE).map(|state| state & 255);
    assert_eq!(states, [1, 2]);
}

/// A send and the receive that takes it trade places, then their waiting halves.
#[test]
fn orders_of_one_class() {
    let sends = [send(STANDARD, 2)];
    let any = [receive(ANY), receive(ANY)];
    let bytes = sheet(&[&sends, &sends, &any]).bytes();
    let orders = [[0, 2, 0, 2], [2, 0, 0, 2], [2, 0, 2, 0]];
    for (order, index, next) in [(orders[0], 0, orders[1]), (orders[1], 2, orders[2])] {
        let exchange = Exchange::new(&bytes, &order, index);
        assert_eq!(exchange.kept_out(), [false; KEPT_OUT.len()]);
        assert_eq!(exchange.exchanged(), next);
    }
    let [first, _, last] = orders.map(|order| follow(&bytes, &order));
    assert!(alike(&first, &last));
    let race = [[0, 1, 2], [1, 0, 2]].map(|order| follow(&bytes, &order));
    assert!(!alike(&race[0], &race[1]));
}

const FIT: &str = "traded, a send and an any-source receive that it fits";
const HALVES: &str = "traded, two waiting halves";
const ABLE: &str = "traded, the order is accepted, a board is able";
const FINISHED: &str = "traded, finished";
const DEADLOCK: &str = "traded, deadlock";

/// What is counted of an exchange at an index, whose orders end alike.
fn traded(sheet: &Sheet, order: &[u8], index: usize) -> Vec<&'static str> {
    let bytes = sheet.bytes();
    let exchange = Exchange::new(&bytes, order, index);
    assert_eq!(exchange.kept_out(), [false; KEPT_OUT.len()], "{order:?}");
    let one = follow(&bytes, order);
    let other = follow(&bytes, &exchange.exchanged());
    assert!(alike(&one, &other), "{order:?}");
    found(TRADED, exchange.traded(&one))
}

#[test]
fn traded_places() {
    let any = [receive(ANY)];
    let plain = [send(STANDARD, 2)];
    let on_one = [send(STANDARD, 2).on(1)];
    let to_0 = [send(SYNCHRONOUS, 0)];
    let met = || sheet(&[&[send(SYNCHRONOUS, 1)], &any]);
    let buffered = sheet(&[&[send(BUFFERED, 2)], &plain, &any]).attach(0, 35);
    let ready = sheet(&[&[send(READY, 1)], &any, &to_0]);
    let twice = [send(BUFFERED, 1), send(BUFFERED, 1)];
    let stops = sheet(&[&[send(SYNCHRONOUS, 1)], &any, &[send(READY, 0)]]);
    let probed = [Operation::probe(0, 7), any[0]];
    let all: [Counted<(Sheet, usize)>; 15] = [
        ((met(), 0), &[0, 1, 0, 1], &[FIT, FINISHED]),
        ((met(), 2), &[0, 1, 0, 1], &[HALVES, FINISHED]),
        ((met(), 0), &[0, 1], &[FIT, ABLE]),
        (
            (met(), 0),
            &[1, 0, 0, 0],
            &[FIT, "traded, the order is refused"],
        ),
        (
            (sheet(&[&any, &any]), 0),
            &[0, 1],
            &["traded, two any-source receives", DEADLOCK],
        ),
        (
            (sheet(&[&plain, &on_one, &any]), 0),
            &[0, 1],
            &["traded, sends to one receiver, two communicators", ABLE],
        ),
        (
            (sheet(&[&plain, &plain, &[any[0].on(1)]]), 0),
            &[0, 1, 2],
            &[
                "traded, sends, any source on another communicator",
                DEADLOCK,
            ],
        ),
        (
            (sheet(&[&plain, &[send(STANDARD, 3)], &any, &any]), 0),
            &[0, 1],
            &["traded, sends to two any-source receivers", ABLE],
        ),
        (
            (buffered, 1),
            &[0, 0, 1],
            &["traded, a send, and a half of one to its receiver", ABLE],
        ),
        ((ready, 1), &[1, 0, 2], &["traded, a ready send", ABLE]),
        (
            (sheet(&[&twice, &any, &to_0]).attach(0, 69), 0),
            &[0, 2],
            &["traded, a buffered send, not all are covered", ABLE],
        ),
        (
            (
                sheet(&[&[send(STANDARD, 1)], &any, &to_0]).with_rooms(&[3, 0, 0]),
                0,
            ),
            &[0, 2],
            &["traded, a standard send of a board with a room", ABLE],
        ),
        (
            (sheet(&[&[send(STANDARD, 1)], &probed, &to_0]), 1),
            &[0, 1, 2],
            &["traded, a probe", ABLE],
        ),
        (
            (stops, 0),
            &[0, 1, 2],
            &[FIT, "traded, a later step stops the job"],
        ),
        // Without a receive from any source nothing is counted.
        (
            (sheet(&[&[send(SYNCHRONOUS, 1)], &[receive(0)]]), 0),
            &[0, 1],
            &[],
        ),
    ];
    let made = each_counts(&all, |(sheet, index), order| traded(sheet, order, *index));
    all_made(&TRADED, FIT, "traded, a later step stops the job", &made);
}
