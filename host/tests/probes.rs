//! Probes and status queries (document 02, K9), under *follow* and *run* of the
//! library and both judges, on sheets made by hand, their rows byte by byte; and
//! the judges beside each other on generated sheets that have them.

#[path = "common/two_communicators.rs"]
mod two_communicators;

use jamturret::lent::Answer;
use jamturret_host::command::hex;
use jamturret_host::compare::{efficient, followed as follow, naive, ran as run, refused, Call};
use jamturret_host::desk::{Desk, FILL};
use jamturret_host::layout::kind::{BUFFERED, PROBE, QUERY, READY, STANDARD, SYNCHRONOUS};
use jamturret_host::layout::{word, ANY};
use jamturret_host::sheet::Operation;
use jamturret_host::trial::{self, Filler, ORDERS};
use jamturret_host::{judge, probes};
use two_communicators::sheet;

const NOT_ENTERED: [u8; 12] = [0, 0, 255, 255, 255, 255, 255, 255, 0, 0, 0, 0];

/// The row of a finished query: nothing but its length tells anything.
fn queried(complete: u8) -> [u8; 12] {
    [5, 0, 255, 255, 255, 255, 255, 255, complete, 0, 0, 0]
}

/// The row of a probe that told this message.
fn told(source: u8, tag: u8, length: u8) -> [u8; 12] {
    [5, 0, 255, 255, source, 0, tag, 0, length, 0, 0, 0]
}

/// Pending messages, pending receives, cut messages.
fn counts(desk: &Desk) -> [u16; 3] {
    [10, 12, 14].map(|at| word(&desk.report, at))
}

/// Finished, buffer in use, peak, state.
fn board(desk: &Desk, rank: usize) -> (u16, u16, u16, u8) {
    let row = &desk.report[desk.edition.board_row_at(rank)..];
    (word(row, 0), word(row, 2), word(row, 4), row[6])
}

/// Three bytes with tag 7.
fn send(kind: u8, to: u16) -> Operation {
    Operation::send(kind, to, 7, 0, 3)
}

fn receive() -> Operation {
    Operation::receive(0, 7, 0, 4)
}

/// Rank 0 sends synchronous; rank 1 probes, any tag, and then receives.
#[test]
fn whole_report() {
    let script = [Operation::probe(0, ANY), receive()];
    let sheet = sheet(&[&[send(SYNCHRONOUS, 1)], &script]);
    let ran = run(&sheet);
    let expected = "01 FF FF FF 05 00 02 00 03 00 00 00 00 00 00 00 \
                    01 00 00 00 00 00 02 00 \
                    02 00 00 00 00 00 02 00 \
                    03 00 02 00 FF FF FF FF 00 00 00 00 \
                    05 00 FF FF 00 00 07 00 03 00 00 00 \
                    03 00 00 00 00 00 07 00 03 00 00 00";
    assert_eq!(hex(&ran.report), expected);
    assert_eq!(ran.order(), [0, 1, 1, 0, 1]);
    assert_eq!(ran.inbox[16..20], [1, 2, 3, FILL]);
}

/// Up to its step the row is that of every operation not entered, and its board
/// is able exactly when the message is there.
#[test]
fn able_once_a_message_fits() {
    let sheet = sheet(&[&[send(STANDARD, 1)], &[Operation::probe(0, 7), receive()]]);
    let before = follow(&sheet, &[]);
    assert_eq!((before.verdict(), before.able()), (0, vec![0]));
    assert_eq!(board(&before, 1), (0, 0, 0, 0));
    refused(&sheet, &[1], 0);
    let arrived = follow(&sheet, &[0]);
    assert_eq!((arrived.verdict(), arrived.able()), (0, vec![1]));
    assert_eq!(arrived.row(1), NOT_ENTERED);
    let probed = follow(&sheet, &[0, 1]);
    assert_eq!(probed.row(1), told(0, 7, 3));
    assert_eq!(board(&probed, 1), (1, 0, 0, 1));
    assert_eq!(probed.steps(), 2);
}

/// The message stays pending, its charge stands, and no byte is copied; the
/// sender of a message that is not buffered still waits.
#[test]
fn takes_nothing() {
    for (kind, state, in_use) in [(STANDARD, 1, 0), (SYNCHRONOUS, 1, 0), (BUFFERED, 2, 35)] {
        let probe = Operation::probe(0, 7);
        let sheet = sheet(&[&[send(kind, 1)], &[probe, probe, receive()]]);
        let probed = follow(&sheet, &[0, 1, 1]);
        assert_eq!(counts(&probed), [1, 0, 0], "kind {kind}");
        let sent = [state, 0, 255, 255, 255, 255, 255, 255, 0, 0, 0, 0];
        assert_eq!(probed.row(0), sent);
        assert_eq!(
            (probed.row(1), probed.row(2)),
            (&told(0, 7, 3)[..], &told(0, 7, 3)[..])
        );
        assert_eq!(probed.inbox, [FILL; 32]);
        let able = u8::from(kind == BUFFERED);
        assert_eq!(board(&probed, 0), (0, in_use, in_use, able));
        let received = follow(&sheet, &[0, 1, 1, 1]);
        assert_eq!(counts(&received), [0, 0, 0]);
        assert_eq!(word(received.row(0), 2), 3, "the partner is the receive");
        assert_eq!(board(&received, 0), (0, 0, in_use, 1));
    }
}

/// A probe that nothing fits: by tag, source, communicator or destination.
#[test]
fn deadlocks() {
    let buffered = send(BUFFERED, 1);
    for probe in [
        Operation::probe(0, 6),
        Operation::probe(1, 7),
        Operation::probe(0, ANY).on(1),
        Operation::probe(ANY, ANY).on(1),
    ] {
        let sheet = sheet(&[&[buffered], &[probe, receive()]]);
        let ran = run(&sheet);
        assert_eq!((ran.verdict(), ran.order()), (2, &[0, 0][..]), "{probe:?}");
        assert_eq!(counts(&ran), [1, 0, 0]);
        assert_eq!(board(&ran, 1), (0, 0, 0, 0));
        assert_eq!(
            (ran.row(1), ran.row(2)),
            (&NOT_ENTERED[..], &NOT_ENTERED[..])
        );
        refused(&sheet, &[0, 1], 1);
    }
    let other = sheet(&[&[send(BUFFERED, 2)], &[Operation::probe(ANY, ANY)], &[]]);
    assert_eq!(run(&other).verdict(), 2);
}

/// A message that met a posted receive is not pending.
#[test]
fn matched_messages_are_not_told() {
    let script = [
        receive().nonblocking(3),
        Operation::probe(0, 7),
        Operation::wait(3),
    ];
    let sheet = sheet(&[&[send(BUFFERED, 1), send(BUFFERED, 1)], &script]);
    let probed = follow(&sheet, &[1, 0]);
    assert_eq!(board(&probed, 1), (1, 0, 0, 0));
    refused(&sheet, &[1, 0, 1], 2);
    let probed = follow(&sheet, &[1, 0, 0, 0, 1, 1]);
    assert_eq!(probed.row(3), told(0, 7, 3));
    assert_eq!(board(&probed, 1), (3, 0, 0, 2));
}

/// The earlier to arrive, whatever its rank; and of one sender the first.
#[test]
fn earliest_arrived() {
    let probes = [Operation::probe(ANY, ANY), Operation::probe(1, ANY)];
    let one = Operation::send(BUFFERED, 2, 5, 0, 2);
    let sheet = sheet(&[&[one], &[send(BUFFERED, 2), one], &probes]);
    for (order, sources) in [([1, 0, 2, 2], [1, 1]), ([0, 1, 2, 2], [0, 1])] {
        let probed = follow(&sheet, &order);
        let of = |source| {
            if source == 1 {
                told(1, 7, 3)
            } else {
                told(0, 5, 2)
            }
        };
        let rows = [probed.row(3), probed.row(4)];
        assert_eq!(rows, sources.map(of), "{order:?}");
    }
    let both = follow(&sheet, &[1, 1, 1, 1, 2]);
    assert_eq!(both.row(3), told(1, 7, 3));
}

#[test]
fn other_messages_are_passed_over() {
    let tag = |tag| Operation {
        tag,
        ..send(BUFFERED, 1)
    };
    for (first, probe) in [
        (tag(7).on(1), Operation::probe(ANY, ANY)),
        (tag(7).on(1), Operation::probe(0, 5)),
        (tag(6), Operation::probe(0, 5)),
        (tag(6), Operation::probe(ANY, 5)),
    ] {
        let second = Operation {
            length: 2,
            ..tag(5)
        };
        let sheet = sheet(&[&[first, second], &[probe]]);
        let probed = follow(&sheet, &[0, 0, 0, 1]);
        assert_eq!(probed.row(2), told(0, 5, 2), "{first:?}, {probe:?}");
        assert_eq!(counts(&probed), [2, 0, 0]);
    }
}

/// A message of one's own, and an empty one; the highest tag.
#[test]
fn own_and_empty_messages() {
    let script = [
        Operation::send(BUFFERED, 0, 32_767, 0, 0),
        Operation::probe(0, ANY),
    ];
    let ran = run(&sheet(&[&script]));
    assert_eq!((ran.verdict(), ran.order()), (1, &[0, 0, 0][..]));
    assert_eq!(ran.row(1), [5, 0, 255, 255, 0, 0, 255, 127, 0, 0, 0, 0]);
    assert_eq!(board(&ran, 0), (2, 32, 32, 2));
}

/// The full length, though the receive behind it is too short.
#[test]
fn told_in_full() {
    let long = Operation {
        length: 5,
        ..send(STANDARD, 1)
    };
    let ran = run(&sheet(&[&[long], &[Operation::probe(0, 7), receive()]]));
    assert_eq!(ran.row(1), told(0, 7, 5));
    assert_eq!(ran.row(2), [3, 1, 0, 0, 0, 0, 7, 0, 5, 0, 0, 0]);
    assert_eq!(counts(&ran), [0, 0, 1]);
}

/// A probe is no posted receive: a ready send stops the job, and then neither a
/// probe that a message fits nor a query is able.
#[test]
fn nothing_after_a_stop() {
    let held = [
        send(BUFFERED, 1).nonblocking(0),
        Operation::query(0),
        Operation::wait(0),
    ];
    let sheet = sheet(&[&held, &[Operation::probe(ANY, ANY)], &[send(READY, 1)]]);
    let stopped = follow(&sheet, &[0, 2]);
    assert_eq!((stopped.verdict(), stopped.report[1]), (4, 2));
    assert_eq!(word(&stopped.report, 2), 4, "stop operation");
    assert!(stopped.able().is_empty());
    assert_eq!(
        (stopped.row(1), stopped.row(3)),
        (&NOT_ENTERED[..], &NOT_ENTERED[..])
    );
    assert_eq!(follow(&sheet, &[0]).able(), [0, 1, 2]);
    refused(&sheet, &[0, 2, 0], 2);
    refused(&sheet, &[0, 2, 1], 2);
}

/// A nonblocking operation, two queries of its slot and its wait.
fn twice_queried(operation: Operation) -> [Operation; 4] {
    let query = Operation::query(31);
    [operation.nonblocking(31), query, query, Operation::wait(31)]
}

/// Before and after the match, of both sides of it.
#[test]
fn queries_of_sends_and_receives() {
    for kind in [STANDARD, SYNCHRONOUS] {
        let sheet = sheet(&[&twice_queried(send(kind, 1)), &twice_queried(receive())]);
        let ended = follow(&sheet, &[0, 0, 1, 0, 1, 1, 0, 1]);
        assert_eq!((ended.verdict(), ended.steps()), (1, 8), "kind {kind}");
        assert_eq!(
            (ended.row(1), ended.row(2)),
            (&queried(0)[..], &queried(1)[..])
        );
        assert_eq!(
            (ended.row(5), ended.row(6)),
            (&queried(1)[..], &queried(1)[..])
        );
        assert_eq!(ended.row(3), queried(0), "the wait tells nothing");
        let ended = follow(&sheet, &[1, 1, 0, 1, 0, 0, 0, 1]);
        assert_eq!((ended.verdict(), ended.steps()), (1, 8), "kind {kind}");
        assert_eq!(
            (ended.row(5), ended.row(6)),
            (&queried(0)[..], &queried(1)[..])
        );
        assert_eq!(
            (ended.row(1), ended.row(2)),
            (&queried(1)[..], &queried(1)[..])
        );
    }
}

/// A query is able whatever it tells, changes nothing else, and its slot's wait
/// is as it was.
#[test]
fn queries_change_nothing() {
    let sheet = sheet(&[&twice_queried(send(STANDARD, 1)), &[receive()]]);
    let queried_once = follow(&sheet, &[0, 0]);
    assert_eq!(board(&queried_once, 0), (2, 0, 0, 1));
    assert_eq!(
        (queried_once.verdict(), counts(&queried_once)),
        (0, [1, 0, 0])
    );
    assert_eq!(
        (queried_once.row(1), queried_once.row(2)),
        (&queried(0)[..], &NOT_ENTERED[..])
    );
    refused(&sheet, &[0, 0, 0, 0], 3);
    let matched = follow(&sheet, &[0, 0, 0, 1]);
    assert_eq!(matched.row(1), queried(0), "told before the match");
    assert_eq!(board(&matched, 0), (3, 0, 0, 1));
    let alone = two_communicators::sheet(&[&twice_queried(send(STANDARD, 1)), &[]]);
    let ran = run(&alone);
    assert_eq!((ran.verdict(), ran.order()), (2, &[0, 0, 0][..]));
}

/// Complete at once, and while its message is pending.
#[test]
fn query_of_a_buffered_send() {
    let ran = run(&sheet(&[&twice_queried(send(BUFFERED, 1)), &[]]));
    assert_eq!((ran.verdict(), counts(&ran)), (1, [1, 0, 0]));
    assert_eq!(ran.row(0)[0], 2);
    assert_eq!((ran.row(1), ran.row(2)), (&queried(1)[..], &queried(1)[..]));
    assert_eq!(board(&ran, 0), (4, 35, 35, 2));
}

/// Of several slots its own, and of a slot that was taken again the later.
#[test]
fn query_asks_for_the_holder_of_its_slot() {
    let (never, buffered) = (Operation::receive(1, 9, 0, 4), send(BUFFERED, 1));
    let script = [
        never.nonblocking(0),
        buffered.nonblocking(1),
        Operation::query(1),
        Operation::query(0),
        Operation::wait(1),
        Operation::send(STANDARD, 1, 6, 0, 0).nonblocking(1),
        Operation::query(1),
        Operation::wait(1),
        Operation::wait(0),
    ];
    let ran = run(&sheet(&[&script, &[]]));
    assert_eq!((ran.verdict(), ran.steps()), (2, 7));
    let rows = [2, 3, 6].map(|index| ran.row(index));
    assert_eq!(rows, [queried(1), queried(0), queried(0)]);
}

/// Between a probe and its receive another sender's message arrives, and of one
/// sender another tag's: the receive takes what the probe told.
#[test]
fn probe_then_receive() {
    let later = Operation {
        tag: 5,
        ..send(BUFFERED, 2)
    };
    let pair = [Operation::probe(ANY, ANY), Operation::receive(1, 7, 0, 4)];
    let sheet = sheet(&[&[later], &[send(BUFFERED, 2), later], &pair]);
    for order in [
        &[1, 2, 0, 0, 1, 1, 2][..],
        &[1, 0, 2, 1, 1, 1, 2],
        &[1, 2, 2],
    ] {
        let ended = follow(&sheet, order);
        assert_eq!(ended.row(3), told(1, 7, 3), "{order:?}");
        assert_eq!(ended.row(4), [3, 0, 1, 0, 1, 0, 7, 0, 3, 0, 0, 0]);
    }
    // Told otherwise: the receive is no such one, and is pending.
    let other = follow(&sheet, &[0, 2, 2]);
    assert_eq!((other.row(3), other.row(4)[0]), (&told(0, 5, 3)[..], 1));
}

/// The judges beside each other, without the library: both services that ask
/// of a sheet alone, and runs and orders.
#[test]
fn judges_agree() {
    let filler = Filler::new(5);
    let mut tried = [0; 3];
    for number in 0..6000 {
        let (_, sheet, mut random) = trial::sheet(5, number);
        let Some(needs) = judge::needs(&sheet) else {
            continue;
        };
        let (probe, query) = (probes::has(&sheet, PROBE), probes::has(&sheet, QUERY));
        if !probe && !query {
            continue;
        }
        if sheet.len() < 1500 {
            assert_eq!(
                judge::naive::check(&sheet),
                Answer::SUCCESS,
                "case {number}"
            );
            assert_eq!(
                judge::naive::premise(&sheet),
                judge::premise(&sheet),
                "case {number}"
            );
        }
        let desk = filler.exact(&needs, &mut random);
        let order = random.pick(&ORDERS).1(&sheet, &mut random);
        for call in [Call::Run, Call::Follow(order)] {
            let one = naive(&sheet, &call, &desk);
            assert_eq!(
                efficient(&sheet, &call, &desk),
                one,
                "case {number}, {call}"
            );
            let kinds = [probe, query, probe && query];
            tried
                .iter_mut()
                .zip(kinds)
                .for_each(|(count, has)| *count += usize::from(has));
        }
    }
    assert!(tried.iter().min() > Some(&300), "{tried:?}");
}
