//! The cases around probes and queries (document 02, K9) that the differential
//! test of calls counts, each on a sheet made by hand; and the promise
//! Probe-then-receive, which can fail.

#[path = "common/all_made.rs"]
mod all_made;
#[path = "common/each_counts.rs"]
mod each_counts;
#[path = "common/probe_operations.rs"]
mod probe_operations;
#[path = "common/two_communicators.rs"]
mod two_communicators;

use all_made::all_made;
use each_counts::Counted;
use jamturret::lent::Answer;
use jamturret_host::command::found;
use jamturret_host::compare::{agreed, Call};
use jamturret_host::desk::Desk;
use jamturret_host::layout::kind::{BUFFERED, READY, STANDARD, SYNCHRONOUS};
use jamturret_host::layout::{Edition, ANY};
use jamturret_host::probes::{called, probe_then_receive, CALLED};
use jamturret_host::sheet::Operation;
use probe_operations::{probe, queried, receive, send};
use two_communicators::sheet;

/// What is counted of a call.
fn counted_call(scripts: &[&[Operation]], order: &[u8]) -> Vec<&'static str> {
    let sheet = sheet(scripts);
    let call = Call::Follow(order.to_vec());
    let outcome = agreed(&sheet, &call, &Desk::for_sheet(&sheet));
    found(CALLED, called(&sheet, &call, &outcome))
}

/// Each order counts what is said of it and nothing else; the names.
fn each_counts(all: &[Counted<&[&[Operation]]>]) -> Vec<&'static str> {
    each_counts::each_counts(all, |scripts, order| counted_call(scripts, order))
}

fn to(rank: u16, kind: u8) -> Operation {
    Operation {
        peer: rank,
        ..send(kind)
    }
}

#[test]
fn told_messages_are_counted() {
    let buffered = send(BUFFERED);
    let own = [Operation::send(BUFFERED, 0, 7, 0, 0), probe(), probe()];
    let any_tag = [Operation::probe(0, ANY)];
    let any_source = [Operation::probe(ANY, 7)];
    let (before, after) = (
        "probe before its message arrives",
        "probe after its message arrived",
    );
    let of_buffered = "probe tells a buffered message";
    let passed = |first: Operation| [first, buffered];
    let tag = Operation { tag: 5, ..buffered };
    let made = each_counts(&[
        (
            &[&[send(STANDARD)], &any_tag],
            &[0, 1],
            &[before, "probe tells a standard message", "probe of any tag"],
        ),
        (
            &[&own],
            &[0, 0, 0, 0],
            &[
                after,
                of_buffered,
                "probe tells an empty message",
                "probe tells its own board's message",
                "two probes tell one message",
                "verdict 1, one that fits a probe is pending",
            ],
        ),
        (
            &[&[to(2, BUFFERED)], &[to(2, SYNCHRONOUS)], &any_source],
            &[1, 0, 2],
            &[
                before,
                "probe tells a synchronous message",
                "probe of any source",
                "probe tells the earlier of two that fit",
                "the earlier is the higher rank's",
            ],
        ),
        (
            &[&[to(2, BUFFERED)], &[to(2, BUFFERED)], &any_source],
            &[0, 1, 2],
            &[
                before,
                of_buffered,
                "probe of any source",
                "probe tells the earlier of two that fit",
            ],
        ),
        (
            &[&passed(to(0, BUFFERED)), &[probe()]],
            &[0, 0, 0, 1],
            &[before, of_buffered, "probe passes by destination alone"],
        ),
        (
            &[&passed(buffered.on(1)), &[probe()]],
            &[0, 0, 0, 1],
            &[before, of_buffered, "probe passes by communicator alone"],
        ),
        (
            &[
                &[to(2, BUFFERED)],
                &[to(2, BUFFERED)],
                &[Operation::probe(1, 7)],
            ],
            &[0, 1, 2],
            &[before, of_buffered, "probe passes by source alone"],
        ),
        (
            &[&passed(tag), &[probe()]],
            &[0, 0, 0, 1],
            &[before, of_buffered, "probe passes by tag alone"],
        ),
    ]);
    all_made(&CALLED, before, "two probes tell one message", &made);
}

/// Rank 2 probes and receives what it was told.
fn pair(source: u16, tag: u16, receive: Operation) -> [Operation; 2] {
    [Operation::probe(source, tag), receive]
}

#[test]
fn pairs_are_counted() {
    let (before, source, tag) = (
        "probe before its message arrives",
        "probe of any source",
        "probe of any tag",
    );
    let of_buffered = "probe tells a buffered message";
    let long = Operation {
        length: 5,
        ..to(2, BUFFERED)
    };
    let receive = Operation::receive(1, 7, 0, 4);
    let wait = Operation::wait(0);
    let [any, held] = pair(ANY, 7, receive.nonblocking(0));
    let made = each_counts(&[
        (
            &[&[to(2, BUFFERED)], &[long], &[any, held, wait]],
            &[1, 0, 2, 0, 2, 2],
            &[
                before,
                of_buffered,
                source,
                "probe tells the earlier of two that fit",
                "the earlier is the higher rank's",
                "Probe-then-receive, of any source",
                "Probe-then-receive, nonblocking",
                "Probe-then-receive, others step between",
                "Probe-then-receive, several fitted",
                "Probe-then-receive, told in full and cut",
            ],
        ),
        (
            &[&[], &[to(2, BUFFERED)], &pair(1, ANY, receive)],
            &[1, 2, 2],
            &[
                before,
                of_buffered,
                tag,
                "Probe-then-receive, of any tag",
                "Probe-then-receive, blocking",
            ],
        ),
        (
            &[&[], &[to(2, BUFFERED)], &pair(1, 7, receive)],
            &[1, 2, 2],
            &[
                before,
                of_buffered,
                "Probe-then-receive, both named",
                "Probe-then-receive, blocking",
            ],
        ),
    ]);
    let last = "Probe-then-receive, told in full and cut";
    all_made(&CALLED, "Probe-then-receive, of any source", last, &made);
    // No pairs: not yet entered, of another communicator, of any source.
    let any_source = Operation::receive(ANY, 7, 0, 4);
    for (order, receive) in [
        (&[1, 2][..], receive),
        (&[1, 2, 2], receive.on(1)),
        (&[1, 2, 2], any_source),
    ] {
        let names = counted_call(&[&[], &[to(2, BUFFERED)], &pair(1, 7, receive)], order);
        assert_eq!(names, [before, of_buffered], "{order:?}");
    }
}

#[test]
fn queries_are_counted() {
    let [held, query, wait] = queried();
    let twice = [held, query, query, wait];
    let of_receive = [receive().nonblocking(3), query, query, wait];
    let first = "query of a send, not complete";
    let hangs = "verdict 2, at the wait behind a query";
    let [no, yes] = [
        "query of a receive, not complete",
        "query of a receive, complete",
    ];
    let matched = "query of a send, complete";
    let [at_last, both] = [
        "two queries of one, complete at last",
        "two queries of one, both complete",
    ];
    let waited = "query, then its wait";
    let again = [
        send(BUFFERED).nonblocking(3),
        wait,
        send(BUFFERED).nonblocking(3),
        query,
        wait,
    ];
    let made = each_counts(&[
        (
            &[&twice, &of_receive],
            &[0, 0, 1, 0, 1, 1, 0, 1],
            &[
                first,
                matched,
                yes,
                waited,
                "query, not complete, then its wait",
                at_last,
                both,
            ],
        ),
        (
            &[&twice, &of_receive],
            &[1, 1, 0, 0, 0, 1],
            &[matched, no, yes, at_last, both],
        ),
        (
            &[&twice, &[]],
            &[0, 0, 0],
            &[first, hangs, "two queries of one, both not complete"],
        ),
        (
            &[&again, &[]],
            &[0; 5],
            &[
                "query of a buffered send, pending",
                "query of a slot taken again",
                waited,
            ],
        ),
    ]);
    all_made(&CALLED, first, both, &made);
}

#[test]
fn standing_boards_are_counted() {
    let sends: [&[Operation]; 2] = [&[send(STANDARD)], &[probe()]];
    let held = [
        send(BUFFERED).nonblocking(3),
        Operation::query(3),
        Operation::wait(3),
    ];
    let stops: [&[Operation]; 3] = [&held, &[Operation::probe(ANY, ANY)], &[send(READY)]];
    let (first, last) = (
        "verdict 0, able at a probe",
        "refused 9 at a query after a stop",
    );
    let passed = "verdict 2, passed by communicator alone";
    let mut made = each_counts(&[
        (&sends, &[], &["verdict 0, not able at a probe"]),
        (&sends, &[0], &[first]),
        (&[&queried(), &[]], &[0], &["verdict 0, at a query"]),
        (
            &[&[send(BUFFERED).on(1)], &[probe()]],
            &[0, 0],
            &["verdict 2, at a probe", passed],
        ),
        (&[&[probe()]], &[], &["verdict 2, at a probe"]),
        (
            &stops,
            &[0, 2],
            &[
                "stopped, at a probe that a message fits",
                "stopped, at a query",
            ],
        ),
        (&sends, &[1], &["refused 9 at a probe that nothing fits"]),
        (&stops, &[0, 2, 1], &["refused 9 at a probe after a stop"]),
        (&stops, &[0, 2, 0], &[last]),
        (&stops, &[0, 2, 2], &[]),
    ]);
    // Above, beside what its probes show.
    made.push("verdict 1, one that fits a probe is pending");
    all_made(&CALLED, first, last, &made);
}

/// A report with a pair, and the same with a byte changed.
#[test]
fn promise_can_fail() {
    let pair = pair(ANY, 7, Operation::receive(1, 7, 0, 4));
    let sheet = sheet(&[&[to(2, BUFFERED)], &[to(2, BUFFERED)], &pair]);
    let order = [1, 0, 2, 2];
    let call = Call::Follow(order.to_vec());
    let outcome = agreed(&sheet, &call, &Desk::for_sheet(&sheet));
    assert_eq!(outcome.answer, Answer::SUCCESS);
    let report = outcome.desk.report;
    assert_eq!(probe_then_receive(&sheet, &order, &report), Ok(1));

    // Operation 2 is the probe, 3 the receive: state, partner, source, tag,
    // length. The rest of a row is not the promise's.
    let row = |index: usize| Edition::First.operation_row_at(3, index);
    for (at, value, kept) in [
        (row(3), 1, false),
        (row(3) + 2, 0, false),
        (row(3) + 4, 0, false),
        (row(3) + 6, 8, false),
        (row(3) + 8, 4, false),
        (row(2) + 8, 4, false),
        (row(3) + 1, 1, true),
        // No pair: the probe is not finished, or tells something else, or the
        // receive is not entered.
        (row(2), 0, true),
        (row(2) + 4, 0, true),
        (row(2) + 6, 8, true),
        (row(3), 0, true),
    ] {
        let mut other = report.clone();
        other[at] = value;
        let said = probe_then_receive(&sheet, &order, &other);
        assert_eq!(said.is_ok(), kept, "byte {at}: {value}");
    }
}
