//! The cases around probes and queries (document 02, K9) that the differential
//! test of check and premise counts, each on a sheet made by hand.

#[path = "common/probe_operations.rs"]
mod probe_operations;
#[path = "common/two_communicators.rs"]
mod two_communicators;

use jamturret_host::command::found;
use jamturret_host::judge;
use jamturret_host::layout::kind::{BUFFERED, QUERY, READY};
use jamturret_host::layout::ANY;
use jamturret_host::probes::{asked, ASKED};
use jamturret_host::sheet::Operation;
use probe_operations::{probe, queried, receive, send};
use two_communicators::sheet;

/// What is counted of our judge's answers to these scripts.
fn counted(scripts: &[&[Operation]]) -> Vec<&'static str> {
    let sheet = sheet(scripts);
    let cases = asked(&sheet, judge::check(&sheet), judge::premise(&sheet));
    found(ASKED, cases)
}

/// The same of a script beside a board that has none.
fn alone(script: &[Operation]) -> Vec<&'static str> {
    counted(&[script, &[]])
}

type Change = fn(&mut Operation);

#[test]
fn wrong_fields_are_counted() {
    let of_probes: [Change; 8] = [
        |probe| probe.flag = 1,
        |probe| probe.peer = 2,
        |probe| probe.communicator = 2,
        |probe| probe.zero = 1,
        |probe| probe.tag = 32_768,
        |probe| probe.offset = 1,
        |probe| probe.length = 1,
        |probe| probe.slot = 1,
    ];
    let of_queries: [Change; 8] = [
        |query| query.flag = 1,
        |query| query.peer = 1,
        |query| query.communicator = 1,
        |query| query.zero = 1,
        |query| query.tag = 1,
        |query| query.offset = 1,
        |query| query.length = 1,
        |query| query.slot = 32,
    ];
    let unknown: [Change; 2] = [|query| query.kind = 0, |query| query.kind = 9];
    let any_probe = Operation::probe(ANY, ANY);
    for (place, change) in of_probes.into_iter().enumerate() {
        for mut wrong in [probe(), any_probe] {
            change(&mut wrong);
            assert_eq!(alone(&[wrong]), [ASKED[place]]);
        }
    }
    for (place, change) in of_queries.into_iter().chain(unknown).enumerate() {
        let mut script = queried();
        change(&mut script[1]);
        assert_eq!(alone(&script), [ASKED[8 + place]]);
        // Two wrong fields show neither.
        script[1].zero += 1;
        assert_eq!(alone(&script).is_empty(), script[1].kind == QUERY);
    }
}

#[test]
fn broken_slots_are_counted() {
    let [held, query, wait] = queried();
    let never = "query of a slot never taken, refused 7";
    assert_eq!(alone(&[query]), [never]);
    let name = "query of a freed slot, refused 7";
    assert_eq!(alone(&[held, wait, query]), [name]);
    let name = "query before its slot is taken, refused 7";
    assert_eq!(alone(&[query, held, wait]), [name]);
    let name = "query of another board's slot, refused 7";
    assert_eq!(counted(&[&[held, wait], &[query]]), [never, name]);
    let name = "slot taken again behind a query, refused 7";
    assert_eq!(alone(&[held, query, held, wait]), [name]);
    assert!(alone(&[held, wait, held, held, query, wait]).is_empty());
    let name = "forgotten, only a query names it";
    assert_eq!(alone(&[held, query]), [name]);
    assert!(alone(&[held, Operation::wait(0)]).is_empty());
    assert!(alone(&[held]).is_empty());
}

#[test]
fn accepted_sheets_are_counted() {
    let [held, query, wait] = queried();
    let (source, tag) = (
        "accepted, a probe of any source",
        "accepted, a probe of any tag",
    );
    let neither = "accepted, a probe of neither";
    let calm = "premise 0, with a probe";
    let of_probe = "premise 20, of a probe";
    assert_eq!(alone(&[Operation::probe(ANY, 7)]), [source, of_probe]);
    assert_eq!(alone(&[Operation::probe(0, ANY)]), [tag, calm]);
    assert_eq!(alone(&[probe()]), [neither, calm]);
    let on_last = "accepted, a probe on communicator C-1";
    assert_eq!(alone(&[probe().on(1)]), [neither, on_last, calm]);
    let receive = Operation {
        peer: ANY,
        ..receive()
    };
    let of_receive = "premise 20, of a receive before a probe";
    assert_eq!(
        alone(&[receive, Operation::probe(ANY, 7)]),
        [source, of_receive]
    );
    assert_eq!(alone(&[receive, probe()]), [neither]);

    let twice = "accepted, two queries of one request";
    let first = "premise 23, the first of two queries";
    assert_eq!(alone(&[held, query, query, wait]), [twice, first]);
    assert!(alone(&queried()).is_empty());
    let again = "accepted, slot taken again behind query and wait";
    assert_eq!(alone(&[held, query, wait, held, wait]), [again]);
    assert!(alone(&[held, wait, held, query, wait]).is_empty());

    let ready = send(READY);
    let long = Operation {
        length: 30,
        ..send(BUFFERED)
    };
    for (others, names) in [
        (&[receive][..], &["premise 20, with a query"][..]),
        (&[ready], &["premise 21, with a query"]),
        (&[long, long], &["premise 22, with a query"]),
        (&[probe()], &[neither, "premise 23, with a probe"]),
    ] {
        assert_eq!(alone(&[others, &queried()].concat()), names);
    }
}
