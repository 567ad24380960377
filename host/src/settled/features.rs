//! What a changed case has to have: a feature is a test of a case's bytes,
//! written from the documents and without a judge, but for cut-reported and
//! forgotten-refused, which ask the library. It is a necessary condition: a case
//! without the feature cannot have changed by the rule that speaks of it. A
//! request that changes a rule takes one from this list or adds one to it.

use super::ask::{Asker, LIBRARY};
use super::cases::Case;
use super::reached::Reached;
use super::sheet::{scripts, second_edition, word, Operation};
use super::sheet::{ANY, BUFFERED, OPERATIONS, PROBE, QUERY, READY, RECEIVE, WAIT};

pub struct Feature {
    pub name: &'static str,
    /// What is tested, after "a case with ".
    pub says: &'static str,
    pub in_case: fn(&Case) -> bool,
}

pub const FEATURES: [Feature; 12] = [
    Feature {
        name: "buffered-send",
        says: "a buffered send (K2)",
        in_case: |case| any_operation(case, |operation| operation.kind == BUFFERED),
    },
    Feature {
        name: "cut-message",
        says: "a message longer than the capacity, above 0, of a receive that it fits (K5)",
        in_case: cut_message,
    },
    Feature {
        name: "cut-reported",
        says: "a report that tells a cut message (K5)",
        in_case: |case| {
            let mut reached = Reached::default();
            Asker::new(LIBRARY).ask(case, &mut reached);
            reached.cut > 0
        },
    },
    Feature {
        name: "edition-2",
        says: "the operation table's offset 16+10P (K6)",
        in_case: |case| second_edition(&case.sheet),
    },
    Feature {
        name: "held-slot-at-end",
        says: "a slot that is taken and has no wait after it (K7)",
        in_case: |case| scripts(&case.sheet).iter().any(|script| ends_held(script)),
    },
    Feature {
        name: "forgotten-refused",
        says: "a slot that is taken and has no wait after it, and check's answer 7 (K7)",
        in_case: |case| {
            let forgotten = scripts(&case.sheet).iter().any(|script| ends_held(script));
            forgotten && (LIBRARY.check)(&case.sheet).number == 7
        },
    },
    Feature {
        name: "probe-or-query",
        says: "an operation of kind 7 or 8 (K9)",
        in_case: |case| any_operation(case, |operation| [PROBE, QUERY].contains(&operation.kind)),
    },
    Feature {
        name: "more-than-1024-operations",
        says: "N from 1,025 to 2,048 (K11)",
        in_case: |case| (1025..=2048).contains(&word(&case.sheet, OPERATIONS)),
    },
    Feature {
        name: "scratch-under-65536",
        says: "lent scratch of 32,768 to 65,535 bytes (K11)",
        in_case: |case| (32_768..65_536).contains(&case.rooms.scratch),
    },
    Feature {
        name: "ready-send",
        says: "a ready send",
        in_case: |case| any_operation(case, |operation| operation.kind == READY),
    },
    Feature {
        name: "any-source",
        says: "a receive from any source",
        in_case: |case| {
            any_operation(case, |operation| {
                operation.kind == RECEIVE && operation.peer == ANY
            })
        },
    },
    Feature {
        name: "nonblocking",
        says: "a nonblocking operation",
        in_case: |case| any_operation(case, |operation| operation.flag == 1),
    },
];

pub fn named(name: &str) -> Option<&'static Feature> {
    FEATURES.iter().find(|feature| feature.name == name)
}

fn any_operation(case: &Case, test: impl Fn(&Operation) -> bool) -> bool {
    scripts(&case.sheet).iter().flatten().any(test)
}

/// A send and a receive of its destination that it fits, the message longer
/// than a capacity above 0. Whether the two ever meet is not asked.
fn cut_message(case: &Case) -> bool {
    let scripts = scripts(&case.sheet);
    let sends = scripts.iter().enumerate().flat_map(|(source, script)| {
        let sends = script.iter().filter(|operation| operation.is_send());
        sends.map(move |send| (source, send))
    });
    sends.into_iter().any(|(source, send)| {
        let receives = scripts.get(usize::from(send.peer)).into_iter().flatten();
        receives.into_iter().any(|receive| {
            let some = receive.length > 0 && receive.length < send.length;
            receive.kind == RECEIVE && some && fits(source, send, receive)
        })
    })
}

fn fits(source: usize, send: &Operation, receive: &Operation) -> bool {
    send.communicator == receive.communicator
        && (receive.peer == ANY || usize::from(receive.peer) == source)
        && (receive.tag == ANY || receive.tag == send.tag)
}

fn ends_held(script: &[Operation]) -> bool {
    script.iter().enumerate().any(|(place, operation)| {
        let takes = operation.flag == 1 && (operation.is_send() || operation.kind == RECEIVE);
        let mut later = script[place + 1..].iter();
        let frees = |wait: &Operation| wait.kind == WAIT && wait.slot == operation.slot;
        takes && !later.any(frees)
    })
}
