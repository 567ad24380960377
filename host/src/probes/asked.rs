//! What the answers of check and premise show.

use super::has;
use crate::command::note;
use crate::layout::{header, kind, operation as at, word, ANY, MOST_TAG, SLOTS};
use crate::requests_left::reading::{holder, left, operations, queries, rank_of};
use crate::requests_left::reading::{script, slot_of, takes, waits};
use crate::sheet::{field_of, kind_of, operation_at};
use jamturret::lent::Answer;

/// What `asked` finds: of refusal 6, of refusal 7, of accepted sheets, and of
/// premise's answers to them.
pub const ASKED: [&str; SIX + SEVEN + ACCEPTED + PREMISE] = [
    "probe refused 6, flag 1",
    "probe refused 6, peer P",
    "probe refused 6, communicator C",
    "probe refused 6, zero 1",
    "probe refused 6, tag 32,768",
    "probe refused 6, offset 1",
    "probe refused 6, length 1",
    "probe refused 6, slot 1",
    "query refused 6, flag 1",
    "query refused 6, peer 1",
    "query refused 6, communicator 1",
    "query refused 6, zero 1",
    "query refused 6, tag 1",
    "query refused 6, offset 1",
    "query refused 6, length 1",
    "query refused 6, slot 32",
    "kind 0 refused 6",
    "kind 9 refused 6",
    "query of a slot never taken, refused 7",
    "query of a freed slot, refused 7",
    "query before its slot is taken, refused 7",
    "query of another board's slot, refused 7",
    "slot taken again behind a query, refused 7",
    "forgotten, only a query names it",
    "accepted, a probe of any source",
    "accepted, a probe of any tag",
    "accepted, a probe of neither",
    "accepted, a probe on communicator C-1",
    "accepted, two queries of one request",
    "accepted, slot taken again behind query and wait",
    "premise 0, with a probe",
    "premise 20, of a probe",
    "premise 20, of a receive before a probe",
    "premise 20, with a query",
    "premise 21, with a query",
    "premise 22, with a query",
    "premise 23, with a probe",
    "premise 23, the first of two queries",
];

const SIX: usize = 8 + 8 + 2;
const SEVEN: usize = 6;
const ACCEPTED: usize = 6;
const PREMISE: usize = 8;

/// Which cases the answers of check and premise make.
pub fn asked(sheet: &[u8], check: Answer, premise: Answer) -> [bool; ASKED.len()] {
    let (mut first, mut second) = ([false; SIX], [false; SEVEN]);
    let (mut third, mut fourth) = ([false; ACCEPTED], [false; PREMISE]);
    let place = check.place as usize;
    // With these numbers the tables can be read.
    match check.number {
        6 => first = wrong_field(sheet, place),
        7 => second = refused(sheet, place),
        0 => {
            third = accepted(sheet);
            fourth = order_matters(sheet, premise);
        }
        _ => {}
    }
    let found = [&first[..], &second, &third, &fourth].concat();
    found.try_into().expect("the parts of ASKED")
}

/// The numbers of an operation behind its kind.
fn numbers(sheet: &[u8], index: usize) -> [u16; 8] {
    let start = operation_at(sheet, index);
    let flag = u16::from(sheet[start + at::FLAG]);
    let [peer, communicator, zero, tag, offset, length, slot] = [
        at::PEER,
        at::COMMUNICATOR,
        at::ZERO,
        at::TAG,
        at::OFFSET,
        at::LENGTH,
        at::SLOT,
    ]
    .map(|field| word(sheet, start + field));
    [flag, peer, communicator, zero, tag, offset, length, slot]
}

/// One number alone is wrong, and is the first beyond its range.
fn wrong_field(sheet: &[u8], place: usize) -> [bool; SIX] {
    let kind = kind_of(sheet, place);
    let numbers = numbers(sheet, place);
    let [p, c] = [header::BOARDS, header::COMMUNICATORS].map(|field| word(sheet, field));
    let beyond = match kind {
        kind::PROBE => [1, p, c, 1, MOST_TAG + 1, 1, 1, 1],
        _ => [1, 1, 1, 1, 1, 1, 1, SLOTS as u16],
    };
    let or_any = |place: usize| kind == kind::PROBE && [1, 4].contains(&place);
    let right =
        |place: usize| numbers[place] < beyond[place] || or_any(place) && numbers[place] == ANY;
    let wrong: Vec<usize> = (0..8).filter(|&place| !right(place)).collect();
    let mut found = [false; SIX];
    if let [alone] = wrong[..] {
        let just = numbers[alone] == beyond[alone];
        found[alone] = just && kind == kind::PROBE;
        found[8 + alone] = just && kind == kind::QUERY;
    }
    found[SIX - 2] = kind == 0;
    found[SIX - 1] = kind == kind::QUERY + 1;
    found
}

/// The operation breaks the rule of slots, or forgets its request.
fn refused(sheet: &[u8], place: usize) -> [bool; SEVEN] {
    let (own, slot) = (script(sheet, rank_of(sheet, place)), slot_of(sheet, place));
    let named = |at: usize| slot_of(sheet, at) == slot;
    let taken = |at: usize| takes(sheet, at) && named(at);
    let query = queries(sheet, place);
    let (before, after) = (own.start..place, place + 1..own.end);
    let never = query && !own.clone().any(taken);
    let holder = holder(sheet, slot, place);
    let mut others = operations(sheet).filter(|at| !own.contains(at));
    let queried =
        |mut range: std::ops::Range<usize>| range.any(|at| queries(sheet, at) && named(at));
    let forgotten = left(sheet).first().is_some_and(|left| left.index == place);
    [
        never,
        query && before.clone().any(taken),
        query && !before.clone().any(taken) && after.clone().any(taken),
        never && others.any(taken),
        taken(place) && holder.is_some_and(|taker| queried(taker..place)),
        forgotten && holder.is_none() && queried(after),
    ]
}

fn accepted(sheet: &[u8]) -> [bool; ACCEPTED] {
    let mut found = [false; ACCEPTED];
    let last = usize::from(word(sheet, header::COMMUNICATORS)) - 1;
    let any = |index, field| field_of(sheet, index, field) == usize::from(ANY);
    let mut queried = Vec::new();
    for index in operations(sheet) {
        if kind_of(sheet, index) == kind::PROBE {
            let (source, tag) = (any(index, at::PEER), any(index, at::TAG));
            let communicator = field_of(sheet, index, at::COMMUNICATOR);
            let on_last = last > 0 && communicator == last;
            note(&mut found, &[source, tag, !source && !tag, on_last]);
        } else if queries(sheet, index) {
            let of = holder(sheet, slot_of(sheet, index), index);
            found[4] |= queried.contains(&of);
            found[5] |= taken_later(sheet, index);
            queried.push(of);
        }
    }
    found
}

/// Whether the slot of a query is taken again after the wait behind it.
fn taken_later(sheet: &[u8], query: usize) -> bool {
    let own = script(sheet, rank_of(sheet, query));
    let named = |at: &usize| slot_of(sheet, *at) == slot_of(sheet, query);
    let mut later = (query..own.end).filter(named);
    later.any(|at| waits(sheet, at)) && later.any(|at| takes(sheet, at))
}

fn order_matters(sheet: &[u8], premise: Answer) -> [bool; PREMISE] {
    let place = premise.place as usize;
    let is = |number| premise.number == number;
    let of_kind = |kind| kind_of(sheet, place) == kind;
    let any = |index| field_of(sheet, index, at::PEER) == usize::from(ANY);
    let probes = |index: usize| kind_of(sheet, index) == kind::PROBE;
    let (probe, query) = (has(sheet, kind::PROBE), has(sheet, kind::QUERY));
    let mut later = operations(sheet).skip(place + 1);
    [
        is(0) && probe,
        is(20) && of_kind(kind::PROBE),
        is(20) && of_kind(kind::RECEIVE) && later.any(|index| probes(index) && any(index)),
        is(20) && query,
        is(21) && query,
        is(22) && query,
        is(23) && probe,
        is(23) && later.any(|index| queries(sheet, index)),
    ]
}
