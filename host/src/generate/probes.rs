//! Probes and queries (document 02, K9): in right sheets, with one field just
//! outside its range, and queries of slots that are held, freed or never taken;
//! and receives that ask for what the probe before them tells.

use super::{size, valid};
use crate::desk::Desk;
use crate::layout::kind::{BUFFERED, PROBE, QUERY, RECEIVE};
use crate::layout::{word, ANY, MOST_TAG, SLOTS};
use crate::random::Random;
use crate::sheet::{Operation, Sheet};
use jamturret::lent::Answer;

/// A sheet with probes and queries, one of them mostly wrong.
pub fn any(random: &mut Random) -> Vec<u8> {
    let size = size::any(random);
    let mut sheet = valid::sheet(random, &size);
    for _ in 0..random.pick(&[1, 1, 2]) {
        let rank = random.below(sheet.boards.len());
        match random.below(9) {
            0 | 1 => probe_with_wrong_field(&mut sheet, rank, random),
            2 | 3 => query_with_wrong_field(&mut sheet, rank, random),
            4 => unknown_kind(&mut sheet, rank, random),
            5 => query_anywhere(&mut sheet, rank, random),
            6 => taken_behind_query(&mut sheet, rank, random),
            7 => queried_and_forgotten(&mut sheet, rank, random),
            _ => {
                put_probe(&mut sheet, rank, random);
                put_query(&mut sheet, rank, random);
            }
        }
    }
    sheet.bytes()
}

/// Puts a right probe into a script; where it stands.
fn put_probe(sheet: &mut Sheet, rank: usize, random: &mut Random) -> usize {
    let peer = random.below(sheet.boards.len()) as u16;
    let tag = random.pick(&[0, 1, MOST_TAG]);
    let communicator = random.below(usize::from(sheet.communicators)) as u16;
    let probe = Operation::probe(
        random.pick(&[peer, peer, ANY]),
        random.pick(&[tag, tag, ANY]),
    );
    let script = &mut sheet.boards[rank].script;
    let place = random.between(0, script.len());
    script.insert(place, probe.on(communicator));
    place
}

/// An operation of a script that takes a slot, and the wait that frees it.
#[derive(Clone, Copy)]
struct Request {
    taken: usize,
    freed: usize,
    slot: u16,
}

/// One of a script. If it has none, an empty message to oneself and its wait
/// are put to its end.
fn request(script: &mut Vec<Operation>, rank: usize, random: &mut Random) -> Request {
    let waited = |taken: usize| {
        let slot = script[taken].slot;
        let mut later = taken + 1..script.len();
        let freed = later.find(|&at| script[at] == Operation::wait(slot))?;
        Some(Request { taken, freed, slot })
    };
    let takers = (0..script.len()).filter(|&at| script[at].takes_slot());
    let requests: Vec<Request> = takers.filter_map(waited).collect();
    if !requests.is_empty() {
        return random.pick(&requests);
    }
    let (taken, slot) = (script.len(), random.below(SLOTS) as u16);
    let empty = Operation::send(BUFFERED, rank as u16, 0, 0, 0);
    script.extend([empty.nonblocking(slot), Operation::wait(slot)]);
    let freed = taken + 1;
    Request { taken, freed, slot }
}

/// Puts a query between an operation that takes a slot and its wait; where it
/// stands.
pub fn put_query(sheet: &mut Sheet, rank: usize, random: &mut Random) -> usize {
    let script = &mut sheet.boards[rank].script;
    let Request { taken, freed, slot } = request(script, rank, random);
    let place = random.between(taken + 1, freed);
    script.insert(place, Operation::query(slot));
    place
}

fn probe_with_wrong_field(sheet: &mut Sheet, rank: usize, random: &mut Random) {
    let place = put_probe(sheet, rank, random);
    let (boards, communicators) = (sheet.boards.len() as u16, sheet.communicators);
    let probe = &mut sheet.boards[rank].script[place];
    match random.below(8) {
        0 => probe.flag = 1,
        1 => probe.peer = boards,
        2 => probe.communicator = communicators,
        3 => probe.zero = 1,
        4 => probe.tag = MOST_TAG + 1,
        5 => probe.offset = 1,
        6 => probe.length = 1,
        _ => probe.slot = 1,
    }
}

fn query_with_wrong_field(sheet: &mut Sheet, rank: usize, random: &mut Random) {
    let place = put_query(sheet, rank, random);
    let query = &mut sheet.boards[rank].script[place];
    match random.below(8) {
        0 => query.flag = 1,
        1 => query.peer = 1,
        2 => query.communicator = 1,
        3 => query.zero = 1,
        4 => query.tag = 1,
        5 => query.offset = 1,
        6 => query.length = 1,
        _ => query.slot = SLOTS as u16,
    }
}

/// A kind on either side of the known ones, in the fields of a known one.
fn unknown_kind(sheet: &mut Sheet, rank: usize, random: &mut Random) {
    let place = match random.chance(50) {
        true => put_probe(sheet, rank, random),
        false => put_query(sheet, rank, random),
    };
    sheet.boards[rank].script[place].kind = random.pick(&[0, QUERY + 1]);
}

/// A query before its slot is taken, after it is freed, or on another board; at
/// times of any slot.
fn query_anywhere(sheet: &mut Sheet, rank: usize, random: &mut Random) {
    let Request { taken, freed, slot } = request(&mut sheet.boards[rank].script, rank, random);
    let other = random.below(sheet.boards.len());
    let length = |rank: usize| sheet.boards[rank].script.len();
    let (rank, place) = match random.below(4) {
        0 => (rank, random.between(0, taken)),
        1 => (other, random.between(0, length(other))),
        _ => (rank, random.between(freed + 1, length(rank))),
    };
    let any = random.below(SLOTS) as u16;
    let query = Operation::query(random.pick(&[slot, slot, slot, any]));
    sheet.boards[rank].script.insert(place, query);
}

/// The slot of a query is taken again behind it, before its wait, or, which is
/// right, between two waits.
fn taken_behind_query(sheet: &mut Sheet, rank: usize, random: &mut Random) {
    let place = put_query(sheet, rank, random);
    let script = &mut sheet.boards[rank].script;
    let slot = script[place].slot;
    let empty = Operation::send(BUFFERED, rank as u16, 0, 0, 0).nonblocking(slot);
    if random.chance(40) {
        script.insert(place + 1, Operation::wait(slot));
        script.insert(place + 2, empty);
    } else {
        script.insert(place + 1, empty);
    }
}

/// A query in place of the last wait for its slot.
fn queried_and_forgotten(sheet: &mut Sheet, rank: usize, random: &mut Random) {
    let script = &mut sheet.boards[rank].script;
    let slot = request(script, rank, random).slot;
    let last = script
        .iter()
        .rposition(|each| *each == Operation::wait(slot));
    script[last.expect("the request has a wait")] = Operation::query(slot);
}

/// How often a job is run to see what its probes tell.
const RUNS: usize = 8;

/// Lets the receives behind probes ask for what those tell under run, one after
/// the other, since each of them may change what follows.
pub fn receive_as_told(sheet: &mut Sheet) {
    for _ in 0..RUNS {
        let bytes = sheet.bytes();
        let mut desk = Desk::for_sheet(&bytes);
        let ran = desk.naive_run(&bytes) == Answer::SUCCESS;
        let told = ran.then(|| first_other(sheet, &desk));
        let Some((rank, place, receive)) = told.flatten() else {
            return;
        };
        sheet.boards[rank].script[place] = receive;
    }
}

/// The first receive that asks for something else than the finished probe
/// before it told: rank, place and what it should be.
fn first_other(sheet: &Sheet, desk: &Desk) -> Option<(usize, usize, Operation)> {
    let mut first = 0;
    for (rank, board) in sheet.boards.iter().enumerate() {
        let mut pairs = board.script.windows(2).enumerate();
        let other = pairs.find_map(|(at, pair)| {
            let row = desk.row(first + at);
            let probed = pair[0].kind == PROBE && pair[1].kind == RECEIVE && row[0] == 5;
            let told = Operation {
                peer: word(row, 4),
                tag: word(row, 6),
                communicator: pair[0].communicator,
                ..pair[1]
            };
            (probed && told != pair[1]).then_some((rank, at + 1, told))
        });
        if other.is_some() {
            return other;
        }
        first += board.script.len();
    }
    None
}
