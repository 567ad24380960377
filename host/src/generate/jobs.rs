//! Sheets whose messages mostly have a receive: boards that talk to each
//! other, so that steps, matches, buffers and deliveries are tried. Few
//! ranks, tags and communicators, so that several messages fit one receive. Some
//! have probes before their receives, and queries (document 02, K9), and some are
//! of edition 2 (K6).

use super::editions::add_rooms;
use super::probes::receive_as_told;
use super::script::{Surroundings, Writer};
use crate::layout::kind::{BUFFERED, READY, RECEIVE, STANDARD, SYNCHRONOUS};
use crate::layout::{Edition, ANY, BSEND_OVERHEAD, MOST_ATTACHED, MOST_BOARDS};
use crate::layout::{MOST_INBOX_TOTAL, MOST_LENGTH, MOST_OPERATIONS, MOST_PAYLOAD};
use crate::random::Random;
use crate::sheet::{Board, Operation, Sheet};

/// How large a job is and what its boards do. Shares are out of a hundred.
struct Manner {
    boards: usize,
    messages: usize,
    payload: usize,
    inboxes: usize,
    communicators: usize,
    tags: usize,
    longest: usize,
    /// Nothing whose outcome depends on the order (document 01, demand 3).
    calm: bool,
    nonblocking: usize,
    waits: usize,
    /// Neighbours of a script that change places.
    displaced: usize,
    /// Transfers without a partner.
    stray: usize,
    /// Messages of a board to itself.
    to_oneself: usize,
    /// Messages of other boards to the last one.
    to_last: usize,
    /// Receives from any source, and the lowest communicator that has them.
    any_source: usize,
    any_source_on: u16,
    /// Receives that come with a probe.
    probes: usize,
    /// Probes from any source.
    any_source_probes: usize,
    /// Queries of held slots, before each operation and each wait at the end.
    queries: usize,
    /// The kinds that sends are drawn from.
    kinds: &'static [u8],
    rooms: Rooms,
}

/// Whether a job is of edition 2, and what rooms its boards have.
#[derive(Clone, Copy, PartialEq, Eq)]
enum Rooms {
    /// Edition 1.
    None,
    /// Each is 0 or covers all standard sends of its board.
    Covering,
    Any,
}

impl Rooms {
    fn any(random: &mut Random, calm: bool) -> Rooms {
        match random.chance(45) {
            false => Rooms::None,
            true if calm => Rooms::Covering,
            true => Rooms::Any,
        }
    }

    fn add_to(self, sheet: &mut Sheet, random: &mut Random) {
        match self {
            Rooms::None => {}
            Rooms::Covering => add_rooms(sheet, true, random),
            Rooms::Any => add_rooms(sheet, false, random),
        }
    }
}

const ALL_KINDS: &[u8] = &[
    STANDARD,
    BUFFERED,
    BUFFERED,
    BUFFERED,
    SYNCHRONOUS,
    STANDARD,
    READY,
];
const WITHOUT_READY: &[u8] = &[STANDARD, BUFFERED, BUFFERED, SYNCHRONOUS];
const STANDARD_MOSTLY: &[u8] = &[STANDARD, STANDARD, STANDARD, BUFFERED];
const UNBUFFERED: &[u8] = &[STANDARD, SYNCHRONOUS];

/// Two of them differ only in the high byte.
const TAGS: [u16; 4] = [0, 256, 1, 32_767];

fn manner(random: &mut Random, calm: bool) -> Manner {
    let without_ready = calm || random.chance(50);
    let rooms = Rooms::any(random, calm);
    Manner {
        boards: random.between(2, 4),
        messages: random.between(1, 14),
        payload: random.between(0, 48),
        inboxes: random.between(16, 160),
        communicators: random.pick(&[1, 1, 2, 3]),
        tags: random.between(1, TAGS.len()),
        longest: 12,
        calm,
        nonblocking: random.pick(&[0, 20, 50, 80, 100]),
        waits: random.pick(&[0, 10, 30, 60]),
        displaced: random.pick(&[0, 0, 0, 10, 40]),
        stray: random.pick(&[0, 0, 0, 5, 20]),
        to_oneself: random.pick(&[0, 0, 5, 20]),
        to_last: 0,
        any_source: match calm {
            true => 0,
            false => random.pick(&[0, 10, 40, 100]),
        },
        any_source_on: 0,
        probes: random.pick(&[0, 0, 0, 30, 70]),
        any_source_probes: match calm {
            true => 0,
            false => random.pick(&[0, 30, 100]),
        },
        queries: match calm {
            true => 0,
            false => random.pick(&[0, 0, 20, 50]),
        },
        kinds: match without_ready {
            _ if rooms == Rooms::Any && random.chance(40) => STANDARD_MOSTLY,
            true => random.pick(&[WITHOUT_READY, STANDARD_MOSTLY, &[BUFFERED], UNBUFFERED]),
            false => random.pick(&[ALL_KINDS, &[READY], &[BUFFERED, READY]]),
        },
        rooms,
    }
}

pub fn small(random: &mut Random, calm: bool) -> Sheet {
    let mut manner = manner(random, calm);
    if random.chance(10) {
        manner.boards = random.pick(&[1, 5, 9, MOST_BOARDS]);
    }
    sheet(random, &manner)
}

/// Calm, but for probes from any source, or for queries, or for both.
pub fn nearly_calm(random: &mut Random) -> Sheet {
    let (probes, queries) = random.pick(&[(70, 0), (90, 0), (0, 40), (40, 20)]);
    let manner = Manner {
        boards: random.between(3, 4),
        communicators: random.pick(&[1, 1, 2]),
        to_last: random.pick(&[0, 60, 90]),
        probes,
        any_source_probes: 80,
        queries,
        nonblocking: random.pick(&[20, 60, 100]),
        ..manner(random, true)
    };
    sheet(random, &manner)
}

/// Calm, but for rooms that may cover some standard sends of a board only. Where
/// such a send has no receive, whether its board goes on may depend on the
/// order.
pub fn nearly_covered(random: &mut Random) -> Sheet {
    let manner = Manner {
        boards: random.between(3, 4),
        messages: random.between(4, 14),
        stray: random.pick(&[10, 20, 30]),
        displaced: random.pick(&[0, 10, 40]),
        to_last: random.pick(&[0, 60, 90]),
        kinds: STANDARD_MOSTLY,
        rooms: Rooms::Any,
        ..manner(random, true)
    };
    sheet(random, &manner)
}

/// With receives from any source, and neither queries nor probes from any source;
/// buffers and rooms mostly cover, and sends may be ready ones.
pub fn from_any_source(random: &mut Random) -> Sheet {
    let manner = Manner {
        boards: random.between(3, 4),
        messages: random.between(2, 10),
        communicators: random.pick(&[1, 1, 2, 3]),
        to_last: random.pick(&[0, 60, 90]),
        calm: random.chance(60),
        any_source: random.pick(&[20, 50, 100]),
        any_source_on: random.pick(&[0, 0, 1]),
        kinds: random.pick(&[
            WITHOUT_READY,
            WITHOUT_READY,
            ALL_KINDS,
            &[BUFFERED],
            UNBUFFERED,
        ]),
        ..manner(random, true)
    };
    sheet(random, &manner)
}

pub fn medium(random: &mut Random, calm: bool) -> Sheet {
    let manner = Manner {
        boards: random.between(2, MOST_BOARDS),
        messages: random.between(20, 120),
        payload: random.between(0, 2000),
        inboxes: random.between(500, 8000),
        longest: random.pick(&[0, 12, 200, 600]),
        ..manner(random, calm)
    };
    sheet(random, &manner)
}

/// Up to the most operations, messages of up to 4,096 bytes.
pub fn large(random: &mut Random, calm: bool) -> Sheet {
    let nonblocking = random.pick(&[0, 30]);
    let manner = manner(random, calm);
    let manner = Manner {
        boards: random.pick(&[1, 4, 15, MOST_BOARDS]),
        messages: match (nonblocking, manner.probes + manner.queries) {
            (0, 0) => random.pick(&[300, MOST_OPERATIONS / 2]),
            // Each receive may bring a probe.
            (0, _) => random.pick(&[300, MOST_OPERATIONS / 4]),
            // Each transfer may bring a wait.
            (_, 0) => random.between(100, MOST_OPERATIONS / 4),
            // And queries.
            _ => random.between(100, MOST_OPERATIONS / 8),
        },
        payload: MOST_PAYLOAD,
        inboxes: MOST_INBOX_TOTAL,
        communicators: random.between(1, 8),
        longest: random.pick(&[12, 1000, usize::from(MOST_LENGTH)]),
        nonblocking,
        waits: nonblocking,
        ..manner
    };
    sheet(random, &manner)
}

fn sheet(random: &mut Random, manner: &Manner) -> Sheet {
    let mut wishes = wishes(random, manner);
    if manner.calm {
        wishes.iter_mut().for_each(|script| cover(script));
    }
    let around = Surroundings {
        boards: manner.boards,
        communicators: manner.communicators as u16,
        payload: manner.payload,
        nonblocking: manner.nonblocking,
        waits: manner.waits,
        queries: manner.queries,
        probes: 0,
    };
    let inbox = manner.inboxes / manner.boards;
    let boards = wishes.iter().map(|wishes| {
        let mut writer = Writer::new(&around, inbox);
        for &wish in wishes {
            writer.put(wish, random);
        }
        let script = writer.finish(random);
        Board {
            attached: attached(random, manner, &script),
            inbox: inbox as u16,
            script,
            ..Board::default()
        }
    });
    let mut sheet = Sheet {
        edition: Edition::First,
        communicators: manner.communicators as u16,
        boards: boards.collect(),
        payload: random.bytes(manner.payload),
    };
    manner.rooms.add_to(&mut sheet, random);
    if manner.probes > 0 && manner.messages < MANY && random.chance(70) {
        receive_as_told(&mut sheet);
    }
    sheet
}

/// From so many messages on a job is not run to see what its probes tell.
const MANY: usize = 50;

/// The scripts without slots and areas. Sends and receives stand in one
/// order on all boards, so that a job without displaced ones can finish.
fn wishes(random: &mut Random, manner: &Manner) -> Vec<Vec<Operation>> {
    let mut scripts = vec![Vec::new(); manner.boards];
    for _ in 0..manner.messages {
        let source = random.below(manner.boards);
        let destination = match manner.boards > 1 && !random.chance(manner.to_oneself) {
            true if random.chance(manner.to_last) => manner.boards - 1,
            true => (source + random.between(1, manner.boards - 1)) % manner.boards,
            false => source,
        };
        let (send, receive) = pair(random, manner, source, destination);
        let received = received(random, manner, &send, source, receive);
        match random.chance(manner.stray) {
            true if random.chance(50) => scripts[source].push(send),
            true => scripts[destination].extend(received),
            false if source == destination && (received.len() == 1 || send.kind != BUFFERED) => {
                // Only a posted or a buffered one can meet on one board, and
                // a probe tells none that meets a posted receive.
                scripts[source].extend([receive, send]);
            }
            false => {
                scripts[source].push(send);
                scripts[destination].extend(received);
            }
        }
    }
    for script in &mut scripts {
        for at in 1..script.len() {
            if random.chance(manner.displaced) {
                script.swap(at - 1, at);
            }
        }
    }
    scripts
}

fn pair(
    random: &mut Random,
    manner: &Manner,
    source: usize,
    destination: usize,
) -> (Operation, Operation) {
    let length = random.between(0, manner.longest.min(manner.payload));
    let offset = random.between(0, manner.payload - length);
    let send = Operation {
        peer: destination as u16,
        communicator: random.below(manner.communicators) as u16,
        tag: TAGS[random.below(manner.tags)],
        ..Operation::send(
            random.pick(manner.kinds),
            0,
            0,
            offset as u16,
            length as u16,
        )
    };
    let mut receive = Operation {
        kind: RECEIVE,
        peer: source as u16,
        length: capacity(random, length) as u16,
        offset: 0,
        ..send
    };
    if random.chance(30) {
        receive.tag = ANY;
    }
    if send.communicator >= manner.any_source_on && random.chance(manner.any_source) {
        receive.peer = ANY;
    }
    (send, receive)
}

/// The receive of a message, and mostly before it a probe that the message
/// fits; seldom two of them, one behind the receive, or one alone.
fn received(
    random: &mut Random,
    manner: &Manner,
    send: &Operation,
    source: usize,
    receive: Operation,
) -> Vec<Operation> {
    if !random.chance(manner.probes) {
        return vec![receive];
    }
    let peer = match random.chance(manner.any_source_probes) {
        true => ANY,
        false => source as u16,
    };
    let tag = match random.chance(30) {
        true => ANY,
        false => send.tag,
    };
    let probe = Operation::probe(peer, tag).on(send.communicator);
    match random.below(40) {
        0 => vec![probe, probe, receive],
        1 => vec![receive, probe],
        2 => vec![probe],
        _ => vec![probe, receive],
    }
}

/// Mostly enough for a message, at times just enough, too little or nothing.
fn capacity(random: &mut Random, length: usize) -> usize {
    match random.below(16) {
        0 | 1 => length.saturating_sub(1),
        2 | 3 => length / 2,
        4 => 0,
        5..=8 => length,
        _ => (length + random.below(4)).min(usize::from(MOST_LENGTH)),
    }
}

/// The charges of all buffered sends of a script, were none matched, with this
/// overhead for each.
fn charges(script: &[Operation], overhead: usize) -> usize {
    let buffered = script.iter().filter(|operation| operation.kind == BUFFERED);
    buffered
        .map(|operation| usize::from(operation.length) + overhead)
        .sum()
}

/// Makes those buffered sends standard that no attached buffer covers.
fn cover(script: &mut [Operation]) {
    let mut total = 0;
    for operation in script {
        if operation.kind == BUFFERED {
            total += usize::from(operation.length) + BSEND_OVERHEAD;
            if total > MOST_ATTACHED {
                operation.kind = STANDARD;
            }
        }
    }
}

/// Covering all charges on a calm sheet; else often just enough, one byte or
/// one overhead short, enough for the lengths alone, or little.
fn attached(random: &mut Random, manner: &Manner, script: &[Operation]) -> u16 {
    let charges = |overhead| charges(script, overhead).min(MOST_ATTACHED);
    let all = charges(BSEND_OVERHEAD);
    let size = match random.below(8) {
        0 | 1 => all,
        2 => MOST_ATTACHED,
        _ if manner.calm => random.between(all, MOST_ATTACHED),
        3 => all.saturating_sub(1),
        4 => all.saturating_sub(BSEND_OVERHEAD),
        5 => charges(0),
        _ => random.between(0, all),
    };
    size as u16
}
