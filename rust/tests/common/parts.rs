//! Random parts of small sheets of both editions that pass check, and of sheets
//! that forget requests: few boards, tags and communicators, so that much is
//! matched.

use super::random::Random;
use jamturret::limits::{MOST_SLOT, MOST_TAG};
use jamturret::{
    Board, BuildError, Edition, Mode, Operation, ProbeOperation, ReceiveOperation, SendOperation,
    Sheet, Source, Tag,
};

const MODES: [Mode; 4] = [
    Mode::Standard,
    Mode::Buffered,
    Mode::Synchronous,
    Mode::Ready,
];

/// What the operations of a sheet are drawn from.
struct Sizes {
    boards: usize,
    communicators: usize,
    payload: usize,
    inbox: usize,
}

/// The slots that a board holds, each with the area of its receive.
type Held = Vec<(usize, Option<(usize, usize)>)>;

/// A sheet that passes check.
pub fn random_sheet(random: &mut Random) -> Result<Sheet, BuildError> {
    sheet(random, 0)
}

/// A sheet that passes check but for requests that it may forget.
pub fn forgetful_sheet(random: &mut Random) -> Result<Sheet, BuildError> {
    sheet(random, 30)
}

/// A sheet that breaks no rule, save that it forgets so many in a hundred of
/// the requests that its scripts hold at their ends.
fn sheet(random: &mut Random, forgets: usize) -> Result<Sheet, BuildError> {
    let sizes = Sizes {
        boards: random.between(1, 4),
        communicators: random.between(1, 2),
        payload: random.below(12),
        inbox: 0,
    };
    let edition = random.pick(&[Edition::First, Edition::Second]);
    let boards = (0..sizes.boards).map(|_| {
        let inbox = random.below(12);
        Board {
            attached: random.below(80),
            inbox,
            standard_room: standard_room(random, edition),
            script: script(random, &Sizes { inbox, ..sizes }, forgets),
        }
    });
    let boards = boards.collect();
    let payload = random.bytes(sizes.payload);
    Sheet::build_in(edition, sizes.communicators, boards, &payload)
}

/// For no message, for some or for all of a script.
fn standard_room(random: &mut Random, edition: Edition) -> usize {
    match edition {
        Edition::First => 0,
        Edition::Second => random.pick(&[0, 1, 6, 12, 100]),
    }
}

fn script(random: &mut Random, sizes: &Sizes, forgets: usize) -> Vec<Operation> {
    let mut held = Held::new();
    let length = random.below(6);
    let operations = (0..length).filter_map(|_| match random.below(12) {
        0..=3 => Some(send(random, sizes, &mut held)),
        4..=7 => receive(random, sizes, &mut held),
        8 => Some(probe(random, sizes)),
        9 => query(random, &held),
        _ => wait(random, &mut held),
    });
    let mut operations: Vec<Operation> = operations.collect();
    while let Some(last) = wait(random, &mut held) {
        if !random.chance(forgets) {
            operations.push(last);
        }
    }
    operations
}

/// A stretch of so many bytes: its start and its length.
fn stretch(random: &mut Random, bytes: usize) -> (usize, usize) {
    let start = random.between(0, bytes);
    (start, random.between(0, bytes - start))
}

fn tag(random: &mut Random) -> usize {
    random.pick(&[0, 1, 1, 1, MOST_TAG])
}

/// A slot that is not held, half of the time.
fn slot(random: &mut Random, held: &Held) -> Option<usize> {
    let slot = random.pick(&[0, 1, 2, MOST_SLOT]);
    let free = held.iter().all(|&(taken, _)| taken != slot);
    (free && random.chance(50)).then_some(slot)
}

fn send(random: &mut Random, sizes: &Sizes, held: &mut Held) -> Operation {
    let (offset, length) = stretch(random, sizes.payload);
    let slot = slot(random, held);
    held.extend(slot.map(|slot| (slot, None)));
    Operation::Send(SendOperation {
        mode: random.pick(&MODES),
        to: random.below(sizes.boards),
        communicator: random.below(sizes.communicators),
        tag: tag(random),
        offset,
        length,
        slot,
    })
}

/// None where the area drawn shares a byte with one that is held.
fn receive(random: &mut Random, sizes: &Sizes, held: &mut Held) -> Option<Operation> {
    let (offset, capacity) = stretch(random, sizes.inbox);
    let area = (offset, offset + capacity);
    let shares = |other: (usize, usize)| area.0.max(other.0) < area.1.min(other.1);
    if held.iter().filter_map(|&(_, area)| area).any(shares) {
        return None;
    }
    let slot = slot(random, held);
    held.extend(slot.map(|slot| (slot, Some(area))));
    Some(Operation::Receive(ReceiveOperation {
        from: source(random, sizes),
        communicator: random.below(sizes.communicators),
        tag: asked_tag(random),
        offset,
        capacity,
        slot,
    }))
}

fn source(random: &mut Random, sizes: &Sizes) -> Source {
    match random.chance(20) {
        true => Source::Any,
        false => Source::Rank(random.below(sizes.boards)),
    }
}

fn asked_tag(random: &mut Random) -> Tag {
    match random.chance(30) {
        true => Tag::Any,
        false => Tag::Is(tag(random)),
    }
}

fn probe(random: &mut Random, sizes: &Sizes) -> Operation {
    Operation::Probe(ProbeOperation {
        from: source(random, sizes),
        communicator: random.below(sizes.communicators),
        tag: asked_tag(random),
    })
}

/// None where no slot is held.
fn query(random: &mut Random, held: &Held) -> Option<Operation> {
    let at = (!held.is_empty()).then(|| random.below(held.len()))?;
    let (slot, _) = held[at];
    Some(Operation::StatusQuery { slot })
}

/// None where no slot is held.
fn wait(random: &mut Random, held: &mut Held) -> Option<Operation> {
    if held.is_empty() {
        return None;
    }
    let (slot, _) = held.swap_remove(random.below(held.len()));
    Some(Operation::Wait { slot })
}
