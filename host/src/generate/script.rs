//! Right scripts for one board: slots are taken when free and freed when
//! held, areas keep clear of those of held receives (document 01, Slots and
//! Areas), and at the end every slot is free (document 02, K7). Queries are of
//! held slots (K9).

use crate::layout::{kind, ANY, MOST_TAG, SLOTS};
use crate::random::Random;
use crate::sheet::{longest, Operation};

/// What the scripts of a sheet have in common.
pub struct Surroundings {
    pub boards: usize,
    pub communicators: u16,
    pub payload: usize,
    /// How many of a hundred transfers are nonblocking.
    pub nonblocking: usize,
    /// How many of a hundred operations are waits when a slot is held.
    pub waits: usize,
    /// How many of a hundred are queries when a slot is held.
    pub queries: usize,
    /// How many of a hundred are probes, where operations are drawn here.
    pub probes: usize,
}

pub struct Writer<'a> {
    around: &'a Surroundings,
    inbox: usize,
    held: [Option<Operation>; SLOTS],
    last_freed: Option<Operation>,
    script: Vec<Operation>,
}

impl<'a> Writer<'a> {
    pub fn new(around: &'a Surroundings, inbox: usize) -> Writer<'a> {
        Writer {
            around,
            inbox,
            held: [None; SLOTS],
            last_freed: None,
            script: Vec::new(),
        }
    }

    /// The script, with waits for all slots that are still held, and queries
    /// before them.
    pub fn finish(mut self, random: &mut Random) -> Vec<Operation> {
        while self.holding() > 0 {
            self.queries(random);
            self.wait(random);
        }
        self.script
    }

    /// How many slots are held.
    fn holding(&self) -> usize {
        self.held.iter().flatten().count()
    }

    /// Adds one operation that breaks no rule. It is the first of `left`, which
    /// are enough for a wait for each slot that is held.
    pub fn add(&mut self, left: usize, random: &mut Random) {
        let holding = self.holding();
        if holding > 0 && (holding == left || random.chance(self.around.waits)) {
            return self.wait(random);
        }
        if holding > 0 && random.chance(self.around.queries) {
            return self.query(random);
        }
        if random.chance(self.around.probes) {
            let probe = self.probe(random);
            return self.script.push(probe);
        }
        let operation = match random.chance(50) {
            true => self.receive(random),
            false => self.send(random),
        };
        match holding + 2 <= left {
            true => self.take_up(operation, random),
            // A nonblocking one would have no wait.
            false => self.script.push(operation),
        }
    }

    /// Adds this blocking transfer, at times as a nonblocking one and at
    /// times behind queries or a wait; or this probe. A receive gets a free
    /// area of its length. Nothing comes between a probe and what follows it.
    pub fn put(&mut self, mut operation: Operation, random: &mut Random) {
        let probed = |last: &Operation| last.kind == kind::PROBE;
        if !self.script.last().is_some_and(probed) {
            self.queries(random);
            if self.holding() > 0 && random.chance(self.around.waits) {
                self.wait(random);
            }
        }
        if operation.kind == kind::PROBE {
            return self.script.push(operation);
        }
        if operation.kind == kind::RECEIVE {
            let (offset, length) = self.area_of(usize::from(operation.length), random);
            operation.offset = offset;
            operation.length = length;
        }
        self.take_up(operation, random);
    }

    /// Waits for a held slot; there is one.
    fn wait(&mut self, random: &mut Random) {
        let slot = self.some_slot(random, true);
        self.last_freed = self.held[usize::from(slot)].take();
        self.script.push(Operation::wait(slot));
    }

    /// Queries of held slots, often none and at times several of one.
    fn queries(&mut self, random: &mut Random) {
        while self.holding() > 0 && random.chance(self.around.queries) {
            self.query(random);
        }
    }

    /// Queries a held slot; there is one.
    fn query(&mut self, random: &mut Random) {
        let slot = self.some_slot(random, true);
        self.script.push(Operation::query(slot));
    }

    fn take_up(&mut self, mut operation: Operation, random: &mut Random) {
        if self.holding() < SLOTS && random.chance(self.around.nonblocking) {
            let slot = self.free_slot(random);
            operation = operation.nonblocking(slot);
            self.held[usize::from(slot)] = Some(operation);
        }
        self.script.push(operation);
    }

    /// A slot that is held, or one that is not; there is one.
    fn some_slot(&self, random: &mut Random, held: bool) -> u16 {
        let mut slot = random.below(SLOTS);
        while self.held[slot].is_some() != held {
            slot = (slot + 1) % SLOTS;
        }
        slot as u16
    }

    /// Often the slot freed last, so that slots are retaken.
    fn free_slot(&self, random: &mut Random) -> u16 {
        match self.last_freed {
            Some(freed) if self.held[usize::from(freed.slot)].is_none() && random.chance(40) => {
                freed.slot
            }
            _ => self.some_slot(random, false),
        }
    }

    fn send(&self, random: &mut Random) -> Operation {
        let (offset, length) = stretch(random, self.around.payload);
        Operation {
            peer: random.below(self.around.boards) as u16,
            communicator: random.below(usize::from(self.around.communicators)) as u16,
            tag: tag(random),
            ..Operation::send(random.pick(&[1, 2, 3, 4]), 0, 0, offset, length)
        }
    }

    fn receive(&self, random: &mut Random) -> Operation {
        let (offset, length) = self.area(random);
        let send = self.send(random);
        Operation {
            kind: kind::RECEIVE,
            peer: or_any(send.peer, random),
            tag: or_any(send.tag, random),
            offset,
            length,
            ..send
        }
    }

    fn probe(&self, random: &mut Random) -> Operation {
        let send = self.send(random);
        let (peer, tag) = (or_any(send.peer, random), or_any(send.tag, random));
        Operation::probe(peer, tag).on(send.communicator)
    }

    /// An area that shares no byte with a held one; an empty one if a few
    /// tries find no other.
    fn area(&self, random: &mut Random) -> (u16, u16) {
        for _ in 0..4 {
            let (offset, length) = self.wish(random);
            let inside = usize::from(offset) + usize::from(length) <= self.inbox;
            if inside && !self.shares(offset, length) {
                return (offset, length);
            }
        }
        (random.between(0, self.inbox) as u16, 0)
    }

    /// A free area of this length anywhere; a shorter one if a few tries find
    /// none.
    fn area_of(&self, wanted: usize, random: &mut Random) -> (u16, u16) {
        let mut length = wanted.min(self.inbox);
        while length > 0 {
            for _ in 0..3 {
                let offset = random.between(0, self.inbox - length);
                if !self.shares(offset as u16, length as u16) {
                    return (offset as u16, length as u16);
                }
            }
            length /= 2;
        }
        (random.between(0, self.inbox) as u16, 0)
    }

    /// Touching a held area on either side, the area freed last, or any.
    fn wish(&self, random: &mut Random) -> (u16, u16) {
        let (offset, length) = stretch(random, self.inbox);
        let near = self.held[random.below(SLOTS)].filter(|held| held.kind == kind::RECEIVE);
        match (near, random.below(4)) {
            (Some(held), 0) => (held.offset + held.length, length),
            (Some(held), 1) => (held.offset.saturating_sub(length), length),
            (_, 2) => match self.last_freed {
                Some(freed) if freed.kind == kind::RECEIVE => (freed.offset, freed.length),
                _ => (offset, length),
            },
            _ => (offset, length),
        }
    }

    fn shares(&self, offset: u16, length: u16) -> bool {
        let receives = self.held.iter().flatten();
        receives
            .filter(|held| held.kind == kind::RECEIVE)
            .any(|held| {
                length > 0
                    && held.length > 0
                    && offset < held.offset + held.length
                    && held.offset < offset + length
            })
    }
}

/// The slots that no wait of a script frees, in the order of their number.
pub fn held_at_end(script: &[Operation]) -> Vec<u16> {
    let mut held = [false; SLOTS];
    for operation in script {
        if let Some(held) = held.get_mut(usize::from(operation.slot)) {
            *held = operation.takes_slot() || *held && operation.kind != kind::WAIT;
        }
    }
    let slots = (0..SLOTS).filter(|&slot| held[slot]);
    slots.map(|slot| slot as u16).collect()
}

/// Puts waits for all slots that are held to the end of a script.
pub fn free_all(script: &mut Vec<Operation>, random: &mut Random) {
    let mut held = held_at_end(script);
    while !held.is_empty() {
        let slot = held.swap_remove(random.below(held.len()));
        script.push(Operation::wait(slot));
    }
}

fn or_any(number: u16, random: &mut Random) -> u16 {
    match random.chance(20) {
        true => ANY,
        false => number,
    }
}

fn tag(random: &mut Random) -> u16 {
    match random.below(8) {
        0 => 0,
        1 => MOST_TAG,
        2..=5 => random.below(4) as u16,
        _ => random.between(0, usize::from(MOST_TAG)) as u16,
    }
}

/// An offset and a length within `room` bytes: mostly short, at times the
/// longest, empty ones anywhere, some ending with the room.
pub fn stretch(random: &mut Random, room: usize) -> (u16, u16) {
    let most = longest(room);
    let length = match random.below(10) {
        0 => 0,
        1 => most,
        2 => random.between(0, most),
        _ => random.between(0, most.min(12)),
    };
    let offset = match random.below(5) {
        0 => room - length,
        _ => random.between(0, room - length),
    };
    (offset as u16, length as u16)
}
