//! Sheets that *check* accepts, but for those of a manner that holds slots to
//! the end, which document 02's request K7 refuses. Messages are drawn first;
//! both ends of each are then written into the scripts in one common order, so
//! that most jobs finish where nothing is exchanged or left out, and hang where
//! it is. Frozen: see the module above.

use super::manner::{Manner, TAGS};
use super::sheet::{self, Board, Operation};
use super::sheet::{ANY, BUFFERED, PROBE, QUERY, READY, RECEIVE, WAIT};
use crate::random::Random;

const INBOXES: usize = 16_384;
const ATTACHED: usize = 16_384;
const SLOTS: usize = 32;

pub struct Job {
    pub communicators: u16,
    pub boards: Vec<Board>,
    pub payload: Vec<u8>,
    /// Ranks as the ends of the messages were written: an order that is
    /// followed to its end where nothing was exchanged or left out.
    pub intended: Vec<u8>,
}

impl Job {
    pub fn bytes(&self) -> Vec<u8> {
        sheet::bytes(self.communicators, &self.boards, &self.payload)
    }

    pub fn operations(&self) -> usize {
        self.boards.iter().map(|board| board.script.len()).sum()
    }

    pub fn inboxes(&self) -> usize {
        let sizes = self.boards.iter().map(|board| usize::from(board.inbox));
        sizes.sum()
    }
}

pub fn job(random: &mut Random, manner: &Manner) -> Job {
    let messages: Vec<Message> = (0..manner.messages)
        .map(|_| Message::draw(random, manner))
        .collect();
    let mut writer = Writer {
        manner,
        boards: vec![Script::default(); manner.boards],
        intended: Vec::new(),
        begun: vec![None; manner.messages],
    };
    for (index, is_send) in ends(random, manner, &messages) {
        writer.end(random, index, &messages[index], is_send);
    }
    if !manner.held {
        writer.free_all();
    }
    Job {
        communicators: manner.communicators as u16,
        boards: writer
            .boards
            .iter()
            .map(|script| script.finish(random, manner.scarce))
            .collect(),
        payload: random.bytes(manner.payload),
        intended: writer.intended,
    }
}

struct Message {
    kind: u8,
    source: usize,
    destination: usize,
    communicator: u16,
    tag: u16,
    offset: usize,
    length: usize,
}

impl Message {
    fn draw(random: &mut Random, manner: &Manner) -> Message {
        let source = random.below(manner.boards);
        let destination = match random.chance(manner.to_oneself) {
            true => source,
            false => (source + random.between(1, manner.boards.max(2) - 1)) % manner.boards,
        };
        let most = manner.longest.min(manner.payload);
        let length = match random.below(8) {
            0 => 0,
            1 => most,
            _ => random.between(0, most),
        };
        Message {
            kind: random.pick(manner.kinds),
            source,
            destination,
            communicator: random.below(manner.communicators) as u16,
            tag: TAGS[random.below(manner.tags)],
            offset: random.between(0, manner.payload - length),
            length,
        }
    }
}

/// The ends of all messages in the order in which they are written; true is
/// a send. A ready send mostly stands after its receive.
fn ends(random: &mut Random, manner: &Manner, messages: &[Message]) -> Vec<(usize, bool)> {
    let mut ends = Vec::new();
    for (index, message) in messages.iter().enumerate() {
        let late = if message.kind == READY { 90 } else { 50 };
        let is_send = !random.chance(late);
        ends.push((index, is_send));
        if !random.chance(manner.stray) {
            ends.push((index, !is_send));
        }
    }
    for place in 1..ends.len() {
        if random.chance(manner.exchanged) {
            ends.swap(place, place.saturating_sub(random.between(1, 5)));
        }
    }
    ends
}

/// A board's script while it is written.
#[derive(Clone, Default)]
struct Script {
    operations: Vec<Operation>,
    held: Vec<u16>,
    /// Where the next area starts: behind those that may be held.
    free: usize,
    inbox: usize,
    /// Lengths of the buffered sends, and how many there are.
    charged: usize,
    buffered: usize,
}

impl Script {
    /// An area that shares no byte with a held one: behind the last, or again
    /// at the start where nothing is held.
    fn area(&mut self, random: &mut Random, wanted: usize, most: usize) -> (usize, usize) {
        if self.held.is_empty() && random.chance(50) {
            self.free = 0;
        }
        let offset = self.free;
        let capacity = wanted.min(most - offset);
        self.free += capacity;
        self.inbox = self.inbox.max(self.free);
        (offset, capacity)
    }

    /// A slot that is not held, mostly a low one.
    fn slot(&self, random: &mut Random) -> Option<u16> {
        let first = random.pick(&[0, 0, 5, SLOTS - 1]);
        let slots = (0..SLOTS).map(|step| ((first + step) % SLOTS) as u16);
        let mut free = slots.filter(|slot| !self.held.contains(slot));
        free.next()
    }

    /// The attached size around what is needed: for the lengths alone, and
    /// with the overhead of document 02's request K2.
    fn finish(&self, random: &mut Random, scarce: usize) -> Board {
        let with_overhead = self.charged + 32 * self.buffered;
        let attached = match (random.chance(scarce), random.below(6)) {
            (true, 0) => 0,
            (true, 1) => self.charged / 2,
            (true, _) => self.charged.saturating_sub(1),
            (false, 0) => self.charged + 1,
            (false, 1) => ATTACHED,
            (false, 2) => with_overhead,
            (false, 3) => with_overhead.saturating_sub(1),
            (false, _) => self.charged,
        };
        Board {
            script: self.operations.clone(),
            attached: attached.min(ATTACHED) as u16,
            inbox: self.inbox as u16,
        }
    }
}

struct Writer<'a> {
    manner: &'a Manner,
    boards: Vec<Script>,
    intended: Vec<u8>,
    /// The rank of a message's end that is written, and whether it blocks.
    begun: Vec<Option<(usize, bool)>>,
}

impl Writer<'_> {
    fn add(&mut self, rank: usize, operation: Operation) {
        self.boards[rank].operations.push(operation);
        self.intended.push(rank as u8);
    }

    /// Writes one end of a message, and before it what belongs before it.
    fn end(&mut self, random: &mut Random, index: usize, message: &Message, is_send: bool) {
        let rank = match is_send {
            true => message.source,
            false => message.destination,
        };
        self.before(random, rank);
        let mut operation = match is_send {
            true => self.send(message),
            false => self.receive(random, message),
        };
        let first_to_oneself = message.source == message.destination && self.begun[index].is_none();
        // A board that blocks in the first end never comes to the second.
        let share = if first_to_oneself {
            85
        } else {
            self.manner.nonblocking
        };
        let nonblocking = random.chance(share);
        let slot = self.boards[rank].slot(random).filter(|_| nonblocking);
        if let Some(slot) = slot {
            operation.flag = 1;
            operation.slot = slot;
            self.boards[rank].held.push(slot);
        }
        self.add(rank, operation);
        match self.begun[index] {
            None => self.begun[index] = Some((rank, slot.is_none())),
            Some(first) => self.both_written(first, (rank, slot.is_none())),
        }
    }

    /// Both ends of a message stand: their waiting halves are next.
    fn both_written(&mut self, first: (usize, bool), second: (usize, bool)) {
        for (rank, blocks) in [first, second] {
            if blocks {
                self.intended.push(rank as u8);
            }
        }
    }

    fn send(&mut self, message: &Message) -> Operation {
        if message.kind == BUFFERED {
            let script = &mut self.boards[message.source];
            script.charged += message.length;
            script.buffered += 1;
        }
        Operation {
            kind: message.kind,
            peer: message.destination as u16,
            communicator: message.communicator,
            tag: message.tag,
            offset: message.offset as u16,
            length: message.length as u16,
            ..Operation::default()
        }
    }

    fn receive(&mut self, random: &mut Random, message: &Message) -> Operation {
        let manner = self.manner;
        let wanted = match (random.chance(manner.cut), random.below(3)) {
            (true, 0) => message.length.saturating_sub(1),
            (true, 1) => 0,
            (true, _) => message.length / 2,
            (false, 0) => (message.length + random.between(0, 6)).min(4096),
            (false, _) => message.length,
        };
        let most = INBOXES / manner.boards;
        let (offset, capacity) = self.boards[message.destination].area(random, wanted, most);
        let operation = Operation {
            kind: RECEIVE,
            peer: any_or(random, manner.any_source, message.source as u16),
            communicator: message.communicator,
            tag: any_or(random, manner.any_tag, message.tag),
            offset: offset as u16,
            length: capacity as u16,
            ..Operation::default()
        };
        if random.chance(manner.probes) {
            self.probe(message.destination, operation);
        }
        operation
    }

    fn probe(&mut self, rank: usize, like: Operation) {
        let probe = Operation {
            kind: PROBE,
            offset: 0,
            length: 0,
            ..like
        };
        self.add(rank, probe);
    }

    /// At times a wait for a held slot, or a query of one.
    fn before(&mut self, random: &mut Random, rank: usize) {
        if self.boards[rank].held.is_empty() {
            return;
        }
        let which = random.below(self.boards[rank].held.len());
        if random.chance(self.manner.probes) {
            let slot = self.boards[rank].held[which];
            self.add(rank, of_slot(QUERY, slot));
        }
        if random.chance(self.manner.waits) {
            let slot = self.boards[rank].held.remove(which);
            self.add(rank, of_slot(WAIT, slot));
        }
    }

    fn free_all(&mut self) {
        for rank in 0..self.boards.len() {
            for slot in std::mem::take(&mut self.boards[rank].held) {
                self.add(rank, of_slot(WAIT, slot));
            }
        }
    }
}

fn of_slot(kind: u8, slot: u16) -> Operation {
    Operation {
        kind,
        slot,
        ..Operation::default()
    }
}

fn any_or(random: &mut Random, share: usize, value: u16) -> u16 {
    match random.chance(share) {
        true => ANY,
        false => value,
    }
}
