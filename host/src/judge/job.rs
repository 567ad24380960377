//! The state of a job and its steps (document 01, How a board steps; probes and
//! queries: document 02, K9; rooms for standard sends: K6). Plain lists, searched
//! from the front.

use super::script::Script;
use crate::layout::{kind, SLOTS};

/// What has become of an operation; the report's states in words.
#[derive(Clone, Copy, Debug, PartialEq, Eq)]
pub enum State {
    NotEntered,
    Pending,
    /// In an attached buffer or in a room for standard sends.
    Buffered,
    Matched {
        partner: usize,
        cut: bool,
    },
    WaitFinished,
    /// The message that the probe told.
    Probed {
        message: usize,
    },
    /// Whether the operation of the queried slot was complete.
    Queried {
        complete: bool,
    },
}

/// The step that comes next on a board.
enum Next {
    /// An initiating step.
    Initiate,
    /// The waiting half of this operation; a wait's is that of the operation
    /// that holds its slot.
    WaitingHalf(usize),
    /// The one step of a probe.
    Probe,
    /// The one step of a query of this operation.
    Query(usize),
}

#[derive(Clone, Copy, PartialEq, Eq)]
pub enum Stop {
    Overflow,
    NotReady,
}

/// What is charged and not yet matched, and the most of it after any step.
#[derive(Clone, Copy, Default)]
pub struct Account {
    pub in_use: usize,
    pub peak: usize,
}

#[derive(Clone, Default)]
pub struct Board {
    pub finished: usize,
    /// The next operation is blocking and its initiating step is done.
    in_waiting_half: bool,
    /// Of buffered sends.
    pub attached: Account,
    /// Of standard sends.
    pub standard: Account,
    /// The operation that holds each slot.
    holders: [Option<usize>; SLOTS],
}

pub struct Job<'a> {
    pub script: &'a Script<'a>,
    pub boards: Vec<Board>,
    pub states: Vec<State>,
    /// Pending messages in the order in which they arrived.
    pub messages: Vec<usize>,
    /// Pending receives in the order in which they were posted.
    pub receives: Vec<usize>,
    pub inbox: Vec<u8>,
    pub steps: usize,
    pub cut_messages: usize,
    /// Why, and at which operation.
    pub stop: Option<(Stop, usize)>,
}

impl<'a> Job<'a> {
    /// Nothing entered, no buffer in use, and the lent inboxes.
    pub fn new(script: &'a Script<'a>, inbox: &[u8]) -> Job<'a> {
        Job {
            script,
            boards: vec![Board::default(); script.boards.len()],
            states: vec![State::NotEntered; script.operations.len()],
            messages: Vec::new(),
            receives: Vec::new(),
            inbox: inbox.to_vec(),
            steps: 0,
            cut_messages: 0,
            stop: None,
        }
    }

    pub fn finished(&self, rank: usize) -> bool {
        self.boards[rank].finished == self.script.boards[rank].count
    }

    /// The operation that the rank is at; the rank is not finished.
    fn current(&self, rank: usize) -> usize {
        self.script.boards[rank].first + self.boards[rank].finished
    }

    /// The operation that the rank has come to; none if it is finished.
    pub fn at(&self, rank: usize) -> Option<usize> {
        (!self.finished(rank)).then(|| self.current(rank))
    }

    pub fn able(&self, rank: usize) -> bool {
        if self.stop.is_some() || self.finished(rank) {
            return false;
        }
        match self.next(rank) {
            Next::Initiate | Next::Query(_) => true,
            Next::WaitingHalf(operation) => self.complete(operation),
            Next::Probe => self.earliest_message(self.current(rank)).is_some(),
        }
    }

    /// The next step of a rank that is not finished.
    fn next(&self, rank: usize) -> Next {
        let index = self.current(rank);
        match self.script.operations[index].kind {
            kind::WAIT => Next::WaitingHalf(self.holder(rank, index)),
            kind::QUERY => Next::Query(self.holder(rank, index)),
            kind::PROBE => Next::Probe,
            _ if self.boards[rank].in_waiting_half => Next::WaitingHalf(index),
            _ => Next::Initiate,
        }
    }

    /// The operation that holds the slot of a wait or a query.
    fn holder(&self, rank: usize, index: usize) -> usize {
        let slot = usize::from(self.script.operations[index].slot);
        self.boards[rank].holders[slot].expect("it names a held slot")
    }

    /// The operation that the rank's next step initiates, and the list that it
    /// searches; none if no initiating step comes next.
    pub fn searches(&self, rank: usize) -> Option<(usize, &[usize])> {
        let Next::Initiate = self.next(rank) else {
            return None;
        };
        let index = self.current(rank);
        match self.script.is_receive(index) {
            true => Some((index, &self.messages)),
            false => Some((index, &self.receives)),
        }
    }

    /// The probe that is the next step of an able rank, and the message that it
    /// tells; none if another step comes next.
    pub fn probes(&self, rank: usize) -> Option<(usize, usize)> {
        let Next::Probe = self.next(rank) else {
            return None;
        };
        let index = self.current(rank);
        Some((index, self.told_message(index)))
    }

    /// Where the earliest message stands that fits a receive or a probe.
    fn earliest_message(&self, index: usize) -> Option<usize> {
        let mut messages = self.messages.iter();
        messages.position(|&message| self.script.fits(message, index))
    }

    fn complete(&self, index: usize) -> bool {
        matches!(self.states[index], State::Matched { .. } | State::Buffered)
    }

    /// One step of an able rank.
    pub fn step(&mut self, rank: usize) {
        self.steps += 1;
        match self.next(rank) {
            Next::Initiate => self.initiate(rank),
            Next::WaitingHalf(_) => self.waiting_half(rank),
            Next::Probe => self.probe(rank),
            Next::Query(holder) => {
                let complete = self.complete(holder);
                self.end(rank, State::Queried { complete });
            }
        }
        for board in &mut self.boards {
            for account in [&mut board.attached, &mut board.standard] {
                account.peak = account.peak.max(account.in_use);
            }
        }
    }

    fn waiting_half(&mut self, rank: usize) {
        let index = self.current(rank);
        let operation = &self.script.operations[index];
        if operation.kind == kind::WAIT {
            self.boards[rank].holders[usize::from(operation.slot)] = None;
            return self.end(rank, State::WaitFinished);
        }
        self.boards[rank].in_waiting_half = false;
        self.boards[rank].finished += 1;
    }

    /// It takes nothing: the message stays pending.
    fn probe(&mut self, rank: usize) {
        let message = self.told_message(self.current(rank));
        self.end(rank, State::Probed { message });
    }

    /// The message that a probe of an able rank tells.
    fn told_message(&self, index: usize) -> usize {
        let place = self.earliest_message(index);
        self.messages[place.expect("the rank is able")]
    }

    /// Ends an operation of one step: a wait, a probe or a query.
    fn end(&mut self, rank: usize, state: State) {
        let index = self.current(rank);
        self.states[index] = state;
        self.boards[rank].finished += 1;
    }

    fn initiate(&mut self, rank: usize) {
        let index = self.current(rank);
        match self.script.is_receive(index) {
            true => self.initiate_receive(index),
            false => self.initiate_send(rank, index),
        }
        if self.stop.is_some() {
            return;
        }
        let operation = &self.script.operations[index];
        let board = &mut self.boards[rank];
        if operation.flag == 1 {
            board.holders[usize::from(operation.slot)] = Some(index);
            board.finished += 1;
        } else {
            board.in_waiting_half = true;
        }
    }

    fn initiate_receive(&mut self, index: usize) {
        match self.earliest_message(index) {
            Some(place) => {
                let message = self.messages.remove(place);
                self.match_up(message, index);
            }
            None => {
                self.states[index] = State::Pending;
                self.receives.push(index);
            }
        }
    }

    fn initiate_send(&mut self, rank: usize, index: usize) {
        let script = self.script;
        let earliest = self.receives.iter().position(|&r| script.fits(index, r));
        if let Some(place) = earliest {
            let receive = self.receives.remove(place);
            return self.match_up(index, receive);
        }
        match script.operations[index].kind {
            kind::BUFFERED => {
                let in_use = self.boards[rank].attached.in_use + script.operations[index].charge();
                if in_use > script.boards[rank].attached {
                    self.stop = Some((Stop::Overflow, index));
                    return;
                }
                self.boards[rank].attached.in_use = in_use;
                self.states[index] = State::Buffered;
            }
            kind::READY => {
                self.stop = Some((Stop::NotReady, index));
                return;
            }
            kind::STANDARD if self.has_room(rank, index) => {
                let length = script.operations[index].length;
                self.boards[rank].standard.in_use += usize::from(length);
                self.states[index] = State::Buffered;
            }
            _ => self.states[index] = State::Pending,
        }
        self.messages.push(index);
    }

    /// Whether a standard send fits beside the standard bytes in use. A room of
    /// 0 has no room for an empty one either (document 02, K6).
    fn has_room(&self, rank: usize, index: usize) -> bool {
        let room = self.script.boards[rank].room;
        let length = usize::from(self.script.operations[index].length);
        room > 0 && self.boards[rank].standard.in_use + length <= room
    }

    /// Whether a standard send has a room above 0 that does not hold it now.
    pub fn lacks_room(&self, rank: usize, index: usize) -> bool {
        let standard = self.script.operations[index].kind == kind::STANDARD;
        standard && self.script.boards[rank].room > 0 && !self.has_room(rank, index)
    }

    /// Both are complete; a charged message is no longer charged.
    fn match_up(&mut self, message: usize, receive: usize) {
        if self.states[message] == State::Buffered {
            let sent = &self.script.operations[message];
            let board = &mut self.boards[self.script.rank_of[message]];
            match sent.kind {
                kind::STANDARD => board.standard.in_use -= usize::from(sent.length),
                _ => board.attached.in_use -= sent.charge(),
            }
        }
        let cut = self.script.operations[message].length > self.script.operations[receive].length;
        self.cut_messages += usize::from(cut);
        self.deliver(message, receive);
        self.states[message] = State::Matched {
            partner: receive,
            cut: false,
        };
        self.states[receive] = State::Matched {
            partner: message,
            cut,
        };
    }

    /// Of a cut message the first bytes, as many as the capacity (document
    /// 02, K5).
    fn deliver(&mut self, message: usize, receive: usize) {
        let sent = &self.script.operations[message];
        let into = &self.script.operations[receive];
        let from = usize::from(sent.offset);
        let bytes = &self.script.payload[from..from + usize::from(sent.length)];
        let start =
            self.script.inbox_start(self.script.rank_of[receive]) + usize::from(into.offset);
        let area = &mut self.inbox[start..start + usize::from(into.length)];
        for (place, byte) in area.iter_mut().zip(bytes) {
            *place = *byte;
        }
    }
}
