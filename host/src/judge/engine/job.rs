//! A job in lent scratch, and its steps (document 01, How a board steps; probes
//! and queries: document 02, K9; rooms for standard sends: K6).

use super::list::List;
use super::scratch::{Place, Row, Scratch, BARE};
use super::view::{fits, View};
use crate::layout::board_row::{self, FINISHED, IN_USE, PEAK, STANDARD_PEAK, STANDARD_USE};
use crate::layout::{kind, operation as at, word, BSEND_OVERHEAD, SLOTS};

pub mod state {
    pub const PENDING: u8 = 1;
    pub const BUFFERED: u8 = 2;
    pub const MATCHED: u8 = 3;
    /// A wait, a probe or a query is finished.
    pub const FINISHED: u8 = 5;
}

/// In a board's place, where a row has its state.
const WAITING: usize = board_row::STATE;

/// The places of an account: bytes in use, and the most of them so far.
type Account = [usize; 2];
const ATTACHED: Account = [IN_USE, PEAK];
const STANDARD: Account = [STANDARD_USE, STANDARD_PEAK];

/// Why, at which rank and at which operation a job stopped.
#[derive(Clone, Copy)]
pub struct Stop {
    pub verdict: u8,
    pub rank: u8,
    pub operation: u16,
}

pub struct Job<'a> {
    pub view: &'a View<'a>,
    pub rows: &'a mut [Row],
    pub places: &'a mut [Place],
    pub messages: List<'a>,
    pub receives: List<'a>,
    ranks: &'a mut [u8],
    awaited: &'a mut [[u8; 2]],
    pub steps: usize,
    pub cut: u16,
    pub stop: Option<Stop>,
}

pub fn set_word(bytes: &mut [u8], place: usize, value: u16) {
    bytes[place..place + 2].copy_from_slice(&value.to_le_bytes());
}

/// Whether a message fits a receive or a probe of a rank.
fn fitting<'a>(
    view: &'a View,
    ranks: &'a [u8],
    rank: usize,
    index: usize,
) -> impl Fn(usize) -> bool + 'a {
    let asked = &view.operations[index];
    move |message| {
        let sent = &view.operations[message];
        fits(sent, ranks[message], asked, rank as u8)
    }
}

/// What a message in a buffer or a room is charged, and to which account.
fn charged(sent: &[u8]) -> (Account, u16) {
    let length = word(sent, at::LENGTH);
    match sent[at::KIND] {
        kind::STANDARD => (STANDARD, length),
        _ => (ATTACHED, length + BSEND_OVERHEAD as u16),
    }
}

impl<'a> Job<'a> {
    /// Nothing entered and no buffer in use, whatever scratch held.
    pub fn start(view: &'a View, scratch: &'a mut [u8]) -> Job<'a> {
        let scratch = Scratch::over(scratch);
        let mut job = Job {
            view,
            rows: &mut scratch.rows[..view.operations.len()],
            places: &mut scratch.places[..view.boards().len()],
            messages: List::empty(scratch.messages),
            receives: List::empty(scratch.receives),
            ranks: &mut scratch.ranks[..view.operations.len()],
            awaited: &mut scratch.awaited[..view.operations.len()],
            steps: 0,
            cut: 0,
            stop: None,
        };
        job.rows.fill(BARE);
        job.places.fill(Place::default());
        for rank in 0..view.boards().len() {
            job.note_script(rank);
        }
        job
    }

    /// The rank of each operation of a board, and what its waits and queries
    /// ask for: the operation that took the slot last.
    fn note_script(&mut self, rank: usize) {
        let mut holders = [[0; 2]; SLOTS];
        let first = self.view.first(rank);
        for index in first..first + self.view.count(rank) {
            self.ranks[index] = rank as u8;
            let operation = &self.view.operations[index];
            let slot = usize::from(word(operation, at::SLOT));
            if [kind::WAIT, kind::QUERY].contains(&operation[at::KIND]) {
                self.awaited[index] = holders[slot];
            } else if operation[at::FLAG] == 1 {
                holders[slot] = (index as u16).to_le_bytes();
            }
        }
    }

    /// False also for a rank above P-1.
    #[inline]
    pub fn able(&self, rank: usize) -> bool {
        if self.stop.is_some() || rank >= self.places.len() {
            return false;
        }
        let place = &self.places[rank];
        let finished = usize::from(word(place, FINISHED));
        if finished == self.view.count(rank) {
            return false;
        }
        let index = self.view.first(rank) + finished;
        match self.view.operations[index][at::KIND] {
            kind::WAIT => self.complete(self.awaited(index)),
            kind::PROBE | kind::QUERY => self.able_to_ask(rank, index),
            _ => place[WAITING] == 0 || self.complete(index),
        }
    }

    /// At a probe or a query. Not inlined: `able` is asked of every rank before
    /// every step of a run, and mostly finds neither.
    #[inline(never)]
    fn able_to_ask(&self, rank: usize, index: usize) -> bool {
        let query = self.view.operations[index][at::KIND] == kind::QUERY;
        query || self.earliest_message(rank, index).is_some()
    }

    /// The operation that a wait or a query asks for.
    fn awaited(&self, index: usize) -> usize {
        usize::from(u16::from_le_bytes(self.awaited[index]))
    }

    /// The earliest pending message that fits a probe.
    fn earliest_message(&self, rank: usize, index: usize) -> Option<usize> {
        self.messages
            .find(fitting(self.view, self.ranks, rank, index))
    }

    fn complete(&self, index: usize) -> bool {
        self.rows[index][0] >= state::BUFFERED
    }

    /// One step of an able rank.
    pub fn step(&mut self, rank: usize) {
        self.steps += 1;
        let place = &mut self.places[rank];
        let finished = word(place, FINISHED);
        let index = self.view.first(rank) + usize::from(finished);
        let operation = &self.view.operations[index];
        if operation[at::KIND] >= kind::WAIT {
            set_word(place, FINISHED, finished + 1);
            self.only_step(rank, index, operation[at::KIND]);
        } else if place[WAITING] == 1 {
            place[WAITING] = 0;
            set_word(place, FINISHED, finished + 1);
        } else if self.initiate(rank, index) {
            let place = &mut self.places[rank];
            match operation[at::FLAG] {
                1 => set_word(place, FINISHED, finished + 1),
                _ => place[WAITING] = 1,
            }
        }
    }

    /// The row of a wait, a probe or a query. A probe takes nothing.
    fn only_step(&mut self, rank: usize, index: usize, kind: u8) {
        self.rows[index][0] = state::FINISHED;
        if kind == kind::QUERY {
            let complete = self.complete(self.awaited(index));
            set_word(&mut self.rows[index], 8, u16::from(complete));
        } else if kind == kind::PROBE {
            let message = self.earliest_message(rank, index);
            self.tell(message.expect("the rank is able"), index);
        }
    }

    /// The status of a message, told to a receive or a probe.
    fn tell(&mut self, message: usize, index: usize) {
        let sent = &self.view.operations[message];
        let row = &mut self.rows[index];
        set_word(row, 4, u16::from(self.ranks[message]));
        set_word(row, 6, word(sent, at::TAG));
        set_word(row, 8, word(sent, at::LENGTH));
    }

    /// False if the job stops.
    fn initiate(&mut self, rank: usize, index: usize) -> bool {
        if self.view.operations[index][at::KIND] != kind::RECEIVE {
            return self.send(rank, index);
        }
        let earliest = self
            .messages
            .take(fitting(self.view, self.ranks, rank, index));
        match earliest {
            Some(message) => self.match_up(message, index),
            None => {
                self.rows[index][0] = state::PENDING;
                self.receives.push(index);
            }
        }
        true
    }

    fn send(&mut self, rank: usize, index: usize) -> bool {
        let (view, ranks) = (self.view, &*self.ranks);
        let sent = &view.operations[index];
        let earliest = self
            .receives
            .take(|r| fits(sent, rank as u8, &view.operations[r], ranks[r]));
        if let Some(receive) = earliest {
            self.match_up(index, receive);
            return true;
        }
        let buffered = match sent[at::KIND] {
            kind::READY => return self.stop(4, rank, index),
            kind::BUFFERED if !self.charge(rank, index, view.attached(rank)) => {
                return self.stop(3, rank, index);
            }
            kind::BUFFERED => true,
            // Room 0 is none for empty messages too.
            kind::STANDARD => {
                let room = view.room(rank);
                room > 0 && self.charge(rank, index, room)
            }
            _ => false,
        };
        self.rows[index][0] = match buffered {
            true => state::BUFFERED,
            false => state::PENDING,
        };
        self.messages.push(index);
        true
    }

    fn stop(&mut self, verdict: u8, rank: usize, index: usize) -> bool {
        self.stop = Some(Stop {
            verdict,
            rank: rank as u8,
            operation: index as u16,
        });
        false
    }

    /// False if a message does not fit beside what its account of this size has
    /// in use. A step that charges a board releases nothing of it, so its peak is
    /// met here or not at all.
    fn charge(&mut self, rank: usize, index: usize, size: u16) -> bool {
        let ([use_at, peak_at], cost) = charged(&self.view.operations[index]);
        let place = &mut self.places[rank];
        let in_use = word(place, use_at) + cost;
        if in_use > size {
            return false;
        }
        set_word(place, use_at, in_use);
        if in_use > word(place, peak_at) {
            set_word(place, peak_at, in_use);
        }
        true
    }

    /// Both are complete; a charged message is no longer charged. A sender's
    /// row has no status.
    fn match_up(&mut self, message: usize, receive: usize) {
        let sent = &self.view.operations[message];
        if self.rows[message][0] == state::BUFFERED {
            let ([use_at, _], cost) = charged(sent);
            let place = &mut self.places[usize::from(self.ranks[message])];
            let in_use = word(place, use_at) - cost;
            set_word(place, use_at, in_use);
        }
        let capacity = word(&self.view.operations[receive], at::LENGTH);
        let cut = word(sent, at::LENGTH) > capacity;
        self.cut += u16::from(cut);
        let row = &mut self.rows[message];
        row[0] = state::MATCHED;
        set_word(row, 2, receive as u16);
        let row = &mut self.rows[receive];
        row[0] = state::MATCHED;
        row[1] = u8::from(cut);
        set_word(row, 2, message as u16);
        self.tell(message, receive);
    }
}
