//! Document 01, What is pinned down, the claim about whole orders (demand 3),
//! tried through the library: whole orders end alike with each other and with
//! run, and two neighbouring steps of able boards may change places. *Alike*
//! sets the peaks aside, in edition 2 those of both accounts (document 02, K6).
//! On sheets that only their any-source probes, their queries (K9) or their rooms
//! leave out, orders that end otherwise are counted.

use super::exchangeable::exchangeable;
use super::{orders, Trial};
use crate::buffers::Buffered;
use crate::compare::Call;
use crate::desk::Desk;
use crate::editions::Standard;
use crate::exchanges::{has_any_source, Exchange, KEPT_OUT};
use crate::layout::{board_row, kind, word, Edition};
use crate::requests_left::reading::{operations, state_of};
use crate::sheet::{boards, kind_of};
use crate::{judge, probes};
use jamturret::lent::Answer;

/// What of an accepted sheet keeps the claim from speaking of it.
pub struct Against {
    /// A receive from any source, a ready send, or a board whose buffered sends
    /// together are not covered.
    transfers: bool,
    /// A probe from any source.
    probes: bool,
    queries: bool,
    /// A board whose room is above 0 and does not cover its standard sends.
    rooms: bool,
}

pub fn against(sheet: &[u8]) -> Against {
    let uncovered = |rank| {
        let board = Buffered::of(sheet, rank);
        board.charges > board.attached
    };
    Against {
        transfers: has_any_source(sheet, kind::RECEIVE)
            || probes::has(sheet, kind::READY)
            || (0..boards(sheet)).any(uncovered),
        probes: has_any_source(sheet, kind::PROBE),
        queries: probes::has(sheet, kind::QUERY),
        rooms: (0..boards(sheet)).any(|rank| Standard::of(sheet, rank).uncovered()),
    }
}

impl Against {
    pub fn nothing(&self) -> bool {
        !self.transfers && !self.probes && !self.queries && !self.rooms
    }

    /// 0 if only any-source probes are against it, 1 if only queries are, 2 if
    /// only rooms are.
    pub fn one_thing(&self) -> Option<usize> {
        match (self.transfers, self.probes, self.queries, self.rooms) {
            (false, true, false, false) => Some(0),
            (false, false, true, false) => Some(1),
            (false, false, false, true) => Some(2),
            _ => None,
        }
    }
}

const WHOLE_ORDERS: usize = 2;
const EXCHANGES: usize = 2;

impl Trial<'_> {
    pub fn orders_end_alike(&mut self) -> Result<(), String> {
        let [before, ran] = self.before_and_run()?;
        for _ in 0..WHOLE_ORDERS {
            let (call, alike) = self.ends_alike(&before, &ran)?;
            if !alike {
                return Err(format!("{call}: does not end alike with run"));
            }
            self.counts.whole_orders += 1;
            self.counts.probed_orders += u64::from(probed(self.sheet, &ran.report));
            self.counts.roomy_orders += u64::from(used_room(&ran));
        }
        for _ in 0..EXCHANGES {
            self.exchange_calm(&before)?;
        }
        Ok(())
    }

    /// Two neighbouring steps exchanged on a sheet that demand 3 speaks of: a case of
    /// the claim about sheets with receives from any source (K14).
    fn exchange_calm(&mut self, before: &Desk) -> Result<(), String> {
        let Some((order, index)) = exchangeable(self.sheet, &mut self.random) else {
            return Ok(());
        };
        let exchange = Exchange::new(self.sheet, &order, index);
        if exchange.kept_out() != [false; KEPT_OUT.len()] {
            return Err(format!("steps {index} and the next are kept out"));
        }
        let one = self.exchange(&exchange, before)?;
        let accepted = one.answer == Answer::SUCCESS;
        self.counts.exchanged[usize::from(!accepted)] += 1;
        self.counts.exchanged_probes += u64::from(exchange.probes());
        self.counts.exchanged_roomy += u64::from(accepted && used_room(&one.desk));
        Ok(())
    }

    /// Counts the orders that do not end alike with run.
    pub fn orders_may_differ(&mut self, which: usize) -> Result<(), String> {
        let [before, ran] = self.before_and_run()?;
        for _ in 0..WHOLE_ORDERS {
            let (_, alike) = self.ends_alike(&before, &ran)?;
            self.counts.differing[which] += u64::from(!alike);
        }
        Ok(())
    }

    /// Rooms, and what run leaves in them.
    fn before_and_run(&mut self) -> Result<[Desk; 2], String> {
        let needs = judge::needs(self.sheet).ok_or("the sheet was accepted")?;
        let before = self.filler.exact(&needs, &mut self.random);
        let ran = self.ask(&Call::Run, &before)?.desk;
        Ok([before, ran])
    }

    /// A whole order, and whether it ends alike with run in such rooms.
    fn ends_alike(&mut self, before: &Desk, ran: &Desk) -> Result<(Call, bool), String> {
        let call = Call::Follow(orders::whole(self.sheet, &mut self.random));
        let ended = self.ask(&call, before)?.desk;
        Ok((call, ended.without_peaks() == ran.without_peaks()))
    }
}

/// Whether a report tells a finished probe.
fn probed(sheet: &[u8], report: &[u8]) -> bool {
    let probe = |index: &usize| kind_of(sheet, *index) == kind::PROBE;
    let mut probes = operations(sheet).filter(probe);
    probes.any(|index| state_of(sheet, report, index) == 5)
}

/// Whether a report tells of bytes that were in a room.
fn used_room(desk: &Desk) -> bool {
    let boards = usize::from(word(&desk.report, 6));
    let peak = |rank| desk.figure(rank, board_row::STANDARD_PEAK);
    desk.edition == Edition::Second && (0..boards).any(|rank| peak(rank) > 0)
}
