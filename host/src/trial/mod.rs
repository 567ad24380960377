//! A generated sheet, lent rooms and orders, tried on both judges and the
//! library.
//!
//! - `kinds`: where the sheets come from.
//! - `rooms`: rooms that are just right, longer or short.
//! - `orders`: orders that are right, wrong somewhere, or go on too long.
//! - `alike`: document 01's claim about orders (demand 3).
//! - `exchanges`: document 02's claim about steps that trade places (K14).
//! - `exchangeable`: two steps for it.
//! - `counts`: what was reached.

pub mod alike;
mod counts;
mod exchangeable;
mod exchanges;
mod kinds;
mod orders;
mod rooms;

use crate::compare::{self, Call, Outcome};
use crate::desk::Desk;
use crate::judge::{self, Needs};
use crate::layout::Edition;
use crate::random::Random;
use crate::sheet::edition;
use crate::{editions, probes, requests_left};
use jamturret::lent::Answer;

pub use counts::Counts;
pub use kinds::{sheet, KINDS};
pub use orders::ORDERS;
pub use rooms::Filler;

/// How many of a hundred calls of edition 1 are made of the twin too.
const TWINS: usize = 10;

/// Of how many of a hundred accepted sheets two neighbouring steps trade places.
const TRADES: usize = 20;

/// What is needed to see a difference again.
pub struct Failure {
    pub kind: usize,
    pub sheet: Vec<u8>,
    pub text: String,
}

/// One sheet that is being tried.
pub struct Trial<'a> {
    pub sheet: &'a [u8],
    pub kind: usize,
    pub filler: &'a Filler,
    pub random: Random,
    pub counts: &'a mut Counts,
}

/// Case number `number` of a seed.
pub fn case(seed: u64, number: u64, filler: &Filler, counts: &mut Counts) -> Result<(), Failure> {
    let (kind, sheet, random) = kinds::sheet(seed, number);
    let mut trial = Trial {
        sheet: &sheet,
        kind,
        filler,
        random,
        counts,
    };
    trial.any_calls().map_err(|text| Failure {
        kind,
        text,
        sheet: sheet.clone(),
    })
}

impl Trial<'_> {
    fn any_calls(&mut self) -> Result<(), String> {
        let Some(needs) = judge::needs(self.sheet) else {
            return self.refused_sheet();
        };
        if self.random.chance(TRADES) {
            return self.steps_trade();
        }
        let against = alike::against(self.sheet);
        if against.nothing() && self.random.chance(40) {
            return self.orders_end_alike();
        }
        if let Some(which) = against.one_thing().filter(|_| self.random.chance(60)) {
            return self.orders_may_differ(which);
        }
        match self.random.chance(30) {
            true => self.run(&needs),
            false => self.follow(&needs),
        }
    }

    /// Refusals 1 to 7 come before those of rooms and orders.
    fn refused_sheet(&mut self) -> Result<(), String> {
        let desk = self.filler.any_rooms(&mut self.random);
        let call = match self.random.chance(50) {
            true => Call::Run,
            false => Call::Follow(orders::any_bytes(&mut self.random)),
        };
        self.ask(&call, &desk).map(|_| ())
    }

    fn run(&mut self, needs: &Needs) -> Result<(), String> {
        let desk = self.filler.rooms(needs, &mut self.random);
        self.ask(&Call::Run, &desk).map(|_| ())
    }

    fn follow(&mut self, needs: &Needs) -> Result<(), String> {
        let desk = self.filler.rooms(needs, &mut self.random);
        let which = self.random.below(ORDERS.len());
        let order = (ORDERS[which].1)(self.sheet, &mut self.random);
        let call = Call::Follow(order);
        let outcome = self.ask(&call, &desk)?;
        self.counts.order(which, outcome.answer);
        Ok(())
    }

    /// Puts a call to all three, asks the outcome for what is promised of it,
    /// and counts it.
    fn ask(&mut self, call: &Call, before: &Desk) -> Result<Outcome, String> {
        let outcome = compare::all(self.sheet, call, before, &mut self.random)
            .map_err(|text| format!("{call}: {text}"))?;
        if outcome.answer == Answer::SUCCESS {
            self.promises(call, &outcome)
                .map_err(|text| format!("{call}: {text}"))?;
        }
        if [0, 9].contains(&outcome.answer.number) {
            self.twin(call, before, &outcome)
                .map_err(|text| format!("{call}: {text}"))?;
        }
        self.counts.call(self.kind, self.sheet, call, &outcome);
        Ok(outcome)
    }

    /// At times puts the same call of the twin in edition 2 to all three.
    fn twin(&mut self, call: &Call, before: &Desk, first: &Outcome) -> Result<(), String> {
        if edition(self.sheet) == Edition::Second || !self.random.chance(TWINS) {
            return Ok(());
        }
        self.counts.twins += 1;
        editions::same_as_first(self.sheet, before, first, |twin, before| {
            compare::all(twin, call, before, &mut self.random)
        })
    }

    /// What is promised of every report: No-request-left, Probe-then-receive,
    /// and accounts that agree with the rows.
    fn promises(&mut self, call: &Call, outcome: &Outcome) -> Result<(), String> {
        let report = &outcome.desk.report;
        editions::accounts_agree(self.sheet, report)?;
        requests_left::no_request_left(self.sheet, report)?;
        let order = call.order(outcome);
        let pairs = probes::probe_then_receive(self.sheet, order, report)?;
        self.counts.pairs += pairs as u64;
        Ok(())
    }
}
