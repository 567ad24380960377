//! Document 02, K14, the claim about two neighbouring steps that trade places
//! where receives may be from any source, tried through the library on every
//! accepted sheet. Where the claim speaks of an exchange both orders end alike;
//! where one thing alone keeps it out, those that end otherwise are counted.

use super::exchangeable::exchangeable;
use super::{orders, Trial};
use crate::compare::{Call, Outcome};
use crate::desk::Desk;
use crate::exchanges::{alike, has_any_source, Exchange, KEPT_OUT};
use crate::judge;
use crate::layout::kind;
use crate::random::Random;

const EXCHANGES: usize = 3;

impl Trial<'_> {
    pub fn steps_trade(&mut self) -> Result<(), String> {
        let needs = judge::needs(self.sheet).ok_or("the sheet was accepted")?;
        let before = self.filler.exact(&needs, &mut self.random);
        for _ in 0..EXCHANGES {
            let Some((order, index)) = exchangeable(self.sheet, &mut self.random) else {
                continue;
            };
            let exchange = Exchange::new(self.sheet, &order, index);
            if exchange.kept_out() == [false; KEPT_OUT.len()] {
                self.exchange(&exchange, &before)?;
            } else if let Some(which) = exchange.kept_out_by() {
                let (one, other) = self.both(&exchange, &before)?;
                self.counts.kept_out(which, !alike(&one, &other));
            }
        }
        self.same_class(&before)
    }

    /// A whole order and one that several exchanges of the claim lead to.
    fn same_class(&mut self, before: &Desk) -> Result<(), String> {
        let Some([order, other]) = of_one_class(self.sheet, &mut self.random) else {
            return Ok(());
        };
        let one = Call::Follow(order);
        let ended = self.ask(&one, before)?;
        let other = Call::Follow(other);
        if !alike(&ended, &self.ask(&other, before)?) {
            return Err(format!("{one} and {other}: of one class"));
        }
        self.counts.one_class += u64::from(has_any_source(self.sheet, kind::RECEIVE));
        Ok(())
    }

    /// The outcome of both orders of an exchange that the claim speaks of.
    pub fn exchange(&mut self, exchange: &Exchange, before: &Desk) -> Result<Outcome, String> {
        let (one, other) = self.both(exchange, before)?;
        if !alike(&one, &other) {
            let order = Call::Follow(exchange.order.to_vec());
            let index = exchange.index;
            return Err(format!("{order}: steps {index} and the next exchanged"));
        }
        self.counts.traded(exchange.traded(&one));
        Ok(one)
    }

    fn both(&mut self, exchange: &Exchange, before: &Desk) -> Result<(Outcome, Outcome), String> {
        let one = self.ask(&Call::Follow(exchange.order.to_vec()), before)?;
        let other = self.ask(&Call::Follow(exchange.exchanged()), before)?;
        Ok((one, other))
    }
}

/// Exchanges that are tried on one order, of at most so many steps.
const TRIED: usize = 16;
const STEPS: usize = 200;

/// A whole order, and another of its class that two or more exchanges lead to.
fn of_one_class(sheet: &[u8], random: &mut Random) -> Option<[Vec<u8>; 2]> {
    let order = orders::whole(sheet, random);
    if !(3..=STEPS).contains(&order.len()) {
        return None;
    }
    let mut other = order.clone();
    let mut exchanges = 0;
    for _ in 0..TRIED {
        let index = random.below(other.len() - 1);
        let able = judge::after(sheet, &other[..index]).able;
        if other[index] == other[index + 1] || !able.contains(&other[index + 1]) {
            continue;
        }
        let exchange = Exchange::new(sheet, &other, index);
        if exchange.kept_out() == [false; KEPT_OUT.len()] {
            other = exchange.exchanged();
            exchanges += 1;
        }
    }
    (exchanges > 1 && other != order).then_some([order, other])
}
