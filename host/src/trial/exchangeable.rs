//! Chooses two neighbouring steps that trade places in an order: mostly such as
//! have to do with each other.

use super::orders;
use crate::judge::{self, After};
use crate::layout::{kind, operation};
use crate::random::Random;
use crate::sheet::{field_of, kind_of};

/// An order and an index in it: the beginning before the index is accepted,
/// and the next two ranks differ and are both able there. What stands after
/// them is nothing, the rest of a whole order, with the two steps in it once more
/// or not, or any able ranks.
pub fn exchangeable(sheet: &[u8], random: &mut Random) -> Option<(Vec<u8>, usize)> {
    let whole = orders::whole(sheet, random);
    let (index, [one, other]) = two_able(sheet, &whole, random)?;
    let mut order = [&whole[..index], &[one, other]].concat();
    match random.below(8) {
        0..=3 => {}
        4 => order.extend(&whole[index..]),
        5 | 6 => order.extend(without(&whole[index..], [one, other])),
        _ => {
            let further = continued(sheet, &order, random);
            // A step that stops the job is the last one that it takes.
            order = [order, further].into_iter().max_by_key(Vec::len)?;
        }
    }
    Some((order, index))
}

/// A rest of an order without the first step of each of two ranks.
fn without(rest: &[u8], ranks: [u8; 2]) -> Vec<u8> {
    let mut rest = rest.to_vec();
    for rank in ranks {
        if let Some(place) = rest.iter().position(|&other| other == rank) {
            rest.remove(place);
        }
    }
    rest
}

/// Beginnings of an order that are looked at.
const BEGINNINGS: usize = 40;

/// The length of a beginning of an order, and two ranks that are able after it:
/// mostly such as have to do with each other.
fn two_able(sheet: &[u8], order: &[u8], random: &mut Random) -> Option<(usize, [u8; 2])> {
    let from = random.below(order.len().saturating_sub(BEGINNINGS) + 1);
    let lengths = from..order.len().min(from + BEGINNINGS);
    let mut pairs = Vec::new();
    for (length, after) in lengths
        .clone()
        .zip(judge::after_each(sheet, order, lengths))
    {
        for &one in &after.able {
            for &other in after.able.iter().filter(|&&other| other != one) {
                pairs.push((relation(sheet, &after, one, other), (length, [one, other])));
            }
        }
    }
    let wanted = random.pick(&WANTED);
    if wanted.is_some() && pairs.iter().any(|(relation, _)| *relation == wanted) {
        pairs.retain(|(relation, _)| *relation == wanted);
    }
    (!pairs.is_empty()).then(|| random.pick(&pairs).1)
}

/// What the next steps of two boards have to do with each other.
#[derive(Clone, Copy, PartialEq, Eq)]
enum Relation {
    /// Both initiate sends to one board.
    ToOne,
    /// The one initiates a send and the other a receive, which is for the other
    /// board or from it.
    Between,
    /// The same, where the send lacks room and the receive is from its board.
    Frees,
    /// One is a query's.
    Queries,
}

/// What is looked for in turn; with none, any two boards.
const WANTED: [Option<Relation>; 5] = [
    Some(Relation::ToOne),
    Some(Relation::Between),
    Some(Relation::Frees),
    Some(Relation::Queries),
    None,
];

fn relation(sheet: &[u8], after: &After, one: u8, other: u8) -> Option<Relation> {
    let ranks = [one, other].map(usize::from);
    let came_to = ranks.map(|rank| after.at[rank].map(|at| kind_of(sheet, at)));
    if came_to.contains(&Some(kind::QUERY)) {
        return Some(Relation::Queries);
    }
    let [one, other] = ranks.map(|rank| after.initiated[rank]);
    let [one, other] = [one?, other?];
    let sends = [one, other].map(|at| kind_of(sheet, at) != kind::RECEIVE);
    let [peer, other_peer] = [one, other].map(|at| field_of(sheet, at, operation::PEER));
    let lacks_room = ranks.map(|rank| after.lacks_room[rank]);
    match sends {
        [true, false] if lacks_room[0] && other_peer == ranks[0] => Some(Relation::Frees),
        [false, true] if lacks_room[1] && peer == ranks[1] => Some(Relation::Frees),
        [true, true] if peer == other_peer => Some(Relation::ToOne),
        [true, false] if peer == ranks[1] || other_peer == ranks[0] => Some(Relation::Between),
        [false, true] if other_peer == ranks[0] || peer == ranks[1] => Some(Relation::Between),
        _ => None,
    }
}

/// Able ranks after a beginning, to the end or not.
fn continued(sheet: &[u8], beginning: &[u8], random: &mut Random) -> Vec<u8> {
    let mut choose = orders::chooser(random);
    let mut taken = 0;
    let most = beginning.len() + random.pick(&[1, 3, 3000]);
    judge::order_by(sheet, |able| {
        let forced = beginning.get(taken).copied();
        taken += 1;
        let rank = forced.unwrap_or_else(|| choose(able));
        (taken <= most && able.contains(&rank)).then_some(rank)
    })
}
