//! Orders for *follow*. All of them are for sheets that *check* accepts.

use crate::judge;
use crate::layout::kind;
use crate::random::Random;
use crate::sheet::{boards, kind_of};

type Maker = fn(&[u8], &mut Random) -> Vec<u8>;

pub const ORDERS: [(&str, Maker); 9] = [
    ("whole, any able ranks", whole),
    ("whole, as run chooses", as_run),
    ("a beginning", beginning),
    ("rank above P-1 at an index", above),
    ("rank not able at an index", not_able),
    ("goes on after the end", beyond),
    ("goes on at a probe or a query", beyond_at_probe),
    ("any ranks", any_ranks),
    ("any bytes", |_, random| any_bytes(random)),
];

/// Chooses among able ranks: evenly, the same one while it is able, or the
/// highest.
pub fn chooser(random: &mut Random) -> impl FnMut(&[u8]) -> u8 {
    let stays = random.pick(&[0, 0, 60, 95]);
    let highest = random.pick(&[0, 0, 0, 70]);
    let mut random = Random::new(random.next());
    let mut last = None;
    move |able: &[u8]| {
        let rank = match last {
            Some(rank) if random.chance(stays) && able.contains(&rank) => rank,
            _ if random.chance(highest) => able[able.len() - 1],
            _ => random.pick(able),
        };
        last = Some(rank);
        rank
    }
}

/// Steps until nobody is able.
pub fn whole(sheet: &[u8], random: &mut Random) -> Vec<u8> {
    let mut choose = chooser(random);
    judge::order_by(sheet, |able| Some(choose(able)))
}

fn as_run(sheet: &[u8], _: &mut Random) -> Vec<u8> {
    judge::order_by(sheet, |able| able.first().copied())
}

fn beginning(sheet: &[u8], random: &mut Random) -> Vec<u8> {
    let mut order = whole(sheet, random);
    order.truncate(random.between(0, order.len()));
    order
}

/// A right order with a rank of no board at a chosen index, also at the end.
fn above(sheet: &[u8], random: &mut Random) -> Vec<u8> {
    let mut order = whole(sheet, random);
    let index = random.between(0, order.len());
    let boards = boards(sheet);
    let rank = random.pick(&[boards, boards, boards + 1, 16, 128, 255]);
    order.insert(index, rank as u8);
    order
}

/// A right order with a rank that is not able at a chosen index, if there is
/// one there; what stands after it is nothing, any ranks or any bytes.
fn not_able(sheet: &[u8], random: &mut Random) -> Vec<u8> {
    let mut order = beginning(sheet, random);
    let able = judge::after(sheet, &order).able;
    let others: Vec<u8> = (0..boards(sheet) as u8)
        .filter(|rank| !able.contains(rank))
        .collect();
    if !others.is_empty() {
        order.push(random.pick(&others));
    }
    match random.below(3) {
        0 => {}
        1 => order.extend(any_ranks(sheet, random)),
        _ => order.extend(any_bytes(random)),
    }
    order
}

/// At the end a rank steps that has come to a probe or a query (document 02,
/// K9), if there is one: nothing fits it, or the job has stopped.
fn beyond_at_probe(sheet: &[u8], random: &mut Random) -> Vec<u8> {
    let mut order = whole(sheet, random);
    let came_to = judge::after(sheet, &order).at;
    let asks = |&at: &usize| [kind::PROBE, kind::QUERY].contains(&kind_of(sheet, at));
    let ranks = (0..boards(sheet)).filter(|&rank| came_to[rank].as_ref().is_some_and(asks));
    let ranks: Vec<usize> = ranks.collect();
    if ranks.is_empty() {
        return beyond(sheet, random);
    }
    order.push(random.pick(&ranks) as u8);
    order
}

/// Nobody is able at the end.
fn beyond(sheet: &[u8], random: &mut Random) -> Vec<u8> {
    let mut order = whole(sheet, random);
    let extra = random.pick(&[1, 1, 2, 30, 3000]);
    order.extend((0..extra).map(|_| random.below(boards(sheet)) as u8));
    order
}

fn any_ranks(sheet: &[u8], random: &mut Random) -> Vec<u8> {
    let steps = random.between(0, 12);
    (0..steps)
        .map(|_| random.below(boards(sheet)) as u8)
        .collect()
}

pub fn any_bytes(random: &mut Random) -> Vec<u8> {
    let length = random.between(0, 20);
    match random.chance(50) {
        true => random.bytes(length),
        false => vec![random.below(4) as u8; length],
    }
}
