//! Whole right sheets of both editions.

use super::editions::add_rooms;
use super::script::{Surroundings, Writer};
use super::size::Size;
use crate::layout::{Edition, MOST_ATTACHED};
use crate::random::Random;
use crate::sheet::{Board, Sheet};

pub fn sheet(random: &mut Random, size: &Size) -> Sheet {
    let around = Surroundings {
        boards: size.boards,
        communicators: size.communicators,
        payload: size.payload,
        nonblocking: random.pick(&[0, 40, 70, 100]),
        waits: random.pick(&[0, 10, 30, 45]),
        queries: random.pick(&[0, 0, 0, 15, 40]),
        probes: random.pick(&[0, 0, 0, 10, 30]),
    };
    let counts = shares(random, size.operations, size.boards);
    let inboxes = shares(random, size.inboxes, size.boards);
    let boards = counts.iter().zip(&inboxes).map(|(&count, &inbox)| {
        let mut writer = Writer::new(&around, inbox);
        for left in (1..=count).rev() {
            writer.add(left, random);
        }
        Board {
            attached: attached(random),
            inbox: inbox as u16,
            script: writer.finish(random),
            ..Board::default()
        }
    });
    let mut sheet = Sheet {
        edition: Edition::First,
        communicators: size.communicators,
        boards: boards.collect(),
        payload: random.bytes(size.payload),
    };
    if random.chance(40) {
        add_rooms(&mut sheet, false, random);
    }
    sheet
}

fn attached(random: &mut Random) -> u16 {
    match random.below(4) {
        0 => 0,
        1 => MOST_ATTACHED as u16,
        _ => random.between(0, MOST_ATTACHED) as u16,
    }
}

/// Splits a total into parts; at times one part gets everything.
fn shares(random: &mut Random, total: usize, parts: usize) -> Vec<usize> {
    if random.chance(20) {
        let mut all = vec![0; parts];
        all[random.below(parts)] = total;
        return all;
    }
    let mut cuts: Vec<usize> = (1..parts).map(|_| random.between(0, total)).collect();
    cuts.push(total);
    cuts.sort_unstable();
    let mut from = 0;
    let part = |cut: usize| {
        let part = cut - from;
        from = cut;
        part
    };
    cuts.into_iter().map(part).collect()
}
