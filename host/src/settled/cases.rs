//! The cases: a sheet, an order for *follow*, and the lengths of the lent
//! rooms. Frozen: see the module above.

use super::damage::{self, Damage};
use super::digest::Digest;
use super::job::{job, Job};
use super::manner::Manner;
use super::sheet::mend_crc;
use crate::random::Random;

pub const SEED: u64 = 20_261_115;
pub const CASES: usize = 20_000;

pub struct Case {
    pub sheet: Vec<u8>,
    /// Before any byte of it is dropped.
    pub order: Vec<u8>,
    pub rooms: Rooms,
}

/// Lengths of what is lent.
#[derive(Clone, Copy)]
pub struct Rooms {
    pub inbox: usize,
    pub report: usize,
    pub order_out: usize,
    pub scratch: usize,
}

/// What lent rooms hold before a call; no byte is 0.
pub fn pattern(length: usize) -> Vec<u8> {
    (0..length).map(|at| (29 * at + 7) as u8 | 1).collect()
}

type Make = fn(&mut Random) -> Case;

/// How many of a thousand cases, and how they are made.
const SHARES: [(usize, Make); 15] = [
    (553, |random| right(random, Manner::small)),
    (130, |random| right(random, Manner::medium)),
    (40, |random| right(random, sixteen_boards)),
    (20, |random| right(random, Manner::large)),
    (22, |random| damaged(random, &[damage::header])),
    (28, |random| damaged(random, &[damage::offset_or_length])),
    (20, wrong_crc),
    (32, |random| damaged(random, &[damage::board])),
    (44, |random| damaged(random, &[damage::operation])),
    (38, |random| of(random, requests, &[damage::request])),
    (20, several_faults),
    (10, |random| damaged(random, &[damage::short])),
    (8, garbage),
    (20, |random| of(random, with_probes, &[])),
    (15, second_edition),
];

/// Too few for a share of a thousand: every 700th case has more than 1,024
/// operations, which only document 02's request K11 accepts.
const LONG_EVERY: usize = 700;

/// Case `number`. It has a generator of numbers of its own, so that it can be
/// made alone.
pub fn case(number: usize) -> Case {
    let mut random = Random::new(Random::new(SEED ^ number as u64).next());
    if number % LONG_EVERY == LONG_EVERY - 1 {
        return right(&mut random, long);
    }
    let mut left = random.below(1000);
    for (share, make) in SHARES {
        if left < share {
            return make(&mut random);
        }
        left -= share;
    }
    unreachable!("the shares make a thousand")
}

/// The digest of what all cases are before they are put to anybody.
pub fn inputs(cases: impl Iterator<Item = Case>) -> u64 {
    let mut digest = Digest::new();
    digest.bytes(&pattern(256));
    for case in cases {
        case.add_to(&mut digest);
    }
    digest.whole()
}

impl Case {
    fn add_to(&self, digest: &mut Digest) {
        digest.bytes(&self.sheet);
        digest.bytes(&self.order);
        let rooms = self.rooms;
        for length in [rooms.inbox, rooms.report, rooms.order_out, rooms.scratch] {
            digest.number(length as u64);
        }
    }
}

type Draw = fn(&mut Random) -> Manner;

fn right(random: &mut Random, draw: Draw) -> Case {
    of(random, draw, &[])
}

fn damaged(random: &mut Random, damages: &[Damage]) -> Case {
    let draw = random.pick(&[Manner::small as Draw, Manner::small, Manner::medium]);
    of(random, draw, damages)
}

/// A job in some manner with these damages done to it, and the CRC mended.
fn of(random: &mut Random, draw: Draw, damages: &[Damage]) -> Case {
    let manner = draw(random);
    let job = job(random, &manner);
    let mut sheet = job.bytes();
    for damage in damages {
        damage(&mut sheet, random);
    }
    if !damages.is_empty() {
        mend_crc(&mut sheet);
    }
    Case {
        sheet,
        order: order(random, &job),
        rooms: rooms(random, &job),
    }
}

fn sixteen_boards(random: &mut Random) -> Manner {
    Manner {
        boards: 16,
        ..Manner::medium(random)
    }
}

fn long(random: &mut Random) -> Manner {
    Manner {
        messages: random.pick(&[513, 600, 1024, 1025]),
        nonblocking: 0,
        stray: 0,
        ..Manner::large(random)
    }
}

/// Jobs whose boards hold slots, for damages to them.
fn requests(random: &mut Random) -> Manner {
    Manner {
        messages: random.between(3, 14),
        nonblocking: random.pick(&[60, 100]),
        ..Manner::small(random)
    }
}

fn with_probes(random: &mut Random) -> Manner {
    Manner {
        probes: random.pick(&[10, 40]),
        ..requests(random)
    }
}

fn wrong_crc(random: &mut Random) -> Case {
    let mut case = damaged(random, &[]);
    damage::crc(&mut case.sheet, random);
    case
}

fn several_faults(random: &mut Random) -> Case {
    let kinds: [Damage; 4] = [
        damage::board,
        damage::operation,
        damage::operation,
        damage::request,
    ];
    let damages: Vec<Damage> = (0..random.between(2, 4))
        .map(|_| random.pick(&kinds))
        .collect();
    damaged(random, &damages)
}

fn garbage(random: &mut Random) -> Case {
    let length = random.pick(&[16, 17, 24, 40, 56, 200]);
    let mut case = damaged(random, &[]);
    case.sheet = random.bytes(length);
    if random.chance(50) {
        // A header that passes refusal 2 more often.
        for at in [0, 2, 4, 12] {
            case.sheet[at] %= 16;
            case.sheet[at + 1] = 0;
        }
        mend_crc(&mut case.sheet);
    }
    case
}

/// Reports of edition 2 have four more bytes a board.
fn second_edition(random: &mut Random) -> Case {
    let mut case = damaged(random, &[damage::second_edition]);
    case.rooms.report += 64;
    case
}

/// The order in which the job was written, with neighbours exchanged, or any
/// ranks; at times cut short, with more at the end, or with a wrong rank.
fn order(random: &mut Random, job: &Job) -> Vec<u8> {
    let boards = job.boards.len();
    let mut order = job.intended.clone();
    if random.chance(25) {
        order = any_ranks(random, boards, 3 * job.operations());
    }
    let exchanged = random.pick(&[0, 2, 10, 40]);
    for place in 1..order.len() {
        if random.chance(exchanged) {
            order.swap(place, place.saturating_sub(random.between(1, 4)));
        }
    }
    match random.below(8) {
        0 | 1 => order.truncate(random.between(0, order.len())),
        2 | 3 => order.extend(any_ranks(random, boards, 2 * boards)),
        _ => {}
    }
    if random.chance(10) {
        let wrong = random.pick(&[boards as u8, 16, 128, 255]);
        order.insert(random.between(0, order.len()), wrong);
    }
    order
}

fn any_ranks(random: &mut Random, boards: usize, length: usize) -> Vec<u8> {
    (0..length).map(|_| random.below(boards) as u8).collect()
}

/// What a job needs, at times more, seldom less. Scratch is mostly as long as
/// document 02's request K11 wants it, so that most cases outlast that.
fn rooms(random: &mut Random, job: &Job) -> Rooms {
    let operations = job.operations();
    let mut rooms = Rooms {
        inbox: job.inboxes(),
        report: 16 + 8 * job.boards.len() + 12 * operations,
        order_out: 2 * operations,
        scratch: 65_536,
    };
    if random.chance(12) {
        rooms.scratch = random.pick(&[32_768, 32_769, 40_000, 65_535]);
    }
    let lengths = [
        &mut rooms.inbox,
        &mut rooms.report,
        &mut rooms.order_out,
        &mut rooms.scratch,
    ];
    let longer = random.chance(40);
    let short = random.pick(&[0, 1, 2, 3, 3]);
    let shorten = random.chance(9);
    for (place, length) in lengths.into_iter().enumerate() {
        if shorten && place == short {
            *length = less(random, place, *length);
        } else if longer {
            *length += random.between(0, 9);
        }
    }
    rooms
}

/// A length that is short: scratch under 32,768, the others by one byte or
/// two, all of them at times empty.
fn less(random: &mut Random, place: usize, length: usize) -> usize {
    match (place, random.below(3)) {
        (_, 0) => 0,
        (3, _) => random.pick(&[1, 32_766, 32_767]),
        (_, by) => length.saturating_sub(by),
    }
}
