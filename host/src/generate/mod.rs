//! Generators of sheets for the differential tests. A generator does not know
//! the answer to its sheet: the judges give it. Each kind of case aims at one
//! group of rules of document 01.
//!
//! - `size`: how large a sheet becomes.
//! - `script`: right scripts for a board.
//! - `valid`: whole right sheets.
//! - `editions`: rooms for standard sends, which make a sheet one of edition 2.
//! - `jobs`: right sheets whose messages mostly have a receive.
//! - `damage`: one wrong field, or one at the edge of its range.
//! - `garbage`: random bytes, truncations, extensions, random fields.
//! - `requests`: slots and areas just right and just wrong.
//! - `forgotten`: slots that are held when their script ends.
//! - `probes`: probes and queries, right and just wrong.
//! - `premise`: sheets for which the order cannot matter, and nearly such ones.
//! - `limits`: both sides of every limit, the sheet otherwise right;
//!   `limit_sheets`: those sheets.
//! - `longest`: jobs of the most operations.

mod damage;
mod editions;
pub mod forgotten;
mod garbage;
pub mod jobs;
mod limit_sheets;
mod limits;
mod longest;
mod premise;
mod probes;
mod requests;
mod script;
mod size;
mod valid;

use crate::random::Random;
use crate::sheet::mend_crc;

pub use limits::LIMITS;

type Generator = fn(&mut Random) -> Vec<u8>;

/// The kinds of cases: name, how many of a hundred cases, generator.
pub const KINDS: [(&str, usize, Generator); 18] = [
    ("right, small", 9, |random| right(random, size::small)),
    ("right, medium", 5, |random| right(random, size::medium)),
    ("right, large", 2, |random| right(random, size::large)),
    ("all slots held", 2, requests::all_slots_held),
    ("at a limit", 7, limits::any),
    ("longest", 1, longest::any),
    ("header", 4, |random| damaged(random, &[damage::header])),
    ("offset or length", 4, |random| {
        damaged(random, &[damage::offset_or_length])
    }),
    ("crc", 4, damage::crc),
    ("board entry", 8, |random| damaged(random, &[damage::board])),
    ("operation field", 9, |random| {
        damaged(random, &[damage::operation])
    }),
    ("slots and areas", 10, requests::pair),
    ("forgotten requests", 6, forgotten::any),
    ("probes and queries", 8, probes::any),
    ("calm or nearly", 6, premise::any),
    ("several faults", 8, several_faults),
    ("truncated or extended", 3, garbage::truncated_or_extended),
    ("garbage", 4, garbage::any),
];

/// Case number `case` of a seed: its kind (an index into `KINDS`) and sheet.
pub fn case(seed: u64, case: u64) -> (usize, Vec<u8>, Random) {
    let mut random = of_case(seed, case);
    let shares = KINDS.map(|(_, share, _)| share);
    let kind = by_share(&shares, &mut random);
    let sheet = KINDS[kind].2(&mut random);
    (kind, sheet, random)
}

/// Each case has a generator of numbers of its own, so that it can be made
/// alone.
pub fn of_case(seed: u64, case: u64) -> Random {
    Random::new(Random::new(seed).next() ^ case.wrapping_mul(0xD134_2543_DE82_EF95))
}

/// An index, as often as its share of a hundred says.
pub fn by_share(shares: &[usize], random: &mut Random) -> usize {
    let mut left = random.below(100);
    let mut index = 0;
    while left >= shares[index] {
        left -= shares[index];
        index += 1;
    }
    index
}

fn right(random: &mut Random, size: fn(&mut Random) -> size::Size) -> Vec<u8> {
    let size = size(random);
    valid::sheet(random, &size).bytes()
}

/// A right sheet with these damages done to it and the CRC mended.
fn damaged(random: &mut Random, damages: &[damage::Damage]) -> Vec<u8> {
    let size = size::any(random);
    let mut bytes = valid::sheet(random, &size).bytes();
    for damage in damages {
        damage(&mut bytes, random);
    }
    mend_crc(&mut bytes);
    bytes
}

/// Two to five faults at once, so that the lowest number and the first place
/// are tried against others.
fn several_faults(random: &mut Random) -> Vec<u8> {
    let often: [damage::Damage; 3] = [damage::operation, damage::board, damage::slot];
    let seldom: [damage::Damage; 2] = [damage::header, damage::offset_or_length];
    let mut damages: Vec<damage::Damage> = Vec::new();
    for _ in 0..random.between(2, 5) {
        damages.push(random.pick(&often));
    }
    if random.chance(15) {
        damages.push(random.pick(&seldom));
    }
    let mut bytes = damaged(random, &damages);
    if random.chance(10) {
        damage::flip_bit(&mut bytes, random);
    }
    bytes
}
