//! Where the sheets of the trials come from.

use crate::bench_jobs;
use crate::generate::{self, forgotten, jobs};
use crate::layout::MOST_OPERATIONS;
use crate::random::Random;
use crate::traffic;

type Generator = fn(&mut Random) -> Vec<u8>;

/// Name, how many of a hundred cases, generator.
pub const KINDS: [(&str, usize, Generator); 13] = [
    ("calm, small", 18, |random| {
        jobs::small(random, true).bytes()
    }),
    ("calm, medium", 4, |random| {
        jobs::medium(random, true).bytes()
    }),
    ("calm, large", 1, |random| jobs::large(random, true).bytes()),
    ("calm but for probes or queries", 5, |random| {
        jobs::nearly_calm(random).bytes()
    }),
    ("calm but for rooms", 6, |random| {
        jobs::nearly_covered(random).bytes()
    }),
    ("receives from any source", 6, |random| {
        jobs::from_any_source(random).bytes()
    }),
    ("wild, small", 22, |random| {
        jobs::small(random, false).bytes()
    }),
    ("wild, medium", 6, |random| {
        jobs::medium(random, false).bytes()
    }),
    ("wild, large", 1, |random| {
        jobs::large(random, false).bytes()
    }),
    ("forgotten requests", 2, forgotten::job),
    ("traffic", 2, any_traffic),
    ("bench job", 5, bench_job),
    // Right ones of every size, damaged ones and garbage.
    ("as for check", 22, as_for_check),
];

/// The kind (an index into `KINDS`) and sheet of a case.
pub fn sheet(seed: u64, case: u64) -> (usize, Vec<u8>, Random) {
    let mut random = generate::of_case(seed, case);
    let shares = KINDS.map(|(_, share, _)| share);
    let kind = generate::by_share(&shares, &mut random);
    let sheet = KINDS[kind].2(&mut random);
    (kind, sheet, random)
}

fn bench_job(random: &mut Random) -> Vec<u8> {
    let mut jobs = bench_jobs::accepted();
    let (_, sheet) = jobs.swap_remove(random.below(jobs.len()));
    sheet.bytes()
}

/// The jobs that are timed: up to half of the most operations pending at once.
fn any_traffic(random: &mut Random) -> Vec<u8> {
    let operations = random.pick(&[32, 128, 1024, MOST_OPERATIONS, MOST_OPERATIONS]);
    let (_, sheet) = random.pick(&traffic::SHAPES);
    sheet(operations).bytes()
}

fn as_for_check(random: &mut Random) -> Vec<u8> {
    generate::case(random.next(), 0).1
}
