//! `differential_jobs [SEED] [CASES]`: compares the library's *follow* and
//! *run* with both of our judges over generated sheets, rooms and orders, and
//! tries document 01's claim about orders on sheets that it speaks of, document
//! 02's claim about steps that trade places (K14) on all, the promises
//! No-request-left and Probe-then-receive (K7 and K9) and the accounts (K2 and K6)
//! on all reports, and calls of edition 1 on the same boards in edition 2 with
//! rooms of 0 (K6). Prints what was reached; at the first difference prints what
//! is needed to see it and exits with 1, as it does where something was not
//! reached.

use jamturret_host::command::{argument, difference};
use jamturret_host::trial::{self, Counts, Filler, KINDS};
use std::process;
use std::time::Instant;

const SEED: u64 = 20_240_602;
const CASES: u64 = 120_000;
/// From so many cases on everything has to be reached.
const ENOUGH: u64 = 50_000;

fn main() {
    let seed = argument("differential_jobs", 1, SEED);
    let cases = argument("differential_jobs", 2, CASES);
    let start = Instant::now();
    let filler = Filler::new(seed);
    let mut counts = Counts::default();
    for number in 0..cases {
        if let Err(failure) = trial::case(seed, number, &filler, &mut counts) {
            let name = KINDS[failure.kind].0;
            let lines = [("difference", failure.text)];
            difference(seed, number, name, &failure.sheet, &lines);
        }
    }
    print!("{counts}");
    println!(
        "seed {seed}: {cases} cases, {} calls agree in {:.1} s",
        counts.calls(),
        start.elapsed().as_secs_f64()
    );
    let seldom = counts.least_of_lengths().min(counts.least_of_exchanges());
    if cases >= ENOUGH && counts.least().min(seldom) == 0 {
        eprintln!("something was not reached: see the zeros above");
        process::exit(1);
    }
}
