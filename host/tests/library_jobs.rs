//! The library's *follow* and *run* against both judges, through the C
//! boundary. `differential_jobs` tries many more.

use jamturret_host::trial::{self, Counts, Filler, KINDS};

const SEED: u64 = 41;
const CASES: u64 = 8000;

#[test]
fn library_agrees() {
    let filler = Filler::new(SEED);
    let mut counts = Counts::default();
    for number in 0..CASES {
        if let Err(failure) = trial::case(SEED, number, &filler, &mut counts) {
            let kind = KINDS[failure.kind].0;
            panic!("case {number}, {kind}: {}", failure.text);
        }
    }
    assert!(counts.least() > 0, "something was not reached\n{counts}");
}
