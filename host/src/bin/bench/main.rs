//! `bench [ROUNDS]`: the time of the library's services beside our judge's.
//! Both are asked in turn, in one run; medians are printed.
//!
//! The judge beside itself gives 1.00. The judge beside a second build of its
//! own source gave 0.86 to 1.02, so a ratio from 0.85 to 1.15 does not tell
//! the two apart.

mod check;
mod jobs;
mod lines;

use std::{env, process};

const ROUNDS: usize = 300;

fn main() {
    if cfg!(debug_assertions) {
        eprintln!("bench: times say something only with --release");
        process::exit(2);
    }
    let rounds = env::args().nth(1).and_then(|text| text.parse().ok());
    let rounds = rounds.unwrap_or(ROUNDS).max(1);
    println!("Medians of {rounds} rounds in nanoseconds a call, library and judge in turn;");
    println!("both sides are release builds and the buffers were warm.");
    println!("A ratio from 0.85 to 1.15 does not tell the two apart.");
    check::tables(rounds);
    jobs::table(rounds);
    jobs::growth(rounds);
}
