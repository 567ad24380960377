//! A table of searches, at the head and at the end, of two builds.

use crate::{MOST, WAITING};

/// Nanoseconds that a search of one build takes.
#[derive(Clone, Copy)]
pub struct Times {
    pub head: f64,
    pub end: f64,
}

pub fn heading(what: &str) {
    println!();
    println!(
        "{what:<36}{:>9}{:>9}{:>9}{:>14}{:>9}{:>9}",
        "head", "end", "ratio", "a candidate", "old", "new/old"
    );
}

/// Says whether those at the head take little enough.
pub fn line(name: &str, new: Times, old: Times) -> bool {
    let ratio = new.head / new.end;
    println!(
        "{name:<36}{:>9.1}{:>9.1}{ratio:>9.3}{:>14.3}{:>9.3}{:>9.2}",
        new.head,
        new.end,
        new.end / WAITING as f64,
        old.end / WAITING as f64,
        new.end / old.end,
    );
    ratio <= MOST
}
