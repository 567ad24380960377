//! `bench_searches [OLD.so]`: with 1,000 messages waiting, the time of searches
//! that fit at the head beside as many that fit only at the end; through the C
//! boundary, all in one run, in turn. Exits with 1 if one takes more than a
//! tenth at the head of what it takes at the end.
//!
//! OLD.so is another build, as a shared object, whose times stand beside. It is
//! made of the static libraries of that build:
//! `cc -shared -o OLD.so -Wl,--whole-archive libjamturret.a libsearches.a`.
//! Without one the linked build stands beside itself, which shows how far two
//! times of one build are apart.

mod builds;
mod jobs;
mod lists;
mod table;

use builds::Build;
use std::{env, process};

/// How many messages wait.
const WAITING: usize = 1000;

/// What searches that fit at the head may take of the time of as many that fit
/// only at the end.
const MOST: f64 = 0.1;

/// The linked build, and the one that stands beside it.
struct Builds {
    new: Build,
    old: Build,
}

fn main() {
    if cfg!(debug_assertions) {
        eprintln!("bench_searches: times say something only with --release");
        process::exit(2);
    }
    let new = Build::linked();
    let named = env::args().nth(1);
    let old = named.as_deref().map_or(Ok(new), Build::in_object);
    let builds = match old {
        Ok(old) => Builds { new, old },
        Err(text) => {
            eprintln!("bench_searches: {text}");
            process::exit(2);
        }
    };
    let name = named.as_deref().unwrap_or("the same build");
    println!(
        "Nanoseconds a search, with {WAITING} waiting; the least of many rounds. Old: {name}."
    );
    let good = lists::tables(&builds) & jobs::table(&builds);
    jobs::all_to_one(&builds);
    if !good {
        eprintln!("bench_searches: a search at the head takes more than {MOST} of one at the end");
        process::exit(1);
    }
}
