//! The searches of `waiting`: through three slices, and through a list of
//! envelopes.

use crate::table::{heading, line, Times};
use crate::{Builds, WAITING};
use jamturret_host::layout::ANY;
use jamturret_host::searches::{Asked, Envelope, Searches, Slices};
use jamturret_host::timing::{in_turn, least};
use std::hint::black_box;

const ROUNDS: usize = 300;
const CALLS: usize = 100;

/// What tells the messages that wait apart: a message at a place of the list,
/// and what a receive names that asks for it.
type Decides = (&'static str, fn(usize) -> Envelope, fn(usize) -> Asked);

const DECIDES: [Decides; 4] = [
    (
        "source",
        |place| envelope(place, 0, 0),
        |place| asked(place, 0, 0),
    ),
    (
        "tag",
        |place| envelope(0, 0, place),
        |place| asked(0, 0, place),
    ),
    (
        "tag, any source",
        |place| envelope(0, 0, place),
        |place| asked(ANY.into(), 0, place),
    ),
    (
        "communicator, all else any",
        |place| envelope(0, place, 0),
        |place| asked(ANY.into(), place, ANY.into()),
    ),
];

fn envelope(source: usize, communicator: usize, tag: usize) -> Envelope {
    Envelope {
        source,
        communicator,
        tag,
        operation: 0,
    }
}

fn asked(source: usize, communicator: usize, tag: usize) -> Asked {
    Asked {
        source,
        communicator,
        tag,
    }
}

/// Whether both searches keep the ratio, whatever decides.
pub fn tables(builds: &Builds) -> bool {
    let lists = DECIDES.map(|(_, message, _)| (0..WAITING).map(message).collect::<Vec<_>>());
    let mut good = true;
    heading("waiting, three slices: decided by");
    for ((name, _, receive), list) in DECIDES.into_iter().zip(&lists) {
        let list = Slices::of(list);
        let search = |searches: &Searches, asked| searches.in_slices(black_box(&list), asked);
        good &= row(builds, name, receive, search);
    }
    heading("waiting, a list of envelopes: by");
    for ((name, _, receive), list) in DECIDES.into_iter().zip(&lists) {
        let search = |searches: &Searches, asked| searches.in_envelopes(black_box(list), asked);
        good &= row(builds, name, receive, search);
    }
    good
}

fn row(
    builds: &Builds,
    name: &str,
    receive: fn(usize) -> Asked,
    search: impl Fn(&Searches, Asked) -> usize,
) -> bool {
    let at = |searches: &Searches, place: usize| {
        let found = search(searches, black_box(receive(place)));
        assert_eq!(found, place, "{name}");
    };
    let (new, old) = (&builds.new.searches, &builds.old.searches);
    let end = WAITING - 1;
    let times = in_turn(
        ROUNDS,
        CALLS,
        [
            &mut || at(new, 0),
            &mut || at(new, end),
            &mut || at(old, 0),
            &mut || at(old, end),
        ],
    );
    let [new_head, new_end, old_head, old_end] = times.map(least);
    let of = |head, end| Times { head, end };
    line(name, of(new_head, new_end), of(old_head, old_end))
}
