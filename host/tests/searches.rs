//! The searches of `waiting`, and the engine's in a job, through the C boundary,
//! against searches of our own (document 01, How a board steps: the earliest
//! that fits).

use jamturret_host::judge::{self, SCRATCH_ROOM};
use jamturret_host::layout::ANY;
use jamturret_host::random::Random;
use jamturret_host::searches::{Asked, Envelope, Slices, LINKED};
use jamturret_host::sheet::{self, Operation, Sheet};
use jamturret_host::trial;

const SEED: u64 = 3;
const ANY_NUMBER: usize = ANY as usize;

/// The parts of a fit: communicator, source, tag.
fn parts(waits: &Envelope, asked: Asked) -> [bool; 3] {
    [
        waits.communicator == asked.communicator,
        asked.source == ANY_NUMBER || asked.source == waits.source,
        asked.tag == ANY_NUMBER || asked.tag == waits.tag,
    ]
}

fn fits(waits: &Envelope, asked: Asked) -> bool {
    parts(waits, asked) == [true; 3]
}

/// The place of the earliest that fits, or the list's length.
fn earliest(list: &[Envelope], asked: Asked) -> usize {
    let place = list.iter().position(|waits| fits(waits, asked));
    place.unwrap_or(list.len())
}

/// Few different numbers, so that much fits; now and then any, which in an
/// envelope is a number like others, and numbers beyond two bytes.
fn number(random: &mut Random, most: usize) -> usize {
    match random.below(40) {
        0 => ANY_NUMBER,
        1 => ANY_NUMBER + 1,
        2 => usize::MAX,
        _ => random.below(most),
    }
}

fn envelope(random: &mut Random, most: usize) -> Envelope {
    Envelope {
        source: number(random, most),
        communicator: number(random, most),
        tag: number(random, most),
        operation: random.below(2048),
    }
}

fn asked(random: &mut Random, most: usize) -> Asked {
    let waits = envelope(random, most);
    let mut or_any = |number| {
        if random.chance(30) {
            ANY_NUMBER
        } else {
            number
        }
    };
    Asked {
        source: or_any(waits.source),
        communicator: waits.communicator,
        tag: or_any(waits.tag),
    }
}

#[test]
fn both_find_the_earliest() {
    let mut random = Random::new(SEED);
    // at the head, at the end, between, nowhere, before another that fits;
    // passed by communicator, source or tag alone
    let mut seen = [0; 8];
    for case in 0..60_000 {
        let length = random.pick(&[0, 1, 2, 3, 5, 17, 64, 65, 200]);
        let most = random.pick(&[1, 2, 3, 6]);
        let list: Vec<Envelope> = (0..length).map(|_| envelope(&mut random, most)).collect();
        let asked = asked(&mut random, most);
        let place = earliest(&list, asked);
        let slices = Slices::of(&list);
        let text = format!("case {case}: {asked:?}");
        assert_eq!(LINKED.in_slices(&slices, asked), place, "{text}, slices");
        assert_eq!(
            LINKED.in_envelopes(&list, asked),
            place,
            "{text}, envelopes"
        );
        let passed = |part: usize| {
            let mut others = [true; 3];
            others[part] = false;
            list[..place]
                .iter()
                .any(|waits| parts(waits, asked) == others)
        };
        let cases = [
            length > 1 && place == 0,
            length > 1 && place + 1 == length,
            0 < place && place + 1 < length,
            length > 1 && place == length,
            list.iter().skip(place + 1).any(|waits| fits(waits, asked)),
            passed(0),
            passed(1),
            passed(2),
        ];
        for (seen, made) in seen.iter_mut().zip(cases) {
            *seen += u32::from(made);
        }
    }
    assert!(seen.iter().min() > Some(&1000), "{seen:?}");
}

/// As many as a job can have pending, and more.
#[test]
fn long_lists() {
    for length in [1000, 2048, 5000] {
        let mut list = vec![Envelope::default(); length];
        for place in [0, 1, length / 2, length - 2, length - 1] {
            let sought = Envelope {
                source: 1,
                communicator: 2,
                tag: 3,
                operation: place,
            };
            let before = std::mem::replace(&mut list[place], sought);
            for (source, tag) in [(1, 3), (ANY_NUMBER, 3), (1, ANY_NUMBER)] {
                let asked = Asked {
                    source,
                    communicator: 2,
                    tag,
                };
                assert_eq!(LINKED.in_slices(&Slices::of(&list), asked), place);
                assert_eq!(LINKED.in_envelopes(&list, asked), place);
            }
            list[place] = before;
        }
    }
}

/// Slices of different lengths are no list: the answer is the number of
/// sources, though the first message fits.
#[test]
fn slices_that_differ_in_length() {
    let asked = Asked {
        source: 0,
        communicator: 0,
        tag: 0,
    };
    for (sources, communicators, tags) in [(3, 2, 3), (3, 3, 2), (3, 4, 3), (3, 3, 4), (2, 3, 3)] {
        let slices = Slices {
            sources: vec![0; sources],
            communicators: vec![0; communicators],
            tags: vec![0; tags],
        };
        assert_eq!(LINKED.in_slices(&slices, asked), sources);
    }
}

/// Of a whole order, each receive's search before its initiating step: the
/// order up to there is followed, and then that one receive searches.
#[test]
fn the_engine_finds_the_earliest() {
    let mut scratch = vec![0; SCRATCH_ROOM];
    // at the head, at the end, between, nowhere
    let mut seen = [0; 4];
    for number in 0..6000 {
        let (_, sheet, mut random) = trial::sheet(SEED, number);
        if judge::needs(&sheet).is_none() || sheet.len() > 1500 {
            continue;
        }
        let order = (trial::ORDERS[0].1)(&sheet, &mut random);
        judge::each_search(&sheet, &order, |search| {
            if !search.receives {
                return;
            }
            let length = search.candidates.len();
            let place = search
                .candidates
                .iter()
                .position(|parts| *parts == [true; 4]);
            let place = place.unwrap_or(length);
            let order = &order[..search.steps];
            let found = LINKED.in_job(&sheet, order, &mut scratch, search.operation, 1);
            assert_eq!(
                found, place,
                "case {number}, operation {}",
                search.operation
            );
            let cases = [
                length > 1 && place == 0,
                length > 1 && place + 1 == length,
                0 < place && place + 1 < length,
                length > 1 && place == length,
            ];
            for (seen, made) in seen.iter_mut().zip(cases) {
                *seen += u32::from(made);
            }
        });
    }
    assert!(seen.iter().min() > Some(&300), "{seen:?}");
}

/// Several receives, one after another, take nothing from each other; what is
/// not asked for is answered with 0.
#[test]
fn searches_of_a_job() {
    let send = |tag| Operation::send(1, 1, tag, 0, 0);
    let receive = |tag| Operation::receive(0, tag, 0, 0);
    let scripts: [&[Operation]; 3] = [
        &[
            send(7).nonblocking(0),
            send(8).nonblocking(1),
            Operation::wait(0),
            Operation::wait(1),
        ],
        &[receive(8), receive(8), receive(7), receive(9)],
        &[],
    ];
    let bytes = Sheet::of_scripts(&scripts, 0).bytes();
    let mut scratch = vec![0; SCRATCH_ROOM];
    let mut ask = |sheet: &[u8], order: &[u8], scratch_len: usize, first, count| {
        LINKED.in_job(sheet, order, &mut scratch[..scratch_len], first, count)
    };
    let pending = [0, 0];
    // places 1, 1 and 0; then none of two
    assert_eq!(ask(&bytes, &pending, SCRATCH_ROOM, 4, 3), 2);
    assert_eq!(ask(&bytes, &pending, SCRATCH_ROOM, 4, 4), 4);
    assert_eq!(ask(&bytes, &pending, SCRATCH_ROOM, 5, 0), 0);
    // nothing is pending yet; an order that is refused behind both sends
    assert_eq!(ask(&bytes, &[], SCRATCH_ROOM, 4, 4), 0);
    assert_eq!(ask(&bytes, &[0, 0, 0, 9], SCRATCH_ROOM, 4, 4), 4);
    // no such operations, short scratch, a refused sheet
    assert_eq!(ask(&bytes, &pending, SCRATCH_ROOM, 4, 5), 0);
    assert_eq!(ask(&bytes, &pending, SCRATCH_ROOM, usize::MAX, 2), 0);
    assert_eq!(ask(&bytes, &pending, SCRATCH_ROOM - 1, 4, 4), 0);
    let mut damaged = bytes.clone();
    sheet::add_word(&mut damaged, 14, 1);
    assert_eq!(ask(&damaged, &pending, SCRATCH_ROOM, 4, 4), 0);
}
