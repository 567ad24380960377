//! The engine's search, in a job of 1,000 pending messages: half of the receives
//! ask for the first to arrive, half for the last. The job is set up by the
//! call that searches, so the time of a call without searches is taken off.

use crate::builds::Build;
use crate::table::{heading, line, Times};
use crate::{Builds, WAITING};
use jamturret::lent::Answer;
use jamturret_host::desk::Desk;
use jamturret_host::judge::SCRATCH_ROOM;
use jamturret_host::layout::kind::BUFFERED;
use jamturret_host::layout::{ANY, BSEND_OVERHEAD, MOST_OPERATIONS};
use jamturret_host::searches::Searches;
use jamturret_host::sheet::{Operation, Sheet};
use jamturret_host::timing::{in_turn, least};
use jamturret_host::traffic;
use std::hint::black_box;

const ROUNDS: usize = 200;

/// Receives that ask for the first, and as many that ask for the last.
const SEARCHES: usize = (MOST_OPERATIONS - WAITING) / 2;

/// Ranks: the first message's sender, two that send the others, the last
/// message's sender; the receiver, and a board that is only sent to.
const SENDERS: usize = 4;
const RECEIVER: u16 = 4;
const ANOTHER: u16 = 5;

/// The receives stand behind all sends.
const ASK_FIRST: usize = WAITING;
const ASK_LAST: usize = WAITING + SEARCHES;

/// What tells the messages apart: the first, the others, the last; the receive
/// that asks for the first, and the one that asks for the last.
type Decides = (&'static str, [Operation; 3], [Operation; 2]);

fn decides() -> [Decides; 4] {
    let send = |to: u16, tag: u16| Operation::send(BUFFERED, to, tag, 0, 0);
    let receive = |from: u16, tag: u16| Operation::receive(from, tag, 0, 0);
    let last = SENDERS as u16 - 1;
    [
        (
            "source",
            [send(RECEIVER, 0); 3],
            [receive(0, 0), receive(last, 0)],
        ),
        (
            "destination, any source",
            [send(RECEIVER, 1), send(ANOTHER, 2), send(RECEIVER, 2)],
            [receive(ANY, 1), receive(ANY, 2)],
        ),
        (
            "tag, any source",
            [send(RECEIVER, 1), send(RECEIVER, 0), send(RECEIVER, 2)],
            [receive(ANY, 1), receive(ANY, 2)],
        ),
        (
            "communicator, all else any",
            [
                send(RECEIVER, 0).on(1),
                send(RECEIVER, 0),
                send(RECEIVER, 0).on(2),
            ],
            [receive(ANY, ANY).on(1), receive(ANY, ANY).on(2)],
        ),
    ]
}

fn sheet([first, other, last]: [Operation; 3], receives: [Operation; 2]) -> Sheet {
    let others = vec![other; (WAITING - 2) / 2];
    let receives = receives.map(|receive| vec![receive; SEARCHES]).concat();
    let scripts: [&[Operation]; 6] = [&[first], &others, &others, &[last], &receives, &[]];
    let mut sheet = Sheet::of_scripts(&scripts, 0);
    sheet.communicators = 3;
    for board in &mut sheet.boards[..SENDERS] {
        board.attached = (BSEND_OVERHEAD * board.script.len()) as u16;
    }
    sheet
}

/// All sends, rank by rank. A blocking operation has two steps.
fn order(sheet: &Sheet) -> Vec<u8> {
    let steps = |rank: usize| vec![rank as u8; 2 * sheet.boards[rank].script.len()];
    (0..SENDERS).flat_map(steps).collect()
}

/// Whether the engine keeps the ratio, whatever decides.
pub fn table(builds: &Builds) -> bool {
    let mut good = true;
    heading("engine, in a job: decided by");
    for (name, sends, receives) in decides() {
        let sheet = sheet(sends, receives);
        let (sheet, order) = (sheet.bytes(), order(&sheet));
        let call = |searches: &Searches, count: usize, (first, place): (usize, usize)| {
            let mut scratch = [0; SCRATCH_ROOM];
            let (sheet, order) = (black_box(&sheet), black_box(&order));
            let sum = searches.in_job(sheet, order, &mut scratch, first, count);
            assert_eq!(sum, count * place, "{name}");
        };
        let (new, old) = (&builds.new.searches, &builds.old.searches);
        let (head, end) = ((ASK_FIRST, 0), (ASK_LAST, WAITING - 1));
        let times = in_turn(
            ROUNDS,
            1,
            [
                &mut || call(new, 0, head),
                &mut || call(new, SEARCHES, head),
                &mut || call(new, SEARCHES, end),
                &mut || call(old, 0, head),
                &mut || call(old, SEARCHES, head),
                &mut || call(old, SEARCHES, end),
            ],
        );
        let [a, b, c, d, e, f] = times.map(|times| least(times) / SEARCHES as f64);
        let of = |none, head, end| Times {
            head: head - none,
            end: end - none,
        };
        good &= line(name, of(a, b, c), of(d, e, f));
    }
    good
}

/// Whole runs of all-to-one traffic.
pub fn all_to_one(builds: &Builds) {
    println!();
    println!(
        "{:<36}{:>12}{:>12}{:>9}",
        "run, all to one: operations", "new", "old", "new/old"
    );
    for operations in [MOST_OPERATIONS / 2, MOST_OPERATIONS] {
        let sheet = traffic::all_to_one(operations).bytes();
        let mut desks = [(); 2].map(|()| Desk::for_sheet(&sheet));
        let [a, b] = &mut desks;
        let run = |build: &Build, desk: &mut Desk| {
            let answer = black_box(build.run(black_box(&sheet), desk));
            assert_eq!(answer, Answer::SUCCESS);
        };
        let times = in_turn(
            ROUNDS,
            1,
            [&mut || run(&builds.new, a), &mut || run(&builds.old, b)],
        );
        assert_eq!(desks[0], desks[1]);
        let [new, old] = times.map(least);
        println!("{operations:<36}{new:>12.0}{old:>12.0}{:>9.2}", new / old);
    }
}
