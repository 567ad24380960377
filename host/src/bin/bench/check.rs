//! *Check* and *premise* on the largest sheets of both editions and on small ones.

use crate::lines::{heading, line};
use jamturret::lent::{self, Answer};
use jamturret_host::layout::kind::STANDARD;
use jamturret_host::layout::{Edition, SLOTS};
use jamturret_host::layout::{MOST_BOARDS, MOST_OPERATIONS, MOST_ROOM};
use jamturret_host::sheet::{Board, Operation, Sheet};
use jamturret_host::timing::{in_turn, median};
use jamturret_host::{bench_jobs, judge, traffic};
use std::hint::black_box;

/// Areas of a board, each of its own bytes.
const AREAS: usize = 2 * SLOTS;
const AREA: u16 = 16;

/// A service that is asked of a sheet alone.
type Service = fn(&[u8]) -> Answer;

pub fn tables(rounds: usize) {
    table("check", lent::check, judge::check, rounds);
    table("premise", lent::premise, judge::premise, rounds);
}

/// The sheets are accepted, so that every rule is asked of all of them.
fn table(service: &str, library: Service, ours: Service, rounds: usize) {
    heading(service);
    for (name, calls, sheet) in sheets() {
        let sheet = sheet.bytes();
        assert_eq!(library(&sheet), Answer::SUCCESS, "library");
        assert_eq!(ours(&sheet), Answer::SUCCESS, "judge");
        let times = in_turn(
            rounds,
            calls,
            [
                &mut || {
                    black_box(library(black_box(&sheet)));
                },
                &mut || {
                    black_box(ours(black_box(&sheet)));
                },
            ],
        );
        line(name, &sheet, times.map(median));
    }
}

/// Operations of a script by index and the script's length: for all boards the
/// same.
type Script = fn(usize, usize) -> Operation;

/// Name, boards, script. The last has fewer boards, so that half or more of its
/// operations are blocking receives beside 32 held ones.
const SCRIPTS: [(&str, usize, Script); 3] = [
    ("blocking", MOST_BOARDS, blocking),
    (
        "32 receives, 32 waits, in turn",
        MOST_BOARDS,
        received_and_waited,
    ),
    (
        "32 held, blocking, 32 waits",
        MOST_BOARDS / 2,
        held_and_freed,
    ),
];

/// Name, calls a measurement, sheet: the most operations beside half of them,
/// and small jobs.
fn sheets() -> Vec<(&'static str, usize, Sheet)> {
    let mut sheets = Vec::new();
    for (name, boards, script) in SCRIPTS {
        for operations in [MOST_OPERATIONS / 2, MOST_OPERATIONS] {
            sheets.push((name, 1, full(operations, boards, script)));
        }
    }
    // Edition 2, with rooms that cover all (document 02, K6).
    for operations in [MOST_OPERATIONS / 2, MOST_OPERATIONS] {
        let sheet = full(operations, MOST_BOARDS, blocking);
        let sheet = sheet.with_room(MOST_ROOM as u16);
        sheets.push(("blocking, edition 2", 1, sheet));
    }
    sheets.push(("case 1", 500, bench_jobs::case_1()));
    let in_rooms = bench_jobs::case_6_in_rooms([3, 3]);
    sheets.push(("case 6 in rooms", 500, in_rooms));
    sheets
}

/// Boards with the same script and the largest payload.
fn full(operations: usize, boards: usize, script: Script) -> Sheet {
    let length = operations / boards;
    let board = Board {
        inbox: AREA * AREAS as u16,
        script: (0..length).map(|index| script(index, length)).collect(),
        ..Board::default()
    };
    Sheet {
        edition: Edition::First,
        communicators: 8,
        boards: vec![board; boards],
        payload: traffic::full_payload(),
    }
}

/// A receive into an area that touches its neighbours.
fn area(index: usize) -> Operation {
    let index = index as u16;
    Operation::receive(3, index, index * AREA, AREA)
}

fn blocking(index: usize, _: usize) -> Operation {
    match index % 2 {
        0 => Operation::send(STANDARD, 5, index as u16, 256 * (index as u16 / 2), 256),
        _ => area(index % AREAS),
    }
}

fn received_and_waited(index: usize, _: usize) -> Operation {
    let slot = index % SLOTS;
    match index / SLOTS % 2 {
        0 => area(slot).nonblocking(slot as u16),
        _ => Operation::wait(slot as u16),
    }
}

/// The areas behind the slots' share no byte with those that are held.
fn held_and_freed(index: usize, length: usize) -> Operation {
    let slot = (index % SLOTS) as u16;
    if index < SLOTS {
        area(index).nonblocking(slot)
    } else if index < length - SLOTS {
        area(SLOTS + index % SLOTS)
    } else {
        Operation::wait(slot)
    }
}
