//! Edition 2 beside edition 1 (document 02, K6): with rooms of 0 it is followed
//! and run as edition 1, over generated sheets; and what is read off the accounts
//! of every report, which can fail.

#[path = "common/in_rooms.rs"]
mod in_rooms;

use in_rooms::in_rooms;
use jamturret::lent::Answer;
use jamturret_host::compare::{self, followed, naive, Call, Outcome};
use jamturret_host::desk::Desk;
use jamturret_host::editions::{accounts_agree, same_as_first, twin, without_rooms};
use jamturret_host::layout::board_row::{IN_USE, PEAK, STANDARD_PEAK, STANDARD_USE, STATE};
use jamturret_host::layout::kind::{BUFFERED, STANDARD, SYNCHRONOUS};
use jamturret_host::layout::Edition::{First, Second};
use jamturret_host::layout::{word, MOST_BOARDS, MOST_OPERATIONS, MOST_PAYLOAD};
use jamturret_host::random::Random;
use jamturret_host::sheet::{edition, room_of, set_word, Operation, Sheet};
use jamturret_host::trial::{self, Filler, ORDERS};
use jamturret_host::{bench_jobs, generate, guarded, judge};

const SEED: u64 = 61;

/// The sizes of document 02, K6, and the longest there are.
#[test]
fn sizes() {
    assert_eq!(
        (First.operation_at(3, 5), First.report_bytes(3, 5)),
        (120, 100)
    );
    assert_eq!(
        (Second.operation_at(3, 5), Second.report_bytes(3, 5)),
        (126, 112)
    );
    let longest = Second.operation_at(MOST_BOARDS, MOST_OPERATIONS) + MOST_PAYLOAD;
    assert_eq!(longest, 49_328);
    assert_eq!(Second.report_bytes(MOST_BOARDS, MOST_OPERATIONS), 24_784);
}

/// A sheet built in edition 2 with rooms of 0 is the twin of the one in edition 1.
#[test]
fn twins() {
    for (name, sheet) in bench_jobs::accepted() {
        let bytes = sheet.bytes();
        if edition(&bytes) == First {
            let second = sheet.with_room(0).bytes();
            assert_eq!(twin(&bytes), second, "{name}");
        } else {
            assert_eq!(without_rooms(&bytes), sheet.with_room(0).bytes(), "{name}");
        }
    }
}

/// Generated calls of edition 1 that are accepted or refused 9, and their twins.
fn same_calls(ask: impl Fn(&[u8], &Call, &Desk) -> Result<Outcome, String>) {
    let filler = Filler::new(SEED);
    let mut tried = [0; 2];
    for number in 0..4000 {
        let (_, sheet, mut random) = trial::sheet(SEED, number);
        let Some(needs) = judge::needs(&sheet).filter(|_| edition(&sheet) == First) else {
            continue;
        };
        let before = filler.rooms(&needs, &mut random);
        let order = random.pick(&ORDERS).1(&sheet, &mut random);
        let call = random.pick(&[0, 1, 2]);
        let call = if call == 0 {
            Call::Run
        } else {
            Call::Follow(order)
        };
        let first = ask(&sheet, &call, &before).expect("it agrees");
        let same = same_as_first(&sheet, &before, &first, |twin, before| {
            ask(twin, &call, before)
        });
        if [0, 9].contains(&first.answer.number) {
            assert_eq!(same, Ok(()), "case {number}, {call}");
            tried[usize::from(first.answer.number == 9)] += 1;
        }
    }
    assert!(tried.iter().all(|&tried| tried > 200), "{tried:?}");
}

#[test]
fn calls_of_twins_in_our_judge() {
    same_calls(|sheet, call, before| Ok(naive(sheet, call, before)));
}

#[test]
fn calls_of_twins_in_the_library() {
    same_calls(|sheet, call, before| {
        compare::library(
            sheet,
            call,
            before,
            &mut Random::new(before.report.len() as u64),
        )
    });
}

/// Check and premise answer a sheet of edition 1 and its twin alike, once the
/// header and the CRC are right.
fn same_answers(ask: impl Fn(&[u8]) -> [Answer; 2]) {
    let mut numbers = [0; 8];
    for number in 0..6000 {
        let (_, sheet, _) = generate::case(SEED, number);
        let answers = ask(&sheet);
        let check = answers[0].number;
        if [0, 5, 6, 7].contains(&check) && edition(&sheet) == First {
            assert_eq!(ask(&twin(&sheet)), answers, "case {number}");
            numbers[check as usize] += 1;
        }
    }
    let tried = [0, 5, 6, 7].map(|number: usize| numbers[number]);
    assert!(tried.iter().all(|&tried| tried > 100), "{tried:?}");
}

#[test]
fn answers_to_twins_in_our_judge() {
    same_answers(|sheet| [judge::check(sheet), judge::premise(sheet)]);
}

#[test]
fn answers_to_twins_in_the_library() {
    same_answers(|sheet| {
        let random = &mut Random::new(sheet.len() as u64);
        let check = guarded::check(sheet, random).expect("guards are kept");
        [
            check,
            guarded::premise(sheet, random).expect("guards are kept"),
        ]
    });
}

/// The law tells an outcome that differs in any byte of it.
#[test]
fn law_can_fail() {
    let sheet = bench_jobs::case_2().bytes();
    let before = Desk::for_sheet(&sheet);
    let first = naive(&sheet, &Call::Run, &before);
    let spoiled = |spoil: &dyn Fn(&mut Outcome)| {
        same_as_first(&sheet, &before, &first, |twin, before| {
            let mut outcome = naive(twin, &Call::Run, before);
            spoil(&mut outcome);
            Ok(outcome)
        })
    };
    assert_eq!(spoiled(&|_| {}), Ok(()));
    assert!(spoiled(&|outcome| outcome.answer = Answer::refusal(8, 2)).is_err());
    assert!(spoiled(&|outcome| outcome.desk.inbox[0] ^= 1).is_err());
    assert!(spoiled(&|outcome| outcome.desk.order_out[0] ^= 1).is_err());
    assert!(spoiled(&|outcome| outcome.desk.scratch[9] = 1).is_err());
    for at in 0..Second.report_bytes(2, 4) {
        let spoil = |outcome: &mut Outcome| outcome.desk.report[at] ^= 1;
        assert!(spoiled(&spoil).is_err(), "byte {at}");
    }
}

/// A buffered and a standard message pending, one of each received before.
fn both_accounts() -> (Sheet, Vec<u8>) {
    let message = |kind| Operation::send(kind, 1, 7, 0, 3);
    let sends = [BUFFERED, STANDARD, BUFFERED, STANDARD, SYNCHRONOUS].map(message);
    let receive = Operation::receive(0, 7, 0, 4);
    let sheet = in_rooms(&[&sends, &[receive, receive]], &[8, 0]).attach(0, 80);
    let order = [0, 0, 0, 0, 1, 1, 1, 0, 0, 0, 0, 0];
    let report = followed(&sheet.bytes(), &order).report;
    (sheet, report)
}

#[test]
fn accounts_can_fail() {
    let (sheet, report) = both_accounts();
    let bytes = sheet.bytes();
    assert_eq!(accounts_agree(&bytes, &report), Ok(()));
    let row = |rank| Second.board_row_at(rank);
    let state = |index| Second.operation_row_at(2, index);
    // In use 35 of 80, standard use 3 of 8, and never more.
    for (at, value, right) in [
        (row(0) + IN_USE, 34, false),
        (row(0) + PEAK, 34, false),
        (row(0) + PEAK, 35, true),
        (row(0) + PEAK, 80, true),
        (row(0) + PEAK, 81, false),
        (row(0) + STANDARD_USE, 2, false),
        (row(0) + STANDARD_USE, 4, false),
        (row(0) + STANDARD_PEAK, 2, false),
        (row(0) + STANDARD_PEAK, 3, true),
        (row(0) + STANDARD_PEAK, 8, true),
        (row(0) + STANDARD_PEAK, 9, false),
        (row(1) + STANDARD_USE, 1, false),
        (row(1) + STANDARD_PEAK, 1, false),
        (row(1) + STATE, 3, false),
    ] {
        let mut other = report.clone();
        set_word(&mut other, at, value);
        let said = accounts_agree(&bytes, &other);
        assert_eq!(said.is_ok(), right, "byte {at}: {value}, {said:?}");
    }
    // State 2 of a message that is charged nothing, and of a receive; a charged
    // one in state 1.
    for (index, value) in [(4, 2), (5, 2), (2, 1), (3, 1), (0, 2), (1, 2)] {
        let mut other = report.clone();
        other[state(index)] = value;
        assert!(accounts_agree(&bytes, &other).is_err(), "operation {index}");
    }
}

/// In edition 1, and in a board without room, no standard message is in state 2.
#[test]
fn no_state_2_without_room() {
    let script = [Operation::send(STANDARD, 0, 7, 0, 0)];
    let sheet = Sheet::of_scripts(&[&script], 0);
    for (sheet, kept) in [
        (sheet.clone(), false),
        (sheet.clone().with_room(0), false),
        (sheet.with_room(1), true),
    ] {
        let bytes = sheet.bytes();
        let mut report = followed(&bytes, &[0]).report;
        assert_eq!(accounts_agree(&bytes, &report), Ok(()));
        report[sheet.edition.operation_row_at(1, 0)] = 2;
        assert_eq!(accounts_agree(&bytes, &report).is_ok(), kept);
    }
}

/// On generated sheets both judges agree, also where messages are in rooms.
#[test]
fn judges_agree() {
    let filler = Filler::new(SEED);
    let (mut rooms, mut in_room) = (0, 0);
    for number in 0..12_000 {
        let (_, sheet, mut random) = trial::sheet(SEED + 1, number);
        let Some(needs) = judge::needs(&sheet).filter(|_| edition(&sheet) == Second) else {
            continue;
        };
        let before = filler.exact(&needs, &mut random);
        let order = random.pick(&ORDERS).1(&sheet, &mut random);
        for call in [Call::Run, Call::Follow(order)] {
            let outcome = naive(&sheet, &call, &before);
            assert_eq!(
                outcome,
                compare::efficient(&sheet, &call, &before),
                "case {number}"
            );
            if outcome.answer == Answer::SUCCESS {
                assert_eq!(accounts_agree(&sheet, &outcome.desk.report), Ok(()));
                let boards = 0..usize::from(word(&sheet, 0));
                rooms += usize::from(boards.clone().any(|rank| room_of(&sheet, rank) > 0));
                let peak = |rank| outcome.desk.figure(rank, STANDARD_PEAK);
                in_room += usize::from(boards.clone().any(|rank| peak(rank) > 0));
            }
        }
    }
    assert!(rooms > 2000 && in_room > 500, "{rooms} and {in_room}");
}
