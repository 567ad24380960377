//! The most operations for each service, and both sides of the rooms that they
//! ask for (document 02, K11), also in edition 2 (K6), through the library and
//! both judges. The answers are written down by hand.

use jamturret::lent::Answer;
use jamturret_host::compare::{self, Call};
use jamturret_host::desk::{Desk, FILL};
use jamturret_host::layout::kind::READY;
use jamturret_host::layout::{word, Edition, ANY};
use jamturret_host::random::Random;
use jamturret_host::sheet::{Operation, Sheet};
use jamturret_host::{bench_jobs, guarded, judge, traffic};

/// All of them agree on a call and answer this; the rooms after it.
fn expect(
    name: &str,
    sheet: &[u8],
    call: &Call,
    before: &Desk,
    (number, place): (u32, u64),
) -> Desk {
    let outcome = compare::all(sheet, call, before, &mut Random::new(11));
    let outcome = outcome.unwrap_or_else(|text| panic!("{name}: {text}"));
    assert_eq!(outcome.answer, Answer::refusal(number, place), "{name}");
    outcome.desk
}

fn longest() -> Vec<u8> {
    bench_jobs::case_14_operations(2048).bytes()
}

#[test]
fn every_step_is_taken() {
    let sheet = longest();
    let rooms = Desk::for_sheet(&sheet);
    let ran = expect("run", &sheet, &Call::Run, &rooms, (0, 0));
    assert_eq!((ran.report[0], ran.steps()), (1, 4096));
    assert_eq!(ran.order(), [0; 4096]);
    let order = Call::Follow(ran.order().to_vec());
    let followed = expect("follow", &sheet, &order, &rooms, (0, 0));
    assert_eq!(followed.report, ran.report);
    let more = Call::Follow(vec![0; 4097]);
    expect("one step more", &sheet, &more, &rooms, (9, 4096));
    let other = Call::Follow([vec![0; 4095], vec![1]].concat());
    expect("another rank at last", &sheet, &other, &rooms, (9, 4095));
}

#[test]
fn rooms_of_the_longest_sheet() {
    let sheet = longest();
    let mut rooms = Desk::for_sheet(&sheet);
    assert_eq!((rooms.report.len(), rooms.order_out.len()), (24_600, 4096));
    let none = Call::Follow(Vec::new());
    rooms.order_out.pop();
    expect("order out 4,095", &sheet, &Call::Run, &rooms, (8, 3));
    expect("follow asks for none", &sheet, &none, &rooms, (0, 0));
    rooms.report.pop();
    for call in [Call::Run, none] {
        expect("report 24,599", &sheet, &call, &rooms, (8, 2));
    }
}

/// A ring that finishes in its rooms (document 02, K6).
#[test]
fn longest_sheet_of_edition_2() {
    let sheet = traffic::longest().bytes();
    assert_eq!(sheet.len(), 49_328);
    let mut rooms = Desk::for_sheet(&sheet);
    assert_eq!((rooms.report.len(), rooms.order_out.len()), (24_784, 4096));
    let ran = expect("run", &sheet, &Call::Run, &rooms, (0, 0));
    assert_eq!((ran.verdict(), ran.steps()), (1, 4096));
    let order = Call::Follow(ran.order().to_vec());
    let followed = expect("follow", &sheet, &order, &rooms, (0, 0));
    assert_eq!(followed.report, ran.report);
    for length in [24_783, 24_720, 24_719] {
        rooms.report.truncate(length);
        for call in [Call::Run, Call::Follow(Vec::new())] {
            let name = format!("report {length}");
            expect(&name, &sheet, &call, &rooms, (8, 2));
        }
    }
}

/// The last of sixteen rooms: one byte short, or above the limit.
#[test]
fn last_room() {
    for (room, check, premise) in [
        (512, (0, 0), (0, 0)),
        (511, (0, 0), (24, 15)),
        (0, (0, 0), (0, 0)),
        (16_385, (5, 15), (5, 15)),
    ] {
        let mut sheet = traffic::longest();
        sheet.boards[15].room = room;
        let sheet = sheet.bytes();
        let [check, premise] =
            [check, premise].map(|(number, place)| Answer::refusal(number, place));
        let random = &mut Random::new(6);
        assert_eq!(guarded::check(&sheet, random), Ok(check), "room {room}");
        assert_eq!(judge::check(&sheet), check);
        assert_eq!(guarded::premise(&sheet, random), Ok(premise), "room {room}");
        assert_eq!(judge::premise(&sheet), premise);
    }
}

/// Whatever N is; 8 goes before 9.
#[test]
fn scratch() {
    let no_rank = Call::Follow(vec![2]);
    for sheet in [bench_jobs::case_1().bytes(), longest()] {
        for length in [0, 32_767, 32_768, 32_769, 40_000, 65_535, 65_536, 65_537] {
            let (name, short) = (format!("scratch {length}"), length < 65_536);
            let rooms = Desk {
                scratch: vec![FILL; length],
                ..Desk::for_sheet(&sheet)
            };
            let run = if short { (8, 4) } else { (0, 0) };
            expect(&name, &sheet, &Call::Run, &rooms, run);
            let follow = if short { (8, 4) } else { (9, 0) };
            expect(&name, &sheet, &no_rank, &rooms, follow);
        }
    }
}

#[test]
fn one_operation_more() {
    let sheet = bench_jobs::case_14_operations(2049).bytes();
    let none = Desk {
        edition: Edition::First,
        inbox: Vec::new(),
        report: Vec::new(),
        order_out: Vec::new(),
        scratch: Vec::new(),
    };
    expect("run", &sheet, &Call::Run, &none, (2, 0));
    expect("follow", &sheet, &Call::Follow(vec![9]), &none, (2, 0));
}

/// The longest job with this as its last operation, 2,047.
fn at_last(operation: Operation) -> Sheet {
    let mut sheet = bench_jobs::case_14_operations(2047);
    sheet.boards[0].script.push(operation);
    sheet
}

#[test]
fn stops_at_the_last_operation() {
    let sheet = at_last(Operation::send(READY, 0, 0, 0, 0)).bytes();
    let ran = expect("run", &sheet, &Call::Run, &Desk::for_sheet(&sheet), (0, 0));
    let stop = (ran.report[0], ran.report[1], word(&ran.report, 2));
    assert_eq!(stop, (4, 0, 2047));
    assert_eq!(ran.steps(), 4095);
}

#[test]
fn premise_at_the_last_operation() {
    for (operation, number) in [
        (Operation::receive(ANY, 0, 0, 0), 20),
        (Operation::probe(ANY, 0), 20),
        (Operation::send(READY, 0, 0, 0, 0), 21),
    ] {
        let sheet = at_last(operation).bytes();
        let answer = Answer::refusal(number, 2047);
        assert_eq!(guarded::premise(&sheet, &mut Random::new(5)), Ok(answer));
        assert_eq!(judge::premise(&sheet), answer);
        assert_eq!(judge::naive::premise(&sheet), answer);
    }
}
