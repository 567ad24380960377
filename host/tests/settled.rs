//! The settled answers: the cases are the recorded ones, and the comparison
//! can fail. The program `settled` compares all of them.

use jamturret::lent::{self, Answer};
use jamturret_host::judge::{self, Rooms};
use jamturret_host::settled::ask::{Digests, Run, Services, LIBRARY, WITHOUT_INBOXES};
use jamturret_host::settled::cases::{case, inputs, CASES, SEED};
use jamturret_host::settled::features::{named, FEATURES};
use jamturret_host::settled::reached::Reached;
use jamturret_host::settled::record::{digests, first_without, Record, FILE};
use std::fs;

/// Cases that the tests put to somebody.
const TRIED: usize = 1500;

fn recorded() -> Record {
    let text = fs::read_to_string(FILE).expect("the record stands in host/");
    Record::parse(&text).expect("it is a whole record")
}

fn first_digests(services: Services) -> Vec<Digests> {
    digests(services, TRIED, &mut Reached::default())
}

#[test]
fn cases_are_frozen() {
    let record = recorded();
    assert_eq!(record.seed, SEED);
    assert_eq!(record.digests.len(), CASES);
    assert_eq!(inputs((0..CASES).map(case)), record.inputs);
}

#[test]
fn library_answers_as_recorded() {
    assert_eq!(first_digests(LIBRARY), recorded().digests[..TRIED]);
}

/// The record is not only what the library happened to give.
#[test]
fn our_judge_answers_as_recorded() {
    let ours = Services {
        check: judge::check,
        follow: |sheet, order, inbox, report, scratch| {
            let rooms = Rooms {
                inbox,
                report,
                scratch,
            };
            judge::follow(sheet, order, rooms)
        },
        run: |sheet, inbox, report, order_out, scratch| {
            let rooms = Rooms {
                inbox,
                report,
                scratch,
            };
            judge::run(sheet, rooms, order_out)
        },
    };
    assert_eq!(first_digests(ours), recorded().digests[..TRIED]);
}

#[test]
fn changed_digest_is_found() {
    let old = recorded();
    for (service, number) in [(0, 0), (1, 777), (2, CASES - 1)] {
        let mut new = old.clone();
        new.digests[number][service] ^= 1 << 31;
        assert_eq!(old.differing(&new), Ok(vec![number]));
        let mut counts = [0; 3];
        counts[service] = 1;
        assert_eq!(old.by_service(&new), counts);
        let read_back = Record::parse(&new.text());
        assert_eq!(read_back, Ok(new));
    }
    assert_eq!(old.differing(&old.clone()), Ok(vec![]));
}

#[test]
fn other_cases_are_not_compared() {
    let old = recorded();
    let mut new = old.clone();
    new.inputs ^= 1;
    assert!(old.differing(&new).is_err());
    let text = old.text();
    let without_last = &text[..text.len() - 27];
    assert!(Record::parse(without_last).is_err());
}

/// The library's *run*, but for one byte of one room.
fn spoiled<const ROOM: usize>(
    sheet: &[u8],
    inbox: &mut [u8],
    report: &mut [u8],
    order_out: &mut [u8],
    scratch: &mut [u8],
) -> Answer {
    let answer = lent::run(sheet, inbox, report, order_out, scratch);
    let rooms = [inbox, report, order_out, scratch];
    if let Some(last) = rooms[ROOM].last_mut() {
        *last ^= 0x40;
    }
    answer
}

/// How many cases differ from the record, by service.
fn differing(services: Services) -> [usize; 3] {
    let old = recorded();
    let mut new = old.clone();
    new.digests[..TRIED].copy_from_slice(&first_digests(services));
    old.by_service(&new)
}

#[test]
fn every_lent_room_counts() {
    let runs: [Run; 4] = [spoiled::<0>, spoiled::<1>, spoiled::<2>, spoiled::<3>];
    for run in runs {
        let [check, follow, run] = differing(Services { run, ..LIBRARY });
        assert_eq!((check, follow), (0, 0));
        // Some rooms are empty.
        assert!(run > TRIED / 2, "{run}");
    }
}

/// What *run* answers and leaves in the inboxes and in the other rooms.
fn outcome(run: Run, number: usize) -> (Answer, Vec<u8>, [Vec<u8>; 3]) {
    let case = case(number);
    let room = |length: usize| vec![0xEE; length];
    let mut inbox = room(case.rooms.inbox);
    let mut report = room(case.rooms.report);
    let mut order_out = room(case.rooms.order_out);
    let mut scratch = room(case.rooms.scratch);
    let answer = run(
        &case.sheet,
        &mut inbox,
        &mut report,
        &mut order_out,
        &mut scratch,
    );
    (answer, inbox, [report, order_out, scratch])
}

#[test]
fn inboxes_alone_are_set_aside() {
    let mut delivered = 0;
    for number in 0..TRIED {
        let (answer, inbox, others) = outcome(LIBRARY.run, number);
        let aside = outcome(WITHOUT_INBOXES.run, number);
        let lent = vec![0xEE; inbox.len()];
        delivered += usize::from(inbox != lent);
        assert_eq!(aside, (answer, lent, others), "case {number}");
    }
    assert!(delivered > 200, "{delivered}");
    let [check, follow, run] = differing(WITHOUT_INBOXES);
    assert_eq!(check, 0);
    assert!(follow > 200 && run > 200, "{follow}, {run}");
}

/// A check that refuses nothing, and a follow that tells another place.
#[test]
fn every_answer_counts() {
    let [check, follow, run] = differing(Services {
        check: |_| Answer::SUCCESS,
        follow: |sheet, order, inbox, report, scratch| {
            let answer = lent::follow(sheet, order, inbox, report, scratch);
            Answer::refusal(answer.number, answer.place ^ 1)
        },
        ..LIBRARY
    });
    assert!(check > 200 && check < TRIED, "{check}");
    assert_eq!((follow, run), (TRIED, 0));
}

#[test]
fn feature_refuses_a_case_without_it() {
    for feature in FEATURES {
        let has = |&number: &usize| (feature.in_case)(&case(number));
        let with = (0..CASES).find(has).expect("a case has it");
        let without = (0..CASES).find(|number| !has(number)).expect("not all");
        assert_eq!(first_without(&[with], &[&feature]), None);
        let both = first_without(&[with, without], &[&feature]);
        assert_eq!(both, Some(without), "{}", feature.name);
    }
    assert!(named("no-such-feature").is_none());
}
