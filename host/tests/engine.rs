//! The efficient judge against the naive one: two programs of different data
//! structures from one page.

use jamturret_host::compare::{efficient, naive, Call};
use jamturret_host::random::Random;
use jamturret_host::trial::{sheet, Filler, ORDERS};
use jamturret_host::{generate, judge};

const SEED: u64 = 31;

/// Every kind of sheet, order and room.
#[test]
fn judges_agree() {
    let filler = Filler::new(SEED);
    let mut verdicts = [0; 5];
    let mut numbers = [0; 10];
    for number in 0..12_000 {
        let (_, sheet, mut random) = sheet(SEED, number);
        let Some(needs) = judge::needs(&sheet) else {
            continue;
        };
        let desk = filler.rooms(&needs, &mut random);
        let order = random.pick(&ORDERS).1(&sheet, &mut random);
        for call in [Call::Run, Call::Follow(order)] {
            let outcome = naive(&sheet, &call, &desk);
            assert_eq!(efficient(&sheet, &call, &desk), outcome, "case {number}");
            numbers[outcome.answer.number as usize] += 1;
            if outcome.answer.number == 0 {
                verdicts[usize::from(outcome.desk.verdict())] += 1;
            }
        }
    }
    assert!(verdicts.iter().min() > Some(&100), "{verdicts:?}");
    assert!(numbers[8..].iter().min() > Some(&100), "{numbers:?}");
}

/// Refusals 1 to 7 leave everything as it was.
#[test]
fn refused_sheets() {
    let filler = Filler::new(SEED);
    let mut numbers = [0; 8];
    for number in 0..4000 {
        let (_, sheet, _) = generate::case(SEED, number);
        let answer = judge::check(&sheet);
        if answer.number == 0 {
            continue;
        }
        let desk = filler.any_rooms(&mut Random::new(number));
        for call in [Call::Run, Call::Follow(vec![0, 200])] {
            let outcome = efficient(&sheet, &call, &desk);
            assert_eq!((outcome.answer, outcome.desk), (answer, desk.clone()));
        }
        numbers[answer.number as usize] += 1;
    }
    assert!(numbers[1..].iter().min() > Some(&10), "{numbers:?}");
}
