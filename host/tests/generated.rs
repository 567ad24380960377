//! Generated sheets: the ordinary judge against the naive one, and the
//! library against the judge. `differential` tries many more.

use jamturret_host::{generate, guarded, judge};

const SEED: u64 = 7;

#[test]
fn judges_agree() {
    let mut numbers = [0; 8];
    for number in 0..20_000 {
        let (_, sheet, _) = generate::case(SEED, number);
        if sheet.len() <= 1500 {
            let answer = judge::check(&sheet);
            assert_eq!(judge::naive::check(&sheet), answer, "case {number}");
            numbers[answer.number as usize] += 1;
        }
    }
    let least = numbers.iter().min();
    assert!(
        least > Some(&50),
        "an answer is hardly reached: {numbers:?}"
    );
}

/// Few sheets of every size: the naive judge takes long for large ones.
#[test]
fn judges_agree_on_large_sheets() {
    let mut tried = 0;
    for number in 0..5000 {
        let (_, sheet, _) = generate::case(SEED + 1, number);
        if sheet.len() > 1500 && tried < 100 {
            let answer = judge::check(&sheet);
            assert_eq!(judge::naive::check(&sheet), answer, "case {number}");
            tried += 1;
        }
    }
    assert_eq!(tried, 100);
}

#[test]
fn library_agrees() {
    for number in 0..20_000 {
        let (_, sheet, mut random) = generate::case(SEED + 2, number);
        let library = guarded::check(&sheet, &mut random);
        assert_eq!(library, Ok(judge::check(&sheet)), "case {number}");
    }
}
