//! What the tests share: one question put to the library and both judges.

use jamturret::lent::Answer;
use jamturret_host::random::Random;
use jamturret_host::{guarded, judge};

/// The library, between guard bytes, and both judges give this answer.
pub fn expect(name: &str, sheet: &[u8], number: u32, place: u64) {
    let answer = Answer::refusal(number, place);
    let mut random = Random::new(sheet.len() as u64);
    let library = guarded::check(sheet, &mut random);
    assert_eq!(library, Ok(answer), "library, {name}");
    assert_eq!(judge::check(sheet), answer, "judge, {name}");
    assert_eq!(judge::naive::check(sheet), answer, "naive judge, {name}");
}
