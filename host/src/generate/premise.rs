//! Sheets for which the order of steps cannot matter (document 01, What is
//! pinned down), and such sheets with a few things changed that let it matter:
//! an any-source receive or probe, a ready send, a buffer that is too small, a
//! query (document 02, K9), a room that is too small (K6). A few of them forget a
//! request, which is told before (K7).

use super::{forgotten, jobs, probes};
use crate::buffers::Buffered;
use crate::editions::Standard;
use crate::layout::{board, header, kind, operation, word, Edition, ANY, MOST_ROOM};
use crate::random::Random;
use crate::sheet::{boards, edition, entry_at, mend_crc, operation_at, set_word};

pub fn any(random: &mut Random) -> Vec<u8> {
    let mut sheet = match random.below(50) {
        0 => jobs::large(random, true),
        1..=5 => jobs::medium(random, true),
        6..=14 => jobs::nearly_covered(random),
        _ => jobs::small(random, true),
    };
    if random.chance(20) {
        let rank = random.below(sheet.boards.len());
        probes::put_query(&mut sheet, rank, random);
    }
    if random.chance(8) {
        forgotten::forget(&mut sheet, random);
    }
    let mut sheet = sheet.bytes();
    for _ in 0..random.below(4) {
        match random.below(4) {
            0 => any_source(&mut sheet, random),
            1 => ready(&mut sheet, random),
            2 => small_buffer(&mut sheet, random),
            _ => small_room(&mut sheet, random),
        }
    }
    mend_crc(&mut sheet);
    sheet
}

/// One of the places, if there is one.
fn one_of(places: &[usize], random: &mut Random) -> Option<usize> {
    (!places.is_empty()).then(|| places[random.below(places.len())])
}

/// Where the operations of these kinds stand.
fn operations(sheet: &[u8], kinds: &[u8]) -> Vec<usize> {
    let operations = usize::from(word(sheet, header::OPERATIONS));
    let places = (0..operations).map(|index| operation_at(sheet, index));
    places
        .filter(|&at| kinds.contains(&sheet[at + operation::KIND]))
        .collect()
}

fn any_source(sheet: &mut [u8], random: &mut Random) {
    let asks = random.pick(&[kind::RECEIVE, kind::PROBE]);
    if let Some(at) = one_of(&operations(sheet, &[asks]), random) {
        set_word(sheet, at + operation::PEER, ANY);
    }
}

fn ready(sheet: &mut [u8], random: &mut Random) {
    let sends = [kind::STANDARD, kind::BUFFERED, kind::SYNCHRONOUS];
    if let Some(at) = one_of(&operations(sheet, &sends), random) {
        sheet[at + operation::KIND] = kind::READY;
    }
}

/// A board gets a byte less than its buffered sends are charged, their lengths
/// alone, or exactly what they are charged.
fn small_buffer(sheet: &mut [u8], random: &mut Random) {
    let rank = random.below(boards(sheet));
    let sends = Buffered::of(sheet, rank);
    let size = match random.below(4) {
        0 => sends.charges,
        1 => sends.lengths,
        _ => sends.charges.saturating_sub(1),
    };
    let at = entry_at(sheet, rank);
    set_word(sheet, at + board::ATTACHED, size as u16);
}

/// A board of edition 2 gets a byte less of room than its standard sends are
/// long, so much for the longest alone, or exactly what they are long.
fn small_room(sheet: &mut [u8], random: &mut Random) {
    if edition(sheet) == Edition::First {
        return;
    }
    let rank = random.below(boards(sheet));
    let sends = Standard::of(sheet, rank);
    let size = match random.below(4) {
        0 => sends.lengths,
        1 => sends.longest,
        _ => sends.lengths.saturating_sub(1),
    };
    let at = entry_at(sheet, rank);
    set_word(sheet, at + board::ROOM, size.min(MOST_ROOM) as u16);
}
