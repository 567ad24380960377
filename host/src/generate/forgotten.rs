//! Forgotten requests: right sheets in which a slot is then left held at the
//! end of its script (document 02, K7), at times beside a wrong field, or a
//! broken rule of slots or areas, both of which are told before it.

use super::script::held_at_end;
use super::{damage, jobs, requests, size, valid};
use crate::layout::{kind, SLOTS};
use crate::random::Random;
use crate::sheet::{mend_crc, Board, Operation, Sheet};

/// A sheet of any size, the largest more often than elsewhere.
pub fn any(random: &mut Random) -> Vec<u8> {
    let size = match random.below(25) {
        0 => size::large(random),
        _ => size::any(random),
    };
    let mut sheet = valid::sheet(random, &size);
    for _ in 0..random.pick(&[1, 1, 1, 2, 3]) {
        forget(&mut sheet, random);
    }
    if random.chance(30) {
        requests::put(&mut sheet, random);
    }
    let mut bytes = sheet.bytes();
    if random.chance(10) {
        damage::operation(&mut bytes, random);
        mend_crc(&mut bytes);
    }
    bytes
}

/// A job that is right but for what it forgets.
pub fn job(random: &mut Random) -> Vec<u8> {
    let calm = random.chance(40);
    let mut sheet = match random.chance(5) {
        true => jobs::medium(random, calm),
        false => jobs::small(random, calm),
    };
    forget(&mut sheet, random);
    sheet.bytes()
}

/// Lets a board of a right sheet forget a request or more, often the first
/// board or the last.
pub fn forget(sheet: &mut Sheet, random: &mut Random) {
    let boards = &mut sheet.boards;
    let any = random.below(boards.len());
    let rank = random.pick(&[0, boards.len() - 1, any, any]);
    match random.below(8) {
        0 | 1 => leave(&mut boards[rank], 1, random),
        2 => leave(&mut boards[rank], SLOTS, random),
        3 => freed_elsewhere(boards, rank, random),
        _ => drop_wait(&mut boards[rank], random),
    }
}

/// Drops the last wait for a slot: without an earlier one the slot would be
/// taken twice.
fn drop_wait(board: &mut Board, random: &mut Random) {
    let script = &board.script;
    let mut last = [None; SLOTS];
    for (index, operation) in script.iter().enumerate() {
        if operation.kind == kind::WAIT {
            last[usize::from(operation.slot)] = Some(index);
        }
    }
    let waits: Vec<usize> = last.into_iter().flatten().collect();
    match waits.is_empty() {
        true => leave(board, 1, random),
        false => drop(board.script.remove(random.pick(&waits))),
    }
}

/// Puts nonblocking operations at the end of a script, up to this many, each in
/// a slot that is free there.
fn leave(board: &mut Board, most: usize, random: &mut Random) {
    let held = held_at_end(&board.script);
    let mut free: Vec<u16> = (0..SLOTS as u16)
        .filter(|slot| !held.contains(slot))
        .collect();
    for _ in 0..most.min(free.len()) {
        let last = free.len() - 1;
        let any = random.below(free.len());
        let slot = free.remove(random.pick(&[0, last, any, any]));
        board.script.push(empty(random).nonblocking(slot));
    }
}

/// A transfer of no bytes, which can share none.
fn empty(random: &mut Random) -> Operation {
    let kind = random.pick(&[kind::STANDARD, kind::BUFFERED, kind::RECEIVE, kind::RECEIVE]);
    Operation::send(kind, 0, 0, 0, 0)
}

/// A slot that only another board frees, which has taken it too, or has not.
fn freed_elsewhere(boards: &mut [Board], rank: usize, random: &mut Random) {
    let slot = random.below(SLOTS) as u16;
    let taken = empty(random).nonblocking(slot);
    let other = random.below(boards.len());
    for at in [rank, other] {
        if held_at_end(&boards[at].script).contains(&slot) {
            return;
        }
    }
    if random.chance(70) {
        boards[other].script.push(taken);
    }
    boards[other].script.push(Operation::wait(slot));
    boards[rank].script.push(taken);
}
