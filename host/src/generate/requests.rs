//! Slots and areas just right and just wrong (document 01, Slots and Areas):
//! an operation is put into a right script behind a nonblocking one, and is
//! made from its slot or its area. Whether a rule is broken depends on
//! whether that slot is still held there. Most scripts get the waits that
//! they lack in the end (document 02, K7).

use super::editions::add_rooms;
use super::script::free_all;
use super::{size, valid};
use crate::layout::{kind, SLOTS};
use crate::random::Random;
use crate::sheet::{Board, Operation, Sheet};

pub fn pair(random: &mut Random) -> Vec<u8> {
    let mut size = size::any(random);
    size.inboxes = size.inboxes.max(24);
    let mut sheet = valid::sheet(random, &size);
    for _ in 0..random.between(1, 3) {
        put(&mut sheet, random);
    }
    free_most(&mut sheet, random);
    sheet.bytes()
}

/// Puts an operation into one of the scripts.
pub fn put(sheet: &mut Sheet, random: &mut Random) {
    let rank = random.below(sheet.boards.len());
    let other = random.below(sheet.boards.len());
    match random.below(6) {
        0 => copy_to_other_board(&mut sheet.boards, rank, other, random),
        _ => put_behind(&mut sheet.boards[rank], random),
    }
}

fn free_most(sheet: &mut Sheet, random: &mut Random) {
    let freed = random.pick(&[0, 90, 100, 100, 100]);
    for board in &mut sheet.boards {
        if random.chance(freed) {
            free_all(&mut board.script, random);
        }
    }
}

/// Every board takes all 32 slots, then waits for some and retakes those, and
/// mostly frees all in the end: the same slots on different boards, and nothing
/// free for a while. Half of these sheets get one more operation, as above.
pub fn all_slots_held(random: &mut Random) -> Vec<u8> {
    let width = random.between(0, 6) as u16;
    let scripts: Vec<Vec<Operation>> = (0..random.between(1, 3))
        .map(|_| full_script(random, width))
        .collect();
    let scripts: Vec<&[Operation]> = scripts.iter().map(Vec::as_slice).collect();
    let mut sheet = Sheet::of_scripts(&scripts, SLOTS as u16 * width + 1);
    if random.chance(50) {
        let rank = random.below(sheet.boards.len());
        put_behind(&mut sheet.boards[rank], random);
    }
    free_most(&mut sheet, random);
    if random.chance(30) {
        add_rooms(&mut sheet, false, random);
    }
    sheet.bytes()
}

/// Receives in all slots, each touching its neighbours.
fn full_script(random: &mut Random, width: u16) -> Vec<Operation> {
    let receive = |slot: u16| Operation::receive(0, slot, slot * width, width).nonblocking(slot);
    let mut script: Vec<Operation> = (0..SLOTS as u16).map(receive).collect();
    for _ in 0..random.between(0, 40) {
        let slot = random.below(SLOTS) as u16;
        script.push(Operation::wait(slot));
        script.push(receive(slot));
    }
    script
}

/// The index of a nonblocking operation of the script, if it has one. If it
/// has none, a nonblocking receive is put in front, and its wait behind it.
fn holder(board: &mut Board, random: &mut Random) -> usize {
    let script = &board.script;
    let holders: Vec<usize> = (0..script.len())
        .filter(|&index| script[index].takes_slot())
        .collect();
    if !holders.is_empty() {
        return random.pick(&holders);
    }
    let length = random.below(usize::from(board.inbox).min(8) + 1) as u16;
    let offset = random.between(0, usize::from(board.inbox - length)) as u16;
    let slot = random.below(SLOTS) as u16;
    let receive = Operation::receive(0, 0, offset, length).nonblocking(slot);
    board.script.insert(0, receive);
    let place = random.between(1, board.script.len());
    board.script.insert(place, Operation::wait(slot));
    0
}

fn put_behind(board: &mut Board, random: &mut Random) {
    let index = holder(board, random);
    let held = board.script[index];
    let place = match random.chance(50) {
        true => index + 1,
        false => random.between(index + 1, board.script.len()),
    };
    let script = &mut board.script;
    let freed = random.chance(25);
    match random.below(5) {
        0 => wait_at(script, place, held.slot, random),
        1 => wait_at(script, place, random.below(SLOTS) as u16, random),
        2 => {
            script.insert(place, slot_again(held, random));
            if freed {
                // The wait behind is now for the operation that was put in.
                script.insert(place, Operation::wait(held.slot));
            }
        }
        _ => {
            script.insert(place, receive_near(held, random));
            if freed {
                wait_at(script, place, held.slot, random);
            }
        }
    }
}

/// A wait at this place, mostly the next one for its slot, which comes earlier
/// now.
fn wait_at(script: &mut Vec<Operation>, place: usize, slot: u16, random: &mut Random) {
    let wait = Operation::wait(slot);
    let next = (place..script.len()).find(|&at| script[at] == wait);
    if let Some(at) = next.filter(|_| random.chance(70)) {
        script.remove(at);
    }
    script.insert(place, wait);
}

/// A nonblocking operation with an empty area in the same slot.
fn slot_again(held: Operation, random: &mut Random) -> Operation {
    let kind = random.pick(&[
        kind::STANDARD,
        kind::BUFFERED,
        kind::SYNCHRONOUS,
        kind::READY,
        kind::RECEIVE,
    ]);
    Operation::send(kind, 0, 0, 0, 0).nonblocking(held.slot)
}

/// A receive at an area: sharing one byte at either end, touching at either
/// end, equal, around, inside, or empty inside.
fn receive_near(held: Operation, random: &mut Random) -> Operation {
    let start = held.offset;
    let end = start.saturating_add(held.length);
    let length = random.between(1, 6) as u16;
    let inside = start + held.length / 2;
    let (offset, length) = match random.below(10) {
        0 => (end.saturating_sub(1), length),
        1 => ((start + 1).saturating_sub(length), length),
        2 => (end, length),
        3 => (start.saturating_sub(length), length),
        4 => (start, held.length),
        5 => (start.saturating_sub(1), held.length.saturating_add(2)),
        6 => (inside, 1),
        7 => (start, 1),
        8 => (start.saturating_add(1), held.length.saturating_sub(1)),
        _ => (inside, 0),
    };
    let receive = Operation::receive(0, 0, offset, length);
    match random.chance(50) {
        true => receive,
        false => receive.nonblocking(random.below(SLOTS) as u16),
    }
}

/// The same slot, area or wait on another board, where nothing is held by it.
fn copy_to_other_board(boards: &mut [Board], rank: usize, other: usize, random: &mut Random) {
    let index = holder(&mut boards[rank], random);
    let held = boards[rank].script[index];
    let copy = match random.chance(50) {
        true => held,
        false => Operation::wait(held.slot),
    };
    let place = random.between(0, boards[other].script.len());
    boards[other].script.insert(place, copy);
}
