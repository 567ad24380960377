//! The sheets that `limits` names: each right but for what its caller
//! changes in it.

use super::script::held_at_end;
use crate::layout::kind::{BUFFERED, STANDARD};
use crate::layout::Edition::{First, Second};
use crate::layout::{board, header, Edition, MOST_BOARDS, MOST_OPERATIONS};
use crate::sheet::{add_word, mend_crc, set_word, Board, Operation, Sheet};

/// The payload and each inbox of the sheets for operation fields: more than
/// the longest message.
pub const ROOM: u16 = 5000;

/// Two boards and two communicators; the operation stands at index 1.
pub fn field(operation: Operation) -> Vec<u8> {
    let empty = Operation::send(BUFFERED, 0, 0, 0, 0);
    freed(&[&[empty], &[operation]])
}

/// The operation stands at index 2, behind a receive that holds slot 31 and
/// the area from 100 to 109.
pub fn behind(operation: Operation) -> Vec<u8> {
    let held = Operation::receive(0, 0, 100, 10).nonblocking(31);
    let empty = Operation::send(BUFFERED, 0, 0, 0, 0);
    freed(&[&[empty], &[held, operation]])
}

/// Each script ends with waits for all slots that it holds.
pub fn freed(scripts: &[&[Operation]]) -> Vec<u8> {
    let scripts: Vec<Vec<Operation>> = scripts.iter().map(|each| with_waits(each)).collect();
    let scripts: Vec<&[Operation]> = scripts.iter().map(Vec::as_slice).collect();
    script(&scripts)
}

fn with_waits(script: &[Operation]) -> Vec<Operation> {
    let waits = held_at_end(script).into_iter().map(Operation::wait);
    script.iter().copied().chain(waits).collect()
}

pub fn script(scripts: &[&[Operation]]) -> Vec<u8> {
    let mut sheet = Sheet::of_scripts(scripts, ROOM).attach(0, 16_384);
    sheet.communicators = 2;
    sheet.payload = vec![3; usize::from(ROOM)];
    sheet.bytes()
}

pub fn send() -> Operation {
    Operation::send(STANDARD, 0, 0, 0, 8)
}

pub fn receive() -> Operation {
    Operation::receive(0, 0, 0, 8)
}

pub fn wait() -> Operation {
    Operation::wait(31)
}

pub fn query() -> Operation {
    Operation::query(31)
}

pub fn probe() -> Operation {
    Operation::probe(0, 0)
}

pub fn sized(boards: usize, communicators: u16, operations: usize, payload: usize) -> Vec<u8> {
    first_edition(boards, communicators, operations, payload).bytes()
}

/// The same in edition 2, with the largest rooms.
pub fn sized_second(boards: usize, operations: usize, payload: usize) -> Vec<u8> {
    let sheet = first_edition(boards, 8, operations, payload);
    sheet.with_room(16_384).bytes()
}

fn first_edition(boards: usize, communicators: u16, operations: usize, payload: usize) -> Sheet {
    let mut entries = vec![Board::default(); boards];
    if let Some(first) = entries.first_mut() {
        first.attached = 16_384;
        first.script = vec![Operation::send(BUFFERED, 0, 0, 0, 0); operations];
    }
    Sheet {
        edition: First,
        communicators,
        boards: entries,
        payload: vec![5; payload],
    }
}

pub fn rooms(attached: u16, inboxes: [u16; 2]) -> Vec<u8> {
    let mut sheet = Sheet::of_scripts(&[&[], &[]], 0).attach(1, attached);
    sheet.boards[0].inbox = inboxes[0];
    sheet.boards[1].inbox = inboxes[1];
    sheet.bytes()
}

/// Sixteen boards, the last one changed.
pub fn last_board(change: fn(&mut Board)) -> Vec<u8> {
    let empty: &[Operation] = &[];
    let mut sheet = Sheet::of_scripts(&[empty; MOST_BOARDS], 0);
    change(&mut sheet.boards[MOST_BOARDS - 1]);
    sheet.bytes()
}

/// Sixteen boards of edition 2, some changed.
pub fn second(change: fn(&mut [Board])) -> Vec<u8> {
    let empty: &[Operation] = &[];
    let mut sheet = Sheet::of_scripts(&[empty; MOST_BOARDS], 0).with_room(16_384);
    change(&mut sheet.boards);
    sheet.bytes()
}

/// Three boards of one operation each, of this edition, with the offset of the
/// operation table, that of the payload, or the length that entries of so many
/// bytes would give; none: as the edition has it.
pub fn as_of(edition: Edition, entries: [Option<usize>; 3]) -> Vec<u8> {
    let script: &[Operation] = &[send()];
    let right = Sheet::of_scripts(&[script; 3], ROOM).with_room(1);
    let mut bytes = Sheet { edition, ..right }.bytes();
    let [table, payload, length] = entries.map(|entry| entry.unwrap_or(edition.entry_bytes()));
    let moved = |entry: usize| 3 * (entry as i32 - edition.entry_bytes() as i32);
    add_word(&mut bytes, header::OPERATION_TABLE, moved(table));
    add_word(&mut bytes, header::PAYLOAD, moved(payload));
    let length = bytes.len() as i32 + moved(length);
    bytes.resize(length as usize, 0);
    mend_crc(&mut bytes);
    bytes
}

/// The most operations on one board, the last ones given.
pub fn last_operations(last: &[Operation]) -> Vec<u8> {
    let others = vec![Operation::send(BUFFERED, 0, 0, 0, 0); MOST_OPERATIONS - last.len()];
    script(&[&[&others, last].concat(), &[]])
}

/// Two boards of one operation each with an amount added to a field.
pub fn shifted(at: usize, amount: i32) -> Vec<u8> {
    let mut sheet = script(&[&[send()], &[send()]]);
    add_word(&mut sheet, at, amount);
    mend_crc(&mut sheet);
    sheet
}

/// The same in edition 2 with rooms of one byte, of rank 1's entry.
pub fn shifted_second(field: usize, amount: i32) -> Vec<u8> {
    let sheet = Sheet::of_scripts(&[&[send()], &[send()]], ROOM).with_room(1);
    let mut bytes = sheet.bytes();
    add_word(&mut bytes, Second.entry_at(1) + field, amount);
    mend_crc(&mut bytes);
    bytes
}

pub fn of_length(change: i32) -> Vec<u8> {
    let mut sheet = script(&[&[send()], &[send()]]);
    let length = sheet.len() as i32 + change;
    sheet.resize(length as usize, 9);
    mend_crc(&mut sheet);
    sheet
}

pub fn with(operation: Operation, change: fn(&mut Operation)) -> Operation {
    let mut changed = operation;
    change(&mut changed);
    changed
}

/// A nonblocking receive in each slot, the highest first.
pub fn all_slots() -> Vec<Operation> {
    let receive = |slot: u16| Operation::receive(0, 0, slot, 1).nonblocking(slot);
    (0..32).rev().map(receive).collect()
}

pub fn in_second(scripts: &[&[Operation]]) -> Vec<u8> {
    Sheet::of_scripts(scripts, ROOM).with_room(16_384).bytes()
}

pub fn six_and_room() -> Vec<u8> {
    let wrong = with(send(), |o| o.zero = 1);
    let mut sheet = in_second(&[&[wrong], &[]]);
    set_word(&mut sheet, Second.entry_at(1) + board::ROOM, 16_385);
    mend_crc(&mut sheet);
    sheet
}

pub fn six_and_five() -> Vec<u8> {
    let wrong = with(send(), |o| o.zero = 1);
    Sheet::of_scripts(&[&[wrong], &[]], 0)
        .attach(1, 16_385)
        .bytes()
}
