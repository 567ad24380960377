//! Random bytes, truncated and extended sheets, and sheets whose tables hold
//! random values from small sets.

use super::script::free_all;
use super::{size, valid};
use crate::layout::{Edition, ANY, HEADER_BYTES};
use crate::random::Random;
use crate::sheet::{mend_crc, operation_at, Board, Operation, Sheet};

/// A right sheet cut at any length or followed by other bytes, mostly with
/// its own CRC, at times with a mended one.
pub fn truncated_or_extended(random: &mut Random) -> Vec<u8> {
    let size = size::any(random);
    let mut sheet = valid::sheet(random, &size).bytes();
    match random.below(4) {
        0 => {
            let extra = random.between(1, 64);
            sheet.extend(random.bytes(extra));
        }
        1 => sheet.truncate(random.between(0, HEADER_BYTES + 1)),
        2 => sheet.truncate(sheet.len() - random.between(1, HEADER_BYTES)),
        _ => sheet.truncate(random.below(sheet.len())),
    }
    if random.chance(25) {
        mend_crc(&mut sheet);
    }
    sheet
}

pub fn any(random: &mut Random) -> Vec<u8> {
    match random.below(4) {
        0 => {
            let length = random.between(0, 40);
            random.bytes(length)
        }
        1 => vec![random.pick(&[0, 1, 255]); random.between(0, 40)],
        2 => right_header(random),
        _ => random_fields(random),
    }
}

/// A right header and CRC before random bytes.
fn right_header(random: &mut Random) -> Vec<u8> {
    let size = size::small(random);
    let mut sheet = valid::sheet(random, &size).bytes();
    let from = random.pick(&[HEADER_BYTES, operation_at(&sheet, 0)]);
    for byte in &mut sheet[from..] {
        *byte = random.byte();
    }
    mend_crc(&mut sheet);
    sheet
}

/// Few operations with every field drawn from a small set around its range,
/// mostly with waits for what they hold in the end.
fn random_fields(random: &mut Random) -> Vec<u8> {
    let boards = (0..random.between(1, 3)).map(|_| Board {
        attached: random.pick(&[0, 16_384, 16_384, 16_385]),
        inbox: random.pick(&[0, 4, 8]),
        room: random.pick(&[0, 1, 5, 16_384, 16_384, 16_385]),
        script: random_script(random),
    });
    let boards = boards.collect();
    Sheet {
        edition: random.pick(&Edition::BOTH),
        communicators: 2,
        boards,
        payload: vec![7; 6],
    }
    .bytes()
}

fn random_script(random: &mut Random) -> Vec<Operation> {
    let mut script = (0..random.below(5)).map(|_| fields(random)).collect();
    if random.chance(70) {
        free_all(&mut script, random);
    }
    script
}

fn fields(random: &mut Random) -> Operation {
    let kind = random.pick(&[1, 2, 3, 4, 5, 5, 5, 6, 6, 7, 8]);
    let flag = random.below(2) as u8;
    let slot = random.below(3) as u16;
    let any = Operation {
        kind,
        flag,
        peer: random.pick(&[0, 0, 0, 0, 1, ANY]),
        communicator: random.pick(&[0, 0, 0, 1, 1, 2]),
        zero: u16::from(random.chance(3)),
        tag: random.pick(&[0, 1, 2, 32_767, ANY]),
        offset: random.below(5) as u16,
        length: random.below(4) as u16,
        slot: if flag == 1 { slot } else { 0 },
    };
    match kind {
        6 if random.chance(80) => Operation::wait(slot),
        7 if random.chance(80) => Operation::probe(any.peer, any.tag).on(any.communicator),
        8 if random.chance(80) => Operation::query(slot),
        _ => any,
    }
}
