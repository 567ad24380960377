//! Lends buffers to the library with guard bytes on both sides. The guards
//! are never zero and differ from case to case, so that reading past an end
//! is likely to change an answer, and a buffer starts at every alignment.
//! After a call the guards have to be unchanged, and what is only read too.

use crate::desk::Desk;
use crate::random::Random;
use jamturret::lent::{self, Answer};

const MOST_GUARD: usize = 64;

/// A buffer between guard bytes.
struct Guarded {
    name: &'static str,
    buffer: Vec<u8>,
    before: Vec<u8>,
    start: usize,
    end: usize,
}

impl Guarded {
    fn around(name: &'static str, content: &[u8], random: &mut Random) -> Guarded {
        let start = random.between(1, MOST_GUARD);
        let after = random.between(1, MOST_GUARD);
        let mut buffer = Vec::with_capacity(start + content.len() + after);
        buffer.extend((0..start).map(|_| guard_byte(random)));
        buffer.extend_from_slice(content);
        buffer.extend((0..after).map(|_| guard_byte(random)));
        Guarded {
            name,
            before: buffer.clone(),
            start,
            end: start + content.len(),
            buffer,
        }
    }

    fn lent(&mut self) -> &mut [u8] {
        &mut self.buffer[self.start..self.end]
    }

    /// What was lent was only read.
    fn unchanged(&self) -> Result<(), String> {
        self.same(0, self.buffer.len())
    }

    /// What was lent, if the guards are unchanged.
    fn kept(mut self, content: &mut [u8]) -> Result<(), String> {
        self.same(0, self.start)?;
        self.same(self.end, self.buffer.len())?;
        content.copy_from_slice(self.lent());
        Ok(())
    }

    fn same(&self, from: usize, to: usize) -> Result<(), String> {
        if self.buffer[from..to] == self.before[from..to] {
            return Ok(());
        }
        let changed = (from..to).find(|&at| self.buffer[at] != self.before[at]);
        Err(format!(
            "byte {} of the buffer with the {} was changed (it is lent from {} to {})",
            changed.unwrap_or(0),
            self.name,
            self.start,
            self.end
        ))
    }
}

fn guard_byte(random: &mut Random) -> u8 {
    random.between(1, 255) as u8
}

/// The library's *check*: its answer, or what it did to the lent buffer.
pub fn check(sheet: &[u8], random: &mut Random) -> Result<Answer, String> {
    of_sheet(lent::check, sheet, random)
}

/// The library's *premise*.
pub fn premise(sheet: &[u8], random: &mut Random) -> Result<Answer, String> {
    of_sheet(lent::premise, sheet, random)
}

/// The library's CRC of a sheet.
pub fn crc(sheet: &[u8], random: &mut Random) -> Result<u16, String> {
    of_sheet(lent::crc, sheet, random)
}

/// A service that is lent nothing but the sheet.
fn of_sheet<T>(service: fn(&[u8]) -> T, sheet: &[u8], random: &mut Random) -> Result<T, String> {
    let mut sheet = Guarded::around("sheet", sheet, random);
    let answer = service(sheet.lent());
    sheet.unchanged()?;
    Ok(answer)
}

/// The library's *follow* on the rooms of a desk.
pub fn follow(
    sheet: &[u8],
    order: &[u8],
    desk: &mut Desk,
    random: &mut Random,
) -> Result<Answer, String> {
    let mut sheet = Guarded::around("sheet", sheet, random);
    let mut order = Guarded::around("order", order, random);
    let mut inbox = Guarded::around("inbox", &desk.inbox, random);
    let mut report = Guarded::around("report", &desk.report, random);
    let mut scratch = Guarded::around("scratch", &desk.scratch, random);
    let answer = lent::follow(
        sheet.lent(),
        order.lent(),
        inbox.lent(),
        report.lent(),
        scratch.lent(),
    );
    sheet.unchanged()?;
    order.unchanged()?;
    inbox.kept(&mut desk.inbox)?;
    report.kept(&mut desk.report)?;
    scratch.kept(&mut desk.scratch)?;
    Ok(answer)
}

/// The library's *run* on the rooms of a desk.
pub fn run(sheet: &[u8], desk: &mut Desk, random: &mut Random) -> Result<Answer, String> {
    let mut sheet = Guarded::around("sheet", sheet, random);
    let mut inbox = Guarded::around("inbox", &desk.inbox, random);
    let mut report = Guarded::around("report", &desk.report, random);
    let mut order_out = Guarded::around("order out", &desk.order_out, random);
    let mut scratch = Guarded::around("scratch", &desk.scratch, random);
    let answer = lent::run(
        sheet.lent(),
        inbox.lent(),
        report.lent(),
        order_out.lent(),
        scratch.lent(),
    );
    sheet.unchanged()?;
    inbox.kept(&mut desk.inbox)?;
    report.kept(&mut desk.report)?;
    order_out.kept(&mut desk.order_out)?;
    scratch.kept(&mut desk.scratch)?;
    Ok(answer)
}
