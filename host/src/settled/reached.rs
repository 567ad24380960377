//! Counts of what the cases reach, so that a reader sees that nothing is left
//! out.

use super::ask::SERVICES;
use super::cases::Case;
use super::features::FEATURES;
use super::sheet::{scripts, second_edition, word, BOARDS, OPERATIONS, READY, STANDARD};
use jamturret::lent::Answer;
use std::fmt;

/// Verdicts 0 to 4, then refusals 1 to 9.
const COLUMNS: usize = 5 + 9;

#[derive(Default)]
pub struct Reached {
    /// Features are looked for only on request: it takes longer.
    look_for_features: bool,
    features: [u64; FEATURES.len()],
    calls: [[u64; COLUMNS]; SERVICES.len()],
    /// Check has no verdict.
    accepted: u64,
    /// Refusal 8 of follow and of run by place, 1 to 4.
    short: [[u64; 4]; SERVICES.len()],
    steps: u64,
    /// Matches by the kind of the send, 1 to 4.
    matches: [u64; 4],
    pub cut: u64,
    pending_messages: u64,
    pending_receives: u64,
    /// By P, 1 to 16, and by N: none, up to 63, up to 1,023, 1,024, above.
    boards: [u64; 16],
    operations: [u64; 5],
    /// Of the case that is asked: the kinds of its operations, and where their
    /// rows start in a report.
    kinds: Vec<u8>,
    rows: usize,
}

impl Reached {
    pub fn with_features() -> Reached {
        Reached {
            look_for_features: true,
            ..Reached::default()
        }
    }

    pub fn case(&mut self, case: &Case) {
        let boards = usize::from(word(&case.sheet, BOARDS));
        if let Some(count) = self.boards.get_mut(boards.wrapping_sub(1)) {
            *count += 1;
        }
        let size = match word(&case.sheet, OPERATIONS) {
            0 => 0,
            1..=63 => 1,
            64..=1023 => 2,
            1024 => 3,
            _ => 4,
        };
        self.operations[size] += 1;
        let row = if second_edition(&case.sheet) { 12 } else { 8 };
        self.rows = 16 + row * boards;
        let operations = scripts(&case.sheet).into_iter().flatten();
        self.kinds = operations.map(|operation| operation.kind).collect();
        if self.look_for_features {
            for (count, feature) in self.features.iter_mut().zip(FEATURES) {
                *count += u64::from((feature.in_case)(case));
            }
        }
    }

    pub fn call(&mut self, service: usize, answer: Answer, report: &[u8]) {
        match (answer.number, answer.place) {
            (0, _) if report.is_empty() => self.accepted += 1,
            (0, _) => self.success(service, report),
            (number @ 1..=9, place) => {
                self.calls[service][4 + number as usize] += 1;
                if number == 8 && (1..=4).contains(&place) {
                    self.short[service][place as usize - 1] += 1;
                }
            }
            _ => {}
        }
    }

    fn success(&mut self, service: usize, report: &[u8]) {
        if let Some(count) = self.calls[service][..5].get_mut(usize::from(report[0])) {
            *count += 1;
        }
        let at = |place| u64::from(word(report, place));
        self.steps += at(4);
        self.pending_messages += at(10);
        self.pending_receives += at(12);
        self.cut += at(14);
        let rows = report.get(self.rows..).unwrap_or(&[]).chunks_exact(12);
        for (row, &kind) in rows.zip(&self.kinds) {
            if row[0] == 3 && (STANDARD..=READY).contains(&kind) {
                self.matches[usize::from(kind - STANDARD)] += 1;
            }
        }
    }
}

fn line(out: &mut fmt::Formatter, name: &str, counts: &[u64]) -> fmt::Result {
    write!(out, "{name:<28}")?;
    for count in counts {
        write!(out, "{count:>8}")?;
    }
    writeln!(out)
}

impl fmt::Display for Reached {
    fn fmt(&self, out: &mut fmt::Formatter) -> fmt::Result {
        writeln!(out, "calls by verdict 0 to 4, then by refusal 1 to 9")?;
        for (name, row) in SERVICES.iter().zip(&self.calls) {
            line(out, name, row)?;
        }
        line(out, "accepted by check", &[self.accepted])?;
        for service in [1, 2] {
            let name = format!("8 at place 1 to 4, {}", SERVICES[service]);
            line(out, &name, &self.short[service])?;
        }
        writeln!(
            out,
            "{} steps, {} cut messages; {} pending messages and {} pending receives left",
            self.steps, self.cut, self.pending_messages, self.pending_receives
        )?;
        line(out, "matches by kind 1 to 4", &self.matches)?;
        line(out, "1 to 16 boards", &self.boards)?;
        line(out, "N 0, -63, -1023, 1024, more", &self.operations)?;
        for (count, feature) in self.features.iter().zip(FEATURES) {
            line(out, feature.name, &[*count])?;
        }
        Ok(())
    }
}
