//! What the trials reached, so that a reader sees that nothing is left out.

use super::{KINDS, ORDERS};
use crate::command::tally;
use crate::compare::{Call, Outcome};
use crate::exchanges::{KEPT_OUT, TRADED};
use crate::layout::word;
use crate::{areas, buffers, editions, lengths, probes, requests_left, searched};
use jamturret::lent::Answer;
use std::fmt;

/// Verdicts 0 to 4, then refusals 1 to 9.
const COLUMNS: usize = 5 + 9;

/// More counts than an array has a default for.
struct Many<const N: usize>([u64; N]);

impl<const N: usize> Default for Many<N> {
    fn default() -> Many<N> {
        Many([0; N])
    }
}

#[derive(Default)]
pub struct Counts {
    kinds: [[u64; COLUMNS]; KINDS.len()],
    /// Refusal 8 by place, 1 to 4.
    short: [u64; 4],
    /// Accepted, refused 9 at index 0, later, refused otherwise.
    orders: [[u64; 4]; ORDERS.len()],
    /// Reports that show each case around an attached buffer.
    buffers: [u64; buffers::LEFT.len()],
    /// Reports that show each case around a capacity.
    areas: [u64; areas::LEFT.len()],
    /// Calls that make each case around long scripts and their rooms.
    lengths: [u64; lengths::CALLED.len()],
    /// Calls that make each case around requests that are left.
    requests: [u64; requests_left::CALLED.len()],
    /// Calls that make each case around probes and queries.
    probes: Many<{ probes::CALLED.len() }>,
    /// Calls that make each case around the second edition and its rooms.
    editions: Many<{ editions::CALLED.len() }>,
    /// Calls that make each case around the search of a waiting list.
    searched: [u64; searched::CALLED.len()],
    steps: u64,
    matches: u64,
    cut: u64,
    pending_messages: u64,
    pending_receives: u64,
    /// Receives that asked for what the probe before them told.
    pub pairs: u64,
    pub whole_orders: u64,
    /// Those of them that have a probe's step.
    pub probed_orders: u64,
    /// Exchanged steps of orders that were accepted, and that were not.
    pub exchanged: [u64; 2],
    /// Exchanges of which one step is a probe's.
    pub exchanged_probes: u64,
    /// Whole orders and exchanges after which a room was in use.
    pub roomy_orders: u64,
    pub exchanged_roomy: u64,
    /// Exchanges of K14's claim that make each case around it.
    traded: [u64; TRADED.len()],
    /// Exchanges that one thing alone keeps out of it, and those of them whose
    /// orders end otherwise.
    kept_out: [[u64; 2]; KEPT_OUT.len()],
    /// Orders that several exchanges of it lead to, with a receive from any source.
    pub one_class: u64,
    /// Calls of edition 1 that were made of the twin in edition 2 too.
    pub twins: u64,
    /// Orders that do not end alike with run, of sheets that only their
    /// any-source probes leave out of the claim, that only their queries do, and
    /// that only their rooms do.
    pub differing: [u64; 3],
}

impl Counts {
    pub fn call(&mut self, kind: usize, sheet: &[u8], call: &Call, outcome: &Outcome) {
        tally(&mut self.lengths, lengths::called(sheet, call, outcome));
        let requests = requests_left::called(sheet, call, outcome);
        tally(&mut self.requests, requests);
        tally(&mut self.probes.0, probes::called(sheet, call, outcome));
        let editions = editions::called(sheet, call, outcome);
        tally(&mut self.editions.0, editions);
        let Answer { number, place } = outcome.answer;
        if number == 0 {
            let report = &outcome.desk.report;
            self.success(kind, report);
            tally(&mut self.buffers, buffers::left(sheet, report));
            tally(&mut self.areas, areas::left(sheet, report));
            tally(&mut self.searched, searched::called(sheet, call, outcome));
            self.matches += outcome.desk.matched_rows() as u64 / 2;
            return;
        }
        self.kinds[kind][4 + number as usize] += 1;
        if number == 8 {
            self.short[place as usize - 1] += 1;
        }
    }

    fn success(&mut self, kind: usize, report: &[u8]) {
        self.kinds[kind][usize::from(report[0])] += 1;
        let at = |place| u64::from(word(report, place));
        self.steps += at(4);
        self.pending_messages += at(10);
        self.pending_receives += at(12);
        self.cut += at(14);
    }

    pub fn traded(&mut self, found: [bool; TRADED.len()]) {
        tally(&mut self.traded, found);
    }

    pub fn kept_out(&mut self, which: usize, differs: bool) {
        tally(&mut self.kept_out[which], [true, differs]);
    }

    pub fn order(&mut self, which: usize, answer: Answer) {
        let column = match (answer.number, answer.place) {
            (0, _) => 0,
            (9, 0) => 1,
            (9, _) => 2,
            _ => 3,
        };
        self.orders[which][column] += 1;
    }

    /// Calls of all kinds.
    pub fn calls(&self) -> u64 {
        self.kinds.iter().flatten().sum()
    }

    /// The smallest count of a verdict, a refusal, a place of 8, an order that
    /// 9 refuses, a case around a buffer, a capacity, a request, a probe or a
    /// query, a room or a search, and of orders that the claim about them speaks
    /// of or leaves out: 0 if something was not reached.
    pub fn least(&self) -> u64 {
        let columns = (0..COLUMNS).map(|column| self.column(column));
        let refused = self.orders.iter().map(|row| row[1] + row[2]);
        let wrong = refused.skip(3).take(4);
        let others = self.short.into_iter().chain(self.exchanged);
        let others = others.chain(self.buffers).chain(self.areas);
        let others = others.chain(self.requests).chain(self.probes.0);
        let others = others.chain(self.editions.0).chain([self.twins]);
        let others = others.chain(self.searched).chain(self.differing);
        let others = others.chain([self.probed_orders, self.exchanged_probes]);
        let others = others.chain([self.roomy_orders, self.exchanged_roomy]);
        columns.chain(wrong).chain(others).min().unwrap_or(0)
    }

    /// The smallest count of a case around exchanged steps, of orders of one class, and
    /// of exchanges kept out that end otherwise: these are seldom.
    pub fn least_of_exchanges(&self) -> u64 {
        let differ = self.kept_out.iter().map(|[_, differ]| *differ);
        let cases = differ.chain(self.traded).chain([self.one_class]);
        cases.min().unwrap_or(0)
    }

    /// The smallest count of a case around long scripts, which are seldom made.
    pub fn least_of_lengths(&self) -> u64 {
        self.lengths.into_iter().min().unwrap_or(0)
    }

    fn column(&self, column: usize) -> u64 {
        self.kinds.iter().map(|row| row[column]).sum()
    }
}

fn cells(out: &mut fmt::Formatter, name: &str, counts: &[u64]) -> fmt::Result {
    write!(out, "{name:<28}")?;
    for count in counts {
        write!(out, "{count:>8}")?;
    }
    writeln!(out)
}

impl fmt::Display for Counts {
    fn fmt(&self, out: &mut fmt::Formatter) -> fmt::Result {
        writeln!(out, "calls by verdict 0 to 4, then by refusal 1 to 9")?;
        for (row, (name, ..)) in self.kinds.iter().zip(KINDS) {
            cells(out, name, row)?;
        }
        let all: Vec<u64> = (0..COLUMNS).map(|column| self.column(column)).collect();
        cells(out, "all", &all)?;
        writeln!(
            out,
            "orders: accepted, refused 9 at index 0, later, other refusals"
        )?;
        for (row, (name, _)) in self.orders.iter().zip(ORDERS) {
            cells(out, name, row)?;
        }
        cells(out, "refusal 8 at place 1 to 4", &self.short)?;
        let buffers = buffers::LEFT.iter().zip(self.buffers);
        let areas = areas::LEFT.iter().zip(self.areas);
        let lengths = lengths::CALLED.iter().zip(self.lengths);
        let requests = requests_left::CALLED.iter().zip(self.requests);
        let probes = probes::CALLED.iter().zip(self.probes.0);
        let editions = editions::CALLED.iter().zip(self.editions.0);
        let searched = searched::CALLED.iter().zip(self.searched);
        let traded = TRADED.iter().zip(self.traded);
        let cases = buffers.chain(areas).chain(lengths).chain(requests);
        let others = probes.chain(editions).chain(searched).chain(traded);
        for (name, count) in cases.chain(others) {
            writeln!(out, "{name:<48}{count:>8}")?;
        }
        self.claims(out)
    }
}

impl Counts {
    /// What was tried of the claims about all reports and about orders.
    fn claims(&self, out: &mut fmt::Formatter) -> fmt::Result {
        writeln!(
            out,
            "{} steps, {} matches, {} of them cut; {} pending messages and {} pending receives left",
            self.steps, self.matches, self.cut, self.pending_messages, self.pending_receives
        )?;
        writeln!(
            out,
            "No-request-left holds of {} reports of finished jobs",
            self.column(1)
        )?;
        writeln!(out, "Probe-then-receive holds of {} pairs", self.pairs)?;
        writeln!(
            out,
            "{} whole orders end alike with run; {} exchanges of two steps in accepted orders, {} in refused ones",
            self.whole_orders, self.exchanged[0], self.exchanged[1]
        )?;
        writeln!(
            out,
            "of these {} orders and {} exchanges have a probe's step, {} and {} used a room",
            self.probed_orders, self.exchanged_probes, self.roomy_orders, self.exchanged_roomy
        )?;
        writeln!(
            out,
            "{} orders with receives from any source end alike with another of their class",
            self.one_class
        )?;
        for (name, [tried, differ]) in KEPT_OUT.iter().zip(self.kept_out) {
            writeln!(
                out,
                "exchanges that {name} alone keeps out: {tried}, of which {differ} end otherwise"
            )?;
        }
        writeln!(
            out,
            "{} calls of edition 1 end as those of edition 2 with rooms of 0",
            self.twins
        )?;
        let [probes, queries, rooms] = self.differing;
        writeln!(
            out,
            "orders that end otherwise than run: {probes} by probes from any source, {queries} by queries, {rooms} by rooms"
        )
    }
}
