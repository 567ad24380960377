//! `differential [SEED] [CASES]`: compares the library's *check* and *premise*
//! with our judge, and on a part of the small sheets with the naive one, over
//! generated sheets. Prints how many cases of each kind got each answer; at
//! the first difference prints what is needed to see it and exits with 1, as
//! it does where an answer of premise to accepted sheets, or a case around an
//! attached buffer, the most operations, a forgotten request, a probe, a query or
//! the second edition never came up.

use jamturret::lent::Answer;
use jamturret_host::command::{argument, difference, tally};
use jamturret_host::generate::{self, KINDS};
use jamturret_host::random::Random;
use jamturret_host::{buffers, editions, guarded, judge, lengths, probes, requests_left};
use std::process;
use std::time::Instant;

const SEED: u64 = 20_240_601;
const CASES: u64 = 400_000;

/// The naive judge is slow: it sees one in four sheets of at most this size.
const NAIVE_BYTES: usize = 1000;
const NAIVE_EVERY: u64 = 4;

/// From so many cases on each of these has to be reached.
const ENOUGH: u64 = 10_000;

/// Check's numbers, and then premise's of sheets that check accepts.
const NUMBERS: [u32; 14] = [0, 1, 2, 3, 4, 5, 6, 7, 0, 20, 21, 22, 23, 24];
const PREMISE: usize = 8;

/// Answers counted for each kind, a column a number.
type Row = [u64; NUMBERS.len()];
type Counts = [Row; KINDS.len()];

/// A service of the library beside those of our judges.
struct Service {
    name: &'static str,
    library: fn(&[u8], &mut Random) -> Result<Answer, String>,
    judge: fn(&[u8]) -> Answer,
    naive: fn(&[u8]) -> Answer,
}

const SERVICES: [Service; 2] = [
    Service {
        name: "check",
        library: guarded::check,
        judge: judge::check,
        naive: judge::naive::check,
    },
    Service {
        name: "premise",
        library: guarded::premise,
        judge: judge::premise,
        naive: judge::naive::premise,
    },
];

fn main() {
    let seed = argument("differential", 1, SEED);
    let cases = argument("differential", 2, CASES);
    let start = Instant::now();
    let mut counts: Counts = [[0; NUMBERS.len()]; KINDS.len()];
    let mut cases_made = Made::none();
    let mut naive = 0;
    for number in 0..cases {
        let (kind, sheet, mut random) = generate::case(seed, number);
        let slow = sheet.len() <= NAIVE_BYTES && number % NAIVE_EVERY == 0;
        naive += u64::from(slow);
        let [check, premise] = SERVICES.map(|service| {
            service
                .answer(&sheet, slow, &mut random)
                .unwrap_or_else(|answers| difference(seed, number, KINDS[kind].0, &sheet, &answers))
        });
        count(&mut counts[kind], check, premise);
        cases_made.count(&sheet, check, premise);
    }
    let totals = print(&counts);
    let made = cases_made.print();
    println!(
        "seed {seed}: {cases} cases agree, {naive} of them with the naive judge too, in {:.1} s",
        start.elapsed().as_secs_f64()
    );
    if cases >= ENOUGH && [&totals[..], &made].concat().contains(&0) {
        eprintln!("an answer or a case never came up: see the zeros above");
        process::exit(1);
    }
}

/// How often each case around a rule was made.
struct Made {
    buffers: [u64; buffers::COVERED.len()],
    lengths: [u64; lengths::ASKED.len()],
    requests: [u64; requests_left::ASKED.len()],
    probes: [u64; probes::ASKED.len()],
    editions: [u64; editions::ASKED.len()],
}

impl Made {
    fn none() -> Made {
        Made {
            buffers: [0; buffers::COVERED.len()],
            lengths: [0; lengths::ASKED.len()],
            requests: [0; requests_left::ASKED.len()],
            probes: [0; probes::ASKED.len()],
            editions: [0; editions::ASKED.len()],
        }
    }

    fn count(&mut self, sheet: &[u8], check: Answer, premise: Answer) {
        tally(&mut self.lengths, lengths::asked(sheet, check, premise));
        let requests = requests_left::asked(sheet, check, premise);
        tally(&mut self.requests, requests);
        tally(&mut self.probes, probes::asked(sheet, check, premise));
        tally(&mut self.editions, editions::asked(sheet, check, premise));
        if check.number == 0 {
            tally(&mut self.buffers, buffers::covered(sheet, premise));
        }
    }

    /// Prints all counts and returns them.
    fn print(&self) -> Vec<u64> {
        for (name, count) in buffers::COVERED.iter().zip(self.buffers) {
            println!("premise {name:<40}{count:>8}");
        }
        let names = [
            &lengths::ASKED[..],
            &requests_left::ASKED,
            &probes::ASKED,
            &editions::ASKED,
        ];
        let counts = [
            &self.lengths[..],
            &self.requests,
            &self.probes,
            &self.editions,
        ];
        for (name, count) in names.concat().iter().zip(counts.concat()) {
            println!("{name:<48}{count:>8}");
        }
        [&self.buffers[..], &counts.concat()].concat()
    }
}

impl Service {
    /// What all of them answer, or what each does.
    fn answer(
        &self,
        sheet: &[u8],
        slow: bool,
        random: &mut Random,
    ) -> Result<Answer, Vec<(&'static str, String)>> {
        let ours = (self.judge)(sheet);
        let theirs = (self.library)(sheet, random);
        let naive = if slow { (self.naive)(sheet) } else { ours };
        if theirs == Ok(ours) && naive == ours {
            return Ok(ours);
        }
        let theirs = theirs.map_or_else(|text| text, |answer| answer.to_string());
        Err(vec![
            ("service", self.name.to_string()),
            ("library", theirs),
            ("judge", ours.to_string()),
            ("naive judge", naive.to_string()),
        ])
    }
}

fn count(row: &mut Row, check: Answer, premise: Answer) {
    row[check.number as usize] += 1;
    if check.number == 0 {
        let column = NUMBERS[PREMISE..]
            .iter()
            .position(|&number| number == premise.number);
        row[PREMISE + column.expect("0 or 20 to 24")] += 1;
    }
}

/// Prints all counts and returns the totals.
fn print(counts: &Counts) -> Row {
    println!("check's answers by number, then premise's to accepted sheets");
    print!("{:<24}{:>9}", "kind", "cases");
    for number in NUMBERS {
        print!("{number:>8}");
    }
    println!();
    let mut totals = [0; NUMBERS.len()];
    for (row, (name, ..)) in counts.iter().zip(KINDS) {
        line(name, row);
        for (total, count) in totals.iter_mut().zip(row) {
            *total += count;
        }
    }
    line("all", &totals);
    totals
}

fn line(name: &str, counts: &Row) {
    print!("{name:<24}{:>9}", counts[..PREMISE].iter().sum::<u64>());
    for count in counts {
        print!("{count:>8}");
    }
    println!();
}
