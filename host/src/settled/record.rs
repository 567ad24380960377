//! The file of digests: written, read and compared.

use super::ask::{Asker, Digests, Services, LIBRARY, SERVICES, WITHOUT_INBOXES};
use super::cases::{case, inputs, CASES, SEED};
use super::features::Feature;
use super::reached::Reached;
use std::fmt::Write;

#[derive(Clone, PartialEq, Eq, Debug)]
pub struct Record {
    pub seed: u64,
    /// The digest of all cases, before they are put to anybody.
    pub inputs: u64,
    /// By case number.
    pub digests: Vec<Digests>,
}

/// Where the record stands.
pub const FILE: &str = concat!(env!("CARGO_MANIFEST_DIR"), "/settled.txt");

const HEAD: &str = "\
# Settled answers: digests of what check, follow and run answer and leave in
# the lent rooms, one line a case, for generated cases that never change
# (host/src/settled). `settled` compares the library with this file,
# `settled --write` writes it anew. The digest of all inputs tells changed cases
# apart from changed answers.
";

impl Record {
    /// What the library gives now.
    pub fn of_library() -> Record {
        Record::of(LIBRARY)
    }

    /// What the library gives now but for the bytes of the inboxes.
    pub fn without_inboxes() -> Record {
        Record::of(WITHOUT_INBOXES)
    }

    fn of(services: Services) -> Record {
        Record {
            seed: SEED,
            inputs: inputs((0..CASES).map(case)),
            digests: digests(services, CASES, &mut Reached::default()),
        }
    }

    /// Which cases these are, as the file says it.
    fn cases(&self) -> String {
        format!(
            "# seed {}\n# cases {}\n# inputs {:016x}\n",
            self.seed,
            self.digests.len(),
            self.inputs
        )
    }

    pub fn text(&self) -> String {
        let mut text = format!("{HEAD}{}", self.cases());
        for [check, follow, run] in &self.digests {
            writeln!(text, "{check:08x} {follow:08x} {run:08x}").expect("a string has room");
        }
        text
    }

    pub fn parse(text: &str) -> Result<Record, String> {
        let noted = |name: &str| {
            let mut lines = text.lines();
            lines.find_map(|line| {
                line.strip_prefix("# ")?
                    .strip_prefix(name)?
                    .strip_prefix(' ')
            })
        };
        let seed = noted("seed").and_then(|number| number.parse().ok());
        let cases: Option<usize> = noted("cases").and_then(|number| number.parse().ok());
        let inputs = noted("inputs").and_then(|hex| u64::from_str_radix(hex, 16).ok());
        let lines = text.lines().filter(|line| !line.starts_with('#'));
        let digests: Option<Vec<Digests>> = lines.map(digests_of_line).collect();
        match (seed, inputs, digests) {
            (Some(seed), Some(inputs), Some(digests)) if cases == Some(digests.len()) => {
                Ok(Record {
                    seed,
                    inputs,
                    digests,
                })
            }
            _ => Err("not a whole record of settled answers".into()),
        }
    }

    /// The numbers of the cases whose digests differ. Records of other cases
    /// cannot be compared.
    pub fn differing(&self, other: &Record) -> Result<Vec<usize>, String> {
        if self.cases() != other.cases() {
            return Err(format!(
                "these are not the same cases:\n{}and\n{}",
                self.cases(),
                other.cases()
            ));
        }
        let both = self.digests.iter().zip(&other.digests).enumerate();
        let differing = both.filter(|(_, (one, other))| one != other);
        Ok(differing.map(|(number, _)| number).collect())
    }

    /// For each service, how many digests differ.
    pub fn by_service(&self, other: &Record) -> [usize; SERVICES.len()] {
        let mut counts = [0; SERVICES.len()];
        for (one, other) in self.digests.iter().zip(&other.digests) {
            for (service, count) in counts.iter_mut().enumerate() {
                *count += usize::from(one[service] != other[service]);
            }
        }
        counts
    }
}

fn digests_of_line(line: &str) -> Option<Digests> {
    let mut words = line.split(' ').map(|hex| u32::from_str_radix(hex, 16).ok());
    let digests = [words.next()??, words.next()??, words.next()??];
    words.next().is_none().then_some(digests)
}

/// The digests of the first cases.
pub fn digests(services: Services, cases: usize, reached: &mut Reached) -> Vec<Digests> {
    let asker = Asker::new(services);
    let ask = |number| asker.ask(&case(number), reached);
    (0..cases).map(ask).collect()
}

/// The first of these cases that has none of the features.
pub fn first_without(numbers: &[usize], features: &[&Feature]) -> Option<usize> {
    let without = |&number: &usize| {
        let case = case(number);
        !features.iter().any(|feature| (feature.in_case)(&case))
    };
    numbers.iter().copied().find(without)
}
