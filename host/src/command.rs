//! What the two differential programs share: arguments, noting, naming and
//! counting cases, and saying where the first difference is.

use std::{env, fs, process};

/// Sheets up to this size are printed, longer ones go into a file.
const PRINTED_BYTES: usize = 2000;

/// A number from the command line, or its default.
pub fn argument(program: &str, place: usize, default: u64) -> u64 {
    match env::args().nth(place) {
        None => default,
        Some(text) => text.parse().unwrap_or_else(|_| {
            eprintln!("usage: {program} [SEED] [CASES]");
            process::exit(2)
        }),
    }
}

/// Counts the cases that were found.
pub fn tally<const N: usize>(counts: &mut [u64; N], found: [bool; N]) {
    for (count, found) in counts.iter_mut().zip(found) {
        *count += u64::from(found);
    }
}

/// Notes the cases that were made.
pub fn note(found: &mut [bool], made: &[bool]) {
    for (found, made) in found.iter_mut().zip(made) {
        *found |= made;
    }
}

/// The names of several groups of cases, one after the other.
pub const fn names<const GROUPS: usize, const ALL: usize>(
    groups: [&[&'static str]; GROUPS],
) -> [&'static str; ALL] {
    let mut all = [""; ALL];
    let (mut group, mut at, mut count) = (0, 0, 0);
    while group < GROUPS {
        if at < groups[group].len() {
            all[count] = groups[group][at];
            (at, count) = (at + 1, count + 1);
        } else {
            (group, at) = (group + 1, 0);
        }
    }
    all
}

/// The names of the cases that were found.
pub fn found<const N: usize>(names: [&'static str; N], found: [bool; N]) -> Vec<&'static str> {
    let both = names.into_iter().zip(found);
    both.filter(|(_, found)| *found)
        .map(|(name, _)| name)
        .collect()
}

/// Hex pairs, a blank between.
pub fn hex(bytes: &[u8]) -> String {
    let pairs: Vec<String> = bytes.iter().map(|byte| format!("{byte:02X}")).collect();
    pairs.join(" ")
}

/// Says what is needed to see a difference again and ends the program.
pub fn difference(
    seed: u64,
    number: u64,
    kind: &str,
    sheet: &[u8],
    answers: &[(&str, String)],
) -> ! {
    eprintln!("difference: seed {seed}, case {number}, kind \"{kind}\"");
    for (who, answer) in answers {
        eprintln!("  {who}: {answer}");
    }
    if sheet.len() <= PRINTED_BYTES {
        eprintln!("  sheet, {} bytes: {}", sheet.len(), hex(sheet));
    } else {
        let name = format!("jamturret-{seed}-{number}-{}.sheet", process::id());
        let path = env::temp_dir().join(name);
        match fs::write(&path, sheet) {
            Ok(()) => eprintln!(
                "  sheet, {} bytes, written to {}",
                sheet.len(),
                path.display()
            ),
            Err(error) => eprintln!("  sheet could not be written: {error}"),
        }
    }
    process::exit(1)
}
