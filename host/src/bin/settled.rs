//! `settled`: compares what the library answers with host/settled.txt, and
//! exits with 1 where something differs.
//!
//! `settled --write` writes the file anew. `settled --changed OLD_FILE FEATURE...`
//! says how many digests a changed rule has changed since OLD_FILE, and exits
//! with 1 if a changed case has none of the features. `settled --without-inboxes`
//! prints a record that leaves out what is in the inboxes: two libraries with one
//! such record differ in inbox bytes alone. `settled --reached` prints what the
//! cases reach.

use jamturret_host::settled::ask::{LIBRARY, SERVICES};
use jamturret_host::settled::cases::CASES;
use jamturret_host::settled::features::{self, Feature, FEATURES};
use jamturret_host::settled::reached::Reached;
use jamturret_host::settled::record::{digests, first_without, Record, FILE};
use std::{env, fs, process};

/// How many differing cases are named.
const NAMED: usize = 10;

fn main() {
    let arguments: Vec<String> = env::args().skip(1).collect();
    let words: Vec<&str> = arguments.iter().map(String::as_str).collect();
    let outcome = match words[..] {
        [] => compare(),
        ["--write"] => write(),
        ["--without-inboxes"] => without_inboxes(),
        ["--reached"] => reached(),
        ["--changed", old, ref names @ ..] if !names.is_empty() => changed(old, names),
        _ => usage(),
    };
    if let Err(text) = outcome {
        eprintln!("{text}");
        process::exit(1);
    }
}

fn usage() -> ! {
    eprintln!("usage: settled [--write | --without-inboxes | --reached]");
    eprintln!("       settled --changed OLD_FILE FEATURE...");
    eprintln!("features:");
    for feature in FEATURES {
        eprintln!("  {:<28}{}", feature.name, feature.says);
    }
    process::exit(2)
}

fn read(path: &str) -> Result<Record, String> {
    let text = fs::read_to_string(path).map_err(|error| format!("{path}: {error}"))?;
    Record::parse(&text).map_err(|error| format!("{path}: {error}"))
}

fn compare() -> Result<(), String> {
    let old = read(FILE)?;
    let new = Record::of_library();
    let differing = old.differing(&new)?;
    if differing.is_empty() {
        println!("settled answers: {} cases, all as recorded", CASES);
        return Ok(());
    }
    for &number in differing.iter().take(NAMED) {
        let services = (0..SERVICES.len())
            .filter(|&service| old.digests[number][service] != new.digests[number][service]);
        let names: Vec<&str> = services.map(|service| SERVICES[service]).collect();
        eprintln!("case {number}: {}", names.join(", "));
    }
    Err(format!(
        "settled answers: {} of {} cases differ",
        differing.len(),
        CASES
    ))
}

fn write() -> Result<(), String> {
    fs::write(FILE, Record::of_library().text()).map_err(|error| error.to_string())
}

fn without_inboxes() -> Result<(), String> {
    print!("{}", Record::without_inboxes().text());
    Ok(())
}

fn reached() -> Result<(), String> {
    let mut reached = Reached::with_features();
    digests(LIBRARY, CASES, &mut reached);
    print!("{reached}");
    Ok(())
}

fn changed(path: &str, names: &[&str]) -> Result<(), String> {
    let features: Vec<&Feature> = names
        .iter()
        .map(|name| features::named(name).unwrap_or_else(|| usage()))
        .collect();
    let old = read(path)?;
    let new = Record::of_library();
    let differing = old.differing(&new)?;
    println!("{} of {} cases changed", differing.len(), CASES);
    for (name, count) in SERVICES.iter().zip(old.by_service(&new)) {
        println!("  {name}: {count} digests");
    }
    let says: Vec<&str> = features.iter().map(|feature| feature.says).collect();
    let says = says.join(", or ");
    match first_without(&differing, &features) {
        Some(number) => Err(format!("case {number} changed without {says}")),
        None => {
            println!("each changed case has {says}");
            Ok(())
        }
    }
}
