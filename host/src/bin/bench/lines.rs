//! The lines of a table of times.

use jamturret_host::layout::{header, word};

/// The heading of a table of `line`s.
pub fn heading(what: &str) {
    println!();
    println!(
        "{what:<34}{:>12}{:>10}{:>12}{:>12}{:>8}{:>14}",
        "operations", "bytes", "library", "judge", "ratio", "an operation"
    );
}

/// Times of a sheet that has operations; the last column is the library's.
pub fn line(name: &str, sheet: &[u8], [library, judge]: [f64; 2]) {
    let operations = word(sheet, header::OPERATIONS);
    let bytes = sheet.len();
    let ratio = library / judge;
    let each = library / f64::from(operations);
    println!(
        "{name:<34}{operations:>12}{bytes:>10}{library:>12.0}{judge:>12.0}{ratio:>8.2}{each:>14.1}"
    );
}
