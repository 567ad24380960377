//! What the program `bench_jobs` must print (crates/bench_jobs/stdout), worked
//! out by our own judge from the sheets in its `data` folder. The gate holds
//! the program to that file.

use jamturret::lent::Answer;
use jamturret_host::desk::Desk;
use jamturret_host::judge::{self, crc, SCRATCH_ROOM};
use jamturret_host::layout::{word, Edition, MOST_BOARDS, MOST_INBOX_TOTAL, MOST_OPERATIONS};
use jamturret_host::sheet::edition;
use std::fmt::Write;
use std::fs;

const FOLDER: &str = concat!(env!("CARGO_MANIFEST_DIR"), "/../crates/bench_jobs");

/// The rooms as the program lends them: the largest, each with a byte of its
/// own, and order out a byte longer. The largest report is of edition 2
/// (document 02, K6).
fn rooms(sheet: &[u8]) -> Desk {
    let report = Edition::Second.report_bytes(MOST_BOARDS, MOST_OPERATIONS);
    Desk {
        edition: edition(sheet),
        inbox: vec![90; MOST_INBOX_TOTAL],
        report: vec![238; report],
        order_out: vec![221; 2 * MOST_OPERATIONS + 1],
        scratch: vec![204; SCRATCH_ROOM],
    }
}

fn answer(out: &mut String, name: &str, answer: Answer) {
    writeln!(out, "{name} {} {}", answer.number, answer.place).unwrap();
}

fn digest(out: &mut String, name: &str, room: &[u8]) {
    writeln!(out, "  {name} {:04x}", crc::crc(room)).unwrap();
}

fn digests(out: &mut String, desk: &Desk) {
    digest(out, "inbox", &desk.inbox);
    digest(out, "report", &desk.report);
    digest(out, "scratch", &desk.scratch);
}

fn follow(out: &mut String, name: &str, sheet: &[u8], order: &[u8]) {
    let mut desk = rooms(sheet);
    answer(out, name, desk.naive_follow(sheet, order));
    digests(out, &desk);
}

/// What is printed of a sheet.
fn printed(name: &str, sheet: &[u8]) -> String {
    let mut out = String::new();
    answer(&mut out, &format!("{name}: check"), judge::check(sheet));
    answer(&mut out, "  premise", judge::premise(sheet));
    let mut desk = rooms(sheet);
    let ran = desk.naive_run(sheet);
    answer(&mut out, "  run", ran);
    digest(&mut out, "order", &desk.order_out);
    digests(&mut out, &desk);
    if ran != Answer::SUCCESS {
        return out;
    }
    let at = |place| word(&desk.report, place);
    let [verdict, stop] = [desk.report[0], desk.report[1]];
    let steps = desk.steps();
    let pending = format!("{} {}", at(10), at(12));
    let counts = format!("steps {steps} pending {pending} cut {}", at(14));
    writeln!(out, "  verdict {verdict} stop {stop} {} {counts}", at(2)).unwrap();
    follow(&mut out, "  follow", sheet, &desk.order_out[..steps]);
    follow(&mut out, "  one more", sheet, &desk.order_out[..steps + 1]);
    out
}

#[test]
fn as_our_judge_says() {
    let stdout = fs::read_to_string(format!("{FOLDER}/stdout")).unwrap();
    let names = stdout.lines().filter_map(|line| line.split_once(": check"));
    let names: Vec<&str> = names.map(|(name, _)| name).collect();
    let sheets = fs::read_dir(format!("{FOLDER}/data")).unwrap().count();
    assert_eq!(names.len(), sheets, "each sheet once");
    let first = stdout.find(names[0]).expect("it was found above");
    let mut said = &stdout[first..];
    for name in names {
        let sheet = fs::read(format!("{FOLDER}/data/{name}")).unwrap();
        let expected = printed(name, &sheet);
        let (here, behind) = said.split_at(expected.len().min(said.len()));
        assert_eq!(here, expected);
        said = behind;
    }
    assert_eq!(said, "");
}
