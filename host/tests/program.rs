//! The program `judge`, as it was proved and linked, beside our own judge:
//! what it prints and what it tells on standard error, over generated sheets
//! and inputs that are none (document 01, The desk and its three services).

use jamturret::lent::Answer;
use jamturret_host::desk::Desk;
use jamturret_host::layout::{word, MOST_OPERATIONS};
use jamturret_host::{bench_jobs, generate, judge, traffic};
use std::io::Write;
use std::path::PathBuf;
use std::process::{Command, Output, Stdio};

const SEED: u64 = 13;
const CASES: u64 = 1500;

fn built() -> PathBuf {
    PathBuf::from(env!("CARGO_MANIFEST_DIR")).join("../crates/judge/out/judge")
}

/// The program, with nothing on standard input unless said.
fn program() -> Command {
    let mut command = Command::new(built());
    command.stdin(Stdio::null());
    command
}

/// The program with so many kilobytes of stack.
fn with_stack(kilobytes: usize) -> Command {
    let mut command = Command::new("sh");
    let limited = format!("ulimit -s {kilobytes} && exec \"$0\"");
    command.arg("-c").arg(limited).arg(built());
    command
}

/// What the program writes for an input, to standard output and to standard
/// error.
fn printed(input: &[u8]) -> (String, String) {
    printed_by(program(), input)
}

fn printed_by(mut program: Command, input: &[u8]) -> (String, String) {
    let mut child = program
        .stdin(Stdio::piped())
        .stdout(Stdio::piped())
        .stderr(Stdio::piped())
        .spawn()
        .expect("the program is built by rt ci, or by judge");
    let mut stdin = child.stdin.take().expect("a pipe");
    // The program stops reading behind the longest sheet.
    let _ = stdin.write_all(input);
    drop(stdin);
    texts(child.wait_with_output().expect("the program ends"))
}

fn texts(output: Output) -> (String, String) {
    let text = |bytes| String::from_utf8(bytes).expect("ASCII");
    (text(output.stdout), text(output.stderr))
}

/// The same from our own judge: one line on each.
fn expected(input: &[u8]) -> (String, String) {
    let refused = judge::check(input);
    if refused != Answer::SUCCESS {
        let line = format!("{} {}\n", refused.number, refused.place);
        return (line.clone(), line);
    }
    let mut desk = Desk::for_sheet(input);
    desk.inbox.fill(0);
    assert_eq!(desk.naive_run(input), Answer::SUCCESS);
    let pairs: Vec<String> = desk.report.iter().map(|b| format!("{b:02X}")).collect();
    let header = (1..8).map(|at| u64::from(word(&desk.report, 2 * at)));
    let stops = [desk.report[0], desk.report[1]].map(u64::from);
    let premise = judge::premise(input);
    let told: Vec<String> = (stops.into_iter().chain(header))
        .chain([u64::from(premise.number), premise.place])
        .map(|number| number.to_string())
        .collect();
    (pairs.join(" ") + "\n", told.join(" ") + "\n")
}

#[test]
fn generated_sheets() {
    let mut numbers = [0; 8];
    for case in 0..CASES {
        let (_, sheet, _) = generate::case(SEED, case);
        assert_eq!(printed(&sheet), expected(&sheet), "case {case}");
        numbers[judge::check(&sheet).number as usize] += 1;
    }
    assert!(numbers.iter().all(|&count| count > 5), "{numbers:?}");
}

#[test]
fn bench_jobs_and_large_jobs() {
    for (name, sheet) in bench_jobs::accepted() {
        assert_eq!(printed(&sheet.bytes()), expected(&sheet.bytes()), "{name}");
    }
    for (name, sheet) in traffic::SHAPES {
        let sheet = sheet(MOST_OPERATIONS).bytes();
        assert_eq!(printed(&sheet), expected(&sheet), "{name}");
    }
}

/// The program's rooms stand on its stack: for the longest sheet, one byte more
/// of input, its report in hex, inboxes, order out and scratch.
#[test]
fn stack_of_the_longest_sheet() {
    let sheet = traffic::longest().bytes();
    assert_eq!(printed_by(with_stack(256), &sheet), expected(&sheet));
    assert_eq!(printed_by(with_stack(128), &sheet).0, "");
}

/// Empty, one byte under and over a header, far over the longest sheet.
#[test]
fn inputs_that_are_no_sheets() {
    let long = |start: &[u8]| [start, &[0; 200_000]].concat();
    let handshake = bench_jobs::case_1().bytes();
    for input in [
        vec![],
        vec![7; 15],
        vec![7; 17],
        long(&[]),
        long(&handshake),
    ] {
        assert_eq!(printed(&input), expected(&input), "{} bytes", input.len());
    }
    assert_eq!(printed(&[]).0, "1 0\n");
    assert_eq!(printed(&long(&handshake)).0, "3 0\n");
}

#[test]
fn a_directory_is_no_empty_input() {
    let folder = std::fs::File::open(env!("CARGO_MANIFEST_DIR")).expect("the folder");
    let output = program().stdin(folder).output();
    let (out, err) = texts(output.expect("the program ends"));
    assert_eq!(
        (out.as_str(), err.as_str()),
        ("", "standard input could not be read\n")
    );
}

#[test]
fn a_line_that_does_not_go_out_is_told() {
    let full = std::fs::File::create("/dev/full").expect("a full device");
    let output = program()
        .stdout(full)
        .stderr(Stdio::piped())
        .spawn()
        .and_then(|child| child.wait_with_output());
    let (_, err) = texts(output.expect("the program ends"));
    assert_eq!(err, "standard output could not be written\n");
}
