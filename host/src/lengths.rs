//! Long scripts, and the rooms that are lent for them: the cases around the
//! most operations and around scratch that the differential tests have to make
//! (document 02, K11), and the longest sheets and reports, which are of edition 2
//! (K6).

use crate::compare::{Call, Outcome};
use crate::judge::SCRATCH_ROOM;
use crate::layout::{header, kind, word, Edition, HEADER_BYTES};
use crate::layout::{MOST_BOARDS, MOST_OPERATIONS, MOST_PAYLOAD};
use crate::sheet::kind_of;
use jamturret::lent::Answer;

/// Document 01's numbers.
const FIRST_MOST: usize = 1024;
const FIRST_SCRATCH: usize = 32_768;

/// A sheet whose numbers are all at their limits (document 02, K6).
const LONGEST_SHEET: usize =
    Edition::Second.operation_at(MOST_BOARDS, MOST_OPERATIONS) + MOST_PAYLOAD;

/// N, where there is a header.
fn operations(sheet: &[u8]) -> Option<usize> {
    (sheet.len() >= HEADER_BYTES).then(|| usize::from(word(sheet, header::OPERATIONS)))
}

/// What `asked` finds.
pub const ASKED: [&str; 10] = [
    "check, N 1,025 to 2,047",
    "check, N 2,048",
    "check, N 2,049, refused 2",
    "check, refused 6 from operation 1,024 on",
    "check, refused 7 from operation 1,024 on",
    "premise, 20 from operation 1,024 on",
    "premise, 21 from operation 1,024 on",
    "premise, 23 from operation 1,024 on",
    "premise, 20 there, of a probe",
    "check, 49,328 bytes, the longest of edition 2",
];

/// Which cases the answers of check and premise make.
pub fn asked(sheet: &[u8], check: Answer, premise: Answer) -> [bool; ASKED.len()] {
    let operations = operations(sheet);
    let longer = |&operations: &usize| (FIRST_MOST + 1..MOST_OPERATIONS).contains(&operations);
    let late =
        |answer: Answer, number| answer.number == number && answer.place >= FIRST_MOST as u64;
    [
        check.number == 0 && operations.as_ref().is_some_and(longer),
        check.number == 0 && operations == Some(MOST_OPERATIONS),
        check.number == 2 && operations == Some(MOST_OPERATIONS + 1),
        late(check, 6),
        late(check, 7),
        late(premise, 20),
        late(premise, 21),
        late(premise, 23),
        late(premise, 20) && kind_of(sheet, premise.place as usize) == kind::PROBE,
        check.number == 0 && sheet.len() == LONGEST_SHEET,
    ]
}

/// What `called` finds.
pub const CALLED: [&str; 15] = [
    "run, N 2,048",
    "follow, N 2,048",
    "N 2,049 and short scratch, refused 2",
    "more than 2,048 steps",
    "stopped from operation 1,024 on",
    "more than 512 matches",
    "refused 9 from index 2,048 on",
    "refused 9 behind 4,096 steps",
    "scratch 65,536",
    "scratch 65,535, refused 8",
    "scratch 32,768, refused 8",
    "scratch between these, refused 8",
    "order out 4,096",
    "order out 4,095, refused 8",
    "report 24,784, the longest of edition 2",
];

/// Which cases the outcome of a call makes.
pub fn called(sheet: &[u8], call: &Call, outcome: &Outcome) -> [bool; CALLED.len()] {
    let operations = operations(sheet);
    let Answer { number, place } = outcome.answer;
    let desk = &outcome.desk;
    let (scratch, order_out) = (desk.scratch.len(), desk.order_out.len());
    let run = *call == Call::Run;
    let success = number == 0;
    let most = operations == Some(MOST_OPERATIONS);
    let stopped = || usize::from(word(&desk.report, 2));
    let short = |room| number == 8 && place == room;
    let longest_report = Edition::Second.report_bytes(MOST_BOARDS, MOST_OPERATIONS);
    [
        success && most && run,
        success && most && !run,
        number == 2 && operations == Some(MOST_OPERATIONS + 1) && scratch < SCRATCH_ROOM,
        success && desk.steps() > 2 * FIRST_MOST,
        success && (FIRST_MOST..MOST_OPERATIONS).contains(&stopped()),
        success && most && desk.matched_rows() > FIRST_MOST,
        number == 9 && place >= 2 * FIRST_MOST as u64,
        number == 9 && place == 2 * MOST_OPERATIONS as u64,
        success && scratch == SCRATCH_ROOM,
        short(4) && scratch == SCRATCH_ROOM - 1,
        short(4) && scratch == FIRST_SCRATCH,
        short(4) && (FIRST_SCRATCH + 1..SCRATCH_ROOM - 1).contains(&scratch),
        success && most && run && order_out == 2 * MOST_OPERATIONS,
        short(3) && most && order_out == 2 * MOST_OPERATIONS - 1,
        success && Edition::Second == desk.edition && desk.report.len() == longest_report,
    ]
}
