//! Bench jobs 1 to 14 of document 01 under *run* and *follow* of the library
//! and of both judges: verdicts, orders, matches, cut messages and inbox
//! bytes.

use jamturret::lent::Answer;
use jamturret_host::bench_jobs;
use jamturret_host::compare::{self, Call};
use jamturret_host::desk::{Desk, FILL};
use jamturret_host::layout::kind::{BUFFERED, STANDARD};
use jamturret_host::layout::word;
use jamturret_host::requests_left::no_request_left;
use jamturret_host::sheet::{Operation, Sheet};

const FINISHED: u8 = 1;
const DEADLOCK: u8 = 2;
const OVERFLOW: u8 = 3;
const NOT_READY: u8 = 4;

struct Outcome {
    desk: Desk,
}

fn run(sheet: &Sheet) -> Outcome {
    ask(sheet, Call::Run)
}

fn follow(sheet: &Sheet, order: &[u8]) -> Outcome {
    ask(sheet, Call::Follow(order.to_vec()))
}

/// The library and both judges agree; the answer is success.
fn ask(sheet: &Sheet, call: Call) -> Outcome {
    let bytes = sheet.bytes();
    let agreed = compare::agreed(&bytes, &call, &Desk::for_sheet(&bytes));
    assert_eq!(agreed.answer, Answer::SUCCESS);
    Outcome { desk: agreed.desk }
}

impl Outcome {
    fn ends(&self, verdict: u8, order: &[u8]) {
        assert_eq!(self.desk.report[0], verdict, "verdict");
        assert_eq!(self.desk.order(), order, "order");
    }

    /// Stop rank and stop operation.
    fn stopped_at(&self, rank: u8, operation: u16) {
        let at = (self.desk.report[1], word(&self.desk.report, 2));
        assert_eq!(at, (rank, operation), "stop");
    }

    /// Pending messages, pending receives, cut messages.
    fn counts(&self, messages: u16, receives: u16, cut: u16) {
        let at = |place| word(&self.desk.report, place);
        assert_eq!((at(10), at(12), at(14)), (messages, receives, cut));
    }

    fn row(&self, operation: usize) -> &[u8] {
        self.desk.row(operation)
    }

    fn matched(&self, send: usize, receive: usize) {
        for (one, other) in [(send, receive), (receive, send)] {
            assert_eq!(self.row(one)[0], 3, "state of {one}");
            assert_eq!(
                usize::from(word(self.row(one), 2)),
                other,
                "partner of {one}"
            );
        }
    }

    /// Finished, buffer in use, peak, state.
    fn board(&self, rank: usize, expected: (u16, u16, u16, u8)) {
        let row = &self.desk.report[self.desk.edition.board_row_at(rank)..];
        assert_eq!((word(row, 0), word(row, 2), word(row, 4), row[6]), expected);
    }

    /// Bytes at a place of the inbox memory; all others keep their values.
    fn inbox(&self, areas: &[(usize, &[u8])]) {
        let mut expected = vec![FILL; self.desk.inbox.len()];
        for (start, bytes) in areas {
            expected[*start..start + bytes.len()].copy_from_slice(bytes);
        }
        assert_eq!(self.desk.inbox, expected);
    }
}

/// Where the inbox of rank 1 starts in the inbox memory of these jobs.
const INBOX_1: usize = 16;

#[test]
fn case_1_whole_report() {
    let outcome = run(&bench_jobs::case_1());
    let expected = "01 FF FF FF 04 00 02 00 02 00 00 00 00 00 00 00 \
                    01 00 00 00 00 00 02 00 \
                    01 00 00 00 00 00 02 00 \
                    03 00 01 00 FF FF FF FF 00 00 00 00 \
                    03 00 00 00 00 00 07 00 03 00 00 00";
    let hex: Vec<String> = outcome
        .desk
        .report
        .iter()
        .map(|b| format!("{b:02X}"))
        .collect();
    assert_eq!(hex.join(" "), expected);
    outcome.ends(FINISHED, &[0, 1, 0, 1]);
    outcome.inbox(&[(INBOX_1, &[1, 2, 3])]);
}

#[test]
fn case_2_first_to_first() {
    let outcome = run(&bench_jobs::case_2());
    outcome.ends(FINISHED, &[0, 0, 0, 0, 1, 1, 1, 1]);
    outcome.matched(0, 2);
    outcome.matched(1, 3);
    outcome.board(0, (2, 0, 69, 2));
    outcome.inbox(&[(INBOX_1, &[1, 2, 3]), (INBOX_1 + 4, &[4, 5])]);
}

#[test]
fn case_3_crosswise() {
    let outcome = run(&bench_jobs::case_3(35));
    outcome.ends(FINISHED, &[0, 0, 0, 1, 0, 1, 1, 1]);
    outcome.matched(0, 3);
    outcome.matched(1, 2);
    outcome.board(0, (2, 0, 35, 2));
    outcome.inbox(&[(INBOX_1, &[4, 5]), (INBOX_1 + 4, &[1, 2, 3])]);
}

#[test]
fn case_3_one_byte_short() {
    let outcome = run(&bench_jobs::case_3(34));
    outcome.ends(OVERFLOW, &[0]);
    outcome.stopped_at(0, 0);
    outcome.counts(0, 0, 0);
    outcome.board(0, (0, 0, 0, 0));
    outcome.board(1, (0, 0, 0, 0));
    assert_eq!(outcome.row(0)[0], 0);
    outcome.inbox(&[]);
}

#[test]
fn case_4_exchange() {
    let outcome = run(&bench_jobs::case_4());
    outcome.ends(FINISHED, &[0, 1, 0, 0, 1, 1, 0, 1]);
    outcome.matched(0, 2);
    outcome.matched(3, 1);
}

#[test]
fn case_5_both_receive() {
    let outcome = run(&bench_jobs::case_5());
    outcome.ends(DEADLOCK, &[0, 1]);
    outcome.stopped_at(255, 65_535);
    outcome.counts(0, 2, 0);
}

#[test]
fn case_6_both_send() {
    let outcome = run(&bench_jobs::case_6());
    outcome.ends(DEADLOCK, &[0, 1]);
    outcome.counts(2, 0, 0);
    outcome.board(0, (0, 0, 0, 0));
}

#[test]
fn case_7_in_order() {
    let outcome = run(&bench_jobs::case_7());
    outcome.ends(FINISHED, &[0, 0, 1, 0, 1, 0, 1, 1]);
    outcome.matched(0, 4);
    outcome.matched(1, 5);
    assert_eq!(
        outcome.row(2),
        [5, 0, 255, 255, 255, 255, 255, 255, 0, 0, 0, 0]
    );
}

/// A send takes the earliest-posted receive that fits.
#[test]
fn case_7_receives_first() {
    let outcome = follow(&bench_jobs::case_7(), &[1, 1, 0, 0, 0, 0, 1, 1]);
    assert_eq!(outcome.desk.report[0], FINISHED);
    outcome.matched(0, 4);
    outcome.matched(1, 5);
}

#[test]
fn case_8_progress() {
    let outcome = run(&bench_jobs::case_8());
    outcome.ends(FINISHED, &[0, 1, 0, 0, 1, 0, 1, 1]);
    outcome.matched(0, 2);
    outcome.matched(1, 3);
}

#[test]
fn case_9_ready() {
    let outcome = run(&bench_jobs::case_9());
    outcome.ends(NOT_READY, &[0]);
    outcome.stopped_at(0, 0);
    outcome.counts(0, 0, 0);
    outcome.board(0, (0, 0, 0, 0));
    assert_eq!(outcome.row(0)[0], 0, "not entered");

    let outcome = follow(&bench_jobs::case_9(), &[1, 0, 0, 1]);
    assert_eq!(outcome.desk.report[0], FINISHED);
    outcome.matched(0, 1);
}

#[test]
fn case_10_oneself() {
    let outcome = run(&bench_jobs::case_10());
    outcome.ends(DEADLOCK, &[0]);
    let outcome = run(&bench_jobs::case_10_received());
    outcome.ends(FINISHED, &[0, 0, 0, 0]);
    outcome.matched(1, 0);
    outcome.inbox(&[(0, &[1, 2, 3])]);
}

#[test]
fn case_11_cut() {
    let outcome = run(&bench_jobs::case_11(5));
    outcome.ends(FINISHED, &[0, 1, 0, 1]);
    outcome.counts(0, 0, 1);
    outcome.inbox(&[(INBOX_1, &[1, 2, 3, 4])]);
    assert_eq!(outcome.row(0), [3, 0, 1, 0, 255, 255, 255, 255, 0, 0, 0, 0]);
    assert_eq!(outcome.row(1), [3, 1, 0, 0, 0, 0, 0, 0, 5, 0, 0, 0]);

    let outcome = run(&bench_jobs::case_11(4));
    outcome.ends(FINISHED, &[0, 1, 0, 1]);
    outcome.counts(0, 0, 0);
    outcome.inbox(&[(INBOX_1, &[1, 2, 3, 4])]);
}

/// Document 02, K5: payload bytes 2 to 4, or fewer, to an area that starts at
/// offset 3.
#[test]
fn capacities() {
    for (length, capacity, cut, copied) in [
        (3, 0, 1, &[][..]),
        (0, 0, 0, &[]),
        (3, 1, 1, &[2]),
        (3, 2, 1, &[2, 3]),
        (3, 3, 0, &[2, 3, 4]),
        (3, 4, 0, &[2, 3, 4]),
        (0, 4, 0, &[]),
    ] {
        let send = Operation::send(STANDARD, 1, 0, 1, length);
        let receive = Operation::receive(0, 0, 3, capacity);
        let sheet = Sheet::of_scripts(&[&[send], &[receive], &[]], 16);
        let outcome = run(&sheet);
        outcome.ends(FINISHED, &[0, 1, 0, 1]);
        outcome.counts(0, 0, cut);
        outcome.inbox(&[(INBOX_1 + 3, copied)]);
        let row = [3, cut as u8, 0, 0, 0, 0, 0, 0, length as u8, 0, 0, 0];
        assert_eq!(outcome.row(1), row, "length {length}, capacity {capacity}");
    }
}

/// The cut message comes last; the areas on both sides keep what they got.
#[test]
fn cut_between_two_others() {
    let sends = [(1, 0, 2), (2, 2, 2), (3, 4, 4)];
    let sends =
        sends.map(|(tag, offset, length)| Operation::send(BUFFERED, 1, tag, offset, length));
    let areas = [(1, 0), (2, 4), (3, 2)];
    let receives = areas.map(|(tag, offset)| Operation::receive(0, tag, offset, 2));
    let outcome = run(&Sheet::of_scripts(&[&sends, &receives], 16).attach(0, 104));
    outcome.counts(0, 0, 1);
    outcome.inbox(&[(INBOX_1, &[1, 2, 5, 6, 3, 4])]);
    outcome.board(0, (3, 0, 104, 2));
}

/// Both areas start at one place: the later receive's byte stands.
#[test]
fn cut_over_cut() {
    let sends = [
        Operation::send(STANDARD, 1, 1, 0, 3),
        Operation::send(STANDARD, 1, 2, 3, 2),
    ];
    let receives = [
        Operation::receive(0, 1, 0, 2),
        Operation::receive(0, 2, 0, 1),
    ];
    let outcome = run(&Sheet::of_scripts(&[&sends, &receives], 16));
    outcome.counts(0, 0, 2);
    outcome.inbox(&[(INBOX_1, &[4, 2])]);
}

#[test]
fn case_12_any_source() {
    let sheet = bench_jobs::case_12();
    let outcome = follow(&sheet, &[0, 1, 2, 0, 2, 2, 1, 2]);
    assert_eq!(outcome.desk.report[0], FINISHED);
    outcome.matched(0, 2);
    outcome.matched(1, 3);
    let outcome = follow(&sheet, &[1, 0, 2, 1, 2, 2, 0, 2]);
    assert_eq!(outcome.desk.report[0], FINISHED);
    outcome.matched(1, 2);
    outcome.matched(0, 3);
}

#[test]
fn case_13_small_ones() {
    let outcome = run(&bench_jobs::case_13_communicators());
    outcome.ends(DEADLOCK, &[0, 1]);
    outcome.counts(1, 1, 0);

    run(&bench_jobs::case_13_nothing()).ends(FINISHED, &[]);
}

/// An empty message costs 32.
#[test]
fn case_13_empty_send() {
    for attached in [0, 31] {
        let outcome = run(&bench_jobs::case_13_empty_send(attached));
        outcome.ends(OVERFLOW, &[0]);
        outcome.stopped_at(0, 0);
        outcome.board(0, (0, 0, 0, 0));
    }
    let outcome = run(&bench_jobs::case_13_empty_send(32));
    outcome.ends(FINISHED, &[0, 0]);
    outcome.counts(1, 0, 0);
    assert_eq!(outcome.row(0)[0], 2);
    outcome.board(0, (1, 32, 32, 2));
}

/// A buffered send that meets a posted receive is charged nothing.
#[test]
fn matched_at_once() {
    let send = Operation::send(BUFFERED, 1, 0, 0, 3);
    let receive = Operation::receive(0, 0, 0, 4);
    let sheet = Sheet::of_scripts(&[&[send], &[receive]], 16);
    let outcome = follow(&sheet, &[1, 0, 0, 1]);
    assert_eq!(outcome.desk.report[0], FINISHED);
    outcome.matched(0, 1);
    outcome.board(0, (1, 0, 0, 2));
}

/// 512 empty messages fill the largest buffer, every receive gives 32 back,
/// and 512 more fill it again.
#[test]
fn case_14_fills_the_largest_buffer() {
    let sheet = bench_jobs::case_14_operations(2048);
    let outcome = run(&sheet);
    assert_eq!(
        (outcome.desk.report[0], outcome.desk.steps()),
        (FINISHED, 4096)
    );
    outcome.board(0, (2048, 0, 16_384, 2));
    outcome.matched(0, 512);
    outcome.matched(1535, 2047);
    let outcome = follow(&sheet, &[0; 1026]);
    outcome.board(0, (513, 16_384 - 32, 16_384, 1));
    let outcome = follow(&sheet, &[0; 3072]);
    outcome.board(0, (1536, 16_384, 16_384, 1));
}

/// Slot 31 with its wait.
#[test]
fn case_14_slot() {
    let outcome = run(&bench_jobs::case_14_slot(31));
    outcome.ends(FINISHED, &[0, 1, 0, 1]);
    outcome.counts(0, 0, 0);
    outcome.matched(2, 0);
    assert_eq!(outcome.row(1)[0], 5, "the wait is finished");
    outcome.inbox(&[(0, &[1, 2, 3])]);
}

/// A beginning of an order is a report of its own.
#[test]
fn beginnings_of_case_1() {
    let sheet = bench_jobs::case_1();
    let outcome = follow(&sheet, &[]);
    assert_eq!((outcome.desk.report[0], outcome.desk.steps()), (0, 0));
    outcome.board(0, (0, 0, 0, 1));
    let outcome = follow(&sheet, &[0]);
    assert_eq!((outcome.desk.report[0], outcome.desk.steps()), (0, 1));
    outcome.board(0, (0, 0, 0, 0));
    outcome.counts(1, 0, 0);
    let outcome = follow(&sheet, &[0, 1]);
    outcome.matched(0, 1);
    outcome.board(0, (0, 0, 0, 1));
    outcome.inbox(&[(INBOX_1, &[1, 2, 3])]);
}

/// A receive in slot 0, which is waited for last; between, twice an empty
/// buffered send in slot 1 and its wait.
fn receive_beside_sends() -> [Operation; 6] {
    let receive = Operation::receive(1, 9, 0, 4).nonblocking(0);
    let empty = Operation::send(BUFFERED, 1, 0, 0, 0).nonblocking(1);
    let (for_0, for_1) = (Operation::wait(0), Operation::wait(1));
    [receive, empty, for_1, empty, for_1, for_0]
}

/// A wait asks for the operation of its own slot, and a retaken slot for the
/// operation that took it last.
#[test]
fn slots_are_told_apart() {
    let waits_for_1 = receive_beside_sends();
    let outcome = run(&Sheet::of_scripts(&[&waits_for_1, &[]], 16).attach(0, 64));
    outcome.ends(DEADLOCK, &[0; 5]);
    outcome.counts(2, 1, 0);
    outcome.board(0, (5, 64, 64, 0));
    let states = [0, 1, 2, 3, 4, 5].map(|index| outcome.row(index)[0]);
    assert_eq!(states, [1, 2, 5, 2, 5, 0]);

    let [never, empty, for_1, _, _, for_0] = waits_for_1;
    let waits_for_0 = [empty, for_1, never, for_0];
    let outcome = run(&Sheet::of_scripts(&[&waits_for_0, &[]], 16).attach(0, 64));
    outcome.ends(DEADLOCK, &[0; 3]);
    outcome.board(0, (3, 32, 32, 0));
}

/// The same with a message for the receive: of the job only what is buffered is
/// left (document 02, K7, No-request-left).
#[test]
fn finished_job_has_no_request_left() {
    let send = Operation::send(STANDARD, 0, 9, 0, 3).nonblocking(31);
    let sends = [send, Operation::wait(31)];
    let sheet = Sheet::of_scripts(&[&receive_beside_sends(), &sends], 16).attach(0, 64);
    let outcome = run(&sheet);
    outcome.ends(FINISHED, &[0, 0, 0, 0, 0, 1, 0, 1]);
    outcome.counts(2, 0, 0);
    outcome.matched(6, 0);
    outcome.board(0, (6, 64, 64, 2));
    outcome.board(1, (2, 0, 0, 2));
    let states = [0, 1, 2, 3, 4, 5, 6, 7].map(|index| outcome.row(index)[0]);
    assert_eq!(states, [3, 2, 5, 2, 5, 5, 3, 5]);
    let report = &outcome.desk.report;
    assert_eq!(no_request_left(&sheet.bytes(), report), Ok(()));

    let outcome = follow(&sheet, &[1, 0, 1]);
    assert_eq!(outcome.desk.report[0], 0, "rank 0 is able");
    outcome.counts(0, 0, 0);
    outcome.matched(6, 0);
    outcome.board(0, (1, 0, 0, 1));
    outcome.board(1, (2, 0, 0, 2));
}
