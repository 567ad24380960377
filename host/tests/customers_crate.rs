//! The crate `jamturret`, which customers depend on, beside our own reading
//! of document 01: refusals, sheets parsed and built, reports and outcomes by
//! name, over generated sheets.

use jamturret::{
    follow, run, BoardState, Edition, Mode, Operation, OperationState, Outcome, Report, Sheet,
    Source, Tag, Verdict,
};
use jamturret_host::desk::Desk;
use jamturret_host::judge;
use jamturret_host::layout::{self, kind, operation, word, ANY};
use jamturret_host::sheet::{edition, entry_of, operation_at, room_of};
use jamturret_host::trial;
use std::iter;

const SEED: u64 = 12;
const CASES: u64 = 6000;

fn source_number(source: Source) -> usize {
    match source {
        Source::Rank(rank) => rank,
        Source::Any => usize::from(ANY),
    }
}

fn tag_number(tag: Tag) -> usize {
    match tag {
        Tag::Is(tag) => tag,
        Tag::Any => usize::from(ANY),
    }
}

/// The numbers of an operation in the order of the bytes.
fn numbers(operation: &Operation) -> [usize; 9] {
    let flag = |slot: Option<usize>| usize::from(slot.is_some());
    let naming = |kind, slot| [usize::from(kind), 0, 0, 0, 0, 0, 0, 0, slot];
    match operation {
        Operation::Send(send) => [
            usize::from(match send.mode {
                Mode::Standard => kind::STANDARD,
                Mode::Buffered => kind::BUFFERED,
                Mode::Synchronous => kind::SYNCHRONOUS,
                Mode::Ready => kind::READY,
            }),
            flag(send.slot),
            send.to,
            send.communicator,
            0,
            send.tag,
            send.offset,
            send.length,
            send.slot.unwrap_or(0),
        ],
        Operation::Receive(receive) => [
            usize::from(kind::RECEIVE),
            flag(receive.slot),
            source_number(receive.from),
            receive.communicator,
            0,
            tag_number(receive.tag),
            receive.offset,
            receive.capacity,
            receive.slot.unwrap_or(0),
        ],
        Operation::Wait { slot } => naming(kind::WAIT, *slot),
        Operation::Probe(probe) => [
            usize::from(kind::PROBE),
            0,
            source_number(probe.from),
            probe.communicator,
            0,
            tag_number(probe.tag),
            0,
            0,
            0,
        ],
        Operation::StatusQuery { slot } => naming(kind::QUERY, *slot),
    }
}

/// The same numbers as our own reading finds them.
fn numbers_at(sheet: &[u8], at: usize) -> [usize; 9] {
    let field = |place| usize::from(word(sheet, at + place));
    [
        usize::from(sheet[at + operation::KIND]),
        usize::from(sheet[at + operation::FLAG]),
        field(operation::PEER),
        field(operation::COMMUNICATOR),
        field(operation::ZERO),
        field(operation::TAG),
        field(operation::OFFSET),
        field(operation::LENGTH),
        field(operation::SLOT),
    ]
}

/// The edition as our own reading has it.
fn own(edition: Edition) -> layout::Edition {
    match edition {
        Edition::First => layout::Edition::First,
        Edition::Second => layout::Edition::Second,
    }
}

/// The parts of a sheet are those that our own reading finds.
fn parts_agree(sheet: &Sheet, bytes: &[u8]) {
    assert_eq!(own(sheet.edition()), edition(bytes));
    let boards = sheet.boards();
    let header = [boards.len(), sheet.communicators()];
    assert_eq!(header, [0, 2].map(|at| usize::from(word(bytes, at))));
    for (rank, board) in boards.iter().enumerate() {
        let entry = [board.script.len(), board.attached, board.inbox];
        let field = |place| entry_of(bytes, rank, place);
        assert_eq!(entry, [2, 4, 6].map(field), "rank {rank}");
        assert_eq!(board.standard_room, room_of(bytes, rank), "rank {rank}");
    }
    let operations = usize::from(word(bytes, 4));
    for index in 0..operations {
        let expected = numbers_at(bytes, operation_at(bytes, index));
        assert_eq!(sheet.operation(index).map(numbers), Some(expected));
    }
    assert_eq!(sheet.operation(operations), None);
    assert_eq!(sheet.payload(), &bytes[operation_at(bytes, operations)..]);
}

fn verdict(report: &Report) -> u8 {
    match report.verdict() {
        Verdict::StillAble => 0,
        Verdict::Finished => 1,
        Verdict::Deadlock => 2,
        Verdict::Overflow => 3,
        Verdict::NotReady => 4,
    }
}

fn board_state(state: BoardState) -> usize {
    match state {
        BoardState::Neither => 0,
        BoardState::Able => 1,
        BoardState::Finished => 2,
    }
}

fn operation_state(state: OperationState) -> u8 {
    match state {
        OperationState::NotEntered => 0,
        OperationState::Pending => 1,
        OperationState::Buffered => 2,
        OperationState::Matched => 3,
        OperationState::Ended => 5,
    }
}

/// A report by name, put back into the numbers of document 01, The report.
fn report_bytes(report: &Report) -> Vec<u8> {
    let two = |number: usize| (number as u16).to_le_bytes();
    let stop = report.stop();
    let stop_rank = stop.map_or(255, |stop| stop.rank as u8);
    let mut bytes = vec![verdict(report), stop_rank];
    let header = [
        stop.map_or(65_535, |stop| stop.operation),
        report.steps(),
        report.boards().len(),
        report.operations().len(),
        report.pending_messages(),
        report.pending_receives(),
        report.cut_messages(),
    ];
    bytes.extend(header.into_iter().flat_map(two));
    for row in report.boards() {
        let state = board_state(row.state);
        let numbers = [row.finished, row.in_use, row.peak, state];
        let standard = row
            .standard
            .map(|standard| [standard.in_use, standard.peak]);
        let numbers = numbers.into_iter().chain(standard.into_iter().flatten());
        bytes.extend(numbers.flat_map(two));
    }
    for row in report.operations() {
        let cut = row.status.is_some_and(|status| status.cut);
        bytes.extend([operation_state(row.state), u8::from(cut)]);
        let partner = row.partner.unwrap_or(65_535);
        let got = match row.status {
            Some(status) => [status.source, status.tag, status.length],
            None => [65_535, 65_535, usize::from(row.complete)],
        };
        let numbers = iter::once(partner).chain(got).chain([0]);
        bytes.extend(numbers.flat_map(two));
    }
    bytes
}

/// An outcome is what our judge leaves in the rooms, and its report says by
/// name what the bytes say.
fn outcome_agrees(outcome: &Outcome, desk: &Desk, order: &[u8]) {
    assert_eq!(own(outcome.report.edition()), desk.edition);
    assert_eq!(outcome.report.bytes(), desk.report);
    assert_eq!(report_bytes(&outcome.report), desk.report);
    assert_eq!(outcome.inboxes.concat(), desk.inbox);
    assert_eq!(outcome.order, order);
}

#[test]
fn crate_agrees() {
    let (mut accepted, mut refused) = ([0; 2], 0);
    for number in 0..CASES {
        let (_, bytes, _) = trial::sheet(SEED, number);
        let expected = judge::check(&bytes);
        let sheet = match Sheet::parse(&bytes) {
            Ok(sheet) => sheet,
            Err(refusal) => {
                let said = (refusal.number(), refusal.place());
                assert_eq!(said, (expected.number, expected.place), "case {number}");
                refused += 1;
                continue;
            }
        };
        assert_eq!(expected.number, 0, "case {number}");
        parts_agree(&sheet, &bytes);
        let built = Sheet::build_in(
            sheet.edition(),
            sheet.communicators(),
            sheet.boards().to_vec(),
            sheet.payload(),
        );
        assert_eq!(built.as_ref().map(Sheet::bytes), Ok(&bytes[..]));

        let mut desk = Desk::for_sheet(&bytes);
        let start = desk.inbox.clone();
        desk.naive_run(&bytes);
        let ran = run(&sheet, Some(&start)).expect("accepted");
        outcome_agrees(&ran, &desk, desk.order());

        let order = &ran.order[..ran.order.len() / 2];
        let mut desk = Desk::for_sheet(&bytes);
        desk.naive_follow(&bytes, order);
        let followed = follow(&sheet, order, Some(&start)).expect("a beginning");
        outcome_agrees(&followed, &desk, order);
        accepted[own(sheet.edition()) as usize] += 1;
    }
    let enough = accepted.iter().all(|&count| count > 1000) && refused > 100;
    assert!(enough, "{accepted:?} and {refused}");
}
