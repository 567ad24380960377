//! Edition 2 (document 02, K6): which sheets are of it, when a standard send is
//! buffered and what it is charged, what reports tell of standard rooms, and the
//! order that short rooms leave free.

mod common;

use common::{mend_crc, sample};
use jamturret::lent;
use jamturret::limits::{order_room, MOST_LENGTH, MOST_STANDARD_ROOM, SCRATCH_ROOM};
use jamturret::{
    check, follow, premise, run, Board, BoardRow, Edition, Mode, Operation, OperationState,
    Outcome, Premise, ProbeOperation, ReceiveOperation, Refusal, Report, Room, SendOperation,
    Sheet, Source, StandardUse, Tag, Verdict,
};

fn ran(sheet: impl AsRef<[u8]>) -> Outcome {
    run(sheet, None).expect("the sheet passes")
}

fn followed(sheet: impl AsRef<[u8]>, order: &[u8]) -> Outcome {
    follow(sheet, order, None).expect("each rank is able")
}

fn built(boards: Vec<Board>) -> Sheet {
    let sheet = Sheet::build_in(Edition::Second, 1, boards, b"JAMTURRET");
    sheet.expect("every number fits")
}

/// A standard send to rank 1 of so many bytes.
fn send(length: usize) -> SendOperation {
    SendOperation::new(Mode::Standard, 1).bytes(0, length)
}

fn receive(from: usize) -> ReceiveOperation {
    ReceiveOperation::new(Source::Rank(from))
}

fn wait(slot: usize) -> Operation {
    Operation::Wait { slot }
}

/// In use and peak: of a board's attached buffer, and of its standard room.
fn accounts(report: &Report, rank: usize) -> [(usize, usize); 2] {
    let row = report.board(rank).expect("a row");
    let standard = row.standard.expect("edition 2");
    [(row.in_use, row.peak), (standard.in_use, standard.peak)]
}

fn states(report: &Report) -> Vec<OperationState> {
    report.operations().map(|row| row.state).collect()
}

/// Bench job 6 with rooms that cover the messages: what sheets/README.md says of
/// it. Other orders end alike but for the standard peaks.
#[test]
fn rooms_that_cover() {
    let sheet = sample("both-send-first-covered");
    assert_eq!(premise(&sheet), Ok(Premise::Holds));
    let first = ran(&sheet);
    assert_eq!(first.order, [0, 0, 0, 1, 0, 1, 1, 1]);
    for (order, peaks) in [
        ([0, 0, 0, 1, 0, 1, 1, 1], [2, 0]),
        ([0, 1, 0, 1, 0, 1, 0, 1], [2, 2]),
        ([1, 1, 1, 0, 1, 0, 0, 0], [0, 2]),
    ] {
        let Outcome {
            report, inboxes, ..
        } = followed(&sheet, &order);
        assert_eq!(report.edition(), Edition::Second);
        assert_eq!(report.verdict(), Verdict::Finished);
        assert_eq!((report.steps(), report.pending_messages()), (8, 0));
        let standard = peaks.map(|peak| [(0, 0), (0, peak)]);
        assert_eq!([0, 1].map(|rank| accounts(&report, rank)), standard);
        assert!(report.operations().eq(first.report.operations()));
        let partners = report.operations().map(|row| row.partner);
        assert!(partners.eq([3, 2, 1, 0].map(Some)));
        assert_eq!(inboxes, [[13, 14], [11, 12]]);
    }
}

/// Rooms a byte short, and rooms of 0: nothing is buffered.
#[test]
fn rooms_that_do_not_cover() {
    use OperationState::{NotEntered, Pending};
    let short = sample("both-send-first-short");
    let uncovered = Premise::StandardUncovered { rank: 0 };
    assert_eq!(premise(&short), Ok(uncovered));
    let report = ran(&short).report;
    assert_eq!((report.verdict(), report.steps()), (Verdict::Deadlock, 2));
    assert_eq!(report.pending_messages(), 2);
    assert_eq!(states(&report), [Pending, NotEntered, Pending, NotEntered]);
    assert_eq!(accounts(&report, 0), [(0, 0), (0, 0)]);

    let boards = Sheet::parse(&short).expect("it passes").boards().to_vec();
    let boards = boards.into_iter().map(|board| board.standard_room(0));
    let none = built(boards.collect());
    assert_eq!(premise(&none), Ok(Premise::Holds));
    assert_eq!(ran(&none).report, report);
}

/// Five bytes through a room of three: the second message is in it, and nobody
/// takes it.
#[test]
fn room_used_again() {
    use OperationState::{Buffered, Matched};
    let sheet = sample("room-used-again");
    let outcome = ran(&sheet);
    let report = &outcome.report;
    assert_eq!(outcome.order, [0, 0, 0, 1, 1, 1, 0, 0, 0, 1]);
    assert_eq!(report.verdict(), Verdict::Finished);
    assert_eq!(report.pending_messages(), 1);
    assert_eq!(
        states(report),
        [Matched, Matched, Buffered, Matched, Matched]
    );
    assert_eq!(accounts(report, 0), [(0, 0), (2, 3)]);
    assert_eq!(accounts(report, 1), [(0, 0), (0, 0)]);
    assert_eq!(outcome.inboxes, [&[][..], &[11, 12, 13]]);
    for (steps, in_use) in [(0, 0), (1, 3), (3, 3), (4, 0), (7, 0), (8, 2)] {
        let report = followed(&sheet, &outcome.order[..steps]).report;
        let peak = if steps == 0 { 0 } else { 3 };
        assert_eq!(accounts(&report, 0), [(0, 0), (in_use, peak)], "{steps}");
    }
    let uncovered = Premise::StandardUncovered { rank: 0 };
    assert_eq!(premise(&sheet), Ok(uncovered));
}

/// Two sends to nobody: whether each is buffered. An empty one fits every room
/// but one of 0, also a full one; a message costs its length and no more.
#[test]
fn lengths_against_rooms() {
    use OperationState::{Buffered, Pending};
    for (room, lengths, expected, in_use) in [
        (5, [3, 2], [Buffered, Buffered], 5),
        (4, [3, 2], [Buffered, Pending], 3),
        (2, [3, 2], [Pending, Buffered], 2),
        (1, [1, 0], [Buffered, Buffered], 1),
        (1, [0, 0], [Buffered, Buffered], 0),
        (0, [0, 1], [Pending, Pending], 0),
        (MOST_STANDARD_ROOM, [9, 9], [Buffered, Buffered], 18),
    ] {
        let [first, second] = lengths.map(send);
        let sender = Board::new()
            .attached(1_000)
            .standard_room(room)
            .then(first.nonblocking(0))
            .then(second.nonblocking(1))
            .then(wait(0))
            .then(wait(1));
        let sheet = built(vec![sender, Board::new()]);
        let report = followed(&sheet, &[0, 0]).report;
        assert_eq!(states(&report)[..2], expected, "{room} {lengths:?}");
        assert_eq!(accounts(&report, 0), [(0, 0), (in_use, in_use)]);
        assert_eq!(report.pending_messages(), 2);
        let finishes = expected == [Buffered, Buffered];
        let verdict = ran(&sheet).report.verdict();
        assert_eq!(verdict == Verdict::Finished, finishes);
        assert_eq!(verdict == Verdict::Deadlock, !finishes);
    }
}

/// What did not fit at its own step waits on where the room is free again; a
/// later send goes into it.
#[test]
fn waits_on() {
    use OperationState::{Buffered, Matched, Pending};
    let tagged = |tag| send(2).tag(tag).nonblocking(tag);
    let sender = Board::new()
        .standard_room(3)
        .then(tagged(0))
        .then(tagged(1))
        .then(tagged(2))
        .then(wait(0))
        .then(wait(1))
        .then(wait(2));
    let receiver = Board::new().inbox(2).then(receive(0).area(0, 2));
    let sheet = built(vec![sender, receiver]);
    let report = followed(&sheet, &[0, 0, 1, 0]).report;
    assert_eq!(states(&report)[..3], [Matched, Pending, Buffered]);
    assert_eq!(accounts(&report, 0), [(0, 0), (2, 2)]);
}

/// A buffered send is charged to the attached buffer, a standard one to the
/// room, and each gives back its own.
#[test]
fn two_accounts() {
    let sender = Board::new()
        .attached(34)
        .standard_room(3)
        .then(SendOperation::new(Mode::Buffered, 1).bytes(0, 2))
        .then(send(3).tag(1));
    let receiver = Board::new()
        .inbox(5)
        .then(receive(0).tag(Tag::Is(1)).area(0, 3))
        .then(receive(0).area(3, 2));
    let sheet = built(vec![sender, receiver]);
    let after = |order: &[u8]| accounts(&followed(&sheet, order).report, 0);
    assert_eq!(after(&[0, 0, 0]), [(34, 34), (3, 3)]);
    assert_eq!(after(&[0, 0, 0, 1]), [(34, 34), (0, 3)]);
    assert_eq!(after(&[0, 0, 0, 1, 1, 1]), [(0, 34), (0, 3)]);
    // Rank 1's receive of the standard one is posted first: a match, and no charge.
    assert_eq!(after(&[1, 0]), [(34, 34), (0, 0)]);
    assert_eq!(after(&[1, 0, 0, 0]), [(34, 34), (0, 0)]);
    assert_eq!(premise(&sheet), Ok(Premise::Holds));
}

/// Only standard sends go into the room, and none of them overflows.
#[test]
fn other_modes() {
    for (mode, verdict) in [
        (Mode::Standard, Verdict::Finished),
        (Mode::Buffered, Verdict::Overflow),
        (Mode::Synchronous, Verdict::Deadlock),
        (Mode::Ready, Verdict::NotReady),
    ] {
        let sender = Board::new().then(SendOperation { mode, ..send(2) });
        let ran = |room| {
            let sender = sender.clone().standard_room(room);
            ran(built(vec![sender, Board::new()])).report.verdict()
        };
        assert_eq!(ran(2), verdict);
        let short = match mode {
            Mode::Standard => Verdict::Deadlock,
            _ => verdict,
        };
        assert_eq!(ran(1), short);
    }
}

/// A status query finds a send in the room complete; a probe tells its message
/// and leaves it there.
#[test]
fn asked() {
    for (room, in_use) in [(1, 0), (2, 2)] {
        let sender = Board::new()
            .standard_room(room)
            .then(send(2).nonblocking(4))
            .then(Operation::StatusQuery { slot: 4 })
            .then(wait(4));
        let prober = Board::new().then(ProbeOperation::new(Source::Rank(0)));
        let report = followed(built(vec![sender, prober]), &[0, 0, 1]).report;
        let rows: Vec<_> = report.operations().collect();
        assert_eq!(rows[1].queried(), Some(in_use == 2));
        let told = rows[3].probed().expect("told");
        assert_eq!((told.source, told.tag, told.length), (0, 0, 2));
        assert_eq!(accounts(&report, 0), [(0, 0), (in_use, in_use)]);
        assert_eq!(report.pending_messages(), 1);
    }
}

/// So many standard sends of 4,096 bytes: a room covers four at most, and what
/// they add up to is not taken modulo 65,536.
#[test]
fn many_long_sends() {
    let said = |count, extra| {
        let long = SendOperation::new(Mode::Standard, 0).bytes(0, MOST_LENGTH);
        let mut sender = Board::new().standard_room(MOST_STANDARD_ROOM);
        for _ in 0..count {
            sender = sender.then(long);
        }
        let sender = sender.then(send(extra));
        let boards = vec![Board::new(), sender];
        let sheet = Sheet::build_in(Edition::Second, 1, boards, &[0; MOST_LENGTH]);
        premise(sheet.expect("every number fits"))
    };
    let uncovered = Ok(Premise::StandardUncovered { rank: 1 });
    assert_eq!(said(4, 0), Ok(Premise::Holds));
    for (count, extra) in [(4, 1), (5, 0), (16, 0), (17, 0), (32, 0), (2_047, 0)] {
        assert_eq!(said(count, extra), uncovered, "{count} {extra}");
    }
}

/// 20 to 23 go before 24, wherever they stand.
#[test]
fn lowest_premise_first() {
    let other = |mode| Operation::from(SendOperation::new(mode, 0));
    let query = Operation::StatusQuery { slot: 0 };
    for (last, premised) in [
        (receive(0).into(), Premise::StandardUncovered { rank: 0 }),
        (query, Premise::StatusQuery { operation: 2 }),
        (other(Mode::Buffered), Premise::Uncovered { rank: 1 }),
        (other(Mode::Ready), Premise::ReadySend { operation: 2 }),
        (
            ReceiveOperation::new(Source::Any).into(),
            Premise::AnySource { operation: 2 },
        ),
    ] {
        let short = Board::new().standard_room(1).then(send(2));
        let second = Board::new()
            .then(SendOperation::new(Mode::Standard, 0).nonblocking(0))
            .then(last)
            .then(wait(0));
        assert_eq!(premise(built(vec![short, second])), Ok(premised));
    }
}

/// The offsets and the length of a sheet are of one edition. Each of them in
/// turn is put to what it is in the other.
#[test]
fn mixed_editions() {
    for (name, other) in [
        ("both-send-first", Edition::Second),
        ("both-send-first-covered", Edition::First),
    ] {
        let right = sample(name);
        let table = 16 + if other == Edition::Second { 20 } else { 16 };
        for (at, value) in [(8, table), (10, table + 64)] {
            let mut bytes = right.clone();
            bytes[at] = value;
            mend_crc(&mut bytes);
            assert_eq!(check(&bytes), Err(Refusal::Layout), "{name} {at}");
        }
        let mut bytes = right.clone();
        bytes.resize(other.sheet_length(2, 4, 4), 0);
        mend_crc(&mut bytes);
        assert_eq!(check(&bytes), Err(Refusal::Layout), "{name}");
        assert_eq!(Sheet::parse(&bytes), Err(Refusal::Layout), "{name}");
    }
}

#[test]
fn room_too_large() {
    let sheet = sample("refused-5-room");
    let refusal = Refusal::Board { rank: 1 };
    assert_eq!(check(&sheet), Err(refusal));
    assert_eq!(Sheet::parse(&sheet), Err(refusal));
    assert_eq!(run(&sheet, None), Err(refusal));
}

/// The report room is that of the sheet's edition: a byte less is refused.
#[test]
fn report_rooms() {
    for (name, edition) in [
        ("both-send-first", Edition::First),
        ("both-send-first-covered", Edition::Second),
    ] {
        let sheet = sample(name);
        let needed = edition.report_room(2, 4);
        let lent = |length| {
            let mut report = vec![7; length];
            let answer = lent::run(
                &sheet,
                &mut [0; 4],
                &mut report,
                &mut [0; order_room(4)],
                &mut vec![0; SCRATCH_ROOM],
            );
            (answer.result(&sheet), report)
        };
        let short = (Err(Refusal::Room(Room::Report)), vec![7; needed - 1]);
        assert_eq!(lent(needed - 1), short, "{name}");
        let (answer, report) = lent(needed + 1);
        assert_eq!((answer, report[needed]), (Ok(()), 7), "{name}");
        let read = Report::parse(&report[..needed]).expect("a report");
        assert_eq!(read, ran(&sheet).report, "{name}");
    }
}

/// The same parts in edition 1, and in edition 2 with rooms of 0: no answer
/// differs, and the reports differ in the figures of the rooms alone.
#[test]
fn same_in_both() {
    for name in [
        "block-buffered",
        "both-send-first",
        "cut",
        "intertwined",
        "nonblocking",
        "query-before-and-after",
        "ready",
    ] {
        let first = Sheet::parse(&sample(name)).expect("the samples pass");
        let boards = first.boards().to_vec();
        let second = Sheet::build_in(Edition::Second, 1, boards, first.payload());
        let second = second.expect("every number fits");
        assert_eq!(premise(&second), premise(&first), "{name}");
        let (ran_first, ran_second) = (ran(&first), ran(&second));
        assert_eq!(ran_second.order, ran_first.order, "{name}");
        assert_eq!(ran_second.inboxes, ran_first.inboxes, "{name}");
        let (first, second) = (ran_first.report, ran_second.report);
        assert_eq!(second.to_string(), first.to_string(), "{name}");
        assert!(second.operations().eq(first.operations()), "{name}");
        let empty = StandardUse { in_use: 0, peak: 0 };
        let widened = first.boards().map(|row| BoardRow {
            standard: Some(empty),
            ..row
        });
        assert!(second.boards().eq(widened), "{name}");
    }
}
