//! Probes and status queries (document 02, K9): what their rows tell, when a
//! probe's board is able, which fields they have, and the order that they leave
//! free.

mod common;

use common::{mend_crc, sample};
use jamturret::{
    check, follow, premise, run, Board, BoardState, Mode, Operation, OperationState, Outcome,
    Premise, ProbeOperation, ReceiveOperation, Refusal, SendOperation, Sheet, Source, Status, Tag,
    Verdict,
};

fn ran(sheet: impl AsRef<[u8]>) -> Outcome {
    run(sheet, None).expect("the sheet passes")
}

fn followed(sheet: &Sheet, order: &[u8]) -> Outcome {
    follow(sheet, order, None).expect("each rank is able")
}

fn built(boards: Vec<Board>) -> Sheet {
    Sheet::build(1, boards, b"JAMTURRET").expect("every number fits")
}

/// What a whole message is told by.
fn message(source: usize, tag: usize, length: usize) -> Option<Status> {
    let cut = false;
    Some(Status {
        source,
        tag,
        length,
        cut,
    })
}

/// What sheets/README.md says of it: each probe tells what the receive behind
/// it gets, and no state but its own.
#[test]
fn probe_sizes_receive() {
    let outcome = ran(sample("probe-sizes-receive"));
    let report = &outcome.report;
    assert_eq!(report.verdict(), Verdict::Finished);
    assert_eq!(outcome.order, [0, 0, 0, 1, 1, 1, 1, 1, 0, 1]);
    assert_eq!(report.board(1).map(|board| board.finished), Some(4));
    assert_eq!(report.board(0).map(|board| board.peak), Some(37));
    let rows: Vec<_> = report.operations().collect();
    assert_eq!(rows[2].probed(), message(0, 2, 5));
    assert_eq!(rows[4].probed(), message(0, 1, 3));
    for (probe, receive, partner) in [(2, 3, 0), (4, 5, 1)] {
        assert_eq!(rows[probe].state, OperationState::Ended);
        assert_eq!((rows[probe].partner, rows[probe].queried()), (None, None));
        assert_eq!(rows[receive].status, rows[probe].probed());
        assert_eq!(rows[receive].partner, Some(partner));
    }
    assert_eq!(
        outcome.inboxes,
        [&[][..], &[11, 12, 13, 14, 15, 16, 17, 18]]
    );
    let sheet = sample("probe-sizes-receive");
    assert_eq!(premise(sheet), Ok(Premise::Holds));
}

/// Rank 0 is finished and nothing is pending, and rank 1 probes for a second
/// message.
#[test]
fn hangs_on_probe() {
    let sheet = sample("hangs-on-probe");
    let report = ran(&sheet).report;
    assert_eq!((report.verdict(), report.steps()), (Verdict::Deadlock, 5));
    assert_eq!(
        (report.pending_messages(), report.pending_receives()),
        (0, 0)
    );
    let states: Vec<_> = report.boards().map(|board| board.state).collect();
    assert_eq!(states, [BoardState::Finished, BoardState::Neither]);
    let [first, second] = [1, 3].map(|index| report.operation(index).expect("a row"));
    assert_eq!(first.probed(), message(0, 1, 3));
    assert_eq!(second.state, OperationState::NotEntered);
    assert_eq!((second.probed(), second.queried()), (None, None));
    let refusal = follow(&sheet, &[0, 1, 1, 0, 1, 1], None);
    assert_eq!(refusal, Err(Refusal::Order { index: 5 }));
    assert_eq!(premise(&sheet), Ok(Premise::Holds));
}

/// Run asks before rank 1 sends, another order behind it.
#[test]
fn query_before_and_after() {
    let sheet = Sheet::parse(&sample("query-before-and-after")).expect("it passes");
    let told = |outcome: &Outcome| {
        let row = |index| outcome.report.operation(index).expect("a row");
        [row(1).queried(), row(3).queried()]
    };
    let first = ran(&sheet);
    assert_eq!(first.report.verdict(), Verdict::Finished);
    assert_eq!(first.order, [0, 0, 0, 1, 1, 1, 0, 0, 0, 1]);
    assert_eq!(told(&first), [Some(false), Some(true)]);
    assert_eq!(first.inboxes, [&[11, 12, 13][..], &[]]);
    let later = followed(&sheet, &[1, 0, 0, 0, 1, 1, 0, 0, 0, 1]);
    assert_eq!(later.report.verdict(), Verdict::Finished);
    assert_eq!(told(&later), [Some(true), Some(true)]);
    assert_eq!(later.inboxes, first.inboxes);
    let early = followed(&sheet, &[0, 0]);
    assert_eq!(told(&early), [Some(false), None]);
    assert_eq!(premise(&sheet), Ok(Premise::StatusQuery { operation: 1 }));
}

/// Asked at once, before rank 1 has taken a step: only a buffered send is
/// complete.
#[test]
fn query_of_each_kind() {
    let send = |mode| Operation::from(SendOperation::new(mode, 1).nonblocking(7));
    let receive = ReceiveOperation::new(Source::Rank(1)).nonblocking(7);
    for (operation, complete) in [
        (send(Mode::Standard), false),
        (send(Mode::Buffered), true),
        (send(Mode::Synchronous), false),
        (receive.into(), false),
    ] {
        let asks = Board::new()
            .attached(32)
            .then(operation)
            .then(Operation::StatusQuery { slot: 7 })
            .then(Operation::Wait { slot: 7 });
        let report = followed(&built(vec![asks, Board::new()]), &[0, 0]).report;
        let row = report.operation(1).expect("a row");
        assert_eq!(row.queried(), Some(complete), "{operation:?}");
        assert_eq!(report.board(0).map(|board| board.finished), Some(2));
    }
}

/// Of the numbers that a sheet has the lowest is told, also behind a query.
#[test]
fn lowest_premise_first() {
    let send = |mode| Operation::from(SendOperation::new(mode, 0));
    let query = Operation::StatusQuery { slot: 0 };
    for (last, premised) in [
        (
            ProbeOperation::new(Source::Any).into(),
            Premise::AnySource { operation: 3 },
        ),
        (send(Mode::Ready), Premise::ReadySend { operation: 3 }),
        (send(Mode::Buffered), Premise::Uncovered { rank: 0 }),
        (send(Mode::Standard), Premise::StatusQuery { operation: 1 }),
    ] {
        let asks = Board::new()
            .then(SendOperation::new(Mode::Standard, 0).nonblocking(0))
            .then(query)
            .then(Operation::Wait { slot: 0 })
            .then(last);
        assert_eq!(premise(built(vec![asks])), Ok(premised));
    }
}

/// Ranks 0 and 1 send to rank 2, which probes any source and receives what
/// rank 1 sent. Where the probe told rank 1's message, the receive gets it,
/// though another message of rank 1 and one of rank 0 have arrived since.
#[test]
fn told_message_is_received() {
    let send = |offset, length| {
        let send = SendOperation::new(Mode::Buffered, 2).tag(5);
        send.bytes(offset, length)
    };
    let probe = ProbeOperation::new(Source::Any).tag(Tag::Any);
    let receive = ReceiveOperation::new(Source::Rank(1)).tag(Tag::Is(5));
    let sheet = built(vec![
        Board::new().attached(64).then(send(0, 1)),
        Board::new().attached(128).then(send(1, 2)).then(send(3, 3)),
        Board::new().inbox(2).then(probe).then(receive.area(0, 2)),
    ]);
    let told = |order: &[u8]| {
        let report = followed(&sheet, order).report;
        let rows = [3, 4].map(|index| report.operation(index).expect("a row"));
        (rows[0].probed(), rows[1].status)
    };
    assert_eq!(told(&[1, 2]), (message(1, 5, 2), None));
    let received = (message(1, 5, 2), message(1, 5, 2));
    assert_eq!(told(&[1, 2, 0, 1, 1, 2]), received);
    let other = (message(0, 5, 1), message(1, 5, 2));
    assert_eq!(told(&[0, 1, 2, 1, 1, 2]), other);
    assert_eq!(premise(&sheet), Ok(Premise::AnySource { operation: 3 }));
}

/// A message of each mode that can be pending: the probe leaves it so, with
/// what it is charged.
#[test]
fn probe_takes_nothing() {
    for (mode, in_use) in [
        (Mode::Standard, 0),
        (Mode::Buffered, 2 + 32),
        (Mode::Synchronous, 0),
    ] {
        let send = SendOperation::new(mode, 1).bytes(0, 2);
        let sheet = built(vec![
            Board::new().attached(34).then(send),
            Board::new().then(ProbeOperation::new(Source::Rank(0))),
        ]);
        let before = followed(&sheet, &[0]).report;
        let after = followed(&sheet, &[0, 1]).report;
        assert_eq!(
            after.operation(1).and_then(|row| row.probed()),
            message(0, 0, 2)
        );
        assert_eq!(after.operation(0), before.operation(0));
        assert_eq!(after.board(0), before.board(0));
        assert_eq!(after.board(0).map(|board| board.in_use), Some(in_use));
        assert_eq!((after.pending_messages(), after.cut_messages()), (1, 0));
        assert_eq!((before.steps(), after.steps()), (1, 2));
        assert_eq!(after.board(1).map(|board| board.finished), Some(1));
    }
}

/// Rank 1 could probe and query, but rank 0 stops the job.
#[test]
fn not_after_a_stop() {
    let oneself = SendOperation::new(Mode::Standard, 1).nonblocking(0);
    for next in [
        Operation::from(ProbeOperation::new(Source::Rank(1))),
        Operation::StatusQuery { slot: 0 },
    ] {
        let asks = Board::new()
            .then(oneself)
            .then(next)
            .then(Operation::Wait { slot: 0 });
        let stops = Board::new().then(SendOperation::new(Mode::Ready, 1));
        let sheet = built(vec![stops, asks]);
        let able = followed(&sheet, &[1]).report;
        assert_eq!(
            able.board(1).map(|board| board.state),
            Some(BoardState::Able)
        );
        let stopped = followed(&sheet, &[1, 0]).report;
        assert_eq!(stopped.verdict(), Verdict::NotReady);
        let state = stopped.operation(2).map(|row| row.state);
        assert_eq!(state, Some(OperationState::NotEntered));
        let refusal = follow(&sheet, &[1, 0, 1], None);
        assert_eq!(refusal, Err(Refusal::Order { index: 2 }));
    }
}

/// One byte of a probe or query that is right, and its CRC mended: each field
/// that is outside its range is refused with 6.
#[test]
fn fields() {
    let start = SendOperation::new(Mode::Standard, 0).nonblocking(0);
    let sheet = |asked: Operation| {
        let board = Board::new().then(start).then(asked);
        built(vec![board.then(Operation::Wait { slot: 0 })])
    };
    let probe = ProbeOperation::new(Source::Rank(0)).into();
    let query = Operation::StatusQuery { slot: 0 };
    // Offset and value of a byte in the operation.
    let of_both = [
        ("kind 0", 0, 0),
        ("kind 9", 0, 9),
        ("flag", 1, 1),
        ("peer", 2, 1),
        ("communicator", 4, 1),
        ("zero", 6, 1),
        ("tag 32,768", 9, 0x80),
        ("offset", 10, 1),
        ("length", 12, 1),
        ("slot 32", 14, 32),
    ];
    let of_probe = [("slot 1", 14, 1)];
    let of_query = [("tag 1", 8, 1)];
    for (operation, of_one) in [(probe, of_probe), (query, of_query)] {
        let right = sheet(operation);
        assert_eq!(check(&right), Ok(()));
        for (name, at, value) in of_both.into_iter().chain(of_one) {
            let mut bytes = right.bytes().to_vec();
            bytes[16 + 8 + 16 + at] = value;
            mend_crc(&mut bytes);
            let refusal = Refusal::Operation { index: 1 };
            assert_eq!(check(&bytes), Err(refusal), "{name} of {operation:?}");
        }
    }
}
