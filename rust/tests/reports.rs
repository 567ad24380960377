//! Reports read by name (document 01, The report), and bytes that are none.

mod common;

use common::sample;
use jamturret::limits::BSEND_OVERHEAD;
use jamturret::{
    follow, run, Board, BoardRow, BoardState, Edition, Mode, Operation, OperationRow,
    OperationState, ReceiveOperation, Report, ReportError, SendOperation, Sheet, Source,
    StandardUse, Status, Stop, Verdict,
};

/// The report of bench job 1, as document 01 prints it.
const CASE_1: [u8; 56] = [
    0x01, 0xFF, 0xFF, 0xFF, 0x04, 0x00, 0x02, 0x00, 0x02, 0x00, 0x00, 0x00, 0x00, 0x00, 0x00, 0x00,
    0x01, 0x00, 0x00, 0x00, 0x00, 0x00, 0x02, 0x00, //
    0x01, 0x00, 0x00, 0x00, 0x00, 0x00, 0x02, 0x00, //
    0x03, 0x00, 0x01, 0x00, 0xFF, 0xFF, 0xFF, 0xFF, 0x00, 0x00, 0x00, 0x00, //
    0x03, 0x00, 0x00, 0x00, 0x00, 0x00, 0x07, 0x00, 0x03, 0x00, 0x00, 0x00,
];

const FINISHED_BOARD: BoardRow = BoardRow {
    finished: 1,
    in_use: 0,
    peak: 0,
    state: BoardState::Finished,
    standard: None,
};

fn ran(name: &str) -> Report {
    run(sample(name), None).expect("the samples pass").report
}

#[test]
fn case_1() {
    let report = Report::parse(&CASE_1).expect("a report");
    assert_eq!(report, ran("handshake"));
    assert_eq!(report.bytes(), CASE_1);
    assert_eq!(report.edition(), Edition::First);
    assert_eq!(report.verdict(), Verdict::Finished);
    assert_eq!((report.stop(), report.steps()), (None, 4));
    assert_eq!(report.boards().collect::<Vec<_>>(), [FINISHED_BOARD; 2]);
    let send = OperationRow {
        state: OperationState::Matched,
        partner: Some(1),
        status: None,
        complete: false,
    };
    let receive = OperationRow {
        state: OperationState::Matched,
        partner: Some(0),
        status: Some(Status {
            source: 0,
            tag: 7,
            length: 3,
            cut: false,
        }),
        complete: false,
    };
    assert_eq!(report.operations().collect::<Vec<_>>(), [send, receive]);
    assert_eq!(report.operation(1), Some(receive));
    assert_eq!(report.operation(2), None);
    assert_eq!(report.board(1), Some(FINISHED_BOARD));
    assert_eq!(report.board(2), None);
}

/// Every figure with a number of its own, and every state: the fifth one of a
/// wait, a probe and a status query.
#[rustfmt::skip]
const FIGURES: [u8; 116] = [
    3, 1, 4, 0, 0x06, 0x05, 2, 0, 7, 0, 0x08, 0x07, 0x0A, 0x09, 0x0C, 0x0B,
    0x02, 0x01, 0x04, 0x03, 0x06, 0x05, 1, 0,
    0x08, 0x07, 0x0A, 0x09, 0x0C, 0x0B, 0, 0,
    0, 0, 255, 255, 255, 255, 255, 255, 0, 0, 0, 0,
    1, 0, 255, 255, 255, 255, 255, 255, 0, 0, 0, 0,
    2, 0, 255, 255, 255, 255, 255, 255, 0, 0, 0, 0,
    5, 0, 255, 255, 255, 255, 255, 255, 0, 0, 0, 0,
    3, 1, 4, 0, 1, 0, 0x0E, 0x0D, 0x00, 0x10, 0, 0,
    5, 0, 255, 255, 1, 0, 0xFF, 0x7F, 0x00, 0x10, 0, 0,
    5, 0, 255, 255, 255, 255, 255, 255, 1, 0, 0, 0,
];

#[test]
fn header_and_boards_by_hand() {
    let report = Report::parse(&FIGURES).expect("a report");
    assert_eq!(report.verdict(), Verdict::Overflow);
    let stop = Stop {
        rank: 1,
        operation: 4,
    };
    assert_eq!((report.stop(), report.steps()), (Some(stop), 0x0506));
    assert_eq!(report.pending_messages(), 0x0708);
    assert_eq!(report.pending_receives(), 0x090A);
    assert_eq!(report.cut_messages(), 0x0B0C);
    assert_eq!(
        report.to_string(),
        "overflow by operation 4 of rank 1; steps 1286, \
         pending messages 1800, pending receives 2314, cut messages 2828"
    );
    let able = BoardRow {
        finished: 0x0102,
        in_use: 0x0304,
        peak: 0x0506,
        state: BoardState::Able,
        standard: None,
    };
    let neither = BoardRow {
        finished: 0x0708,
        in_use: 0x090A,
        peak: 0x0B0C,
        state: BoardState::Neither,
        standard: None,
    };
    assert_eq!(report.boards().collect::<Vec<_>>(), [able, neither]);
}

/// A report of two boards and an operation, in edition 2: the standard figures
/// stand behind each board's zero byte (document 02, K6).
#[rustfmt::skip]
const SECOND: [u8; 52] = [
    0, 255, 255, 255, 1, 0, 2, 0, 1, 0, 1, 0, 0, 0, 0, 0,
    0x02, 0x01, 0x04, 0x03, 0x06, 0x05, 1, 0, 0x08, 0x07, 0x0A, 0x09,
    0x0C, 0x0B, 0x0E, 0x0D, 0x10, 0x0F, 2, 0, 0x12, 0x11, 0x14, 0x13,
    2, 0, 255, 255, 255, 255, 255, 255, 0, 0, 0, 0,
];

#[test]
fn edition_2_by_hand() {
    let report = Report::parse(&SECOND).expect("a report");
    assert_eq!((report.edition(), report.steps()), (Edition::Second, 1));
    let able = BoardRow {
        finished: 0x0102,
        in_use: 0x0304,
        peak: 0x0506,
        state: BoardState::Able,
        standard: Some(StandardUse {
            in_use: 0x0708,
            peak: 0x090A,
        }),
    };
    let finished = BoardRow {
        finished: 0x0B0C,
        in_use: 0x0D0E,
        peak: 0x0F10,
        state: BoardState::Finished,
        standard: Some(StandardUse {
            in_use: 0x1112,
            peak: 0x1314,
        }),
    };
    assert_eq!(report.boards().collect::<Vec<_>>(), [able, finished]);
    let states: Vec<_> = report.operations().map(|row| row.state).collect();
    assert_eq!(states, [OperationState::Buffered]);
    assert_eq!(report.bytes(), SECOND);
}

/// The report of edition 2 with one byte changed: its rows are looked at as
/// those of edition 1, and stand further behind.
#[test]
fn foreign_bytes_of_edition_2() {
    let changes = [
        ("board state 3", 22, 3, ReportError::Board { rank: 0 }),
        ("not zero", 35, 1, ReportError::Board { rank: 1 }),
        ("state 4", 40, 4, ReportError::Operation { index: 0 }),
        ("not zero", 51, 1, ReportError::Operation { index: 0 }),
    ];
    for (name, at, value, error) in changes {
        let mut bytes = SECOND;
        bytes[at] = value;
        assert_eq!(Report::parse(&bytes), Err(error), "{name}");
    }
}

#[test]
fn operations_by_hand() {
    let report = Report::parse(&FIGURES).expect("a report");
    let without = |state| OperationRow {
        state,
        partner: None,
        status: None,
        complete: false,
    };
    let matched = OperationRow {
        state: OperationState::Matched,
        partner: Some(4),
        status: Some(Status {
            source: 1,
            tag: 0x0D0E,
            length: 4_096,
            cut: true,
        }),
        complete: false,
    };
    let found = Status {
        source: 1,
        tag: 32_767,
        length: 4_096,
        cut: false,
    };
    let probe = OperationRow {
        status: Some(found),
        ..without(OperationState::Ended)
    };
    let query = OperationRow {
        complete: true,
        ..without(OperationState::Ended)
    };
    assert_eq!(
        report.operations().collect::<Vec<_>>(),
        [
            without(OperationState::NotEntered),
            without(OperationState::Pending),
            without(OperationState::Buffered),
            without(OperationState::Ended),
            matched,
            probe,
            query
        ]
    );
    let probed: Vec<_> = report.operations().map(|row| row.probed()).collect();
    assert_eq!(probed, [None, None, None, None, None, Some(found), None]);
    let queried: Vec<_> = report.operations().map(|row| row.queried()).collect();
    let (unfinished, ended) = (None, Some(false));
    assert_eq!(queried[..3], [unfinished; 3]);
    assert_eq!(queried[3..], [ended, None, None, Some(true)]);
}

/// What sheets/README.md says of these reports.
#[test]
fn verdicts() {
    let buffered = ran("block-buffered");
    assert_eq!(buffered.verdict(), Verdict::Finished);
    assert_eq!((buffered.steps(), buffered.pending_messages()), (2, 1));
    assert_eq!(buffered.pending_receives(), 0);
    let sender = buffered.board(0).expect("rank 0");
    assert_eq!((sender.in_use, sender.peak), (40, 40));
    let row = buffered.operation(0).expect("operation 0");
    assert_eq!(row.state, OperationState::Buffered);

    let synchronous = ran("block-synchronous");
    assert_eq!(synchronous.verdict(), Verdict::Deadlock);
    assert_eq!(
        (synchronous.steps(), synchronous.pending_messages()),
        (1, 1)
    );
    let sender = synchronous.board(0).expect("rank 0");
    assert_eq!(sender.state, BoardState::Neither);

    let stop = Some(Stop {
        rank: 0,
        operation: 0,
    });
    for (name, verdict) in [
        ("intertwined-overflow", Verdict::Overflow),
        ("ready", Verdict::NotReady),
    ] {
        let report = ran(name);
        assert_eq!((report.verdict(), report.stop()), (verdict, stop), "{name}");
    }
    let early = follow(sample("ready"), &[1], None).expect("rank 1 is able");
    assert_eq!(early.report.verdict(), Verdict::StillAble);
    assert_eq!(early.report.pending_receives(), 1);
    assert_eq!(
        ran("nonblocking").operation(7).map(|row| row.state),
        Some(OperationState::Ended)
    );

    let cut = run(sample("cut"), Some(&[9; 6])).expect("it passes");
    assert_eq!(cut.inboxes, [&[][..], &[11, 12, 13, 14, 9, 9]]);
    let cut = cut.report;
    assert_eq!((cut.verdict(), cut.cut_messages()), (Verdict::Finished, 1));
    let status = cut.operation(1).and_then(|row| row.status);
    let status = status.expect("matched");
    assert_eq!((status.cut, status.length), (true, 5));
}

/// An operation that nobody answers, and the wait for it. Only a buffered send
/// is complete then: the job finishes, and its message is pending. With any
/// other the wait hangs (document 02, K7).
#[test]
fn unanswered_requests() {
    use OperationState::{Buffered, Pending};
    let send = |mode| Operation::Send(SendOperation::new(mode, 1).nonblocking(0));
    let receive = ReceiveOperation::new(Source::Rank(1)).nonblocking(0);
    for (operation, verdict, state, pending) in [
        (send(Mode::Buffered), Verdict::Finished, Buffered, (1, 0)),
        (send(Mode::Standard), Verdict::Deadlock, Pending, (1, 0)),
        (send(Mode::Synchronous), Verdict::Deadlock, Pending, (1, 0)),
        (receive.into(), Verdict::Deadlock, Pending, (0, 1)),
    ] {
        let board = Board::new().attached(BSEND_OVERHEAD).then(operation);
        let board = board.then(Operation::Wait { slot: 0 });
        let sheet = Sheet::build(1, vec![board, Board::new()], &[]);
        let ran = run(sheet.expect("every number fits"), None);
        let report = ran.expect("the sheet passes").report;
        assert_eq!(report.verdict(), verdict, "{operation:?}");
        assert_eq!(report.operation(0).map(|row| row.state), Some(state));
        let told = (report.pending_messages(), report.pending_receives());
        assert_eq!(told, pending, "{operation:?}");
    }
}

#[test]
fn words() {
    let verdicts = [
        (Verdict::StillAble, "still able"),
        (Verdict::Finished, "finished"),
        (Verdict::Deadlock, "deadlock"),
        (Verdict::Overflow, "overflow"),
        (Verdict::NotReady, "not ready"),
    ];
    for (number, (verdict, words)) in verdicts.into_iter().enumerate() {
        assert_eq!(
            (verdict as usize, verdict.to_string()),
            (number, words.into())
        );
    }
    let boards = [BoardState::Neither, BoardState::Able, BoardState::Finished];
    let boards = boards.map(|state| state.to_string());
    assert_eq!(boards, ["neither finished nor able", "able", "finished"]);
    let operations = [
        OperationState::NotEntered,
        OperationState::Pending,
        OperationState::Buffered,
        OperationState::Matched,
        OperationState::Ended,
    ];
    let operations = operations.map(|state| state.to_string());
    let expected = [
        "not entered",
        "pending",
        "buffered",
        "matched",
        "wait, probe or query finished",
    ];
    assert_eq!(operations, expected);
}

/// The report of case 1 with one byte changed.
#[test]
fn foreign_bytes() {
    const HEADER: ReportError = ReportError::Header;
    let board = |rank| ReportError::Board { rank };
    let operation = |index| ReportError::Operation { index };
    let length = |needed, needed_in_second| ReportError::Length {
        given: 56,
        needed,
        needed_in_second,
    };
    let changes = [
        ("verdict 5", 0, 5, HEADER),
        ("overflow without a stop", 0, 3, HEADER),
        ("a stop rank under finished", 1, 0, HEADER),
        ("a stop operation under finished", 3, 0, HEADER),
        ("no boards", 6, 0, HEADER),
        ("17 boards", 6, 17, HEADER),
        ("2,050 operations", 9, 8, HEADER),
        ("three boards", 6, 3, length(64, 76)),
        ("one operation", 8, 1, length(44, 52)),
        ("board state 3", 22, 3, board(0)),
        ("not zero after a board state", 31, 1, board(1)),
        ("operation state 4", 32, 4, operation(0)),
        ("pending with a partner", 32, 1, operation(0)),
        ("cut without a status", 33, 1, operation(0)),
        ("partner 2 of 2", 34, 2, operation(0)),
        ("not zero after a row", 42, 1, operation(0)),
        ("pending with a status", 44, 1, operation(1)),
        ("cut 2", 45, 2, operation(1)),
        ("source 2 of 2", 48, 2, operation(1)),
        ("tag 32,775", 51, 0x80, operation(1)),
        ("length 4,099", 53, 0x10, operation(1)),
        ("finished with a partner", 44, 5, operation(1)),
    ];
    for (name, at, value, error) in changes {
        let mut bytes = CASE_1;
        bytes[at] = value;
        assert_eq!(Report::parse(&bytes), Err(error), "{name}");
    }
}

/// Rows that no probe and no status query has: those of the figures with one
/// byte changed.
#[test]
fn foreign_answers() {
    const PROBE: usize = 5;
    const QUERY: usize = 6;
    let changes = [
        ("a probe that cuts", PROBE, 1, 1),
        ("a probe with partner 255", PROBE, 3, 0),
        ("a probe of rank 2 of 2", PROBE, 4, 2),
        ("a probe of tag 65,535", PROBE, 7, 0xFF),
        ("a probe of length 4,097", PROBE, 8, 1),
        ("a probe that is pending", PROBE, 0, 1),
        ("not zero after a probe", PROBE, 10, 1),
        ("a query that cuts", QUERY, 1, 1),
        ("a query with partner 255", QUERY, 3, 0),
        ("a query with a source", QUERY, 5, 0),
        ("a query with a tag", QUERY, 7, 0),
        ("a query that told 2", QUERY, 8, 2),
        ("a query that told 257", QUERY, 9, 1),
        ("a query that is not entered", QUERY, 0, 0),
        ("a query that is buffered", QUERY, 0, 2),
    ];
    for (name, index, at, value) in changes {
        let mut bytes = FIGURES;
        bytes[32 + 12 * index + at] = value;
        let error = ReportError::Operation { index };
        assert_eq!(Report::parse(&bytes), Err(error), "{name}");
    }
}

/// Stops that a report cannot have: a rank or an operation that is none.
#[test]
fn foreign_stops() {
    for (rank, operation, known) in [(1, 1, true), (2, 1, false), (1, 2, false), (255, 1, false)] {
        let mut bytes = CASE_1;
        bytes[..4].copy_from_slice(&[4, rank, operation, 0]);
        assert_eq!(Report::parse(&bytes).is_ok(), known, "{rank} {operation}");
    }
}

#[test]
fn foreign_lengths() {
    let longer = [&CASE_1[..], &[0]].concat();
    let second = [&SECOND[..], &[0]].concat();
    for (bytes, given, needed, needed_in_second, or) in [
        (&CASE_1[..0], 0, 16, 16, ""),
        (&CASE_1[..15], 15, 16, 16, ""),
        (&CASE_1[..16], 16, 56, 64, ", or 64 in edition 2"),
        (&CASE_1[..55], 55, 56, 64, ", or 64 in edition 2"),
        (&longer, 57, 56, 64, ", or 64 in edition 2"),
        (&SECOND[..51], 51, 44, 52, ", or 52 in edition 2"),
        (&second, 53, 44, 52, ", or 52 in edition 2"),
    ] {
        let error = ReportError::Length {
            given,
            needed,
            needed_in_second,
        };
        assert_eq!(Report::parse(bytes), Err(error));
        assert_eq!(
            error.to_string(),
            format!("{given} bytes, where the report has {needed}{or}")
        );
    }
}
