//! Run and follow with rooms allocated: inboxes by rank, starting bytes, the
//! order; a sheet and its bytes are the same to them.

mod common;

use common::sample;
use jamturret::limits::{MOST_BOARDS, MOST_INBOXES, MOST_OPERATIONS, MOST_REPORT_ROOM};
use jamturret::{
    check, follow, premise, run, Board, Edition, Mode, Outcome, Premise, ReceiveOperation, Refusal,
    Room, SendOperation, Sheet, Source, Verdict,
};

/// Rank 0 sends "AB" to rank 1 and "C" to rank 2. The inboxes have 3, 4 and 2
/// bytes, each area starts at 1.
fn two_receivers() -> Sheet {
    let send = |to| SendOperation::new(Mode::Standard, to);
    let receive = |capacity| ReceiveOperation::new(Source::Rank(0)).area(1, capacity);
    let boards = vec![
        Board::new()
            .inbox(3)
            .then(send(1).bytes(0, 2))
            .then(send(2).bytes(2, 1)),
        Board::new().inbox(4).then(receive(2)),
        Board::new().inbox(2).then(receive(1)),
    ];
    Sheet::build(1, boards, b"ABC").expect("every number fits")
}

/// At each step the lowest able rank: rank 0 sends, rank 1 receives, rank 0
/// has its message taken, and so on.
const ORDER: [u8; 8] = [0, 1, 0, 0, 1, 2, 0, 2];

#[test]
fn inboxes_by_rank() {
    let start = b"abcdefghi";
    let ran = run(two_receivers(), Some(start)).expect("the sheet passes");
    assert_eq!(ran.report.verdict(), Verdict::Finished);
    assert_eq!(ran.order, ORDER);
    assert_eq!(ran.inboxes, [&b"abc"[..], b"dABg", b"hC"]);

    let followed = follow(two_receivers(), &ORDER, Some(start));
    assert_eq!(followed, Ok(ran.clone()));

    let zeroed = run(two_receivers(), None).expect("the sheet passes");
    assert_eq!(zeroed.inboxes, [&b"\0\0\0"[..], b"\0AB\0", b"\0C"]);
    assert_eq!(zeroed.report, ran.report);
}

/// One byte short is refused, also where there is nothing at all; of a longer
/// start the first bytes are taken.
#[test]
fn starting_bytes_of_another_length() {
    let short = Err(Refusal::Room(Room::Inbox));
    for start in [&b""[..], b"abcdefgh"] {
        assert_eq!(run(two_receivers(), Some(start)), short);
        assert_eq!(follow(two_receivers(), &ORDER, Some(start)), short);
    }
    let exact = run(two_receivers(), Some(b"abcdefghi"));
    assert_eq!(run(two_receivers(), Some(b"abcdefghijk")), exact);
    let longer = vec![b'z'; 100_000];
    let ran = run(two_receivers(), Some(&longer)).expect("longer is accepted");
    assert_eq!(ran.inboxes, [&b"zzz"[..], b"zABz", b"zC"]);
}

#[test]
fn outcome_is_a_start() {
    let ran = run(two_receivers(), Some(b"abcdefghi")).expect("the sheet passes");
    let again = run(two_receivers(), Some(&ran.inboxes.concat()));
    assert_eq!(again.map(|outcome| outcome.inboxes), Ok(ran.inboxes));
}

#[test]
fn sheet_or_bytes() {
    let sheet = two_receivers();
    let bytes = sheet.bytes().to_vec();
    assert_eq!(check(&sheet), check(&bytes));
    assert_eq!(premise(&sheet), premise(bytes.as_slice()));
    assert_eq!(run(&sheet, None), run(&bytes, None));
    assert_eq!(follow(&sheet, &[0], None), follow(bytes, &[0], None));
}

/// Refused before any room is looked at: by the CRC, and by the last rule of
/// all, that of forgotten requests.
#[test]
fn refused_sheet() {
    let mut damaged = sample("handshake");
    damaged[14] ^= 1;
    let forgotten = sample("refused-7-forgotten");
    for (bytes, refusal) in [
        (damaged, Refusal::Crc),
        (forgotten, Refusal::Request { index: 0 }),
    ] {
        assert_eq!(run(&bytes, None), Err(refusal));
        assert_eq!(run(&bytes, Some(&[])), Err(refusal));
        assert_eq!(follow(&bytes, &[9], Some(&[])), Err(refusal));
    }
}

/// An order that stops early, and the empty one.
#[test]
fn order_stops_early() {
    for steps in 0..ORDER.len() {
        let order = &ORDER[..steps];
        let followed = follow(two_receivers(), order, None).expect("a beginning");
        assert_eq!(followed.report.verdict(), Verdict::StillAble);
        assert_eq!(followed.report.steps(), steps);
        assert_eq!(followed.order, order);
    }
}

/// Bench jobs 9 and 12 of document 01: where the premise does not hold, another
/// order ends otherwise.
#[test]
fn orders_that_end_otherwise() {
    let ready = sample("ready");
    assert_eq!(premise(&ready), Ok(Premise::ReadySend { operation: 0 }));
    let verdict = run(&ready, None).map(|outcome| outcome.report.verdict());
    assert_eq!(verdict, Ok(Verdict::NotReady));
    let followed = follow(&ready, &[1, 0, 0, 1], None);
    let verdict = followed.map(|outcome| outcome.report.verdict());
    assert_eq!(verdict, Ok(Verdict::Finished));

    let any = sample("any-source");
    assert_eq!(premise(&any), Ok(Premise::AnySource { operation: 2 }));
    let sources = |order: &[u8]| {
        let report = follow(&any, order, None).expect("all are able").report;
        let rows = [2, 3].map(|index| report.operation(index));
        rows.map(|row| row.and_then(|row| row.status).map(|status| status.source))
    };
    assert_eq!(sources(&[0, 1, 2, 2, 2, 2, 0, 1]), [Some(0), Some(1)]);
    assert_eq!(sources(&[1, 0, 2, 2, 2, 2, 0, 1]), [Some(1), Some(0)]);
}

/// As many boards, operations, inbox bytes and steps as a sheet can have: the
/// rooms are large enough for every sheet of either edition. The last byte of
/// the last inbox is the one that is written.
#[test]
fn largest_sheets() {
    for (edition, report) in [(Edition::First, 24_720), (Edition::Second, 24_784)] {
        let ran = largest_sheet(edition);
        assert_eq!(ran.report.bytes().len(), report);
    }
    assert_eq!(MOST_REPORT_ROOM, 24_784);
}

fn largest_sheet(edition: Edition) -> Outcome {
    let even = |rank| {
        let send = SendOperation::new(Mode::Standard, rank + 1).bytes(0, 1);
        Board {
            script: vec![send.into(); MOST_OPERATIONS / MOST_BOARDS],
            ..Board::new()
        }
    };
    let odd = |rank, size| {
        let receive = ReceiveOperation::new(Source::Rank(rank - 1)).area(size - 1, 1);
        Board {
            script: vec![receive.into(); MOST_OPERATIONS / MOST_BOARDS],
            ..Board::new()
        }
    };
    let size = MOST_INBOXES / MOST_BOARDS;
    let boards = (0..MOST_BOARDS).map(|rank| {
        let board = match rank % 2 {
            0 => even(rank),
            _ => odd(rank, size),
        };
        board.inbox(size)
    });
    let sheet = Sheet::build_in(edition, 1, boards.collect(), b"J");
    let sheet = sheet.expect("every number fits");
    let ran = run(&sheet, None).expect("the sheet passes");
    assert_eq!(ran.report.verdict(), Verdict::Finished);
    assert_eq!(ran.order.len(), 2 * MOST_OPERATIONS);
    let mut last = vec![0; size];
    last[size - 1] = b'J';
    assert_eq!(ran.inboxes.last(), Some(&last));
    assert_eq!(follow(&sheet, &ran.order, None).as_ref(), Ok(&ran));
    ran
}
