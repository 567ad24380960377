//! Every refusal by name, with its number, its place and its words (document
//! 01, When the desk says no); the premise likewise.

mod common;

use common::{mend_crc, sample};
use jamturret::lent::{self, Answer};
use jamturret::limits::{order_room, report_room, BSEND_OVERHEAD, SCRATCH_ROOM};
use jamturret::{
    check, follow, premise, run, Board, Edition, Mode, Operation, Premise, ProbeOperation,
    ReceiveOperation, Refusal, Room, SendOperation, Sheet, Source,
};

/// A refusal with its number, its place and its words.
fn is(refusal: Refusal, named: Refusal, number: u32, place: u64, words: &str) {
    assert_eq!(refusal, named);
    assert_eq!((refusal.number(), refusal.place()), (number, place));
    let whole = format!("refusal {number}, place {place}: {words}");
    assert_eq!(refusal.to_string(), whole);
}

fn refused(sheet: impl AsRef<[u8]>) -> Refusal {
    check(sheet).expect_err("the sheet is refused")
}

fn built(boards: Vec<Board>) -> Sheet {
    Sheet::build(1, boards, &[]).expect("every number fits")
}

fn send(to: usize) -> SendOperation {
    SendOperation::new(Mode::Standard, to)
}

#[test]
fn of_the_whole_sheet() {
    is(
        refused([0; 15]),
        Refusal::Short,
        1,
        0,
        "the sheet is under 16 bytes",
    );
    is(
        refused(built(vec![Board::new(); 17])),
        Refusal::Range,
        2,
        0,
        "the number of boards, communicators, operations or payload bytes is outside its range",
    );
    let mut longer = sample("handshake");
    longer.push(0);
    is(
        refused(longer),
        Refusal::Layout,
        3,
        0,
        "an offset, or the sheet's length, differs from what the sizes give in either edition",
    );
    let mut damaged = sample("handshake");
    damaged[14] ^= 1;
    is(refused(damaged), Refusal::Crc, 4, 0, "the CRC differs");
}

#[test]
fn of_boards() {
    let boards = vec![Board::new(), Board::new().attached(16_385), Board::new()];
    let roomy = vec![Board::new(), Board::new().standard_room(16_385)];
    let roomy = Sheet::build_in(Edition::Second, 1, roomy, &[]);
    for sheet in [built(boards), roomy.expect("every number fits")] {
        is(
            refused(sheet),
            Refusal::Board { rank: 1 },
            5,
            1,
            "the board entry of rank 1 is wrong: \
             its first operation, attached size, inbox or standard room",
        );
    }

    // The one operation is rank 1's. With its count 0 both entries are right.
    let mut sheet = built(vec![Board::new(), Board::new().then(send(0))])
        .bytes()
        .to_vec();
    sheet[26] = 0;
    mend_crc(&mut sheet);
    is(
        refused(sheet),
        Refusal::Counts { boards: 2 },
        5,
        2,
        "the counts of all 2 boards do not total the number of operations",
    );
}

#[test]
fn of_operations() {
    let boards = vec![
        Board::new().then(send(1)),
        Board::new().then(send(0)).then(send(2)),
    ];
    is(
        refused(built(boards)),
        Refusal::Operation { index: 2 },
        6,
        2,
        "a field of operation 2 is wrong",
    );
    for not_held in [
        Operation::Wait { slot: 3 },
        Operation::StatusQuery { slot: 3 },
    ] {
        let board = Board::new().then(send(0)).then(not_held);
        is(
            refused(built(vec![board])),
            Refusal::Request { index: 1 },
            7,
            1,
            "operation 1 takes a slot that is held, waits for or queries one that is not, \
             shares an area with a held one, or is never waited for",
        );
    }
}

/// Case 1 has two boards, two operations and an inbox of four bytes. Each room
/// in turn is lent one byte short.
#[test]
fn of_rooms() {
    let sheet = sample("handshake");
    let lengths = [4, report_room(2, 2), order_room(2), SCRATCH_ROOM];
    let rooms = [
        (Room::Inbox, "the inbox room is short"),
        (Room::Report, "the report room is short"),
        (Room::OrderOut, "the order-out room is short"),
        (Room::Scratch, "the scratch room is short"),
    ];
    for (short, (room, words)) in rooms.into_iter().enumerate() {
        let mut lent = lengths.map(|length| vec![0; length]);
        lent[short].pop();
        let [inbox, report, order, scratch] = &mut lent;
        let answer = lent::run(&sheet, inbox, report, order, scratch);
        let refusal = answer.result(&sheet).expect_err("a room is short");
        is(refusal, Refusal::Room(room), 8, short as u64 + 1, words);
    }
    let refusal = run(&sheet, Some(&[0; 3])).expect_err("the inbox has four bytes");
    is(
        refusal,
        Refusal::Room(Room::Inbox),
        8,
        1,
        "the inbox room is short",
    );
}

/// Both boards wait for the other after a step each; rank 2 does not exist.
#[test]
fn of_orders() {
    let sheet = sample("both-receive-first");
    for (order, index) in [(&[0, 1, 0][..], 2), (&[1, 1], 1), (&[2], 0), (&[0, 255], 1)] {
        let refusal = follow(&sheet, order, None).expect_err("not able");
        is(
            refusal,
            Refusal::Order { index },
            9,
            index as u64,
            &format!(
                "index {index} of the order names a rank that is not able, or no rank of the sheet"
            ),
        );
    }
}

/// Whatever a library answers, the refusal gives number and place back; only
/// 0 and 0 is success.
#[test]
fn every_answer_is_kept() {
    let sheet = sample("handshake");
    for number in (0..40).chain([u32::MAX]) {
        for place in (0..20).chain([65_535, 65_536, u64::MAX]) {
            let answer = Answer::refusal(number, place);
            match answer.result(&sheet) {
                Ok(()) => assert_eq!(answer, Answer::SUCCESS),
                Err(refusal) => {
                    assert_eq!((refusal.number(), refusal.place()), (number, place));
                }
            }
            let said = match Premise::of_answer(answer, &sheet) {
                Ok(premise) => (premise.number(), premise.place()),
                Err(refusal) => (refusal.number(), refusal.place()),
            };
            assert_eq!(said, (number, place));
        }
    }
}

#[test]
fn unknown_answers() {
    let unknown = [(0, 1), (1, 1), (4, 1), (8, 0), (8, 5), (10, 0), (20, 0)];
    for (number, place) in unknown {
        let refusal = Answer::refusal(number, place).result(&[]);
        is(
            refusal.expect_err("not 0 and 0"),
            Refusal::Unknown { number, place },
            number,
            place,
            "not an answer that the rules have",
        );
    }
}

/// The premise of one board that is followed by nothing, with its words.
fn says(board: Board, premised: Premise, number: u32, place: u64, words: &str) {
    let sheet = built(vec![Board::new().then(send(1)), board]);
    let said = premise(&sheet).expect("the sheet passes");
    assert_eq!(said, premised);
    assert_eq!((said.number(), said.place()), (number, place));
    assert_eq!(said.holds(), number == 0);
    assert_eq!(said.to_string(), words);
}

#[test]
fn premises() {
    says(Board::new(), Premise::Holds, 0, 0, "holds for every order");
    let any_source = [
        Operation::from(ReceiveOperation::new(Source::Any)),
        ProbeOperation::new(Source::Any).into(),
    ];
    for operation in any_source {
        says(
            Board::new().then(operation),
            Premise::AnySource { operation: 1 },
            20,
            1,
            "number 20, place 1: another order may end otherwise: \
             operation 1 receives or probes from any source",
        );
    }
    says(
        Board::new().then(ProbeOperation::new(Source::Rank(0))),
        Premise::Holds,
        0,
        0,
        "holds for every order",
    );
    says(
        Board::new()
            .then(send(0))
            .then(SendOperation::new(Mode::Ready, 0)),
        Premise::ReadySend { operation: 2 },
        21,
        2,
        "number 21, place 2: another order may end otherwise: operation 2 is a ready send",
    );
    says(
        Board::new()
            .then(send(0).nonblocking(4))
            .then(Operation::StatusQuery { slot: 4 })
            .then(Operation::Wait { slot: 4 }),
        Premise::StatusQuery { operation: 2 },
        23,
        2,
        "number 23, place 2: another order may end otherwise: operation 2 is a status query",
    );
}

/// Two buffered sends of two bytes each need 2 + 32 twice.
#[test]
fn uncovered_buffer() {
    let send = SendOperation::new(Mode::Buffered, 0).bytes(0, 2);
    let said = |attached| {
        let board = Board::new().attached(attached).then(send).then(send);
        let sheet = Sheet::build(1, vec![Board::new(), board], &[0; 2]);
        premise(sheet.expect("every number fits")).expect("the sheet passes")
    };
    assert_eq!(said(68), Premise::Holds);
    assert_eq!(said(2 * (2 + BSEND_OVERHEAD)), Premise::Holds);
    assert_eq!(said(2 * (2 + BSEND_OVERHEAD) - 1).number(), 22);
    assert_eq!(said(67), Premise::Uncovered { rank: 1 });
    assert_eq!((said(67).number(), said(67).place()), (22, 1));
    assert_eq!(
        said(67).to_string(),
        "number 22, place 1: another order may end otherwise: \
         the attached buffer of rank 1 does not cover its buffered sends"
    );
}

/// Two standard sends of two bytes each need four bytes, or no room at all.
#[test]
fn uncovered_standard_room() {
    let send = SendOperation::new(Mode::Standard, 0).bytes(0, 2);
    let said = |room| {
        let board = Board::new().standard_room(room).then(send).then(send);
        let boards = vec![Board::new().standard_room(1), board];
        let sheet = Sheet::build_in(Edition::Second, 1, boards, &[0; 2]);
        premise(sheet.expect("every number fits")).expect("the sheet passes")
    };
    assert_eq!((said(0), said(4)), (Premise::Holds, Premise::Holds));
    for short in [said(1), said(3)] {
        assert_eq!(short, Premise::StandardUncovered { rank: 1 });
        assert_eq!((short.number(), short.place()), (24, 1));
        assert_eq!(
            short.to_string(),
            "number 24, place 1: another order may end otherwise: \
             the standard room of rank 1 does not cover its standard sends"
        );
    }
}

#[test]
fn premise_refuses_as_check_does() {
    let mut damaged = sample("handshake");
    damaged[14] ^= 1;
    assert_eq!(premise(&damaged), Err(Refusal::Crc));
}
