//! Sheets built and parsed: the bytes are those of document 01, The sheet,
//! byte by byte, and both ways agree.

mod common;

use common::parts::random_sheet;
use common::random::Random;
use common::sample;
use jamturret::limits::{
    sheet_length, MOST_ATTACHED, MOST_BOARDS, MOST_COMMUNICATORS, MOST_INBOXES, MOST_LENGTH,
    MOST_OPERATIONS, MOST_PAYLOAD, MOST_SHEET, MOST_SLOT, MOST_STANDARD_ROOM, MOST_TAG,
};
use jamturret::{
    check, Board, Edition, Mode, Operation, ProbeOperation, ReceiveOperation, Refusal,
    SendOperation, Sheet, Source, Tag,
};

fn send(mode: Mode, to: usize) -> SendOperation {
    SendOperation::new(mode, to)
}

fn receive(from: usize) -> ReceiveOperation {
    ReceiveOperation::new(Source::Rank(from))
}

/// The payload of the sample sheets: 11, 12, ..
fn payload(length: u8) -> Vec<u8> {
    (11..11 + length).collect()
}

/// The parts of a sample sheet, worked out from sheets/README.md and document
/// 01, give its bytes; and its bytes give the parts.
fn is_sample(name: &str, boards: Vec<Board>, length: u8) {
    is_sample_of(Edition::First, name, boards, length);
}

fn is_sample_of(edition: Edition, name: &str, boards: Vec<Board>, length: u8) {
    let built = Sheet::build_in(edition, 1, boards.clone(), &payload(length));
    let built = built.expect("every number fits");
    assert_eq!(built.bytes(), sample(name), "{name}");
    assert_eq!(built.edition(), edition, "{name}");
    let parsed = Sheet::parse(&sample(name)).expect("the samples pass");
    assert_eq!(parsed.edition(), edition, "{name}");
    assert_eq!(parsed.communicators(), 1, "{name}");
    assert_eq!(parsed.boards(), boards, "{name}");
    assert_eq!(parsed.payload(), payload(length), "{name}");
}

#[test]
fn blocks_that_nobody_receives() {
    for (name, mode) in [
        ("block-buffered", Mode::Buffered),
        ("block-synchronous", Mode::Synchronous),
    ] {
        let sender = Board::new()
            .attached(8 + 32)
            .then(send(mode, 1).tag(1).bytes(0, 8));
        is_sample(name, vec![sender, Board::new().inbox(8)], 8);
    }
}

#[test]
fn ready_send() {
    let sender = Board::new().then(send(Mode::Ready, 1).tag(3).bytes(0, 2));
    let receiver = receive(0).tag(Tag::Is(3)).area(0, 2);
    let receiver = Board::new().inbox(2).then(receiver);
    is_sample("ready", vec![sender, receiver], 2);
}

#[test]
fn any_source() {
    let from = |at| Board::new().then(send(Mode::Standard, 2).tag(1 + at).bytes(at, 1));
    let any = |at| ReceiveOperation::new(Source::Any).tag(Tag::Any).area(at, 1);
    let receiver = Board::new().inbox(2).then(any(0)).then(any(1));
    is_sample("any-source", vec![from(0), from(1), receiver], 2);
}

#[test]
fn nonblocking_and_waits() {
    let sends = |at| send(Mode::Standard, 1).bytes(2 * at, 2).nonblocking(at);
    let wait = |slot| Operation::Wait { slot };
    let sender = Board::new()
        .then(sends(0))
        .then(sends(1))
        .then(wait(0))
        .then(wait(1));
    let receiver = Board::new()
        .inbox(4)
        .then(receive(0).tag(Tag::Any).area(0, 2).nonblocking(0))
        .then(receive(0).area(2, 2).nonblocking(1))
        .then(wait(0))
        .then(wait(1));
    is_sample("nonblocking", vec![sender, receiver], 4);
}

#[test]
fn probes() {
    let sender = Board::new()
        .attached(5 + 32)
        .then(send(Mode::Buffered, 1).tag(2).bytes(0, 5))
        .then(send(Mode::Synchronous, 1).tag(1).bytes(5, 3));
    let probe = ProbeOperation::new(Source::Rank(0)).tag(Tag::Any);
    let receiver = Board::new()
        .inbox(8)
        .then(probe)
        .then(receive(0).tag(Tag::Is(2)).area(0, 5))
        .then(probe)
        .then(receive(0).tag(Tag::Is(1)).area(5, 3));
    is_sample("probe-sizes-receive", vec![sender, receiver], 8);

    let sender = Board::new().then(send(Mode::Synchronous, 1).tag(1).bytes(0, 3));
    let receives = |offset| receive(0).tag(Tag::Is(1)).area(offset, 3);
    let receiver = Board::new()
        .inbox(6)
        .then(probe)
        .then(receives(0))
        .then(probe)
        .then(receives(3));
    is_sample("hangs-on-probe", vec![sender, receiver], 3);
}

#[test]
fn status_queries() {
    let query = Operation::StatusQuery { slot: 4 };
    let receiver = Board::new()
        .inbox(3)
        .then(receive(1).area(0, 2).nonblocking(4))
        .then(query)
        .then(receive(1).tag(Tag::Is(1)).area(2, 1))
        .then(query)
        .then(Operation::Wait { slot: 4 });
    let sender = Board::new()
        .then(send(Mode::Standard, 0).bytes(0, 2))
        .then(send(Mode::Standard, 0).tag(1).bytes(2, 1));
    is_sample("query-before-and-after", vec![receiver, sender], 3);
}

#[test]
fn standard_rooms() {
    let both = |other: usize, room| {
        Board::new()
            .inbox(2)
            .standard_room(room)
            .then(send(Mode::Standard, other).tag(5).bytes(2 - 2 * other, 2))
            .then(receive(other).tag(Tag::Is(5)).area(0, 2))
    };
    let boards = |room| vec![both(1, room), both(0, room)];
    is_sample("both-send-first", boards(0), 4);
    is_sample_of(Edition::Second, "both-send-first-covered", boards(2), 4);
    is_sample_of(Edition::Second, "both-send-first-short", boards(1), 4);

    let sender = Board::new()
        .standard_room(3)
        .then(send(Mode::Standard, 1).tag(1).bytes(0, 3))
        .then(receive(1).tag(Tag::Is(2)))
        .then(send(Mode::Standard, 1).tag(1).bytes(3, 2));
    let receiver = Board::new()
        .inbox(3)
        .then(receive(0).tag(Tag::Is(1)).area(0, 3))
        .then(send(Mode::Standard, 0).tag(2));
    let boards = vec![sender, receiver];
    is_sample_of(Edition::Second, "room-used-again", boards, 5);
}

/// In edition 2 a board entry has ten bytes, and what stands behind them starts
/// two bytes a board later (document 02, K6).
#[test]
fn bytes_of_edition_2_by_hand() {
    let boards = vec![
        Board::new()
            .attached(0x0102)
            .inbox(0x0304)
            .standard_room(0x0506)
            .then(send(Mode::Standard, 1).tag(0x0708).bytes(0, 2)),
        Board::new()
            .attached(0x090a)
            .inbox(0x0b0c)
            .standard_room(0x0d0e),
    ];
    let sheet = Sheet::build_in(Edition::Second, 3, boards, &[0xAA, 0xBB]);
    let sheet = sheet.expect("every number fits");
    #[rustfmt::skip]
    let expected = [
        2, 0,  3, 0,  1, 0,  16, 0,  36, 0,  52, 0,  2, 0,  0, 0,
        0, 0,  1, 0,  0x02, 0x01,  0x04, 0x03,  0x06, 0x05,
        1, 0,  0, 0,  0x0a, 0x09,  0x0c, 0x0b,  0x0e, 0x0d,
        1, 0,  1, 0,  0, 0,  0, 0,  0x08, 0x07,  0, 0,  2, 0,  0, 0,
        0xAA, 0xBB,
    ];
    let mut bytes = sheet.bytes().to_vec();
    bytes[14..16].fill(0);
    assert_eq!(bytes, expected);
    assert_eq!(check(&sheet), Ok(()));
    assert_eq!(Sheet::parse(sheet.bytes()), Ok(sheet.clone()));
    assert_eq!(sheet.payload(), [0xAA, 0xBB]);
}

/// Every field of every kind with a number of its own, byte by byte. Bytes 14
/// and 15 are the CRC.
#[test]
fn bytes_by_hand() {
    let boards = vec![
        Board::new()
            .attached(0x0102)
            .inbox(0x0304)
            .then(
                ReceiveOperation::new(Source::Rank(1))
                    .tag(Tag::Is(0x0506))
                    .area(0x0201, 0x0007)
                    .on(2)
                    .nonblocking(9),
            )
            .then(Operation::Wait { slot: 9 }),
        Board::new()
            .attached(0x0a)
            .inbox(0x0b)
            .then(
                send(Mode::Buffered, 0)
                    .tag(0x0c0d)
                    .bytes(1, 2)
                    .on(1)
                    .nonblocking(0x1f),
            )
            .then(send(Mode::Ready, 1).tag(0x0e))
            .then(Operation::StatusQuery { slot: 0x1f })
            .then(
                ProbeOperation::new(Source::Rank(1))
                    .tag(Tag::Is(0x0f10))
                    .on(2),
            )
            .then(Operation::Wait { slot: 0x1f }),
    ];
    let sheet = Sheet::build(3, boards, &[0xAA, 0xBB, 0xCC]).expect("every number fits");
    #[rustfmt::skip]
    let expected = [
        2, 0,  3, 0,  7, 0,  16, 0,  32, 0,  144, 0,  3, 0,  0, 0,
        0, 0,  2, 0,  0x02, 0x01,  0x04, 0x03,
        2, 0,  5, 0,  0x0a, 0,  0x0b, 0,
        5, 1,  1, 0,  2, 0,  0, 0,  0x06, 0x05,  0x01, 0x02,  7, 0,  9, 0,
        6, 0,  0, 0,  0, 0,  0, 0,  0, 0,  0, 0,  0, 0,  9, 0,
        2, 1,  0, 0,  1, 0,  0, 0,  0x0d, 0x0c,  1, 0,  2, 0,  0x1f, 0,
        4, 0,  1, 0,  0, 0,  0, 0,  0x0e, 0,  0, 0,  0, 0,  0, 0,
        8, 0,  0, 0,  0, 0,  0, 0,  0, 0,  0, 0,  0, 0,  0x1f, 0,
        7, 0,  1, 0,  2, 0,  0, 0,  0x10, 0x0f,  0, 0,  0, 0,  0, 0,
        6, 0,  0, 0,  0, 0,  0, 0,  0, 0,  0, 0,  0, 0,  0x1f, 0,
        0xAA, 0xBB, 0xCC,
    ];
    let mut bytes = sheet.bytes().to_vec();
    bytes[14..16].fill(0);
    assert_eq!(bytes, expected);
    assert_eq!(check(&sheet), Ok(()));
    assert_eq!(Sheet::parse(sheet.bytes()), Ok(sheet.clone()));
    assert_eq!(sheet.operation(1), Some(&Operation::Wait { slot: 9 }));
    let query = Operation::StatusQuery { slot: 0x1f };
    assert_eq!(sheet.operation(4), Some(&query));
    assert_eq!(sheet.operation(6), Some(&Operation::Wait { slot: 0x1f }));
    assert_eq!(sheet.operation(7), None);
}

#[test]
fn random_sheets_both_ways() {
    let mut random = Random::new(1);
    let (mut operations, mut second) = (0, 0);
    for case in 0..20_000 {
        let sheet = random_sheet(&mut random).expect("every number fits");
        let parsed = Sheet::parse(sheet.bytes()).expect("the generator keeps the rules");
        assert_eq!(parsed, sheet, "case {case}");
        let boards = parsed.boards().to_vec();
        let (edition, communicators) = (parsed.edition(), parsed.communicators());
        let again = Sheet::build_in(edition, communicators, boards, parsed.payload());
        assert_eq!(again, Ok(sheet), "case {case}");
        operations += usize::from(parsed.operation(0).is_some());
        second += usize::from(edition == Edition::Second);
    }
    assert!(operations > 10_000, "{operations} sheets have operations");
    assert!((5_000..15_000).contains(&second), "{second} of edition 2");
}

#[test]
fn only_a_sheet_that_passes_is_parsed() {
    let mut bytes = sample("handshake");
    assert!(Sheet::parse(&bytes).is_ok());
    bytes[64] ^= 1;
    assert_eq!(Sheet::parse(&bytes), Err(Refusal::Crc));
    assert_eq!(Sheet::parse(&bytes[..15]), Err(Refusal::Short));
}

/// Two boards, the first with an inbox of this size and one operation; and so
/// much payload.
fn with(inbox: usize, operation: impl Into<Operation>, payload: usize) -> Sheet {
    beside_another(Board::new().inbox(inbox).then(operation), payload)
}

fn beside_another(board: Board, payload: usize) -> Sheet {
    let boards = vec![board, Board::new()];
    Sheet::build(1, boards, &vec![0; payload]).expect("every number fits")
}

/// A limit is the library's, from both sides: what is beyond it can be built,
/// and check refuses it.
fn is_limit(most: usize, beyond: Refusal, sheet: impl Fn(usize) -> Sheet) {
    assert_eq!(check(sheet(most)), Ok(()), "{most}");
    assert_eq!(check(sheet(most + 1)), Err(beyond), "{}", most + 1);
}

#[test]
fn limits_of_sizes() {
    let built = |communicators, boards| {
        Sheet::build(communicators, boards, &[]).expect("every number fits")
    };
    is_limit(MOST_BOARDS, Refusal::Range, |most| {
        built(1, vec![Board::new(); most])
    });
    is_limit(MOST_COMMUNICATORS, Refusal::Range, |most| {
        built(most, vec![Board::new()])
    });
    is_limit(MOST_OPERATIONS, Refusal::Range, |most| {
        let script = vec![send(Mode::Standard, 0).into(); most];
        let board = Board {
            script,
            ..Board::new()
        };
        built(1, vec![board])
    });
    is_limit(MOST_PAYLOAD, Refusal::Range, |most| {
        with(0, send(Mode::Standard, 1), most)
    });
    is_limit(MOST_ATTACHED, Refusal::Board { rank: 0 }, |most| {
        built(1, vec![Board::new().attached(most)])
    });
    is_limit(MOST_INBOXES, Refusal::Board { rank: 1 }, |most| {
        let boards = [1, most - 1].map(|size| Board::new().inbox(size));
        built(1, boards.to_vec())
    });
    is_limit(MOST_STANDARD_ROOM, Refusal::Board { rank: 1 }, |most| {
        let boards = vec![Board::new(), Board::new().standard_room(most)];
        Sheet::build_in(Edition::Second, 1, boards, &[]).expect("every number fits")
    });
}

/// The longest sheet of each edition.
#[test]
fn longest_sheets() {
    let built = |edition| {
        let mut boards = vec![Board::new(); MOST_BOARDS];
        boards[7].script = vec![send(Mode::Standard, 0).into(); MOST_OPERATIONS];
        let sheet = Sheet::build_in(edition, 1, boards, &[0; MOST_PAYLOAD]);
        sheet.expect("every number fits")
    };
    for (edition, length) in [(Edition::First, 49_296), (Edition::Second, 49_328)] {
        let sheet = built(edition);
        assert_eq!(check(&sheet), Ok(()));
        let told = edition.sheet_length(MOST_BOARDS, MOST_OPERATIONS, MOST_PAYLOAD);
        assert_eq!((sheet.bytes().len(), told), (length, length));
    }
    let first = sheet_length(MOST_BOARDS, MOST_OPERATIONS, MOST_PAYLOAD);
    assert_eq!((first, MOST_SHEET), (49_296, 49_328));
}

#[test]
fn limits_of_operations() {
    let send = send(Mode::Standard, 1);
    let refusal = Refusal::Operation { index: 0 };
    is_limit(MOST_LENGTH, refusal, |most| {
        with(0, send.bytes(0, most), MOST_PAYLOAD)
    });
    is_limit(MOST_LENGTH, refusal, |most| {
        with(MOST_INBOXES, receive(1).area(0, most), 0)
    });
    is_limit(MOST_TAG, refusal, |most| with(0, send.tag(most), 0));
    is_limit(MOST_TAG, refusal, |most| {
        with(0, receive(1).tag(Tag::Is(most)), 0)
    });
    is_limit(MOST_TAG, refusal, |most| {
        with(
            0,
            ProbeOperation::new(Source::Rank(1)).tag(Tag::Is(most)),
            0,
        )
    });
    is_limit(MOST_SLOT, refusal, |most| {
        let started = Board::new().then(send.nonblocking(most));
        beside_another(started.then(Operation::Wait { slot: most }), 0)
    });
}

/// A send has no any: its fields are written as they are, and refused.
#[test]
fn any_in_a_send_is_refused() {
    for operation in [
        send(Mode::Standard, 65_535),
        send(Mode::Standard, 1).tag(65_535),
    ] {
        let sheet = with(0, operation, 0);
        assert_eq!(check(&sheet), Err(Refusal::Operation { index: 0 }));
    }
}
