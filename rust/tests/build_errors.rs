//! What does not fit into 16 bits is an error, for each field: never wrapped,
//! and never taken for any. So is a standard room in edition 1: never left out.

use jamturret::{
    Board, BoardField, BuildError, Edition, HeaderField, Mode, Operation, OperationField,
    ProbeOperation, ReceiveOperation, SendOperation, Sheet, Source, Tag,
};

const FITS: usize = 65_535;

/// A sheet of one board, or the error and its words.
fn built(board: Board) -> Result<Sheet, (BuildError, String)> {
    Sheet::build(1, vec![board], &[]).map_err(|error| (error, error.to_string()))
}

fn header(field: HeaderField, value: usize) -> BuildError {
    BuildError::Header { field, value }
}

fn is_refused(
    communicators: usize,
    boards: Vec<Board>,
    payload: &[u8],
    error: BuildError,
    words: &str,
) {
    assert_eq!(Sheet::build(communicators, boards, payload), Err(error));
    assert_eq!(error.to_string(), words);
}

#[test]
fn sizes() {
    is_refused(
        1,
        vec![Board::new(); FITS + 1],
        &[],
        header(HeaderField::Boards, 65_536),
        "the number of boards is 65536, which does not fit into 16 bits",
    );
    assert!(Sheet::build(FITS, vec![], &[]).is_ok());
    is_refused(
        FITS + 1,
        vec![],
        &[],
        header(HeaderField::Communicators, 65_536),
        "the number of communicators is 65536, which does not fit into 16 bits",
    );
    let wait = Operation::Wait { slot: 0 };
    let halves = vec![
        Board {
            script: vec![wait; 32_768],
            ..Board::new()
        };
        2
    ];
    is_refused(
        1,
        halves,
        &[],
        header(HeaderField::Operations, 65_536),
        "the number of operations is 65536, which does not fit into 16 bits",
    );
    assert!(Sheet::build(1, vec![], &vec![0; FITS]).is_ok());
    is_refused(
        1,
        vec![],
        &vec![0; FITS + 1],
        header(HeaderField::PayloadLength, 65_536),
        "the number of payload bytes is 65536, which does not fit into 16 bits",
    );
}

/// The operation table starts at 16+8P, the payload at 16+8P+16N.
#[test]
fn offsets() {
    let most = (FITS - 16) / 8;
    assert!(Sheet::build(1, vec![Board::new(); most], &[]).is_ok());
    is_refused(
        1,
        vec![Board::new(); most + 1],
        &[],
        header(HeaderField::OperationTable, 65_536),
        "the offset of the operation table is 65536, which does not fit into 16 bits",
    );
    let waits = |count| Board {
        script: vec![Operation::Wait { slot: 0 }; count],
        ..Board::new()
    };
    let most = (FITS - 16 - 8) / 16;
    assert!(built(waits(most)).is_ok());
    is_refused(
        1,
        vec![waits(most + 1)],
        &[],
        header(HeaderField::Payload, 24 + 16 * 4_095),
        "the offset of the payload is 65544, which does not fit into 16 bits",
    );
}

#[test]
fn boards() {
    let third = |last: Board| vec![Board::new(), Board::new(), last];
    assert!(Sheet::build(1, third(Board::new().attached(FITS).inbox(FITS)), &[]).is_ok());
    let error = |field| BuildError::Board {
        rank: 2,
        field,
        value: 65_536,
    };
    is_refused(
        1,
        third(Board::new().attached(FITS + 1)),
        &[],
        error(BoardField::Attached),
        "the attached buffer size of rank 2 is 65536, which does not fit into 16 bits",
    );
    is_refused(
        1,
        third(Board::new().inbox(FITS + 1)),
        &[],
        error(BoardField::Inbox),
        "the inbox size of rank 2 is 65536, which does not fit into 16 bits",
    );
}

/// In edition 2 the operation table starts at 16+10P.
#[test]
fn offsets_of_edition_2() {
    let built = |boards, operations| {
        let script = vec![Operation::Wait { slot: 0 }; operations];
        let mut boards = vec![Board::new(); boards];
        boards[0].script = script;
        Sheet::build_in(Edition::Second, 1, boards, &[])
    };
    assert!(built((FITS - 16) / 10, 0).is_ok());
    let error = header(HeaderField::OperationTable, 65_536);
    assert_eq!(built((FITS - 16) / 10 + 1, 0), Err(error));
    assert!(built(1, (FITS - 16 - 10) / 16).is_ok());
    let error = header(HeaderField::Payload, 26 + 16 * 4_095);
    assert_eq!(built(1, 4_095), Err(error));
}

#[test]
fn standard_rooms() {
    let boards = |room| vec![Board::new(), Board::new().standard_room(room)];
    let built = |edition, room| {
        let built = Sheet::build_in(edition, 1, boards(room), &[]);
        built.map_err(|error| (error, error.to_string()))
    };
    assert!(built(Edition::Second, FITS).is_ok());
    let error = BuildError::Board {
        rank: 1,
        field: BoardField::StandardRoom,
        value: 65_536,
    };
    let words = "the standard room of rank 1 is 65536, which does not fit into 16 bits";
    assert_eq!(
        built(Edition::Second, FITS + 1),
        Err((error, words.to_string()))
    );
    assert!(built(Edition::First, 0).is_ok());
    let error = BuildError::FirstEdition { rank: 1, room: 1 };
    let words = "rank 1 has a standard room of 1, and edition 1 has no standard rooms";
    assert_eq!(built(Edition::First, 1), Err((error, words.to_string())));
    assert_eq!(Sheet::build(1, boards(1), &[]), Err(error));
}

type Numbered = fn(usize) -> Operation;

const SENDS: [(OperationField, Numbered, &str); 6] = [
    (
        OperationField::Peer,
        |peer| SendOperation::new(Mode::Ready, peer).into(),
        "peer",
    ),
    (
        OperationField::Communicator,
        |communicator| SendOperation::new(Mode::Ready, 0).on(communicator).into(),
        "communicator",
    ),
    (
        OperationField::Tag,
        |tag| SendOperation::new(Mode::Ready, 0).tag(tag).into(),
        "tag",
    ),
    (
        OperationField::Offset,
        |offset| SendOperation::new(Mode::Ready, 0).bytes(offset, 0).into(),
        "offset",
    ),
    (
        OperationField::Length,
        |length| SendOperation::new(Mode::Ready, 0).bytes(0, length).into(),
        "length or capacity",
    ),
    (
        OperationField::Slot,
        |slot| SendOperation::new(Mode::Ready, 0).nonblocking(slot).into(),
        "request slot",
    ),
];

const RECEIVES: [(OperationField, Numbered, &str); 4] = [
    (
        OperationField::Communicator,
        |communicator| ReceiveOperation::new(Source::Any).on(communicator).into(),
        "communicator",
    ),
    (
        OperationField::Offset,
        |offset| ReceiveOperation::new(Source::Any).area(offset, 0).into(),
        "offset",
    ),
    (
        OperationField::Length,
        |capacity| ReceiveOperation::new(Source::Any).area(0, capacity).into(),
        "length or capacity",
    ),
    (
        OperationField::Slot,
        |slot| ReceiveOperation::new(Source::Any).nonblocking(slot).into(),
        "request slot",
    ),
];

const OTHERS: [(OperationField, Numbered, &str); 3] = [
    (
        OperationField::Slot,
        |slot| Operation::Wait { slot },
        "request slot",
    ),
    (
        OperationField::Communicator,
        |communicator| ProbeOperation::new(Source::Any).on(communicator).into(),
        "communicator",
    ),
    (
        OperationField::Slot,
        |slot| Operation::StatusQuery { slot },
        "request slot",
    ),
];

/// The second operation of a board, after one that fits.
fn second(operation: Operation) -> Board {
    Board::new()
        .then(Operation::Wait { slot: 0 })
        .then(operation)
}

/// A number that does not fit, with its words.
fn does_not_fit(field: OperationField, name: &str, value: usize) -> (BuildError, String) {
    let error = BuildError::Operation {
        index: 1,
        field,
        value,
    };
    let words = format!("the {name} of operation 1 is {value}, which does not fit into 16 bits");
    (error, words)
}

#[test]
fn operations() {
    for (field, operation, name) in SENDS.into_iter().chain(RECEIVES).chain(OTHERS) {
        assert!(built(second(operation(FITS))).is_ok(), "{name}");
        for value in [FITS + 1, usize::MAX] {
            let error = does_not_fit(field, name, value);
            assert_eq!(built(second(operation(value))), Err(error));
        }
    }
}

/// The source and the tag of a receive and of a probe: 65,535 fits, but says
/// any.
#[test]
fn any_has_to_be_said() {
    let from: Numbered = |rank| ReceiveOperation::new(Source::Rank(rank)).into();
    let tagged: Numbered = |tag| ReceiveOperation::new(Source::Any).tag(Tag::Is(tag)).into();
    let probed: Numbered = |rank| ProbeOperation::new(Source::Rank(rank)).into();
    let probed_tag: Numbered = |tag| ProbeOperation::new(Source::Any).tag(Tag::Is(tag)).into();
    let cases = [
        (OperationField::Peer, from, "peer"),
        (OperationField::Tag, tagged, "tag"),
        (OperationField::Peer, probed, "peer"),
        (OperationField::Tag, probed_tag, "tag"),
    ];
    for (field, operation, name) in cases {
        assert!(built(second(operation(FITS - 1))).is_ok());
        let error = BuildError::MeansAny { index: 1, field };
        let words = format!("the {name} of operation 1 is 65535, which stands for any");
        assert_eq!(built(second(operation(FITS))), Err((error, words)));
        let error = does_not_fit(field, name, FITS + 1);
        assert_eq!(built(second(operation(FITS + 1))), Err(error));
    }
}
