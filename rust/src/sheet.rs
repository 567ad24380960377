//! Job sheets: built from plain parts, read from bytes (document 01, The
//! sheet, byte by byte).

use crate::build_error::{fit, BoardField, BuildError, HeaderField};
use crate::edition::Edition;
use crate::lent;
use crate::limits::{CRC_AT, HEADER_BYTES};
use crate::operation::Operation;
use crate::refusal::Refusal;
use crate::services;
use crate::tables::Tables;
use crate::words::push_words;

/// A board: its attached buffer, its inbox, its standard room and its script.
///
/// ```
/// use jamturret::{Board, ReceiveOperation, Source};
///
/// let board = Board::new()
///     .inbox(4)
///     .then(ReceiveOperation::new(Source::Rank(0)).area(0, 4));
/// assert_eq!((board.attached, board.inbox, board.script.len()), (0, 4, 1));
/// ```
#[derive(Clone, Debug, Default, PartialEq, Eq)]
pub struct Board {
    /// The size of the buffer that is attached for buffered sends.
    pub attached: usize,
    /// The size of the inbox.
    pub inbox: usize,
    /// The bytes of standard sends that are buffered while no receive has taken
    /// them; with 0 none is, not even an empty one. Only sheets of
    /// [edition 2](Edition::Second) have such rooms (document 02, K6).
    pub standard_room: usize,
    /// The operations in the order in which the board takes them.
    pub script: Vec<Operation>,
}

impl Board {
    /// A board with nothing attached, no inbox, no standard room and an empty
    /// script.
    pub fn new() -> Board {
        Board::default()
    }

    /// The same with a buffer of this size attached.
    pub fn attached(self, attached: usize) -> Board {
        Board { attached, ..self }
    }

    /// The same with an inbox of this size.
    pub fn inbox(self, inbox: usize) -> Board {
        Board { inbox, ..self }
    }

    /// The same with a standard room of this size, for a sheet of
    /// [edition 2](Edition::Second).
    pub fn standard_room(self, standard_room: usize) -> Board {
        Board {
            standard_room,
            ..self
        }
    }

    /// The same with one more operation at the end of its script.
    pub fn then(mut self, operation: impl Into<Operation>) -> Board {
        self.script.push(operation.into());
        self
    }
}

/// A job sheet: its parts and its bytes.
///
/// A sheet that was [built](Sheet::build) has its bytes laid out and its CRC
/// right, but can still be refused by [`check`](crate::check); one that was
/// [parsed](Sheet::parse) passes. The services take `&Sheet` as they take
/// bytes.
///
/// ```
/// use jamturret::{check, Board, Mode, ReceiveOperation, SendOperation, Sheet, Source, Tag};
///
/// // Rank 0 sends 3 bytes with tag 7, synchronous; rank 1 receives from
/// // rank 0, any tag, into 4 bytes.
/// let sender = Board::new().then(SendOperation::new(Mode::Synchronous, 1).tag(7).bytes(0, 3));
/// let receive = ReceiveOperation::new(Source::Rank(0)).tag(Tag::Any).area(0, 4);
/// let sheet = Sheet::build(1, vec![sender, Board::new().inbox(4).then(receive)], b"JAM")?;
///
/// check(&sheet)?;
/// assert_eq!(Sheet::parse(sheet.bytes())?, sheet);
/// assert_eq!(sheet.payload(), b"JAM");
/// # Ok::<(), Box<dyn std::error::Error>>(())
/// ```
#[derive(Clone, Debug, PartialEq, Eq)]
pub struct Sheet {
    edition: Edition,
    communicators: usize,
    boards: Vec<Board>,
    /// Where the payload starts in the bytes.
    payload: usize,
    bytes: Vec<u8>,
}

impl Sheet {
    /// Lays out a sheet of edition 1, which has no standard rooms. The position
    /// of a board is its rank.
    ///
    /// Every number has to fit into its field, which has 16 bits: nothing is
    /// wrapped. Numbers that fit and break a limit of document 01, such as a
    /// peer that is no rank, are written as they are; `check` refuses them.
    pub fn build(
        communicators: usize,
        boards: Vec<Board>,
        payload: &[u8],
    ) -> Result<Sheet, BuildError> {
        Sheet::build_in(Edition::First, communicators, boards, payload)
    }

    /// Lays out a sheet of this edition, as [`build`](Sheet::build) does.
    ///
    /// ```
    /// use jamturret::{run, Board, Edition, Mode, ReceiveOperation, SendOperation};
    /// use jamturret::{Sheet, Source, Verdict};
    ///
    /// // Both boards send one byte in standard mode, then receive.
    /// let board = |other, room| {
    ///     Board::new()
    ///         .inbox(1)
    ///         .standard_room(room)
    ///         .then(SendOperation::new(Mode::Standard, other).bytes(0, 1))
    ///         .then(ReceiveOperation::new(Source::Rank(other)).area(0, 1))
    /// };
    /// for (room, verdict) in [(0, Verdict::Deadlock), (1, Verdict::Finished)] {
    ///     let boards = vec![board(1, room), board(0, room)];
    ///     let sheet = Sheet::build_in(Edition::Second, 1, boards, b"J")?;
    ///     assert_eq!(run(&sheet, None)?.report.verdict(), verdict);
    /// }
    /// # Ok::<(), Box<dyn std::error::Error>>(())
    /// ```
    pub fn build_in(
        edition: Edition,
        communicators: usize,
        boards: Vec<Board>,
        payload: &[u8],
    ) -> Result<Sheet, BuildError> {
        let lengths = boards.iter().map(|board| board.script.len());
        let operations = lengths.fold(0, usize::saturating_add);
        let sizes = [boards.len(), communicators, operations, payload.len()];
        let mut bytes = Vec::new();
        push_words(&mut bytes, &header(edition, sizes)?);
        write_entries(edition, &boards, &mut bytes)?;
        let script = boards.iter().flat_map(|board| &board.script);
        for (index, operation) in script.enumerate() {
            operation.write(index, &mut bytes)?;
        }
        bytes.extend_from_slice(payload);
        let crc = lent::crc(&bytes).to_le_bytes();
        for (byte, value) in bytes.iter_mut().skip(CRC_AT).zip(crc) {
            *byte = value;
        }
        Ok(Sheet {
            edition,
            communicators,
            payload: edition.payload_start(boards.len(), operations),
            boards,
            bytes,
        })
    }

    /// Reads a sheet that passes check, of either edition, or says why it does
    /// not. Building from the parts in its edition gives the same bytes again.
    pub fn parse(bytes: &[u8]) -> Result<Sheet, Refusal> {
        services::check(bytes)?;
        // Check has accepted the sheet, so that nothing below is refused. The
        // refusals named are the ones that would be true.
        let tables = Tables::of(bytes).ok_or(Refusal::Layout)?;
        let mut records = tables.operations().enumerate();
        let mut boards = Vec::new();
        for entry in tables.entries() {
            let script = records
                .by_ref()
                .take(entry.count)
                .map(|(index, record)| Operation::read(record).ok_or(Refusal::Operation { index }));
            boards.push(Board {
                attached: entry.attached,
                inbox: entry.inbox,
                standard_room: entry.standard_room,
                script: script.collect::<Result<_, _>>()?,
            });
        }
        let payload = tables
            .edition
            .payload_start(tables.boards, tables.operations);
        Ok(Sheet {
            edition: tables.edition,
            communicators: tables.communicators,
            payload,
            boards,
            bytes: bytes.to_vec(),
        })
    }

    /// The edition.
    pub fn edition(&self) -> Edition {
        self.edition
    }

    /// The number of communicators.
    pub fn communicators(&self) -> usize {
        self.communicators
    }

    /// The boards by rank.
    pub fn boards(&self) -> &[Board] {
        &self.boards
    }

    /// The payload.
    pub fn payload(&self) -> &[u8] {
        self.bytes.get(self.payload..).unwrap_or_default()
    }

    /// The operation with this index, counted over the whole sheet as reports
    /// and refusals count.
    pub fn operation(&self, index: usize) -> Option<&Operation> {
        let mut operations = self.boards.iter().flat_map(|board| &board.script);
        operations.nth(index)
    }

    /// The sheet's bytes.
    pub fn bytes(&self) -> &[u8] {
        &self.bytes
    }
}

impl AsRef<[u8]> for Sheet {
    fn as_ref(&self) -> &[u8] {
        self.bytes()
    }
}

/// The header of a sheet with these numbers of boards, communicators, operations
/// and payload bytes. Its CRC, the last, is taken over all the rest.
fn header(edition: Edition, sizes: [usize; 4]) -> Result<[u16; 8], BuildError> {
    let [boards, communicators, operations, payload] = sizes;
    let table_at = edition.operation_table(boards);
    let payload_at = edition.payload_start(boards, operations);
    let fit = |field, value| fit(value).ok_or(BuildError::Header { field, value });
    Ok([
        fit(HeaderField::Boards, boards)?,
        fit(HeaderField::Communicators, communicators)?,
        fit(HeaderField::Operations, operations)?,
        HEADER_BYTES,
        fit(HeaderField::OperationTable, table_at)?,
        fit(HeaderField::Payload, payload_at)?,
        fit(HeaderField::PayloadLength, payload)?,
        0,
    ])
}

fn write_entries(edition: Edition, boards: &[Board], out: &mut Vec<u8>) -> Result<(), BuildError> {
    // Where a count or a sum of counts does not fit, the number of operations
    // does not.
    let counted = |value| {
        let field = HeaderField::Operations;
        fit(value).ok_or(BuildError::Header { field, value })
    };
    let mut first: usize = 0;
    for (rank, board) in boards.iter().enumerate() {
        let fit = |field, value| fit(value).ok_or(BuildError::Board { rank, field, value });
        let count = board.script.len();
        push_words(
            out,
            &[
                counted(first)?,
                counted(count)?,
                fit(BoardField::Attached, board.attached)?,
                fit(BoardField::Inbox, board.inbox)?,
            ],
        );
        match (edition, board.standard_room) {
            (Edition::First, 0) => (),
            (Edition::First, room) => return Err(BuildError::FirstEdition { rank, room }),
            (Edition::Second, room) => push_words(out, &[fit(BoardField::StandardRoom, room)?]),
        }
        first = first.saturating_add(count);
    }
    Ok(())
}
