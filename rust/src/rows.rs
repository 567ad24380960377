//! The rows of a report by name: one a board, one an operation (document 01,
//! The report).

use crate::edition::Edition;
use crate::limits::{ANY, MOST_LENGTH, MOST_TAG};
use crate::words::words;
use std::fmt;

/// What a report says of a board.
#[derive(Clone, Copy, Debug, PartialEq, Eq, Hash)]
pub struct BoardRow {
    /// How many of its operations are finished.
    pub finished: usize,
    /// Bytes of its attached buffer in use: charged and not yet matched.
    pub in_use: usize,
    /// The most in use after any step so far.
    pub peak: usize,
    /// Whether it is finished or able.
    pub state: BoardState,
    /// How full its standard room is. None in edition 1, which has no such rooms.
    pub standard: Option<StandardUse>,
}

/// What a report of edition 2 says of a board's standard room (document 02, K6).
///
/// ```
/// use jamturret::{run, Board, Edition, Mode, SendOperation, Sheet, StandardUse};
///
/// // Three bytes that nobody receives, in a room of four.
/// let send = SendOperation::new(Mode::Standard, 0).bytes(0, 3);
/// let board = Board::new().standard_room(4).then(send);
/// let sheet = Sheet::build_in(Edition::Second, 1, vec![board], b"JAM")?;
/// let row = run(&sheet, None)?.report.board(0).ok_or("a row")?;
/// assert_eq!(row.standard, Some(StandardUse { in_use: 3, peak: 3 }));
/// # Ok::<(), Box<dyn std::error::Error>>(())
/// ```
#[derive(Clone, Copy, Debug, PartialEq, Eq, Hash)]
pub struct StandardUse {
    /// Bytes of the room in use: charged and not yet matched.
    pub in_use: usize,
    /// The most in use after any step so far.
    pub peak: usize,
}

/// The state of a board. The number is the one in a report.
#[derive(Clone, Copy, Debug, PartialEq, Eq, Hash)]
pub enum BoardState {
    /// Unfinished, and it cannot step.
    Neither = 0,
    /// It can step.
    Able = 1,
    /// All its operations are finished.
    Finished = 2,
}

/// What a report says of an operation.
#[derive(Clone, Copy, Debug, PartialEq, Eq, Hash)]
pub struct OperationRow {
    /// How far it has come.
    pub state: OperationState,
    /// The operation that it was matched with. Every matched operation has
    /// one, and no other.
    pub partner: Option<usize>,
    /// What message a matched receive got, or a finished probe found. Sends,
    /// waits and status queries have none.
    pub status: Option<Status>,
    /// A status query found its operation complete. False in all other rows;
    /// [`queried`](OperationRow::queried) tells a query that found it not
    /// complete from one that is not entered.
    pub complete: bool,
}

/// The state of an operation. The number is the one in a report.
#[derive(Clone, Copy, Debug, PartialEq, Eq, Hash)]
pub enum OperationState {
    /// Not entered.
    NotEntered = 0,
    /// A message or a receive that waits for a match.
    Pending = 1,
    /// A message in its sender's attached buffer or standard room that waits for
    /// a match. The send is complete, and nobody has the message.
    Buffered = 2,
    /// Matched.
    Matched = 3,
    /// A wait, a probe or a status query that is finished.
    Ended = 5,
}

/// What message a matched receive got, or a finished probe found: an MPI
/// status.
#[derive(Clone, Copy, Debug, PartialEq, Eq, Hash)]
pub struct Status {
    /// The rank that sent the message.
    pub source: usize,
    /// The message's tag.
    pub tag: usize,
    /// The message's full length.
    pub length: usize,
    /// Whether the message was longer than the receive's capacity. Its first
    /// bytes then filled the area, and `length` is more than was copied. A
    /// probe, which takes nothing, cuts nothing.
    pub cut: bool,
}

impl BoardRow {
    /// The row with these bytes in a report of this edition, if there is such a
    /// row.
    pub(crate) fn read(bytes: &[u8], edition: Edition) -> Option<BoardRow> {
        let [finished, in_use, peak, state] = words(bytes)?;
        let states = [BoardState::Neither, BoardState::Able, BoardState::Finished];
        let standard = match edition {
            Edition::First => None,
            Edition::Second => {
                let [_, _, _, _, in_use, peak] = words(bytes)?;
                Some(StandardUse { in_use, peak })
            }
        };
        Some(BoardRow {
            finished,
            in_use,
            peak,
            // The byte after the state is zero, so the two are the state.
            state: states.into_iter().find(|&known| known as usize == state)?,
            standard,
        })
    }
}

impl OperationRow {
    /// The row with these bytes in a report of so many boards and operations,
    /// if document 01 has such a row.
    pub(crate) fn read(bytes: &[u8], boards: usize, operations: usize) -> Option<OperationRow> {
        let [state, cut, fields @ ..] = bytes else {
            return None;
        };
        let [partner, source, tag, length, zero] = words(fields)?;
        let state = OperationState::of_byte(*state)?;
        // Where a status query has ended, the length says that it found its
        // operation complete.
        let complete = (state, source, tag, length) == (OperationState::Ended, ANY, ANY, 1);
        let status = match (source, tag, length, cut) {
            (ANY, ANY, 0, 0) => None,
            (_, _, _, 0) if complete => None,
            (_, _, _, 0 | 1) => Some(Status {
                source,
                tag,
                length,
                cut: *cut == 1,
            }),
            _ => return None,
        };
        let told = status.iter().all(|status| status.known(boards));
        let known = match state {
            OperationState::Matched => told && partner < operations,
            OperationState::Ended => told && partner == ANY && *cut == 0,
            _ => status.is_none() && partner == ANY,
        };
        (known && zero == 0).then_some(OperationRow {
            state,
            partner: (partner != ANY).then_some(partner),
            status,
            complete,
        })
    }

    /// What message a probe found: the earliest arrived one that fitted it at
    /// its step, with its full length (document 02, K9). None in a row of
    /// another kind, and before that step.
    pub fn probed(&self) -> Option<Status> {
        self.status.filter(|_| self.state == OperationState::Ended)
    }

    /// Whether a status query found its operation complete (document 02, K9).
    /// None before its step, and in a row that no query has.
    ///
    /// A report does not tell kinds, and a finished wait has the row of a query
    /// that found its operation not complete: ask this of the row of a query,
    /// which [`Sheet::operation`](crate::Sheet::operation) tells.
    pub fn queried(&self) -> Option<bool> {
        let ended = self.state == OperationState::Ended && self.status.is_none();
        ended.then_some(self.complete)
    }
}

impl OperationState {
    /// [`Ended`](OperationState::Ended), of a wait.
    #[allow(non_upper_case_globals)]
    pub const WaitFinished: OperationState = OperationState::Ended;

    const ALL: [OperationState; 5] = [
        OperationState::NotEntered,
        OperationState::Pending,
        OperationState::Buffered,
        OperationState::Matched,
        OperationState::Ended,
    ];

    fn of_byte(byte: u8) -> Option<OperationState> {
        let mut all = OperationState::ALL.into_iter();
        all.find(|&state| state as u8 == byte)
    }
}

impl Status {
    fn known(&self, boards: usize) -> bool {
        self.source < boards && self.tag <= MOST_TAG && self.length <= MOST_LENGTH
    }
}

impl fmt::Display for BoardState {
    fn fmt(&self, out: &mut fmt::Formatter) -> fmt::Result {
        out.write_str(match self {
            BoardState::Neither => "neither finished nor able",
            BoardState::Able => "able",
            BoardState::Finished => "finished",
        })
    }
}

impl fmt::Display for OperationState {
    fn fmt(&self, out: &mut fmt::Formatter) -> fmt::Result {
        out.write_str(match self {
            OperationState::NotEntered => "not entered",
            OperationState::Pending => "pending",
            OperationState::Buffered => "buffered",
            OperationState::Matched => "matched",
            OperationState::Ended => "wait, probe or query finished",
        })
    }
}
