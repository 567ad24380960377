//! The report of a job by name (document 01, The report).

use crate::edition::Edition;
use crate::limits::{
    ANY, MOST_BOARDS, MOST_OPERATIONS, NO_RANK, OPERATION_ROW_BYTES, REPORT_HEADER_BYTES,
};
use crate::rows::{BoardRow, OperationRow};
use crate::words::{split, words};
use std::error::Error;
use std::fmt;

/// How a job ended. The number is the one in a report.
#[derive(Clone, Copy, Debug, PartialEq, Eq, Hash)]
pub enum Verdict {
    /// The order stopped early: a board can still step. Only `follow` gives
    /// it.
    StillAble = 0,
    /// All boards are finished, and every request was waited for (document 02,
    /// K7). **Finished is not delivered**: messages in buffers and standard
    /// rooms can be pending, and nothing else; see
    /// [`Report::pending_messages`].
    Finished = 1,
    /// Not all boards are finished, and none is able. Where nothing is pending,
    /// each unfinished one is at a probe (document 02, K9).
    Deadlock = 2,
    /// A buffered send met no receive and did not fit the attached buffer.
    Overflow = 3,
    /// A ready send met no receive.
    NotReady = 4,
}

/// The step that stopped a job.
#[derive(Clone, Copy, Debug, PartialEq, Eq, Hash)]
pub struct Stop {
    /// The board.
    pub rank: usize,
    /// The operation, counted over the whole sheet. It is not entered.
    pub operation: usize,
}

/// A report. [`run`](crate::run) and [`follow`](crate::follow) give one;
/// [`Report::parse`] reads one from bytes.
///
/// ```
/// use jamturret::{OperationState, Report, Verdict};
///
/// // A report of one board and one operation: the board's buffered send is
/// // complete and its message is still in the buffer, 8 bytes of it.
/// let report = Report::parse(&[
///     1, 255, 255, 255, 2, 0, 1, 0, 1, 0, 1, 0, 0, 0, 0, 0,
///     1, 0, 8, 0, 8, 0, 2, 0,
///     2, 0, 255, 255, 255, 255, 255, 255, 0, 0, 0, 0,
/// ])?;
/// assert_eq!(report.verdict(), Verdict::Finished);
/// assert_eq!((report.steps(), report.pending_messages()), (2, 1));
/// assert_eq!(report.board(0).map(|board| board.in_use), Some(8));
/// let states: Vec<_> = report.operations().map(|operation| operation.state).collect();
/// assert_eq!(states, [OperationState::Buffered]);
/// assert_eq!(report.operation(1), None);
/// # Ok::<(), jamturret::ReportError>(())
/// ```
#[derive(Clone, Debug, PartialEq, Eq)]
pub struct Report {
    edition: Edition,
    header: Header,
    boards: Vec<BoardRow>,
    operations: Vec<OperationRow>,
    bytes: Vec<u8>,
}

/// The header of a report.
#[derive(Clone, Copy, Debug, PartialEq, Eq)]
struct Header {
    verdict: Verdict,
    stop: Option<Stop>,
    steps: usize,
    boards: usize,
    operations: usize,
    pending_messages: usize,
    pending_receives: usize,
    cut_messages: usize,
}

/// Why bytes are no report.
#[derive(Clone, Copy, Debug, PartialEq, Eq, Hash)]
pub enum ReportError {
    /// The length is not that of a report with so many boards and operations,
    /// in either edition; or it is too short for a header.
    Length {
        /// The bytes given.
        given: usize,
        /// The bytes of such a report of edition 1, or of a header.
        needed: usize,
        /// The bytes of such a report of edition 2, or of a header.
        needed_in_second: usize,
    },
    /// The verdict, the stop or the number of boards or operations is none
    /// that a report has.
    Header,
    /// A board row is none that a report has.
    Board {
        /// The first such rank.
        rank: usize,
    },
    /// An operation row is none that a report has.
    Operation {
        /// The first such operation.
        index: usize,
    },
}

impl Report {
    /// Reads a report of either edition. It does not say which one it is of, but
    /// its length and its own numbers of boards and operations do.
    ///
    /// Every field has to have a value that document 01 gives to such a field.
    /// Not looked at: whether the figures agree with each other, and whether some
    /// sheet has this report.
    pub fn parse(bytes: &[u8]) -> Result<Report, ReportError> {
        let given = bytes.len();
        let length = |[needed, needed_in_second]: [usize; 2]| ReportError::Length {
            given,
            needed,
            needed_in_second,
        };
        let (header, rows) =
            split(bytes, REPORT_HEADER_BYTES).ok_or(length([REPORT_HEADER_BYTES; 2]))?;
        let header = Header::read(header).ok_or(ReportError::Header)?;
        let room = |edition: Edition| edition.report_room(header.boards, header.operations);
        let wrong = length([room(Edition::First), room(Edition::Second)]);
        let edition = Edition::of_report(header.boards, header.operations, given).ok_or(wrong)?;
        let board_row = edition.board_row_bytes();
        let (board_rows, operation_rows) =
            split(rows, header.boards.saturating_mul(board_row)).ok_or(wrong)?;
        let boards = board_rows.chunks_exact(board_row).enumerate();
        let boards = boards
            .map(|(rank, row)| BoardRow::read(row, edition).ok_or(ReportError::Board { rank }));
        let operations = operation_rows.chunks_exact(OPERATION_ROW_BYTES).enumerate();
        let operations = operations.map(|(index, row)| {
            OperationRow::read(row, header.boards, header.operations)
                .ok_or(ReportError::Operation { index })
        });
        Ok(Report {
            edition,
            header,
            boards: boards.collect::<Result<_, _>>()?,
            operations: operations.collect::<Result<_, _>>()?,
            bytes: bytes.to_vec(),
        })
    }

    /// The edition: that of the sheet.
    pub fn edition(&self) -> Edition {
        self.edition
    }

    /// How the job ended.
    pub fn verdict(&self) -> Verdict {
        self.header.verdict
    }

    /// The step that stopped the job, where the verdict is
    /// [`Overflow`](Verdict::Overflow) or [`NotReady`](Verdict::NotReady).
    pub fn stop(&self) -> Option<Stop> {
        self.header.stop
    }

    /// The steps taken.
    pub fn steps(&self) -> usize {
        self.header.steps
    }

    /// Messages that nobody has received, buffered ones among them. Where the
    /// verdict is [`Finished`](Verdict::Finished) only buffered ones can remain.
    pub fn pending_messages(&self) -> usize {
        self.header.pending_messages
    }

    /// Posted receives that have got no message. None remains where the verdict
    /// is [`Finished`](Verdict::Finished): each receive was waited for.
    pub fn pending_receives(&self) -> usize {
        self.header.pending_receives
    }

    /// Messages that were longer than the capacity of the receive that they
    /// were matched with.
    pub fn cut_messages(&self) -> usize {
        self.header.cut_messages
    }

    /// The row of a board, if there is such a rank.
    pub fn board(&self, rank: usize) -> Option<BoardRow> {
        self.boards.get(rank).copied()
    }

    /// The row of an operation, counted over the whole sheet, if there is such
    /// an operation.
    pub fn operation(&self, index: usize) -> Option<OperationRow> {
        self.operations.get(index).copied()
    }

    /// The rows of the boards in rank order.
    pub fn boards(&self) -> impl ExactSizeIterator<Item = BoardRow> + '_ {
        self.boards.iter().copied()
    }

    /// The rows of the operations.
    pub fn operations(&self) -> impl ExactSizeIterator<Item = OperationRow> + '_ {
        self.operations.iter().copied()
    }

    /// The report's bytes.
    pub fn bytes(&self) -> &[u8] {
        &self.bytes
    }
}

impl Header {
    /// The header with these bytes, if document 01 has such a header.
    fn read(bytes: &[u8]) -> Option<Header> {
        let [verdict, stop_rank, fields @ ..] = bytes else {
            return None;
        };
        let [stop_operation, steps, boards, operations, pending_messages, pending_receives, cut_messages] =
            words(fields)?;
        let verdict = Verdict::of_byte(*verdict)?;
        let stop = match (*stop_rank, stop_operation) {
            (NO_RANK, ANY) => None,
            (rank, operation) => Some(Stop {
                rank: usize::from(rank),
                operation,
            }),
        };
        let stops = matches!(verdict, Verdict::Overflow | Verdict::NotReady);
        let stop_known = match stop {
            Some(stop) => stops && stop.rank < boards && stop.operation < operations,
            None => !stops,
        };
        let sizes_known = (1..=MOST_BOARDS).contains(&boards) && operations <= MOST_OPERATIONS;
        let known = stop_known && sizes_known;
        known.then_some(Header {
            verdict,
            stop,
            steps,
            boards,
            operations,
            pending_messages,
            pending_receives,
            cut_messages,
        })
    }
}

impl Verdict {
    const ALL: [Verdict; 5] = [
        Verdict::StillAble,
        Verdict::Finished,
        Verdict::Deadlock,
        Verdict::Overflow,
        Verdict::NotReady,
    ];

    fn of_byte(byte: u8) -> Option<Verdict> {
        let mut all = Verdict::ALL.into_iter();
        all.find(|&verdict| verdict as u8 == byte)
    }
}

impl fmt::Display for Verdict {
    fn fmt(&self, out: &mut fmt::Formatter) -> fmt::Result {
        out.write_str(match self {
            Verdict::StillAble => "still able",
            Verdict::Finished => "finished",
            Verdict::Deadlock => "deadlock",
            Verdict::Overflow => "overflow",
            Verdict::NotReady => "not ready",
        })
    }
}

/// The header in words.
impl fmt::Display for Report {
    fn fmt(&self, out: &mut fmt::Formatter) -> fmt::Result {
        write!(out, "{}", self.verdict())?;
        if let Some(Stop { rank, operation }) = self.stop() {
            write!(out, " by operation {operation} of rank {rank}")?;
        }
        write!(
            out,
            "; steps {}, pending messages {}, pending receives {}, cut messages {}",
            self.steps(),
            self.pending_messages(),
            self.pending_receives(),
            self.cut_messages()
        )
    }
}

impl fmt::Display for ReportError {
    fn fmt(&self, out: &mut fmt::Formatter) -> fmt::Result {
        match self {
            ReportError::Length {
                given,
                needed,
                needed_in_second,
            } => {
                write!(out, "{given} bytes, where the report has {needed}")?;
                if needed_in_second != needed {
                    write!(out, ", or {needed_in_second} in edition 2")?;
                }
                Ok(())
            }
            ReportError::Header => write!(out, "no report has such a header"),
            ReportError::Board { rank } => {
                write!(out, "no report has such a row as that of rank {rank}")
            }
            ReportError::Operation { index } => {
                write!(out, "no report has such a row as that of operation {index}")
            }
        }
    }
}

impl Error for ReportError {}
