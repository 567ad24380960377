//! Why the desk says no: each refusal by name, with its place by name
//! (document 01, When the desk says no).

use crate::lent::Answer;
use crate::words::words;
use std::error::Error;
use std::fmt;

/// A refusal. [`number`](Refusal::number) and [`place`](Refusal::place) give
/// back the numbers of document 01; `Display` says it in words. Operations are
/// counted from 0 over the whole sheet, ranks and indexes from 0.
///
/// ```
/// use jamturret::{check, Refusal};
///
/// let refusal = check(b"not a sheet").unwrap_err();
/// assert_eq!(refusal, Refusal::Short);
/// assert_eq!((refusal.number(), refusal.place()), (1, 0));
/// assert_eq!(refusal.to_string(), "refusal 1, place 0: the sheet is under 16 bytes");
/// ```
#[derive(Clone, Copy, Debug, PartialEq, Eq, Hash)]
pub enum Refusal {
    /// 1: the sheet is under 16 bytes.
    Short,
    /// 2: the number of boards, communicators, operations or payload bytes is
    /// outside its range.
    Range,
    /// 3: an offset, or the sheet's length, differs from what the sizes give, in
    /// edition 1 and in edition 2 alike.
    Layout,
    /// 4: the CRC differs.
    Crc,
    /// 5: a board entry is wrong. Its first operation differs from the sum of
    /// the counts before it, its attached size is too large, its inbox brings the
    /// total too high, or, in edition 2, its standard room is too large.
    Board {
        /// The first such rank.
        rank: usize,
    },
    /// 5 with the number of boards as its place: every board entry is right,
    /// but the counts do not total the number of operations.
    Counts {
        /// The number of boards.
        boards: usize,
    },
    /// 6: a field of an operation is wrong.
    Operation {
        /// The first such operation.
        index: usize,
    },
    /// 7: an operation takes a slot that its board holds, waits for one that
    /// it does not hold or queries it, or receives into an area that shares a
    /// byte with that of an earlier receive whose slot is still held. Where the
    /// whole sheet has no such operation: one is forgotten, that is, nonblocking
    /// and never waited for (document 02, K7; in MPI, a request leak). A status
    /// query is no wait.
    ///
    /// ```
    /// use jamturret::{check, Board, Mode, Operation, Refusal, SendOperation, Sheet};
    ///
    /// let sender = Board::new().then(SendOperation::new(Mode::Buffered, 0).nonblocking(5));
    /// let forgotten = Sheet::build(1, vec![sender.clone()], &[])?;
    /// assert_eq!(check(&forgotten), Err(Refusal::Request { index: 0 }));
    ///
    /// let waited_for = sender.then(Operation::Wait { slot: 5 });
    /// assert_eq!(check(Sheet::build(1, vec![waited_for], &[])?), Ok(()));
    /// # Ok::<(), jamturret::BuildError>(())
    /// ```
    Request {
        /// The first such operation.
        index: usize,
    },
    /// 8: a lent room is short.
    Room(Room),
    /// 9: the order names a rank that the sheet does not have, or one that is
    /// not able.
    Order {
        /// The first such index in the order.
        index: usize,
    },
    /// An answer that document 01 does not have, or number 0 with an outcome
    /// that cannot be read. The proved library gives none of these; a library
    /// of another version might.
    Unknown {
        /// The number that was answered.
        number: u32,
        /// The place that was answered.
        place: u64,
    },
}

/// A lent room. The number is the place of refusal 8.
#[derive(Clone, Copy, Debug, PartialEq, Eq, Hash)]
pub enum Room {
    /// The inboxes of all boards.
    Inbox = 1,
    /// The report.
    Report = 2,
    /// The order that `run` writes down.
    OrderOut = 3,
    /// The working memory.
    Scratch = 4,
}

impl Room {
    const ALL: [Room; 4] = [Room::Inbox, Room::Report, Room::OrderOut, Room::Scratch];
}

impl Answer {
    /// Number 0 as `Ok`, every other answer to a call with this sheet as its
    /// refusal. The sheet tells the two meanings of number 5 apart.
    pub fn result(self, sheet: &[u8]) -> Result<(), Refusal> {
        match self {
            Answer::SUCCESS => Ok(()),
            refused => Err(Refusal::of_answer(refused, sheet)),
        }
    }
}

impl Refusal {
    fn of_answer(answer: Answer, sheet: &[u8]) -> Refusal {
        let Answer { number, place } = answer;
        let unknown = Refusal::Unknown { number, place };
        let Ok(index) = usize::try_from(place) else {
            return unknown;
        };
        match (number, index) {
            (1, 0) => Refusal::Short,
            (2, 0) => Refusal::Range,
            (3, 0) => Refusal::Layout,
            (4, 0) => Refusal::Crc,
            (5, boards) if words(sheet) == Some([boards]) => Refusal::Counts { boards },
            (5, rank) => Refusal::Board { rank },
            (6, index) => Refusal::Operation { index },
            (7, index) => Refusal::Request { index },
            (8, _) => {
                let room = Room::ALL.into_iter().find(|&room| room as u64 == place);
                room.map_or(unknown, Refusal::Room)
            }
            (9, index) => Refusal::Order { index },
            _ => unknown,
        }
    }

    /// The number of document 01.
    pub fn number(&self) -> u32 {
        match *self {
            Refusal::Short => 1,
            Refusal::Range => 2,
            Refusal::Layout => 3,
            Refusal::Crc => 4,
            Refusal::Board { .. } | Refusal::Counts { .. } => 5,
            Refusal::Operation { .. } => 6,
            Refusal::Request { .. } => 7,
            Refusal::Room(_) => 8,
            Refusal::Order { .. } => 9,
            Refusal::Unknown { number, .. } => number,
        }
    }

    /// The place of document 01.
    pub fn place(&self) -> u64 {
        match *self {
            Refusal::Short | Refusal::Range | Refusal::Layout | Refusal::Crc => 0,
            Refusal::Board { rank: place }
            | Refusal::Counts { boards: place }
            | Refusal::Operation { index: place }
            | Refusal::Request { index: place }
            | Refusal::Order { index: place } => place as u64,
            Refusal::Room(room) => room as u64,
            Refusal::Unknown { place, .. } => place,
        }
    }
}

impl fmt::Display for Refusal {
    fn fmt(&self, out: &mut fmt::Formatter) -> fmt::Result {
        write!(out, "refusal {}, place {}: ", self.number(), self.place())?;
        match self {
            Refusal::Short => write!(out, "the sheet is under 16 bytes"),
            Refusal::Range => write!(
                out,
                "the number of boards, communicators, operations or payload bytes is outside its range"
            ),
            Refusal::Layout => write!(
                out,
                "an offset, or the sheet's length, differs from what the sizes give in either edition"
            ),
            Refusal::Crc => write!(out, "the CRC differs"),
            Refusal::Board { rank } => write!(
                out,
                "the board entry of rank {rank} is wrong: its first operation, attached size, inbox or standard room"
            ),
            Refusal::Counts { boards } => write!(
                out,
                "the counts of all {boards} boards do not total the number of operations"
            ),
            Refusal::Operation { index } => write!(out, "a field of operation {index} is wrong"),
            Refusal::Request { index } => write!(
                out,
                "operation {index} takes a slot that is held, waits for or queries one that is not, shares an area with a held one, or is never waited for"
            ),
            Refusal::Room(room) => write!(out, "the {room} room is short"),
            Refusal::Order { index } => write!(
                out,
                "index {index} of the order names a rank that is not able, or no rank of the sheet"
            ),
            Refusal::Unknown { .. } => write!(out, "not an answer that the rules have"),
        }
    }
}

impl fmt::Display for Room {
    fn fmt(&self, out: &mut fmt::Formatter) -> fmt::Result {
        out.write_str(match self {
            Room::Inbox => "inbox",
            Room::Report => "report",
            Room::OrderOut => "order-out",
            Room::Scratch => "scratch",
        })
    }
}

impl Error for Refusal {}
