//! What a sheet cannot be built from: a number that does not fit its field, or
//! that has none.

use std::error::Error;
use std::fmt;

/// A number that does not fit its field of a sheet, which has 16 bits, or that
/// has no field. The first one in the order of the sheet's bytes is told.
#[derive(Clone, Copy, Debug, PartialEq, Eq, Hash)]
pub enum BuildError {
    /// A number of the header is above 65,535.
    Header {
        /// Which number.
        field: HeaderField,
        /// What it is.
        value: usize,
    },
    /// A number of a board is above 65,535.
    Board {
        /// The board.
        rank: usize,
        /// Which number.
        field: BoardField,
        /// What it is.
        value: usize,
    },
    /// A board has a standard room, and the sheet is of edition 1, which has
    /// none. [`Sheet::build_in`](crate::Sheet::build_in) lays out edition 2.
    FirstEdition {
        /// The board.
        rank: usize,
        /// Its standard room.
        room: usize,
    },
    /// A number of an operation is above 65,535.
    Operation {
        /// The operation, counted from 0 over the whole sheet.
        index: usize,
        /// Which number.
        field: OperationField,
        /// What it is.
        value: usize,
    },
    /// A receive or a probe names the rank or the tag 65,535, which stands for
    /// any in a sheet. [`Source::Any`](crate::Source::Any) and
    /// [`Tag::Any`](crate::Tag::Any) say that.
    MeansAny {
        /// The operation, counted from 0 over the whole sheet.
        index: usize,
        /// The peer or the tag.
        field: OperationField,
    },
}

/// A number in the header of a sheet.
#[derive(Clone, Copy, Debug, PartialEq, Eq, Hash)]
pub enum HeaderField {
    /// The number of boards.
    Boards,
    /// The number of communicators.
    Communicators,
    /// The number of operations, all scripts together.
    Operations,
    /// Where the operation table starts: behind the board table.
    OperationTable,
    /// Where the payload starts: behind the operation table.
    Payload,
    /// The number of payload bytes.
    PayloadLength,
}

/// A number in a board entry of a sheet.
#[derive(Clone, Copy, Debug, PartialEq, Eq, Hash)]
pub enum BoardField {
    /// The size of the attached buffer.
    Attached,
    /// The size of the inbox.
    Inbox,
    /// The size of the standard room, in edition 2.
    StandardRoom,
}

/// A number of an operation.
#[derive(Clone, Copy, Debug, PartialEq, Eq, Hash)]
pub enum OperationField {
    /// The rank that a send is addressed to, or the source of a receive or
    /// probe.
    Peer,
    /// The communicator.
    Communicator,
    /// The tag.
    Tag,
    /// Where the message or the area starts.
    Offset,
    /// The length of the message, or the capacity of the area.
    Length,
    /// The request slot.
    Slot,
}

/// The number as a field has it, if it fits.
pub(crate) fn fit(value: usize) -> Option<u16> {
    u16::try_from(value).ok()
}

impl fmt::Display for BuildError {
    fn fmt(&self, out: &mut fmt::Formatter) -> fmt::Result {
        let (what, value) = match self {
            BuildError::Header { field, value } => (field.to_string(), value),
            BuildError::Board { rank, field, value } => (format!("{field} of rank {rank}"), value),
            BuildError::FirstEdition { rank, room } => {
                return write!(
                    out,
                    "rank {rank} has a standard room of {room}, and edition 1 has no standard rooms"
                )
            }
            BuildError::Operation {
                index,
                field,
                value,
            } => (format!("{field} of operation {index}"), value),
            BuildError::MeansAny { index, field } => {
                return write!(
                    out,
                    "the {field} of operation {index} is 65535, which stands for any"
                )
            }
        };
        write!(
            out,
            "the {what} is {value}, which does not fit into 16 bits"
        )
    }
}

impl fmt::Display for HeaderField {
    fn fmt(&self, out: &mut fmt::Formatter) -> fmt::Result {
        out.write_str(match self {
            HeaderField::Boards => "number of boards",
            HeaderField::Communicators => "number of communicators",
            HeaderField::Operations => "number of operations",
            HeaderField::OperationTable => "offset of the operation table",
            HeaderField::Payload => "offset of the payload",
            HeaderField::PayloadLength => "number of payload bytes",
        })
    }
}

impl fmt::Display for BoardField {
    fn fmt(&self, out: &mut fmt::Formatter) -> fmt::Result {
        out.write_str(match self {
            BoardField::Attached => "attached buffer size",
            BoardField::Inbox => "inbox size",
            BoardField::StandardRoom => "standard room",
        })
    }
}

impl fmt::Display for OperationField {
    fn fmt(&self, out: &mut fmt::Formatter) -> fmt::Result {
        out.write_str(match self {
            OperationField::Peer => "peer",
            OperationField::Communicator => "communicator",
            OperationField::Tag => "tag",
            OperationField::Offset => "offset",
            OperationField::Length => "length or capacity",
            OperationField::Slot => "request slot",
        })
    }
}

impl Error for BuildError {}
