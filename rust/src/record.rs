//! An operation as the 16 bytes that it has in a sheet (document 01, The
//! sheet, byte by byte), written and read.

use crate::build_error::{fit, BuildError, OperationField};
use crate::limits::ANY;
use crate::operation::{
    Mode, Operation, ProbeOperation, ReceiveOperation, SendOperation, Source, Tag,
};
use crate::words::{push_words, words};

const RECEIVE: u8 = 5;
const WAIT: u8 = 6;
const PROBE: u8 = 7;
const STATUS_QUERY: u8 = 8;

/// The fields in the order of the bytes, save flag and zero.
struct Record {
    kind: u8,
    peer: usize,
    communicator: usize,
    tag: usize,
    offset: usize,
    length: usize,
    /// None for operations without a slot, which have flag 0 and slot 0.
    slot: Option<usize>,
}

/// Whether a kind names a slot that an earlier operation holds: its flag is 0.
fn names_held_slot(kind: u8) -> bool {
    matches!(kind, WAIT | STATUS_QUERY)
}

impl Operation {
    /// Appends the bytes of operation `index`.
    pub(crate) fn write(&self, index: usize, out: &mut Vec<u8>) -> Result<(), BuildError> {
        let means_any = |field| BuildError::MeansAny { index, field };
        let record = Record::of(self).map_err(means_any)?;
        let fit = |field, value| {
            fit(value).ok_or(BuildError::Operation {
                index,
                field,
                value,
            })
        };
        let nonblocking = record.slot.is_some() && !names_held_slot(record.kind);
        out.extend([record.kind, u8::from(nonblocking)]);
        push_words(
            out,
            &[
                fit(OperationField::Peer, record.peer)?,
                fit(OperationField::Communicator, record.communicator)?,
                0,
                fit(OperationField::Tag, record.tag)?,
                fit(OperationField::Offset, record.offset)?,
                fit(OperationField::Length, record.length)?,
                fit(OperationField::Slot, record.slot.unwrap_or(0))?,
            ],
        );
        Ok(())
    }

    /// The operation with these bytes, if its kind is one. Of a sheet that
    /// passes check every one is.
    pub(crate) fn read(bytes: &[u8]) -> Option<Operation> {
        let [kind, flag, fields @ ..] = bytes else {
            return None;
        };
        let [peer, communicator, _zero, tag, offset, length, slot] = words(fields)?;
        let record = Record {
            kind: *kind,
            peer,
            communicator,
            tag,
            offset,
            length,
            slot: (*flag == 1 || names_held_slot(*kind)).then_some(slot),
        };
        record.operation()
    }
}

impl Record {
    /// Where a receive or a probe names the number that stands for any, the
    /// field.
    fn of(operation: &Operation) -> Result<Record, OperationField> {
        Ok(match *operation {
            Operation::Send(send) => Record {
                kind: send.mode as u8,
                peer: send.to,
                communicator: send.communicator,
                tag: send.tag,
                offset: send.offset,
                length: send.length,
                slot: send.slot,
            },
            Operation::Receive(receive) => Record {
                kind: RECEIVE,
                peer: receive.from.number()?,
                communicator: receive.communicator,
                tag: receive.tag.number()?,
                offset: receive.offset,
                length: receive.capacity,
                slot: receive.slot,
            },
            Operation::Wait { slot } => Record::of_held_slot(WAIT, slot),
            Operation::Probe(probe) => Record {
                kind: PROBE,
                peer: probe.from.number()?,
                communicator: probe.communicator,
                tag: probe.tag.number()?,
                offset: 0,
                length: 0,
                slot: None,
            },
            Operation::StatusQuery { slot } => Record::of_held_slot(STATUS_QUERY, slot),
        })
    }

    /// All but kind and slot are 0.
    fn of_held_slot(kind: u8, slot: usize) -> Record {
        Record {
            kind,
            peer: 0,
            communicator: 0,
            tag: 0,
            offset: 0,
            length: 0,
            slot: Some(slot),
        }
    }

    fn operation(self) -> Option<Operation> {
        Some(match self.kind {
            RECEIVE => Operation::Receive(ReceiveOperation {
                from: Source::of_number(self.peer),
                communicator: self.communicator,
                tag: Tag::of_number(self.tag),
                offset: self.offset,
                capacity: self.length,
                slot: self.slot,
            }),
            WAIT => Operation::Wait { slot: self.slot? },
            PROBE => Operation::Probe(ProbeOperation {
                from: Source::of_number(self.peer),
                communicator: self.communicator,
                tag: Tag::of_number(self.tag),
            }),
            STATUS_QUERY => Operation::StatusQuery { slot: self.slot? },
            kind => Operation::Send(SendOperation {
                mode: Mode::of_kind(kind)?,
                to: self.peer,
                communicator: self.communicator,
                tag: self.tag,
                offset: self.offset,
                length: self.length,
                slot: self.slot,
            }),
        })
    }
}

impl Source {
    fn number(self) -> Result<usize, OperationField> {
        match self {
            Source::Rank(ANY) => Err(OperationField::Peer),
            Source::Rank(rank) => Ok(rank),
            Source::Any => Ok(ANY),
        }
    }

    fn of_number(peer: usize) -> Source {
        match peer {
            ANY => Source::Any,
            rank => Source::Rank(rank),
        }
    }
}

impl Tag {
    fn number(self) -> Result<usize, OperationField> {
        match self {
            Tag::Is(ANY) => Err(OperationField::Tag),
            Tag::Is(tag) => Ok(tag),
            Tag::Any => Ok(ANY),
        }
    }

    fn of_number(tag: usize) -> Tag {
        match tag {
            ANY => Tag::Any,
            tag => Tag::Is(tag),
        }
    }
}

impl Mode {
    fn of_kind(kind: u8) -> Option<Mode> {
        let modes = [
            Mode::Standard,
            Mode::Buffered,
            Mode::Synchronous,
            Mode::Ready,
        ];
        modes.into_iter().find(|&mode| mode as u8 == kind)
    }
}
