//! The operations of a script by name (document 01, The sheet, byte by byte).

/// What happens to a send that meets no posted receive (document 01, How a
/// board steps). The number is the operation's kind in a sheet.
#[derive(Clone, Copy, Debug, PartialEq, Eq, Hash)]
pub enum Mode {
    /// Stays pending until it is matched. In edition 2 it is complete at once
    /// where it fits its board's standard room
    /// ([`Board::standard_room`](crate::Board::standard_room)); it never
    /// overflows.
    Standard = 1,
    /// Complete at once where the attached buffer has room, else the job stops
    /// with [`Overflow`](crate::Verdict::Overflow).
    Buffered = 2,
    /// Stays pending until it is matched.
    Synchronous = 3,
    /// Stops the job with [`NotReady`](crate::Verdict::NotReady).
    Ready = 4,
}

/// From whom a receive takes a message, and of whom a probe tells one.
#[derive(Clone, Copy, Debug, PartialEq, Eq, Hash)]
pub enum Source {
    /// From this rank alone.
    Rank(usize),
    /// From any rank. The order of steps can then decide what is received or
    /// told.
    Any,
}

/// Which messages a receive takes or a probe tells.
#[derive(Clone, Copy, Debug, PartialEq, Eq, Hash)]
pub enum Tag {
    /// Those with this tag.
    Is(usize),
    /// Those with any tag.
    Any,
}

/// A send. The message is a stretch of the sheet's payload; sends may share
/// it.
#[derive(Clone, Copy, Debug, PartialEq, Eq, Hash)]
pub struct SendOperation {
    /// What happens where no receive is posted that fits.
    pub mode: Mode,
    /// The rank that the message is addressed to.
    pub to: usize,
    /// The communicator.
    pub communicator: usize,
    /// The tag.
    pub tag: usize,
    /// Where the message starts in the payload.
    pub offset: usize,
    /// The message's length.
    pub length: usize,
    /// The request slot of a nonblocking send; none for a blocking one. A later
    /// wait of the board has to free it.
    pub slot: Option<usize>,
}

/// A receive. Its area is a stretch of the board's own inbox.
#[derive(Clone, Copy, Debug, PartialEq, Eq, Hash)]
pub struct ReceiveOperation {
    /// From whom.
    pub from: Source,
    /// The communicator.
    pub communicator: usize,
    /// Which messages.
    pub tag: Tag,
    /// Where the area starts in the inbox.
    pub offset: usize,
    /// The area's length. A longer message is cut: its first bytes fill the
    /// area.
    pub capacity: usize,
    /// The request slot of a nonblocking receive; none for a blocking one. A
    /// later wait of the board has to free it.
    pub slot: Option<usize>,
}

/// A blocking probe (`MPI_PROBE`; document 02, K9): it waits for a pending
/// message to its board that fits it, as a message fits a receive. Its row tells
/// source, tag and full length of the earliest arrived one
/// ([`OperationRow::probed`](crate::OperationRow::probed)). It takes nothing: a
/// receive of the told source and tag that stands next in the script, on the
/// same communicator, gets the told message, whatever other boards do in
/// between.
///
/// ```
/// use jamturret::{run, Board, Mode, ProbeOperation, ReceiveOperation, SendOperation};
/// use jamturret::{Sheet, Source, Tag};
///
/// // Rank 1 learns how long the message of rank 0 is, and receives as much.
/// let sender = Board::new().then(SendOperation::new(Mode::Synchronous, 1).tag(7).bytes(0, 3));
/// let receive = ReceiveOperation::new(Source::Rank(0)).tag(Tag::Is(7)).area(0, 3);
/// let receiver = Board::new()
///     .inbox(3)
///     .then(ProbeOperation::new(Source::Rank(0)).tag(Tag::Any))
///     .then(receive);
/// let outcome = run(Sheet::build(1, vec![sender, receiver], b"JAM")?, None)?;
/// let told = outcome.report.operation(1).and_then(|row| row.probed()).ok_or("not told")?;
/// assert_eq!((told.source, told.tag, told.length), (0, 7, 3));
/// assert_eq!(outcome.report.operation(2).and_then(|row| row.status), Some(told));
/// assert_eq!(outcome.inboxes[1], *b"JAM");
/// # Ok::<(), Box<dyn std::error::Error>>(())
/// ```
#[derive(Clone, Copy, Debug, PartialEq, Eq, Hash)]
pub struct ProbeOperation {
    /// Of whom.
    pub from: Source,
    /// The communicator.
    pub communicator: usize,
    /// Which messages.
    pub tag: Tag,
}

/// One operation of a script.
///
/// ```
/// use jamturret::{Mode, Operation, ReceiveOperation, SendOperation, Source, Tag};
///
/// // A synchronous send of payload bytes 0 to 2 to rank 1, tag 7.
/// let send = SendOperation::new(Mode::Synchronous, 1).tag(7).bytes(0, 3);
/// // A nonblocking receive from any rank with any tag into inbox bytes 4 to 7,
/// // on communicator 2, with request slot 5; and the wait for it.
/// let receive = ReceiveOperation::new(Source::Any)
///     .tag(Tag::Any)
///     .area(4, 4)
///     .on(2)
///     .nonblocking(5);
/// let script: [Operation; 3] = [send.into(), receive.into(), Operation::Wait { slot: 5 }];
/// ```
#[derive(Clone, Copy, Debug, PartialEq, Eq, Hash)]
pub enum Operation {
    /// A send.
    Send(SendOperation),
    /// A receive.
    Receive(ReceiveOperation),
    /// A wait for the nonblocking operation that holds a slot; it frees the
    /// slot. Each nonblocking operation needs one, later in its board's script:
    /// a sheet that forgets it is refused
    /// ([`Refusal::Request`](crate::Refusal::Request); document 02, K7).
    Wait {
        /// The request slot.
        slot: usize,
    },
    /// A probe.
    Probe(ProbeOperation),
    /// A query whether the nonblocking operation that holds a slot is complete
    /// (`MPI_REQUEST_GET_STATUS`; document 02, K9). It waits for nothing and
    /// leaves the slot held. Its row tells the answer
    /// ([`OperationRow::queried`](crate::OperationRow::queried)), which the order
    /// of steps decides.
    ///
    /// ```
    /// use jamturret::{run, Board, Mode, Operation, SendOperation, Sheet};
    ///
    /// // Nobody receives: only the buffered send is complete when it is asked for.
    /// for (mode, complete) in [(Mode::Standard, false), (Mode::Buffered, true)] {
    ///     let sender = Board::new()
    ///         .attached(32)
    ///         .then(SendOperation::new(mode, 1).nonblocking(5))
    ///         .then(Operation::StatusQuery { slot: 5 })
    ///         .then(Operation::Wait { slot: 5 });
    ///     let outcome = run(Sheet::build(1, vec![sender, Board::new()], &[])?, None)?;
    ///     let row = outcome.report.operation(1).ok_or("a row")?;
    ///     assert_eq!(row.queried(), Some(complete));
    /// }
    /// # Ok::<(), Box<dyn std::error::Error>>(())
    /// ```
    StatusQuery {
        /// The request slot.
        slot: usize,
    },
}

impl SendOperation {
    /// A blocking send of an empty message with tag 0 on communicator 0.
    pub fn new(mode: Mode, to: usize) -> SendOperation {
        SendOperation {
            mode,
            to,
            communicator: 0,
            tag: 0,
            offset: 0,
            length: 0,
            slot: None,
        }
    }

    /// The same with this tag.
    pub fn tag(self, tag: usize) -> SendOperation {
        SendOperation { tag, ..self }
    }

    /// The same with this stretch of the payload as its message.
    pub fn bytes(self, offset: usize, length: usize) -> SendOperation {
        SendOperation {
            offset,
            length,
            ..self
        }
    }

    /// The same on this communicator.
    pub fn on(self, communicator: usize) -> SendOperation {
        SendOperation {
            communicator,
            ..self
        }
    }

    /// The same, nonblocking with this request slot, which a later
    /// [`Operation::Wait`] has to free.
    pub fn nonblocking(self, slot: usize) -> SendOperation {
        SendOperation {
            slot: Some(slot),
            ..self
        }
    }
}

impl ReceiveOperation {
    /// A blocking receive with tag 0 on communicator 0 into an empty area.
    pub fn new(from: Source) -> ReceiveOperation {
        ReceiveOperation {
            from,
            communicator: 0,
            tag: Tag::Is(0),
            offset: 0,
            capacity: 0,
            slot: None,
        }
    }

    /// The same for messages with this tag.
    pub fn tag(self, tag: Tag) -> ReceiveOperation {
        ReceiveOperation { tag, ..self }
    }

    /// The same into this stretch of the board's inbox.
    pub fn area(self, offset: usize, capacity: usize) -> ReceiveOperation {
        ReceiveOperation {
            offset,
            capacity,
            ..self
        }
    }

    /// The same on this communicator.
    pub fn on(self, communicator: usize) -> ReceiveOperation {
        ReceiveOperation {
            communicator,
            ..self
        }
    }

    /// The same, nonblocking with this request slot, which a later
    /// [`Operation::Wait`] has to free.
    pub fn nonblocking(self, slot: usize) -> ReceiveOperation {
        ReceiveOperation {
            slot: Some(slot),
            ..self
        }
    }
}

impl ProbeOperation {
    /// A probe for messages with tag 0 on communicator 0.
    pub fn new(from: Source) -> ProbeOperation {
        ProbeOperation {
            from,
            communicator: 0,
            tag: Tag::Is(0),
        }
    }

    /// The same for messages with this tag.
    pub fn tag(self, tag: Tag) -> ProbeOperation {
        ProbeOperation { tag, ..self }
    }

    /// The same on this communicator.
    pub fn on(self, communicator: usize) -> ProbeOperation {
        ProbeOperation {
            communicator,
            ..self
        }
    }
}

impl From<SendOperation> for Operation {
    fn from(send: SendOperation) -> Operation {
        Operation::Send(send)
    }
}

impl From<ReceiveOperation> for Operation {
    fn from(receive: ReceiveOperation) -> Operation {
        Operation::Receive(receive)
    }
}

impl From<ProbeOperation> for Operation {
    fn from(probe: ProbeOperation) -> Operation {
        Operation::Probe(probe)
    }
}
