//! The services, with rooms allocated and answers in words. A sheet is passed
//! as `&Sheet` or as bytes.

use crate::lent;
use crate::limits::{order_room, MOST_INBOXES, MOST_OPERATIONS, MOST_REPORT_ROOM, SCRATCH_ROOM};
use crate::premise::Premise;
use crate::refusal::Refusal;
use crate::report::Report;
use crate::tables::Tables;
use crate::words::split;

/// What a job left: its report, the inboxes and the order of its steps.
#[derive(Clone, Debug, PartialEq, Eq)]
pub struct Outcome {
    /// The report.
    pub report: Report,
    /// The inbox of each board by rank. `inboxes.concat()` can be the starting
    /// bytes of another call.
    pub inboxes: Vec<Vec<u8>>,
    /// The ranks in the order of their steps: chosen by [`run`], given to
    /// [`follow`].
    pub order: Vec<u8>,
}

/// Checks a sheet. Refusals 1 to 7.
pub fn check(sheet: impl AsRef<[u8]>) -> Result<(), Refusal> {
    let sheet = sheet.as_ref();
    lent::check(sheet).result(sheet)
}

/// Says whether the order of steps can matter for a sheet. Refusals 1 to 7.
///
/// ```
/// use jamturret::{premise, Board, Premise, ReceiveOperation, Sheet, Source};
///
/// let receiver = Board::new().then(ReceiveOperation::new(Source::Any));
/// let sheet = Sheet::build(1, vec![receiver], &[])?;
/// let premise = premise(&sheet)?;
/// assert_eq!(premise, Premise::AnySource { operation: 0 });
/// assert_eq!(
///     premise.to_string(),
///     "number 20, place 0: another order may end otherwise: \
///      operation 0 receives or probes from any source"
/// );
/// # Ok::<(), Box<dyn std::error::Error>>(())
/// ```
pub fn premise(sheet: impl AsRef<[u8]>) -> Result<Premise, Refusal> {
    let sheet = sheet.as_ref();
    Premise::of_answer(lent::premise(sheet), sheet)
}

/// Runs a sheet, at each step the lowest rank that is able, from these inbox
/// bytes: all inboxes one after another in rank order, or zeros where there
/// are none. Refusals 1 to 8.
///
/// The verdict holds for this one order. It is known to hold for every full
/// order exactly where [`premise`] holds.
///
/// Fewer starting bytes than the inboxes of the sheet have are refused with 8,
/// [`Room::Inbox`](crate::Room::Inbox); no other room can be short. Where
/// there are more, the first ones are taken (document 01: longer room is
/// accepted).
///
/// ```
/// use jamturret::{run, Board, Mode, ReceiveOperation, SendOperation, Sheet, Source};
///
/// let sender = Board::new().then(SendOperation::new(Mode::Standard, 1).bytes(0, 3));
/// let receiver = Board::new()
///     .inbox(4)
///     .then(ReceiveOperation::new(Source::Rank(0)).area(0, 4));
/// let sheet = Sheet::build(1, vec![sender, receiver], b"JAM")?;
///
/// let outcome = run(&sheet, Some(b"...."))?;
/// assert_eq!(outcome.inboxes, [&b""[..], &b"JAM."[..]]);
/// assert_eq!(outcome.order, [0, 1, 0, 1]);
/// assert!(run(&sheet, Some(b"...")).is_err());
/// # Ok::<(), Box<dyn std::error::Error>>(())
/// ```
pub fn run(sheet: impl AsRef<[u8]>, inboxes: Option<&[u8]>) -> Result<Outcome, Refusal> {
    let sheet = sheet.as_ref();
    let mut rooms = Rooms::starting_from(inboxes);
    let mut order = vec![0; order_room(MOST_OPERATIONS)];
    let answer = lent::run(
        sheet,
        &mut rooms.inbox,
        &mut rooms.report,
        &mut order,
        &mut rooms.scratch,
    );
    answer.result(sheet)?;
    rooms.outcome(sheet, order).ok_or(UNREADABLE)
}

/// Follows a sheet with an order of ranks, one byte a step, from these inbox
/// bytes, which are those of [`run`]. The order may stop early; the verdict is
/// then [`StillAble`](crate::Verdict::StillAble) where a board can still step.
/// Refusals 1 to 8 as [`run`] gives them, and 9 with the index in the order.
///
/// ```
/// use jamturret::{follow, Board, Mode, ReceiveOperation, Refusal, SendOperation};
/// use jamturret::{Sheet, Source, Verdict};
///
/// // A ready send, and the receive that has to be posted before it.
/// let sender = Board::new().then(SendOperation::new(Mode::Ready, 1));
/// let receiver = Board::new().then(ReceiveOperation::new(Source::Rank(0)));
/// let sheet = Sheet::build(1, vec![sender, receiver], &[])?;
///
/// let verdict = |order| follow(&sheet, order, None).map(|outcome| outcome.report.verdict());
/// assert_eq!(verdict(&[1, 0, 0, 1])?, Verdict::Finished);
/// assert_eq!(verdict(&[1])?, Verdict::StillAble);
/// assert_eq!(verdict(&[0])?, Verdict::NotReady);
/// assert_eq!(verdict(&[1, 1]), Err(Refusal::Order { index: 1 }));
/// # Ok::<(), Box<dyn std::error::Error>>(())
/// ```
pub fn follow(
    sheet: impl AsRef<[u8]>,
    order: &[u8],
    inboxes: Option<&[u8]>,
) -> Result<Outcome, Refusal> {
    let sheet = sheet.as_ref();
    let mut rooms = Rooms::starting_from(inboxes);
    let answer = lent::follow(
        sheet,
        order,
        &mut rooms.inbox,
        &mut rooms.report,
        &mut rooms.scratch,
    );
    answer.result(sheet)?;
    rooms.outcome(sheet, order.to_vec()).ok_or(UNREADABLE)
}

/// Number 0, and no outcome that can be read.
const UNREADABLE: Refusal = Refusal::Unknown {
    number: 0,
    place: 0,
};

/// The rooms lent to both services. All but the inboxes that a caller starts
/// from are as large as any sheet needs.
struct Rooms {
    inbox: Vec<u8>,
    report: Vec<u8>,
    scratch: Vec<u8>,
}

impl Rooms {
    fn starting_from(inboxes: Option<&[u8]>) -> Rooms {
        Rooms {
            inbox: inboxes.map_or_else(|| vec![0; MOST_INBOXES], <[u8]>::to_vec),
            report: vec![0; MOST_REPORT_ROOM],
            scratch: vec![0; SCRATCH_ROOM],
        }
    }

    /// What a call that was not refused has left.
    fn outcome(&self, sheet: &[u8], mut order: Vec<u8>) -> Option<Outcome> {
        let tables = Tables::of(sheet)?;
        let length = tables.edition.report_room(tables.boards, tables.operations);
        let (report, _) = split(&self.report, length)?;
        let report = Report::parse(report).ok()?;
        order.truncate(report.steps());
        let mut rest = self.inbox.as_slice();
        let mut inboxes = Vec::new();
        for entry in tables.entries() {
            let (inbox, after) = split(rest, entry.inbox)?;
            inboxes.push(inbox.to_vec());
            rest = after;
        }
        Some(Outcome {
            report,
            inboxes,
            order,
        })
    }
}
