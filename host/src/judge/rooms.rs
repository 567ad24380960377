//! The rooms lent to *follow* and *run*, and refusal 8 (document 01, When the
//! desk says no).

use crate::layout::Edition;

/// Bytes of scratch, whatever the sheet.
pub const SCRATCH_ROOM: usize = 65_536;

/// What is lent to both services.
pub struct Rooms<'a> {
    pub inbox: &'a mut [u8],
    pub report: &'a mut [u8],
    pub scratch: &'a mut [u8],
}

/// The numbers of an accepted sheet that rooms depend on.
#[derive(Clone, Copy)]
pub struct Needs {
    pub edition: Edition,
    pub boards: usize,
    pub operations: usize,
    /// All inboxes together.
    pub inbox: usize,
}

impl Needs {
    pub fn report(&self) -> usize {
        self.edition.report_bytes(self.boards, self.operations)
    }

    pub fn order_out(&self) -> usize {
        2 * self.operations
    }
}

impl Rooms<'_> {
    /// The place of refusal 8 if it applies: the first short one. Follow has
    /// no order out.
    pub fn short(&self, needs: &Needs, order_out: Option<usize>) -> Option<u64> {
        if self.inbox.len() < needs.inbox {
            Some(1)
        } else if self.report.len() < needs.report() {
            Some(2)
        } else if order_out.is_some_and(|room| room < needs.order_out()) {
            Some(3)
        } else if self.scratch.len() < SCRATCH_ROOM {
            Some(4)
        } else {
            None
        }
    }
}
