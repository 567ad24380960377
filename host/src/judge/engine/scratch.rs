//! Where the parts of a job stand in the lent scratch.

use crate::layout::{Edition, MOST_BOARDS, MOST_OPERATIONS};

/// An operation's row in the report's own format: state, cut, partner,
/// source, tag, message length, zero.
pub type Row = [u8; 12];

/// A board's place: operations finished, buffer in use, peak, whether it is in a
/// waiting half, standard use, standard peak. The numbers stand where they do in
/// a row of edition 2.
pub type Place = [u8; PLACE];
const PLACE: usize = Edition::Second.board_row_bytes();

/// Nothing entered: no partner and no status.
pub const BARE: Row = [0, 0, 255, 255, 255, 255, 255, 255, 0, 0, 0, 0];

pub struct Scratch<'a> {
    pub rows: &'a mut [Row],
    pub places: &'a mut [Place],
    pub messages: &'a mut [[u8; 2]],
    pub receives: &'a mut [[u8; 2]],
    /// The rank of each operation.
    pub ranks: &'a mut [u8],
    /// For each wait or query the operation that holds its slot.
    pub awaited: &'a mut [[u8; 2]],
}

impl<'a> Scratch<'a> {
    /// `bytes` is long enough (refusal 8).
    pub fn over(bytes: &'a mut [u8]) -> Scratch<'a> {
        let (rows, rest) = bytes.split_at_mut(12 * MOST_OPERATIONS);
        let (places, rest) = rest.split_at_mut(PLACE * MOST_BOARDS);
        let (messages, rest) = rest.split_at_mut(2 * MOST_OPERATIONS);
        let (receives, rest) = rest.split_at_mut(2 * MOST_OPERATIONS);
        let (ranks, rest) = rest.split_at_mut(MOST_OPERATIONS);
        let (awaited, _) = rest.split_at_mut(2 * MOST_OPERATIONS);
        Scratch {
            rows: rows.as_chunks_mut().0,
            places: places.as_chunks_mut().0,
            messages: messages.as_chunks_mut().0,
            receives: receives.as_chunks_mut().0,
            ranks,
            awaited: awaited.as_chunks_mut().0,
        }
    }
}
