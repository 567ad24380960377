//! Sheets of the tests of probes and queries.

use jamturret_host::sheet::{Operation, Sheet};

/// Two communicators, inboxes of 16 bytes, and on each board room for two
/// messages of three bytes.
pub fn sheet(scripts: &[&[Operation]]) -> Vec<u8> {
    let mut sheet = Sheet::of_scripts(scripts, 16);
    sheet.communicators = 2;
    sheet
        .boards
        .iter_mut()
        .for_each(|board| board.attached = 70);
    sheet.bytes()
}
