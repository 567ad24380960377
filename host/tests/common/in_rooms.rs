//! Sheets of the tests of edition 2.

use jamturret_host::sheet::{Operation, Sheet};

/// A board a script, with inboxes of 16 bytes, nothing attached, and these rooms.
pub fn in_rooms(scripts: &[&[Operation]], rooms: &[u16]) -> Sheet {
    Sheet::of_scripts(scripts, 16).with_rooms(rooms)
}
