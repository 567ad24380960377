//! What the tests share: a seeded generator of numbers, random parts of
//! sheets, the sample sheets of the repository, and a sheet's CRC.

// Each test program uses a part of it.
#![allow(dead_code)]

pub mod parts;
#[path = "../../../host/src/random.rs"]
pub mod random;

use jamturret::lent;
use std::fs;
use std::path::Path;

/// The bytes of a sample sheet. They were laid out by another program than
/// this crate.
pub fn sample(name: &str) -> Vec<u8> {
    let folder = Path::new(env!("CARGO_MANIFEST_DIR")).join("../sheets");
    let file = folder.join(name).with_extension("sheet");
    fs::read(&file).unwrap_or_else(|error| panic!("{}: {error}", file.display()))
}

/// Writes the right CRC, if there is room for one.
pub fn mend_crc(bytes: &mut [u8]) {
    let crc = lent::crc(bytes);
    if let Some(place) = bytes.get_mut(14..16) {
        place.copy_from_slice(&crc.to_le_bytes());
    }
}
