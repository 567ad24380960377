//! CRC vectors: the catalogue's check value of CRC-16/IBM-3740, and values
//! that can be worked out by hand; and the library's CRC of a sheet.

use jamturret_host::guarded;
use jamturret_host::judge::crc::crc;
use jamturret_host::judge::naive;
use jamturret_host::random::Random;

fn both(bytes: &[u8], expected: u16) {
    assert_eq!(crc(bytes), expected, "by table, {bytes:02X?}");
    assert_eq!(
        naive::crc(bytes),
        u64::from(expected),
        "by bits, {bytes:02X?}"
    );
}

#[test]
fn catalogue_check_value() {
    both(b"123456789", 0x29B1);
}

#[test]
fn no_bytes_leave_the_start_value() {
    both(&[], 0xFFFF);
}

/// FF cancels the start value's high byte: FF 00 is what eight shifts leave,
/// and a second FF cancels that.
#[test]
fn ones_cancel_the_start_value() {
    both(&[0xFF], 0xFF00);
    both(&[0xFF, 0xFF], 0x0000);
    both(&[0xFF, 0xFF, 0x00, 0x00], 0x0000);
}

/// From register 0 a byte 01 leaves the polynomial itself.
#[test]
fn one_leaves_the_polynomial() {
    both(&[0xFF, 0xFF, 0x01], 0x1021);
    both(&[0xFF, 0xFF, 0x80], 0x9188);
}

#[test]
fn one_zero_byte() {
    both(&[0x00], 0xE1F0);
}

/// A message followed by its own CRC, high byte first, leaves nothing.
#[test]
fn own_crc_leaves_nothing() {
    let mut random = Random::new(1);
    for length in 0..200 {
        let mut bytes = random.bytes(length);
        let value = crc(&bytes);
        bytes.extend(value.to_be_bytes());
        both(&bytes, 0);
    }
}

/// The CRC that the library gives to a sheet.
fn library(sheet: &[u8]) -> u16 {
    guarded::crc(sheet, &mut Random::new(sheet.len() as u64)).expect("it is only read")
}

/// Bytes 14 and 15, where the CRC stands, do not count.
#[test]
fn library_leaves_the_field_out() {
    assert_eq!(library(b""), 0xFFFF);
    assert_eq!(library(b"123456789"), 0x29B1);
    let mut random = Random::new(2);
    for length in 0..300 {
        let sheet = random.bytes(length);
        let counted = sheet.iter().enumerate();
        let counted = counted.filter(|(at, _)| !(14..16).contains(at));
        let counted: Vec<u8> = counted.map(|(_, &byte)| byte).collect();
        both(&counted, library(&sheet));
    }
}
