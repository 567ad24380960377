//! CRC-16: polynomial 1021 hex, start FFFF hex, high bit first, no final
//! change (document 01, The sheet, byte by byte; catalogue entry
//! CRC-16/IBM-3740), one byte at a time through a table of remainders.

use crate::layout::{header, HEADER_BYTES};

const POLYNOMIAL: u16 = 0x1021;
const START: u16 = 0xFFFF;

static REMAINDERS: [u16; 256] = remainders();

/// Entry i is what eight shifts make of i in the high byte.
const fn remainders() -> [u16; 256] {
    let mut table = [0; 256];
    let mut index = 0;
    while index < 256 {
        let mut value = (index as u16) << 8;
        let mut shift = 0;
        while shift < 8 {
            let carry = value & 0x8000 != 0;
            value <<= 1;
            if carry {
                value ^= POLYNOMIAL;
            }
            shift += 1;
        }
        table[index] = value;
        index += 1;
    }
    table
}

fn more(mut crc: u16, bytes: &[u8]) -> u16 {
    for &byte in bytes {
        crc = (crc << 8) ^ REMAINDERS[usize::from((crc >> 8) as u8 ^ byte)];
    }
    crc
}

/// The CRC of plain bytes, as the catalogue's vectors give it.
pub fn crc(bytes: &[u8]) -> u16 {
    more(START, bytes)
}

/// The CRC of a sheet of at least 16 bytes: all but the CRC field itself.
pub fn crc_of_sheet(sheet: &[u8]) -> u16 {
    more(crc(&sheet[..header::CRC]), &sheet[HEADER_BYTES..])
}
