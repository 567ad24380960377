//! FNV-1a with 64 bits: exclusive or with a byte, then a multiplication.

const START: u64 = 0xCBF2_9CE4_8422_2325;
const PRIME: u64 = 0x0000_0100_0000_01B3;

pub struct Digest(u64);

impl Digest {
    pub fn new() -> Digest {
        Digest(START)
    }

    fn add(&mut self, bytes: &[u8]) {
        for &byte in bytes {
            self.0 = (self.0 ^ u64::from(byte)).wrapping_mul(PRIME);
        }
    }

    pub fn number(&mut self, number: u64) {
        self.add(&number.to_le_bytes());
    }

    /// The length goes first, so that two rooms next to each other are told
    /// apart from one.
    pub fn bytes(&mut self, bytes: &[u8]) {
        self.number(bytes.len() as u64);
        self.add(bytes);
    }

    pub fn whole(&self) -> u64 {
        self.0
    }

    /// Both halves, as one number of 32 bits.
    pub fn short(&self) -> u32 {
        (self.0 >> 32) as u32 ^ self.0 as u32
    }
}
