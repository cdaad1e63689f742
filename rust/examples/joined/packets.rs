//! The packets that are offered: each has a number of its own, which stands in its addresses and says all its bytes.
use crate::lot::Lot;

pub const SHORTEST: u64 = 40;
pub const LONGEST: u64 = 9000;
const HEADER: usize = SHORTEST as usize;
/// Where the number stands: the last half of the source address.
const NUMBER: std::ops::Range<usize> = 16..24;
const STARTS: u64 = 4096;

pub struct Packets {
    noise: Vec<u8>,
}

impl Packets {
    pub fn new(lot: &mut Lot) -> Packets {
        Packets { noise: (0..STARTS + LONGEST).map(|_| lot.word() as u8).collect() }
    }

    fn header(number: u64, length: u64) -> [u8; HEADER] {
        let mut header = [0; HEADER];
        header[0] = 0x60;
        header[4..6].copy_from_slice(&((length - SHORTEST) as u16).to_be_bytes());
        header[6..9].copy_from_slice(&[59, 64, 0xfd]);
        header[NUMBER].copy_from_slice(&number.to_be_bytes());
        header[24] = 0xfd;
        header
    }

    fn payload(&self, number: u64, length: u64) -> &[u8] {
        let start = (number % STARTS) as usize;
        &self.noise[start..start + length as usize - HEADER]
    }

    /// Puts the packet of this number and length behind what stands in a buffer.
    pub fn append(&self, number: u64, length: u64, buffer: &mut Vec<u8>) {
        buffer.extend_from_slice(&Packets::header(number, length));
        buffer.extend_from_slice(self.payload(number, length));
    }

    /// Whether bytes are the packet of this number and length.
    pub fn is(&self, number: u64, length: u64, bytes: &[u8]) -> bool {
        bytes.len() as u64 == length && bytes[..HEADER] == Packets::header(number, length) && &bytes[HEADER..] == self.payload(number, length)
    }
}
