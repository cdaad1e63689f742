//! The sorts of quantity that may not stand in for one another, and the two ends.

/// Who sends a message.
#[derive(Clone, Copy, Debug, PartialEq, Eq)]
pub enum End {
    /// The Airborne IPS System.
    Ips = 0,
    /// The radio.
    Radio = 1,
}

/// The number of a datalink, as configured at both ends.
#[derive(Clone, Copy, Debug, PartialEq, Eq)]
pub struct DatalinkId(pub u8);

/// Which of the statuses 8 to 15 are operational: bit status - 8, counted from the lowest. None is by default.
#[derive(Clone, Copy, Debug, Default, PartialEq, Eq)]
pub struct StatusCodes(pub u8);

/// How many bytes went out under windows on a channel, modulo 2^32.
#[derive(Clone, Copy, Debug, PartialEq, Eq)]
pub struct FlowSequence(pub u32);

/// How far a channel's sequence may go, modulo 2^32.
#[derive(Clone, Copy, Debug, PartialEq, Eq)]
pub struct FlowWindow(pub u32);

/// A Link Instance ID, and the length in bytes that it is written in.
#[derive(Clone, Copy, Debug, PartialEq, Eq)]
pub struct LinkInstance {
    /// 1 to 8; another is refused by 20 when written, or by a station that is to keep it.
    pub length: u64,
    /// The number, which must fit that length.
    pub id: u64,
}

/// How long a Context may be.
const LONGEST_CONTEXT: usize = 8;

/// A Datalink Context: a string of up to 8 bytes.
#[derive(Clone, Copy, Debug, PartialEq, Eq)]
pub struct Context {
    bytes: [u8; LONGEST_CONTEXT],
    length: usize,
}

impl Context {
    /// A Context of these bytes; none of more than 8 bytes. An empty one is refused by 20 when written, or by a station.
    pub fn new(bytes: &[u8]) -> Option<Context> {
        let mut held = [0; LONGEST_CONTEXT];
        held.get_mut(..bytes.len())?.copy_from_slice(bytes);
        Some(Context { bytes: held, length: bytes.len() })
    }

    /// Its bytes.
    pub fn as_bytes(&self) -> &[u8] {
        &self.bytes[..self.length]
    }

    /// The Context whose bytes spell a number, big-endian, in so many bytes. The library gives no length over 8.
    pub(crate) fn spelled(number: u64, length: u64) -> Context {
        let digits = number.to_be_bytes();
        let length = (length as usize).min(LONGEST_CONTEXT);
        let mut bytes = [0; LONGEST_CONTEXT];
        bytes[..length].copy_from_slice(&digits[LONGEST_CONTEXT - length..]);
        Context { bytes, length }
    }

    /// The number that its bytes spell, big-endian.
    pub(crate) fn number(&self) -> u64 {
        self.as_bytes().iter().fold(0, |number, &byte| number << 8 | u64::from(byte))
    }

    pub(crate) fn length(&self) -> u64 {
        self.length as u64
    }
}
