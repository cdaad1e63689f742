//! Offers by the handful.
use crate::answer::Offered;
use crate::library::{self, Answer};
use crate::refusal::Refusal;

/// Packets to be offered in one call: end to end in one buffer, each with its channel, its expiry and its length; one time for all.
#[derive(Clone, Copy, Debug, PartialEq, Eq)]
pub struct Handful<'h> {
    /// The Channel ID of each packet.
    pub channels: &'h [u8],
    /// When each expires.
    pub expiries: &'h [u64],
    /// How long each is; together as long as the buffer.
    pub lengths: &'h [u64],
    /// The buffer.
    pub packets: &'h [u8],
    /// The time of all these offers.
    pub time: u64,
}

/// What became of a handful.
#[must_use]
#[derive(Clone, Copy, Debug, PartialEq, Eq)]
pub enum Handed<'o> {
    /// Each packet was offered, one after another, and has an answer of its own.
    Offered(Answers<'o>),
    /// By 19 or 24: nothing is taken, and the lent answers are as they were.
    Refused(Refusal),
}

/// What became of each packet of a handful, in their order.
#[derive(Clone, Copy, Debug, PartialEq, Eq)]
pub struct Answers<'o>(&'o [u8]);

impl Handful<'_> {
    /// How many packets a handful may have.
    pub const MOST: usize = 32;
}

impl<'o> Handed<'o> {
    pub(crate) fn of(answer: Answer, answers: &'o [u8]) -> Handed<'o> {
        match answer.kind {
            library::OFFERED => Handed::Offered(Answers(answers)),
            _ => Handed::Refused(Refusal::of(answer)),
        }
    }
}

impl<'o> Answers<'o> {
    /// The answers one by one, each as that of a single offer.
    pub fn iter(&self) -> impl ExactSizeIterator<Item = Offered> + 'o {
        self.0.iter().map(|&number| Offered::numbered(number))
    }

    /// The bytes that were lent: 0 for a packet taken, else its number of refusal.
    pub fn as_bytes(&self) -> &'o [u8] {
        self.0
    }
}
