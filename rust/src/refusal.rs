//! The numbers of refusal.
use crate::library::{Answer, REFUSED};
use core::fmt;

/// Why a call was refused. A refused call changes no state and no lent byte.
#[non_exhaustive]
#[derive(Clone, Copy, Debug, PartialEq, Eq)]
pub enum Refusal {
    /// 1: datagram over 65,507 bytes.
    DatagramTooLong,
    /// 2: header cut short, or not allowed.
    Header,
    /// 3: an option runs past the end, or its frame does.
    OptionPastEnd {
        /// The option's first byte.
        place: usize,
    },
    /// 4: its length isn't one listed for its type.
    OptionLength {
        /// The option's first byte.
        place: usize,
    },
    /// 5: its Channel ID is 255, or its value has no meaning.
    OptionValue {
        /// The option's first byte.
        place: usize,
    },
    /// 6: an option that this plane and direction doesn't list, or an unknown one that is to be refused.
    OptionNotListed {
        /// The option's first byte.
        place: usize,
    },
    /// 7: repeated where at most one may stand.
    OptionRepeated {
        /// The option's first byte.
        place: usize,
    },
    /// 8: an option after Packet Data.
    OptionAfterPacket {
        /// The option's first byte.
        place: usize,
    },
    /// 9: a required option is missing.
    OptionMissing {
        /// The datagram's length.
        place: usize,
    },
    /// 10: Flow Sequence in a data message without Channel Identifier, or of another channel.
    SequenceWithoutChannel {
        /// The datagram's length.
        place: usize,
    },
    /// 11: Datalink ID isn't the configured one.
    OtherDatalink {
        /// The datagram's length.
        place: usize,
    },
    /// 12: channel not configured.
    ChannelNotConfigured,
    /// 13: packet isn't IPv6: under 40 bytes, version not 6, or length not 40 plus its Payload Length.
    NotIpv6,
    /// 14: packet over the smaller of 9,000 bytes and the store's length.
    PacketTooLong,
    /// 15: time before this channel's latest.
    TimeBeforeLatest,
    /// 16: expiry not after the time given.
    ExpiryNotAfterTime,
    /// 17: 32 packets wait, or waiting bytes plus this packet exceed the store.
    StoreFull,
    /// 18: there is a message to write, and the output is shorter than it or it is over 65,507 bytes.
    OutputTooShort,
    /// 19: a configuration or a state outside its limits, or a memory whose length isn't the sum of the stores.
    OutsideLimits,
    /// 20: a meaning that may not be written.
    NotWritable,
    /// 21: pacer time earlier than its latest.
    PacerTimeBeforeLatest,
    /// 22: HelloTime or silence limit of 0.
    WaitOfZero,
    /// 23: watermark or throughput above 2^31 - 1, of a plain channel too.
    AllowanceTooLarge,
    /// 24: more than 32 packets at once, lists of unequal count, or lengths whose sum isn't the buffer's length.
    NotAHandful,
    /// An answer that this crate doesn't know: the library linked is of another version.
    Unknown {
        /// The answer's kind.
        kind: u64,
        /// Its value.
        value: u64,
    },
}

impl Refusal {
    /// The refusal that an answer is; and an unknown one where it is none.
    pub(crate) fn of(answer: Answer) -> Refusal {
        let Answer { kind, value } = answer;
        let place = value as usize;
        match kind.wrapping_sub(REFUSED) {
            1 => Refusal::DatagramTooLong,
            2 => Refusal::Header,
            3 => Refusal::OptionPastEnd { place },
            4 => Refusal::OptionLength { place },
            5 => Refusal::OptionValue { place },
            6 => Refusal::OptionNotListed { place },
            7 => Refusal::OptionRepeated { place },
            8 => Refusal::OptionAfterPacket { place },
            9 => Refusal::OptionMissing { place },
            10 => Refusal::SequenceWithoutChannel { place },
            11 => Refusal::OtherDatalink { place },
            12 => Refusal::ChannelNotConfigured,
            13 => Refusal::NotIpv6,
            14 => Refusal::PacketTooLong,
            15 => Refusal::TimeBeforeLatest,
            16 => Refusal::ExpiryNotAfterTime,
            17 => Refusal::StoreFull,
            18 => Refusal::OutputTooShort,
            19 => Refusal::OutsideLimits,
            20 => Refusal::NotWritable,
            21 => Refusal::PacerTimeBeforeLatest,
            22 => Refusal::WaitOfZero,
            23 => Refusal::AllowanceTooLarge,
            24 => Refusal::NotAHandful,
            _ => Refusal::Unknown { kind, value },
        }
    }

    /// The refusal of a number that has no place.
    pub(crate) fn numbered(number: u8) -> Refusal {
        Refusal::of(Answer { kind: REFUSED + u64::from(number), value: 0 })
    }

    /// Its number; that of an unknown answer as the answer gives it, 0 where that is no refusal.
    pub fn number(&self) -> u64 {
        match *self {
            Refusal::DatagramTooLong => 1,
            Refusal::Header => 2,
            Refusal::OptionPastEnd { .. } => 3,
            Refusal::OptionLength { .. } => 4,
            Refusal::OptionValue { .. } => 5,
            Refusal::OptionNotListed { .. } => 6,
            Refusal::OptionRepeated { .. } => 7,
            Refusal::OptionAfterPacket { .. } => 8,
            Refusal::OptionMissing { .. } => 9,
            Refusal::SequenceWithoutChannel { .. } => 10,
            Refusal::OtherDatalink { .. } => 11,
            Refusal::ChannelNotConfigured => 12,
            Refusal::NotIpv6 => 13,
            Refusal::PacketTooLong => 14,
            Refusal::TimeBeforeLatest => 15,
            Refusal::ExpiryNotAfterTime => 16,
            Refusal::StoreFull => 17,
            Refusal::OutputTooShort => 18,
            Refusal::OutsideLimits => 19,
            Refusal::NotWritable => 20,
            Refusal::PacerTimeBeforeLatest => 21,
            Refusal::WaitOfZero => 22,
            Refusal::AllowanceTooLarge => 23,
            Refusal::NotAHandful => 24,
            Refusal::Unknown { kind, .. } => kind.saturating_sub(REFUSED),
        }
    }

    /// The option's first byte for 3 to 8, the datagram's length for 9 to 11, 0 for all others.
    pub fn place(&self) -> usize {
        match *self {
            Refusal::OptionPastEnd { place }
            | Refusal::OptionLength { place }
            | Refusal::OptionValue { place }
            | Refusal::OptionNotListed { place }
            | Refusal::OptionRepeated { place }
            | Refusal::OptionAfterPacket { place }
            | Refusal::OptionMissing { place }
            | Refusal::SequenceWithoutChannel { place }
            | Refusal::OtherDatalink { place } => place,
            Refusal::Unknown { value, .. } => value as usize,
            _ => 0,
        }
    }
}

impl fmt::Display for Refusal {
    fn fmt(&self, formatter: &mut fmt::Formatter<'_>) -> fmt::Result {
        write!(formatter, "refused by {} at {}", self.number(), self.place())
    }
}
