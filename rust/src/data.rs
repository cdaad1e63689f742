//! Data messages of either end, read and written.
use crate::answer::{Read, Written};
use crate::library;
use crate::quantity::{DatalinkId, End, FlowSequence};

/// Where the words stand.
const DATALINK_TAG: usize = 0;
const DATALINK_VALUE: usize = 1;
const COUNTED_TAG: usize = 2;
const COUNTED_CHANNEL: usize = 3;
const COUNTED_SEQUENCE: usize = 4;
const CHANNEL_TAG: usize = 5;
const CHANNEL_VALUE: usize = 6;
const EXPIRATION_TAG: usize = 7;
const EXPIRATION_VALUE: usize = 8;
const PACKET_START: usize = 9;
const PACKET_LENGTH: usize = 10;
const WORDS: usize = 11;

const ABSENT: u64 = 0;
const GIVEN: u64 = 1;

/// A Flow Sequence, and the channel that it is of.
#[derive(Clone, Copy, Debug, PartialEq, Eq)]
pub struct Counted {
    /// The Channel ID.
    pub channel: u8,
    /// The sequence with the packet counted in.
    pub sequence: FlowSequence,
}

/// The meaning of a data message. A packet read is that stretch of the caller's own datagram.
#[derive(Clone, Copy, Debug, PartialEq, Eq)]
pub struct Meaning<'d> {
    /// The Datalink ID.
    pub datalink: DatalinkId,
    /// The Flow Sequence.
    pub counted: Option<Counted>,
    /// The Channel Identifier.
    pub channel: Option<u8>,
    /// The Expiration Time.
    pub expiration: Option<u32>,
    /// The packet, which isn't examined.
    pub packet: &'d [u8],
}

/// Reads a data message of an end, configured with a Datalink ID.
pub fn read(datagram: &[u8], end: End, datalink: DatalinkId) -> Read<Meaning<'_>> {
    let mut words = [0; WORDS];
    let answer = library::read_data(datagram, end as u8, datalink.0, &mut words);
    Read::of(answer, || meaning_of(&words, datagram))
}

/// Writes a data message of an end. The output's bytes behind it stay. Refused by 20 where this end's message may not say so, or by 18.
pub fn write<'o>(end: End, meaning: &Meaning<'_>, out: &'o mut [u8]) -> Written<'o> {
    let answer = library::write_data(end as u8, &words_of(meaning), meaning.packet, out);
    Written::of(answer, out)
}

fn meaning_of<'d>(words: &[u64; WORDS], datagram: &'d [u8]) -> Meaning<'d> {
    let given = |tag: usize| words[tag] != ABSENT;
    let start = words[PACKET_START] as usize;
    Meaning {
        datalink: DatalinkId(words[DATALINK_VALUE] as u8),
        counted: given(COUNTED_TAG).then(|| Counted { channel: words[COUNTED_CHANNEL] as u8, sequence: FlowSequence(words[COUNTED_SEQUENCE] as u32) }),
        channel: given(CHANNEL_TAG).then(|| words[CHANNEL_VALUE] as u8),
        expiration: given(EXPIRATION_TAG).then(|| words[EXPIRATION_VALUE] as u32),
        packet: &datagram[start..start + words[PACKET_LENGTH] as usize],
    }
}

/// Where the packet stands is passed over by the writer, and left 0.
fn words_of(meaning: &Meaning<'_>) -> [u64; WORDS] {
    let mut words = [ABSENT; WORDS];
    words[DATALINK_TAG] = GIVEN;
    words[DATALINK_VALUE] = u64::from(meaning.datalink.0);
    if let Some(counted) = meaning.counted {
        words[COUNTED_TAG] = GIVEN;
        words[COUNTED_CHANNEL] = u64::from(counted.channel);
        words[COUNTED_SEQUENCE] = u64::from(counted.sequence.0);
    }
    if let Some(channel) = meaning.channel {
        words[CHANNEL_TAG] = GIVEN;
        words[CHANNEL_VALUE] = u64::from(channel);
    }
    if let Some(expiration) = meaning.expiration {
        words[EXPIRATION_TAG] = GIVEN;
        words[EXPIRATION_VALUE] = u64::from(expiration);
    }
    words
}
