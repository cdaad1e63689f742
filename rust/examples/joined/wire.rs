//! What a message says, read off its bytes here: the soak's numbers are those of what was written, and no library reads them for it.
use std::iter;

const HEADER: usize = 1;
const LENGTH_BYTES: usize = 2;
const CHANNEL_STATUS: u8 = 5;
const FLOW_WINDOW: u8 = 6;
const PACKET_DATA: u8 = 128;
const CHANNEL_IDENTIFIER: u8 = 129;
const FLOW_SEQUENCE: u8 = 134;

/// The type and the content of each option.
fn options(message: &[u8]) -> impl Iterator<Item = (u8, &[u8])> {
    let mut rest = &message[HEADER..];
    iter::from_fn(move || {
        let (&kind, behind) = rest.split_first()?;
        let (length, behind) = behind.split_at(LENGTH_BYTES);
        let (content, behind) = behind.split_at(number(length) as usize);
        rest = behind;
        Some((kind, content))
    })
}

/// The contents of the options of one type, each as its Channel ID and what stands behind it.
fn of_channels(message: &[u8], wanted: u8) -> impl Iterator<Item = (u8, &[u8])> {
    options(message).filter(move |&(kind, _)| kind == wanted).map(|(_, content)| (content[0], &content[1..]))
}

fn number(bytes: &[u8]) -> u32 {
    bytes.iter().fold(0, |number, &byte| number << 8 | u32::from(byte))
}

/// Each Channel Status.
pub fn statuses(message: &[u8]) -> impl Iterator<Item = (u8, u8)> + '_ {
    of_channels(message, CHANNEL_STATUS).map(|(channel, value)| (channel, value[0]))
}

/// Each Flow Window; none where the option has no field.
pub fn windows(message: &[u8]) -> impl Iterator<Item = (u8, Option<u32>)> + '_ {
    of_channels(message, FLOW_WINDOW).map(|(channel, field)| (channel, (!field.is_empty()).then(|| number(field))))
}

/// Each Flow Sequence.
pub fn sequences(message: &[u8]) -> impl Iterator<Item = (u8, u32)> + '_ {
    of_channels(message, FLOW_SEQUENCE).map(|(channel, field)| (channel, number(field)))
}

/// A data message's packet and its channel, 0 where it names none; none of a control message.
pub fn packet(message: &[u8]) -> Option<(u8, &[u8])> {
    let channel = of_channels(message, CHANNEL_IDENTIFIER).next().map_or(0, |(channel, _)| channel);
    options(message).find(|&(kind, _)| kind == PACKET_DATA).map(|(_, packet)| (channel, packet))
}
