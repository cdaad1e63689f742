//! Control messages of either end, read and written. Their meaning stands in words that the caller lends.
use crate::answer::{Read, Written};
use crate::library;
use crate::quantity::{Context, DatalinkId, End, FlowSequence, FlowWindow, LinkInstance};
use core::fmt;

/// Where the words stand: those of the whole message, then those of each Channel ID.
const DATALINK_TAG: usize = 0;
const DATALINK_VALUE: usize = 1;
const LINK_TAG: usize = 2;
const LINK_VALUE: usize = 3;
const LINK_LENGTH: usize = 4;
const CONTEXT_TAG: usize = 5;
const CONTEXT_VALUE: usize = 6;
const CONTEXT_LENGTH: usize = 7;
const HEAD: usize = 8;
const STATUS_TAG: usize = 0;
const STATUS_VALUE: usize = 1;
const SEQUENCE_TAG: usize = 2;
const SEQUENCE_VALUE: usize = 3;
const WINDOW_TAG: usize = 4;
const WINDOW_VALUE: usize = 5;
const SLOT: usize = 6;

const ABSENT: u64 = 0;
const GIVEN: u64 = 1;
const WITHOUT_FIELD: u64 = 1;
const WITH_FIELD: u64 = 2;

/// The Channel IDs are those below this; 255 is reserved.
pub const CHANNEL_IDS: u8 = 255;

/// How many words a meaning takes.
pub const WORDS: usize = HEAD + SLOT * CHANNEL_IDS as usize;

/// What a Flow Window option says.
#[derive(Clone, Copy, Debug, PartialEq, Eq)]
pub enum Window {
    /// The option has no window.
    NoWindow,
    /// The option has this one.
    Given(FlowWindow),
}

/// The Channel ID 255, of which nothing can be stated.
#[derive(Clone, Copy, Debug, PartialEq, Eq)]
pub struct Reserved;

impl fmt::Display for Reserved {
    fn fmt(&self, formatter: &mut fmt::Formatter<'_>) -> fmt::Result {
        formatter.write_str("the Channel ID 255 is reserved")
    }
}

/// The meaning of a control message: its Datalink ID, and what is stated.
#[derive(Debug, PartialEq, Eq)]
pub struct Meaning<'m> {
    words: &'m mut [u64; WORDS],
}

/// Reads a control message of an end, configured with a Datalink ID. Words of any content are taken, and stay where nothing is accepted.
pub fn read<'m>(datagram: &[u8], end: End, datalink: DatalinkId, words: &'m mut [u64; WORDS]) -> Read<Meaning<'m>> {
    let answer = library::read_control(datagram, end as u8, datalink.0, words);
    Read::of(answer, || Meaning { words })
}

/// Writes a control message of an end. The output's bytes behind it stay. Refused by 20 where this end's message may not say so, or by 18.
pub fn write<'o>(end: End, meaning: &Meaning<'_>, out: &'o mut [u8]) -> Written<'o> {
    let answer = library::write_control(end as u8, meaning.words, out);
    Written::of(answer, out)
}

impl<'m> Meaning<'m> {
    /// A meaning that states a Datalink ID and nothing else, in words of any content.
    pub fn new(words: &'m mut [u64; WORDS], datalink: DatalinkId) -> Meaning<'m> {
        words.fill(ABSENT);
        words[DATALINK_TAG] = GIVEN;
        words[DATALINK_VALUE] = u64::from(datalink.0);
        Meaning { words }
    }

    /// The Datalink ID.
    pub fn datalink(&self) -> DatalinkId {
        DatalinkId(self.words[DATALINK_VALUE] as u8)
    }

    /// The Link Instance.
    pub fn link(&self) -> Option<LinkInstance> {
        let words = &self.words;
        (words[LINK_TAG] != ABSENT).then(|| LinkInstance { length: words[LINK_LENGTH], id: words[LINK_VALUE] })
    }

    /// The Datalink Context.
    pub fn context(&self) -> Option<Context> {
        let words = &self.words;
        (words[CONTEXT_TAG] != ABSENT).then(|| Context::spelled(words[CONTEXT_VALUE], words[CONTEXT_LENGTH]))
    }

    /// A channel's status; none also of 255.
    pub fn status(&self, channel: u8) -> Option<u8> {
        self.stated(channel, STATUS_TAG, STATUS_VALUE).map(|value| value as u8)
    }

    /// A channel's sequence; none also of 255.
    pub fn sequence(&self, channel: u8) -> Option<FlowSequence> {
        self.stated(channel, SEQUENCE_TAG, SEQUENCE_VALUE).map(|value| FlowSequence(value as u32))
    }

    /// A channel's window; none also of 255.
    pub fn window(&self, channel: u8) -> Option<Window> {
        let slot = self.slot(channel)?;
        match slot[WINDOW_TAG] {
            ABSENT => None,
            WITHOUT_FIELD => Some(Window::NoWindow),
            _ => Some(Window::Given(FlowWindow(slot[WINDOW_VALUE] as u32))),
        }
    }

    /// States a Link Instance, or none.
    pub fn set_link(&mut self, link: Option<LinkInstance>) {
        let (tag, value, length) = link.map_or((ABSENT, 0, 0), |link| (GIVEN, link.id, link.length));
        self.words[LINK_TAG] = tag;
        self.words[LINK_VALUE] = value;
        self.words[LINK_LENGTH] = length;
    }

    /// States a Datalink Context, or none.
    pub fn set_context(&mut self, context: Option<Context>) {
        let (tag, value, length) = context.map_or((ABSENT, 0, 0), |context| (GIVEN, context.number(), context.length()));
        self.words[CONTEXT_TAG] = tag;
        self.words[CONTEXT_VALUE] = value;
        self.words[CONTEXT_LENGTH] = length;
    }

    /// States a channel's status, or none.
    pub fn set_status(&mut self, channel: u8, status: Option<u8>) -> Result<(), Reserved> {
        let (tag, value) = status.map_or((ABSENT, 0), |status| (GIVEN, u64::from(status)));
        self.state(channel, STATUS_TAG, tag, STATUS_VALUE, value)
    }

    /// States a channel's sequence, or none.
    pub fn set_sequence(&mut self, channel: u8, sequence: Option<FlowSequence>) -> Result<(), Reserved> {
        let (tag, value) = sequence.map_or((ABSENT, 0), |sequence| (GIVEN, u64::from(sequence.0)));
        self.state(channel, SEQUENCE_TAG, tag, SEQUENCE_VALUE, value)
    }

    /// States a channel's window, or none.
    pub fn set_window(&mut self, channel: u8, window: Option<Window>) -> Result<(), Reserved> {
        let (tag, value) = match window {
            None => (ABSENT, 0),
            Some(Window::NoWindow) => (WITHOUT_FIELD, 0),
            Some(Window::Given(window)) => (WITH_FIELD, u64::from(window.0)),
        };
        self.state(channel, WINDOW_TAG, tag, WINDOW_VALUE, value)
    }

    fn slot(&self, channel: u8) -> Option<&[u64]> {
        self.words.get(slot_start(channel)..slot_start(channel) + SLOT)
    }

    fn stated(&self, channel: u8, tag: usize, value: usize) -> Option<u64> {
        let slot = self.slot(channel)?;
        (slot[tag] != ABSENT).then(|| slot[value])
    }

    fn state(&mut self, channel: u8, tag_at: usize, tag: u64, value_at: usize, value: u64) -> Result<(), Reserved> {
        let from = slot_start(channel);
        let slot = self.words.get_mut(from..from + SLOT).ok_or(Reserved)?;
        slot[tag_at] = tag;
        slot[value_at] = value;
        Ok(())
    }
}

/// The words of 255 would stand behind the last.
fn slot_start(channel: u8) -> usize {
    HEAD + SLOT * usize::from(channel)
}
