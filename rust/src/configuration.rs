//! A configuration, built in words that the caller lends.
use crate::quantity::{DatalinkId, FlowSequence, StatusCodes};
use core::fmt;

/// Where the words stand: five for the whole, then four for each channel.
const DATALINK: usize = 0;
const COUNT: usize = 1;
const HELLO: usize = 2;
const LIMIT: usize = 3;
const CODES: usize = 4;
const HEAD: usize = 5;
const ID: usize = 0;
const KIND: usize = 1;
const FIRST: usize = 2;
const STORE: usize = 3;
const SLOT: usize = 4;

/// Whether the radio controls a channel's flow by windows.
#[derive(Clone, Copy, Debug, PartialEq, Eq)]
pub enum Kind {
    /// Always free.
    Plain = 0,
    /// With no window at first.
    FlowControlled = 1,
}

/// The pacer's two waits, in milliseconds. A start with one of 0 is refused by 22.
#[derive(Clone, Copy, Debug, PartialEq, Eq)]
pub struct Waits {
    /// HelloTime: how long from a query that is due to the next.
    pub hello: u64,
    /// The silence limit: how long without an accepted control message until the radio is silent.
    pub limit: u64,
}

/// The words lent have no room for one more channel.
#[derive(Clone, Copy, Debug, PartialEq, Eq)]
pub struct NoRoom;

impl fmt::Display for NoRoom {
    fn fmt(&self, formatter: &mut fmt::Formatter<'_>) -> fmt::Result {
        formatter.write_str("no room for one more channel in the configuration's words")
    }
}

/// A Datalink ID, the pacer's waits, the statuses that are operational, and channels. Whether it is within the limits is judged by [`Endpoint::start`](crate::Endpoint::start).
#[derive(Debug)]
pub struct Configuration<'c> {
    words: &'c mut [u64],
    channels: usize,
}

impl<'c> Configuration<'c> {
    /// How many words a configuration of so many channels takes.
    pub const fn words_for(channels: usize) -> usize {
        HEAD + SLOT * channels
    }

    /// A configuration with no channel yet and no status of 8 to 15 operational, in words of any content.
    pub fn new(words: &'c mut [u64], datalink: DatalinkId, waits: Waits) -> Result<Configuration<'c>, NoRoom> {
        let head = words.get_mut(..HEAD).ok_or(NoRoom)?;
        head[DATALINK] = u64::from(datalink.0);
        head[COUNT] = 0;
        head[HELLO] = waits.hello;
        head[LIMIT] = waits.limit;
        head[CODES] = 0;
        Ok(Configuration { words, channels: 0 })
    }

    /// The same with these of the statuses 8 to 15 operational.
    pub fn operational(self, codes: StatusCodes) -> Configuration<'c> {
        self.words[CODES] = u64::from(codes.0);
        self
    }

    /// One more channel, its store behind the others in the memory.
    pub fn channel(self, id: u8, kind: Kind, first: FlowSequence, store_length: usize) -> Result<Configuration<'c>, NoRoom> {
        let Configuration { words, channels } = self;
        let from = Configuration::words_for(channels);
        let slot = words.get_mut(from..from + SLOT).ok_or(NoRoom)?;
        slot[ID] = u64::from(id);
        slot[KIND] = kind as u64;
        slot[FIRST] = u64::from(first.0);
        slot[STORE] = store_length as u64;
        words[COUNT] += 1;
        Ok(Configuration { words, channels: channels + 1 })
    }

    /// How many channels it has.
    pub fn channels(&self) -> usize {
        self.channels
    }

    /// How long the memory must be: all stores together.
    pub fn memory_length(&self) -> usize {
        self.words()[HEAD..].chunks_exact(SLOT).map(|slot| slot[STORE] as usize).fold(0, usize::saturating_add)
    }

    pub(crate) fn words(&self) -> &[u64] {
        &self.words[..Configuration::words_for(self.channels)]
    }
}
