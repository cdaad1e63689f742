//! A station's configuration, built in words that the caller lends.
use crate::configuration::{Kind, NoRoom};
use crate::quantity::DatalinkId;

/// Where the words stand: two for the whole, then four for each channel.
const DATALINK: usize = 0;
const COUNT: usize = 1;
const HEAD: usize = 2;
const ID: usize = 0;
const KIND: usize = 1;
const WATERMARK: usize = 2;
const THROUGHPUT: usize = 3;
const SLOT: usize = 4;

/// What a channel's windows are made of, in bytes. A start with one above 2^31 - 1 is refused by 23.
#[derive(Clone, Copy, Debug, PartialEq, Eq)]
pub struct Allowances {
    /// The bytes that may be queued.
    pub watermark: u64,
    /// The bytes that go out in a period.
    pub throughput: u64,
}

/// A Datalink ID, and channels. Whether it is within the limits is judged by [`Station::start`](super::Station::start).
#[derive(Debug)]
pub struct Configuration<'c> {
    words: &'c mut [u64],
    channels: usize,
}

impl<'c> Configuration<'c> {
    /// How many words a configuration of so many channels takes.
    pub const fn words_for(channels: usize) -> usize {
        HEAD + SLOT * channels
    }

    /// A configuration with no channel yet, in words of any content.
    pub fn new(words: &'c mut [u64], datalink: DatalinkId) -> Result<Configuration<'c>, NoRoom> {
        let head = words.get_mut(..HEAD).ok_or(NoRoom)?;
        head[DATALINK] = u64::from(datalink.0);
        head[COUNT] = 0;
        Ok(Configuration { words, channels: 0 })
    }

    /// One more channel.
    pub fn channel(self, id: u8, kind: Kind, allowances: Allowances) -> Result<Configuration<'c>, NoRoom> {
        let Configuration { words, channels } = self;
        let from = Configuration::words_for(channels);
        let slot = words.get_mut(from..from + SLOT).ok_or(NoRoom)?;
        slot[ID] = u64::from(id);
        slot[KIND] = kind as u64;
        slot[WATERMARK] = allowances.watermark;
        slot[THROUGHPUT] = allowances.throughput;
        words[COUNT] += 1;
        Ok(Configuration { words, channels: channels + 1 })
    }

    /// How many channels it has.
    pub fn channels(&self) -> usize {
        self.channels
    }

    pub(super) fn words(&self) -> &[u64] {
        &self.words[..Configuration::words_for(self.channels)]
    }
}
