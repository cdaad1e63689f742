//! The radio's end: it keeps the highest Flow Sequence heard on each channel, answers control messages, and tells unasked where a status, the Context or a
//! window changes.
//!
//! ```
//! use nespovarda::station::{words_for, Allowances, Configuration, Heard, Station, Told};
//! use nespovarda::{DatalinkId, Kind};
//!
//! let mut configuration = [0; Configuration::words_for(2)];
//! let configuration = Configuration::new(&mut configuration, DatalinkId(7))
//!     .and_then(|configuration| configuration.channel(0, Kind::Plain, Allowances { watermark: 0, throughput: 0 }))
//!     .and_then(|configuration| configuration.channel(3, Kind::FlowControlled, Allowances { watermark: 1000, throughput: 500 }))
//!     .expect("the words are for two channels");
//! let mut words = vec![0; words_for(configuration.channels())];
//! let mut station = Station::start(&mut words, &configuration).expect("the configuration is within the limits");
//!
//! // A query with the sequence 4294967000 of channel 3 is answered with both statuses and the window 1204, 1500 bytes ahead.
//! let query = [0x10, 1, 0, 1, 7, 0x86, 0, 5, 3, 0xff, 0xff, 0xfe, 0xd8];
//! let answer = [0x10, 1, 0, 1, 7, 5, 0, 2, 0, 0, 5, 0, 2, 3, 0, 6, 0, 5, 3, 0, 0, 4, 0xb4];
//! let mut out = [0; 100];
//! assert_eq!(station.hear(&query, &mut out), Heard::Answered(&answer));
//!
//! // With 100 bytes queued the window is 1104, of which the radio tells unasked; the same once more is no news.
//! let told = [0x10, 1, 0, 1, 7, 5, 0, 2, 0, 0, 5, 0, 2, 3, 0, 6, 0, 5, 3, 0, 0, 4, 0x50];
//! assert_eq!(station.queued(3, 100, &mut out), Told::Unasked(&told));
//! assert_eq!(station.queued(3, 100, &mut out), Told::NoMessage);
//! ```
use crate::answer::Written;
use crate::control::Window;
use crate::library::station::{self as library, STATION_NUMBERS};
use crate::library::{ANSWERED, SHOWN, STARTED};
use crate::quantity::{Context, FlowSequence, FlowWindow, LinkInstance};
use crate::refusal::Refusal;

mod answer;
mod configuration;

pub use answer::{Heard, Linked, Told};
pub use configuration::{Allowances, Configuration};

/// A window as the library shows it: of a plain channel, without the field; any other number is with the field.
const PLAIN: u64 = 0;
const WITHOUT_FIELD: u64 = 1;

/// How many words a state of so many channels needs; 0 where no state has so many.
pub fn words_for(channels: usize) -> usize {
    library::words(channels as u64) as usize
}

/// A channel's state.
#[derive(Clone, Copy, Debug, PartialEq, Eq)]
pub struct Channel {
    /// Its status, 0 at first.
    pub status: u8,
    /// Its window; none of a plain channel.
    pub window: Option<Window>,
    /// The highest sequence heard; none of a plain channel, or before one was heard.
    pub highest: Option<FlowSequence>,
    /// The bytes queued on it.
    pub queued: u64,
}

/// The radio's end of one datalink: its state in words.
///
/// Each call first tests the words: as a call left them they pass, and any others that are outside the limits are refused by 19. A message is the radio's
/// control message as the state has it; the output's bytes behind it stay, and all of them where none is written.
#[derive(Debug)]
pub struct Station<'a> {
    words: &'a mut [u64],
}

impl<'a> Station<'a> {
    /// A fresh start. `words` are as many as [`words_for`] says, of any content. Refused by 19 or 23.
    pub fn start(words: &'a mut [u64], configuration: &Configuration<'_>) -> Result<Station<'a>, Refusal> {
        let answer = library::start(words, configuration.words());
        match answer.kind {
            STARTED => Ok(Station { words }),
            _ => Err(Refusal::of(answer)),
        }
    }

    /// A station whose words were saved and restored. They are tested by each call.
    pub fn resume(words: &'a mut [u64]) -> Station<'a> {
        Station { words }
    }

    /// The words, handed back.
    pub fn release(self) -> &'a mut [u64] {
        self.words
    }

    /// The words, to be saved.
    pub fn words(&self) -> &[u64] {
        self.words
    }

    /// Hears a datagram of the IPS end.
    pub fn hear<'o>(&mut self, datagram: &[u8], out: &'o mut [u8]) -> Heard<'o> {
        let answer = library::hear(self.words, datagram, out);
        Heard::of(answer, out)
    }

    /// A channel has this status, 0 to 15.
    pub fn status<'o>(&mut self, channel: u8, status: u8, out: &'o mut [u8]) -> Told<'o> {
        let answer = library::status(self.words, channel, status, out);
        Told::of(answer, out)
    }

    /// So many bytes are queued on a channel. The number is kept where no window changes, too.
    pub fn queued<'o>(&mut self, channel: u8, bytes: u64, out: &'o mut [u8]) -> Told<'o> {
        let answer = library::queued(self.words, channel, bytes, out);
        Told::of(answer, out)
    }

    /// The Context is this one, or there is none.
    pub fn context<'o>(&mut self, context: Option<Context>, out: &'o mut [u8]) -> Told<'o> {
        let (value, length) = said(context.map(|context| (context.number(), context.length())));
        let answer = library::context(self.words, value, length, out);
        Told::of(answer, out)
    }

    /// The Link Instance is this one, or there is none.
    pub fn link(&mut self, link: Option<LinkInstance>) -> Linked {
        let (value, length) = said(link.map(|link| (link.id, link.length)));
        Linked::of(library::link(self.words, value, length))
    }

    /// Writes the message as the state has it.
    pub fn tell<'o>(&self, out: &'o mut [u8]) -> Written<'o> {
        let answer = library::tell(self.words, out);
        match answer.kind {
            ANSWERED => Written::Wrote(&out[..answer.value as usize]),
            _ => Written::Refused(Refusal::of(answer)),
        }
    }

    /// A channel's state. Refused by 19 or 12.
    pub fn show(&self, channel: u8) -> Result<Channel, Refusal> {
        let mut shown = [0; STATION_NUMBERS];
        let answer = library::show(self.words, channel, &mut shown);
        match answer.kind {
            SHOWN => Ok(channel_of(shown)),
            _ => Err(Refusal::of(answer)),
        }
    }
}

/// A value and its length as the library takes them: 0 and 0 say that there is none. A length of 0 is refused with any other value.
fn said(given: Option<(u64, u64)>) -> (u64, u64) {
    match given {
        None => (0, 0),
        Some((_, 0)) => (1, 0),
        Some(given) => given,
    }
}

fn channel_of(shown: [u64; STATION_NUMBERS]) -> Channel {
    let [status, tag, window, heard, highest, queued] = shown;
    Channel {
        status: status as u8,
        window: match tag {
            PLAIN => None,
            WITHOUT_FIELD => Some(Window::NoWindow),
            _ => Some(Window::Given(FlowWindow(window as u32))),
        },
        highest: (heard != 0).then_some(FlowSequence(highest as u32)),
        queued,
    }
}
