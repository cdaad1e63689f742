//! The endpoint's calls.
use crate::answer::{Heard, Next, Offered, Paced, Withdrawn, Written};
use crate::configuration::{Configuration, Waits};
use crate::handful::{Handed, Handful};
use crate::library::{self, CHANNEL_NUMBERS, KEPT_NUMBERS, PACER_NUMBERS, WAITING_NUMBERS};
use crate::quantity::{Context, FlowSequence, FlowWindow, LinkInstance};
use crate::refusal::Refusal;

/// A flow state as the library shows it; any other number is a window in force.
const FREE: u64 = 0;
const NO_WINDOW: u64 = 1;

/// How many words a state of so many channels needs; 0 where no state has so many.
pub fn words_for(channels: usize) -> usize {
    library::words(channels as u64) as usize
}

/// What lets a channel send.
#[derive(Clone, Copy, Debug, PartialEq, Eq)]
pub enum Flow {
    /// No window is asked.
    Free,
    /// Nothing goes.
    NoWindow,
    /// A packet goes that fits this window.
    InForce(FlowWindow),
}

/// A channel's state.
#[derive(Clone, Copy, Debug, PartialEq, Eq)]
pub struct Channel {
    /// The status last reported; none where the last control message didn't name the channel, or a silence followed it.
    pub status: Option<u8>,
    /// Its flow state.
    pub flow: Flow,
    /// Its sequence.
    pub sequence: FlowSequence,
    /// The time of its last accepted offer or next.
    pub latest: u64,
    /// How many packets wait.
    pub waiting: usize,
    /// Where its store starts in the memory.
    pub store_start: usize,
    /// How long its store is.
    pub store_length: usize,
}

/// A waiting packet.
#[derive(Clone, Copy, Debug, PartialEq, Eq)]
pub struct Waiting {
    /// How long it is.
    pub length: usize,
    /// When it expires.
    pub expiry: u64,
}

/// What the state keeps of the radio's messages.
#[derive(Clone, Copy, Debug, PartialEq, Eq)]
pub struct Kept {
    /// The Link Instance last given.
    pub link: Option<LinkInstance>,
    /// The Context of the control message accepted just before, where it had one.
    pub context: Option<Context>,
}

/// The pacer: its waits, and three times, which are 0 at first.
#[derive(Clone, Copy, Debug, PartialEq, Eq)]
pub struct Pacer {
    /// Its waits as configured.
    pub waits: Waits,
    /// The time of the last radio message or ask that wasn't refused.
    pub clock: u64,
    /// When a query was last due.
    pub due: u64,
    /// When a control message was last accepted.
    pub heard: u64,
}

/// The IPS end of one datalink: its state in words, its channels' stores in a memory.
///
/// Each call first tests what it takes of the two: as a call left them they pass, and any others that are outside the limits are refused by 19.
#[derive(Debug)]
pub struct Endpoint<'a> {
    words: &'a mut [u64],
    memory: &'a mut [u8],
}

impl<'a> Endpoint<'a> {
    /// A fresh start. `words` are as many as [`words_for`] says, of any content; `memory` is as long as all stores together. Refused by 19 or 22.
    pub fn start(words: &'a mut [u64], memory: &'a mut [u8], configuration: &Configuration<'_>) -> Result<Endpoint<'a>, Refusal> {
        let answer = library::start(words, memory, configuration.words());
        match answer.kind {
            library::STARTED => Ok(Endpoint { words, memory }),
            _ => Err(Refusal::of(answer)),
        }
    }

    /// An endpoint whose words and memory were saved and restored. They are tested by each call.
    pub fn resume(words: &'a mut [u64], memory: &'a mut [u8]) -> Endpoint<'a> {
        Endpoint { words, memory }
    }

    /// The words and the memory, handed back.
    pub fn release(self) -> (&'a mut [u64], &'a mut [u8]) {
        (self.words, self.memory)
    }

    /// The words, to be saved.
    pub fn words(&self) -> &[u64] {
        self.words
    }

    /// The memory, to be saved.
    pub fn memory(&self) -> &[u8] {
        self.memory
    }

    /// Offers a packet that expires at `expiry`.
    pub fn offer(&mut self, channel: u8, packet: &[u8], expiry: u64, time: u64) -> Offered {
        Offered::of(library::offer(self.words, self.memory, channel, packet, expiry, time))
    }

    /// Offers up to 32 packets at once, and comes to what offering them one by one in their order comes to. `answers` are as many as the packets, of any content;
    /// they stay where the handful is refused.
    pub fn offers<'o>(&mut self, handful: &Handful<'_>, answers: &'o mut [u8]) -> Handed<'o> {
        let answer = library::offers(self.words, self.memory, handful, answers);
        Handed::of(answer, answers)
    }

    /// Asks for the next data message. The output's bytes behind it stay, and all of them where none is sent.
    pub fn next<'o>(&mut self, channel: u8, time: u64, out: &'o mut [u8]) -> Next<'o> {
        let answer = library::next(self.words, self.memory, channel, time, out);
        Next::of(answer, out)
    }

    /// Withdraws all packets that wait on a channel.
    pub fn withdraw(&mut self, channel: u8) -> Withdrawn {
        Withdrawn::of(library::withdraw(self.words, self.memory, channel))
    }

    /// Hands in a message of the radio, at a time of the pacer's clock.
    pub fn radio(&mut self, time: u64, datagram: &[u8]) -> Heard {
        Heard::of(library::radio(self.words, time, datagram))
    }

    /// Asks the pacer whether a query is due, and whether the radio is silent.
    pub fn pace(&mut self, time: u64) -> Paced {
        Paced::of(library::pace(self.words, time))
    }

    /// Writes the control message with the sequence of each flow-controlled channel.
    pub fn query<'o>(&self, out: &'o mut [u8]) -> Written<'o> {
        let answer = library::query(self.words, out);
        Written::of(answer, out)
    }

    /// A channel's state. Refused by 19 or 12.
    pub fn show(&self, channel: u8) -> Result<Channel, Refusal> {
        let mut shown = [0; CHANNEL_NUMBERS];
        let answer = library::show(self.words, channel, &mut shown);
        match answer.kind {
            library::SHOWN => Ok(channel_of(shown)),
            _ => Err(Refusal::of(answer)),
        }
    }

    /// The packet that waits at a position, 0 being the first; none where fewer wait. Refused by 19 or 12.
    pub fn waiting(&self, channel: u8, position: usize) -> Result<Option<Waiting>, Refusal> {
        let mut shown = [0; WAITING_NUMBERS];
        let answer = library::waiting(self.words, channel, position as u64, &mut shown);
        let [length, expiry] = shown;
        match answer.kind {
            library::SHOWN => Ok(Some(Waiting { length: length as usize, expiry })),
            library::NONE_THERE => Ok(None),
            _ => Err(Refusal::of(answer)),
        }
    }

    /// A channel's store: its waiting packets end to end, and zeros behind them. Refused by 19 or 12, by 19 also where the memory ends before the store does.
    pub fn store(&self, channel: u8) -> Result<&[u8], Refusal> {
        let shown = self.show(channel)?;
        let end = shown.store_start + shown.store_length;
        self.memory.get(shown.store_start..end).ok_or(Refusal::OutsideLimits)
    }

    /// The Link Instance and the Context that the state keeps. Refused by 19.
    pub fn kept(&self) -> Result<Kept, Refusal> {
        let mut shown = [0; KEPT_NUMBERS];
        let answer = library::kept(self.words, &mut shown);
        match answer.kind {
            library::KEPT => Ok(kept_of(shown)),
            _ => Err(Refusal::of(answer)),
        }
    }

    /// The pacer. Refused by 19.
    pub fn pacer(&self) -> Result<Pacer, Refusal> {
        let mut shown = [0; PACER_NUMBERS];
        let answer = library::pacer(self.words, &mut shown);
        let [hello, limit, clock, due, heard] = shown;
        match answer.kind {
            library::PACER_SHOWN => Ok(Pacer { waits: Waits { hello, limit }, clock, due, heard }),
            _ => Err(Refusal::of(answer)),
        }
    }
}

fn channel_of(shown: [u64; CHANNEL_NUMBERS]) -> Channel {
    let [reported, status, flow, window, sequence, latest, waiting, store_start, store_length] = shown;
    Channel {
        status: (reported != 0).then_some(status as u8),
        flow: match flow {
            FREE => Flow::Free,
            NO_WINDOW => Flow::NoWindow,
            _ => Flow::InForce(FlowWindow(window as u32)),
        },
        sequence: FlowSequence(sequence as u32),
        latest,
        waiting: waiting as usize,
        store_start: store_start as usize,
        store_length: store_length as usize,
    }
}

/// A length of 0 says that there is none.
fn kept_of(shown: [u64; KEPT_NUMBERS]) -> Kept {
    let [link_length, link, context_length, context] = shown;
    Kept {
        link: (link_length != 0).then_some(LinkInstance { length: link_length, id: link }),
        context: (context_length != 0).then(|| Context::spelled(context, context_length)),
    }
}
