//! What the tests share: a state of four channels, packets and radio messages.
#![allow(dead_code)]
use nespovarda::{control, words_for, Configuration, DatalinkId, End, Endpoint, FlowSequence, FlowWindow, Kind, Waits, Written};

pub const DATALINK: DatalinkId = DatalinkId(7);
pub const STORE: usize = 3000;
pub const LONG_STORE: usize = 65_536;
pub const PLAIN: u8 = 0;
pub const FLOW: u8 = 3;
pub const SECOND_FLOW: u8 = 2;
pub const ROOMY: u8 = 9;
pub const NOT_CONFIGURED: u8 = 8;
pub const NEVER: u64 = u64::MAX;
pub const WAITS: Waits = Waits { hello: 500, limit: 900 };

/// Words and memory of a state, as a caller owns them.
#[derive(Clone, Debug, PartialEq)]
pub struct Lent {
    pub words: Vec<u64>,
    pub memory: Vec<u8>,
}

impl Lent {
    pub fn endpoint(&mut self) -> Endpoint<'_> {
        Endpoint::resume(&mut self.words, &mut self.memory)
    }
}

/// A configuration of channels 0 (plain), 3 and 2 (flow-controlled) and 9 (plain, with the largest store).
pub fn configuration(words: &mut [u64], first: u32) -> Configuration<'_> {
    Configuration::new(words, DATALINK, WAITS)
        .and_then(|configuration| configuration.channel(PLAIN, Kind::Plain, FlowSequence(0), STORE))
        .and_then(|configuration| configuration.channel(FLOW, Kind::FlowControlled, FlowSequence(first), STORE))
        .and_then(|configuration| configuration.channel(SECOND_FLOW, Kind::FlowControlled, FlowSequence(first), STORE))
        .and_then(|configuration| configuration.channel(ROOMY, Kind::Plain, FlowSequence(0), LONG_STORE))
        .expect("there is room for four channels")
}

pub const CONFIGURATION_WORDS: usize = Configuration::words_for(4);

/// A fresh start, the sequences of both flow-controlled channels beginning with this number.
pub fn started(first: u32) -> Lent {
    let mut words = [0; CONFIGURATION_WORDS];
    let configuration = configuration(&mut words, first);
    let mut lent = Lent { words: vec![u64::MAX; words_for(configuration.channels())], memory: vec![0xff; configuration.memory_length()] };
    Endpoint::start(&mut lent.words, &mut lent.memory, &configuration).expect("the configuration is within the limits");
    lent
}

/// An IPv6 packet whose bytes tell it from another's; one under 40 bytes is cut short.
pub fn packet(length: usize, mark: u8) -> Vec<u8> {
    let [high, low] = (length.saturating_sub(40) as u16).to_be_bytes();
    let mut packet = vec![0x60, 0, 0, 0, high, low];
    packet.extend((6..length).map(|place| mark.wrapping_add(place as u8)));
    packet.truncate(length);
    packet
}

/// A radio control message of these statuses and windows.
pub fn report(statuses: &[(u8, u8)], windows: &[(u8, control::Window)]) -> Vec<u8> {
    let mut words = [0; control::WORDS];
    let mut meaning = control::Meaning::new(&mut words, DATALINK);
    for &(channel, status) in statuses {
        meaning.set_status(channel, Some(status)).expect("a Channel ID");
    }
    for &(channel, window) in windows {
        meaning.set_window(channel, Some(window)).expect("a Channel ID");
    }
    let mut out = [0; 500];
    match control::write(End::Radio, &meaning, &mut out) {
        Written::Wrote(message) => message.to_vec(),
        Written::Refused(refusal) => panic!("{refusal}"),
    }
}

/// All four channels operational, and one window for channel 3.
pub fn window_report(window: u32) -> Vec<u8> {
    report(&[(PLAIN, 7), (FLOW, 7), (SECOND_FLOW, 7), (ROOMY, 7)], &[(FLOW, control::Window::Given(FlowWindow(window)))])
}
