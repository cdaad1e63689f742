// The library as a Rust program links it: the exports of the crate `nespovarda` that are timed, and the numbers that they answer with.
#![allow(dead_code)]
use super::script::{Calls, Handful, Setup};

#[repr(C)]
#[derive(Clone, Copy, PartialEq, Debug)]
pub struct Answer {
    pub kind: u64,
    pub value: u64,
}

pub const STARTED: u64 = 1;
pub const TAKEN: u64 = 2;
pub const SENT: u64 = 3;
pub const NOTHING_WAITING: u64 = 4;
pub const NOT_OPERATIONAL: u64 = 5;
pub const WINDOW_SHUT: u64 = 6;
pub const WITHDRAWN: u64 = 7;
pub const ACCEPTED: u64 = 8;
pub const DUE: u64 = 9;
pub const WROTE: u64 = 11;
pub const QUIET: u64 = 15;
pub const QUERY_DUE: u64 = 16;
pub const SILENT: u64 = 17;
pub const QUERY_DUE_SILENT: u64 = 18;
pub const OFFERED: u64 = 23;
pub const REFUSED: u64 = 256;

extern "C" {
    fn nespovarda_words(channels: u64) -> u64;
    fn nespovarda_start(words: *mut u64, count: usize, memory: *mut u8, size: usize, configuration: *const u64, length: usize) -> Answer;
    fn nespovarda_offer(
        words: *mut u64,
        count: usize,
        memory: *mut u8,
        size: usize,
        channel: u8,
        packet: *const u8,
        length: usize,
        expiry: u64,
        time: u64,
    ) -> Answer;
    fn nespovarda_offers(
        words: *mut u64,
        count: usize,
        memory: *mut u8,
        size: usize,
        channels: *const u8,
        channels_count: usize,
        expiries: *const u64,
        expiries_count: usize,
        lengths: *const u64,
        lengths_count: usize,
        packets: *const u8,
        packets_size: usize,
        time: u64,
        answers: *mut u8,
        answers_count: usize,
    ) -> Answer;
    fn nespovarda_next(words: *mut u64, count: usize, memory: *mut u8, size: usize, channel: u8, time: u64, out: *mut u8, room: usize) -> Answer;
    fn nespovarda_withdraw(words: *mut u64, count: usize, memory: *mut u8, size: usize, channel: u8) -> Answer;
    fn nespovarda_radio(words: *mut u64, count: usize, time: u64, datagram: *const u8, length: usize) -> Answer;
    fn nespovarda_pace(words: *mut u64, count: usize, time: u64) -> Answer;
    fn nespovarda_query(words: *const u64, count: usize, out: *mut u8, room: usize) -> Answer;
}

// The state in words that the caller owns, and the configuration in words.
pub struct Proved {
    words: Vec<u64>,
    configuration: Vec<u64>,
}

impl Proved {
    pub fn new(setup: &Setup) -> Proved {
        let count = setup.starts.len() as u64;
        let mut configuration = vec![setup.datalink as u64, count, setup.hello, setup.limit, setup.codes as u64];
        for start in &setup.starts {
            configuration.extend([start.id as u64, start.controlled as u64, start.first as u64, start.size as u64]);
        }
        Proved { words: vec![0; unsafe { nespovarda_words(count) } as usize], configuration }
    }
}

impl Calls for Proved {
    fn start(&mut self, memory: &mut [u8]) -> Answer {
        let (words, configuration) = (&mut self.words, &self.configuration);
        unsafe { nespovarda_start(words.as_mut_ptr(), words.len(), memory.as_mut_ptr(), memory.len(), configuration.as_ptr(), configuration.len()) }
    }

    fn offer(&mut self, memory: &mut [u8], id: u8, packet: &[u8], expiry: u64, time: u64) -> Answer {
        let words = &mut self.words;
        unsafe { nespovarda_offer(words.as_mut_ptr(), words.len(), memory.as_mut_ptr(), memory.len(), id, packet.as_ptr(), packet.len(), expiry, time) }
    }

    fn offers(&mut self, memory: &mut [u8], handful: &Handful, time: u64, answers: &mut [u8]) -> Answer {
        let words = &mut self.words;
        let Handful { channels, expiries, lengths, packets } = handful;
        unsafe {
            nespovarda_offers(
                words.as_mut_ptr(),
                words.len(),
                memory.as_mut_ptr(),
                memory.len(),
                channels.as_ptr(),
                channels.len(),
                expiries.as_ptr(),
                expiries.len(),
                lengths.as_ptr(),
                lengths.len(),
                packets.as_ptr(),
                packets.len(),
                time,
                answers.as_mut_ptr(),
                answers.len(),
            )
        }
    }

    fn next(&mut self, memory: &mut [u8], id: u8, time: u64, out: &mut [u8]) -> Answer {
        let words = &mut self.words;
        unsafe { nespovarda_next(words.as_mut_ptr(), words.len(), memory.as_mut_ptr(), memory.len(), id, time, out.as_mut_ptr(), out.len()) }
    }

    fn withdraw(&mut self, memory: &mut [u8], id: u8) -> Answer {
        let words = &mut self.words;
        unsafe { nespovarda_withdraw(words.as_mut_ptr(), words.len(), memory.as_mut_ptr(), memory.len(), id) }
    }

    fn radio(&mut self, time: u64, datagram: &[u8]) -> Answer {
        let words = &mut self.words;
        unsafe { nespovarda_radio(words.as_mut_ptr(), words.len(), time, datagram.as_ptr(), datagram.len()) }
    }

    fn pace(&mut self, time: u64) -> Answer {
        let words = &mut self.words;
        unsafe { nespovarda_pace(words.as_mut_ptr(), words.len(), time) }
    }

    fn query(&mut self, out: &mut [u8]) -> Answer {
        let words = &self.words;
        unsafe { nespovarda_query(words.as_ptr(), words.len(), out.as_mut_ptr(), out.len()) }
    }
}
