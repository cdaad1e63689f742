//! The proved libraries' functions, and a safe call of each: the only unsafe code of this crate.
//!
//! A library asks nothing of its callers but that each pointer and length are those of memory that the caller owns, and that mutable memory overlaps nothing
//! else that is lent. A slice is such memory, and Rust lends a mutable one to one borrower alone.

pub(crate) mod station;

use crate::handful::Handful;

/// A kind and its value: a message's length, a refusal's place, or 0.
#[repr(C)]
#[derive(Clone, Copy)]
pub(crate) struct Answer {
    pub(crate) kind: u64,
    pub(crate) value: u64,
}

pub(crate) const STARTED: u64 = 1;
pub(crate) const TAKEN: u64 = 2;
pub(crate) const SENT: u64 = 3;
pub(crate) const NOTHING_WAITING: u64 = 4;
pub(crate) const NOT_OPERATIONAL: u64 = 5;
pub(crate) const WINDOW_SHUT: u64 = 6;
pub(crate) const WITHDRAWN: u64 = 7;
pub(crate) const ACCEPTED: u64 = 8;
pub(crate) const DUE: u64 = 9;
pub(crate) const OTHER_PLANE: u64 = 10;
pub(crate) const WROTE: u64 = 11;
pub(crate) const SHOWN: u64 = 12;
pub(crate) const KEPT: u64 = 13;
pub(crate) const NONE_THERE: u64 = 14;
pub(crate) const QUIET: u64 = 15;
pub(crate) const QUERY_DUE: u64 = 16;
pub(crate) const SILENT: u64 = 17;
pub(crate) const QUERY_DUE_SILENT: u64 = 18;
pub(crate) const PACER_SHOWN: u64 = 19;
pub(crate) const ANSWERED: u64 = 20;
pub(crate) const UNASKED: u64 = 21;
pub(crate) const NO_MESSAGE: u64 = 22;
pub(crate) const OFFERED: u64 = 23;
/// From here on a kind is a refusal: this and its number.
pub(crate) const REFUSED: u64 = 256;

/// How many numbers are shown of a channel, of a waiting packet, of what is kept, and of the pacer.
pub(crate) const CHANNEL_NUMBERS: usize = 9;
pub(crate) const WAITING_NUMBERS: usize = 2;
pub(crate) const KEPT_NUMBERS: usize = 4;
pub(crate) const PACER_NUMBERS: usize = 5;

mod exports {
    use super::{Answer, CHANNEL_NUMBERS, KEPT_NUMBERS, PACER_NUMBERS, WAITING_NUMBERS};

    extern "C" {
        pub(super) fn nespovarda_words(channels: u64) -> u64;
        pub(super) fn nespovarda_start(
            words: *mut u64,
            words_length: usize,
            memory: *mut u8,
            memory_length: usize,
            configuration: *const u64,
            configuration_length: usize,
        ) -> Answer;
        pub(super) fn nespovarda_offer(
            words: *mut u64,
            words_length: usize,
            memory: *mut u8,
            memory_length: usize,
            channel: u8,
            packet: *const u8,
            packet_length: usize,
            expiry: u64,
            time: u64,
        ) -> Answer;
        pub(super) fn nespovarda_offers(
            words: *mut u64,
            words_length: usize,
            memory: *mut u8,
            memory_length: usize,
            channels: *const u8,
            channels_length: usize,
            expiries: *const u64,
            expiries_length: usize,
            lengths: *const u64,
            lengths_length: usize,
            packets: *const u8,
            packets_length: usize,
            time: u64,
            answers: *mut u8,
            answers_length: usize,
        ) -> Answer;
        pub(super) fn nespovarda_next(
            words: *mut u64,
            words_length: usize,
            memory: *mut u8,
            memory_length: usize,
            channel: u8,
            time: u64,
            out: *mut u8,
            out_length: usize,
        ) -> Answer;
        pub(super) fn nespovarda_withdraw(words: *mut u64, words_length: usize, memory: *mut u8, memory_length: usize, channel: u8) -> Answer;
        pub(super) fn nespovarda_radio(words: *mut u64, words_length: usize, time: u64, datagram: *const u8, datagram_length: usize) -> Answer;
        pub(super) fn nespovarda_pace(words: *mut u64, words_length: usize, time: u64) -> Answer;
        pub(super) fn nespovarda_query(words: *const u64, words_length: usize, out: *mut u8, out_length: usize) -> Answer;
        pub(super) fn nespovarda_show(words: *const u64, words_length: usize, channel: u8, shown: *mut [u64; CHANNEL_NUMBERS]) -> Answer;
        pub(super) fn nespovarda_waiting(words: *const u64, words_length: usize, channel: u8, position: u64, shown: *mut [u64; WAITING_NUMBERS]) -> Answer;
        pub(super) fn nespovarda_kept(words: *const u64, words_length: usize, shown: *mut [u64; KEPT_NUMBERS]) -> Answer;
        pub(super) fn nespovarda_pacer(words: *const u64, words_length: usize, shown: *mut [u64; PACER_NUMBERS]) -> Answer;
        pub(super) fn nespovarda_read_control(
            datagram: *const u8,
            datagram_length: usize,
            end: u8,
            datalink: u8,
            meaning: *mut u64,
            meaning_length: usize,
        ) -> Answer;
        pub(super) fn nespovarda_read_data(datagram: *const u8, datagram_length: usize, end: u8, datalink: u8, parts: *mut u64, parts_length: usize) -> Answer;
        pub(super) fn nespovarda_write_control(end: u8, meaning: *const u64, meaning_length: usize, out: *mut u8, out_length: usize) -> Answer;
        pub(super) fn nespovarda_write_data(
            end: u8,
            parts: *const u64,
            parts_length: usize,
            packet: *const u8,
            packet_length: usize,
            out: *mut u8,
            out_length: usize,
        ) -> Answer;
    }
}

pub(crate) fn words(channels: u64) -> u64 {
    // SAFETY: a number comes and a number goes; no memory is lent.
    unsafe { exports::nespovarda_words(channels) }
}

pub(crate) fn start(words: &mut [u64], memory: &mut [u8], configuration: &[u64]) -> Answer {
    // SAFETY: each pointer and length are one slice's; both mutable slices are borrowed for this call alone.
    unsafe { exports::nespovarda_start(words.as_mut_ptr(), words.len(), memory.as_mut_ptr(), memory.len(), configuration.as_ptr(), configuration.len()) }
}

pub(crate) fn offer(words: &mut [u64], memory: &mut [u8], channel: u8, packet: &[u8], expiry: u64, time: u64) -> Answer {
    // SAFETY: each pointer and length are one slice's; both mutable slices are borrowed for this call alone.
    unsafe {
        exports::nespovarda_offer(words.as_mut_ptr(), words.len(), memory.as_mut_ptr(), memory.len(), channel, packet.as_ptr(), packet.len(), expiry, time)
    }
}

pub(crate) fn offers(words: &mut [u64], memory: &mut [u8], handful: &Handful<'_>, answers: &mut [u8]) -> Answer {
    let Handful { channels, expiries, lengths, packets, time } = *handful;
    // SAFETY: each pointer and length are one slice's; the three mutable slices are borrowed for this call alone.
    unsafe {
        exports::nespovarda_offers(
            words.as_mut_ptr(),
            words.len(),
            memory.as_mut_ptr(),
            memory.len(),
            channels.as_ptr(),
            channels.len(),
            expiries.as_ptr(),
            expiries.len(),
            lengths.as_ptr(),
            lengths.len(),
            packets.as_ptr(),
            packets.len(),
            time,
            answers.as_mut_ptr(),
            answers.len(),
        )
    }
}

pub(crate) fn next(words: &mut [u64], memory: &mut [u8], channel: u8, time: u64, out: &mut [u8]) -> Answer {
    // SAFETY: each pointer and length are one slice's; the three mutable slices are borrowed for this call alone.
    unsafe { exports::nespovarda_next(words.as_mut_ptr(), words.len(), memory.as_mut_ptr(), memory.len(), channel, time, out.as_mut_ptr(), out.len()) }
}

pub(crate) fn withdraw(words: &mut [u64], memory: &mut [u8], channel: u8) -> Answer {
    // SAFETY: each pointer and length are one slice's; both mutable slices are borrowed for this call alone.
    unsafe { exports::nespovarda_withdraw(words.as_mut_ptr(), words.len(), memory.as_mut_ptr(), memory.len(), channel) }
}

pub(crate) fn radio(words: &mut [u64], time: u64, datagram: &[u8]) -> Answer {
    // SAFETY: each pointer and length are one slice's; the mutable slice is borrowed for this call alone.
    unsafe { exports::nespovarda_radio(words.as_mut_ptr(), words.len(), time, datagram.as_ptr(), datagram.len()) }
}

pub(crate) fn pace(words: &mut [u64], time: u64) -> Answer {
    // SAFETY: pointer and length are one slice's, which is borrowed for this call alone.
    unsafe { exports::nespovarda_pace(words.as_mut_ptr(), words.len(), time) }
}

pub(crate) fn query(words: &[u64], out: &mut [u8]) -> Answer {
    // SAFETY: each pointer and length are one slice's; the mutable slice is borrowed for this call alone.
    unsafe { exports::nespovarda_query(words.as_ptr(), words.len(), out.as_mut_ptr(), out.len()) }
}

pub(crate) fn show(words: &[u64], channel: u8, shown: &mut [u64; CHANNEL_NUMBERS]) -> Answer {
    // SAFETY: pointer and length are one slice's; the array is of the length that the library writes, and borrowed for this call alone.
    unsafe { exports::nespovarda_show(words.as_ptr(), words.len(), channel, shown) }
}

pub(crate) fn waiting(words: &[u64], channel: u8, position: u64, shown: &mut [u64; WAITING_NUMBERS]) -> Answer {
    // SAFETY: pointer and length are one slice's; the array is of the length that the library writes, and borrowed for this call alone.
    unsafe { exports::nespovarda_waiting(words.as_ptr(), words.len(), channel, position, shown) }
}

pub(crate) fn kept(words: &[u64], shown: &mut [u64; KEPT_NUMBERS]) -> Answer {
    // SAFETY: pointer and length are one slice's; the array is of the length that the library writes, and borrowed for this call alone.
    unsafe { exports::nespovarda_kept(words.as_ptr(), words.len(), shown) }
}

pub(crate) fn pacer(words: &[u64], shown: &mut [u64; PACER_NUMBERS]) -> Answer {
    // SAFETY: pointer and length are one slice's; the array is of the length that the library writes, and borrowed for this call alone.
    unsafe { exports::nespovarda_pacer(words.as_ptr(), words.len(), shown) }
}

pub(crate) fn read_control(datagram: &[u8], end: u8, datalink: u8, meaning: &mut [u64]) -> Answer {
    // SAFETY: each pointer and length are one slice's; the mutable slice is borrowed for this call alone.
    unsafe { exports::nespovarda_read_control(datagram.as_ptr(), datagram.len(), end, datalink, meaning.as_mut_ptr(), meaning.len()) }
}

pub(crate) fn read_data(datagram: &[u8], end: u8, datalink: u8, parts: &mut [u64]) -> Answer {
    // SAFETY: each pointer and length are one slice's; the mutable slice is borrowed for this call alone.
    unsafe { exports::nespovarda_read_data(datagram.as_ptr(), datagram.len(), end, datalink, parts.as_mut_ptr(), parts.len()) }
}

pub(crate) fn write_control(end: u8, meaning: &[u64], out: &mut [u8]) -> Answer {
    // SAFETY: each pointer and length are one slice's; the mutable slice is borrowed for this call alone.
    unsafe { exports::nespovarda_write_control(end, meaning.as_ptr(), meaning.len(), out.as_mut_ptr(), out.len()) }
}

pub(crate) fn write_data(end: u8, parts: &[u64], packet: &[u8], out: &mut [u8]) -> Answer {
    // SAFETY: each pointer and length are one slice's; the mutable slice is borrowed for this call alone.
    unsafe { exports::nespovarda_write_data(end, parts.as_ptr(), parts.len(), packet.as_ptr(), packet.len(), out.as_mut_ptr(), out.len()) }
}
