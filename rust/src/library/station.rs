//! The functions of the radio's end, a library of its own.
use super::Answer;

/// How many numbers are shown of a channel.
pub(crate) const STATION_NUMBERS: usize = 6;

mod exports {
    use super::{Answer, STATION_NUMBERS};

    extern "C" {
        pub(super) fn nespovarda_station_words(channels: u64) -> u64;
        pub(super) fn nespovarda_station_start(words: *mut u64, words_length: usize, configuration: *const u64, configuration_length: usize) -> Answer;
        pub(super) fn nespovarda_station_hear(
            words: *mut u64,
            words_length: usize,
            datagram: *const u8,
            datagram_length: usize,
            out: *mut u8,
            out_length: usize,
        ) -> Answer;
        pub(super) fn nespovarda_station_status(words: *mut u64, words_length: usize, channel: u8, value: u8, out: *mut u8, out_length: usize) -> Answer;
        pub(super) fn nespovarda_station_queued(words: *mut u64, words_length: usize, channel: u8, bytes: u64, out: *mut u8, out_length: usize) -> Answer;
        pub(super) fn nespovarda_station_context(words: *mut u64, words_length: usize, value: u64, length: u64, out: *mut u8, out_length: usize) -> Answer;
        pub(super) fn nespovarda_station_link(words: *mut u64, words_length: usize, value: u64, length: u64) -> Answer;
        pub(super) fn nespovarda_station_tell(words: *const u64, words_length: usize, out: *mut u8, out_length: usize) -> Answer;
        pub(super) fn nespovarda_station_show(words: *const u64, words_length: usize, channel: u8, shown: *mut [u64; STATION_NUMBERS]) -> Answer;
    }
}

pub(crate) fn words(channels: u64) -> u64 {
    // SAFETY: a number comes and a number goes; no memory is lent.
    unsafe { exports::nespovarda_station_words(channels) }
}

pub(crate) fn start(words: &mut [u64], configuration: &[u64]) -> Answer {
    // SAFETY: each pointer and length are one slice's; the mutable slice is borrowed for this call alone.
    unsafe { exports::nespovarda_station_start(words.as_mut_ptr(), words.len(), configuration.as_ptr(), configuration.len()) }
}

pub(crate) fn hear(words: &mut [u64], datagram: &[u8], out: &mut [u8]) -> Answer {
    // SAFETY: each pointer and length are one slice's; both mutable slices are borrowed for this call alone.
    unsafe { exports::nespovarda_station_hear(words.as_mut_ptr(), words.len(), datagram.as_ptr(), datagram.len(), out.as_mut_ptr(), out.len()) }
}

pub(crate) fn status(words: &mut [u64], channel: u8, value: u8, out: &mut [u8]) -> Answer {
    // SAFETY: each pointer and length are one slice's; both mutable slices are borrowed for this call alone.
    unsafe { exports::nespovarda_station_status(words.as_mut_ptr(), words.len(), channel, value, out.as_mut_ptr(), out.len()) }
}

pub(crate) fn queued(words: &mut [u64], channel: u8, bytes: u64, out: &mut [u8]) -> Answer {
    // SAFETY: each pointer and length are one slice's; both mutable slices are borrowed for this call alone.
    unsafe { exports::nespovarda_station_queued(words.as_mut_ptr(), words.len(), channel, bytes, out.as_mut_ptr(), out.len()) }
}

pub(crate) fn context(words: &mut [u64], value: u64, length: u64, out: &mut [u8]) -> Answer {
    // SAFETY: each pointer and length are one slice's; both mutable slices are borrowed for this call alone.
    unsafe { exports::nespovarda_station_context(words.as_mut_ptr(), words.len(), value, length, out.as_mut_ptr(), out.len()) }
}

pub(crate) fn link(words: &mut [u64], value: u64, length: u64) -> Answer {
    // SAFETY: pointer and length are one slice's, which is borrowed for this call alone.
    unsafe { exports::nespovarda_station_link(words.as_mut_ptr(), words.len(), value, length) }
}

pub(crate) fn tell(words: &[u64], out: &mut [u8]) -> Answer {
    // SAFETY: each pointer and length are one slice's; the mutable slice is borrowed for this call alone.
    unsafe { exports::nespovarda_station_tell(words.as_ptr(), words.len(), out.as_mut_ptr(), out.len()) }
}

pub(crate) fn show(words: &[u64], channel: u8, shown: &mut [u64; STATION_NUMBERS]) -> Answer {
    // SAFETY: pointer and length are one slice's; the array is of the length that the library writes, and borrowed for this call alone.
    unsafe { exports::nespovarda_station_show(words.as_ptr(), words.len(), channel, shown) }
}
