// An hour's capture in memory, read and counted by the proved code (the crates `bench_reader`, `whole_captures`) and by plain Rust: all counts and readings
// must agree, then both are timed on the same bytes. `captures compare` only compares; `captures write FILE little|big` writes the capture; `captures WORD` times quickly the
// rows that have the word in their name.
use std::hint::black_box;

#[path = "common/capture.rs"]
mod capture;
#[path = "common/census.rs"]
mod census;
#[path = "common/digest.rs"]
mod digest;
#[path = "common/flat.rs"]
mod flat;
#[path = "common/message.rs"]
mod message;
#[path = "common/timing.rs"]
mod timing;

use census::*;
use digest::*;
use message::*;
use timing::*;

const SEED: u64 = 88_172_645_463_325_252;
const SETTING: Setting = Setting { radio: capture::RADIO_PORT, ips: capture::IPS_PORT, datalink: capture::DATALINK };

extern "C" {
    fn nespovarda_census(capture: *const u8, length: usize, counts: *mut u64, places: usize, radio: usize, ips: usize, id: u8) -> u8;
}

// ---- both sides

// The number that refuses the file, and the counts in the report's order.
fn proved_census(file: &[u8]) -> (u8, Vec<u64>) {
    let mut counts = vec![0u64; PLACES];
    let number = unsafe { nespovarda_census(file.as_ptr(), file.len(), counts.as_mut_ptr(), counts.len(), SETTING.radio as usize, SETTING.ips as usize, SETTING.datalink) };
    (number, counts)
}

#[inline(never)]
fn plain_census(file: &[u8]) -> (u8, Vec<u64>) {
    let mut counts = Counts::none();
    let number = count_file(&mut counts, file, &SETTING);
    (number, counts.in_order())
}

// A datagram by its plane, as a caller reads it; of a control message one channel is looked at.
fn proved_reading(datagram: &[u8], end: End, channel: u8) -> u64 {
    match proved_plane(datagram) {
        0 => proved_control(datagram, end, SETTING.datalink, channel),
        1 => proved_packet(datagram, end, SETTING.datalink),
        refused => refused,
    }
}

fn plain_reading(datagram: &[u8], end: End, channel: u8) -> u64 {
    match plain_plane(datagram) {
        0 => plain_control(datagram, end, SETTING.datalink, channel),
        1 => plain_packet(datagram, end, SETTING.datalink),
        refused => refused,
    }
}

// The same, a control message by its lent tables.
fn proved_noting(datagram: &[u8], end: End, channel: u8) -> u64 {
    match proved_plane(datagram) {
        0 => proved_noted(datagram, end, SETTING.datalink, channel),
        1 => proved_packet(datagram, end, SETTING.datalink),
        refused => refused,
    }
}

fn plain_noting(datagram: &[u8], end: End, channel: u8) -> u64 {
    match plain_plane(datagram) {
        0 => plain_noted(datagram, end, SETTING.datalink, channel),
        1 => plain_packet(datagram, end, SETTING.datalink),
        refused => refused,
    }
}

// How the datagrams are read, proved and plain.
type Readers = [fn(&[u8], End, u8) -> u64; 2];
const READING: (&str, Readers) = ("reading", [proved_reading, plain_reading]);
const NOTING: (&str, Readers) = ("noting", [proved_noting, plain_noting]);

// ---- agreement

fn end_run(what: &str, proved: &dyn std::fmt::Debug, plain: &dyn std::fmt::Debug) -> ! {
    println!("the two sides differ: {what}, proved {proved:?}, plain {plain:?}");
    std::process::exit(1);
}

fn agree(what: &str, file: &[u8]) -> (u8, Vec<u64>) {
    let (proved, plain) = (proved_census(file), plain_census(file));
    if proved.0 != plain.0 {
        end_run(&format!("{what}: refused by"), &proved.0, &plain.0);
    }
    for (place, counts) in proved.1.iter().zip(&plain.1).enumerate() {
        if counts.0 != counts.1 {
            end_run(&format!("{what}: count {place}"), counts.0, counts.1);
        }
    }
    proved
}

type Datagram<'a> = (&'a [u8], End);

// The capture's datagrams, in order.
fn datagrams(file: &[u8]) -> Vec<Datagram<'_>> {
    let big = order(file).expect("the capture's head is right");
    let mut rest = &file[24..];
    let mut found = Vec::new();
    while let First::Record(original, frame) = first(rest, big) {
        found.extend(datagram(frame, original, &SETTING));
        rest = &rest[16 + frame.len()..];
    }
    found
}

const CUTS: usize = 2_000;
const CUT_WITHIN: usize = 50_000;

fn compare(little: &[u8], big: &[u8]) {
    let (number, counts) = agree("little-endian", little);
    assert_eq!((number, &counts), (agree("big-endian", big).0, &agree("big-endian", big).1));
    // A file that is cut off anywhere, or has another byte somewhere.
    let mut dice = Dice(SEED);
    for _ in 0..CUTS {
        let mut part = if dice.roll(2) == 0 { little } else { big }[..dice.roll(CUT_WITHIN)].to_vec();
        if dice.roll(2) == 0 && !part.is_empty() {
            let at = dice.roll(part.len());
            part[at] = dice.roll(256) as u8;
        }
        agree("a damaged file", &part);
    }
    let found = datagrams(little);
    for (datagram, end) in &found {
        for channel in 0..capture::CHANNELS {
            for (name, [proved, plain]) in [READING, NOTING] {
                let (proved, plain) = (proved(datagram, *end, channel), plain(datagram, *end, channel));
                if proved != plain {
                    end_run(name, &proved, &plain);
                }
            }
        }
    }
    println!("both sides agree on every count of the capture in both byte orders, on {CUTS} damaged files, and on the reading of each of {} datagrams, looked at each channel of the mix:", found.len());
    println!("  {} bytes; records {}, skipped {}, ips {}, radio {}, refused by 2 to 11: {:?}", little.len(), counts[0], counts[1], counts[2], counts[3], &counts[5..15]);
    assert!(counts[1] > 0 && counts[5..15].iter().all(|count| *count > 0), "each number from 2 to 11 is met");
}

// ---- timing

fn read_all(datagrams: &[Datagram], channel: u8, read: fn(&[u8], End, u8) -> u64) -> u64 {
    datagrams.iter().fold(0, |sum, (datagram, end)| mixed(sum, read(datagram, *end, channel)))
}

fn row(name: &str, units: usize, [proved, plain]: [f64; 2]) {
    println!("| {name} | {units} | {:.1} | {:.1} | {:.2} |", proved / units as f64, plain / units as f64, proved / plain);
}

fn time_readings((how, [proved, plain]): (&str, Readers), name: &str, datagrams: &[Datagram]) {
    if !is_asked(&format!("{how}: {name}")) {
        return;
    }
    let channel = black_box(1);
    let times = timed([&mut || read_all(black_box(datagrams), channel, proved), &mut || read_all(black_box(datagrams), channel, plain)]);
    row(&format!("{how}: {name}"), datagrams.len(), times);
}

fn time_census(name: &str, file: &[u8], records: usize) {
    if !is_asked(name) {
        return;
    }
    let times = timed([&mut || proved_census(black_box(file)).1[0], &mut || plain_census(black_box(file)).1[0]]);
    row(name, records, times);
}

fn is_data(datagram: &[u8]) -> bool {
    datagram.first().is_some_and(|byte| byte & 8 != 0)
}

fn is_accepted((datagram, end): &Datagram) -> bool {
    if is_data(datagram) {
        read_data(datagram, *end, SETTING.datalink).is_ok()
    } else {
        read_control(datagram, *end, SETTING.datalink).is_ok()
    }
}

fn time(little: &[u8], big: &[u8]) {
    println!();
    println!("| what | how many | proved, ns each | plain Rust, ns each | ratio |");
    println!("|---|---|---|---|---|");
    let found = datagrams(little);
    time_readings(READING, "all datagrams", &found);
    time_readings(NOTING, "all datagrams", &found);
    for (name, data, end) in [("data, IPS", true, End::Ips), ("data, radio", true, End::Radio), ("control, IPS", false, End::Ips), ("control, radio", false, End::Radio)] {
        let some: Vec<Datagram> = found.iter().copied().filter(|of| is_accepted(of) && is_data(of.0) == data && of.1 == end).collect();
        time_readings(READING, name, &some);
        if !data {
            time_readings(NOTING, name, &some);
        }
    }
    let refused: Vec<Datagram> = found.iter().copied().filter(|of| !is_accepted(of)).collect();
    time_readings(READING, "refused", &refused);
    time_readings(NOTING, "refused", &refused);
    let records = plain_census(little).1[0] as usize;
    time_census("census, little-endian", little, records);
    time_census("census, big-endian", big, records);
}

fn main() {
    let words: Vec<String> = std::env::args().skip(1).collect();
    match words.iter().map(String::as_str).collect::<Vec<_>>()[..] {
        ["write", name, order] => std::fs::write(name, capture::hour(SEED, order == "big")).expect("the file can be written"),
        ["compare"] => compare(&capture::hour(SEED, false), &capture::hour(SEED, true)),
        [] | [_] => {
            let (little, big) = (capture::hour(SEED, false), capture::hour(SEED, true));
            compare(&little, &big);
            time(&little, &big);
            some_asked();
        }
        _ => {
            eprintln!("captures [compare | write FILE little|big | WORD]");
            std::process::exit(2);
        }
    }
}
