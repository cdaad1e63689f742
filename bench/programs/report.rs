// The plain program beside `report`: a capture on standard input, its counts in the same lines on standard output (docs/REPORT.md).
use std::io::{Read, Write};

#[path = "../common/census.rs"]
mod census;
#[path = "../common/message.rs"]
mod message;

use census::*;

const SETTING: Setting = Setting { radio: 8580, ips: 8581, datalink: 7 };
const ROOM: usize = 2 * (65_536 + 16);

// Counts record after record, in whatever pieces the input comes. Gives the number by which the capture is refused, or 0.
fn serve(input: &mut impl Read, counts: &mut Counts) -> std::io::Result<u8> {
    let mut buffer = vec![0u8; ROOM];
    let (mut at, mut have) = (0, 0);
    let mut opened = None;
    loop {
        let taken = match opened {
            None if have - at >= 24 => match order(&buffer[at..at + 24]) {
                None => return Ok(25),
                right => {
                    opened = right;
                    24
                }
            },
            None => 0,
            Some(big) => match first(&buffer[at..have], big) {
                First::Long => return Ok(26),
                First::Short => 0,
                First::Record(original, frame) => {
                    count_record(counts, frame, original, &SETTING);
                    16 + frame.len()
                }
            },
        };
        at += taken;
        if taken == 0 {
            buffer.copy_within(at..have, 0);
            (at, have) = (0, have - at);
            match input.read(&mut buffer[have..])? {
                0 if opened.is_none() => return Ok(25),
                0 => return Ok(if have == 0 { 0 } else { 26 }),
                more => have += more,
            }
        }
    }
}

fn name(place: usize) -> String {
    match place {
        0 => "records".to_string(),
        1 => "skipped".to_string(),
        2 => "ips".to_string(),
        3 => "radio".to_string(),
        4..=14 => format!("refusal {}", place - 3),
        _ => format!("channel {} {}", (place - 15) / 3, ["packets", "bytes", "windows"][place % 3]),
    }
}

fn main() -> std::io::Result<()> {
    let mut counts = Counts::none();
    let number = serve(&mut std::io::stdin().lock(), &mut counts)?;
    let mut out = std::io::BufWriter::new(std::io::stdout().lock());
    writeln!(out, "count value")?;
    if number != 25 {
        for (place, value) in counts.in_order().iter().enumerate() {
            writeln!(out, "{} {value}", name(place))?;
        }
    }
    if number != 0 {
        writeln!(out, "refused {number}")?;
    }
    out.flush()
}
