// Two plain Rust readers of CIRI messages beside the proved one (the crate `bench_reader`): all must agree, then they are timed on the same bytes. The second, with
// flat tables (common/flat.rs), reads control messages. `reader compare` only compares; `reader WORD` times quickly the rows that have the word in their name.
// They share no code with the proved one, but its writer knew that one: the second opinion on the papers is second/.
use std::hint::black_box;

#[path = "common/digest.rs"]
mod digest;
#[path = "common/flat.rs"]
mod flat;
#[path = "common/message.rs"]
mod message;
#[path = "common/timing.rs"]
mod timing;

use digest::*;
use message::*;
use timing::*;

// ---- messages

const ID: u8 = 7;

fn begin(plane: u8) -> Vec<u8> {
    let mut message = vec![16 + 8 * plane];
    put(&mut message, 1, &[ID]);
    message
}

fn radio_control(channels: usize) -> Vec<u8> {
    let mut message = begin(CONTROL);
    put(&mut message, 3, &[1, 2, 3, 4]);
    put(&mut message, 4, b"link");
    for channel in 0..channels {
        put(&mut message, 5, &[channel as u8, 0xf0 | (channel % 16) as u8]);
    }
    for channel in 0..channels {
        if channel % 16 == 15 {
            put(&mut message, 6, &[channel as u8]);
        } else {
            put(&mut message, 6, &with_word(channel as u8, 4_294_967_000 + channel as u32));
        }
    }
    message
}

fn ips_control(channels: usize) -> Vec<u8> {
    let mut message = begin(CONTROL);
    for channel in 0..channels {
        put(&mut message, 134, &with_word(channel as u8, 1_000_000 * channel as u32));
    }
    message
}

// A packet's bytes, so many that the message is of a given size.
fn with_packet(mut message: Vec<u8>, size: usize) -> Vec<u8> {
    let length = size - message.len() - 3;
    let mut packet = vec![0u8; length];
    for (place, byte) in packet.iter_mut().enumerate() {
        *byte = (place * 7 + 96) as u8;
    }
    put(&mut message, 128, &packet);
    message
}

fn ips_data(size: usize) -> Vec<u8> {
    let mut message = begin(DATA);
    put(&mut message, 134, &with_word(2, 1_300_000));
    put(&mut message, 129, &[2]);
    with_packet(message, size)
}

fn ips_data_expiring(size: usize) -> Vec<u8> {
    let mut message = begin(DATA);
    put(&mut message, 129, &[2]);
    put(&mut message, 130, &30_000u32.to_be_bytes());
    with_packet(message, size)
}

// An Expiration Time of 0, which no packet may have.
fn expiring_at_once(size: usize) -> (Vec<u8>, usize) {
    let mut message = ips_data_expiring(size);
    let place = middle(&message, 130);
    message[place + 3..place + 7].fill(0);
    (message, place)
}

fn radio_data(size: usize) -> Vec<u8> {
    let mut message = begin(DATA);
    put(&mut message, 129, &[2]);
    with_packet(message, size)
}

#[derive(Clone, Copy)]
enum Call {
    Plane,
    Control,
    Data,
    Packet,
}

struct Case {
    name: &'static str,
    call: Call,
    end: End,
    bytes: Vec<u8>,
    answer: Option<(u8, usize)>,
}

fn accepted(name: &'static str, call: Call, end: End, bytes: Vec<u8>) -> Case {
    Case { name, call, end, bytes, answer: None }
}

fn refused(name: &'static str, call: Call, end: End, bytes: Vec<u8>, number: u8, place: usize) -> Case {
    Case { name, call, end, bytes, answer: Some((number, place)) }
}

fn other_version(mut message: Vec<u8>) -> Vec<u8> {
    message[0] += 16;
    message
}

// The first byte of the option of a type that stands in the middle among those of its type.
fn middle(message: &[u8], kind: u8) -> usize {
    let mut places = Vec::new();
    let mut at = 1;
    while at < message.len() {
        if message[at] == kind {
            places.push(at);
        }
        at += 3 + u16::from_be_bytes([message[at + 1], message[at + 2]]) as usize;
    }
    places[places.len() / 2]
}

// That option names the reserved channel.
fn reserved(mut message: Vec<u8>, kind: u8) -> (Vec<u8>, usize) {
    let place = middle(&message, kind);
    message[place + 3] = 255;
    (message, place)
}

// Without the Channel Status of channel 0.
fn without_primary(channels: usize) -> (Vec<u8>, usize) {
    let mut message = begin(CONTROL);
    for channel in 1..channels {
        put(&mut message, 5, &[channel as u8, 7]);
    }
    let size = message.len();
    (message, size)
}

fn without_packet() -> (Vec<u8>, usize) {
    let mut message = begin(DATA);
    put(&mut message, 134, &with_word(2, 1_300_000));
    put(&mut message, 129, &[2]);
    let size = message.len();
    (message, size)
}

fn cases() -> Vec<Case> {
    let (half, half_at) = reserved(radio_control(16), 5);
    let (far, far_at) = reserved(radio_control(255), 6);
    let (primary, primary_at) = without_primary(16);
    let (empty, empty_at) = without_packet();
    let (wrong, wrong_at) = reserved(ips_data(1320), 129);
    let (zero, zero_at) = expiring_at_once(1320);
    vec![
        accepted("data, IPS, 60 bytes", Call::Data, End::Ips, ips_data(60)),
        accepted("data, IPS, 60 bytes, packet handed back", Call::Packet, End::Ips, ips_data(60)),
        accepted("data, IPS, 1320 bytes", Call::Data, End::Ips, ips_data(1320)),
        accepted("data, IPS, 1320 bytes, packet handed back", Call::Packet, End::Ips, ips_data(1320)),
        accepted("data, IPS, 1320 bytes, expiration", Call::Packet, End::Ips, ips_data_expiring(1320)),
        accepted("data, radio, 60 bytes", Call::Data, End::Radio, radio_data(60)),
        accepted("data, radio, 60 bytes, packet handed back", Call::Packet, End::Radio, radio_data(60)),
        accepted("data, radio, 1320 bytes", Call::Data, End::Radio, radio_data(1320)),
        accepted("data, radio, 1320 bytes, packet handed back", Call::Packet, End::Radio, radio_data(1320)),
        accepted("control, radio, 1 channel", Call::Control, End::Radio, radio_control(1)),
        accepted("control, radio, 16 channels", Call::Control, End::Radio, radio_control(16)),
        accepted("control, radio, 255 channels", Call::Control, End::Radio, radio_control(255)),
        accepted("control, IPS, 1 channel", Call::Control, End::Ips, ips_control(1)),
        accepted("control, IPS, 16 channels", Call::Control, End::Ips, ips_control(16)),
        accepted("control, IPS, 255 channels", Call::Control, End::Ips, ips_control(255)),
        refused("header alone, refused", Call::Plane, End::Radio, other_version(radio_control(16)), 2, 0),
        refused("control, refused by its header", Call::Control, End::Radio, other_version(radio_control(16)), 2, 0),
        refused("control of 16 channels, refused in the middle", Call::Control, End::Radio, half, 5, half_at),
        refused("control of 255 channels, refused in the middle", Call::Control, End::Radio, far, 5, far_at),
        refused("control, no status of channel 0", Call::Control, End::Radio, primary, 9, primary_at),
        refused("data, refused by its header", Call::Packet, End::Ips, other_version(ips_data(1320)), 2, 0),
        refused("data, refused in the middle", Call::Packet, End::Ips, wrong, 5, wrong_at),
        refused("data, an expiration of 0", Call::Packet, End::Ips, zero, 5, zero_at),
        refused("data, no packet", Call::Packet, End::Ips, empty, 9, empty_at),
    ]
}

// ---- agreement

const ENDS: [End; 2] = [End::Ips, End::Radio];

struct Tally {
    control: usize,
    data: usize,
    other: usize,
    numbers: [usize; 12],
}

fn count(tally: &mut Tally, datagram: &[u8], end: End, id: u8) {
    match read_control(datagram, end, id) {
        Ok(_) => tally.control += 1,
        Err(Refused(number, _)) => tally.numbers[number as usize] += 1,
        Err(OtherPlane) => match read_data(datagram, end, id) {
            Ok(_) => tally.data += 1,
            Err(Refused(number, _)) => tally.numbers[number as usize] += 1,
            Err(OtherPlane) => tally.other += 1,
        },
    }
}

fn differ(what: &str, datagram: &[u8], end: End, id: u8, proved: u64, plain: u64) {
    if proved == plain {
        return;
    }
    let end = if end == End::Radio { "radio" } else { "ips" };
    let bytes: String = datagram.iter().take(4096).map(|byte| format!("{byte:02x}")).collect();
    println!("the two sides differ: {what}, {end}, configured {id}, proved {proved:x}, plain {plain:x}, {} bytes: {bytes}", datagram.len());
    std::process::exit(1);
}

// Both readers, both ends. Of an accepted control message every channel is looked at; of any other the answer is the same for all.
fn agree(tally: &mut Tally, datagram: &[u8], id: u8) {
    differ("plane", datagram, End::Ips, id, proved_plane(datagram), plain_plane(datagram));
    for end in ENDS {
        count(tally, datagram, end, id);
        let last = if read_control(datagram, end, id).is_ok() { 255 } else { 0 };
        for channel in 0..=last {
            let proved = proved_control(datagram, end, id, channel);
            differ("control", datagram, end, id, proved, plain_control(datagram, end, id, channel));
            differ("control, flat tables", datagram, end, id, proved, flat_control(datagram, end, id, channel));
        }
        differ("data", datagram, end, id, proved_data(datagram, end, id), plain_data(datagram, end, id));
        differ("packet", datagram, end, id, proved_packet(datagram, end, id), plain_packet(datagram, end, id));
    }
}

const BYTES: [u8; 16] = [0, 1, 2, 3, 4, 5, 6, 7, 8, 127, 128, 129, 130, 134, 254, 255];

// An option from the middle of a message, moved or doubled elsewhere, a byte changed, added or lost, the end cut, or a long tail.
fn damage(dice: &mut Dice, message: &mut Vec<u8>) {
    let n = message.len();
    match dice.roll(8) {
        0 if n > 0 => {
            let at = dice.roll(n);
            message[at] = BYTES[dice.roll(16)];
        }
        1 if n > 0 => {
            let at = dice.roll(n.min(24));
            message[at] ^= 1 << dice.roll(8);
        }
        2 if n > 0 => {
            message.remove(dice.roll(n));
        }
        3 => message.insert(dice.roll(n + 1), BYTES[dice.roll(16)]),
        4 => message.truncate(dice.roll(n + 1)),
        5 => {
            let kind = BYTES[dice.roll(16)];
            let length = [0, 1, 1, 2, 4, 5, 5, 8, 9][dice.roll(9)];
            let content: Vec<u8> = (0..length).map(|_| BYTES[dice.roll(16)]).collect();
            let mut added = Vec::new();
            put(&mut added, kind, &content);
            let at = starts(message);
            let place = if at.is_empty() { n } else { at[dice.roll(at.len())] };
            message.splice(place..place, added);
        }
        6 => {
            let at = starts(message);
            if at.len() > 2 {
                let (from, to) = (dice.roll(at.len() - 1), dice.roll(at.len()));
                let copy = message[at[from]..at[from + 1]].to_vec();
                if dice.roll(2) == 0 {
                    message.drain(at[from]..at[from + 1]);
                }
                let place = at[to].min(message.len());
                message.splice(place..place, copy);
            }
        }
        _ => {
            if dice.roll(64) == 0 {
                let size = LONGEST - 2 + dice.roll(5);
                let unknown = size.saturating_sub(n + 3).min(65535);
                put(message, 200, &vec![0; unknown]);
            }
        }
    }
}

// Where whole options start, and the end behind the last.
fn starts(message: &[u8]) -> Vec<usize> {
    let mut places = Vec::new();
    let mut at = 1;
    while at + 3 <= message.len() {
        places.push(at);
        at += 3 + u16::from_be_bytes([message[at + 1], message[at + 2]]) as usize;
    }
    if at == message.len() {
        places.push(at);
    }
    places
}

const VARIANTS: usize = 200_000;
// Before a part of the rows.
const FEW_VARIANTS: usize = 5_000;
// The word that asks for no row.
const COMPARE: &str = "compare";

fn check(cases: &[Case]) {
    let mut tally = Tally { control: 0, data: 0, other: 0, numbers: [0; 12] };
    for case in cases {
        let answer = match case.call {
            Call::Plane => header(&case.bytes, CONTROL).err(),
            Call::Control => read_control(&case.bytes, case.end, ID).err(),
            Call::Data | Call::Packet => read_data(&case.bytes, case.end, ID).err(),
        };
        let found = match answer {
            None => None,
            Some(Refused(number, place)) => Some((number, place)),
            Some(OtherPlane) => panic!("{}: of the other plane", case.name),
        };
        assert_eq!(found, case.answer, "{}", case.name);
        agree(&mut tally, &case.bytes, ID);
    }
    let mut dice = Dice(88_172_645_463_325_252);
    let variants = if asked().is_none_or(|word| word == COMPARE) { VARIANTS } else { FEW_VARIANTS };
    for _ in 0..variants {
        let case = &cases[dice.roll(cases.len())];
        let mut message = case.bytes.clone();
        for _ in 0..=dice.roll(3) {
            damage(&mut dice, &mut message);
        }
        let id = if dice.roll(16) == 0 { 8 } else { ID };
        agree(&mut tally, &message, id);
    }
    println!("the readers agree on {} messages and {variants} damaged variants, each read for both ends and both planes:", cases.len());
    println!("  control accepted {}, data accepted {}, refused by number: {:?}", tally.control, tally.data, &tally.numbers[1..]);
    assert_eq!(tally.other, 0);
    assert!(tally.control > 0 && tally.data > 0 && tally.numbers[1..].iter().all(|n| *n > 0));
}

// ---- timing

// The proved reader, the plain one, and for control messages the one with flat tables.
fn measure(case: &Case) -> ([f64; 2], Option<f64>) {
    let bytes = &case.bytes[..];
    let end = case.end;
    // The channel is unknown to the compiler, so that no reader leaves a table out.
    let channel = black_box(0);
    match case.call {
        Call::Plane => (timed([&mut || proved_plane(black_box(bytes)), &mut || plain_plane(black_box(bytes))]), None),
        Call::Control => {
            let [proved, plain, flat] = timed([
                &mut || proved_control(black_box(bytes), end, ID, channel),
                &mut || plain_control(black_box(bytes), end, ID, channel),
                &mut || flat_control(black_box(bytes), end, ID, channel),
            ]);
            ([proved, plain], Some(flat))
        }
        Call::Data => (timed([&mut || proved_data(black_box(bytes), end, ID), &mut || plain_data(black_box(bytes), end, ID)]), None),
        Call::Packet => (timed([&mut || proved_packet(black_box(bytes), end, ID), &mut || plain_packet(black_box(bytes), end, ID)]), None),
    }
}

fn main() {
    let cases = cases();
    check(&cases);
    if asked().is_some_and(|word| word == COMPARE) {
        return;
    }
    println!();
    println!("| message | bytes | proved, ns | plain Rust, ns | ratio | plain Rust with flat tables, ns | ratio |");
    println!("|---|---|---|---|---|---|---|");
    for case in cases.iter().filter(|case| is_asked(case.name)) {
        let ([proved, plain], flat) = measure(case);
        println!("| {} | {} | {proved:.1} | {plain:.1} | {:.2} | {} |", case.name, case.bytes.len(), proved / plain, beside(proved, flat));
    }
    some_asked();
}
