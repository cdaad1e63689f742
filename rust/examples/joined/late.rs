//! The nine steps by which a window that comes too late lets the endpoint send past everything granted, with real packets.
use crate::ends::DATALINK;
use crate::lot::Lot;
use crate::packets::Packets;
use crate::wire;
use nespovarda::station::{self, Allowances, Station, Told};
use nespovarda::{Configuration, Endpoint, FlowSequence, Heard, Kind, Next, Offered, Waits, Written};

const CHANNEL: u8 = 0;
const FIRST: u32 = 4_294_960_000;
const MOST: u64 = 1 << 30;
const STORE: usize = 9000;
const PACKET: u64 = 8192;
/// The last packet before the delayed window arrives, where that is as old as the papers' bound: it makes up what a run of packets leaves.
const LAST: u64 = 92;
const NEVER: u64 = u64::MAX;

/// Both ends of one channel, and its numbers.
struct Play<'a> {
    endpoint: Endpoint<'a>,
    station: Station<'a>,
    packets: Packets,
    count: u128,
    heard: u128,
    top: u128,
    /// The data message sent last.
    carried: Vec<u8>,
    out: [u8; STORE + 100],
}

impl Play<'_> {
    /// Sends packets of so many bytes in all; whether all of them went. None reaches the radio but the last.
    fn send(&mut self, bytes: u64) -> bool {
        let mut left = bytes;
        while left > 0 {
            let length = if left >= PACKET + LAST { PACKET } else { left };
            if !self.send_packet(length) {
                return false;
            }
            left -= length;
        }
        true
    }

    fn send_packet(&mut self, length: u64) -> bool {
        let mut packet = Vec::new();
        self.packets.append(self.count as u64, length, &mut packet);
        assert_eq!(self.endpoint.offer(CHANNEL, &packet, NEVER, 0), Offered::Taken);
        match self.endpoint.next(CHANNEL, 0, &mut self.out) {
            Next::Sent(message) => self.carried = message.to_vec(),
            answer => {
                assert_eq!(answer, Next::WindowShut);
                return false;
            }
        }
        self.count += u128::from(length);
        assert_eq!(wire::sequences(&self.carried).collect::<Vec<_>>(), [(CHANNEL, self.count as u32)]);
        true
    }

    /// The radio hears the data message sent last, and has so many bytes queued then: the message that tells of the window.
    fn hear_and_queue(&mut self, queued: u64) -> Vec<u8> {
        assert!(!matches!(self.station.hear(&self.carried, &mut self.out), station::Heard::Refused(_)));
        self.heard = self.count;
        self.queue(queued)
    }

    fn queue(&mut self, queued: u64) -> Vec<u8> {
        match self.station.queued(CHANNEL, queued, &mut self.out) {
            Told::Refused(refusal) => panic!("what is queued is {refusal}"),
            Told::Unasked(_) | Told::NoMessage => self.tell(),
        }
    }

    fn tell(&mut self) -> Vec<u8> {
        let message = match self.station.tell(&mut self.out) {
            Written::Wrote(message) => message.to_vec(),
            Written::Refused(refusal) => panic!("what the radio tells is {refusal}"),
        };
        let (_, window) = wire::windows(&message).next().expect("the radio names the channel");
        let ahead = window.expect("a sequence was heard").wrapping_sub(self.heard as u32);
        assert!(u64::from(ahead) <= MOST);
        self.top = self.top.max(self.heard + u128::from(ahead));
        message
    }

    fn told(&mut self, message: &[u8]) {
        assert_eq!(self.endpoint.radio(0, message), Heard::Accepted);
    }
}

/// Plays the steps so that the delayed window arrives when so many bytes were counted since; whether the endpoint then sends past everything granted.
fn is_past(age: u64) -> bool {
    let mut configuration = [0; Configuration::words_for(1)];
    let configuration = Configuration::new(&mut configuration, DATALINK, Waits { hello: NEVER, limit: NEVER })
        .and_then(|configuration| configuration.channel(CHANNEL, Kind::FlowControlled, FlowSequence(FIRST), STORE))
        .expect("there is room for a channel");
    let (mut words, mut memory) = (vec![0; nespovarda::words_for(1)], vec![0; STORE]);
    let endpoint = Endpoint::start(&mut words, &mut memory, &configuration).expect("the configuration is within the limits");
    let mut configuration = [0; station::Configuration::words_for(1)];
    let configuration = station::Configuration::new(&mut configuration, DATALINK)
        .and_then(|configuration| configuration.channel(CHANNEL, Kind::FlowControlled, Allowances { watermark: MOST, throughput: 0 }))
        .expect("there is room for a channel");
    let mut words = vec![0; station::words_for(1)];
    let station = Station::start(&mut words, &configuration).expect("the configuration is within the limits");
    let first = u128::from(FIRST);
    let packets = Packets::new(&mut Lot::new(0));
    let mut play = Play { endpoint, station, packets, count: first, heard: first, top: first, carried: Vec::new(), out: [0; STORE + 100] };
    play_steps(&mut play, age)
}

fn play_steps(play: &mut Play<'_>, age: u64) -> bool {
    // 1, 2: the radio hears a query, and grants 2^30 bytes, which the endpoint hears.
    assert!(matches!(play.station.status(CHANNEL, 7, &mut play.out), Told::Unasked(_)));
    play.carried = match play.endpoint.query(&mut play.out) {
        Written::Wrote(query) => query.to_vec(),
        Written::Refused(refusal) => panic!("a query is {refusal}"),
    };
    let window = play.hear_and_queue(0);
    play.told(&window);
    // 3: the endpoint sends 2^30 bytes, which the radio doesn't hear yet.
    assert!(play.send(MOST));
    // 4: the radio's queue is full, and it grants nothing above what it has heard; this message is delayed.
    let delayed = play.queue(MOST);
    let sent_at = play.count;
    // 5, 6: the radio hears, and grants 2^30 bytes; the endpoint sends all but the last of them.
    let window = play.hear_and_queue(0);
    play.told(&window);
    assert!(play.send(MOST - LAST));
    // 7, 8: the radio hears, and grants what one more packet needs; the endpoint sends it.
    let last = age - (MOST - LAST);
    let window = play.hear_and_queue(MOST - last);
    play.told(&window);
    assert!(play.send_packet(last));
    assert_eq!(play.count - sent_at, u128::from(age));
    assert!(play.count <= play.top);
    // 9: the delayed window arrives.
    play.told(&delayed);
    let went = play.send_packet(PACKET);
    let behind = u128::from(age) + u128::from(MOST);
    println!("joined: late: a window that is {behind} behind the count arrives after {age} bytes: {}", verdict(play, went));
    assert_eq!(went, play.count > play.top);
    went
}

fn verdict(play: &Play<'_>, went: bool) -> String {
    if !went {
        return "shut, as it was granted".to_string();
    }
    format!("{} is sent, {} past {}, the highest ever granted", play.count, play.count - play.top, play.top)
}

/// With ages below 2^30, as the papers ask, and below 2^30 + 1, nothing goes; with ages below 2^30 + 2 a packet goes past everything granted.
pub fn play() {
    let verdicts = [MOST - 1, MOST, MOST + 1].map(is_past);
    assert_eq!(verdicts, [false, false, true], "2^30 and one byte more are kept, and two more break it");
}
