// Scripts of calls: the proved and the plain endpoint make the same calls, are compared after each of them, and timed.
#![allow(dead_code)]
use std::cell::RefCell;
use std::collections::BTreeMap;
use std::hint::black_box;

use super::endpoint::{Plain, Way};
use super::library::{Answer, Proved, OFFERED, REFUSED, TAKEN};
use super::message::{mixed, put, with_word, Window};
use super::timing::{median, rounds, Dice};

// ---- calls

#[derive(Clone)]
pub struct Start {
    pub id: u8,
    pub controlled: bool,
    pub first: u32,
    pub size: usize,
}

#[derive(Clone)]
pub struct Setup {
    pub datalink: u8,
    pub hello: u64,
    pub limit: u64,
    pub codes: u8,
    pub starts: Vec<Start>,
}

// Packets end to end, each with its channel, its expiry and its length.
#[derive(Clone)]
pub struct Handful {
    pub channels: Vec<u8>,
    pub expiries: Vec<u64>,
    pub lengths: Vec<u64>,
    pub packets: Vec<u8>,
}

pub trait Calls {
    fn start(&mut self, memory: &mut [u8]) -> Answer;
    fn offer(&mut self, memory: &mut [u8], id: u8, packet: &[u8], expiry: u64, time: u64) -> Answer;
    fn offers(&mut self, memory: &mut [u8], handful: &Handful, time: u64, answers: &mut [u8]) -> Answer;
    fn next(&mut self, memory: &mut [u8], id: u8, time: u64, out: &mut [u8]) -> Answer;
    fn withdraw(&mut self, memory: &mut [u8], id: u8) -> Answer;
    fn radio(&mut self, time: u64, datagram: &[u8]) -> Answer;
    fn pace(&mut self, time: u64) -> Answer;
    fn query(&mut self, out: &mut [u8]) -> Answer;
}

#[derive(Clone, Copy, Debug)]
pub enum Call {
    Start,
    // A packet that lasts so many milliseconds.
    Offer(u8, u64),
    // One of the handfuls, with so many answers.
    Offers(usize, usize),
    Next(u8),
    Withdraw(u8),
    // The next of the datagrams, and the first again behind the last.
    Radio,
    Pace,
    Query,
    Time(u64),
}

pub struct Run {
    pub script: Vec<Call>,
    pub packet: Vec<u8>,
    pub datagrams: Vec<Vec<u8>>,
    pub handfuls: Vec<Handful>,
}

pub const MOST_ANSWERS: usize = 40;
// No number of refusal.
const NO_ANSWER: u8 = 255;

pub struct Side<E> {
    endpoint: E,
    memory: Vec<u8>,
    out: Vec<u8>,
    answers: [u8; MOST_ANSWERS],
    time: u64,
    heard: usize,
    // How much of the memory is lent to the calls after the start.
    lent: usize,
}

impl<E: Calls> Side<E> {
    pub fn new(endpoint: E, memory: &[u8], lent: usize, out: &[u8]) -> Side<E> {
        Side { endpoint, memory: memory.to_vec(), out: out.to_vec(), answers: [NO_ANSWER; MOST_ANSWERS], time: 0, heard: 0, lent }
    }

    #[inline(always)]
    fn make(&mut self, run: &Run, call: Call) -> Option<Answer> {
        let memory = &mut self.memory[..self.lent];
        match call {
            Call::Start => {
                (self.time, self.heard) = (0, 0);
                Some(self.endpoint.start(&mut self.memory))
            }
            Call::Offer(id, lasting) => Some(self.endpoint.offer(memory, id, &run.packet, self.time.wrapping_add(lasting), self.time)),
            Call::Offers(at, answers) => Some(self.endpoint.offers(memory, &run.handfuls[at], self.time, &mut self.answers[..answers])),
            Call::Next(id) => Some(self.endpoint.next(memory, id, self.time, &mut self.out)),
            Call::Withdraw(id) => Some(self.endpoint.withdraw(memory, id)),
            Call::Radio => {
                let datagram = &run.datagrams[self.heard];
                self.heard = if self.heard + 1 < run.datagrams.len() { self.heard + 1 } else { 0 };
                Some(self.endpoint.radio(self.time, datagram))
            }
            Call::Pace => Some(self.endpoint.pace(self.time)),
            Call::Query => Some(self.endpoint.query(&mut self.out)),
            Call::Time(time) => {
                self.time = time;
                None
            }
        }
    }

    // All calls of a script; their answers in one number.
    #[inline(never)]
    fn play(&mut self, run: &Run) -> u64 {
        let mut sum = 0;
        for call in &run.script {
            if let Some(answer) = self.make(run, *call) {
                sum = mixed(mixed(sum, answer.kind), answer.value);
            }
        }
        sum
    }
}

// ---- agreement

// How often each answer was seen, by call and kind.
pub type Seen = BTreeMap<(&'static str, u64), usize>;

fn name(call: Call) -> &'static str {
    match call {
        Call::Start => "start",
        Call::Offer(..) => "offer",
        Call::Offers(..) => "offers",
        Call::Next(_) => "next",
        Call::Withdraw(_) => "withdraw",
        Call::Radio => "radio",
        Call::Pace => "pace",
        Call::Query => "query",
        Call::Time(_) => "time",
    }
}

// The plain endpoints.
const PLAIN: Way = Way { tests: true, flat: false };
const TRUSTING: Way = Way { tests: false, flat: false };
const FLAT: Way = Way { tests: true, flat: true };

// After each call the answers, those for each packet of a handful, the memories and the outputs of the proved endpoint, the plain one, the plain one without the test of 19 and the one
// with flat tables must be the same.
pub fn agree(setup: &Setup, run: &Run, memory: &[u8], lent: usize, out: &[u8], seen: &mut Seen) {
    let mut proved = Side::new(Proved::new(setup), memory, lent, out);
    let [mut plain, mut trusting, mut flat] = [PLAIN, TRUSTING, FLAT].map(|way| Side::new(Plain::new(setup, way), memory, lent, out));
    for (at, call) in run.script.iter().enumerate() {
        let answers = [proved.make(run, *call), plain.make(run, *call), trusting.make(run, *call), flat.make(run, *call)];
        let same = answers == [answers[1]; 4]
            && [&proved.memory, &trusting.memory, &flat.memory] == [&plain.memory; 3]
            && [&proved.out, &trusting.out, &flat.out] == [&plain.out; 3]
            && [proved.answers, trusting.answers, flat.answers] == [plain.answers; 3];
        if !same {
            println!("the endpoints differ: {} channels, a packet of {}, a memory of {}, {lent} of it lent, room {}", setup.starts.len(), run.packet.len(), memory.len(), out.len());
            println!("the last of the calls {:?}", &run.script[..=at]);
            println!("proved, plain, plain without the test of 19, plain with flat tables: {answers:?}");
            std::process::exit(1);
        }
        if let Some(answer) = answers[1] {
            *seen.entry((name(*call), answer.kind)).or_default() += 1;
            if let (Call::Offers(_, count), OFFERED) = (*call, answer.kind) {
                for number in &plain.answers[..count] {
                    let kind = if *number == 0 { TAKEN } else { REFUSED + *number as u64 };
                    *seen.entry(("a packet of offers", kind)).or_default() += 1;
                }
            }
        }
    }
}

const KINDS: [&str; 24] = [
    "",
    "started",
    "taken",
    "sent",
    "nothing waiting",
    "not operational",
    "window shut",
    "withdrawn",
    "accepted",
    "due",
    "other plane",
    "wrote",
    "shown",
    "kept",
    "none there",
    "quiet",
    "query due",
    "silent",
    "query due and silent",
    "pacer shown",
    "answered",
    "unasked",
    "no message",
    "offered",
];

// All answers that were seen; so many different ones, each of them at least so often.
pub fn tell(seen: &Seen, different: usize, often: usize) {
    for ((call, kind), count) in seen {
        match KINDS.get(*kind as usize) {
            Some(kind) => println!("  {call}, {kind}: {count}"),
            None => println!("  {call}, refused by {}: {count}", kind - REFUSED),
        }
    }
    assert_eq!(seen.len(), different);
    assert!(seen.values().all(|count| *count >= often));
}

pub fn random_bytes(dice: &mut Dice, length: usize) -> Vec<u8> {
    (0..length).map(|_| dice.roll(256) as u8).collect()
}

// ---- radio control messages

pub const DATALINK: u8 = 7;

// The pacer's waits where they don't matter.
pub const HELLO: u64 = 5000;
pub const LIMIT: u64 = 9000;

// Each channel's status and window.
pub fn radio_control(ids: &[u8], status: &dyn Fn(u8) -> Option<u8>, window: &dyn Fn(u8) -> Window, names: &[(u8, &[u8])]) -> Vec<u8> {
    let mut message = vec![16];
    put(&mut message, 1, &[DATALINK]);
    for (kind, name) in names {
        put(&mut message, *kind, name);
    }
    for id in ids {
        if let Some(status) = status(*id) {
            put(&mut message, 5, &[*id, status]);
        }
    }
    for id in ids {
        match window(*id) {
            Window::Absent => {}
            Window::Empty => put(&mut message, 6, &[*id]),
            Window::Given(word) => put(&mut message, 6, &with_word(*id, word)),
        }
    }
    message
}

// ---- timing

pub const OUT: usize = 10_000;

// Nanoseconds by which one script takes longer than another in the same round, of the proved endpoint, the plain one, the plain one without the test of 19 and the one with flat tables. Both begin with a start.
pub fn longer(setup: &Setup, whole: &Run, base: &Run) -> [f64; 4] {
    let size = setup.starts.iter().map(|start| start.size).sum();
    let memory = vec![0; size];
    let out = [0; OUT];
    let proved = RefCell::new(Side::new(Proved::new(setup), &memory, size, &out));
    let [plain, trusting, flat] = [PLAIN, TRUSTING, FLAT].map(|way| RefCell::new(Side::new(Plain::new(setup, way), &memory, size, &out)));
    let [proved, proved_base, plain, plain_base, trusting, trusting_base, flat, flat_base] = rounds([
        &mut || proved.borrow_mut().play(black_box(whole)),
        &mut || proved.borrow_mut().play(black_box(base)),
        &mut || plain.borrow_mut().play(black_box(whole)),
        &mut || plain.borrow_mut().play(black_box(base)),
        &mut || trusting.borrow_mut().play(black_box(whole)),
        &mut || trusting.borrow_mut().play(black_box(base)),
        &mut || flat.borrow_mut().play(black_box(whole)),
        &mut || flat.borrow_mut().play(black_box(base)),
    ]);
    let above = |whole: Vec<f64>, base: Vec<f64>| median(whole.iter().zip(base).map(|(whole, base)| whole - base).collect());
    [above(proved, proved_base), above(plain, plain_base), above(trusting, trusting_base), above(flat, flat_base)]
}
