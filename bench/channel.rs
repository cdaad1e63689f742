// An endpoint of one channel, proved (the crate `nespovarda`) and in plain Rust: both must agree on random scripts of calls, then both are timed on the same scripts.
#[path = "common/channel.rs"]
mod channel;
#[path = "common/endpoint.rs"]
mod endpoint;
#[path = "common/flat.rs"]
mod flat;
#[path = "common/library.rs"]
mod library;
#[path = "common/message.rs"]
mod message;
#[path = "common/script.rs"]
mod script;
#[path = "common/timing.rs"]
mod timing;

use channel::packet;
use message::Window;
use script::*;
use timing::{asked, is_asked, some_asked, Dice};

// A plain channel, and the datagram that reports it operational.
fn setup(size: usize) -> Setup {
    Setup { datalink: DATALINK, hello: HELLO, limit: LIMIT, codes: 0, starts: vec![Start { id: 0, controlled: false, first: 0, size }] }
}

fn operational() -> Vec<u8> {
    radio_control(&[0], &|_| Some(7), &|_| Window::Absent, &[])
}

fn run(turns: impl IntoIterator<Item = Call>, packet: Vec<u8>) -> Run {
    Run { script: [Call::Start, Call::Radio].into_iter().chain(turns).collect(), packet, datagrams: vec![operational()], handfuls: Vec::new() }
}

// ---- agreement

const SCRIPTS: usize = 20_000;
// Before a part of the rows.
const FEW_SCRIPTS: usize = 1_000;

// Mostly a packet that is taken, of lengths about which a limit turns.
fn random_packet(dice: &mut Dice) -> Vec<u8> {
    let length = match dice.roll(6) {
        0 => [1490, 8990][dice.roll(2)] + dice.roll(20),
        1 => 40 + dice.roll(3),
        2 => 1280,
        _ => 40 + dice.roll(200),
    };
    let mut bytes = packet(length);
    match dice.roll(12) {
        0 => bytes[0] = dice.roll(256) as u8,
        1 => bytes.truncate(dice.roll(length)),
        _ => {}
    }
    bytes
}

fn random_script(dice: &mut Dice) -> Vec<Call> {
    let offers = 2 + dice.roll(8);
    let passes = 1 + dice.roll(3);
    let mut time = 0;
    (0..dice.roll(120))
        .map(|_| match dice.roll(offers + passes + 3) {
            0 if dice.roll(4) == 0 => Call::Withdraw(0),
            0..=2 => Call::Next(0),
            turn if turn < 3 + passes => {
                // Mostly later, now and then earlier.
                time = if dice.roll(20) == 0 { dice.roll(8) } else { time + dice.roll(6) };
                Call::Time(time as u64)
            }
            _ => Call::Offer(0, [0, 1, 2, 5, 20, 63][dice.roll(6)]),
        })
        .collect()
}

fn check() {
    let mut dice = Dice(88_172_645_463_325_252);
    let mut seen = Seen::default();
    let scripts = if asked().is_some() { FEW_SCRIPTS } else { SCRIPTS };
    for _ in 0..scripts {
        let run = run(random_script(&mut dice), random_packet(&mut dice));
        let size = [1500, 3000, 65536, 1400 + dice.roll(20_000), 65_000 + dice.roll(1000), 8990 + dice.roll(20)][dice.roll(6)];
        let room = [run.packet.len() + 12, 10_000, run.packet.len() + 11, dice.roll(2000)][dice.roll(4)];
        let (memory, out) = (random_bytes(&mut dice, size), random_bytes(&mut dice, room));
        agree(&setup(size), &run, &memory, size, &out, &mut seen);
    }
    println!("the endpoints of one channel agree on {scripts} random scripts, every answer and every byte of memory and output after each call");
    if asked().is_none() {
        tell(&seen, 18, 100);
    }
}

// ---- timing

const TURNS: u64 = 32;

struct Case {
    name: &'static str,
    calls: usize,
    packet: usize,
    store: usize,
    turn: fn(u64) -> Vec<Call>,
    // What of a turn is not counted.
    base: fn(u64) -> Vec<Call>,
}

fn nothing(_: u64) -> Vec<Call> {
    Vec::new()
}

fn offer_and_next(_: u64) -> Vec<Call> {
    vec![Call::Offer(0, 1), Call::Next(0)]
}

fn next(_: u64) -> Vec<Call> {
    vec![Call::Next(0)]
}

fn filled(time: u64) -> Vec<Call> {
    let mut turn = vec![Call::Time(time)];
    turn.extend((0..32).map(|at| Call::Offer(0, if at == 9 || at == 22 { 9 } else { 1 })));
    turn
}

// 30 packets that last a millisecond and two among them that last longer; all are withdrawn.
fn withdrawn(time: u64) -> Vec<Call> {
    let mut turn = filled(time);
    turn.extend([Call::Time(time + 1), Call::Withdraw(0)]);
    turn
}

// The same, with a next at the time when the 30 expire.
fn expired(time: u64) -> Vec<Call> {
    let mut turn = filled(time);
    turn.extend([Call::Time(time + 1), Call::Next(0), Call::Withdraw(0)]);
    turn
}

fn cases() -> Vec<Case> {
    let case = |name, calls, packet, store, turn, base| Case { name, calls, packet, store, turn, base };
    let mut cases = Vec::new();
    for store in [3000, 65536] {
        cases.push(case("one offer and one next", 2, 100, store, offer_and_next as fn(u64) -> Vec<Call>, nothing as fn(u64) -> Vec<Call>));
        cases.push(case("one offer and one next", 2, 1280, store, offer_and_next, nothing));
    }
    for (packet, store) in [(100, 3200), (100, 65536), (1280, 65536)] {
        cases.push(case("32 offers, withdrawn", 33, packet, store, withdrawn, nothing));
        cases.push(case("a next as 30 of 32 expire", 1, packet, store, expired, withdrawn));
    }
    for store in [3000, 65536] {
        cases.push(case("a next, nothing waiting", 1, 100, store, next, nothing));
    }
    cases
}

// Nanoseconds a turn.
fn measure(case: &Case) -> [f64; 4] {
    let script = |turn: fn(u64) -> Vec<Call>| run((0..TURNS).flat_map(turn), packet(case.packet));
    longer(&setup(case.store), &script(case.turn), &script(case.base)).map(|time| time / TURNS as f64)
}

fn main() {
    check();
    println!();
    println!("| one turn | packet, bytes | store, bytes | calls | proved, ns | plain Rust, ns | ratio | plain without the test of 19, ns |");
    println!("|---|---|---|---|---|---|---|---|");
    for case in cases().iter().filter(|case| is_asked(case.name)) {
        let [proved, plain, trusting, _] = measure(case);
        println!("| {} | {} | {} | {} | {proved:.1} | {plain:.1} | {:.2} | {trusting:.1} |", case.name, case.packet, case.store, case.calls, proved / plain);
    }
    some_asked();
}
