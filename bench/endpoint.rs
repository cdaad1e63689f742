// The proved endpoint (the crate `nespovarda`) and one in plain Rust: both must agree on random scripts of calls, then both are timed on the same scripts.
#[path = "common/channel.rs"]
mod channel;
#[path = "common/endpoint.rs"]
mod endpoint;
#[path = "common/flat.rs"]
mod flat;
#[path = "common/library.rs"]
mod library;
#[path = "common/message.rs"]
mod message;
#[path = "common/script.rs"]
mod script;
#[path = "common/timing.rs"]
mod timing;

use channel::packet;
use message::{put, Window};
use script::*;
use timing::{asked, beside, is_asked, some_asked, Dice};

const STORE: usize = 3000;

// ---- agreement

const SCRIPTS: usize = 20_000;
// Before a part of the rows.
const FEW_SCRIPTS: usize = 1_000;

fn random_packet(dice: &mut Dice) -> Vec<u8> {
    let mut bytes = packet([40, 41, 100, 700, 1280, 1500, 1501, 3001, 9000, 9001][dice.roll(10)]);
    match dice.roll(16) {
        0 => bytes[0] = dice.roll(256) as u8,
        1 => bytes.truncate(dice.roll(40)),
        _ => {}
    }
    bytes
}

// Mostly rising Channel IDs from 0 on; else any in any order, now and then one twice, or the reserved one, or no 0.
fn random_ids(dice: &mut Dice, count: usize) -> Vec<u8> {
    let mut ids: Vec<u8> = (0..count).map(|at| at as u8).collect();
    if dice.roll(2) == 0 {
        for id in ids.iter_mut().skip(1) {
            *id = 1 + dice.roll(254) as u8;
        }
        for at in 1..count {
            ids.swap(at, dice.roll(at + 1));
        }
    }
    if count > 0 && dice.roll(20) == 0 {
        ids[dice.roll(count)] = [0, 1, 255][dice.roll(3)];
    }
    ids
}

fn random_setup(dice: &mut Dice) -> Setup {
    let count = [1, 2, 4, 16, [17, 40, 64][dice.roll(3)], [0, 65, 255][dice.roll(3)]][dice.roll(6)];
    let first = [0, 4_294_967_295 - dice.roll(5000) as u32, dice.roll(1 << 32) as u32][dice.roll(3)];
    let plain = dice.roll(3) == 0;
    let sizes = [[STORE; 2], [1500, 4000], [8999, 9000], [9001, 20_000], [1499, 3000]][[0, 0, 1, 2, 3, [1, 1, 4][dice.roll(3)]][dice.roll(6)]];
    let starts = random_ids(dice, count).into_iter().map(|id| Start { id, controlled: !(plain && dice.roll(2) == 0), first, size: sizes[dice.roll(2)] }).collect();
    // Waits about the times of a script, now and then none.
    let [hello, limit] = [0; 2].map(|_| [1, 2, 5, 8, 15, 100, u64::MAX, [3, 3, 0][dice.roll(3)]][dice.roll(8)]);
    let codes = [0, 0, 2, 255, dice.roll(256) as u8][dice.roll(5)];
    Setup { datalink: DATALINK, hello, limit, codes, starts }
}

fn random_datagram(dice: &mut Dice, setup: &Setup, turn: u32, packet: u32) -> Vec<u8> {
    let names: [&[u8]; 5] = [b"a", b"ab", b"abcdefgh", b"abc", b"\0a"];
    let told: Vec<(u8, &[u8])> = [3, 4].into_iter().filter(|_| dice.roll(3) == 0).map(|kind| (kind, names[turn as usize % 5])).collect();
    let rolls: Vec<u32> = (0..512).map(|_| dice.roll(1 << 20) as u32).collect();
    let first = setup.starts.first().map_or(0, |start| start.first);
    // A channel more than there are.
    let mut ids: Vec<u8> = setup.starts.iter().map(|start| start.id).chain([0, 9]).collect();
    ids.sort();
    ids.dedup();
    let mut datagram = radio_control(
        &ids,
        &|id| match rolls[id as usize] % 8 {
            0 if id > 0 => None,
            1 => Some((rolls[id as usize] >> 4) as u8 % 16),
            _ => Some(7),
        },
        &|id| match rolls[256 + id as usize] % 6 {
            0 => Window::Absent,
            1 => Window::Empty,
            roll => Window::Given(first.wrapping_add(packet * (turn * roll / 3)).wrapping_add(rolls[id as usize] % 3).wrapping_sub(1)),
        },
        &told,
    );
    match dice.roll(10) {
        0 => {
            let place = dice.roll(datagram.len());
            // A bit turned, now and then all of them set.
            datagram[place] = if dice.roll(8) == 0 { 255 } else { datagram[place] ^ 1 << dice.roll(8) };
        }
        1 if dice.roll(3) == 0 => {
            datagram = vec![24];
            put(&mut datagram, 1, &[DATALINK]);
            put(&mut datagram, 129, &[2]);
            put(&mut datagram, 128, &vec![0; dice.roll(100)]);
        }
        2 => put(&mut datagram, 200, &vec![0; dice.roll(100)]),
        _ => {}
    }
    datagram
}

// Up to 32 packets, now and then more, or lists that are no handful.
fn random_handful(dice: &mut Dice, setup: &Setup) -> Handful {
    let count = [dice.roll(4), dice.roll(33), 32, [33, 34][dice.roll(2)]][[0, 0, 0, 1, 1, 1, 2, 3][dice.roll(8)]];
    let any = |dice: &mut Dice| if setup.starts.is_empty() || dice.roll(12) == 0 { dice.roll(256) as u8 } else { setup.starts[dice.roll(setup.starts.len().min(3))].id };
    let packets: Vec<Vec<u8>> = (0..count).map(|_| if dice.roll(4) == 0 { random_packet(dice) } else { packet(40 + dice.roll(100)) }).collect();
    let mut handful = Handful {
        channels: (0..count).map(|_| any(dice)).collect(),
        expiries: (0..count).map(|_| [dice.roll(60) as u64, 100 + dice.roll(60) as u64, u64::MAX][dice.roll(3)]).collect(),
        lengths: packets.iter().map(|packet| packet.len() as u64).collect(),
        packets: packets.concat(),
    };
    match dice.roll(24) {
        0 => handful.channels.push(0),
        1 => handful.expiries.push(u64::MAX),
        2 => handful.lengths.push(0),
        3 => handful.packets.push(0),
        4 if count > 0 => handful.lengths[dice.roll(count)] += 1,
        // A sum that is right modulo 2^64.
        5 if count > 1 => {
            let half = 1 << 63;
            handful.lengths[0] = handful.lengths[0].wrapping_add(half);
            handful.lengths[count - 1] = handful.lengths[count - 1].wrapping_add(half);
        }
        _ => {}
    }
    handful
}

fn random_script(dice: &mut Dice, setup: &Setup, handfuls: &[Handful]) -> Vec<Call> {
    let lasting = [0, 1, 3, 100, u64::MAX - 7][dice.roll(5)];
    let busy = 1 + dice.roll(3);
    let mut time = 0;
    let turns = (0..dice.roll(150)).map(|_| {
        let id = match dice.roll(12) {
            0 => dice.roll(256) as u8,
            _ if setup.starts.is_empty() => 0,
            1 => setup.starts[dice.roll(setup.starts.len())].id,
            _ => setup.starts[dice.roll(busy.min(setup.starts.len()))].id,
        };
        match dice.roll(18) {
            0 if dice.roll(3) == 0 => Call::Withdraw(id),
            0..=5 => Call::Offer(id, lasting),
            6..=10 => Call::Next(id),
            11..=12 => Call::Radio,
            13 => Call::Query,
            14 => Call::Pace,
            15 => {
                let at = dice.roll(handfuls.len());
                Call::Offers(at, handfuls[at].channels.len() + [0, 0, 0, 0, 0, 0, 0, 1][dice.roll(8)])
            }
            _ => {
                // Mostly later, now and then earlier.
                time = if dice.roll(10) == 0 { dice.roll(8) as u64 } else { time + [0, 1, 1, 2, 5][dice.roll(5)] };
                Call::Time(time)
            }
        }
    });
    [Call::Start].into_iter().chain(turns).collect()
}

fn check() {
    let mut dice = Dice(88_172_645_463_325_252);
    let mut seen = Seen::default();
    let scripts = if asked().is_some() { FEW_SCRIPTS } else { SCRIPTS };
    for _ in 0..scripts {
        let setup = random_setup(&mut dice);
        let packet = random_packet(&mut dice);
        let handfuls: Vec<Handful> = (0..3).map(|_| random_handful(&mut dice, &setup)).collect();
        let script = random_script(&mut dice, &setup, &handfuls);
        let datagrams = (0..20).map(|turn| random_datagram(&mut dice, &setup, turn, packet.len() as u32)).collect();
        let run = Run { script, packet, datagrams, handfuls };
        let stores = setup.starts.iter().map(|start| start.size).sum();
        let size = if dice.roll(20) == 0 { dice.roll(stores + 2) } else { stores };
        let lent = if size > 0 && dice.roll(20) == 0 { size - 1 } else { size };
        let room = [10_000, run.packet.len() + 20, run.packet.len() + 19, dice.roll(200)][dice.roll(4)];
        let (memory, out) = (random_bytes(&mut dice, size), random_bytes(&mut dice, room));
        agree(&setup, &run, &memory, lent, &out, &mut seen);
    }
    println!("the endpoints agree on {scripts} random scripts, every answer and every byte of memory, output and the answers of handfuls after each call");
    if asked().is_none() {
        tell(&seen, 53, 40);
    }
}

// ---- timing

const TURNS: usize = 64;

// A turn's calls on the channel whose turn it is.
type Turn = fn(u8) -> Vec<Call>;

struct Case {
    name: &'static str,
    calls: usize,
    turn: Turn,
    // What of a turn is not counted.
    base: Turn,
}

const LASTING: u64 = 100;
// No channel has it.
const UNKNOWN: u8 = 200;
const HANDFUL: usize = 32;

fn nothing(_: u8) -> Vec<Call> {
    Vec::new()
}

fn mixed(id: u8) -> Vec<Call> {
    vec![Call::Radio, Call::Offer(id, LASTING), Call::Offer(id, LASTING), Call::Next(id), Call::Next(id), Call::Query]
}

fn radio(_: u8) -> Vec<Call> {
    vec![Call::Radio]
}

fn next(id: u8) -> Vec<Call> {
    vec![Call::Next(id)]
}

fn withdrawn(id: u8) -> Vec<Call> {
    vec![Call::Withdraw(id)]
}

fn offered(id: u8) -> Vec<Call> {
    vec![Call::Offer(id, LASTING), Call::Offer(id, LASTING), Call::Withdraw(id)]
}

fn sent(id: u8) -> Vec<Call> {
    vec![Call::Offer(id, LASTING), Call::Offer(id, LASTING), Call::Next(id), Call::Next(id), Call::Withdraw(id)]
}

fn paced(_: u8) -> Vec<Call> {
    vec![Call::Pace]
}

fn query(_: u8) -> Vec<Call> {
    vec![Call::Query]
}

fn refused(_: u8) -> Vec<Call> {
    vec![Call::Offer(UNKNOWN, LASTING), Call::Next(UNKNOWN), Call::Withdraw(UNKNOWN)]
}

const MIXED: Case = Case { name: "mixed", calls: 6, turn: mixed, base: nothing };

const ALONE: [Case; 8] = [
    Case { name: "radio messages", calls: 1, turn: radio, base: nothing },
    Case { name: "offers", calls: 2, turn: offered, base: withdrawn },
    Case { name: "nexts that send", calls: 2, turn: sent, base: offered },
    Case { name: "nexts, nothing waiting", calls: 1, turn: next, base: nothing },
    Case { name: "withdrawals", calls: 1, turn: withdrawn, base: nothing },
    Case { name: "queries", calls: 1, turn: query, base: nothing },
    Case { name: "asks of the pacer", calls: 1, turn: paced, base: nothing },
    Case { name: "refused calls (12)", calls: 3, turn: refused, base: nothing },
];

// The Channel IDs below a number, in the order in which they are configured.
type Order = fn(u8) -> Vec<u8>;

fn rising(channels: u8) -> Vec<u8> {
    (0..channels).collect()
}

fn falling(channels: u8) -> Vec<u8> {
    (0..channels).rev().collect()
}

fn shuffled(channels: u8) -> Vec<u8> {
    let mut ids = rising(channels);
    let mut dice = Dice(88_172_645_463_325_252);
    for at in 1..ids.len() {
        ids.swap(at, dice.roll(at + 1));
    }
    ids
}

const FALLING: Case = Case { name: "queries, falling Channel IDs", calls: 1, turn: query, base: nothing };
const SHUFFLED: Case = Case { name: "queries, shuffled Channel IDs", calls: 1, turn: query, base: nothing };

// Stores with room for two such packets.
fn setup(ids: &[u8], first: u32, length: usize) -> Setup {
    Setup { datalink: DATALINK, hello: HELLO, limit: LIMIT, codes: 0, starts: ids.iter().map(|id| Start { id: *id, controlled: true, first, size: STORE.max(2 * length) }).collect() }
}

// The turns behind a start and a radio message; the windows let every packet go, over the wrap.
fn run(turn: Turn, channels: u8, first: u32, length: usize) -> Run {
    let turns = (0..TURNS).flat_map(|at| turn((at % channels as usize) as u8));
    let script = [Call::Start, Call::Radio].into_iter().chain(turns).collect();
    let ids: Vec<u8> = (0..channels).collect();
    let datagrams = (0..TURNS)
        .map(|at| {
            let window = first.wrapping_add((2 * TURNS * length + at) as u32);
            radio_control(&ids, &|_| Some(7), &|_| Window::Given(window), &[(3, &[1, 2, 3, 4]), (4, b"link")])
        })
        .collect();
    Run { script, packet: packet(length), datagrams, handfuls: vec![handful(channels, length)] }
}

// So many packets for the channels in turn.
fn handful(channels: u8, length: usize) -> Handful {
    let each = (0..HANDFUL).map(|at| (at % channels as usize) as u8);
    Handful { channels: each.collect(), expiries: vec![LASTING; HANDFUL], lengths: vec![length as u64; HANDFUL], packets: packet(length).repeat(HANDFUL) }
}

// As many offers in one call as in single ones, each turn behind the withdrawals that empty the channels, which are taken off.
fn measure_handful(channels: u8, length: usize) {
    let mut setup = setup(&rising(channels), 0, length);
    for start in &mut setup.starts {
        start.size = start.size.max(HANDFUL * length);
    }
    let ids = &handful(channels, length).channels;
    let emptied: Vec<Call> = (0..channels.min(HANDFUL as u8)).map(Call::Withdraw).collect();
    let turns = |calls: Vec<Call>| -> Run {
        let mut run = run(nothing, channels, 0, length);
        run.script.extend([calls, emptied.clone()].concat().repeat(TURNS));
        run
    };
    let base = turns(Vec::new());
    let [one, single] = [vec![Call::Offers(0, HANDFUL)], ids.iter().map(|id| Call::Offer(*id, LASTING)).collect()]
        .map(|calls| longer(&setup, &turns(calls), &base).map(|time| time / TURNS as f64));
    let ratio = |at: usize| one[at] / single[at];
    println!(
        "| {channels} | {length} | {:.0} | {:.0} | {:.2} | {:.0} | {:.0} | {:.2} | {:.2} | {:.0} |",
        one[0], single[0], ratio(0), one[1], single[1], ratio(1), one[0] / one[1], one[2]
    );
}

fn measure(case: &Case, order: Order, channels: u8, length: usize) {
    if !is_asked(case.name) {
        return;
    }
    let first = 4_294_967_295 - (TURNS * length) as u32;
    let whole = run(case.turn, channels, first, length);
    let base = run(case.base, channels, first, length);
    let [proved, plain, trusting, flat] = longer(&setup(&order(channels), first, length), &whole, &base).map(|time| time / (TURNS * case.calls) as f64);
    // Only its reader is another.
    let flat = (case.turn)(0).iter().any(|call| matches!(call, Call::Radio)).then_some(flat);
    println!("| {} | {channels} | {length} | {proved:.1} | {plain:.1} | {:.2} | {trusting:.1} | {} |", case.name, proved / plain, beside(proved, flat));
}

fn time_calls() {
    println!();
    println!("| calls | channels | packet, bytes | proved, ns a call | plain Rust, ns a call | ratio | plain without the test of 19, ns | plain with flat tables, ns | ratio |");
    println!("|---|---|---|---|---|---|---|---|---|");
    for channels in [1, 4, 16, 64] {
        for length in [100, 1280, 9000] {
            measure(&MIXED, rising, channels, length);
        }
        for case in &ALONE {
            measure(case, rising, channels, 100);
        }
    }
    for (case, order) in [(&FALLING, falling as Order), (&SHUFFLED, shuffled)] {
        for channels in [4, 16, 64] {
            measure(case, order, channels, 100);
        }
    }
}

fn time_handfuls() {
    println!();
    println!("{HANDFUL} offers in one call and in {HANDFUL}, ns for all:");
    println!();
    println!("| channels | packet, bytes | proved, one call | proved, {HANDFUL} calls | ratio | plain Rust, one call | plain Rust, {HANDFUL} calls | ratio | proved to plain, one call | plain without the test of 19, one call |");
    println!("|---|---|---|---|---|---|---|---|---|---|");
    for channels in [1, 4, 16, 64] {
        measure_handful(channels, 100);
    }
}

// endpoint [WORD]: all rows, or quickly those whose name has the word (`handful` for the handfuls).
fn main() {
    check();
    time_calls();
    if is_asked("handful") {
        time_handfuls();
    }
    some_asked();
}
