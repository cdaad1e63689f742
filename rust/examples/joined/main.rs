//! Both linked libraries joined by a net that loses, repeats, delays and reorders by lot: at every packet sent, its count is at most the highest window that the
//! radio has ever granted, in numbers that never wrap (docs/JOINED.md).
//!
//!     joined [--seed SEED] [--seconds SECONDS] [--age BYTES] [--most BYTES]
//!     joined --late
//!
//! It makes one life of both ends after another, until SECONDS (10) are over and more than 2^32 bytes were counted, and prints what came to pass; it ends with an
//! error where a call comes to something else than its numbers say. A message arrives while fewer than --age bytes were counted since it was sent, and windows are
//! granted up to --most bytes above what the radio has heard: 2^30 both, as the papers have it. Above 2^31 + 1 together, with windows of at least a packet, the
//! ends can be made to break the rule. --late plays the nine steps by which they do, one byte apart from where they don't.
mod ends;
mod late;
mod ledger;
mod life;
mod lot;
mod net;
mod packets;
mod wire;

use life::{live, Bounds, Figures, NARROW};
use lot::Lot;
use net::Passage;
use packets::Packets;
use std::process::ExitCode;
use std::time::{Duration, Instant};

const USAGE: &str = "joined [--seed SEED] [--seconds SECONDS] [--age BYTES] [--most BYTES] | joined --late";
const FEWEST_COUNTED: u128 = 1 << 32;

struct Words {
    seed: u64,
    seconds: u64,
    bounds: Bounds,
}

impl Words {
    fn read(given: &[String]) -> Option<Words> {
        let mut words = Words { seed: 1, seconds: 10, bounds: Bounds { age: 1 << 30, most: 1 << 30 } };
        for pair in given.chunks(2) {
            let number: u64 = pair.get(1)?.parse().ok()?;
            match pair[0].as_str() {
                "--seed" => words.seed = number,
                "--seconds" => words.seconds = number,
                "--age" if number > 1 => words.bounds.age = u128::from(number),
                "--most" if (NARROW..1 << 31).contains(&number) => words.bounds.most = number,
                _ => return None,
            }
        }
        Some(words)
    }
}

/// Says in which life a rule was broken.
struct Place {
    seed: u64,
    life: u64,
}

impl Drop for Place {
    fn drop(&mut self) {
        if std::thread::panicking() {
            eprintln!("joined: broken in life {} of seed {}", self.life, self.seed);
        }
    }
}

fn soak(words: &Words) -> Figures {
    let mut lot = Lot::new(words.seed);
    let packets = Packets::new(&mut lot);
    let end = Instant::now() + Duration::from_secs(words.seconds);
    let mut figures = Figures::default();
    while Instant::now() < end || figures.counted <= FEWEST_COUNTED {
        let _place = Place { seed: words.seed, life: figures.lives + 1 };
        live(&mut lot, &packets, words.bounds, end, &mut figures);
    }
    figures
}

fn print(words: &Words, figures: &Figures) {
    let Words { seed, seconds, bounds } = words;
    println!(
        "joined: seed {seed}, {seconds} s: {} lives, {} packets sent, {} bytes counted, {} wraps",
        figures.lives, figures.sent, figures.counted, figures.wraps
    );
    let Figures { taken, sent, expired, withdrawn, waiting, .. } = figures;
    println!("joined: of {taken} packets taken in, {sent} sent, {expired} expired, {withdrawn} withdrawn, {waiting} waiting at the ends of the lives");
    print_way("the endpoint's messages", &figures.up);
    print_way("the radio's messages", &figures.down);
    println!(
        "joined: windows up to {} above what was heard, up to {} bytes sent and not heard, {} silences",
        figures.most_granted, figures.most_unheard, figures.silences
    );
    println!("joined: ages below {}, windows up to {}: nothing is sent past the highest window granted", bounds.age, bounds.most);
}

fn print_way(what: &str, passage: &Passage) {
    let Passage { sent, arrived, lost, repeated, out_of_order, delayed, too_old, oldest } = passage;
    println!(
        "joined: {what}: {sent} sent, {arrived} arrived; {lost} lost, {repeated} repeated, {out_of_order} out of order, {delayed} delayed, {too_old} too old"
    );
    println!("joined: {what}: the oldest arrived after {oldest} bytes");
}

fn main() -> ExitCode {
    let given: Vec<String> = std::env::args().skip(1).collect();
    if given == ["--late"] {
        late::play();
        return ExitCode::SUCCESS;
    }
    match Words::read(&given) {
        None => {
            eprintln!("{USAGE}");
            ExitCode::from(2)
        }
        Some(words) => {
            print(&words, &soak(&words));
            ExitCode::SUCCESS
        }
    }
}
