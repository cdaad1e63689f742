//! The net between the ends: one way for each direction, on which messages are lost, repeated, delayed and overtake one another.
use crate::lot::Lot;
use std::collections::VecDeque;
use std::rc::Rc;

pub const CHANNELS: usize = 6;

/// How far a channel may go, in numbers that never wrap.
#[derive(Clone, Copy, Debug, PartialEq, Eq)]
pub enum Reach {
    Free,
    NoWindow,
    UpTo(u128),
}

/// A message that an end wrote: its bytes, and in numbers that never wrap what was counted on each channel that it names when it was sent, and how far it lets
/// each channel go.
pub struct Message {
    pub bytes: Vec<u8>,
    pub counted: [Option<u128>; CHANNELS],
    pub reaches: [Reach; CHANNELS],
}

impl Message {
    /// The most bytes that were counted since on a channel that it names.
    pub fn age(&self, counts: &[u128; CHANNELS]) -> u128 {
        let ages = self.counted.iter().zip(counts).filter_map(|(counted, count)| counted.map(|counted| count - counted));
        ages.max().unwrap_or(0)
    }

    /// How far the window that it grants a channel lay behind the count when it was sent.
    pub fn behind(&self, channel: usize) -> u128 {
        match (self.reaches[channel], self.counted[channel]) {
            (Reach::UpTo(reach), Some(counted)) => counted.saturating_sub(reach),
            _ => 0,
        }
    }
}

/// What a way does to messages, in so many of a thousand.
#[derive(Clone, Copy)]
pub struct Weather {
    pub lost: u64,
    pub repeated: u64,
    pub out_of_order: u64,
    /// Nothing arrives but what is overdue.
    pub is_blocked: bool,
}

/// A message that arrives when the count of a channel has come to a number.
struct Delayed {
    message: Rc<Message>,
    channel: usize,
    due: u128,
}

#[derive(Clone, Copy, Default)]
pub struct Passage {
    pub sent: u64,
    pub arrived: u64,
    pub lost: u64,
    pub repeated: u64,
    pub out_of_order: u64,
    pub delayed: u64,
    pub too_old: u64,
    pub oldest: u128,
}

impl Passage {
    pub fn add(&mut self, other: &Passage) {
        self.sent += other.sent;
        self.arrived += other.arrived;
        self.lost += other.lost;
        self.repeated += other.repeated;
        self.out_of_order += other.out_of_order;
        self.delayed += other.delayed;
        self.too_old += other.too_old;
        self.oldest = self.oldest.max(other.oldest);
    }
}

pub struct Way {
    /// A message arrives only while fewer bytes than these were counted since on each channel that it names.
    age: u128,
    ready: VecDeque<Rc<Message>>,
    delayed: Vec<Delayed>,
    pub passage: Passage,
}

const MOST_READY: usize = 40;
const MOST_DELAYED: usize = 48;
const THOUSAND: u64 = 1000;

impl Way {
    pub fn new(age: u128) -> Way {
        Way { age, ready: VecDeque::new(), delayed: Vec::new(), passage: Passage::default() }
    }

    /// Takes a message on the way, or loses it.
    pub fn send(&mut self, message: Rc<Message>, weather: Weather, lot: &mut Lot) {
        self.passage.sent += 1;
        if lot.below(THOUSAND) < weather.lost {
            self.passage.lost += 1;
            return;
        }
        self.ready.push_back(message);
        if self.ready.len() > MOST_READY {
            let unlucky = lot.below(self.ready.len() as u64) as usize;
            self.ready.remove(unlucky);
            self.passage.lost += 1;
        }
    }

    /// Keeps a message until more was counted on a channel, if it names that one: often as much as it may be, and always where nothing else arrives.
    pub fn delay(&mut self, message: &Rc<Message>, channel: usize, weather: Weather, lot: &mut Lot) {
        let oldest = self.age - 1;
        let after = if weather.is_blocked || lot.one_in(2) { oldest } else { u128::from(lot.scaled(oldest as u64)) };
        if let Some(counted) = message.counted[channel] {
            self.make_room(message.behind(channel));
            if self.delayed.len() < MOST_DELAYED {
                self.delayed.push(Delayed { message: Rc::clone(message), channel, due: counted + after });
            }
        }
    }

    /// Where no room is left, a window that lies less behind the count goes for one that lies this much behind: that one can be misread the sooner.
    fn make_room(&mut self, behind: u128) {
        if self.delayed.len() == MOST_DELAYED {
            if let Some(place) = self.delayed.iter().position(|delayed| delayed.message.behind(delayed.channel) < behind) {
                self.delayed.swap_remove(place);
            }
        }
    }

    /// A message that arrives, if it isn't too old.
    fn arrive(&mut self, message: Rc<Message>, counts: &[u128; CHANNELS]) -> Option<Rc<Message>> {
        let age = message.age(counts);
        if age >= self.age {
            self.passage.too_old += 1;
            return None;
        }
        self.passage.arrived += 1;
        self.passage.oldest = self.passage.oldest.max(age);
        Some(message)
    }

    /// The next that arrives, in order or out of it; it may come again.
    pub fn next(&mut self, counts: &[u128; CHANNELS], weather: Weather, lot: &mut Lot) -> Option<Rc<Message>> {
        if weather.is_blocked || self.ready.is_empty() {
            return None;
        }
        let is_out_of_order = lot.below(THOUSAND) < weather.out_of_order;
        let chosen = if is_out_of_order { lot.below(self.ready.len() as u64) as usize } else { 0 };
        self.passage.out_of_order += u64::from(chosen != 0);
        if lot.below(THOUSAND) < weather.repeated {
            self.passage.repeated += 1;
            let message = Rc::clone(&self.ready[chosen]);
            return self.arrive(message, counts);
        }
        let message = self.ready.remove(chosen)?;
        self.arrive(message, counts)
    }

    /// One that was delayed and is due, if there is such.
    pub fn overdue(&mut self, counts: &[u128; CHANNELS]) -> Option<Rc<Message>> {
        while let Some(place) = self.delayed.iter().position(|delayed| counts[delayed.channel] >= delayed.due) {
            let delayed = self.delayed.swap_remove(place);
            if let Some(message) = self.arrive(delayed.message, counts) {
                self.passage.delayed += 1;
                return Some(message);
            }
        }
        None
    }

    /// The nearest count of a channel, above this one, at which a delayed message is due.
    pub fn nearest(&self, channel: usize, count: u128) -> Option<u128> {
        self.delayed.iter().filter(|delayed| delayed.channel == channel && delayed.due > count).map(|delayed| delayed.due).min()
    }
}
