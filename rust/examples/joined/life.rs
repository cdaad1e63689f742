//! A life of both ends from their starts, by lot: what is offered and asked, what the radio says of itself, and what the net does to the messages.
use crate::ends::{start, Ends, Terms};
use crate::ledger::Fate;
use crate::lot::Lot;
use crate::net::{Message, Passage, Reach, Way, Weather, CHANNELS};
use crate::packets::{Packets, LONGEST, SHORTEST};
use nespovarda::{Context, Kind, LinkInstance, Waits};
use std::rc::Rc;
use std::time::Instant;

/// What the net and the radio keep to: a message arrives while fewer than `age` bytes were counted since, and no window is more than `most` above what was heard.
#[derive(Clone, Copy)]
pub struct Bounds {
    pub age: u128,
    pub most: u64,
}

/// What came to pass, over all lives.
#[derive(Default)]
pub struct Figures {
    pub lives: u64,
    pub sent: u64,
    pub expired: u64,
    pub withdrawn: u64,
    pub waiting: u64,
    pub taken: u64,
    pub counted: u128,
    pub wraps: u128,
    pub silences: u64,
    pub most_granted: u64,
    pub most_unheard: u128,
    pub up: Passage,
    pub down: Passage,
}

/// The flow-controlled channels at both ends; most packets are offered to the first.
const JOINED: [usize; 3] = [1, 2, 5];
const MAIN: usize = 1;
const NEVER: u64 = u64::MAX;
const OUT: usize = 9100;
/// A life that counts fewer packets than this is one in which nothing goes.
const FEWEST_SENT: u64 = 200;
/// What a narrow channel is granted; no bound on windows may be less, nor less than two packets.
pub const NARROW: u64 = 100_000;
const LONGEST_LIFE: u64 = 5 << 30;
const MOST_STEPS: u64 = 1 << 20;
const STEPS_BETWEEN_SETTLEMENTS: u64 = 4096;

#[derive(Clone, Copy)]
enum Sizes {
    Large,
    Small,
    Any,
}

/// How things are for a while: until so many bytes more are counted on the main channel, or so many steps are made.
struct Season {
    up: Weather,
    down: Weather,
    sizes: Sizes,
    /// The radio's queues are emptied, in one of so many of its moves; else they fill.
    emptied: u64,
    /// Into how many steps one move of the radio comes.
    radio_moves: u64,
    until: u128,
    steps: u64,
}

pub struct Life<'a> {
    ends: Ends<'a>,
    up: Way,
    down: Way,
    season: Season,
    silences: u64,
    most_unheard: u128,
    lot: &'a mut Lot,
}

/// The channels of a life: plain at both ends, flow-controlled at both, and at one of them only.
fn draw_terms(lot: &mut Lot, most: u64) -> [Terms; CHANNELS] {
    use Kind::{FlowControlled as Flow, Plain};
    let kinds = [(0, Plain, Plain), (3, Flow, Flow), (7, Flow, Flow), (9, Flow, Plain), (12, Plain, Flow), (200, Flow, Flow)];
    let mut terms = kinds.map(|(id, at_endpoint, at_radio)| {
        let sum = draw_sum(lot, most);
        let watermark = lot.within(0, sum);
        Terms { id, at_endpoint, at_radio, first: draw_first(lot), store: lot.pick(&[1500, 9000, 20_000]), watermark, throughput: sum - watermark }
    });
    terms[MAIN].store = lot.pick(&[9000, 18_000, 18_000, 65_536]);
    let narrow = lot.within(2 * LONGEST, most);
    terms[MAIN].watermark = lot.pick(&[0, narrow / 2]);
    terms[MAIN].throughput = lot.pick(&[most, most, most, narrow]) - terms[MAIN].watermark;
    terms
}

/// A first sequence about 0, about 2^31, or anywhere.
fn draw_first(lot: &mut Lot) -> u32 {
    let anywhere = lot.word() as u32;
    let about = lot.pick(&[0, 1 << 31, anywhere]);
    about.wrapping_add(lot.scaled(40_000) as u32).wrapping_sub(20_000)
}

/// What a radio grants with nothing queued.
fn draw_sum(lot: &mut Lot, most: u64) -> u64 {
    let smaller = lot.within(LONGEST, most);
    lot.pick(&[most, most, most - 1, smaller, NARROW, 500])
}

impl Season {
    fn draw(lot: &mut Lot, count: u128, most: u64) -> Season {
        if lot.one_in(6) {
            return Season { up: BLOCKED, down: BLOCKED, sizes: Sizes::Large, emptied: 2, radio_moves: 200, until: count + u128::from(most), steps: 5000 };
        }
        let bytes = lot.scaled(most);
        let until = count + u128::from(lot.pick(&[bytes, most, most + bytes]));
        let [up, down] = [0; 2].map(|_| draw_weather(lot));
        let (sizes, steps) = lot.pick(&[(Sizes::Large, 10_000), (Sizes::Large, 10_000), (Sizes::Large, 10_000), (Sizes::Any, 500), (Sizes::Small, 100)]);
        Season { up, down, sizes, emptied: lot.pick(&[1, 1, 1, 2, 8]), radio_moves: lot.pick(&[10, 50, 200]), until, steps: lot.within(1, steps) }
    }
}

fn draw_weather(lot: &mut Lot) -> Weather {
    Weather {
        lost: lot.pick(&[0, 0, 20, 300, 900]),
        repeated: lot.pick(&[0, 0, 20, 200]),
        out_of_order: lot.pick(&[0, 0, 100, 1000]),
        is_blocked: lot.one_in(5),
    }
}

/// A life, until it has counted what was drawn or time is over.
pub fn live(lot: &mut Lot, packets: &Packets, bounds: Bounds, end: Instant, figures: &mut Figures) {
    let terms = draw_terms(lot, bounds.most);
    let short = lot.scaled(LONGEST_LIFE).max(LONGEST * FEWEST_SENT);
    let goal = u128::from(terms[MAIN].first) + u128::from(lot.pick(&[short, short, LONGEST_LIFE]));
    let mut lent = start(&terms, Waits { hello: lot.within(1, 2000), limit: lot.pick(&[50, 1000, 100_000]) });
    let ends = Ends::new(&mut lent, terms, bounds.most, packets);
    let season = Season { up: CALM, down: CALM, sizes: Sizes::Any, emptied: 1, radio_moves: 10, until: 0, steps: 1000 };
    let mut life = Life { ends, up: Way::new(bounds.age), down: Way::new(bounds.age), season, silences: 0, most_unheard: 0, lot };
    life.begin();
    let mut steps = 0;
    while life.ends.numbers[MAIN].count < goal
        && steps < MOST_STEPS
        && (steps % STEPS_BETWEEN_SETTLEMENTS != 0 || Instant::now() < end || life.has_hardly_sent())
    {
        life.step();
        steps += 1;
        if steps % STEPS_BETWEEN_SETTLEMENTS == 0 {
            life.ends.settle();
        }
    }
    life.ends.settle();
    assert!(!life.has_hardly_sent(), "{} packets go in {steps} steps", life.ends.ledger.count(Fate::Sent));
    life.add_to(figures);
}

const CALM: Weather = Weather { lost: 0, repeated: 0, out_of_order: 0, is_blocked: false };
/// The endpoint goes on to the window's end, and the radio hears nothing of it.
const BLOCKED: Weather = Weather { lost: 0, repeated: 0, out_of_order: 0, is_blocked: true };

impl Life<'_> {
    fn has_hardly_sent(&self) -> bool {
        self.ends.ledger.count(Fate::Sent) < FEWEST_SENT
    }

    /// Every channel becomes operational, and the endpoint asks.
    fn begin(&mut self) {
        for place in 0..CHANNELS {
            let told = self.ends.has_status(place, 7);
            self.radio_sends(told);
        }
        let query = self.ends.query();
        self.endpoint_sends(query);
    }

    fn step(&mut self) {
        let count = self.ends.numbers[MAIN].count;
        if count >= self.season.until || self.season.steps == 0 {
            self.season = Season::draw(self.lot, count, self.ends.terms[MAIN].watermark + self.ends.terms[MAIN].throughput);
        }
        self.season.steps = self.season.steps.saturating_sub(1);
        match self.lot.below(100) {
            0..=4 => self.let_time_pass(),
            5..=9 => self.offer_handful(),
            10 => self.fail_for_once(),
            _ => self.carry(),
        }
        if self.lot.one_in(self.season.radio_moves) {
            self.move_radio();
        }
        self.pass_messages();
    }

    // ---- What the endpoint is asked ----

    fn let_time_pass(&mut self) {
        self.ends.clock += self.lot.scaled(100);
        let was_silent = self.ends.numbers[MAIN].reach == Reach::NoWindow;
        let query = self.ends.pace();
        self.silences += u64::from(!was_silent && self.ends.numbers[MAIN].reach == Reach::NoWindow);
        if let Some(query) = query {
            self.endpoint_sends(query);
        }
    }

    fn draw_expiry(&mut self) -> u64 {
        if self.lot.one_in(20) {
            return self.ends.clock + self.lot.below(50);
        }
        NEVER
    }

    fn draw_place(&mut self) -> usize {
        if self.lot.one_in(12) {
            return self.lot.below(CHANNELS as u64) as usize;
        }
        MAIN
    }

    fn offer_handful(&mut self) {
        let count = self.lot.scaled(32);
        let longest = self.lot.pick(&[60, 600, LONGEST]);
        let handful: Vec<(usize, u64, u64)> = (0..count).map(|_| (self.draw_place(), self.lot.within(SHORTEST, longest), self.draw_expiry())).collect();
        self.ends.offers(&handful);
    }

    /// What changes nothing: an output with no room, a message that comes with an earlier time.
    fn fail_for_once(&mut self) {
        let place = self.draw_place();
        self.ends.next_without_room(place);
        let told = self.ends.tell();
        self.ends.told_before(&told);
        if self.lot.one_in(10) {
            self.ends.withdraw(place);
        }
    }

    /// Sends what waits, and offers one packet after another behind it, until the channel is shut or tired.
    fn carry(&mut self) {
        let place = self.draw_place();
        for _ in 0..self.lot.scaled(100) {
            let is_empty = self.ends.ledger.waiting(place).is_empty();
            if is_empty || self.lot.one_in(10) {
                let (length, expiry) = (self.draw_length(place, is_empty), self.draw_expiry());
                self.ends.offer(place, length, expiry);
            }
            match self.ends.next(place) {
                Some(message) => self.endpoint_sends(message),
                None => return,
            }
            self.pass_messages();
        }
    }

    /// A packet's length: where nothing else waits, often such that the window is filled to the byte, or that a delayed message is as old as it may be.
    fn draw_length(&mut self, place: usize, is_empty: bool) -> u64 {
        let drawn = match self.season.sizes {
            Sizes::Large => LONGEST - self.lot.scaled(100) + 1,
            Sizes::Small => SHORTEST + self.lot.scaled(60) - 1,
            Sizes::Any => self.lot.within(SHORTEST, LONGEST),
        };
        match self.nearest(place) {
            Some(left) if is_empty && (SHORTEST..=LONGEST).contains(&left) => left,
            Some(left) if is_empty && left > LONGEST && left < LONGEST + SHORTEST => LONGEST / 2,
            _ => drawn.clamp(SHORTEST, LONGEST),
        }
    }

    /// How many bytes there are to the window's end or to the next delayed message, whichever is nearer.
    fn nearest(&self, place: usize) -> Option<u64> {
        let numbers = &self.ends.numbers[place];
        let window = match numbers.reach {
            Reach::UpTo(reach) if reach > numbers.count => Some(reach),
            _ => None,
        };
        let due = [window, self.up.nearest(place, numbers.count), self.down.nearest(place, numbers.count)];
        due.into_iter().flatten().min().map(|due| (due - numbers.count) as u64)
    }

    // ---- What the radio says of itself ----

    fn move_radio(&mut self) {
        let any = self.lot.below(CHANNELS as u64) as usize;
        let place = self.lot.pick(&[MAIN, MAIN, MAIN, any]);
        let told = match self.lot.below(40) {
            0 => {
                let status = self.lot.below(16) as u8;
                self.ends.has_status(place, status)
            }
            1..=3 => self.ends.has_status(place, 7),
            4 => {
                let context = Context::new(&[b'A' + self.lot.below(3) as u8]).expect("it is short");
                let link = LinkInstance { length: 8, id: self.lot.word() };
                self.ends.has_context(context, link)
            }
            5..=9 => Some(self.ends.tell()),
            _ => {
                let queued = self.draw_queued(place);
                self.ends.has_queued(place, queued)
            }
        };
        self.radio_sends(told);
    }

    /// Nothing queued, or so much that the window shuts, or nearly.
    fn draw_queued(&mut self, place: usize) -> u64 {
        let Terms { watermark, throughput, .. } = self.ends.terms[place];
        let sum = watermark + throughput;
        if self.lot.one_in(self.season.emptied) {
            return 0;
        }
        let little = sum.saturating_sub(self.lot.scaled(20_000));
        self.lot.pick(&[sum, sum, u64::MAX, sum + 1, little, self.ends.numbers[place].queued / 2])
    }

    // ---- The net ----

    fn draw_joined(&mut self) -> usize {
        if self.lot.one_in(8) {
            return self.lot.pick(&JOINED);
        }
        MAIN
    }

    fn endpoint_sends(&mut self, message: Rc<Message>) {
        if self.lot.one_in(2000) {
            let channel = self.draw_joined();
            self.up.delay(&message, channel, self.season.up, self.lot);
        }
        self.up.send(message, self.season.up, self.lot);
        let unheard = JOINED.iter().map(|&place| &self.ends.numbers[place]).filter_map(|numbers| Some(numbers.count - numbers.heard?));
        self.most_unheard = self.most_unheard.max(unheard.max().unwrap_or(0));
    }

    fn radio_sends(&mut self, message: Option<Rc<Message>>) {
        if let Some(message) = message {
            let channel = self.draw_joined();
            let one_in = if message.behind(channel) > 0 { 3 } else { 100 };
            if self.lot.one_in(one_in) {
                self.down.delay(&message, channel, self.season.down, self.lot);
            }
            self.down.send(message, self.season.down, self.lot);
        }
    }

    /// What is overdue arrives, and perhaps something else.
    fn pass_messages(&mut self) {
        while let Some(message) = self.up.overdue(&self.ends.counts()) {
            self.arrives_at_radio(&message);
        }
        while let Some(message) = self.down.overdue(&self.ends.counts()) {
            self.ends.told(&message);
        }
        if let Some(message) = self.up.next(&self.ends.counts(), self.season.up, self.lot) {
            self.arrives_at_radio(&message);
        }
        if let Some(message) = self.down.next(&self.ends.counts(), self.season.down, self.lot) {
            self.ends.told(&message);
        }
    }

    /// The radio hears it; now and then with no room for what it would say, so that it heard nothing.
    fn arrives_at_radio(&mut self, message: &Message) {
        let room = if self.lot.one_in(500) { 0 } else { OUT };
        let told = self.ends.hears(message, room);
        self.radio_sends(told);
    }

    fn add_to(&self, figures: &mut Figures) {
        let (ledger, numbers) = (&self.ends.ledger, &self.ends.numbers);
        let counted = |place: usize| numbers[place].count - u128::from(self.ends.terms[place].first);
        figures.lives += 1;
        figures.sent += ledger.count(Fate::Sent);
        figures.expired += ledger.count(Fate::Expired);
        figures.withdrawn += ledger.count(Fate::Withdrawn);
        figures.waiting += ledger.count(Fate::Waiting);
        figures.taken += ledger.number();
        figures.counted += JOINED.iter().map(|&place| counted(place)).sum::<u128>();
        figures.wraps += JOINED.iter().map(|&place| numbers[place].count >> 32).sum::<u128>();
        figures.silences += self.silences;
        figures.most_granted = figures.most_granted.max(self.ends.most_granted);
        figures.most_unheard = figures.most_unheard.max(self.most_unheard);
        figures.up.add(&self.up.passage);
        figures.down.add(&self.down.passage);
    }
}
