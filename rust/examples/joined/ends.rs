//! Both ends by their calls, and beside them in numbers that never wrap what each of them has to come to. Every call is compared with these.
use crate::ledger::{Fate, Ledger};
use crate::net::{Message, Reach, CHANNELS};
use crate::packets::Packets;
use crate::wire;
use nespovarda::station::{self, Allowances, Station, Told};
use nespovarda::{Configuration, Context, DatalinkId, Endpoint, FlowSequence, Handed, Handful, Heard, Kind, LinkInstance, Next, Offered, Paced, Refusal};
use nespovarda::{StatusCodes, Waits, Withdrawn, Written};
use std::rc::Rc;

pub const DATALINK: DatalinkId = DatalinkId(7);
/// Of the statuses 8 to 15 this one is operational, beside 1 to 7.
const OPERATIONAL_TOO: u8 = 9;
const OUT: usize = 9100;
const MOST_CUT: u64 = i32::MAX as u64;

/// A channel as both ends are configured.
#[derive(Clone, Copy, Debug)]
pub struct Terms {
    pub id: u8,
    pub at_endpoint: Kind,
    pub at_radio: Kind,
    pub first: u32,
    pub store: u64,
    pub watermark: u64,
    pub throughput: u64,
}

impl Terms {
    /// Whether it is flow-controlled at both ends.
    pub fn is_joined(&self) -> bool {
        self.at_endpoint == Kind::FlowControlled && self.at_radio == Kind::FlowControlled
    }
}

/// A channel in numbers.
#[derive(Clone, Copy)]
pub struct Numbers {
    /// What the endpoint has counted, its first sequence included.
    pub count: u128,
    /// The highest count that the radio has heard.
    pub heard: Option<u128>,
    /// The highest number that the radio has ever granted.
    pub top: Option<u128>,
    /// How far the endpoint may go, by the message it heard last.
    pub reach: Reach,
    pub is_operational: bool,
    /// The bytes queued at the radio.
    pub queued: u64,
}

/// The words and the memory that both ends work on.
pub struct Lent {
    endpoint: Vec<u64>,
    memory: Vec<u8>,
    station: Vec<u64>,
}

pub struct Ends<'a> {
    pub terms: [Terms; CHANNELS],
    pub numbers: [Numbers; CHANNELS],
    pub ledger: Ledger,
    pub clock: u64,
    pub most_granted: u64,
    most: u64,
    packets: &'a Packets,
    endpoint: Endpoint<'a>,
    station: Station<'a>,
    out: Vec<u8>,
}

/// Both starts.
pub fn start(terms: &[Terms; CHANNELS], waits: Waits) -> Lent {
    let mut words = [0; Configuration::words_for(CHANNELS)];
    let fresh = Configuration::new(&mut words, DATALINK, waits).expect("there is room for a head").operational(StatusCodes(1 << (OPERATIONAL_TOO - 8)));
    let configuration =
        terms.iter().try_fold(fresh, |configuration, one| configuration.channel(one.id, one.at_endpoint, FlowSequence(one.first), one.store as usize));
    let configuration = configuration.expect("there is room for the channels");
    let mut endpoint = vec![u64::MAX; nespovarda::words_for(CHANNELS)];
    let mut memory = vec![0xff; configuration.memory_length()];
    Endpoint::start(&mut endpoint, &mut memory, &configuration).expect("the endpoint's configuration is within the limits");

    let mut words = [0; station::Configuration::words_for(CHANNELS)];
    let fresh = station::Configuration::new(&mut words, DATALINK).expect("there is room for a head");
    let allowances = |one: &Terms| Allowances { watermark: one.watermark, throughput: one.throughput };
    let configuration = terms.iter().try_fold(fresh, |configuration, one| configuration.channel(one.id, one.at_radio, allowances(one)));
    let mut station = vec![u64::MAX; station::words_for(CHANNELS)];
    Station::start(&mut station, &configuration.expect("there is room for the channels")).expect("the radio's configuration is within the limits");
    Lent { endpoint, memory, station }
}

impl<'a> Ends<'a> {
    /// Both ends behind their starts; no window of the radio may reach more than `most` above what it has heard.
    pub fn new(lent: &'a mut Lent, terms: [Terms; CHANNELS], most: u64, packets: &'a Packets) -> Ends<'a> {
        let fresh = |one: Terms| Numbers {
            count: u128::from(one.first),
            heard: None,
            top: None,
            reach: if one.at_endpoint == Kind::Plain { Reach::Free } else { Reach::NoWindow },
            is_operational: false,
            queued: 0,
        };
        Ends {
            terms,
            numbers: terms.map(fresh),
            ledger: Ledger::new(terms.iter().map(|one| one.store).collect()),
            clock: 0,
            most_granted: 0,
            most,
            packets,
            endpoint: Endpoint::resume(&mut lent.endpoint, &mut lent.memory),
            station: Station::resume(&mut lent.station),
            out: vec![0; OUT],
        }
    }

    pub fn counts(&self) -> [u128; CHANNELS] {
        self.numbers.map(|numbers| numbers.count)
    }

    fn place_of(&self, id: u8) -> usize {
        self.terms.iter().position(|one| one.id == id).expect("a message names configured channels")
    }

    // ---- The endpoint ----

    /// Offers a packet; whether it was taken in.
    pub fn offer(&mut self, place: usize, length: u64, expiry: u64) -> bool {
        let mut packet = Vec::with_capacity(length as usize);
        self.packets.append(self.ledger.number(), length, &mut packet);
        let expected = self.ledger.offer(place, length, expiry, self.clock);
        let answer = self.endpoint.offer(self.terms[place].id, &packet, expiry, self.clock);
        assert_eq!(answer, expected.map_or(Offered::Taken, Offered::Refused));
        expected.is_none()
    }

    /// Offers a handful: of each packet the channel's place, the length and the expiry.
    pub fn offers(&mut self, handful: &[(usize, u64, u64)]) {
        let mut packets = Vec::new();
        let mut expected = Vec::new();
        for &(place, length, expiry) in handful {
            self.packets.append(self.ledger.number(), length, &mut packets);
            expected.push(self.ledger.offer(place, length, expiry, self.clock).map_or(0, |refusal| refusal.number() as u8));
        }
        let handed = Handful {
            channels: &handful.iter().map(|&(place, _, _)| self.terms[place].id).collect::<Vec<_>>(),
            expiries: &handful.iter().map(|&(_, _, expiry)| expiry).collect::<Vec<_>>(),
            lengths: &handful.iter().map(|&(_, length, _)| length).collect::<Vec<_>>(),
            packets: &packets,
            time: self.clock,
        };
        match self.endpoint.offers(&handed, &mut vec![0xff; handful.len()]) {
            Handed::Offered(answers) => assert_eq!(answers.as_bytes(), expected),
            Handed::Refused(refusal) => panic!("a handful is {refusal}"),
        }
    }

    /// Asks for the next message.
    pub fn next(&mut self, place: usize) -> Option<Rc<Message>> {
        self.ledger.expire(place, self.clock);
        let expected = self.why_none(place);
        let bytes = match self.endpoint.next(self.terms[place].id, self.clock, &mut self.out) {
            Next::Sent(message) => message.to_vec(),
            answer => {
                assert_eq!(Some(answer), expected, "channel {}", self.terms[place].id);
                return None;
            }
        };
        self.went(place, &bytes);
        Some(self.stated(bytes))
    }

    /// The answer where nothing may go; none where the first packet may.
    fn why_none(&self, place: usize) -> Option<Next<'static>> {
        let numbers = &self.numbers[place];
        match (self.ledger.first_alive(place, self.clock), numbers.reach) {
            (None, _) => Some(Next::NothingWaiting),
            (Some(_), _) if !numbers.is_operational => Some(Next::NotOperational),
            (Some(_), Reach::NoWindow) => Some(Next::WindowShut),
            (Some(first), Reach::UpTo(reach)) if numbers.count + u128::from(first.length) > reach => Some(Next::WindowShut),
            _ => None,
        }
    }

    /// A packet went: what §14 says of it, that it may go by the message heard last, and that it is the packet whose turn it was.
    fn went(&mut self, place: usize, message: &[u8]) {
        let sent = self.ledger.send(place);
        let (terms, numbers) = (self.terms[place], &mut self.numbers[place]);
        let carried: Vec<(u8, u32)> = wire::sequences(message).collect();
        if terms.is_joined() {
            numbers.count += u128::from(sent.length);
            let (count, top) = (numbers.count, numbers.top.expect("nothing goes before a window is granted"));
            assert!(count <= top, "channel {}: {count} is sent, {} past {top}, the highest ever granted", terms.id, count - top);
            assert!(matches!(numbers.reach, Reach::UpTo(reach) if count <= reach), "channel {}: {count} is past {:?}", terms.id, numbers.reach);
            assert_eq!(carried, [(terms.id, count as u32)], "a packet that is counted carries the count");
        } else {
            assert_eq!((carried, numbers.reach), (vec![], Reach::Free), "a packet that isn't counted carries none");
        }
        assert!(numbers.is_operational, "channel {} isn't operational", terms.id);
        let (channel, packet) = wire::packet(message).expect("a data message has a packet");
        assert_eq!(channel, terms.id);
        assert!(self.packets.is(sent.number, sent.length, packet), "packet {} arrives as it was offered", sent.number);
    }

    /// A message of the endpoint, with the counts that it states.
    fn stated(&self, bytes: Vec<u8>) -> Rc<Message> {
        let mut counted = [None; CHANNELS];
        for (id, word) in wire::sequences(&bytes) {
            let place = self.place_of(id);
            assert_eq!(self.numbers[place].count as u32, word, "channel {id} states its count");
            counted[place] = Some(self.numbers[place].count);
        }
        Rc::new(Message { bytes, counted, reaches: [Reach::Free; CHANNELS] })
    }

    /// An output with no room for a message: 18 exactly where a packet would go, and then nothing has expired either; else the answer that needs no room.
    pub fn next_without_room(&mut self, place: usize) {
        let expected = self.why_none(place);
        let answer = self.endpoint.next(self.terms[place].id, self.clock, &mut []);
        assert_eq!(answer, expected.unwrap_or(Next::Refused(Refusal::OutputTooShort)), "channel {}", self.terms[place].id);
        if expected.is_some() {
            self.ledger.expire(place, self.clock);
        }
    }

    pub fn withdraw(&mut self, place: usize) {
        self.ledger.withdraw(place);
        assert_eq!(self.endpoint.withdraw(self.terms[place].id), Withdrawn::Withdrawn);
    }

    /// Asks the pacer; a query where one is due.
    pub fn pace(&mut self) -> Option<Rc<Message>> {
        let answer = self.endpoint.pace(self.clock);
        if matches!(answer, Paced::Silent | Paced::QueryDueSilent) {
            self.falls_silent();
        }
        match answer {
            Paced::Quiet | Paced::Silent => None,
            Paced::QueryDue | Paced::QueryDueSilent => Some(self.query()),
            Paced::Refused(refusal) => panic!("the pacer is {refusal}"),
        }
    }

    fn falls_silent(&mut self) {
        for (terms, numbers) in self.terms.iter().zip(&mut self.numbers) {
            numbers.is_operational = false;
            if terms.at_endpoint == Kind::FlowControlled {
                numbers.reach = Reach::NoWindow;
            }
        }
    }

    pub fn query(&mut self) -> Rc<Message> {
        let bytes = match self.endpoint.query(&mut self.out) {
            Written::Wrote(message) => message.to_vec(),
            Written::Refused(refusal) => panic!("a query is {refusal}"),
        };
        self.stated(bytes)
    }

    /// The endpoint hears a message of the radio.
    pub fn told(&mut self, message: &Message) {
        let answer = self.endpoint.radio(self.clock, &message.bytes);
        assert!(matches!(answer, Heard::Accepted | Heard::Due), "the radio's message is heard: {answer:?}");
        for (id, status) in wire::statuses(&message.bytes) {
            let place = self.place_of(id);
            self.numbers[place].is_operational = (1..8).contains(&status) || status == OPERATIONAL_TOO;
        }
        for (place, numbers) in self.numbers.iter_mut().enumerate() {
            if self.terms[place].at_endpoint == Kind::FlowControlled {
                numbers.reach = message.reaches[place];
            }
        }
    }

    /// A message whose time is before the pacer's clock is refused by 21, and so is one that was lost.
    pub fn told_before(&mut self, message: &Message) {
        let clock = self.endpoint.pacer().expect("the words are a state").clock;
        if clock > 0 {
            assert_eq!(self.endpoint.radio(clock - 1, &message.bytes), Heard::Refused(Refusal::PacerTimeBeforeLatest));
        }
    }

    // ---- The radio ----

    /// What the radio grants a channel on top of what it has heard.
    fn allowance(&self, place: usize) -> u64 {
        let Terms { watermark, throughput, .. } = self.terms[place];
        (watermark + throughput).saturating_sub(self.numbers[place].queued).min(MOST_CUT)
    }

    /// Where each channel's window is, by the numbers; a plain one is free.
    fn granted(&self) -> [Reach; CHANNELS] {
        let mut reaches = [Reach::Free; CHANNELS];
        for (place, reach) in reaches.iter_mut().enumerate() {
            if self.terms[place].at_radio == Kind::FlowControlled {
                *reach = self.numbers[place].heard.map_or(Reach::NoWindow, |heard| Reach::UpTo(heard + u128::from(self.allowance(place))));
            }
        }
        reaches
    }

    /// A message that the radio wrote: it names a Flow Window for every flow-controlled channel, none of them too far above what it has heard.
    fn wrote(&mut self, bytes: Vec<u8>) -> Rc<Message> {
        let mut reaches = [Reach::Free; CHANNELS];
        let mut counted = [None; CHANNELS];
        for (id, word) in wire::windows(&bytes) {
            let place = self.place_of(id);
            assert_eq!(reaches[place], Reach::Free, "channel {id} is named once");
            reaches[place] = self.reads(place, word);
        }
        assert_eq!(reaches, self.granted(), "the radio grants what its numbers say");
        for (place, counted) in counted.iter_mut().enumerate() {
            *counted = self.terms[place].is_joined().then_some(self.numbers[place].count);
        }
        Rc::new(Message { bytes, counted, reaches })
    }

    /// The number that a window written by the radio stands for: the first at or above what it has heard.
    fn reads(&mut self, place: usize, word: Option<u32>) -> Reach {
        let numbers = &mut self.numbers[place];
        let (word, heard) = match (word, numbers.heard) {
            (Some(word), Some(heard)) => (word, heard),
            (word, _) => {
                assert_eq!(word, None, "no window is granted before a sequence is heard");
                return Reach::NoWindow;
            }
        };
        let ahead = u64::from(word.wrapping_sub(heard as u32));
        assert!(ahead <= self.most, "channel {}: a window of {ahead}", self.terms[place].id);
        self.most_granted = self.most_granted.max(ahead);
        let reach = heard + u128::from(ahead);
        numbers.top = numbers.top.max(Some(reach));
        Reach::UpTo(reach)
    }

    /// The radio hears a message of the endpoint, into an output of so many bytes; gives what it says to it.
    pub fn hears(&mut self, message: &Message, room: usize) -> Option<Rc<Message>> {
        let (numbers, granted) = (self.numbers, self.granted());
        let is_data = self.adds(message);
        let is_news = !is_data || self.granted() != granted;
        let answer = match self.station.hear(&message.bytes, &mut self.out[..room]) {
            station::Heard::Answered(answer) => (!is_data).then(|| answer.to_vec()),
            station::Heard::Unasked(answer) => is_data.then(|| answer.to_vec()),
            station::Heard::NoMessage => None,
            station::Heard::Refused(refusal) => {
                assert!(refusal == Refusal::OutputTooShort && room < OUT && is_news, "the endpoint's message is {refusal}");
                self.numbers = numbers;
                return None;
            }
        };
        assert_eq!(answer.is_some(), is_news, "the radio answers a control message, and tells where a window changes");
        answer.map(|bytes| self.wrote(bytes))
    }

    /// The numbers with a message heard; whether it has a packet.
    fn adds(&mut self, message: &Message) -> bool {
        for (id, _) in wire::sequences(&message.bytes) {
            let place = self.place_of(id);
            if self.terms[place].at_radio == Kind::FlowControlled {
                let numbers = &mut self.numbers[place];
                numbers.heard = numbers.heard.max(message.counted[place]);
            }
        }
        match wire::packet(&message.bytes) {
            None => false,
            Some((id, packet)) => {
                let place = self.place_of(id);
                let numbers = &mut self.numbers[place];
                numbers.queued = numbers.queued.saturating_add(packet.len() as u64);
                true
            }
        }
    }

    /// What the radio says of itself is told where something differs.
    fn tells(&mut self, told: Option<Vec<u8>>, is_news: bool) -> Option<Rc<Message>> {
        assert_eq!(told.is_some(), is_news, "the radio tells where something differs");
        told.map(|bytes| self.wrote(bytes))
    }

    pub fn has_status(&mut self, place: usize, status: u8) -> Option<Rc<Message>> {
        let id = self.terms[place].id;
        let before = self.station.show(id).expect("the channel is configured").status;
        let told = unasked(self.station.status(id, status, &mut self.out));
        self.tells(told, status != before)
    }

    pub fn has_queued(&mut self, place: usize, bytes: u64) -> Option<Rc<Message>> {
        let granted = self.granted();
        self.numbers[place].queued = bytes;
        let told = unasked(self.station.queued(self.terms[place].id, bytes, &mut self.out));
        let is_news = self.granted() != granted;
        self.tells(told, is_news)
    }

    /// Another Context, and a Link Instance that is told with the next message.
    pub fn has_context(&mut self, context: Context, link: LinkInstance) -> Option<Rc<Message>> {
        assert_eq!(self.station.link(Some(link)), station::Linked::Kept);
        let told = unasked(self.station.context(Some(context), &mut self.out));
        told.map(|bytes| self.wrote(bytes))
    }

    pub fn tell(&mut self) -> Rc<Message> {
        let bytes = match self.station.tell(&mut self.out) {
            Written::Wrote(message) => message.to_vec(),
            Written::Refused(refusal) => panic!("what the radio tells is {refusal}"),
        };
        self.wrote(bytes)
    }

    // ---- Both ledgers ----

    /// What the ends hold is what the ledgers say: every packet taken in is sent, expired, withdrawn or waiting, and what the radio heard is what arrived.
    pub fn settle(&self) {
        for place in 0..CHANNELS {
            self.settle_endpoint(place);
            self.settle_radio(place);
        }
        let fates = [Fate::Sent, Fate::Expired, Fate::Withdrawn, Fate::Waiting].map(|fate| self.ledger.count(fate));
        assert_eq!(fates.iter().sum::<u64>(), self.ledger.number(), "every packet has a fate");
        let waiting: usize = (0..CHANNELS).map(|place| self.ledger.waiting(place).len()).sum();
        assert_eq!(waiting as u64, fates[3], "those that wait stand in the stores");
    }

    /// The endpoint's count, and the waiting packets byte by byte.
    fn settle_endpoint(&self, place: usize) {
        let (id, waiting) = (self.terms[place].id, self.ledger.waiting(place));
        let shown = self.endpoint.show(id).expect("the channel is configured");
        assert_eq!((shown.sequence.0, shown.waiting), (self.numbers[place].count as u32, waiting.len()), "channel {id}");
        let mut store = self.endpoint.store(id).expect("the channel is configured");
        for packet in waiting {
            let (bytes, behind) = store.split_at(packet.length as usize);
            assert!(self.packets.is(packet.number, packet.length, bytes), "channel {id}: packet {} waits", packet.number);
            store = behind;
        }
        assert!(store.iter().all(|&byte| byte == 0), "channel {id}: nothing else waits");
    }

    fn settle_radio(&self, place: usize) {
        let (id, numbers) = (self.terms[place].id, &self.numbers[place]);
        let shown = self.station.show(id).expect("the channel is configured");
        assert_eq!(shown.highest, numbers.heard.map(|heard| FlowSequence(heard as u32)), "channel {id}: the highest count that arrived");
        assert_eq!(shown.queued, numbers.queued, "channel {id}: the bytes that arrived");
    }
}

fn unasked(told: Told<'_>) -> Option<Vec<u8>> {
    match told {
        Told::Unasked(message) => Some(message.to_vec()),
        Told::NoMessage => None,
        Told::Refused(refusal) => panic!("what the radio says of itself is {refusal}"),
    }
}
