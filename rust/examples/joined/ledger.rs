//! The endpoint's ledger: what became of each packet that it took in.
use crate::packets::LONGEST;
use nespovarda::Refusal;
use std::collections::VecDeque;

const MOST_WAITING: usize = 32;

#[derive(Clone, Copy, Debug, PartialEq, Eq)]
pub enum Fate {
    Waiting,
    Sent,
    Expired,
    Withdrawn,
}

#[derive(Clone, Copy, Debug)]
pub struct Packet {
    pub number: u64,
    pub length: u64,
    pub expiry: u64,
}

/// The fate of each packet taken in, by its number, and the queue of each channel.
pub struct Ledger {
    fates: Vec<Fate>,
    queues: Vec<VecDeque<Packet>>,
    stores: Vec<u64>,
}

impl Ledger {
    pub fn new(stores: Vec<u64>) -> Ledger {
        Ledger { fates: Vec::new(), queues: stores.iter().map(|_| VecDeque::new()).collect(), stores }
    }

    /// The number of the next packet that is taken in.
    pub fn number(&self) -> u64 {
        self.fates.len() as u64
    }

    /// What an offer comes to: nothing where the packet is taken in.
    pub fn offer(&mut self, place: usize, length: u64, expiry: u64, now: u64) -> Option<Refusal> {
        if length > self.stores[place].min(LONGEST) {
            return Some(Refusal::PacketTooLong);
        }
        if expiry <= now {
            return Some(Refusal::ExpiryNotAfterTime);
        }
        let alive = self.queues[place].iter().filter(|packet| packet.expiry > now);
        let (count, bytes) = alive.fold((0, 0), |(count, bytes), packet| (count + 1, bytes + packet.length));
        if count == MOST_WAITING || bytes + length > self.stores[place] {
            return Some(Refusal::StoreFull);
        }
        self.expire(place, now);
        let number = self.number();
        self.queues[place].push_back(Packet { number, length, expiry });
        self.fates.push(Fate::Waiting);
        None
    }

    fn settle(&mut self, packet: Packet, fate: Fate) {
        let before = &mut self.fates[packet.number as usize];
        assert_eq!(*before, Fate::Waiting, "packet {} has one fate", packet.number);
        *before = fate;
    }

    pub fn expire(&mut self, place: usize, now: u64) {
        let queue = &mut self.queues[place];
        if queue.iter().all(|packet| packet.expiry > now) {
            return;
        }
        let (alive, gone): (VecDeque<Packet>, VecDeque<Packet>) = queue.iter().copied().partition(|packet| packet.expiry > now);
        *queue = alive;
        for packet in gone {
            self.settle(packet, Fate::Expired);
        }
    }

    pub fn withdraw(&mut self, place: usize) {
        for packet in std::mem::take(&mut self.queues[place]) {
            self.settle(packet, Fate::Withdrawn);
        }
    }

    /// The first that waits is sent.
    pub fn send(&mut self, place: usize) -> Packet {
        let packet = self.queues[place].pop_front().expect("what is sent has waited");
        self.settle(packet, Fate::Sent);
        packet
    }

    pub fn waiting(&self, place: usize) -> &VecDeque<Packet> {
        &self.queues[place]
    }

    /// The first that waits and isn't due to expire.
    pub fn first_alive(&self, place: usize, now: u64) -> Option<&Packet> {
        self.queues[place].iter().find(|packet| packet.expiry > now)
    }

    /// How many have this fate.
    pub fn count(&self, fate: Fate) -> u64 {
        self.fates.iter().filter(|&&other| other == fate).count() as u64
    }
}
