//! Offers by the handful: each comes to what single offers in its order come to, and one refused leaves everything as it was.
mod common;
use common::*;
use nespovarda::{words_for, Answers, Configuration, Endpoint, FlowSequence, Handed, Handful, Heard, Kind, Offered, Refusal, Waiting};

const FILL: u8 = 0xee;

/// A packet with its channel and its expiry.
type Offer = (u8, u64, Vec<u8>);

/// The lists of a handful, as a caller owns them.
#[derive(Clone, Debug, Default)]
struct Lists {
    channels: Vec<u8>,
    expiries: Vec<u64>,
    lengths: Vec<u64>,
    packets: Vec<u8>,
    answers: Vec<u8>,
}

impl Lists {
    fn of(offers: &[Offer]) -> Lists {
        Lists {
            channels: offers.iter().map(|offer| offer.0).collect(),
            expiries: offers.iter().map(|offer| offer.1).collect(),
            lengths: offers.iter().map(|offer| offer.2.len() as u64).collect(),
            packets: offers.iter().flat_map(|offer| offer.2.clone()).collect(),
            answers: vec![FILL; offers.len()],
        }
    }

    /// So many packets of 60 bytes for channel 9.
    fn many(count: usize) -> Lists {
        Lists::of(&vec![(ROOMY, NEVER, packet(60, 1)); count])
    }

    fn offer<'o>(&'o mut self, endpoint: &mut Endpoint<'_>, time: u64) -> Handed<'o> {
        let handful = Handful { channels: &self.channels, expiries: &self.expiries, lengths: &self.lengths, packets: &self.packets, time };
        endpoint.offers(&handful, &mut self.answers)
    }
}

/// A state with a packet waiting on channels 0 and 3, offered at time 10.
fn waiting() -> Lent {
    let mut lent = started(100);
    for channel in [PLAIN, FLOW] {
        assert_eq!(lent.endpoint().offer(channel, &packet(60, channel), NEVER, 10), Offered::Taken);
    }
    lent
}

/// The answers of a handful; and that they, the words and the memory are those of single offers in its order.
fn assert_one_by_one(lent: &mut Lent, offers: &[Offer], time: u64) -> Vec<Offered> {
    let mut single = lent.clone();
    let expected: Vec<Offered> = offers.iter().map(|(channel, expiry, packet)| single.endpoint().offer(*channel, packet, *expiry, time)).collect();
    let mut lists = Lists::of(offers);
    match lists.offer(&mut lent.endpoint(), time) {
        Handed::Offered(answers) => {
            assert_eq!(answers.iter().len(), offers.len());
            assert_eq!(answers.iter().collect::<Vec<_>>(), expected);
            assert_eq!(answers.as_bytes(), expected.iter().map(number).collect::<Vec<_>>());
        }
        Handed::Refused(refusal) => panic!("{refusal}"),
    }
    assert!(*lent == single, "words and memory are those of single offers");
    expected
}

fn number(answer: &Offered) -> u8 {
    match answer {
        Offered::Taken => 0,
        Offered::Refused(refusal) => refusal.number() as u8,
    }
}

#[test]
fn an_answer_for_each_in_their_order() {
    let mut short = packet(60, 1);
    short.push(0);
    let offers = [
        (PLAIN, NEVER, packet(60, 1)),
        (NOT_CONFIGURED, NEVER, packet(60, 2)),
        (ROOMY, NEVER, packet(9000, 3)),
        (FLOW, NEVER, short),
        (PLAIN, NEVER, packet(STORE + 1, 4)),
        (FLOW, 20, packet(41, 5)),
        (SECOND_FLOW, 12, packet(40, 6)),
        (PLAIN, NEVER, packet(STORE - 119, 7)),
        (PLAIN, NEVER, packet(STORE - 120, 8)),
        (ROOMY, NEVER, vec![]),
    ];
    let answers = assert_one_by_one(&mut waiting(), &offers, 12);
    assert_eq!(answers.iter().map(number).collect::<Vec<_>>(), [0, 12, 0, 13, 14, 0, 16, 17, 0, 13]);
    let early = assert_one_by_one(&mut waiting(), &offers, 9);
    assert_eq!(early.iter().map(number).collect::<Vec<_>>(), [15, 12, 0, 13, 14, 15, 0, 15, 15, 13]);
}

#[test]
fn what_has_expired_makes_room_once() {
    let mut lent = started(0);
    assert_eq!(lent.endpoint().offer(PLAIN, &packet(2000, 1), 20, 10), Offered::Taken);
    let offers = [(PLAIN, NEVER, packet(1500, 2)), (PLAIN, NEVER, packet(1500, 3)), (PLAIN, NEVER, packet(40, 4))];
    // At 19 the first still waits: 1,000 bytes are free.
    assert_eq!(assert_one_by_one(&mut lent.clone(), &offers, 19).iter().map(number).collect::<Vec<_>>(), [17, 17, 0]);
    assert_eq!(assert_one_by_one(&mut lent, &offers, 20).iter().map(number).collect::<Vec<_>>(), [0, 0, 17]);
}

#[test]
fn none_is_a_handful() {
    let mut lent = waiting();
    assert_eq!(assert_one_by_one(&mut lent, &[], 10), []);
    assert!(lent == waiting(), "nothing changes");
}

/// 64 channels with the largest store.
fn long_stores() -> Lent {
    let mut words = [0; Configuration::words_for(64)];
    let fresh = Configuration::new(&mut words, DATALINK, WAITS).expect("there is room for a head");
    let configuration = (0..64)
        .try_fold(fresh, |configuration, id| configuration.channel(id, Kind::FlowControlled, FlowSequence(0), LONG_STORE))
        .expect("there is room for all channels");
    let mut lent = Lent { words: vec![0; words_for(64)], memory: vec![0; configuration.memory_length()] };
    Endpoint::start(&mut lent.words, &mut lent.memory, &configuration).expect("the configuration is within the limits");
    lent
}

#[test]
fn thirty_two_packets_of_9000_bytes() {
    let mut lent = long_stores();
    // Each on a channel of its own, the last channels first.
    let each: Vec<Offer> = (0..32).map(|at| (63 - at, NEVER, packet(9000, at))).collect();
    assert_eq!(assert_one_by_one(&mut lent, &each, 10), [Offered::Taken; 32]);
    for at in 0..32 {
        assert_eq!(lent.endpoint().waiting(63 - at, 0), Ok(Some(Waiting { length: 9000, expiry: NEVER })));
        assert_eq!(lent.endpoint().store(63 - at).map(|store| store[..9000].to_vec()), Ok(packet(9000, at)));
    }
    // All on one: seven have room.
    let one: Vec<Offer> = (0..32).map(|at| (0, NEVER, packet(9000, at))).collect();
    let answers = assert_one_by_one(&mut lent, &one, 10);
    assert_eq!(answers[..7], [Offered::Taken; 7]);
    assert_eq!(answers[7..], [Offered::Refused(Refusal::StoreFull); 25]);
    // One byte more each.
    let longer: Vec<Offer> = (0..32).map(|at| (at, NEVER, packet(9001, at))).collect();
    assert_eq!(assert_one_by_one(&mut lent, &longer, 10), [Offered::Refused(Refusal::PacketTooLong); 32]);
}

#[test]
fn thirty_two_fill_a_queue() {
    let mut lent = started(0);
    let offers: Vec<Offer> = (0..32).map(|at| (ROOMY, NEVER, packet(40, at))).collect();
    assert_eq!(assert_one_by_one(&mut lent, &offers, 10), [Offered::Taken; 32]);
    assert_eq!(assert_one_by_one(&mut lent, &offers, 10), [Offered::Refused(Refusal::StoreFull); 32]);
}

/// The refusal of a handful that must leave everything as it was.
fn refusal_of(lent: &Lent, mut lists: Lists) -> Refusal {
    let before = lists.answers.clone();
    let mut after = lent.clone();
    let refusal = match lists.offer(&mut after.endpoint(), 10) {
        Handed::Refused(refusal) => refusal,
        Handed::Offered(answers) => panic!("offered: {answers:?}"),
    };
    assert!(after == *lent, "words and memory stay");
    assert_eq!(lists.answers, before, "the answers stay");
    refusal
}

fn assert_no_handful(change: impl FnOnce(&mut Lists)) {
    let mut lists = Lists::many(3);
    change(&mut lists);
    let refusal = refusal_of(&waiting(), lists);
    assert_eq!(refusal, Refusal::NotAHandful);
    assert_eq!((refusal.number(), refusal.place()), (24, 0));
}

#[test]
fn by_24_more_than_32_packets() {
    let mut most = Lists::many(Handful::MOST);
    assert!(matches!(most.offer(&mut waiting().endpoint(), 10), Handed::Offered(_)));
    for count in [33, 80, 1000] {
        assert_no_handful(|lists| *lists = Lists::many(count));
    }
}

#[test]
fn by_24_lists_of_unequal_count() {
    let changes: [fn(&mut Lists); 11] = [
        |lists| lists.channels.push(ROOMY),
        |lists| lists.channels.truncate(2),
        |lists| lists.channels.clear(),
        |lists| lists.expiries.push(NEVER),
        |lists| lists.expiries.truncate(2),
        |lists| lists.expiries.clear(),
        |lists| lists.lengths.push(0),
        |lists| lists.lengths = vec![60, 120],
        |lists| lists.answers.push(FILL),
        |lists| lists.answers.truncate(2),
        |lists| lists.answers.clear(),
    ];
    for change in changes {
        assert_no_handful(change);
    }
    // 32 of one list, 33 of another.
    assert_no_handful(|lists| {
        *lists = Lists::many(32);
        lists.channels.push(ROOMY);
    });
}

#[test]
fn by_24_lengths_whose_sum_is_not_the_buffers() {
    // With the right sum it is a handful, if one of other packets.
    let mut lists = Lists { lengths: vec![60, 120, 0], ..Lists::many(3) };
    assert!(matches!(lists.offer(&mut waiting().endpoint(), 10), Handed::Offered(_)));
    assert_no_handful(|lists| lists.lengths[2] = 59);
    assert_no_handful(|lists| lists.lengths[2] = 61);
    assert_no_handful(|lists| lists.packets.push(0));
    assert_no_handful(|lists| lists.packets.truncate(179));
    assert_no_handful(|lists| lists.packets.clear());
    assert_no_handful(|lists| *lists = Lists { packets: vec![0], ..Lists::default() });
}

#[test]
fn by_24_lengths_whose_sum_is_the_buffers_only_where_it_wraps() {
    let half = 1 << 63;
    assert_no_handful(|lists| lists.lengths = vec![half, half, 180]);
    assert_no_handful(|lists| lists.lengths = vec![180, half, half]);
    assert_no_handful(|lists| lists.lengths = vec![half, 180, half]);
    assert_no_handful(|lists| lists.lengths = vec![u64::MAX, 1, 180]);
    assert_no_handful(|lists| lists.lengths = vec![u64::MAX, 61, 120]);
    assert_no_handful(|lists| lists.lengths = vec![60, u64::MAX, 121]);
    // 32 times 2^59 is 2^64.
    assert_no_handful(|lists| {
        *lists = Lists::many(32);
        lists.packets.clear();
        lists.lengths = vec![1 << 59; 32];
    });
}

#[test]
fn by_19_before_24() {
    let whole: fn() -> Lists = || Lists::many(3);
    let wrong: fn() -> Lists = || Lists { lengths: vec![], ..Lists::many(3) };
    for lists in [whole, wrong, || Lists::many(33)] {
        let changes: [fn(&mut Lent); 4] =
            [|lent| lent.memory.push(0), |lent| lent.memory.truncate(STORE), |lent| lent.words.clear(), |lent| lent.words.fill(u64::MAX)];
        for change in changes {
            let mut lent = waiting();
            change(&mut lent);
            let refusal = refusal_of(&lent, lists());
            assert_eq!(refusal, Refusal::OutsideLimits);
            assert_eq!((refusal.number(), refusal.place()), (19, 0));
        }
    }
}

/// xorshift64: the same in every run.
struct Dice(u64);

impl Dice {
    fn roll(&mut self, below: usize) -> usize {
        self.0 ^= self.0 << 13;
        self.0 ^= self.0 >> 7;
        self.0 ^= self.0 << 17;
        (self.0 % below as u64) as usize
    }

    fn of<T: Clone>(&mut self, choices: &[T]) -> T {
        choices[self.roll(choices.len())].clone()
    }

    fn offer(&mut self, time: u64) -> Offer {
        let length = self.of(&[0, 39, 40, 41, 100, 700, 1500, STORE, STORE + 1, 9000, 9001]);
        let mark = self.roll(256) as u8;
        let mut packet = packet(length, mark);
        if self.roll(10) == 0 && !packet.is_empty() {
            packet[0] = 0x45;
        }
        let expiry = self.of(&[time.saturating_sub(1), time, time + 1, time + 5, NEVER]);
        (self.of(&[PLAIN, PLAIN, FLOW, SECOND_FLOW, ROOMY, ROOMY, ROOMY, NOT_CONFIGURED]), expiry, packet)
    }
}

#[test]
fn a_random_handful_is_single_offers() {
    let mut dice = Dice(88_172_645_463_325_252);
    let mut seen = [0; 256];
    for _ in 0..100 {
        let mut lent = started(4_294_967_000);
        assert_eq!(lent.endpoint().radio(1, &window_report(1000)), Heard::Accepted);
        let mut time = 10;
        for _ in 0..8 {
            // Mostly later, now and then earlier.
            time = if dice.roll(6) == 0 { time - 1 } else { time + dice.roll(4) as u64 };
            let offers: Vec<Offer> = (0..dice.roll(33)).map(|_| dice.offer(time)).collect();
            for answer in assert_one_by_one(&mut lent, &offers, time) {
                seen[usize::from(number(&answer))] += 1;
            }
            if dice.roll(3) == 0 {
                let channel = dice.of(&[PLAIN, FLOW, ROOMY]);
                let _ = lent.endpoint().next(channel, time, &mut [0; 9100]);
            }
        }
    }
    let often = (0..256).filter(|&number| seen[number] >= 50).collect::<Vec<_>>();
    assert_eq!(often, [0, 12, 13, 14, 15, 16, 17], "each answer of an offer was met: {seen:?}");
}

#[test]
fn answers_can_be_kept() {
    let mut lists = Lists::of(&[(PLAIN, NEVER, packet(40, 1)), (NOT_CONFIGURED, NEVER, packet(40, 2))]);
    let mut lent = started(0);
    let answers: Answers<'_> = match lists.offer(&mut lent.endpoint(), 1) {
        Handed::Offered(answers) => answers,
        Handed::Refused(refusal) => panic!("{refusal}"),
    };
    drop(lent);
    assert_eq!(answers.as_bytes(), [0, 12]);
}
