//! Each refusal of a call on a state: its number, and that words, memory and output stay as they were.
mod common;
use common::*;
use nespovarda::{words_for, Configuration, Endpoint, FlowSequence, Heard, Kind, Next, Offered, Paced, Refusal, Waits, Withdrawn, Written};

const FILL: u8 = 0xee;

/// A state with a packet waiting on channels 0 and 3, offered at time 10, and both operational; the pacer's clock stands at 10.
fn waiting() -> Lent {
    let mut lent = started(100);
    let mut endpoint = lent.endpoint();
    assert_eq!(endpoint.radio(10, &window_report(1000)), Heard::Accepted);
    for channel in [PLAIN, FLOW] {
        assert_eq!(endpoint.offer(channel, &packet(60, channel), NEVER, 10), Offered::Taken);
    }
    lent
}

/// The refusal of a call that must leave everything as it was.
fn refusal_of(lent: &Lent, call: impl FnOnce(&mut Endpoint<'_>, &mut [u8]) -> Option<Refusal>) -> Refusal {
    let mut after = lent.clone();
    let mut out = [FILL; 60];
    let refusal = call(&mut after.endpoint(), &mut out).expect("the call is refused");
    assert_eq!(&after, lent, "words and memory stay");
    assert_eq!(out, [FILL; 60], "the output stays");
    refusal
}

fn offered(answer: Offered) -> Option<Refusal> {
    match answer {
        Offered::Refused(refusal) => Some(refusal),
        _ => None,
    }
}

fn asked(answer: Next<'_>) -> Option<Refusal> {
    match answer {
        Next::Refused(refusal) => Some(refusal),
        _ => None,
    }
}

fn withdrawn(answer: Withdrawn) -> Option<Refusal> {
    match answer {
        Withdrawn::Refused(refusal) => Some(refusal),
        _ => None,
    }
}

fn heard(answer: Heard) -> Option<Refusal> {
    match answer {
        Heard::Refused(refusal) => Some(refusal),
        _ => None,
    }
}

fn paced(answer: Paced) -> Option<Refusal> {
    match answer {
        Paced::Refused(refusal) => Some(refusal),
        _ => None,
    }
}

fn queried(answer: Written<'_>) -> Option<Refusal> {
    match answer {
        Written::Refused(refusal) => Some(refusal),
        _ => None,
    }
}

fn assert_refused(refusal: Refusal, expected: Refusal, number: u64) {
    assert_eq!(refusal, expected);
    assert_eq!((refusal.number(), refusal.place()), (number, 0));
}

#[test]
fn by_12_a_channel_that_is_not_configured() {
    let lent = waiting();
    let refusals = [
        refusal_of(&lent, |endpoint, _| offered(endpoint.offer(NOT_CONFIGURED, &packet(60, 1), NEVER, 10))),
        refusal_of(&lent, |endpoint, out| asked(endpoint.next(NOT_CONFIGURED, 10, out))),
        refusal_of(&lent, |endpoint, _| withdrawn(endpoint.withdraw(255))),
        refusal_of(&lent, |endpoint, _| endpoint.show(NOT_CONFIGURED).err()),
        refusal_of(&lent, |endpoint, _| endpoint.waiting(NOT_CONFIGURED, 0).err()),
        refusal_of(&lent, |endpoint, _| endpoint.store(NOT_CONFIGURED).err()),
    ];
    for refusal in refusals {
        assert_refused(refusal, Refusal::ChannelNotConfigured, 12);
    }
}

#[test]
fn by_13_a_packet_that_is_not_ipv6() {
    let mut version_4 = packet(60, 1);
    version_4[0] = 0x45;
    let mut longer = packet(60, 1);
    longer.push(0);
    for packet in [vec![], packet(39, 1), version_4, longer] {
        let refusal = refusal_of(&waiting(), |endpoint, _| offered(endpoint.offer(PLAIN, &packet, NEVER, 10)));
        assert_refused(refusal, Refusal::NotIpv6, 13);
    }
}

#[test]
fn by_14_a_packet_over_9000_bytes_or_over_its_store() {
    for (channel, length) in [(ROOMY, 9001), (PLAIN, STORE + 1), (PLAIN, 9000)] {
        let refusal = refusal_of(&waiting(), |endpoint, _| offered(endpoint.offer(channel, &packet(length, 1), NEVER, 10)));
        assert_refused(refusal, Refusal::PacketTooLong, 14);
    }
}

#[test]
fn by_15_a_time_before_the_channels_latest() {
    let lent = waiting();
    let refusals = [
        refusal_of(&lent, |endpoint, _| offered(endpoint.offer(PLAIN, &packet(60, 1), NEVER, 9))),
        refusal_of(&lent, |endpoint, out| asked(endpoint.next(FLOW, 9, out))),
    ];
    for refusal in refusals {
        assert_refused(refusal, Refusal::TimeBeforeLatest, 15);
    }
    assert_eq!(lent.clone().endpoint().offer(SECOND_FLOW, &packet(60, 1), NEVER, 9), Offered::Taken, "another channel has its own latest");
}

#[test]
fn by_16_an_expiry_that_is_not_after_the_time() {
    let refusal = refusal_of(&waiting(), |endpoint, _| offered(endpoint.offer(PLAIN, &packet(60, 1), 10, 10)));
    assert_refused(refusal, Refusal::ExpiryNotAfterTime, 16);
}

#[test]
fn by_17_a_packet_that_the_store_has_no_room_for() {
    let mut lent = waiting();
    assert_eq!(lent.endpoint().offer(PLAIN, &packet(1500, 1), NEVER, 10), Offered::Taken);
    let rest = STORE - 60 - 1500;
    let refusal = refusal_of(&lent, |endpoint, _| offered(endpoint.offer(PLAIN, &packet(rest + 1, 1), NEVER, 10)));
    assert_refused(refusal, Refusal::StoreFull, 17);
    assert_eq!(lent.endpoint().offer(PLAIN, &packet(rest, 1), NEVER, 10), Offered::Taken);
}

#[test]
fn by_18_an_output_that_is_too_short() {
    let lent = waiting();
    let refusals =
        [refusal_of(&lent, |endpoint, out| asked(endpoint.next(PLAIN, 10, out))), refusal_of(&lent, |endpoint, out| queried(endpoint.query(&mut out[..20])))];
    for refusal in refusals {
        assert_refused(refusal, Refusal::OutputTooShort, 18);
    }
}

/// Each call's refusal of words or of a memory that is outside the limits.
fn assert_outside_limits(lent: &Lent) {
    let refusals = [
        refusal_of(lent, |endpoint, _| offered(endpoint.offer(PLAIN, &packet(60, 1), NEVER, 10))),
        refusal_of(lent, |endpoint, out| asked(endpoint.next(PLAIN, 10, out))),
        refusal_of(lent, |endpoint, _| withdrawn(endpoint.withdraw(PLAIN))),
    ];
    for refusal in refusals {
        assert_refused(refusal, Refusal::OutsideLimits, 19);
    }
}

#[test]
fn by_19_a_memory_that_is_not_the_sum_of_the_stores() {
    for change in [|memory: &mut Vec<u8>| memory.push(0), |memory: &mut Vec<u8>| memory.truncate(STORE)] {
        let mut lent = waiting();
        change(&mut lent.memory);
        assert_outside_limits(&lent);
    }
    let mut lent = waiting();
    lent.memory.truncate(STORE);
    assert_eq!(lent.endpoint().store(PLAIN).map(<[u8]>::len), Ok(STORE));
    assert_eq!(lent.endpoint().store(FLOW), Err(Refusal::OutsideLimits));
}

#[test]
fn by_19_words_that_are_outside_the_limits() {
    let changes: [fn(&mut Vec<u64>); 4] =
        [|words| words.truncate(words_for(4) - 1), |words| words.clear(), |words| words.fill(0), |words| words.fill(u64::MAX)];
    for change in changes {
        let mut lent = waiting();
        change(&mut lent.words);
        assert_outside_limits(&lent);
        let refusals = [
            refusal_of(&lent, |endpoint, _| heard(endpoint.radio(0, &window_report(0)))),
            refusal_of(&lent, |endpoint, _| paced(endpoint.pace(0))),
            refusal_of(&lent, |endpoint, _| endpoint.pacer().err()),
            refusal_of(&lent, |endpoint, out| queried(endpoint.query(out))),
            refusal_of(&lent, |endpoint, _| endpoint.show(PLAIN).err()),
            refusal_of(&lent, |endpoint, _| endpoint.waiting(PLAIN, 0).err()),
            refusal_of(&lent, |endpoint, _| endpoint.kept().err()),
        ];
        for refusal in refusals {
            assert_refused(refusal, Refusal::OutsideLimits, 19);
        }
    }
}

/// A start's refusal, with words and a memory as long as the configuration asks for, where it has so many channels.
fn start_refusal(waits: Waits, channels: &[(u8, usize)], more_memory: usize) -> Option<Refusal> {
    let mut words = vec![0; Configuration::words_for(channels.len())];
    let fresh = Configuration::new(&mut words, DATALINK, waits).expect("there is room for a head");
    let configuration = channels
        .iter()
        .try_fold(fresh, |configuration, &(id, store)| configuration.channel(id, Kind::Plain, FlowSequence(0), store))
        .expect("there is room for all channels");
    let before = Lent { words: vec![5; words_for(channels.len())], memory: vec![FILL; configuration.memory_length() + more_memory] };
    let mut lent = before.clone();
    let refusal = Endpoint::start(&mut lent.words, &mut lent.memory, &configuration).err();
    assert_eq!(refusal.is_some(), lent == before, "a refused start leaves words and memory");
    refusal
}

#[test]
fn by_19_a_configuration_that_is_outside_the_limits() {
    let many: Vec<(u8, usize)> = (0..65).map(|id| (id, 1500)).collect();
    assert_eq!(words_for(0), 0);
    assert_eq!(words_for(65), 0);
    assert_eq!(start_refusal(WAITS, &many[..64], 0), None);
    let rows: [(&[(u8, usize)], usize); 9] = [
        (&[], 0),
        (&many, 0),
        (&[(0, 1500), (255, 1500)], 0),
        (&[(0, 1500), (0, 1500)], 0),
        (&[(1, 1500)], 0),
        (&[(0, 1499)], 0),
        (&[(0, 65_537)], 0),
        (&[(0, 1500)], 1),
        (&[(0, 1500), (3, 0)], 0),
    ];
    for (channels, more_memory) in rows {
        for waits in [WAITS, Waits { hello: 0, limit: 0 }] {
            let refusal = start_refusal(waits, channels, more_memory).expect("the start is refused");
            assert_refused(refusal, Refusal::OutsideLimits, 19);
        }
    }
}

#[test]
fn by_21_a_time_before_the_pacers_clock() {
    let lent = waiting();
    let refusals = [
        refusal_of(&lent, |endpoint, _| heard(endpoint.radio(9, &window_report(0)))),
        refusal_of(&lent, |endpoint, _| heard(endpoint.radio(9, &[]))),
        refusal_of(&lent, |endpoint, _| paced(endpoint.pace(9))),
    ];
    for refusal in refusals {
        assert_refused(refusal, Refusal::PacerTimeBeforeLatest, 21);
    }
    assert_eq!(lent.clone().endpoint().pace(10), Paced::Quiet, "the same time once more");
    assert_eq!(lent.clone().endpoint().offer(SECOND_FLOW, &packet(60, 1), NEVER, 9), Offered::Taken, "a channel's clock is its own");
}

#[test]
fn by_22_a_wait_of_0() {
    let channels = [(0, 1500)];
    for waits in [Waits { hello: 0, limit: 900 }, Waits { hello: 500, limit: 0 }, Waits { hello: 0, limit: 0 }] {
        assert_refused(start_refusal(waits, &channels, 0).expect("the start is refused"), Refusal::WaitOfZero, 22);
    }
    for waits in [Waits { hello: 1, limit: 1 }, Waits { hello: u64::MAX, limit: u64::MAX }] {
        assert_eq!(start_refusal(waits, &channels, 0), None);
    }
}
