//! A state through its calls, and saved and restored between them.
mod common;
use common::*;
use nespovarda::{control, words_for, Configuration, Context, DatalinkId, Endpoint, Flow, FlowSequence, FlowWindow};
use nespovarda::{Heard, Kept, LinkInstance, Next, NoRoom, Offered, Refusal, StatusCodes, Waiting, Withdrawn, Written};

#[test]
fn a_fresh_start_is_not_reported_and_its_stores_are_zeros() {
    let mut lent = started(100);
    let endpoint = lent.endpoint();
    let plain = endpoint.show(PLAIN).expect("the channel is configured");
    assert_eq!((plain.status, plain.flow, plain.sequence), (None, Flow::Free, FlowSequence(0)));
    assert_eq!((plain.latest, plain.waiting, plain.store_start, plain.store_length), (0, 0, 0, STORE));
    let flow = endpoint.show(FLOW).expect("the channel is configured");
    assert_eq!((flow.status, flow.flow, flow.sequence), (None, Flow::NoWindow, FlowSequence(100)));
    assert_eq!((flow.store_start, flow.store_length), (STORE, STORE));
    assert_eq!(endpoint.show(ROOMY).map(|shown| (shown.store_start, shown.store_length)), Ok((3 * STORE, LONG_STORE)));
    assert_eq!(endpoint.store(FLOW), Ok(&[0; STORE][..]));
    assert_eq!(endpoint.kept(), Ok(Kept { link: None, context: None }));
    assert!(endpoint.memory().iter().all(|&byte| byte == 0));
}

#[test]
fn packets_wait_end_to_end_and_go_in_the_order_they_came() {
    let mut lent = started(100);
    let mut endpoint = lent.endpoint();
    assert_eq!(endpoint.radio(1, &window_report(1000)), Heard::Accepted);
    for (length, expiry) in [(50, 20), (60, 90), (70, 80)] {
        assert_eq!(endpoint.offer(PLAIN, &packet(length, length as u8), expiry, 10), Offered::Taken);
    }
    assert_eq!(endpoint.waiting(PLAIN, 1), Ok(Some(Waiting { length: 60, expiry: 90 })));
    assert_eq!(endpoint.waiting(PLAIN, 3), Ok(None));
    let store = [packet(50, 50), packet(60, 60), packet(70, 70), vec![0; STORE - 180]].concat();
    assert_eq!(endpoint.store(PLAIN), Ok(&store[..]));
    // At 20 the first has expired.
    let mut out = [0; 100];
    let message = [vec![0x18, 1, 0, 1, 7, 0x81, 0, 1, 0, 0x80, 0, 60], packet(60, 60)].concat();
    assert_eq!(endpoint.next(PLAIN, 20, &mut out), Next::Sent(&message));
    assert_eq!(endpoint.waiting(PLAIN, 0), Ok(Some(Waiting { length: 70, expiry: 80 })));
    let store = [packet(70, 70), vec![0; STORE - 70]].concat();
    assert_eq!(endpoint.store(PLAIN), Ok(&store[..]));
    assert_eq!(endpoint.withdraw(PLAIN), Withdrawn::Withdrawn);
    assert_eq!(endpoint.store(PLAIN), Ok(&[0; STORE][..]));
    assert_eq!(endpoint.next(PLAIN, 20, &mut out), Next::NothingWaiting);
}

#[test]
fn a_status_of_8_to_15_is_operational_as_configured() {
    for codes in [0, 1, 2, 5, 128, 255] {
        for status in 0..16 {
            let mut words = [0; CONFIGURATION_WORDS];
            let configuration = configuration(&mut words, 0).operational(StatusCodes(codes));
            let mut lent = Lent { words: vec![0; words_for(4)], memory: vec![0; configuration.memory_length()] };
            let mut endpoint = Endpoint::start(&mut lent.words, &mut lent.memory, &configuration).expect("the configuration is within the limits");
            assert_eq!(endpoint.offer(PLAIN, &packet(40, 1), NEVER, 1), Offered::Taken);
            assert_eq!(endpoint.next(PLAIN, 1, &mut [0; 60]), Next::NotOperational, "not reported");
            assert_eq!(endpoint.radio(1, &report(&[(PLAIN, status)], &[])), Heard::Accepted);
            let sends = (1..8).contains(&status) || status > 7 && codes & 1 << (status - 8) != 0;
            assert_eq!(matches!(endpoint.next(PLAIN, 1, &mut [0; 60]), Next::Sent(_)), sends, "status {status} under {codes}");
        }
    }
}

#[test]
fn a_window_that_is_withdrawn_or_absent_is_not_in_force() {
    let statuses = [(PLAIN, 7), (FLOW, 7)];
    let rows = [
        (report(&statuses, &[(FLOW, control::Window::Given(FlowWindow(1000)))]), Flow::InForce(FlowWindow(1000))),
        (report(&statuses, &[(FLOW, control::Window::NoWindow)]), Flow::NoWindow),
        (report(&statuses, &[(FLOW, control::Window::Given(FlowWindow(900)))]), Flow::InForce(FlowWindow(900))),
        (report(&statuses, &[]), Flow::Free),
    ];
    let mut lent = started(100);
    for (message, flow) in rows {
        assert_eq!(lent.endpoint().radio(1, &message), Heard::Accepted);
        assert_eq!(lent.endpoint().show(FLOW).map(|shown| shown.flow), Ok(flow));
        assert_eq!(lent.endpoint().show(ROOMY).map(|shown| shown.status), Ok(None), "a channel that isn't named is not reported");
    }
}

#[test]
fn a_context_that_differs_makes_a_mobility_message_due() {
    let mut lent = started(0);
    let mut endpoint = lent.endpoint();
    let rows: [(&[u8], Heard); 4] = [
        (&[4, 0, 2, 0x45, 0x55], Heard::Due),
        (&[4, 0, 2, 0x45, 0x55], Heard::Accepted),
        (&[4, 0, 3, 0, 0x45, 0x55], Heard::Due),
        (&[3, 0, 2, 1, 2, 4, 0, 3, 0, 0x45, 0x55], Heard::Accepted),
    ];
    for (options, answer) in rows {
        let message = [&[0x10, 1, 0, 1, 7, 5, 0, 2, 0, 7][..], options].concat();
        assert_eq!(endpoint.radio(1, &message), answer);
    }
    assert_eq!(endpoint.kept(), Ok(Kept { link: Some(LinkInstance { length: 2, id: 258 }), context: Context::new(&[0, 0x45, 0x55]) }));
}

#[test]
fn a_context_after_a_message_without_one_makes_a_mobility_message_due() {
    let mut lent = started(0);
    let mut endpoint = lent.endpoint();
    let rows: [(&[u8], Heard, Option<Context>); 4] = [
        (&[4, 0, 2, 0x45, 0x55], Heard::Due, Context::new(b"EU")),
        (&[], Heard::Accepted, None),
        (&[4, 0, 2, 0x45, 0x55], Heard::Due, Context::new(b"EU")),
        (&[4, 0, 2, 0x45, 0x55], Heard::Accepted, Context::new(b"EU")),
    ];
    for (options, answer, context) in rows {
        let message = [&[0x10, 1, 0, 1, 7, 5, 0, 2, 0, 7][..], options].concat();
        assert_eq!(endpoint.radio(1, &message), answer);
        assert_eq!(endpoint.kept(), Ok(Kept { link: None, context }));
    }
}

#[test]
fn the_query_states_each_flow_controlled_sequence_by_rising_channel() {
    let mut lent = started(0x01020304);
    let before = lent.clone();
    let mut out = [0xee; 30];
    let message = [0x10, 1, 0, 1, 7, 0x86, 0, 5, 2, 1, 2, 3, 4, 0x86, 0, 5, 3, 1, 2, 3, 4];
    assert_eq!(lent.endpoint().query(&mut out), Written::Wrote(&message));
    assert_eq!(out[message.len()..], [0xee; 9]);
    assert_eq!(lent, before);
}

#[test]
fn a_saved_state_resumes() {
    let mut lent = started(0);
    assert_eq!(lent.endpoint().offer(PLAIN, &packet(40, 1), NEVER, 5), Offered::Taken);
    let mut saved = {
        let (words, memory) = lent.endpoint().release();
        Lent { words: words.to_vec(), memory: memory.to_vec() }
    };
    for state in [&mut lent, &mut saved] {
        let mut endpoint = state.endpoint();
        assert_eq!(endpoint.radio(1, &window_report(0)), Heard::Accepted);
        let mut out = [0; 52];
        let message = [vec![0x18, 1, 0, 1, 7, 0x81, 0, 1, 0, 0x80, 0, 40], packet(40, 1)].concat();
        assert_eq!(endpoint.next(PLAIN, 5, &mut out), Next::Sent(&message));
    }
    assert_eq!(lent, saved);
}

#[test]
fn a_configuration_needs_its_words() {
    let mut words = [9; CONFIGURATION_WORDS];
    assert_eq!(Configuration::new(&mut words[..4], DatalinkId(7), WAITS).err(), Some(NoRoom));
    let full = configuration(&mut words, 0);
    assert_eq!((full.channels(), full.memory_length()), (4, 3 * STORE + LONG_STORE));
    assert_eq!(full.channel(4, nespovarda::Kind::Plain, FlowSequence(0), STORE).err(), Some(NoRoom));
}

#[test]
fn words_of_another_count_are_refused_at_the_start() {
    let mut words = [0; CONFIGURATION_WORDS];
    let configuration = configuration(&mut words, 0);
    let mut memory = vec![0; configuration.memory_length()];
    let mut short = vec![0; words_for(4) - 1];
    assert_eq!(Endpoint::start(&mut short, &mut memory, &configuration).err(), Some(Refusal::OutsideLimits));
}
