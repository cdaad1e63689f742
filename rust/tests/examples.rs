//! The examples of document 01 that go by calls.
mod common;
use common::*;
use nespovarda::{Flow, FlowSequence, FlowWindow, Heard, Next, Offered, Refusal, Withdrawn};

/// What becomes of a packet of so many bytes: the sequence that it leaves, or none where the window is shut.
fn sequence_after(sequence: u32, window: u32, length: usize) -> Option<u32> {
    let mut lent = started(sequence);
    let mut endpoint = lent.endpoint();
    assert_eq!(endpoint.radio(1, &window_report(window)), Heard::Accepted);
    assert_eq!(endpoint.offer(FLOW, &packet(length, 1), NEVER, 1), Offered::Taken);
    let sent = match endpoint.next(FLOW, 1, &mut [0; 2000]) {
        Next::Sent(message) => {
            assert!(message.ends_with(&packet(length, 1)));
            true
        }
        Next::WindowShut => false,
        other => panic!("{other:?}"),
    };
    let after = endpoint.show(FLOW).expect("the channel is configured").sequence;
    assert!(sent || after == FlowSequence(sequence));
    sent.then_some(after.0)
}

#[test]
fn a_packet_fits_that_is_no_longer_than_the_distance() {
    // Sequence, window, the packet's length, the sequence that is left.
    let rows = [
        (4294967000, 500, 796, Some(500)),
        (4294967000, 500, 797, None),
        (100, 100, 40, None),
        (100, 99, 40, None),
        (100, 2147483748, 40, None),
        (100, 2147483747, 1500, Some(1600)),
        (100, 140, 40, Some(140)),
        (100, 139, 40, None),
    ];
    for (sequence, window, length, after) in rows {
        assert_eq!(sequence_after(sequence, window, length), after, "{sequence} {window} {length}");
    }
}

/// The accepted control message of Datalink ID 7, channel 0's status 7 and these options.
fn heard(options: &[u8]) -> (Heard, Lent) {
    let mut lent = started(100);
    let message = [&[0x10, 1, 0, 1, 7][..], &[5, 0, 2, 0, 7], options].concat();
    let answer = lent.endpoint().radio(1, &message);
    (answer, lent)
}

#[test]
fn the_status_is_the_lower_four_bits() {
    let mut lent = started(0);
    assert_eq!(lent.endpoint().radio(1, &[0x10, 1, 0, 1, 7, 5, 0, 2, 0, 0xf7]), Heard::Accepted);
    assert_eq!(lent.endpoint().show(PLAIN).map(|shown| shown.status), Ok(Some(7)));
}

#[test]
fn status_8_is_unknown_and_not_operational() {
    let (answer, mut lent) = heard(&[5, 0, 2, 3, 8]);
    assert_eq!(answer, Heard::Accepted);
    let mut endpoint = lent.endpoint();
    assert_eq!(endpoint.show(FLOW).map(|shown| shown.status), Ok(Some(8)));
    assert_eq!(endpoint.offer(FLOW, &packet(40, 1), NEVER, 1), Offered::Taken);
    assert_eq!(endpoint.next(FLOW, 1, &mut [0; 100]), Next::NotOperational);
}

#[test]
fn a_flow_window_without_the_field_is_no_window_and_not_window_0() {
    let rows = [(&[6, 0, 1, 2][..], Flow::NoWindow), (&[6, 0, 5, 2, 0, 0, 0, 0], Flow::InForce(FlowWindow(0))), (&[], Flow::Free)];
    for (options, flow) in rows {
        let (answer, mut lent) = heard(options);
        assert_eq!(answer, Heard::Accepted);
        assert_eq!(lent.endpoint().show(SECOND_FLOW).map(|shown| shown.flow), Ok(flow));
    }
}

#[test]
fn a_flow_window_of_channel_255_is_refused_by_5_at_its_first_byte() {
    let (answer, lent) = heard(&[6, 0, 1, 0xff]);
    assert_eq!(answer, Heard::Refused(Refusal::OptionValue { place: 10 }));
    assert_eq!(lent, started(100));
}

#[test]
fn packets_of_40_to_9000_bytes_are_taken() {
    let rows = [(39, Offered::Refused(Refusal::NotIpv6)), (40, Offered::Taken), (9000, Offered::Taken), (9001, Offered::Refused(Refusal::PacketTooLong))];
    for (length, answer) in rows {
        assert_eq!(started(0).endpoint().offer(ROOMY, &packet(length, 1), NEVER, 1), answer, "{length}");
    }
}

#[test]
fn a_packet_may_be_as_long_as_the_store_and_no_longer() {
    let rows = [(STORE, Offered::Taken), (STORE + 1, Offered::Refused(Refusal::PacketTooLong)), (9000, Offered::Refused(Refusal::PacketTooLong))];
    for (length, answer) in rows {
        assert_eq!(started(0).endpoint().offer(PLAIN, &packet(length, 1), NEVER, 1), answer, "{length}");
    }
}

#[test]
fn the_33rd_packet_is_refused() {
    let mut lent = started(0);
    let mut endpoint = lent.endpoint();
    for mark in 0..32 {
        assert_eq!(endpoint.offer(ROOMY, &packet(40, mark), NEVER, 1), Offered::Taken);
    }
    assert_eq!(endpoint.offer(ROOMY, &packet(40, 32), NEVER, 1), Offered::Refused(Refusal::StoreFull));
}

#[test]
fn an_expiry_equal_to_the_time_is_refused_and_later_expires() {
    let mut lent = started(0);
    let mut endpoint = lent.endpoint();
    assert_eq!(endpoint.offer(PLAIN, &packet(40, 1), 5, 5), Offered::Refused(Refusal::ExpiryNotAfterTime));
    assert_eq!(endpoint.offer(PLAIN, &packet(40, 1), 6, 5), Offered::Taken);
    assert_eq!(endpoint.radio(1, &window_report(0)), Heard::Accepted);
    assert_eq!(endpoint.next(PLAIN, 6, &mut [0; 100]), Next::NothingWaiting);
}

#[test]
fn the_sequence_wraps_in_the_message_and_in_the_state() {
    let mut lent = started(4294967230);
    let mut endpoint = lent.endpoint();
    assert_eq!(endpoint.radio(1, &window_report(44)), Heard::Accepted);
    // The sequence with the packet counted in, as each message carries it, until the distance is 30.
    for (mark, sequence) in [(1, 4294967270), (2, 14_u32)] {
        assert_eq!(endpoint.offer(FLOW, &packet(40, mark), NEVER, 1), Offered::Taken);
        let mut out = [0xee; 70];
        let message = match endpoint.next(FLOW, 1, &mut out) {
            Next::Sent(message) => message,
            other => panic!("{other:?}"),
        };
        let head = [&[0x18, 1, 0, 1, 7, 0x86, 0, 5, 3][..], &sequence.to_be_bytes(), &[0x81, 0, 1, 3, 0x80, 0, 40]].concat();
        assert_eq!(message, [head, packet(40, mark)].concat());
        assert_eq!(out[60..], [0xee; 10], "bytes behind the message stay");
        assert_eq!(endpoint.show(FLOW).map(|shown| shown.sequence), Ok(FlowSequence(sequence)));
    }
    assert_eq!(endpoint.offer(FLOW, &packet(40, 3), NEVER, 1), Offered::Taken);
    assert_eq!(endpoint.next(FLOW, 1, &mut [0; 70]), Next::WindowShut);
    assert_eq!(endpoint.withdraw(FLOW), Withdrawn::Withdrawn);
    assert_eq!(endpoint.next(FLOW, 1, &mut [0; 70]), Next::NothingWaiting);
}
