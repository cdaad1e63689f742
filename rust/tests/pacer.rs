//! The pacer: when a query is due, when the radio is silent, and what a silence leaves.
mod common;
use common::*;
use nespovarda::{Endpoint, Flow, FlowWindow, Heard, Next, Offered, Paced, Pacer, Refusal};

/// A radio data message, which carries no report.
const DATA: [u8; 9] = [0x18, 1, 0, 1, 7, 0x80, 0, 1, 0];

fn times(endpoint: &Endpoint<'_>) -> (u64, u64, u64) {
    let Pacer { waits, clock, due, heard } = endpoint.pacer().expect("the state is within the limits");
    assert_eq!(waits, WAITS);
    (clock, due, heard)
}

#[test]
fn both_waits_first_run_from_0() {
    let rows =
        [(0, Paced::Quiet), (499, Paced::Quiet), (500, Paced::QueryDue), (899, Paced::QueryDue), (900, Paced::QueryDueSilent), (NEVER, Paced::QueryDueSilent)];
    for (time, answer) in rows {
        assert_eq!(started(0).endpoint().pace(time), answer, "{time}");
    }
}

#[test]
fn a_query_is_due_hello_time_after_the_ask_that_was_answered_due() {
    let mut lent = started(0);
    let mut endpoint = lent.endpoint();
    assert_eq!(times(&endpoint), (0, 0, 0));
    // The wait runs from 520, when it was answered due, and not from 500.
    for (time, answer) in [(520, Paced::QueryDue), (521, Paced::Quiet), (1019, Paced::Silent), (1020, Paced::QueryDueSilent), (1020, Paced::Silent)] {
        assert_eq!(endpoint.pace(time), answer, "{time}");
    }
    assert_eq!(times(&endpoint), (1020, 1020, 0));
}

#[test]
fn a_control_message_restarts_the_silence_and_a_data_message_does_not() {
    let mut lent = started(0);
    let mut endpoint = lent.endpoint();
    assert_eq!(endpoint.radio(100, &window_report(0)), Heard::Accepted);
    assert_eq!(times(&endpoint), (100, 0, 100));
    assert_eq!(endpoint.radio(499, &DATA), Heard::Accepted);
    assert_eq!(times(&endpoint), (499, 0, 100));
    for (time, answer) in [(499, Paced::Quiet), (999, Paced::QueryDue), (1000, Paced::Silent)] {
        assert_eq!(endpoint.pace(time), answer, "{time}");
    }
    // Handing in tests no silence.
    assert_eq!(endpoint.radio(5000, &window_report(0)), Heard::Accepted);
    assert_eq!(times(&endpoint), (5000, 999, 5000));
}

#[test]
fn in_a_silence_no_channel_is_reported_and_no_flow_controlled_one_has_a_window() {
    let mut lent = started(100);
    let mut endpoint = lent.endpoint();
    assert_eq!(endpoint.radio(0, &window_report(1000)), Heard::Accepted);
    for channel in [PLAIN, FLOW, SECOND_FLOW] {
        assert_eq!(endpoint.offer(channel, &packet(60, channel), NEVER, 10), Offered::Taken);
    }
    let before = [PLAIN, FLOW, SECOND_FLOW, ROOMY].map(|channel| endpoint.show(channel).expect("the channel is configured"));
    assert_eq!(before.map(|shown| shown.flow), [Flow::Free, Flow::InForce(FlowWindow(1000)), Flow::Free, Flow::Free]);
    let memory = endpoint.memory().to_vec();
    // Asked again in the same silence it is silent again, and nothing else changes.
    for answer in [Paced::QueryDueSilent, Paced::Silent] {
        assert_eq!(endpoint.pace(900), answer);
        let flows = [Flow::Free, Flow::NoWindow, Flow::NoWindow, Flow::Free];
        for (channel, (shown, flow)) in [PLAIN, FLOW, SECOND_FLOW, ROOMY].into_iter().zip(before.into_iter().zip(flows)) {
            assert_eq!(endpoint.show(channel), Ok(nespovarda::Channel { status: None, flow, ..shown }), "{channel}");
        }
        assert_eq!(endpoint.memory(), memory);
    }
    assert_eq!(endpoint.next(PLAIN, 910, &mut [0; 100]), Next::NotOperational);
    assert_eq!(endpoint.radio(920, &window_report(1000)), Heard::Accepted);
    assert!(matches!(endpoint.next(PLAIN, 920, &mut [0; 100]), Next::Sent(_)));
}

#[test]
fn a_refused_message_and_a_query_leave_the_pacer() {
    let mut lent = started(0);
    let mut endpoint = lent.endpoint();
    assert_eq!(endpoint.pace(300), Paced::Quiet);
    assert_eq!(endpoint.radio(400, &[0x90]), Heard::Refused(Refusal::Header));
    assert!(matches!(endpoint.query(&mut [0; 100]), nespovarda::Written::Wrote(_)));
    assert_eq!(times(&endpoint), (300, 0, 0));
}
