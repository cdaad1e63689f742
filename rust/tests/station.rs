//! The radio's end through its calls: the highest sequence, the windows, what it tells, and each refusal.
mod common;
use common::{packet, DATALINK, FLOW, NEVER, NOT_CONFIGURED, PLAIN, SECOND_FLOW};
use nespovarda::station::{words_for, Allowances, Channel, Configuration, Heard, Linked, Station, Told};
use nespovarda::{control, data, Context, DatalinkId, End, FlowSequence, FlowWindow, Kind, LinkInstance, NoRoom, Offered, Refusal, Written};

const FILL: u8 = 0xee;
const LARGEST: u64 = 2147483647;
const ALLOWANCES: Allowances = Allowances { watermark: 1000, throughput: 500 };
/// A message of three channels, of which two have a window with the field.
const LONGEST: usize = 5 + 3 * 5 + 2 * 8;

fn configured(words: &mut [u64], allowances: Allowances) -> Configuration<'_> {
    Configuration::new(words, DATALINK)
        .and_then(|configuration| configuration.channel(PLAIN, Kind::Plain, allowances))
        .and_then(|configuration| configuration.channel(FLOW, Kind::FlowControlled, allowances))
        .and_then(|configuration| configuration.channel(SECOND_FLOW, Kind::FlowControlled, allowances))
        .expect("there is room for three channels")
}

/// The words of a fresh start: channel 0 plain, 3 and 2 flow-controlled.
fn started_with(allowances: Allowances) -> Vec<u64> {
    let mut configuration = [0; Configuration::words_for(3)];
    let mut words = vec![u64::MAX; words_for(3)];
    Station::start(&mut words, &configured(&mut configuration, allowances)).expect("the configuration is within the limits");
    words
}

fn started() -> Vec<u64> {
    started_with(ALLOWANCES)
}

/// An IPS control message with these sequences.
fn query(sequences: &[(u8, u32)]) -> Vec<u8> {
    let mut words = [0; control::WORDS];
    let mut meaning = control::Meaning::new(&mut words, DATALINK);
    for &(channel, sequence) in sequences {
        meaning.set_sequence(channel, Some(FlowSequence(sequence))).expect("a Channel ID");
    }
    written(control::write(End::Ips, &meaning, &mut [0; 500]))
}

/// An IPS data message with a packet of so many bytes.
fn carried(channel: Option<u8>, sequence: Option<u32>, length: usize) -> Vec<u8> {
    let counted = sequence.zip(channel).map(|(sequence, channel)| data::Counted { channel, sequence: FlowSequence(sequence) });
    let meaning = data::Meaning { datalink: DATALINK, counted, channel, expiration: None, packet: &packet(length, 1) };
    written(data::write(End::Ips, &meaning, &mut [0; 2000]))
}

fn written(answer: Written<'_>) -> Vec<u8> {
    match answer {
        Written::Wrote(message) => message.to_vec(),
        Written::Refused(refusal) => panic!("{refusal}"),
    }
}

fn unasked(answer: Told<'_>) -> &[u8] {
    match answer {
        Told::Unasked(message) => message,
        other => panic!("{other:?}"),
    }
}

/// A query with one sequence of channel 3 is heard and answered.
fn hear_sequence(station: &mut Station<'_>, sequence: u32) {
    assert!(matches!(station.hear(&query(&[(FLOW, sequence)]), &mut [0; LONGEST]), Heard::Answered(_)));
}

fn shown(station: &Station<'_>, channel: u8) -> Channel {
    station.show(channel).expect("the channel is configured")
}

/// The message of three statuses, by rising Channel ID, and of what channels 2 and 3 say of their windows.
fn message(statuses: [u8; 3], windows: [&[u8]; 2]) -> Vec<u8> {
    let [plain, second, flow] = statuses;
    let statuses = [5, 0, 2, PLAIN, plain, 5, 0, 2, SECOND_FLOW, second, 5, 0, 2, FLOW, flow];
    [&[0x10, 1, 0, 1, 7][..], &statuses, windows[0], windows[1]].concat()
}

/// A Flow Window option without the field.
const SECOND_WITHOUT: &[u8] = &[6, 0, 1, SECOND_FLOW];
const WITHOUT: &[u8] = &[6, 0, 1, FLOW];

#[test]
fn a_fresh_start_has_status_0_and_windows_without_the_field() {
    let mut words = started();
    let station = Station::resume(&mut words);
    assert_eq!(shown(&station, PLAIN), Channel { status: 0, window: None, highest: None, queued: 0 });
    for channel in [FLOW, SECOND_FLOW] {
        assert_eq!(shown(&station, channel), Channel { status: 0, window: Some(control::Window::NoWindow), highest: None, queued: 0 });
    }
    let mut out = [FILL; 40];
    let told = message([0; 3], [SECOND_WITHOUT, WITHOUT]);
    assert_eq!(station.tell(&mut out), Written::Wrote(&told));
    assert_eq!(out[told.len()..], [FILL; 40][told.len()..], "bytes behind the message stay");
}

#[test]
fn a_control_message_is_answered_with_windows_as_they_are_after_hearing() {
    let mut words = started();
    let mut station = Station::resume(&mut words);
    let mut out = [0; LONGEST];
    // Sequence 0 is heard, which isn't the same as none: 0 and 1500 ahead of it.
    let answer = message([0; 3], [SECOND_WITHOUT, &[6, 0, 5, FLOW, 0, 0, 0x05, 0xdc]]);
    assert_eq!(station.hear(&query(&[(FLOW, 0)]), &mut out), Heard::Answered(&answer));
    assert_eq!(shown(&station, FLOW).highest, Some(FlowSequence(0)));
    // A query without sequences, and one that changes nothing, are answered, too.
    assert_eq!(station.hear(&query(&[]), &mut out), Heard::Answered(&answer));
    assert_eq!(station.hear(&query(&[(FLOW, 0)]), &mut out), Heard::Answered(&answer));
    let answer = message([0; 3], [&[6, 0, 5, SECOND_FLOW, 0, 0, 0x06, 0x40], &[6, 0, 5, FLOW, 0, 0, 0x05, 0xdd]]);
    assert_eq!(station.hear(&query(&[(FLOW, 1), (SECOND_FLOW, 100)]), &mut out), Heard::Answered(&answer));
}

#[test]
fn the_highest_sequence_goes_by_distance() {
    // The highest, the sequence heard, and the highest after it.
    let rows = [
        (4294967000, 500, 500),
        (500, 4294967000, 500),
        (4294967295, 0, 0),
        (0, 4294967295, 0),
        (100, 100, 100),
        (100, 2147483747, 2147483747),
        (100, 2147483748, 100),
        (2147483748, 100, 2147483748),
        (100, 99, 100),
    ];
    for (highest, sequence, after) in rows {
        let mut words = started();
        let mut station = Station::resume(&mut words);
        hear_sequence(&mut station, highest);
        hear_sequence(&mut station, sequence);
        assert_eq!(shown(&station, FLOW).highest, Some(FlowSequence(after)), "{highest} {sequence}");
        assert_eq!(shown(&station, SECOND_FLOW).highest, None);
    }
}

#[test]
fn a_window_is_cut_at_2147483647_ahead_and_at_the_highest_sequence() {
    // The highest sequence, watermark, throughput, bytes queued, and the window.
    let rows = [
        (100, 1000, 500, 0, 1600),
        (100, 1000, 500, 1499, 101),
        (100, 1000, 500, 1500, 100),
        (100, 1000, 500, 1501, 100),
        (100, 1000, 500, u64::MAX, 100),
        (4294967000, 1000, 500, 0, 1204),
        (100, LARGEST, 0, 0, 2147483747),
        (100, LARGEST, 1, 0, 2147483747),
        (100, LARGEST, LARGEST, 0, 2147483747),
        (100, LARGEST, LARGEST, LARGEST, 2147483747),
        (100, LARGEST, LARGEST, LARGEST + 1, 2147483746),
        (4294967295, LARGEST, LARGEST, 0, 2147483646),
        (0, 0, 0, 0, 0),
    ];
    for (highest, watermark, throughput, queued, window) in rows {
        let mut words = started_with(Allowances { watermark, throughput });
        let mut station = Station::resume(&mut words);
        assert_eq!(station.queued(FLOW, queued, &mut []), Told::NoMessage, "no window changes before a sequence was heard");
        hear_sequence(&mut station, highest);
        let flow = Channel { status: 0, window: Some(control::Window::Given(FlowWindow(window))), highest: Some(FlowSequence(highest)), queued };
        assert_eq!(shown(&station, FLOW), flow, "{highest} {watermark} {throughput} {queued}");
    }
}

#[test]
fn a_plain_channels_sequence_is_passed_over() {
    let mut words = started();
    let mut station = Station::resume(&mut words);
    let told = message([0; 3], [SECOND_WITHOUT, WITHOUT]);
    assert_eq!(station.hear(&query(&[(PLAIN, 100)]), &mut [0; LONGEST]), Heard::Answered(&told));
    assert_eq!(station.hear(&carried(Some(PLAIN), Some(200), 60), &mut []), Heard::NoMessage);
    assert_eq!(shown(&station, PLAIN), Channel { status: 0, window: None, highest: None, queued: 60 });
}

#[test]
fn a_data_message_is_told_of_where_a_window_changed() {
    let mut words = started();
    let mut station = Station::resume(&mut words);
    // Without a sequence heard there is no window that could change.
    assert_eq!(station.hear(&carried(Some(FLOW), None, 60), &mut []), Heard::NoMessage);
    assert_eq!(shown(&station, FLOW).queued, 60);
    // The first sequence, with 100 bytes queued: 1000 and 1400 ahead of it.
    let told = message([0; 3], [SECOND_WITHOUT, &[6, 0, 5, FLOW, 0, 0, 0x09, 0x60]]);
    assert_eq!(station.hear(&carried(Some(FLOW), Some(1000), 40), &mut [0; LONGEST]), Heard::Unasked(&told));
    // A packet that the sequence counts moves the highest by as much as it queues.
    assert_eq!(station.hear(&carried(Some(FLOW), Some(1060), 60), &mut []), Heard::NoMessage);
    assert_eq!((shown(&station, FLOW).highest, shown(&station, FLOW).queued), (Some(FlowSequence(1060)), 160));
    // One without a sequence queues alone.
    let told = message([0; 3], [SECOND_WITHOUT, &[6, 0, 5, FLOW, 0, 0, 0x09, 0x38]]);
    assert_eq!(station.hear(&carried(Some(FLOW), None, 40), &mut [0; LONGEST]), Heard::Unasked(&told));
    // One without a channel is channel 0's.
    assert_eq!(station.hear(&carried(None, None, 70), &mut []), Heard::NoMessage);
    assert_eq!(shown(&station, PLAIN).queued, 70);
}

#[test]
fn bytes_queued_are_held_at_the_largest_number() {
    let mut words = started();
    let mut station = Station::resume(&mut words);
    for (before, after) in [(u64::MAX - 60, u64::MAX), (u64::MAX - 59, u64::MAX), (u64::MAX, u64::MAX), (u64::MAX - 61, u64::MAX - 1)] {
        assert_eq!(station.queued(PLAIN, before, &mut []), Told::NoMessage);
        assert_eq!(station.hear(&carried(Some(PLAIN), None, 60), &mut []), Heard::NoMessage);
        assert_eq!(shown(&station, PLAIN).queued, after);
    }
}

#[test]
fn a_status_that_differs_is_told_with_all_channels() {
    let mut words = started();
    let mut station = Station::resume(&mut words);
    let mut out = [0; LONGEST];
    for status in [7, 15, 0] {
        let told = message([0, 0, status], [SECOND_WITHOUT, WITHOUT]);
        assert_eq!(station.status(FLOW, status, &mut out), Told::Unasked(&told));
        assert_eq!(station.status(FLOW, status, &mut []), Told::NoMessage);
        assert_eq!(shown(&station, FLOW).status, status);
    }
}

#[test]
fn a_context_and_a_link_instance_stand_before_the_statuses() {
    let mut words = started();
    let mut station = Station::resume(&mut words);
    let rest = message([0; 3], [SECOND_WITHOUT, WITHOUT])[5..].to_vec();
    let context = Context::new(&[0, 1, 2]);
    let mut out = [0; 100];
    assert_eq!(station.context(None, &mut []), Told::NoMessage);
    let told = unasked(station.context(context, &mut out));
    let mut meaning = [0; control::WORDS];
    let read = control::read(told, End::Radio, DATALINK, &mut meaning);
    assert!(matches!(read, nespovarda::Read::Accepted(meaning) if meaning.context() == context && meaning.link().is_none()));
    assert_eq!(told.len(), 5 + 6 + rest.len());
    assert!(told.ends_with(&rest));
    assert_eq!(station.context(context, &mut []), Told::NoMessage);
    // The same number in more bytes is another Context.
    assert!(matches!(station.context(Context::new(&[0, 0, 1, 2]), &mut out), Told::Unasked(_)));
    // A Link Instance goes with the next message.
    let link = LinkInstance { length: 2, id: 513 };
    assert_eq!(station.link(Some(link)), Linked::Kept);
    let told = written(station.tell(&mut out));
    let read = control::read(&told, End::Radio, DATALINK, &mut meaning);
    assert!(matches!(read, nespovarda::Read::Accepted(meaning) if meaning.link() == Some(link)));
    // Without both the message is the first again.
    assert_eq!(station.link(None), Linked::Kept);
    assert_eq!(station.context(None, &mut out), Told::Unasked(&[&[0x10, 1, 0, 1, 7][..], &rest].concat()));
}

#[test]
fn the_words_may_be_saved_and_restored() {
    let mut words = started();
    let mut station = Station::resume(&mut words);
    hear_sequence(&mut station, 100);
    let saved = station.words().to_vec();
    hear_sequence(&mut station, 200);
    station.release().copy_from_slice(&saved);
    assert_eq!(shown(&Station::resume(&mut words), FLOW).highest, Some(FlowSequence(100)));
    assert_eq!(words, saved);
}

#[test]
fn the_configurations_words_have_room_or_not() {
    assert_eq!(Configuration::new(&mut [0; 1], DATALINK).map(|_| ()), Err(NoRoom));
    let mut words = [0; Configuration::words_for(1)];
    let configuration = Configuration::new(&mut words, DATALINK).and_then(|configuration| configuration.channel(PLAIN, Kind::Plain, ALLOWANCES));
    let configuration = configuration.expect("there is room for one channel");
    assert_eq!(configuration.channels(), 1);
    assert_eq!(configuration.channel(FLOW, Kind::FlowControlled, ALLOWANCES).map(|_| ()), Err(NoRoom));
}

/// Both libraries in one program: what an endpoint sends is heard, and what the radio says lets it send.
#[test]
fn both_ends_talk() {
    let first = 4294967230;
    let mut lent = common::started(first);
    let mut endpoint = lent.endpoint();
    let allowances = Allowances { watermark: 100, throughput: 10 };
    let mut configuration = [0; Configuration::words_for(4)];
    let configuration = configured(&mut configuration, allowances).channel(common::ROOMY, Kind::Plain, allowances).expect("there is room for four channels");
    let mut words = vec![0; words_for(4)];
    let mut station = Station::start(&mut words, &configuration).expect("the configuration is within the limits");
    let mut out = [0; 500];
    assert_eq!(endpoint.radio(1, unasked(station.status(FLOW, 7, &mut out))), nespovarda::Heard::Accepted);
    let asked = written(endpoint.query(&mut [0; 100]));
    match station.hear(&asked, &mut out) {
        Heard::Answered(answer) => assert_eq!(endpoint.radio(2, answer), nespovarda::Heard::Accepted),
        other => panic!("{other:?}"),
    }
    assert_eq!(endpoint.show(FLOW).map(|shown| shown.flow), Ok(nespovarda::Flow::InForce(FlowWindow(first.wrapping_add(110)))));
    // Two packets of 50 bytes fit the window, across the wrap, and a third doesn't until the radio has sent the first.
    for _ in 0..3 {
        assert_eq!(endpoint.offer(FLOW, &packet(50, 1), NEVER, 3), Offered::Taken);
    }
    for _ in 0..2 {
        match endpoint.next(FLOW, 3, &mut [0; 100]) {
            nespovarda::Next::Sent(message) => assert_eq!(station.hear(message, &mut out), Heard::NoMessage),
            other => panic!("{other:?}"),
        }
    }
    assert_eq!(shown(&station, FLOW).highest, Some(FlowSequence(first.wrapping_add(100))));
    assert_eq!(endpoint.next(FLOW, 3, &mut [0; 100]), nespovarda::Next::WindowShut);
    assert_eq!(endpoint.radio(4, unasked(station.queued(FLOW, 50, &mut out))), nespovarda::Heard::Accepted);
    assert!(matches!(endpoint.next(FLOW, 4, &mut [0; 100]), nespovarda::Next::Sent(_)));
}

// ---- Refusals ----

/// The refusal of a call that must leave everything as it was.
fn refusal_of(words: &[u64], call: impl FnOnce(&mut Station<'_>, &mut [u8]) -> Option<Refusal>) -> Refusal {
    let mut after = words.to_vec();
    let mut out = [FILL; LONGEST];
    let refusal = call(&mut Station::resume(&mut after), &mut out).expect("the call is refused");
    assert_eq!(after, words, "the words stay");
    assert_eq!(out, [FILL; LONGEST], "the output stays");
    refusal
}

fn heard(answer: Heard<'_>) -> Option<Refusal> {
    match answer {
        Heard::Refused(refusal) => Some(refusal),
        _ => None,
    }
}

fn told(answer: Told<'_>) -> Option<Refusal> {
    match answer {
        Told::Refused(refusal) => Some(refusal),
        _ => None,
    }
}

fn linked(answer: Linked) -> Option<Refusal> {
    match answer {
        Linked::Refused(refusal) => Some(refusal),
        Linked::Kept => None,
    }
}

fn tells(answer: Written<'_>) -> Option<Refusal> {
    match answer {
        Written::Refused(refusal) => Some(refusal),
        Written::Wrote(_) => None,
    }
}

fn assert_refused(refusal: Refusal, expected: Refusal, number: u64) {
    assert_eq!(refusal, expected);
    assert_eq!((refusal.number(), refusal.place()), (number, 0));
}

#[test]
fn by_1_to_11_as_for_reading() {
    let words = started();
    let mut other = query(&[(NOT_CONFIGURED, 1)]);
    other[4] = 8;
    let rows = [
        (vec![0; 65_508], Refusal::DatagramTooLong),
        (vec![], Refusal::Header),
        (vec![0x10, 1, 0, 1], Refusal::OptionPastEnd { place: 1 }),
        (vec![0x10], Refusal::OptionMissing { place: 1 }),
        // Before 12, though it names a channel that isn't configured.
        (other.clone(), Refusal::OtherDatalink { place: other.len() }),
        // A message of the radio's end: Channel Status is no option of the IPS end's.
        (message([0; 3], [SECOND_WITHOUT, WITHOUT]), Refusal::OptionNotListed { place: 5 }),
    ];
    for (datagram, refusal) in rows {
        assert_eq!(refusal_of(&words, |station, out| heard(station.hear(&datagram, out))), refusal);
    }
}

#[test]
fn by_12_a_channel_that_is_not_configured() {
    let words = started();
    let refusals = [
        refusal_of(&words, |station, out| heard(station.hear(&query(&[(FLOW, 1), (NOT_CONFIGURED, 1)]), out))),
        refusal_of(&words, |station, out| heard(station.hear(&carried(Some(NOT_CONFIGURED), None, 40), out))),
        // Before 18.
        refusal_of(&words, |station, _| heard(station.hear(&query(&[(NOT_CONFIGURED, 1)]), &mut []))),
        // Before 20.
        refusal_of(&words, |station, out| told(station.status(NOT_CONFIGURED, 16, out))),
        refusal_of(&words, |station, out| told(station.queued(255, 1, out))),
        refusal_of(&words, |station, _| station.show(NOT_CONFIGURED).err()),
    ];
    for refusal in refusals {
        assert_refused(refusal, Refusal::ChannelNotConfigured, 12);
    }
}

#[test]
fn by_18_an_output_that_is_too_short() {
    let mut words = started();
    hear_sequence(&mut Station::resume(&mut words), 100);
    // One without a window has four bytes fewer.
    let short = LONGEST - 4 - 1;
    let refusals = [
        refusal_of(&words, |station, out| heard(station.hear(&query(&[(FLOW, 200)]), &mut out[..short]))),
        refusal_of(&words, |station, out| heard(station.hear(&carried(Some(FLOW), None, 40), &mut out[..short]))),
        refusal_of(&words, |station, out| told(station.status(FLOW, 7, &mut out[..short]))),
        refusal_of(&words, |station, out| told(station.queued(FLOW, 1, &mut out[..short]))),
        refusal_of(&words, |station, out| told(station.context(Context::new(&[1]), &mut out[..short + 4]))),
        refusal_of(&words, |station, out| tells(station.tell(&mut out[..short]))),
    ];
    for refusal in refusals {
        assert_refused(refusal, Refusal::OutputTooShort, 18);
    }
    assert!(matches!(Station::resume(&mut words).tell(&mut [0; LONGEST - 4]), Written::Wrote(_)));
}

#[test]
fn by_19_words_that_are_outside_the_limits() {
    let changes: [fn(&mut Vec<u64>); 5] =
        [|words| words.truncate(words_for(3) - 1), |words| words.push(0), |words| words.clear(), |words| words.fill(0), |words| words.fill(u64::MAX)];
    for change in changes {
        let mut words = started();
        change(&mut words);
        let refusals = [
            refusal_of(&words, |station, out| heard(station.hear(&query(&[]), out))),
            refusal_of(&words, |station, out| heard(station.hear(&[], out))),
            refusal_of(&words, |station, out| told(station.status(NOT_CONFIGURED, 16, out))),
            refusal_of(&words, |station, out| told(station.queued(NOT_CONFIGURED, 0, out))),
            refusal_of(&words, |station, _| told(station.context(Context::new(&[]), &mut []))),
            refusal_of(&words, |station, _| linked(station.link(Some(LinkInstance { length: 9, id: 0 })))),
            refusal_of(&words, |station, _| tells(station.tell(&mut []))),
            refusal_of(&words, |station, _| station.show(NOT_CONFIGURED).err()),
        ];
        for refusal in refusals {
            assert_refused(refusal, Refusal::OutsideLimits, 19);
        }
    }
}

#[test]
fn by_20_what_may_not_be_written() {
    let words = started();
    let links = [(0, 0), (0, 1), (9, 0), (9, 1), (1, 256), (2, 65_536), (7, 1 << 56), (u64::MAX, 0)];
    let refusals = links.map(|(length, id)| refusal_of(&words, |station, _| linked(station.link(Some(LinkInstance { length, id })))));
    let others = [
        refusal_of(&words, |station, out| told(station.status(FLOW, 16, out))),
        refusal_of(&words, |station, _| told(station.status(PLAIN, 255, &mut []))),
        refusal_of(&words, |station, out| told(station.context(Context::new(&[]), out))),
        // Before 18.
        refusal_of(&words, |station, _| told(station.context(Context::new(&[]), &mut []))),
    ];
    for refusal in refusals.into_iter().chain(others) {
        assert_refused(refusal, Refusal::NotWritable, 20);
    }
    for (length, id) in [(1, 0), (1, 255), (2, 65_535), (7, (1 << 56) - 1), (8, u64::MAX)] {
        assert_eq!(Station::resume(&mut words.clone()).link(Some(LinkInstance { length, id })), Linked::Kept);
    }
}

/// A start's refusal, with as many words as the configuration asks for, where it has so many channels.
fn start_refusal(channels: &[(u8, Kind, u64, u64)]) -> Option<Refusal> {
    let mut words = vec![0; Configuration::words_for(channels.len())];
    let fresh = Configuration::new(&mut words, DatalinkId(7)).expect("there is room for a head");
    let configuration = channels
        .iter()
        .try_fold(fresh, |configuration, &(id, kind, watermark, throughput)| configuration.channel(id, kind, Allowances { watermark, throughput }))
        .expect("there is room for all channels");
    let before = vec![5; words_for(channels.len())];
    let mut after = before.clone();
    let refusal = Station::start(&mut after, &configuration).err();
    assert!(refusal.is_none() || after == before, "a refused start leaves the words");
    refusal
}

#[test]
fn by_19_a_configuration_that_is_outside_the_limits() {
    assert_eq!([0, 1, 64, 65].map(words_for), [0, 16, 520, 0]);
    // 23 is tested behind it.
    for large in [0, LARGEST + 1] {
        let many: Vec<(u8, Kind, u64, u64)> = (0..65).map(|id| (id, Kind::Plain, 0, large)).collect();
        let plain = |id: u8| (id, Kind::Plain, large, 0);
        assert_eq!(start_refusal(&many[..64]).map(|refusal| refusal.number()), (large != 0).then_some(23));
        for channels in [&[][..], &many, &[plain(0), plain(255)], &[plain(0), plain(0)], &[plain(1)]] {
            assert_refused(start_refusal(channels).expect("the start is refused"), Refusal::OutsideLimits, 19);
        }
    }
}

#[test]
fn by_23_a_watermark_or_throughput_above_2147483647() {
    for kind in [Kind::Plain, Kind::FlowControlled] {
        for (watermark, throughput) in [(LARGEST + 1, 0), (0, LARGEST + 1), (u64::MAX, u64::MAX)] {
            for channels in [&[(0, kind, watermark, throughput)][..], &[(0, Kind::Plain, 0, 0), (3, kind, watermark, throughput)]] {
                assert_refused(start_refusal(channels).expect("the start is refused"), Refusal::AllowanceTooLarge, 23);
            }
        }
        assert_eq!(start_refusal(&[(0, kind, LARGEST, LARGEST)]), None);
    }
}
