//! Single messages: read, written, and read again.
use nespovarda::control::{self, Window};
use nespovarda::data::{self, Counted};
use nespovarda::{Context, DatalinkId, End, FlowSequence, FlowWindow, LinkInstance, Read, Refusal, Written};

const DATALINK: DatalinkId = DatalinkId(7);

fn message(answer: Written<'_>) -> Vec<u8> {
    match answer {
        Written::Wrote(message) => message.to_vec(),
        Written::Refused(refusal) => panic!("{refusal}"),
    }
}

fn accepted<M>(answer: Read<M>) -> M {
    match answer {
        Read::Accepted(meaning) => meaning,
        Read::OtherPlane => panic!("a message of the other plane"),
        Read::Refused(refusal) => panic!("{refusal}"),
    }
}

#[test]
fn a_radio_control_message_reads_back() {
    let mut words = [u64::MAX; control::WORDS];
    let mut meaning = control::Meaning::new(&mut words, DATALINK);
    meaning.set_link(Some(LinkInstance { length: 3, id: 5 }));
    meaning.set_context(Context::new(b"EU"));
    assert_eq!(meaning.set_status(254, Some(9)), Ok(()));
    assert_eq!(meaning.set_status(0, Some(7)), Ok(()));
    assert_eq!(meaning.set_window(3, Some(Window::Given(FlowWindow(0)))), Ok(()));
    assert_eq!(meaning.set_window(2, Some(Window::NoWindow)), Ok(()));
    assert_eq!(meaning.set_window(5, Some(Window::NoWindow)), Ok(()));
    assert_eq!(meaning.set_window(5, None), Ok(()));
    assert_eq!(meaning.set_status(255, Some(1)), Err(control::Reserved));
    let mut out = [0xee; 60];
    let written = message(control::write(End::Radio, &meaning, &mut out));
    let expected =
        [&[0x10, 1, 0, 1, 7][..], &[3, 0, 3, 0, 0, 5], &[4, 0, 2, b'E', b'U'], &[5, 0, 2, 0, 7], &[5, 0, 2, 254, 9], &[6, 0, 1, 2], &[6, 0, 5, 3, 0, 0, 0, 0]]
            .concat();
    assert_eq!(written, expected);
    assert!(out[expected.len()..].iter().all(|&byte| byte == 0xee));

    let mut again = [u64::MAX; control::WORDS];
    let read = accepted(control::read(&written, End::Radio, DATALINK, &mut again));
    assert_eq!(read.datalink(), DATALINK);
    assert_eq!(read.link(), Some(LinkInstance { length: 3, id: 5 }));
    assert_eq!(read.context().map(|context| context.as_bytes().to_vec()), Some(b"EU".to_vec()));
    for channel in 0..=u8::MAX {
        let status = [(0, 7), (254, 9)].iter().find(|row| row.0 == channel).map(|row| row.1);
        let window = [(2, Window::NoWindow), (3, Window::Given(FlowWindow(0)))].iter().find(|row| row.0 == channel).map(|row| row.1);
        assert_eq!((read.status(channel), read.sequence(channel), read.window(channel)), (status, None, window), "{channel}");
    }
    assert_eq!(read, meaning);
}

#[test]
fn an_ips_control_message_reads_back() {
    let mut words = [0; control::WORDS];
    let mut meaning = control::Meaning::new(&mut words, DATALINK);
    assert_eq!(meaning.set_sequence(3, Some(FlowSequence(u32::MAX))), Ok(()));
    let written = message(control::write(End::Ips, &meaning, &mut [0; 13]));
    assert_eq!(written, [0x10, 1, 0, 1, 7, 0x86, 0, 5, 3, 0xff, 0xff, 0xff, 0xff]);
    let mut again = [0; control::WORDS];
    let read = accepted(control::read(&written, End::Ips, DATALINK, &mut again));
    assert_eq!(read.sequence(3), Some(FlowSequence(u32::MAX)));
    assert_eq!(read, meaning);
}

#[test]
fn data_messages_read_back_with_the_packet_in_the_datagram() {
    let counted = Counted { channel: 3, sequence: FlowSequence(14) };
    let bare = data::Meaning { datalink: DATALINK, counted: None, channel: None, expiration: None, packet: &[] };
    let rows = [
        (End::Ips, data::Meaning { counted: Some(counted), channel: Some(3), expiration: Some(9), packet: b"a packet", ..bare }),
        (End::Ips, data::Meaning { channel: Some(254), ..bare }),
        (End::Radio, data::Meaning { channel: Some(0), packet: &[6; 1600], ..bare }),
        (End::Radio, bare),
    ];
    for (end, meaning) in rows {
        let mut out = [0; 2000];
        let written = message(data::write(end, &meaning, &mut out));
        let read = accepted(data::read(&written, end, DATALINK));
        assert_eq!(read, meaning);
        assert!(written.as_ptr_range().end == read.packet.as_ptr_range().end, "the packet is the datagram's own end");
        let mut words = [5; control::WORDS];
        assert!(matches!(control::read(&written, end, DATALINK, &mut words), Read::OtherPlane));
        assert_eq!(words, [5; control::WORDS]);
    }
}

/// The refusal of a datagram as a message of either plane, the words as they were.
fn refusal_of(end: End, datagram: &[u8]) -> Option<Refusal> {
    let mut words = [5; control::WORDS];
    let refusal = match control::read(datagram, end, DATALINK, &mut words) {
        Read::Accepted(_) => return None,
        Read::Refused(refusal) => refusal,
        Read::OtherPlane => match data::read(datagram, end, DATALINK) {
            Read::Refused(refusal) => refusal,
            _ => return None,
        },
    };
    assert_eq!(words, [5; control::WORDS]);
    Some(refusal)
}

#[test]
fn each_refusal_of_a_reader_has_its_number_and_place() {
    let long = [0x10; 65_508];
    let rows: [(End, &[u8], u64, usize); 13] = [
        (End::Radio, &long, 1, 0),
        (End::Radio, &[], 2, 0),
        (End::Radio, &[0x90], 2, 0),
        (End::Radio, &[0x10, 1, 0, 1], 3, 1),
        (End::Radio, &[0x10, 1, 0, 1, 7, 5], 3, 5),
        (End::Radio, &[0x10, 1, 0, 1, 7, 5, 0, 1, 0], 4, 5),
        (End::Radio, &[0x10, 1, 0, 1, 7, 5, 0, 2, 255, 0], 5, 5),
        (End::Ips, &[0x10, 1, 0, 1, 7, 5, 0, 2, 0, 7], 6, 5),
        (End::Radio, &[0x10, 1, 0, 1, 7, 5, 0, 2, 0, 7, 5, 0, 2, 0, 7], 7, 10),
        (End::Ips, &[0x18, 1, 0, 1, 7, 0x80, 0, 1, 0, 0x81, 0, 1, 3], 8, 9),
        (End::Radio, &[0x10, 1, 0, 1, 7], 9, 5),
        (End::Ips, &[0x18, 1, 0, 1, 7, 0x86, 0, 5, 3, 0, 0, 0, 9, 0x80, 0, 0], 10, 16),
        (End::Radio, &[0x10, 1, 0, 1, 8, 5, 0, 2, 0, 7], 11, 10),
    ];
    for (end, datagram, number, place) in rows {
        let refusal = refusal_of(end, datagram).expect("the datagram is refused");
        assert_eq!((refusal.number(), refusal.place()), (number, place));
    }
}

#[test]
fn what_an_end_may_not_say_is_refused_by_20_and_then_a_short_output_by_18() {
    let mut words = [0; control::WORDS];
    let mut meaning = control::Meaning::new(&mut words, DATALINK);
    assert_eq!(meaning.set_status(0, Some(7)), Ok(()));
    let mut out = [0xee; 20];
    assert_eq!(control::write(End::Ips, &meaning, &mut out), Written::Refused(Refusal::NotWritable));
    assert_eq!(control::write(End::Radio, &meaning, &mut out[..9]), Written::Refused(Refusal::OutputTooShort));
    meaning.set_link(Some(LinkInstance { length: 1, id: 256 }));
    assert_eq!(control::write(End::Radio, &meaning, &mut out[..9]), Written::Refused(Refusal::NotWritable));
    let counted = Some(Counted { channel: 3, sequence: FlowSequence(14) });
    let uncounted = data::Meaning { datalink: DATALINK, counted, channel: None, expiration: None, packet: &[] };
    assert_eq!(data::write(End::Ips, &uncounted, &mut out), Written::Refused(Refusal::NotWritable));
    assert_eq!(out, [0xee; 20]);
}

#[test]
fn a_context_has_up_to_8_bytes() {
    assert_eq!(Context::new(&[1; 9]), None);
    assert_eq!(Context::new(&[1; 8]).map(|context| context.as_bytes().to_vec()), Some(vec![1; 8]));
}
