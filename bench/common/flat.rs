// A second plain reader of control messages, as one writes it who counts bytes: one walk over slices that notes what is stated in three flat tables, which the caller
// lends. It shares no code with the proved reader, nor its walk with message.rs; of that it has the faults, the ends, a window and two limits alone.
#![allow(dead_code)]
use super::message::{End, Fault, OtherPlane, Refused, Window, CHANNELS, LONGEST};

const NONE: u8 = 0;
const EMPTY: u8 = 1;
const GIVEN: u8 = 2;

// By Channel ID: a status and one, or 0; whether a window or a Flow Sequence is stated, and its word. An end states either of the two, so that one table serves both.
pub struct Tables {
    statuses: [u8; CHANNELS],
    tags: [u8; CHANNELS],
    words: [u32; CHANNELS],
}

impl Tables {
    pub fn new() -> Tables {
        Tables { statuses: [NONE; CHANNELS], tags: [NONE; CHANNELS], words: [0; CHANNELS] }
    }

    pub fn status(&self, channel: usize) -> Option<u8> {
        self.statuses[channel].checked_sub(1)
    }

    pub fn window(&self, channel: usize) -> Window {
        match self.tags[channel] {
            NONE => Window::Absent,
            EMPTY => Window::Empty,
            _ => Window::Given(self.words[channel]),
        }
    }

    pub fn sequence(&self, channel: usize) -> Option<u32> {
        (self.tags[channel] == GIVEN).then_some(self.words[channel])
    }

    // Whether nothing was noted of the channel before; or no such channel.
    fn note(&mut self, channel: u8, tag: u8, word: u32) -> Option<bool> {
        let noted = self.tags.get_mut(channel as usize)?;
        let first = *noted == NONE;
        *noted = tag;
        self.words[channel as usize] = word;
        Some(first)
    }
}

// What is stated once: up to 8 bytes as a number, with their length.
#[derive(Clone, Copy, Default)]
pub struct Stated {
    pub datalink: u8,
    pub instance: Option<(u64, usize)>,
    pub context: Option<(u64, usize)>,
}

fn name(content: &[u8]) -> Option<(u64, usize)> {
    let mut bytes = [0; 8];
    let length = content.len();
    if length == 0 || length > 8 {
        return None;
    }
    bytes[8 - length..].copy_from_slice(content);
    Some((u64::from_be_bytes(bytes), length))
}

// The number that refuses an option, or 0. A type of the other plane or end is refused, an unknown one passed over.
#[inline(always)]
fn take(tables: &mut Tables, stated: &mut Stated, has_datalink: &mut bool, radio: bool, kind: u8, content: &[u8]) -> u8 {
    let noted = match kind {
        1 => {
            let &[datalink] = content else { return 4 };
            stated.datalink = datalink;
            Some(!std::mem::replace(has_datalink, true))
        }
        3 | 4 if radio => {
            let Some(given) = name(content) else { return 4 };
            let place = if kind == 3 { &mut stated.instance } else { &mut stated.context };
            Some(place.replace(given).is_none())
        }
        5 if radio => {
            let &[channel, status] = content else { return 4 };
            let Some(noted) = tables.statuses.get_mut(channel as usize) else { return 5 };
            Some(std::mem::replace(noted, (status & 15) + 1) == NONE)
        }
        6 if radio => match *content {
            [channel] => tables.note(channel, EMPTY, 0),
            [channel, a, b, c, d] => tables.note(channel, GIVEN, u32::from_be_bytes([a, b, c, d])),
            _ => return 4,
        },
        134 if !radio => {
            let &[channel, a, b, c, d] = content else { return 4 };
            tables.note(channel, GIVEN, u32::from_be_bytes([a, b, c, d]))
        }
        1..=6 | 128..=130 | 134 if kind != 2 => return 6,
        _ => return 0,
    };
    match noted {
        None => 5,
        Some(false) => 7,
        Some(true) => 0,
    }
}

// The options of a control message: judged before a table is made.
pub fn options(datagram: &[u8]) -> Result<&[u8], Fault> {
    match datagram {
        _ if datagram.len() > LONGEST => Err(Refused(1, 0)),
        [16..=23, options @ ..] => Ok(options),
        [24..=31, ..] => Err(OtherPlane),
        _ => Err(Refused(2, 0)),
    }
}

// Fills in tables that are new. Of a message that is refused they say nothing.
pub fn read(tables: &mut Tables, options: &[u8], end: End, id: u8) -> Result<Stated, Fault> {
    let mut rest = options;
    let radio = end == End::Radio;
    let mut stated = Stated::default();
    let mut has_datalink = false;
    while let [kind, high, low, behind @ ..] = rest {
        let length = u16::from_be_bytes([*high, *low]) as usize;
        let Some((content, next)) = behind.split_at_checked(length) else { break };
        let number = take(tables, &mut stated, &mut has_datalink, radio, *kind, content);
        if number > 0 {
            return Err(Refused(number, 1 + options.len() - rest.len()));
        }
        rest = next;
    }
    let at = 1 + options.len() - rest.len();
    if !rest.is_empty() {
        return Err(Refused(3, at));
    }
    if !has_datalink || radio && tables.statuses[0] == NONE {
        return Err(Refused(9, at));
    }
    if stated.datalink != id {
        return Err(Refused(11, at));
    }
    Ok(stated)
}
