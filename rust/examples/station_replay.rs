//! Answers a script of the station page (docs/STATION.md) through the safe interface alone: one call a line from standard input, one answer a line.
mod lines;
use lines::{answer_lines, byte, bytes, hexadecimal, kind, length, number, wide, Answered, Fault, MOST_READ, WORDS_OF_A_CHANNEL};
use nespovarda::station::{words_for, Allowances, Configuration, Heard, Linked, Station, Told};
use nespovarda::{control, Context, DatalinkId, LinkInstance, Refusal, Written};
use std::io;

/// `CHANNEL KIND WATERMARK THROUGHPUT`
fn configure<'c>(configuration: Configuration<'c>, words: &[&[u8]]) -> Result<Configuration<'c>, Fault> {
    let allowances = Allowances { watermark: wide(words[2])?, throughput: wide(words[3])? };
    configuration.channel(byte(words[0])?, kind(words[1])?, allowances).map_err(|_| Fault::BadLine)
}

/// The words behind `start`: the words of a state whose start was not refused.
fn start(words: &[&[u8]]) -> Result<Vec<u64>, Fault> {
    if words.len() < 2 {
        return Err(Fault::BadLine);
    }
    let (datalink, count) = (DatalinkId(byte(words[0])?), number(words[1], MOST_READ)? as usize);
    let channels = &words[2..];
    if channels.len() != WORDS_OF_A_CHANNEL * count {
        return Err(Fault::BadLine);
    }
    let mut configuration = vec![0; Configuration::words_for(count)];
    let configuration = Configuration::new(&mut configuration, datalink).map_err(|_| Fault::BadLine)?;
    let configuration = channels.chunks_exact(WORDS_OF_A_CHANNEL).try_fold(configuration, configure)?;
    let mut state = vec![0; words_for(count)];
    Station::start(&mut state, &configuration)?;
    Ok(state)
}

fn hear(station: &mut Station<'_>, room: &[u8], datagram: &[u8]) -> Answered {
    let (room, datagram) = (length(room)?, bytes(datagram)?);
    match station.hear(&datagram, &mut vec![0; room]) {
        Heard::Answered(message) => Ok(format!("answer {}", hexadecimal(message))),
        Heard::Unasked(message) => Ok(format!("unasked {}", hexadecimal(message))),
        Heard::NoMessage => Ok("heard".to_string()),
        Heard::Refused(refusal) => Err(refusal.into()),
    }
}

fn told(answer: Told<'_>) -> Answered {
    match answer {
        Told::Unasked(message) => Ok(format!("unasked {}", hexadecimal(message))),
        Told::NoMessage => Ok("unchanged".to_string()),
        Told::Refused(refusal) => Err(refusal.into()),
    }
}

fn status(station: &mut Station<'_>, words: [&[u8]; 3]) -> Answered {
    let [channel, value, room] = words;
    let (channel, value, room) = (byte(channel)?, byte(value)?, length(room)?);
    told(station.status(channel, value, &mut vec![0; room]))
}

fn queued(station: &mut Station<'_>, words: [&[u8]; 3]) -> Answered {
    let [channel, queued, room] = words;
    let (channel, queued, room) = (byte(channel)?, wide(queued)?, length(room)?);
    told(station.queued(channel, queued, &mut vec![0; room]))
}

/// No bytes are no Context; of more than 8 there is none to hand over, and the page's refusal is 20.
fn context(station: &mut Station<'_>, context: &[u8], room: &[u8]) -> Answered {
    let (context, room) = (bytes(context)?, length(room)?);
    let given = Context::new(&context).ok_or(Refusal::NotWritable)?;
    told(station.context((!context.is_empty()).then_some(given), &mut vec![0; room]))
}

fn link(station: &mut Station<'_>, length: &[u8], id: &[u8]) -> Answered {
    let link = LinkInstance { length: u64::from(byte(length)?), id: wide(id)? };
    match station.link(Some(link)) {
        Linked::Kept => Ok("kept".to_string()),
        Linked::Refused(refusal) => Err(refusal.into()),
    }
}

fn tell(station: &Station<'_>, room: &[u8]) -> Answered {
    match station.tell(&mut vec![0; length(room)?]) {
        Written::Wrote(message) => Ok(format!("tell {}", hexadecimal(message))),
        Written::Refused(refusal) => Err(refusal.into()),
    }
}

fn show(station: &Station<'_>, channel: &[u8]) -> Answered {
    let id = byte(channel)?;
    let shown = station.show(id)?;
    let window = match shown.window {
        None => "-".to_string(),
        Some(control::Window::NoWindow) => "none".to_string(),
        Some(control::Window::Given(window)) => window.0.to_string(),
    };
    let highest = shown.highest.map_or("-".to_string(), |highest| highest.0.to_string());
    Ok(format!("channel {id} {} {window} {highest} {}", shown.status, shown.queued))
}

// ---- The script ----

/// The answer to a line of a state that was started.
fn on_state(state: &mut [u64], words: &[&[u8]]) -> Answered {
    let station = &mut Station::resume(state);
    match *words {
        [b"hear", room, datagram] => hear(station, room, datagram),
        [b"status", channel, value, room] => status(station, [channel, value, room]),
        [b"queued", channel, bytes, room] => queued(station, [channel, bytes, room]),
        [b"context", bytes, room] => context(station, bytes, room),
        [b"link", length, id] => link(station, length, id),
        [b"tell", room] => tell(station, room),
        [b"show", channel] => show(station, channel),
        _ => Err(Fault::BadLine),
    }
}

/// The answer to a line. A refused start leaves the state before it.
fn answer(state: &mut Option<Vec<u64>>, words: &[&[u8]]) -> Answered {
    match *words {
        [b"start", ref behind @ ..] => {
            *state = Some(start(behind)?);
            Ok("started".to_string())
        }
        _ => on_state(state.as_mut().ok_or(Fault::BadLine)?, words),
    }
}

fn main() -> io::Result<()> {
    let mut state = None;
    answer_lines(|words| answer(&mut state, words))
}
