//! Answers a script of the session page (docs/SESSION.md) through the safe interface alone: one call a line from standard input, one answer a line.
mod lines;
use lines::{answer_lines, byte, bytes, hexadecimal, kind, length, number, wide, Answered, Fault, MOST_READ, WORDS_OF_A_CHANNEL};
use nespovarda::{control, data};
use nespovarda::{words_for, Configuration, Context, DatalinkId, End, Endpoint, Flow, FlowSequence, Handed, Handful, Heard, LinkInstance};
use nespovarda::{Next, Offered, Paced, Read, StatusCodes, Waits, Withdrawn, Written};
use std::fmt::Write;
use std::io;

// Where a start says nothing of the pacer.
const WAITS: Waits = Waits { hello: 5000, limit: 9000 };

fn end(word: &[u8]) -> Result<End, Fault> {
    match word {
        b"ips" => Ok(End::Ips),
        b"radio" => Ok(End::Radio),
        _ => Err(Fault::BadLine),
    }
}

/// Each where there is one.
fn link_and_context(link: Option<LinkInstance>, context: Option<Context>) -> String {
    let link = link.map(|link| format!(" link {} {}", link.length, link.id)).unwrap_or_default();
    let context = context.map(|context| format!(" context {}", hexadecimal(context.as_bytes()))).unwrap_or_default();
    link + &context
}

// ---- Lines about messages ----

fn control_words() -> Box<[u64; control::WORDS]> {
    Box::new([0; control::WORDS])
}

fn control_line(meaning: &control::Meaning<'_>) -> String {
    let mut line = format!("control {}", meaning.datalink().0) + &link_and_context(meaning.link(), meaning.context());
    let channels = 0..control::CHANNEL_IDS;
    for (id, status) in channels.clone().filter_map(|id| Some((id, meaning.status(id)?))) {
        let _ = write!(line, " status {id} {status}");
    }
    for (id, sequence) in channels.clone().filter_map(|id| Some((id, meaning.sequence(id)?))) {
        let _ = write!(line, " sequence {id} {}", sequence.0);
    }
    for (id, window) in channels.filter_map(|id| Some((id, meaning.window(id)?))) {
        let _ = match window {
            control::Window::NoWindow => write!(line, " window {id} none"),
            control::Window::Given(window) => write!(line, " window {id} {}", window.0),
        };
    }
    line
}

fn data_line(meaning: &data::Meaning<'_>) -> String {
    let counted = meaning.counted.map(|counted| format!(" sequence {} {}", counted.channel, counted.sequence.0)).unwrap_or_default();
    let channel = meaning.channel.map(|channel| format!(" channel {channel}")).unwrap_or_default();
    let expiration = meaning.expiration.map(|expiration| format!(" expiration {expiration}")).unwrap_or_default();
    format!("data {}{counted}{channel}{expiration} packet {}", meaning.datalink.0, hexadecimal(meaning.packet))
}

/// Reads a datagram as a message of either plane, and answers by its meaning.
fn by_meaning(
    from: End,
    datalink: DatalinkId,
    datagram: &[u8],
    of_control: impl FnOnce(&control::Meaning<'_>) -> Answered,
    of_data: impl FnOnce(&data::Meaning<'_>) -> Answered,
) -> Answered {
    match control::read(datagram, from, datalink, &mut control_words()) {
        Read::Accepted(meaning) => of_control(&meaning),
        Read::Refused(refusal) => Err(refusal.into()),
        Read::OtherPlane => match data::read(datagram, from, datalink) {
            Read::Accepted(meaning) => of_data(&meaning),
            Read::Refused(refusal) => Err(refusal.into()),
            Read::OtherPlane => unreachable!("a message is of one plane"),
        },
    }
}

fn read(words: [&[u8]; 3]) -> Answered {
    let [from, datalink, datagram] = words;
    let (from, datalink, datagram) = (end(from)?, DatalinkId(byte(datalink)?), bytes(datagram)?);
    by_meaning(from, datalink, &datagram, |meaning| Ok(control_line(meaning)), |meaning| Ok(data_line(meaning)))
}

fn written(answer: Written<'_>) -> Answered {
    match answer {
        Written::Wrote(message) => Ok(format!("written {}", hexadecimal(message))),
        Written::Refused(refusal) => Err(refusal.into()),
    }
}

fn echo(words: [&[u8]; 5]) -> Answered {
    let [from, datalink, datagram, to, room] = words;
    let (from, datalink, datagram) = (end(from)?, DatalinkId(byte(datalink)?), bytes(datagram)?);
    let (to, room) = (end(to)?, length(room)?);
    let mut of_control = vec![0; room];
    let mut of_data = vec![0; room];
    by_meaning(
        from,
        datalink,
        &datagram,
        |meaning| written(control::write(to, meaning, &mut of_control)),
        |meaning| written(data::write(to, meaning, &mut of_data)),
    )
}

// ---- Lines about a state ----

/// The words and the memory of the state, once started.
struct State {
    words: Vec<u64>,
    memory: Vec<u8>,
}

/// `CHANNEL KIND FIRST STORE`
fn configure<'c>(configuration: Configuration<'c>, words: &[&[u8]]) -> Result<Configuration<'c>, Fault> {
    let first = number(words[2], u64::from(u32::MAX))? as u32;
    configuration.channel(byte(words[0])?, kind(words[1])?, FlowSequence(first), length(words[3])?).map_err(|_| Fault::BadLine)
}

/// Perhaps `memory LEN`, perhaps `pace HELLO LIMIT` behind it, and perhaps `codes MASK` behind both.
fn behind_channels(words: &[&[u8]]) -> Result<(Option<usize>, Waits, StatusCodes), Fault> {
    let (memory, behind) = match *words {
        [b"memory", given, ref behind @ ..] => (Some(length(given)?), behind),
        ref behind => (None, behind),
    };
    let (waits, behind) = match *behind {
        [b"pace", hello, limit, ref behind @ ..] => (Waits { hello: wide(hello)?, limit: wide(limit)? }, behind),
        ref behind => (WAITS, behind),
    };
    match *behind {
        [] => Ok((memory, waits, StatusCodes::default())),
        [b"codes", mask] => Ok((memory, waits, StatusCodes(byte(mask)?))),
        _ => Err(Fault::BadLine),
    }
}

/// The words behind `start`: a state, whose start was not refused.
fn start(words: &[&[u8]]) -> Result<State, Fault> {
    if words.len() < 2 {
        return Err(Fault::BadLine);
    }
    let (datalink, count) = (DatalinkId(byte(words[0])?), number(words[1], MOST_READ)? as usize);
    let behind = &words[2..];
    if behind.len() < WORDS_OF_A_CHANNEL * count {
        return Err(Fault::BadLine);
    }
    let (channels, rest) = behind.split_at(WORDS_OF_A_CHANNEL * count);
    let mut configuration = vec![0; Configuration::words_for(count)];
    let (memory_length, waits, codes) = behind_channels(rest)?;
    let configuration = Configuration::new(&mut configuration, datalink, waits).map_err(|_| Fault::BadLine)?.operational(codes);
    let configuration = channels.chunks_exact(WORDS_OF_A_CHANNEL).try_fold(configuration, configure)?;
    let memory_length = memory_length.unwrap_or(configuration.memory_length());
    let mut state = State { words: vec![0; words_for(count)], memory: vec![0; memory_length] };
    Endpoint::start(&mut state.words, &mut state.memory, &configuration)?;
    Ok(state)
}

fn offer(endpoint: &mut Endpoint<'_>, words: [&[u8]; 4]) -> Answered {
    let [channel, now, expiry, packet] = words;
    let (channel, now, expiry, packet) = (byte(channel)?, wide(now)?, wide(expiry)?, bytes(packet)?);
    match endpoint.offer(channel, &packet, expiry, now) {
        Offered::Taken => Ok("taken".to_string()),
        Offered::Refused(refusal) => Err(refusal.into()),
    }
}

type Words<'l> = &'l [&'l [u8]];

/// `WORD COUNT` and so many more words: these, and what stands behind them.
fn counted<'l>(words: Words<'l>, word: &[u8]) -> Result<(Words<'l>, Words<'l>), Fault> {
    match *words {
        [first, count, ref behind @ ..] if first == word => {
            let count = number(count, MOST_READ)? as usize;
            (count <= behind.len()).then(|| behind.split_at(count)).ok_or(Fault::BadLine)
        }
        _ => Err(Fault::BadLine),
    }
}

/// The words behind `offers NOW`: the channels, the expiries and the lengths, each counted; how many answers; and the packets end to end.
fn offers(endpoint: &mut Endpoint<'_>, now: &[u8], words: &[&[u8]]) -> Answered {
    let (channels, behind) = counted(words, b"channels")?;
    let (expiries, behind) = counted(behind, b"expiries")?;
    let (lengths, behind) = counted(behind, b"lengths")?;
    let (count, packets) = match *behind {
        [b"answers", count, packets] => (number(count, MOST_READ)? as usize, bytes(packets)?),
        _ => return Err(Fault::BadLine),
    };
    let handful = Handful {
        channels: &channels.iter().map(|word| byte(word)).collect::<Result<Vec<_>, _>>()?,
        expiries: &expiries.iter().map(|word| wide(word)).collect::<Result<Vec<_>, _>>()?,
        lengths: &lengths.iter().map(|word| length(word).map(|length| length as u64)).collect::<Result<Vec<_>, _>>()?,
        packets: &packets,
        time: wide(now)?,
    };
    match endpoint.offers(&handful, &mut vec![0; count]) {
        Handed::Offered(answers) => Ok(answers.iter().fold("offered".to_string(), |line, answer| line + " " + &offered(answer))),
        Handed::Refused(refusal) => Err(refusal.into()),
    }
}

fn offered(answer: Offered) -> String {
    match answer {
        Offered::Taken => "taken".to_string(),
        Offered::Refused(refusal) => format!("refused {} {}", refusal.number(), refusal.place()),
    }
}

fn next(endpoint: &mut Endpoint<'_>, words: [&[u8]; 3]) -> Answered {
    let [channel, now, room] = words;
    let (channel, now, room) = (byte(channel)?, wide(now)?, length(room)?);
    match endpoint.next(channel, now, &mut vec![0; room]) {
        Next::Sent(message) => Ok(format!("sent {}", hexadecimal(message))),
        Next::NothingWaiting => Ok("nothing waiting".to_string()),
        Next::NotOperational => Ok("not operational".to_string()),
        Next::WindowShut => Ok("window shut".to_string()),
        Next::Refused(refusal) => Err(refusal.into()),
    }
}

fn withdraw(endpoint: &mut Endpoint<'_>, channel: &[u8]) -> Answered {
    match endpoint.withdraw(byte(channel)?) {
        Withdrawn::Withdrawn => Ok("withdrawn".to_string()),
        Withdrawn::Refused(refusal) => Err(refusal.into()),
    }
}

fn radio(endpoint: &mut Endpoint<'_>, words: [&[u8]; 2]) -> Answered {
    let [now, datagram] = words;
    match endpoint.radio(wide(now)?, &bytes(datagram)?) {
        Heard::Accepted => Ok("accepted".to_string()),
        Heard::Due => Ok("accepted due".to_string()),
        Heard::Refused(refusal) => Err(refusal.into()),
    }
}

fn pace(endpoint: &mut Endpoint<'_>, now: &[u8]) -> Answered {
    match endpoint.pace(wide(now)?) {
        Paced::Quiet => Ok("quiet".to_string()),
        Paced::QueryDue => Ok("due".to_string()),
        Paced::Silent => Ok("silent".to_string()),
        Paced::QueryDueSilent => Ok("due silent".to_string()),
        Paced::Refused(refusal) => Err(refusal.into()),
    }
}

fn query(endpoint: &mut Endpoint<'_>, room: &[u8]) -> Answered {
    match endpoint.query(&mut vec![0; length(room)?]) {
        Written::Wrote(message) => Ok(format!("query {}", hexadecimal(message))),
        Written::Refused(refusal) => Err(refusal.into()),
    }
}

fn show(endpoint: &mut Endpoint<'_>, channel: &[u8]) -> Answered {
    let id = byte(channel)?;
    let shown = endpoint.show(id)?;
    let status = shown.status.map_or("-".to_string(), |status| status.to_string());
    let flow = match shown.flow {
        Flow::Free => "free".to_string(),
        Flow::NoWindow => "none".to_string(),
        Flow::InForce(window) => window.0.to_string(),
    };
    let mut line = format!("channel {id} {status} {flow} {} {} {}", shown.sequence.0, shown.latest, shown.waiting);
    let mut position = 0;
    while let Some(waiting) = endpoint.waiting(id, position)? {
        let _ = write!(line, " {} {}", waiting.length, waiting.expiry);
        position += 1;
    }
    Ok(line)
}

fn store(endpoint: &mut Endpoint<'_>, channel: &[u8]) -> Answered {
    Ok(format!("store {}", hexadecimal(endpoint.store(byte(channel)?)?)))
}

fn kept(endpoint: &mut Endpoint<'_>) -> Answered {
    let kept = endpoint.kept()?;
    Ok("kept".to_string() + &link_and_context(kept.link, kept.context))
}

fn pacer(endpoint: &mut Endpoint<'_>) -> Answered {
    let pacer = endpoint.pacer()?;
    Ok(format!("pacer {} {} {}", pacer.clock, pacer.due, pacer.heard))
}

// ---- The script ----

/// The answer to a line of a state that was started.
fn on_state(state: &mut State, words: &[&[u8]]) -> Answered {
    let endpoint = &mut Endpoint::resume(&mut state.words, &mut state.memory);
    match *words {
        [b"offer", channel, now, expiry, packet] => offer(endpoint, [channel, now, expiry, packet]),
        [b"offers", now, ref behind @ ..] => offers(endpoint, now, behind),
        [b"next", channel, now, room] => next(endpoint, [channel, now, room]),
        [b"withdraw", channel] => withdraw(endpoint, channel),
        [b"radio", now, datagram] => radio(endpoint, [now, datagram]),
        [b"pace", now] => pace(endpoint, now),
        [b"query", room] => query(endpoint, room),
        [b"show", channel] => show(endpoint, channel),
        [b"store", channel] => store(endpoint, channel),
        [b"kept"] => kept(endpoint),
        [b"pacer"] => pacer(endpoint),
        _ => Err(Fault::BadLine),
    }
}

/// The answer to a line. A refused start leaves the state before it.
fn answer(state: &mut Option<State>, words: &[&[u8]]) -> Answered {
    match *words {
        [b"read", from, datalink, datagram] => read([from, datalink, datagram]),
        [b"echo", from, datalink, datagram, to, room] => echo([from, datalink, datagram, to, room]),
        [b"start", ref behind @ ..] => {
            *state = Some(start(behind)?);
            Ok("started".to_string())
        }
        _ => on_state(state.as_mut().ok_or(Fault::BadLine)?, words),
    }
}

fn main() -> io::Result<()> {
    let mut state = None;
    answer_lines(|words| answer(&mut state, words))
}
