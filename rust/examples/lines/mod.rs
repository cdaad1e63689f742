//! What the replays share: the words of a script's line, and the loop over all lines (docs/SESSION.md and docs/STATION.md have the same words).
#![allow(dead_code)]
use nespovarda::{Kind, Refusal};
use std::fmt::Write as _;
use std::io::{self, BufRead, Write};

const LONGEST_LINE: usize = 140_000;
/// The stores of 64 channels.
const LARGEST_LENGTH: u64 = 64 * 65_536;
/// A start may name more channels than there may be, to be refused.
pub const MOST_READ: u64 = 80;
pub const WORDS_OF_A_CHANNEL: usize = 4;

/// Why a line has no other answer.
pub enum Fault {
    BadLine,
    Refused(Refusal),
}

impl From<Refusal> for Fault {
    fn from(refusal: Refusal) -> Fault {
        Fault::Refused(refusal)
    }
}

pub type Answered = Result<String, Fault>;

// ---- Words ----

/// A decimal number up to the largest, with no needless zero in front.
pub fn number(word: &[u8], largest: u64) -> Result<u64, Fault> {
    let plain = !word.is_empty() && word.iter().all(u8::is_ascii_digit) && (word.len() == 1 || word[0] != b'0');
    let text = std::str::from_utf8(word).map_err(|_| Fault::BadLine)?;
    match text.parse() {
        Ok(value) if plain && value <= largest => Ok(value),
        _ => Err(Fault::BadLine),
    }
}

pub fn byte(word: &[u8]) -> Result<u8, Fault> {
    number(word, u64::from(u8::MAX)).map(|value| value as u8)
}

/// A number of 64 bits.
pub fn wide(word: &[u8]) -> Result<u64, Fault> {
    number(word, u64::MAX)
}

pub fn length(word: &[u8]) -> Result<usize, Fault> {
    number(word, LARGEST_LENGTH).map(|value| value as usize)
}

fn digit(letter: u8) -> Result<u8, Fault> {
    match letter {
        b'0'..=b'9' => Ok(letter - b'0'),
        b'a'..=b'f' => Ok(letter - b'a' + 10),
        _ => Err(Fault::BadLine),
    }
}

/// Pairs of lowercase hexadecimal digits; `-` is the empty byte string.
pub fn bytes(word: &[u8]) -> Result<Vec<u8>, Fault> {
    if word == b"-" {
        return Ok(Vec::new());
    }
    if word.is_empty() || word.len() % 2 != 0 {
        return Err(Fault::BadLine);
    }
    word.chunks_exact(2).map(|pair| Ok(digit(pair[0])? << 4 | digit(pair[1])?)).collect()
}

pub fn kind(word: &[u8]) -> Result<Kind, Fault> {
    match word {
        b"plain" => Ok(Kind::Plain),
        b"flow" => Ok(Kind::FlowControlled),
        _ => Err(Fault::BadLine),
    }
}

pub fn hexadecimal(bytes: &[u8]) -> String {
    if bytes.is_empty() {
        return "-".to_string();
    }
    bytes.iter().fold(String::with_capacity(2 * bytes.len()), |mut text, byte| {
        let _ = write!(text, "{byte:02x}");
        text
    })
}

// ---- The script ----

/// Answers each line of standard input by its words.
pub fn answer_lines(mut answer: impl FnMut(&[&[u8]]) -> Answered) -> io::Result<()> {
    let mut input = io::stdin().lock();
    let mut output = io::BufWriter::new(io::stdout().lock());
    let mut line = Vec::new();
    while input.read_until(b'\n', &mut line)? > 0 {
        let text = line.strip_suffix(b"\n").unwrap_or(&line);
        match answer_text(text, &mut answer) {
            Ok(answer) => writeln!(output, "{answer}")?,
            Err(Fault::BadLine) => writeln!(output, "bad line")?,
            Err(Fault::Refused(refusal)) => writeln!(output, "refused {} {}", refusal.number(), refusal.place())?,
        }
        line.clear();
    }
    output.flush()
}

/// The answer to a line without its newline.
fn answer_text(text: &[u8], answer: &mut impl FnMut(&[&[u8]]) -> Answered) -> Answered {
    if text.len() > LONGEST_LINE {
        return Err(Fault::BadLine);
    }
    let words: Vec<&[u8]> = text.split(|&letter| letter == b' ').collect();
    answer(&words)
}
