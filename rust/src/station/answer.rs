//! What a station answers.
use crate::library::{self, Answer};
use crate::refusal::Refusal;

/// What became of a datagram heard.
#[must_use]
#[derive(Clone, Copy, Debug, PartialEq, Eq)]
pub enum Heard<'o> {
    /// A control message, whose answer stands at the output's start.
    Answered(&'o [u8]),
    /// A data message that changed a window: this message, at the output's start, tells of it.
    Unasked(&'o [u8]),
    /// A data message that changed none.
    NoMessage,
    /// By 19, as for reading by 1 to 11, by 12 or 18.
    Refused(Refusal),
}

/// What became of something that the radio says of itself.
#[must_use]
#[derive(Clone, Copy, Debug, PartialEq, Eq)]
pub enum Told<'o> {
    /// A status, the Context or a window differs from before: this message, at the output's start, tells of it.
    Unasked(&'o [u8]),
    /// None differs.
    NoMessage,
    /// By 19, 12 or 18; a status and a Context also by 20.
    Refused(Refusal),
}

/// What became of a Link Instance.
#[must_use]
#[derive(Clone, Copy, Debug, PartialEq, Eq)]
pub enum Linked {
    /// It is told with the next message.
    Kept,
    /// By 19 or 20.
    Refused(Refusal),
}

impl<'o> Heard<'o> {
    pub(super) fn of(answer: Answer, out: &'o [u8]) -> Heard<'o> {
        match answer.kind {
            library::ANSWERED => Heard::Answered(&out[..answer.value as usize]),
            library::UNASKED => Heard::Unasked(&out[..answer.value as usize]),
            library::NO_MESSAGE => Heard::NoMessage,
            _ => Heard::Refused(Refusal::of(answer)),
        }
    }
}

impl<'o> Told<'o> {
    pub(super) fn of(answer: Answer, out: &'o [u8]) -> Told<'o> {
        match answer.kind {
            library::UNASKED => Told::Unasked(&out[..answer.value as usize]),
            library::NO_MESSAGE => Told::NoMessage,
            _ => Told::Refused(Refusal::of(answer)),
        }
    }
}

impl Linked {
    pub(super) fn of(answer: Answer) -> Linked {
        match answer.kind {
            library::NO_MESSAGE => Linked::Kept,
            _ => Linked::Refused(Refusal::of(answer)),
        }
    }
}
