//! What a call answers.
use crate::library::{self, Answer};
use crate::refusal::Refusal;

/// What became of a packet offered.
#[must_use]
#[derive(Clone, Copy, Debug, PartialEq, Eq)]
pub enum Offered {
    /// It waits at the end of its channel's queue.
    Taken,
    /// By 19, 12, 13, 14, 15, 16 or 17.
    Refused(Refusal),
}

/// What a channel has to send.
#[must_use]
#[derive(Clone, Copy, Debug, PartialEq, Eq)]
pub enum Next<'o> {
    /// This message, which stands at the output's start.
    Sent(&'o [u8]),
    /// No packet waits.
    NothingWaiting,
    /// The channel isn't operational.
    NotOperational,
    /// The first waiting packet doesn't fit the window, or there is none.
    WindowShut,
    /// By 19, 12, 15 or 18.
    Refused(Refusal),
}

/// What became of the packets that waited.
#[must_use]
#[derive(Clone, Copy, Debug, PartialEq, Eq)]
pub enum Withdrawn {
    /// None waits.
    Withdrawn,
    /// By 19 or 12.
    Refused(Refusal),
}

/// What became of a radio message handed in.
#[must_use]
#[derive(Clone, Copy, Debug, PartialEq, Eq)]
pub enum Heard {
    /// It was accepted.
    Accepted,
    /// It was accepted, and a mobility message is due.
    Due,
    /// By 19 or 21, or as for reading by 1 to 11.
    Refused(Refusal),
}

/// What the pacer says when it is asked.
#[must_use]
#[derive(Clone, Copy, Debug, PartialEq, Eq)]
pub enum Paced {
    /// No query is due, and the radio isn't silent.
    Quiet,
    /// A query is due.
    QueryDue,
    /// The radio is silent: no channel is reported, and no flow-controlled one has a window.
    Silent,
    /// Both.
    QueryDueSilent,
    /// By 19 or 21.
    Refused(Refusal),
}

/// What became of a message to be written.
#[must_use]
#[derive(Clone, Copy, Debug, PartialEq, Eq)]
pub enum Written<'o> {
    /// This message, which stands at the output's start.
    Wrote(&'o [u8]),
    /// A query, and what a station tells, by 19 or 18; a meaning by 20 or 18.
    Refused(Refusal),
}

/// What a datagram is to a reader of one plane.
#[must_use]
#[derive(Clone, Copy, Debug, PartialEq, Eq)]
pub enum Read<M> {
    /// A message of this meaning.
    Accepted(M),
    /// A message of the other plane.
    OtherPlane,
    /// By 1 to 11.
    Refused(Refusal),
}

impl Offered {
    pub(crate) fn of(answer: Answer) -> Offered {
        match answer.kind {
            library::TAKEN => Offered::Taken,
            _ => Offered::Refused(Refusal::of(answer)),
        }
    }

    /// The answer that a byte of a handful's answers stands for.
    pub(crate) fn numbered(number: u8) -> Offered {
        match number {
            0 => Offered::Taken,
            number => Offered::Refused(Refusal::numbered(number)),
        }
    }
}

impl<'o> Next<'o> {
    pub(crate) fn of(answer: Answer, out: &'o [u8]) -> Next<'o> {
        match answer.kind {
            library::SENT => Next::Sent(&out[..answer.value as usize]),
            library::NOTHING_WAITING => Next::NothingWaiting,
            library::NOT_OPERATIONAL => Next::NotOperational,
            library::WINDOW_SHUT => Next::WindowShut,
            _ => Next::Refused(Refusal::of(answer)),
        }
    }
}

impl Withdrawn {
    pub(crate) fn of(answer: Answer) -> Withdrawn {
        match answer.kind {
            library::WITHDRAWN => Withdrawn::Withdrawn,
            _ => Withdrawn::Refused(Refusal::of(answer)),
        }
    }
}

impl Heard {
    pub(crate) fn of(answer: Answer) -> Heard {
        match answer.kind {
            library::ACCEPTED => Heard::Accepted,
            library::DUE => Heard::Due,
            _ => Heard::Refused(Refusal::of(answer)),
        }
    }
}

impl Paced {
    pub(crate) fn of(answer: Answer) -> Paced {
        match answer.kind {
            library::QUIET => Paced::Quiet,
            library::QUERY_DUE => Paced::QueryDue,
            library::SILENT => Paced::Silent,
            library::QUERY_DUE_SILENT => Paced::QueryDueSilent,
            _ => Paced::Refused(Refusal::of(answer)),
        }
    }
}

impl<'o> Written<'o> {
    pub(crate) fn of(answer: Answer, out: &'o [u8]) -> Written<'o> {
        match answer.kind {
            library::WROTE => Written::Wrote(&out[..answer.value as usize]),
            _ => Written::Refused(Refusal::of(answer)),
        }
    }
}

impl<M> Read<M> {
    pub(crate) fn of(answer: Answer, meaning: impl FnOnce() -> M) -> Read<M> {
        match answer.kind {
            library::ACCEPTED => Read::Accepted(meaning()),
            library::OTHER_PLANE => Read::OtherPlane,
            _ => Read::Refused(Refusal::of(answer)),
        }
    }
}
