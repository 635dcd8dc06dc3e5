//! The masters of LECOM, Love and LucidControl (document 02, M-102).
//!
//! Each has two entries, which keep nothing: `make` writes a request's frame into the buffer lent, `hear` reads a reply to a
//! request. A master knows of a card only what document 01 says of all fit cards: it takes for an answer what one of them at
//! the request's address answers to the made frame, and for a refusal what one of them there answers to any frame that it
//! refuses.

pub mod lecom;
pub mod love;
pub mod lucid;

use crate::card::CHANNELS;
use crate::numbers::{Number, Reply};

/// What a master hears in a reply.
#[derive(Clone, Copy, PartialEq, Eq, Debug)]
pub enum Heard {
    /// The value asked for.
    Value(i32),
    /// The values of the group asked for.
    Values(Values),
    /// What was asked is done.
    Done,
    /// A probe has failed.
    Fault,
    /// The card refuses, with the error code or status that its dialect has for it.
    Refused(Option<u8>),
    /// None of these, with its number: 7 for a request that cannot be made, 4 if other check characters alone would make
    /// an answer of the reply, else 3.
    Nothing(Number),
}

impl Heard {
    /// A reply that is neither an answer nor a refusal.
    const WRONG: Self = Self::Nothing(Number::Form);
    /// Any reply to a request that cannot be made.
    const OUTSIDE: Self = Self::Nothing(Number::Outside);

    /// The number that goes with it.
    pub fn number(&self) -> Number {
        match *self {
            Self::Nothing(number) => number,
            _ => Number::Silent,
        }
    }

    /// An answer, or 4 if its check characters are not right.
    #[inline(always)]
    fn if_checked(self, is_right: bool) -> Self {
        if is_right {
            self
        } else {
            Self::Nothing(Number::Check)
        }
    }
}

/// The values of a group, one for each channel of its mask, lowest channel first.
#[derive(Clone, Copy, PartialEq, Eq, Debug)]
pub struct Values {
    count: usize,
    /// Zeros from the count on.
    entries: [i32; CHANNELS],
}

impl Values {
    /// The values.
    pub fn as_slice(&self) -> &[i32] {
        &self.entries[..self.count]
    }
}

/// A request that lies outside document 01.
const OUTSIDE: Reply = Reply::silent(Number::Outside);
/// The made frame is longer than the buffer lent.
const SHORT_BUFFER: Reply = Reply::silent(Number::ShortBuffer);

/// Hands a made frame over.
#[inline(always)]
fn hand_over<const N: usize>(made: [u8; N], frame: &mut [u8]) -> Reply {
    let Some(room) = frame.first_chunk_mut() else {
        return SHORT_BUFFER;
    };
    *room = made;
    Reply::answered(N)
}
