//! The numbers returned by the entries (document 01, "Numbers returned"; those above 14 are document 02's).

/// Smallest answer buffer that a dialect's entry takes (document 01, "Numbers returned").
pub const ANSWER_ROOM: usize = 38;

/// What an entry returns to its caller.
#[derive(Clone, Copy, PartialEq, Eq, Debug)]
#[repr(u8)]
pub enum Number {
    /// Done, answered.
    Answered = 0,
    /// Done, silent.
    Silent = 1,
    /// Foreign address.
    Foreign = 2,
    /// Frame form wrong.
    Form = 3,
    /// Check character wrong.
    Check = 4,
    /// Command unknown.
    Command = 5,
    /// Register, channel or range unknown.
    Unknown = 6,
    /// Value or option outside.
    Outside = 7,
    /// Read-only.
    ReadOnly = 8,
    /// Probe at fault.
    Fault = 9,
    /// Nothing pending, or a step after the master's end.
    NothingPending = 10,
    /// Output buffer too short.
    ShortBuffer = 11,
    /// Card unfit.
    Unfit = 12,
    /// Image not of its length.
    ImageLength = 13,
    /// Image padding not zero.
    ImagePadding = 14,
    /// Frame buffer below the dialect's longest frame.
    ShortFrameBuffer = 16,
}

/// An entry's number and how many bytes of the caller's buffer are its answer.
#[derive(Clone, Copy, PartialEq, Eq, Debug)]
pub struct Reply {
    /// The number.
    pub number: Number,
    /// The answer's length, from the buffer's first byte on.
    pub length: usize,
}

impl Reply {
    /// A number that sends no bytes.
    pub const fn silent(number: Number) -> Self {
        Self { number, length: 0 }
    }

    /// Number 0 with an answer of `length` bytes.
    pub const fn answered(length: usize) -> Self {
        Self {
            number: Number::Answered,
            length,
        }
    }
}
