//! The receivers for bytes as they come (document 02, M-100).
//!
//! Each "collects bytes, hands over each finished frame and is told of a quiet line". It keeps its part frame and nothing
//! else: what it waits for is read off the bytes collected. A byte that is kept is stored behind those collected; one that
//! drops or finishes the frame is not, and what stands behind the count stays.

mod datalink;
mod lecom;
mod love;
mod lucid;
mod marks;
mod run;

pub use self::datalink::{quiet_datalink, receive_datalink};
pub use self::lecom::{quiet_lecom, receive_lecom};
pub use self::love::{quiet_love, receive_love};
pub use self::lucid::{quiet_lucid, receive_lucid};

use crate::card::{Card, Ports};
use crate::numbers::Number;

/// What an entry gives to which bytes come.
#[derive(Clone, Copy, PartialEq, Eq, Debug)]
pub struct Received {
    /// 0 with a finished frame, else 1; 12 or 16 if the call is refused.
    pub number: Number,
    /// How many of the bytes were taken: those up to the end of the finished frame, else all; none by a refused call.
    pub taken: usize,
    /// The finished frame's length, from the frame buffer's first byte on; 0 if there is none.
    pub length: usize,
}

impl Received {
    /// A refused call takes no byte.
    #[inline(always)]
    pub(crate) const fn refused(number: Number) -> Self {
        Self {
            number,
            taken: 0,
            length: 0,
        }
    }

    /// All bytes were taken and no frame is finished.
    #[inline(always)]
    const fn collected(taken: usize) -> Self {
        Self {
            number: Number::Silent,
            taken,
            length: 0,
        }
    }

    /// The last byte taken finished a frame.
    #[inline(always)]
    const fn finished(taken: usize, length: usize) -> Self {
        Self {
            number: Number::Answered,
            taken,
            length,
        }
    }
}

/// The entry of each dialect: 12 ("here also any receiver state outside these rules"), then 16, then the bytes.
///
/// `others` are the counts of the other dialects' part frames, all in one. `collect` gives none if no bytes lead to its own
/// part frame, so that it need look at it only once.
#[inline(always)]
fn receive<const LONGEST: usize>(
    card: &mut Card,
    others: impl Fn(&Ports) -> u16,
    frame: &mut [u8],
    collect: impl FnOnce(&mut Ports, &mut [u8; LONGEST]) -> Option<Received>,
) -> Received {
    let Some(frame) = frame.first_chunk_mut() else {
        return refused_without_room(card);
    };
    if !card.is_fit() || others(&card.ports) != 0 && !are_reached(&card.ports) {
        return Received::refused(Number::Unfit);
    }
    collect(&mut card.ports, frame).unwrap_or(Received::refused(Number::Unfit))
}

/// The refusal where the frame buffer is too short: 12 comes first.
#[cold]
#[inline(never)]
fn refused_without_room(card: &Card) -> Received {
    let is_fit = card.is_fit() && are_reached(&card.ports);
    Received::refused(if is_fit {
        Number::ShortFrameBuffer
    } else {
        Number::Unfit
    })
}

/// The entry that is told of a quiet line: "quiet or a restart drops a part frame".
#[inline(always)]
fn quiet(card: &mut Card, count: impl FnOnce(&mut Ports) -> &mut u16) -> Number {
    if !card.is_fit() || !are_reached(&card.ports) {
        return Number::Unfit;
    }
    *count(&mut card.ports) = 0;
    Number::Silent
}

/// Whether bytes lead to every part frame.
#[inline(never)]
fn are_reached(ports: &Ports) -> bool {
    (ports.datalink.count == 0 || datalink::is_begun(&ports.datalink))
        && (ports.lecom.count == 0 || lecom::is_begun(&ports.lecom))
        && (ports.love.count == 0 || love::is_begun(&ports.love))
        && lucid::is_reached(&ports.lucid)
}
