//! LECOM's master (document 01, "LECOM"; document 02, M-102).

use super::{hand_over, Heard, OUTSIDE, SHORT_BUFFER};
use crate::blocks::{exclusive_or_of_eight, last_eight};
use crate::card::{is_lecom_unit, Tenths, REGISTER_RANGE};
use crate::figures::{hex_figures, shortest_decimal, two_figures, value_of_shortest};
use crate::lecom::{split_code, ACK, ACTIVATE, ENQ, EOT, ETX, FIRST_PROBE, LAST_PROBE, LAST_REGISTER, NAK, STORE, STX};
use crate::numbers::Reply;

/// The highest address.
const ADDRESS_MOST: u32 = 99;
/// The lowest address but the general one, 00: that of the first ten.
const TENS_LEAST: u32 = 10;
/// Most characters of a value: a minus and six figures.
const TEXT_MOST: usize = 7;

/// What is asked of the unit at an address, or of all that a collective address reaches.
#[derive(Clone, Copy, PartialEq, Eq, Debug)]
pub struct Request {
    /// The unit's address; 00 or a ten reaches several units, and none of them replies.
    pub address: u32,
    /// The code's number.
    pub code: u32,
    /// Read or write.
    pub order: Order,
}

/// What is asked of a code.
#[derive(Clone, Copy, PartialEq, Eq, Debug)]
pub enum Order {
    /// Its value.
    Read,
    /// A new value.
    Write(i32),
}

/// What a code reaches.
#[derive(Clone, Copy)]
enum Reach {
    Register,
    Probe,
    /// ACTIVATE or STORE.
    Command,
}

impl Reach {
    /// What a known code reaches.
    #[inline(always)]
    fn of(code: u32) -> Option<Self> {
        match u8::try_from(code).ok()? {
            0..=LAST_REGISTER => Some(Self::Register),
            FIRST_PROBE..=LAST_PROBE => Some(Self::Probe),
            ACTIVATE | STORE => Some(Self::Command),
            _ => None,
        }
    }

    /// Whether a write takes a value.
    #[inline(always)]
    fn takes(self, value: i32) -> bool {
        match self {
            Self::Register => !REGISTER_RANGE.excludes(value),
            Self::Probe => false,
            Self::Command => matches!(value, 0 | 1),
        }
    }

    /// Whether a read can give a value.
    #[inline(always)]
    fn gives(self, value: i32) -> bool {
        match self {
            Self::Register => !REGISTER_RANGE.excludes(value),
            Self::Probe => Tenths::of_a_code(value).is_some(),
            Self::Command => value == 0,
        }
    }
}

impl Request {
    /// What the code reaches; none if the request lies outside document 01.
    #[inline(always)]
    fn reach(&self) -> Option<Reach> {
        let is_called = self.address == 0 || (TENS_LEAST..=ADDRESS_MOST).contains(&self.address);
        let reach = Reach::of(self.code).filter(|_| is_called)?;
        match self.order {
            Order::Read => Some(reach),
            Order::Write(value) => reach.takes(value).then_some(reach),
        }
    }

    /// The characters of the standard code.
    #[inline(always)]
    fn code_characters(&self) -> [u8; 2] {
        hex_figures(self.code as u8)
    }
}

/// Entry: makes the frame of a request.
pub fn make(request: &Request, frame: &mut [u8]) -> Reply {
    if request.reach().is_none() {
        return OUTSIDE;
    }
    let [tens, ones] = two_figures(request.address);
    let [high, low] = request.code_characters();
    match request.order {
        Order::Read => hand_over([EOT, tens, ones, high, low, ENQ], frame),
        Order::Write(value) => make_write([EOT, tens, ones, STX], [high, low], value, frame),
    }
}

/// Makes a write out of what comes before its code, the code and a value: these, the shortest decimal, ETX and BCC.
#[inline(always)]
fn make_write(head: [u8; 4], code: [u8; 2], value: i32, frame: &mut [u8]) -> Reply {
    let code = u64::from(u16::from_le_bytes(code));
    let head = u64::from(u32::from_le_bytes(head)) | code << 32;
    let (text, count) = shortest_decimal(value);
    let text = text | u64::from(ETX) << (8 * count);
    let bcc = exclusive_or_of_eight(text ^ code);
    // Six bytes, the text, ETX and BCC: the first eight of these and the last eight meet or overlap.
    let first = head | text << 48;
    let last = head >> (8 * count) | text << (8 * (TEXT_MOST as u32 - count)) >> 8 | u64::from(bcc) << 56;
    let length = 8 + count as usize;
    let Some(room) = frame.get_mut(..length) else {
        return SHORT_BUFFER;
    };
    if let Some(room) = room.first_chunk_mut() {
        *room = first.to_le_bytes();
    }
    if let Some(room) = room.last_chunk_mut() {
        *room = last.to_le_bytes();
    }
    Reply::answered(length)
}

/// Entry: reads a reply to a request.
pub fn hear(request: &Request, reply: &[u8]) -> Heard {
    let Some(reach) = request.reach() else {
        return Heard::OUTSIDE;
    };
    if !is_lecom_unit(request.address) {
        return Heard::WRONG;
    }
    match request.order {
        Order::Read => match value(request.code_characters(), reply) {
            Some((value, is_checked)) if reach.gives(value) => Heard::Value(value).if_checked(is_checked),
            _ => refusal(reply),
        },
        Order::Write(_) if reply == [ACK] => Heard::Done,
        Order::Write(_) => refusal(reply),
    }
}

/// The value in a reply to a read: STX, code, shortest decimal, ETX, BCC; and whether the BCC is right.
#[inline(always)]
fn value(code: [u8; 2], reply: &[u8]) -> Option<(i32, bool)> {
    let (body, &[ETX, bcc]) = reply.split_last_chunk()? else {
        return None;
    };
    let &[STX, high, low, ref text @ ..] = body else {
        return None;
    };
    let count = text.len();
    if [high, low] != code || !(1..=TEXT_MOST).contains(&count) {
        return None;
    }
    let text = last_eight(body)? >> (8 * (8 - count));
    let value = value_of_shortest(text, count as u32)?;
    let checked = text ^ u64::from(u16::from_le_bytes(code));
    Some((value, exclusive_or_of_eight(checked) ^ ETX == bcc))
}

/// NAK; or STX, an unknown code of either layout, EOT.
///
/// Kept out of line, so that an answer pays nothing for it.
#[inline(never)]
fn refusal(reply: &[u8]) -> Heard {
    let is_refusal = match reply {
        [NAK] => true,
        [STX, code @ .., EOT] if !code.is_empty() => {
            matches!(split_code(code), Some((_, reached, [])) if Reach::of(reached.into()).is_none())
        }
        _ => false,
    };
    if is_refusal {
        Heard::Refused(None)
    } else {
        Heard::WRONG
    }
}
