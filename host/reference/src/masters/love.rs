//! Love's master (document 01, "Love"; document 02, M-102).

use super::{Heard, OUTSIDE, SHORT_BUFFER};
use crate::blocks::sum_of;
use crate::card::{is_love_unit, Tenths, LOVE_RANGE};
use crate::figures::{four_figures, hex_figures, value_of_four};
use crate::love::{
    card_checksum, head, ACK, ERROR_CODES, ERROR_MARK, ETX, FAULT, HEAD, PARAMETERS, PROCESS_VALUE, READ, TAIL, WRITE,
    WRITTEN,
};
use crate::numbers::Reply;

/// What is asked of the card at an address.
#[derive(Clone, Copy, PartialEq, Eq, Debug)]
pub struct Request {
    /// The card's address.
    pub address: u32,
    /// Status, read or write.
    pub order: Order,
}

/// What is asked. Places count SP1, SP2, ALLO, ALHI from 0.
#[derive(Clone, Copy, PartialEq, Eq, Debug)]
pub enum Order {
    /// Probe 0 with its status.
    Status,
    /// A parameter's value.
    Read {
        /// The parameter.
        place: u32,
    },
    /// A new value of a parameter.
    Write {
        /// The parameter.
        place: u32,
        /// The value in tenths.
        value: i32,
    },
}

impl Request {
    /// The last figure of the parameter's commands, any for a status; none if the request lies outside document 01.
    #[inline(always)]
    fn last_figure(&self) -> Option<u8> {
        if !is_love_unit(self.address) {
            return None;
        }
        match self.order {
            Order::Status => Some(PARAMETERS[0]),
            Order::Write { value, .. } if LOVE_RANGE.excludes(value) => None,
            Order::Read { place } | Order::Write { place, .. } => PARAMETERS.get(place as usize).copied(),
        }
    }
}

/// Entry: makes the frame of a request.
pub fn make(request: &Request, frame: &mut [u8]) -> Reply {
    let Some(last) = request.last_figure() else {
        return OUTSIDE;
    };
    let head = head(request.address);
    let [a, b, c] = READ;
    match request.order {
        Order::Status => send(head, *PROCESS_VALUE, frame),
        Order::Read { .. } => send(head, [a, b, c, last], frame),
        Order::Write { value, .. } => send(head, write(last, value), frame),
    }
}

/// The data of a write. A zero takes the sign 00, the lower of the two that mean it.
#[inline(always)]
fn write(last: u8, value: i32) -> [u8; 10] {
    let [a, b, c] = WRITE;
    let [d, e, f, g] = four_figures(value.unsigned_abs());
    let sign = if value < 0 { b'F' } else { b'0' };
    [a, b, c, last, d, e, f, g, sign, sign]
}

/// Hands over data between head and checksum; the host's checksum leaves the filter out.
#[inline(always)]
fn send<const N: usize>(head: [u8; HEAD], data: [u8; N], frame: &mut [u8]) -> Reply {
    let length = HEAD + N + TAIL;
    let Some(frame) = frame.get_mut(..length) else {
        return SHORT_BUFFER;
    };
    let [_, _, high, low] = head;
    let [first, second] = hex_figures(sum_of(&[high, low]).wrapping_add(sum_of(&data)));
    frame[..HEAD].copy_from_slice(&head);
    frame[HEAD..HEAD + N].copy_from_slice(&data);
    frame[HEAD + N..].copy_from_slice(&[first, second, ETX]);
    Reply::answered(length)
}

/// Entry: reads a reply to a request.
pub fn hear(request: &Request, reply: &[u8]) -> Heard {
    if request.last_figure().is_none() {
        return Heard::OUTSIDE;
    }
    let Some((&own, rest)) = reply.split_first_chunk() else {
        return Heard::WRONG;
    };
    if own != head(request.address) {
        return Heard::WRONG;
    }
    match *rest {
        [ERROR_MARK, high, low, ACK] => refusal([high, low]),
        _ => answer(request.order, own, rest).unwrap_or(Heard::WRONG),
    }
}

/// An error reply's code, if it is one that the card sends.
#[inline(always)]
fn refusal(code: [u8; 2]) -> Heard {
    if ERROR_CODES.contains(&code) {
        // No code has another first figure than 0.
        Heard::Refused(Some(code[1] - b'0'))
    } else {
        Heard::WRONG
    }
}

/// What the rest of a reply behind its head answers.
#[inline(always)]
fn answer(order: Order, head: [u8; HEAD], rest: &[u8]) -> Option<Heard> {
    match order {
        Order::Status => {
            let (data, is_checked) = split_data(head, rest)?;
            Some(process_value(data)?.if_checked(is_checked))
        }
        Order::Read { .. } => {
            let (data, is_checked) = split_data(head, rest)?;
            Some(Heard::Value(parameter_value(data)?).if_checked(is_checked))
        }
        Order::Write { .. } => {
            let (data, is_checked) = split_data(head, rest)?;
            (data == WRITTEN).then_some(Heard::Done.if_checked(is_checked))
        }
    }
}

/// So many data characters before two others and ACK, and whether the two are their checksum.
#[inline(always)]
fn split_data<const N: usize>(head: [u8; HEAD], rest: &[u8]) -> Option<([u8; N], bool)> {
    let (&data, &[first, second, ACK]) = rest.split_first_chunk()? else {
        return None;
    };
    let checksum = card_checksum(&head, &data);
    Some((data, [first, second] == hex_figures(checksum)))
}

/// The status characters of probe 0, its sign and four figures; or its fault.
#[inline(always)]
fn process_value(data: [u8; 8]) -> Option<Heard> {
    if data == FAULT {
        return Some(Heard::Fault);
    }
    let [b'C', b'0', b'0', sign, figures @ ..] = data else {
        return None;
    };
    let tenths = signed(sign, b'2', figures)?;
    Tenths::of_a_code(tenths).map(|_| Heard::Value(tenths))
}

/// Sign and four figures of a parameter.
#[inline(always)]
fn parameter_value(data: [u8; 6]) -> Option<i32> {
    let [b'0', sign, figures @ ..] = data else {
        return None;
    };
    signed(sign, b'1', figures).filter(|&value| !LOVE_RANGE.excludes(value))
}

/// A value of four figures with the sign 0, or another that means a minus; a zero has no minus.
#[inline(always)]
fn signed(sign: u8, minus: u8, figures: [u8; 4]) -> Option<i32> {
    let magnitude = value_of_four(figures)?;
    if sign == b'0' {
        Some(magnitude)
    } else if sign == minus && magnitude != 0 {
        Some(-magnitude)
    } else {
        None
    }
}
