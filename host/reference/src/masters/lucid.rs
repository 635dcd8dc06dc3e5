//! LucidControl's master (document 01, "LucidControl"; document 02, M-102 and M-103).

mod request;

pub use self::request::Request;

use self::request::{channels, takes};
use super::{hand_over, Heard, Values, OUTSIDE, SHORT_BUFFER};
use crate::card::{Hundredths, Tenths, CHANNELS};
use crate::lucid::{
    DEMAND_SIZE, FAULT, GET_IO, GET_IO_GROUP, GET_PARAM, HEAD as REPLY_HEAD, OK, REFUSALS, SET_IO, SET_IO_GROUP,
    SET_PARAM, SHORTEST, TYPE_DEMAND, TYPE_TENTHS,
};
use crate::numbers::Reply;

/// OPC, P1, P2 and LEN, of which the shortest frame consists.
const HEAD: usize = SHORTEST;
/// Bytes of a parameter's address.
const ADDRESS_SIZE: usize = 2;
/// Bytes of a parameter's address and value.
const PARAMETER_SIZE: usize = ADDRESS_SIZE + 4;

/// Entry: makes the frame of a request.
pub fn make(request: &Request, frame: &mut [u8]) -> Reply {
    if !request.is_inside() {
        return OUTSIDE;
    }
    match *request {
        Request::GetIo { channel, value_type } => hand_over([GET_IO, channel as u8, value_type as u8, 0], frame),
        Request::GetIoGroup { mask, value_type } => hand_over([GET_IO_GROUP, mask as u8, value_type as u8, 0], frame),
        Request::SetIo { channel, value, .. } => {
            let [low, high] = (value as u16).to_le_bytes();
            hand_over(
                [SET_IO, channel as u8, TYPE_DEMAND, DEMAND_SIZE as u8, low, high],
                frame,
            )
        }
        Request::SetIoGroup { mask, values, .. } => match *values {
            [a] => make_set_group(mask as u8, [a], frame),
            [a, b] => make_set_group(mask as u8, [a, b], frame),
            [a, b, c] => make_set_group(mask as u8, [a, b, c], frame),
            [a, b, c, d] => make_set_group(mask as u8, [a, b, c, d], frame),
            _ => OUTSIDE,
        },
        Request::GetParam {
            channel,
            option,
            address,
        } => make_addressed([GET_PARAM, channel as u8, option as u8], address, frame),
        Request::SetParam {
            channel,
            option,
            address,
            value,
        } => make_set_param([SET_PARAM, channel as u8, option as u8], address, value, frame),
        Request::Reset {
            channel,
            option,
            address,
        } => make_addressed([SET_PARAM, channel as u8, option as u8], address, frame),
    }
}

/// Makes a frame whose data are a parameter's address and its value.
#[inline(always)]
fn make_set_param([opc, p1, p2]: [u8; 3], address: u32, value: u32, frame: &mut [u8]) -> Reply {
    let ([low, high], [a, b, c, d]) = ((address as u16).to_le_bytes(), value.to_le_bytes());
    hand_over([opc, p1, p2, PARAMETER_SIZE as u8, low, high, a, b, c, d], frame)
}

/// Makes a frame whose data are a parameter's address alone.
#[inline(always)]
fn make_addressed([opc, p1, p2]: [u8; 3], address: u32, frame: &mut [u8]) -> Reply {
    let [low, high] = (address as u16).to_le_bytes();
    hand_over([opc, p1, p2, ADDRESS_SIZE as u8, low, high], frame)
}

/// Makes a SetIoGroup, which has a demand for each channel.
#[inline(always)]
fn make_set_group<const N: usize>(mask: u8, values: [u32; N], frame: &mut [u8]) -> Reply {
    let size = DEMAND_SIZE * N;
    let Some((head, data)) = frame
        .get_mut(..HEAD + size)
        .and_then(|frame| frame.split_first_chunk_mut())
    else {
        return SHORT_BUFFER;
    };
    *head = [SET_IO_GROUP, mask, TYPE_DEMAND, size as u8];
    for (place, value) in data.as_chunks_mut().0.iter_mut().zip(values) {
        *place = (value as u16).to_le_bytes();
    }
    Reply::answered(HEAD + size)
}

/// Entry: reads a reply to a request.
pub fn hear(request: &Request, reply: &[u8]) -> Heard {
    if !request.is_inside() {
        return Heard::OUTSIDE;
    }
    let heard = match *request {
        _ if reply.len() <= REPLY_HEAD => hear_status(request, reply),
        Request::GetIo { value_type, .. } => hear_value(value_type, reply),
        Request::GetIoGroup { mask, value_type } => hear_values(channels(mask), value_type, reply),
        Request::GetParam { address, .. } => hear_parameter(address, reply),
        _ => None,
    };
    heard.unwrap_or(Heard::WRONG)
}

/// A status and LEN 0: done, where there is nothing to be answered; else a refusal.
#[inline(always)]
fn hear_status(request: &Request, reply: &[u8]) -> Option<Heard> {
    match *reply {
        [OK, 0] => request.is_set().then_some(Heard::Done),
        [FAULT, 0] => Some(Heard::Fault),
        [status, 0] if REFUSALS.contains(&status) => Some(Heard::Refused(Some(status))),
        _ => None,
    }
}

/// One value of a type that can be read.
#[inline(always)]
fn hear_value(value_type: u32, reply: &[u8]) -> Option<Heard> {
    let value = match value_type as u8 {
        TYPE_DEMAND => demand(one(reply)?),
        TYPE_TENTHS => tenths(one(reply)?),
        _ => hundredths(one(reply)?),
    };
    value.map(Heard::Value)
}

/// So many values of a type that can be read.
#[inline(always)]
fn hear_values(count: usize, value_type: u32, reply: &[u8]) -> Option<Heard> {
    let values = match value_type as u8 {
        TYPE_DEMAND => several(count, reply, demand),
        TYPE_TENTHS => several(count, reply, tenths),
        _ => several(count, reply, hundredths),
    };
    values.map(Heard::Values)
}

/// The value of the parameter at an address.
#[inline(always)]
fn hear_parameter(address: u32, reply: &[u8]) -> Option<Heard> {
    let value = u32::from_le_bytes(one(reply)?);
    takes(address, value).then_some(Heard::Value(value as i32))
}

/// The bytes of one value behind status and LEN.
#[inline(always)]
fn one<const SIZE: usize>(reply: &[u8]) -> Option<[u8; SIZE]> {
    let (head, value) = reply.split_first_chunk()?;
    if *head == [OK, SIZE as u8] {
        value.try_into().ok()
    } else {
        None
    }
}

/// So many values behind status and LEN.
#[inline(always)]
fn several<const SIZE: usize>(count: usize, reply: &[u8], value: impl Fn([u8; SIZE]) -> Option<i32>) -> Option<Values> {
    let (head, data) = reply.split_first_chunk()?;
    let (parts, rest) = data.as_chunks();
    if *head != [OK, (SIZE * count) as u8] || parts.len() != count || !rest.is_empty() {
        return None;
    }
    let mut entries = [0; CHANNELS];
    for (entry, &bytes) in entries.iter_mut().zip(parts) {
        *entry = value(bytes)?;
    }
    Some(Values { count, entries })
}

#[inline(always)]
fn demand(bytes: [u8; DEMAND_SIZE]) -> Option<i32> {
    Some(u16::from_le_bytes(bytes).into())
}

#[inline(always)]
fn tenths(bytes: [u8; 2]) -> Option<i32> {
    let Tenths(tenths) = Tenths::of_a_code(i16::from_le_bytes(bytes).into())?;
    Some(tenths.into())
}

#[inline(always)]
fn hundredths(bytes: [u8; 4]) -> Option<i32> {
    let Hundredths(hundredths) = Hundredths::of_a_code(i32::from_le_bytes(bytes))?;
    Some(hundredths)
}
