//! The LucidControl dialect (document 01, "LucidControl"; document 02, M-103; source document 002).

use crate::card::{Card, Hundredths, Tenths, CHANNELS, CHANNEL_PARAMETERS, PARAMETER_DEFAULTS, PARAMETER_RANGES};
use crate::numbers::{Number, Reply, ANSWER_ROOM};

/// Shortest frame.
pub const SHORTEST: usize = 4;
/// Longest frame.
pub const LONGEST: usize = 259;

pub(crate) const GET_IO: u8 = 0x46;
pub(crate) const GET_IO_GROUP: u8 = 0x48;
pub(crate) const SET_IO: u8 = 0x40;
pub(crate) const SET_IO_GROUP: u8 = 0x42;
pub(crate) const SET_PARAM: u8 = 0xA0;
pub(crate) const GET_PARAM: u8 = 0xA2;

pub(crate) const TYPE_DEMAND: u8 = 0x10;
pub(crate) const TYPE_TENTHS: u8 = 0x40;
pub(crate) const TYPE_HUNDREDTHS: u8 = 0x41;
pub(crate) const DEMAND_SIZE: usize = 2;

pub(crate) const OPTION_DEFAULT: u8 = 0x01;
pub(crate) const OPTION_PERSISTENT: u8 = 0x80;
pub(crate) const MASK_MOST: u8 = 0x0F;
/// Addresses of a channel's two parameters, in their tables' order.
pub(crate) const PARAMETER_ADDRESSES: [u16; CHANNEL_PARAMETERS] = [0x1110, 0x1120];

pub(crate) const OK: u8 = 0x00;
/// Status and LEN.
pub(crate) const HEAD: usize = 2;

/// A refusal's number and status.
type Refusal = (Number, u8);

const INV_LENGTH: Refusal = (Number::Form, 0xB0);
const NO_SUPPORT: Refusal = (Number::Command, 0xA0);
const INV_CHANNEL: Refusal = (Number::Unknown, 0xB8);
const INV_MASK: Refusal = (Number::Unknown, 0xB2);
const INV_TYPE: Refusal = (Number::Outside, 0xB6);
const PROBE_WRITTEN: Refusal = (Number::ReadOnly, 0xB6);
const INV_OPTION: Refusal = (Number::Outside, 0xB4);
const INV_PARAM: Refusal = (Number::Unknown, 0xBA);
const INV_DATA: Refusal = (Number::Outside, 0xC0);
const ERR_EXECUTION: Refusal = (Number::Fault, 0xD0);
/// The status of a fault.
pub(crate) const FAULT: u8 = ERR_EXECUTION.1;
/// The status of each other refusal.
pub(crate) const REFUSALS: [u8; 8] = [
    INV_LENGTH.1,
    NO_SUPPORT.1,
    INV_CHANNEL.1,
    INV_MASK.1,
    INV_TYPE.1,
    INV_OPTION.1,
    INV_PARAM.1,
    INV_DATA.1,
];

/// Entry: a LucidControl frame.
pub fn lucid(card: &mut Card, frame: &[u8], answer: &mut [u8]) -> Reply {
    if !card.is_fit() {
        return Reply::silent(Number::Unfit);
    }
    let Some(answer) = answer.first_chunk_mut() else {
        return Reply::silent(Number::ShortBuffer);
    };
    if !(SHORTEST..=LONGEST).contains(&frame.len()) {
        return Reply::silent(Number::Form);
    }
    match exchange(card, frame, answer) {
        Ok(length) => Reply::answered(length),
        Err((number, status)) => {
            answer[..HEAD].copy_from_slice(&[status, 0]);
            Reply { number, length: HEAD }
        }
    }
}

/// LEN against slice, OPC, channel or mask; then the command. Gives the length of the answer.
#[inline(always)]
fn exchange(card: &mut Card, frame: &[u8], answer: &mut [u8; ANSWER_ROOM]) -> Result<usize, Refusal> {
    let Some((&[opcode, p1, p2, len], data)) = frame.split_first_chunk() else {
        return Err(INV_LENGTH);
    };
    if usize::from(len) != data.len() {
        return Err(INV_LENGTH);
    }
    match opcode {
        GET_IO => get(card, channel(p1)?, p2, data, answer),
        GET_IO_GROUP => get_group(card, group(p1)?, p2, data, answer),
        SET_IO => set(card, channel(p1)?, p2, data, answer),
        SET_IO_GROUP => set_group(card, group(p1)?, p2, data, answer),
        SET_PARAM => set_param(card, channel(p1)?, p2, data, answer),
        GET_PARAM => get_param(card, channel(p1)?, p2, data, answer),
        _ => Err(NO_SUPPORT),
    }
}

/// Sends status, LEN and one value, or none; gives the answer's length.
#[inline(always)]
fn send<const N: usize>(value: [u8; N], answer: &mut [u8; ANSWER_ROOM]) -> usize {
    answer[..HEAD].copy_from_slice(&[OK, N as u8]);
    answer[HEAD..HEAD + N].copy_from_slice(&value);
    HEAD + N
}

/// Sends status, LEN and the values of the channels of a mask in ascending order; gives the answer's length.
#[inline(always)]
fn send_group<const N: usize>(mask: u8, values: [[u8; N]; CHANNELS], answer: &mut [u8; ANSWER_ROOM]) -> usize {
    let mut end = HEAD;
    for (channel, value) in values.iter().enumerate() {
        if names(mask, channel) {
            answer[end..end + N].copy_from_slice(value);
            end += N;
        }
    }
    answer[..HEAD].copy_from_slice(&[OK, (end - HEAD) as u8]);
    end
}

/// P1 as a channel number.
fn channel(p1: u8) -> Result<usize, Refusal> {
    let channel = usize::from(p1);
    if channel < CHANNELS {
        Ok(channel)
    } else {
        Err(INV_CHANNEL)
    }
}

/// P1 as a mask of channels.
fn group(p1: u8) -> Result<u8, Refusal> {
    if (1..=MASK_MOST).contains(&p1) {
        Ok(p1)
    } else {
        Err(INV_MASK)
    }
}

/// Whether a mask names a channel.
#[inline(always)]
fn names(mask: u8, channel: usize) -> bool {
    mask >> channel & 1 != 0
}

/// Type and LEN of a GetIo or GetIoGroup.
#[inline(always)]
fn check_get(value_type: u8, data: &[u8]) -> Result<(), Refusal> {
    if !matches!(value_type, TYPE_DEMAND | TYPE_TENTHS | TYPE_HUNDREDTHS) {
        return Err(INV_TYPE);
    }
    if !data.is_empty() {
        return Err(INV_LENGTH);
    }
    Ok(())
}

/// GetIo: type, LEN, fault.
#[inline(always)]
fn get(
    card: &Card,
    channel: usize,
    value_type: u8,
    data: &[u8],
    answer: &mut [u8; ANSWER_ROOM],
) -> Result<usize, Refusal> {
    check_get(value_type, data)?;
    if value_type == TYPE_DEMAND {
        return Ok(send(demand(card.demand[channel]), answer));
    }
    let Some(tenths) = card.temperature(channel) else {
        return Err(ERR_EXECUTION);
    };
    if value_type == TYPE_TENTHS {
        Ok(send(tenths.0.to_le_bytes(), answer))
    } else {
        Ok(send(Hundredths::from(tenths).0.to_le_bytes(), answer))
    }
}

/// GetIoGroup: type, LEN, fault. One failed probe refuses the group.
#[inline(always)]
fn get_group(
    card: &Card,
    mask: u8,
    value_type: u8,
    data: &[u8],
    answer: &mut [u8; ANSWER_ROOM],
) -> Result<usize, Refusal> {
    check_get(value_type, data)?;
    if value_type == TYPE_DEMAND {
        return Ok(send_group(mask, card.demand.map(demand), answer));
    }
    let mut group = [Tenths(0); CHANNELS];
    for (channel, entry) in group.iter_mut().enumerate() {
        match card.temperature(channel) {
            Some(tenths) => *entry = tenths,
            None if names(mask, channel) => return Err(ERR_EXECUTION),
            None => {}
        }
    }
    if value_type == TYPE_TENTHS {
        Ok(send_group(mask, group.map(|tenths| tenths.0.to_le_bytes()), answer))
    } else {
        let hundredths = group.map(|tenths| Hundredths::from(tenths).0.to_le_bytes());
        Ok(send_group(mask, hundredths, answer))
    }
}

/// A demand as it is answered.
#[inline(always)]
fn demand(value: u32) -> [u8; DEMAND_SIZE] {
    (value as u16).to_le_bytes()
}

/// Type and probe written of a SetIo or SetIoGroup.
#[inline(always)]
fn check_set(value_type: u8) -> Result<(), Refusal> {
    match value_type {
        TYPE_DEMAND => Ok(()),
        TYPE_TENTHS | TYPE_HUNDREDTHS => Err(PROBE_WRITTEN),
        _ => Err(INV_TYPE),
    }
}

/// SetIo: type, probe written, LEN. Every demand of two bytes is in its range.
#[inline(always)]
fn set(
    card: &mut Card,
    channel: usize,
    value_type: u8,
    data: &[u8],
    answer: &mut [u8; ANSWER_ROOM],
) -> Result<usize, Refusal> {
    check_set(value_type)?;
    let &[low, high] = data else {
        return Err(INV_LENGTH);
    };
    card.demand[channel] = u16::from_le_bytes([low, high]).into();
    Ok(send([], answer))
}

/// SetIoGroup: the same for each channel of the mask.
#[inline(always)]
fn set_group(
    card: &mut Card,
    mask: u8,
    value_type: u8,
    data: &[u8],
    answer: &mut [u8; ANSWER_ROOM],
) -> Result<usize, Refusal> {
    check_set(value_type)?;
    if data.len() != DEMAND_SIZE * mask.count_ones() as usize {
        return Err(INV_LENGTH);
    }
    let mut values = data.as_chunks().0.iter();
    for (channel, entry) in card.demand.iter_mut().enumerate() {
        if names(mask, channel) {
            if let Some(&value) = values.next() {
                *entry = u16::from_le_bytes(value).into();
            }
        }
    }
    Ok(send([], answer))
}

/// SetParam: option, LEN, parameter address, value.
#[inline(always)]
fn set_param(
    card: &mut Card,
    channel: usize,
    option: u8,
    data: &[u8],
    answer: &mut [u8; ANSWER_ROOM],
) -> Result<usize, Refusal> {
    if option & !(OPTION_DEFAULT | OPTION_PERSISTENT) != 0 {
        return Err(INV_OPTION);
    }
    let (parameter, value) = if option & OPTION_DEFAULT != 0 {
        let parameter = addressed(data)?;
        (parameter, PARAMETER_DEFAULTS[parameter])
    } else {
        valued(data)?
    };
    card.parameter[parameter][channel] = value;
    if option & OPTION_PERSISTENT != 0 {
        card.kept[parameter][channel] = value;
    }
    Ok(send([], answer))
}

/// GetParam: option, LEN, parameter address.
#[inline(always)]
fn get_param(
    card: &Card,
    channel: usize,
    option: u8,
    data: &[u8],
    answer: &mut [u8; ANSWER_ROOM],
) -> Result<usize, Refusal> {
    if option != 0 {
        return Err(INV_OPTION);
    }
    let value = card.parameter[addressed(data)?][channel];
    Ok(send(value.to_le_bytes(), answer))
}

/// The parameter of data that are its address alone: LEN, parameter address.
#[inline(always)]
fn addressed(data: &[u8]) -> Result<usize, Refusal> {
    let &[low, high] = data else {
        return Err(INV_LENGTH);
    };
    parameter(low, high)
}

/// The parameter and the value of data that are its address and a value: LEN, parameter address, value.
#[inline(always)]
fn valued(data: &[u8]) -> Result<(usize, u32), Refusal> {
    let &[low, high, a, b, c, d] = data else {
        return Err(INV_LENGTH);
    };
    let parameter = parameter(low, high)?;
    let value = u32::from_le_bytes([a, b, c, d]);
    if PARAMETER_RANGES[parameter].excludes_unsigned(value) {
        return Err(INV_DATA);
    }
    Ok((parameter, value))
}

/// Which of a channel's parameters an address names.
fn parameter(low: u8, high: u8) -> Result<usize, Refusal> {
    let address = u16::from_le_bytes([low, high]);
    PARAMETER_ADDRESSES
        .iter()
        .position(|&known| known == address)
        .ok_or(INV_PARAM)
}
