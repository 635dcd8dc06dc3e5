//! LucidControl frames (document 01, "LucidControl"; document 02, M-103).

use super::Dialect;
use crate::card::{CHANNELS, PARAMETER_RANGES};
use crate::rng::Rng;
use crate::writer::Addresses;

/// Reads one channel.
pub const GET_IO: u8 = 0x46;
/// Reads the channels of a mask.
pub const GET_IO_GROUP: u8 = 0x48;
/// Writes one channel.
pub const SET_IO: u8 = 0x40;
/// Writes the channels of a mask.
pub const SET_IO_GROUP: u8 = 0x42;
/// Writes a parameter, or resets it to its default.
pub const SET_PARAM: u8 = 0xA0;
/// Reads a parameter.
pub const GET_PARAM: u8 = 0xA2;
/// Every command that is built.
pub const COMMANDS: [u8; 6] = [GET_IO, GET_IO_GROUP, SET_IO, SET_IO_GROUP, SET_PARAM, GET_PARAM];
/// Value type: a fan demand.
pub const DEMAND: u8 = 0x10;
/// Value type: a probe in tenths.
pub const TENTHS: u8 = 0x40;
/// Value type: a probe in hundredths.
pub const HUNDREDTHS: u8 = 0x41;
/// Option of SetParam: the parameter's default.
pub const DEFAULT: u8 = 0x01;
/// Option of SetParam: the saved copy too.
pub const PERSISTENT: u8 = 0x80;
/// Addresses of a channel's two parameters.
pub const PARAMETERS: [u16; 2] = [0x1110, 0x1120];

/// Where LEN stands.
pub const LEN: usize = 3;
/// Bytes before the data.
pub const HEAD: usize = 4;
/// The masks of channels: 1 to 0Fh.
pub const MASK_MOST: usize = 0x0F;
/// P1 as channel or mask on both sides of each limit.
const TELLING_P1: [u8; 10] = [0, 1, 2, 3, 4, 0x0E, 0x0F, 0x10, 0x80, 0xFF];
/// Types and options, known and unknown.
const TELLING_P2: [u8; 17] = [
    0x00, 0x01, 0x02, 0x0A, 0x10, 0x11, 0x1C, 0x1D, 0x3F, 0x40, 0x41, 0x42, 0x50, 0x7F, 0x80, 0x81, 0xFF,
];
/// Commands near the known ones, and those of the source that are not built.
const OTHER_COMMANDS: [u8; 10] = [0x00, 0x41, 0x43, 0x47, 0x49, 0x52, 0xA1, 0xA3, 0xC0, 0xFF];
/// Parameter addresses near the known ones.
pub const OTHER_PARAMETERS: [u16; 8] = [0x0000, 0x110F, 0x1111, 0x111F, 0x1121, 0x1011, 0x2011, 0xFFFF];

/// The LucidControl dialect.
pub struct Lucid;

impl Dialect for Lucid {
    const CALL: &'static str = "lucid";
    const SHORTEST: usize = 4;
    const LONGEST: usize = 259;

    fn valid(rng: &mut Rng, _: &Addresses) -> Vec<u8> {
        let channel = rng.below(CHANNELS) as u8;
        let mask = 1 + rng.below(MASK_MOST) as u8;
        let read = rng.pick(&[DEMAND, TENTHS, HUNDREDTHS]);
        match rng.pick(&COMMANDS) {
            GET_IO => request(GET_IO, channel, read, &[]),
            GET_IO_GROUP => request(GET_IO_GROUP, mask, read, &[]),
            SET_IO => request(SET_IO, channel, DEMAND, &demands(rng, 1)),
            SET_IO_GROUP => {
                let values = demands(rng, mask.count_ones() as usize);
                request(SET_IO_GROUP, mask, DEMAND, &values)
            }
            SET_PARAM => valid_set_param(rng, channel),
            _ => get_param(channel, rng.pick(&PARAMETERS)),
        }
    }

    fn assembled(rng: &mut Rng, _: &Addresses) -> Vec<u8> {
        let command = if rng.chance(90) {
            rng.pick(&COMMANDS)
        } else {
            rng.pick(&OTHER_COMMANDS)
        };
        let p1 = any_of(rng, &TELLING_P1);
        let p2 = likely_p2(rng, command);
        let data = likely_data(rng, command, p1, p2);
        let mut frame = request(command, p1, p2, &data);
        if rng.chance(10) {
            frame[LEN] = rng.byte();
        }
        frame
    }

    fn seal(frame: &mut [u8]) {
        if frame.len() >= HEAD {
            frame[LEN] = (frame.len() - HEAD) as u8;
        }
    }
}

/// A request with a right LEN.
pub fn request(command: u8, p1: u8, p2: u8, data: &[u8]) -> Vec<u8> {
    let mut frame = vec![command, p1, p2, 0];
    frame.extend_from_slice(data);
    Lucid::seal(&mut frame);
    frame
}

/// SetParam of one parameter to a value.
pub fn set_param(channel: u8, option: u8, address: u16, value: u32) -> Vec<u8> {
    let mut data = address.to_le_bytes().to_vec();
    data.extend(value.to_le_bytes());
    request(SET_PARAM, channel, option, &data)
}

/// SetParam with a parameter's address alone: a reset, if the option has bit 01h.
pub fn reset(channel: u8, option: u8, address: u16) -> Vec<u8> {
    request(SET_PARAM, channel, option, &address.to_le_bytes())
}

/// GetParam of one parameter.
pub fn get_param(channel: u8, address: u16) -> Vec<u8> {
    request(GET_PARAM, channel, 0, &address.to_le_bytes())
}

/// SetParam with a value in its range, or a reset.
pub fn valid_set_param(rng: &mut Rng, channel: u8) -> Vec<u8> {
    let option = rng.pick(&[0, 0, PERSISTENT, DEFAULT, DEFAULT | PERSISTENT]);
    let parameter = rng.below(PARAMETERS.len());
    if option & DEFAULT != 0 {
        return reset(channel, option, PARAMETERS[parameter]);
    }
    let (lowest, highest) = PARAMETER_RANGES[parameter];
    let inside = rng.between(lowest, highest);
    let value = rng.pick(&[lowest, highest, inside, inside]);
    set_param(channel, option, PARAMETERS[parameter], value as u32)
}

/// Demands of `count` channels.
fn demands(rng: &mut Rng, count: usize) -> Vec<u8> {
    (0..count)
        .flat_map(|_| {
            let any = rng.word() as u16;
            rng.pick(&[0, 1, 255, 256, u16::MAX, any]).to_le_bytes()
        })
        .collect()
}

/// A telling byte, seldom any.
fn any_of(rng: &mut Rng, telling: &[u8]) -> u8 {
    if rng.chance(85) {
        rng.pick(telling)
    } else {
        rng.byte()
    }
}

/// A type or option, mostly one that the command takes.
fn likely_p2(rng: &mut Rng, command: u8) -> u8 {
    if rng.chance(30) {
        return any_of(rng, &TELLING_P2);
    }
    match command {
        SET_PARAM => rng.pick(&[0, DEFAULT, PERSISTENT, DEFAULT | PERSISTENT]),
        GET_PARAM => 0,
        SET_IO | SET_IO_GROUP => rng.pick(&[DEMAND, DEMAND, DEMAND, TENTHS]),
        _ => rng.pick(&[DEMAND, TENTHS, HUNDREDTHS]),
    }
}

/// Data of mostly the length that the command takes.
fn likely_data(rng: &mut Rng, command: u8, p1: u8, p2: u8) -> Vec<u8> {
    let mut data = match command {
        SET_IO => demands(rng, 1),
        SET_IO_GROUP => demands(rng, p1.count_ones() as usize),
        SET_PARAM if p2 & DEFAULT == 0 || rng.chance(20) => {
            let mut data = any_parameter(rng).to_le_bytes().to_vec();
            data.extend(any_value(rng).to_le_bytes());
            data
        }
        SET_PARAM | GET_PARAM => any_parameter(rng).to_le_bytes().to_vec(),
        _ => Vec::new(),
    };
    match rng.below(15) {
        0 => {
            data.pop();
        }
        1 => data.push(rng.byte()),
        2 => data = rng.bytes(4),
        3 => data.clear(),
        _ => {}
    }
    data
}

/// A parameter's address, seldom an unknown one.
fn any_parameter(rng: &mut Rng) -> u16 {
    if rng.chance(85) {
        rng.pick(&PARAMETERS)
    } else {
        rng.pick(&OTHER_PARAMETERS)
    }
}

/// A parameter's value on both sides of each range's ends.
fn any_value(rng: &mut Rng) -> u32 {
    let (lowest, highest) = rng.pick(&PARAMETER_RANGES);
    let inside = rng.between(lowest, highest);
    let wild = i64::from(rng.word() as u32);
    let most = i64::from(u32::MAX);
    let choices = [lowest - 1, lowest, highest, highest + 1, inside, wild, most];
    rng.pick(&choices).max(0) as u32
}
