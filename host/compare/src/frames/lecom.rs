//! LECOM frames (document 01, "LECOM").

use super::{hex_figures, Dialect};
use crate::card::REGISTER_RANGE;
use crate::rng::Rng;
use crate::writer::Addresses;

/// Begins the code of a write.
pub const STX: u8 = 0x02;
/// Ends the data of a write.
pub const ETX: u8 = 0x03;
/// Begins every telegram.
pub const EOT: u8 = 0x04;
/// Ends a read.
pub const ENQ: u8 = 0x05;
/// Where a write's code begins: after EOT, two figures and STX.
const WRITE_CODE: usize = 4;

/// The code that copies the buffer to the operational registers.
pub const ACTIVATE: u8 = 0x67;
/// The code that copies the operational registers to the saved ones.
pub const STORE: u8 = 0x68;
/// The last register code; the first is 00h.
const LAST_REGISTER: i64 = 0x5F;
/// The first probe's code.
pub const FIRST_PROBE: u8 = 0x60;
/// The last probe's code.
const LAST_PROBE: u8 = 0x63;
/// Codes on both sides of each limit.
const TELLING_CODES: [u8; 14] = [
    0x00, 0x01, 0x5E, 0x5F, 0x60, 0x63, 0x64, 0x65, 0x66, 0x67, 0x68, 0x69, 0x70, 0xFF,
];
/// Data that is a value in no, one or several ways.
const TELLING_DATA: [&[u8]; 36] = [
    b"0",
    b"1",
    b"2",
    b"-0",
    b"-1",
    b"00",
    b"01",
    b"000000000000",
    b"000000000001",
    b"-00000000000",
    b"-00000000001",
    b"999999",
    b"-999999",
    b"1000000",
    b"-1000000",
    b"000000999999",
    b"-00000999999",
    b"000001000000",
    b"-00001000000",
    b"999999999999",
    b"-99999999999",
    b"4294967296",
    b"-4294967295",
    b"2147483648",
    b"-",
    b"--1",
    b"1-",
    b"+1",
    b" 1",
    b"1 ",
    b"A",
    b"1.5",
    b"",
    b"0000000000000",
    b"-000000000001",
    b"99999999999999999999",
];

/// The LECOM dialect.
pub struct Lecom;

impl Dialect for Lecom {
    const CALL: &'static str = "lecom";
    const SHORTEST: usize = 6;
    const LONGEST: usize = 25;

    fn valid(rng: &mut Rng, to: &Addresses) -> Vec<u8> {
        let figures = reaching(rng, to.lecom);
        let register = rng.between(0, LAST_REGISTER) as u8;
        let command = rng.pick(&[ACTIVATE, STORE]);
        match rng.below(8) {
            0 => read(figures, &code(rng, command)),
            1 => {
                let probe = rng.between(i64::from(FIRST_PROBE), i64::from(LAST_PROBE)) as u8;
                read(figures, &code(rng, probe))
            }
            2 | 3 => read(figures, &code(rng, register)),
            4 => {
                let data: &[u8] = rng.pick(&[b"0", b"1", b"1", b"01", b"-0"]);
                write(figures, &code(rng, command), data)
            }
            _ => {
                let code = code(rng, register);
                write(figures, &code, &value(rng))
            }
        }
    }

    fn assembled(rng: &mut Rng, to: &Addresses) -> Vec<u8> {
        let figures = any_figures(rng, to.lecom);
        let code = any_code(rng);
        let mut frame = if rng.chance(40) {
            read(figures, &code)
        } else {
            let data = if rng.chance(50) {
                rng.pick(&TELLING_DATA).to_vec()
            } else {
                value(rng)
            };
            write(figures, &code, &data)
        };
        if rng.chance(25) {
            spoil(rng, &mut frame);
        }
        frame
    }

    fn seal(frame: &mut [u8]) {
        if frame.len() > WRITE_CODE && frame[WRITE_CODE - 1] == STX {
            if let Some((bcc, rest)) = frame.split_last_mut() {
                *bcc = rest.iter().skip(WRITE_CODE).fold(0, |bcc, &byte| bcc ^ byte);
            }
        }
    }
}

/// A read telegram.
pub fn read(figures: [u8; 2], code: &[u8]) -> Vec<u8> {
    let mut frame = vec![EOT, figures[0], figures[1]];
    frame.extend_from_slice(code);
    frame.push(ENQ);
    frame
}

/// A write telegram with a right BCC.
pub fn write(figures: [u8; 2], code: &[u8], data: &[u8]) -> Vec<u8> {
    let mut frame = vec![EOT, figures[0], figures[1], STX];
    frame.extend_from_slice(code);
    frame.extend_from_slice(data);
    frame.extend_from_slice(&[ETX, 0]);
    Lecom::seal(&mut frame);
    frame
}

/// An address as two figures.
pub fn figures(address: u8) -> [u8; 2] {
    [b'0' + address / 10 % 10, b'0' + address % 10]
}

/// A standard code.
pub fn standard(code: u8) -> Vec<u8> {
    hex_figures(code).to_vec()
}

/// An extended code with its subcode.
pub fn extended(code: u16, subcode: u8) -> Vec<u8> {
    let [high, low] = code.to_be_bytes();
    let mut characters = vec![b'!'];
    for byte in [high, low, subcode] {
        characters.extend(hex_figures(byte));
    }
    characters
}

/// A code in its standard form or its extended one.
pub fn code(rng: &mut Rng, code: u8) -> Vec<u8> {
    if rng.chance(60) {
        standard(code)
    } else {
        extended(u16::from(code), 0)
    }
}

/// A register's value in its range, seldom with leading zeros.
pub fn value(rng: &mut Rng) -> Vec<u8> {
    let (lowest, highest) = REGISTER_RANGE;
    let inside = rng.between(lowest, highest);
    let small = rng.between(-20, 20);
    let value = rng.pick(&[lowest, highest, 0, inside, inside, small]);
    let width = if rng.chance(20) { rng.below(13) } else { 0 };
    format!("{value:0width$}").into_bytes()
}

/// Figures that reach the unit: its own, seldom the general or its collective address.
fn reaching(rng: &mut Rng, address: u8) -> [u8; 2] {
    match rng.below(10) {
        0 => *b"00",
        1 => figures(address - address % 10),
        _ => figures(address),
    }
}

/// Figures that mostly reach the unit, else another unit, another collective address or no figures at all.
fn any_figures(rng: &mut Rng, address: u8) -> [u8; 2] {
    match rng.below(20) {
        0 => figures(rng.below(100) as u8),
        1 => figures(10 * rng.below(10) as u8),
        2 => [figures(address)[0], rng.byte()],
        3 => [rng.byte(), figures(address)[1]],
        _ => reaching(rng, address),
    }
}

/// Any code: known and unknown ones, in both forms, with lower-case and wrong characters too.
fn any_code(rng: &mut Rng) -> Vec<u8> {
    let number = if rng.chance(50) {
        rng.pick(&TELLING_CODES)
    } else {
        rng.byte()
    };
    let wide = u16::from(number);
    match rng.below(16) {
        0 => extended(wide | 0x0100, 0),
        1 => extended(wide << 8, 0),
        2 => {
            let subcode = 1 + rng.below(255) as u8;
            extended(wide, subcode)
        }
        3 => extended(rng.word() as u16, rng.pick(&[0, 0, 1])),
        4 => standard(number).to_ascii_lowercase(),
        5 => extended(wide, 0).to_ascii_lowercase(),
        6 => rng.bytes(2),
        _ => code(rng, number),
    }
}

/// Spoils a control character, the BCC or the length.
fn spoil(rng: &mut Rng, frame: &mut Vec<u8>) {
    let last = frame.len() - 1;
    match rng.below(9) {
        0 => frame[0] = rng.pick(&[STX, ENQ, 0]),
        1 | 7 | 8 => frame[last] ^= 1 << rng.below(8),
        2 => frame[last - 1] = rng.pick(&[STX, ETX, EOT, ENQ]),
        3 => frame[WRITE_CODE - 1] = rng.pick(&[STX, ETX, b'!', b'0']),
        4 => frame.insert(last, rng.pick(&[ETX, b'0', ENQ])),
        5 => frame.push(rng.pick(&[ENQ, ETX, 0])),
        _ => {
            frame.pop();
        }
    }
}
