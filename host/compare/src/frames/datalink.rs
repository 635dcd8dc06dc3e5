//! Datalink frames (document 01, "Datalink").

use super::{sum, Dialect};
use crate::card::{MEMORY_END, MEMORY_START, WRITABLE_START};
use crate::rng::Rng;
use crate::writer::Addresses;

/// The first byte of every frame.
pub const START: u8 = 0x7E;
/// Command bits: asks for bytes.
pub const INTERROGATE: u8 = 0xE0;
/// Command bits: new bytes.
pub const CHANGE: u8 = 0xA0;
/// Command bits: masks and states.
pub const CHANGE_BITS: u8 = 0xC0;
/// Command bits: applies the pending change.
pub const ACKNOWLEDGE: u8 = 0x80;
/// The command's bits of the second byte; the rest is the I.A.
pub const COMMAND_FIELD: u8 = 0xE0;
/// Most data bytes of a message.
pub const NUM_MOST: u8 = 32;
/// Addresses on both sides of each limit.
pub const TELLING_ADDRESSES: [u16; 17] = [
    0x0000, 0x0FE0, 0x0FFF, 0x1000, 0x1001, 0x1003, 0x1004, 0x100F, 0x1010, 0x1011, 0x1FDF, 0x1FE0, 0x1FF0, 0x1FFF,
    0x2000, 0x2001, 0xFFFF,
];
/// NUMs on both sides of each limit.
pub const TELLING_NUMS: [u8; 13] = [0, 1, 2, 3, 4, 15, 16, 17, 30, 31, 32, 33, 255];

/// The Datalink dialect.
pub struct Datalink;

impl Dialect for Datalink {
    const CALL: &'static str = "datalink";
    const SHORTEST: usize = 2;
    const LONGEST: usize = 38;

    fn valid(rng: &mut Rng, to: &Addresses) -> Vec<u8> {
        match rng.below(4) {
            0 => valid_interrogate(rng, to.ia),
            1 => acknowledge(to.ia),
            _ => valid_change(rng, to.ia),
        }
    }

    fn assembled(rng: &mut Rng, to: &Addresses) -> Vec<u8> {
        let known = [INTERROGATE, CHANGE, CHANGE_BITS, ACKNOWLEDGE];
        let command = if rng.chance(90) {
            rng.pick(&known)
        } else {
            rng.byte() & COMMAND_FIELD
        };
        let ia = if rng.chance(90) {
            to.ia
        } else {
            rng.byte() & !COMMAND_FIELD
        };
        let num = if rng.chance(70) {
            rng.pick(&TELLING_NUMS)
        } else {
            rng.byte() % (NUM_MOST + 1)
        };
        let mut frame = if command == ACKNOWLEDGE && rng.chance(80) {
            vec![START, command | ia]
        } else {
            let address = any_address(rng, num);
            let carries = command == CHANGE || command == CHANGE_BITS || rng.chance(10);
            let count = if carries { usize::from(num.min(40)) } else { 0 };
            message(command, ia, num, address, &rng.bytes(count))
        };
        spoil(rng, &mut frame);
        frame
    }

    fn seal(frame: &mut [u8]) {
        if frame.len() > 2 {
            if let [_, summed @ .., lrc] = frame {
                *lrc = sum(summed);
            }
        }
    }
}

/// A frame with NUM, address, data and a right LRC.
pub fn message(command: u8, ia: u8, num: u8, address: u16, data: &[u8]) -> Vec<u8> {
    let [low, high] = address.to_le_bytes();
    let mut frame = vec![START, command | ia, num, low, high];
    frame.extend_from_slice(data);
    frame.push(0);
    Datalink::seal(&mut frame);
    frame
}

/// An interrogate of `num` bytes.
pub fn interrogate(ia: u8, num: u8, address: u16) -> Vec<u8> {
    message(INTERROGATE, ia, num, address, &[])
}

/// The acknowledge, which has no LRC.
pub fn acknowledge(ia: u8) -> Vec<u8> {
    vec![START, ACKNOWLEDGE | ia]
}

/// An interrogate of bytes in the memory.
pub fn valid_interrogate(rng: &mut Rng, ia: u8) -> Vec<u8> {
    let num = some_num(rng);
    let last = MEMORY_END - u16::from(num);
    let inside = rng.between(i64::from(MEMORY_START), i64::from(last)) as u16;
    let address = rng.pick(&[MEMORY_START, 0x100F, WRITABLE_START, last, inside]);
    interrogate(ia, num, address)
}

/// A Change or Change Bits of writable bytes.
pub fn valid_change(rng: &mut Rng, ia: u8) -> Vec<u8> {
    let is_bits = rng.chance(50);
    let (command, num) = if is_bits {
        (CHANGE_BITS, some_num(rng) & !1)
    } else {
        (CHANGE, some_num(rng))
    };
    let named = if is_bits { num / 2 } else { num };
    let address = writable_address(rng, named);
    let data = rng.bytes(usize::from(num));
    message(command, ia, num, address, &data)
}

/// An address from which `named` bytes are writable; for none, any address in the memory or at its end.
pub fn writable_address(rng: &mut Rng, named: u8) -> u16 {
    let first = if named == 0 { MEMORY_START } else { WRITABLE_START };
    let last = MEMORY_END - u16::from(named);
    let inside = rng.between(i64::from(first), i64::from(last)) as u16;
    rng.pick(&[first, last, inside])
}

/// A NUM from 0 to 32, often at an end.
fn some_num(rng: &mut Rng) -> u8 {
    let inside = rng.below(usize::from(NUM_MOST) + 1) as u8;
    rng.pick(&[0, 1, 2, NUM_MOST - 1, NUM_MOST, inside, inside, inside])
}

/// Any address: a telling one, around the memory's end for this NUM, inside or wild.
fn any_address(rng: &mut Rng, num: u8) -> u16 {
    let end = MEMORY_END - u16::from(num);
    let inside = rng.between(i64::from(MEMORY_START), i64::from(MEMORY_END)) as u16;
    let choices = [
        rng.pick(&TELLING_ADDRESSES),
        end,
        end + 1,
        inside,
        inside,
        inside,
        rng.word() as u16,
    ];
    rng.pick(&choices)
}

/// Seldom spoils the first byte, the length or the LRC.
fn spoil(rng: &mut Rng, frame: &mut Vec<u8>) {
    match rng.below(20) {
        0 => frame[0] = rng.byte(),
        1 => {
            frame.pop();
        }
        2 => frame.push(rng.byte()),
        3 => {
            if let Some(last) = frame.last_mut() {
                *last = last.wrapping_add(1);
            }
        }
        _ => {}
    }
}
