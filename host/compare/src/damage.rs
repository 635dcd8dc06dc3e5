//! Frames spoiled in one place, so that each rule of a dialect's order is met from both sides.

use crate::rng::Rng;

/// Bytes that mean something in one of the dialects.
const TELLING_BYTES: [u8; 24] = [
    0x00, 0x01, 0x02, 0x03, 0x04, 0x05, 0x06, 0x15, 0x20, 0x21, 0x2D, 0x2F, 0x30, 0x39, 0x3A, 0x40, 0x41, 0x46, 0x47,
    0x60, 0x61, 0x66, 0x7E, 0xFF,
];

/// A byte other than the one given: a neighbour, one bit or letter case away, a telling one or any.
pub fn other_byte(rng: &mut Rng, byte: u8) -> u8 {
    let choices = [
        byte.wrapping_add(1),
        byte.wrapping_sub(1),
        byte ^ 0x20,
        byte ^ (1 << rng.below(8)),
        rng.pick(&TELLING_BYTES),
        rng.byte(),
    ];
    let other = rng.pick(&choices);
    if other == byte {
        !byte
    } else {
        other
    }
}

/// The frame with one fault: a byte changed, cut, lengthened, put in, left out or exchanged with its neighbour.
/// `place` says where, counted round the frame's length.
pub fn damaged(rng: &mut Rng, frame: &[u8], place: usize) -> Vec<u8> {
    let mut bytes = frame.to_vec();
    if bytes.is_empty() {
        return rng.bytes(1);
    }
    let place = place % bytes.len();
    match rng.below(10) {
        0 => bytes.truncate(place),
        1 => bytes.truncate(bytes.len() - 1),
        2 => bytes.push(rng.pick(&TELLING_BYTES)),
        3 => {
            let count = 1 + rng.below(40);
            bytes.extend(rng.bytes(count));
        }
        4 => bytes.insert(place, rng.pick(&TELLING_BYTES)),
        5 => {
            bytes.remove(place);
        }
        6 if place + 1 < bytes.len() => bytes.swap(place, place + 1),
        _ => bytes[place] = other_byte(rng, bytes[place]),
    }
    bytes
}

#[cfg(test)]
mod tests {
    use super::*;

    #[test]
    fn another_byte_is_never_the_same() {
        let mut rng = Rng::new(4);
        for byte in 0..=u8::MAX {
            assert_ne!(other_byte(&mut rng, byte), byte);
        }
    }

    #[test]
    fn damage_reaches_every_place() {
        let frame = [0u8; 6];
        let mut rng = Rng::new(5);
        let mut changed = [false; 6];
        for place in 0..600 {
            let bytes = damaged(&mut rng, &frame, place);
            if bytes.len() == frame.len() {
                for (index, &byte) in bytes.iter().enumerate() {
                    changed[index] |= byte != 0;
                }
            }
        }
        assert_eq!(changed, [true; 6]);
    }
}
