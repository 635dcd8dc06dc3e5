//! Requests to the line master.

use crate::card::{IA_MOST, MEMORY_END, MEMORY_START};
use crate::frames::datalink::writable_address;
use crate::master::{BITS_MOST, BYTES_MOST};
use crate::rng::Rng;
use crate::text::hex_words;
use crate::writer::Addresses;

/// What the master is to ask.
pub struct Request {
    ia: u8,
    address: u16,
    data: Data,
}

/// Bytes, or masks and states.
enum Data {
    Bytes(Vec<u8>),
    Bits(Vec<u8>, Vec<u8>),
}

impl Request {
    /// A request that 7 does not refuse; its range is mostly writable.
    pub fn draw(rng: &mut Rng, to: &Addresses) -> Self {
        let is_bits = rng.chance(50);
        let most = if is_bits { BITS_MOST } else { BYTES_MOST };
        let inside = rng.below(most + 1);
        let count = rng.pick(&[0, 1, 2, most, inside, inside, inside]);
        let ia = if rng.chance(95) {
            to.ia
        } else {
            rng.between(0, IA_MOST) as u8
        };
        let data = if is_bits {
            let masks = rng.pick(&[None, None, Some(0xFF), Some(0x00)]);
            let states = rng.pick(&[None, None, Some(0x00)]);
            Data::Bits(force_bytes(rng, count, masks), force_bytes(rng, count, states))
        } else {
            Data::Bytes(rng.bytes(count))
        };
        Self {
            ia,
            address: address(rng, count as u8),
            data,
        }
    }

    /// The line of this request.
    pub fn line(&self) -> String {
        let Self { ia, address, data } = self;
        match data {
            Data::Bytes(bytes) => format!("request change {ia} {address}{}", hex_words(bytes)),
            Data::Bits(masks, states) => {
                let (masks, states) = (hex_words(masks), hex_words(states));
                format!("request bits {ia} {address}{masks} /{states}")
            }
        }
    }

    /// For each named byte in the memory its place and a value that is as asked.
    pub fn places(&self) -> Vec<(usize, u8)> {
        let wanted = match &self.data {
            Data::Bytes(bytes) => bytes,
            Data::Bits(_, states) => states,
        };
        let named = (usize::from(self.address)..).zip(wanted.iter().copied());
        named
            .filter(|(address, _)| (usize::from(MEMORY_START)..usize::from(MEMORY_END)).contains(address))
            .map(|(address, byte)| (address - usize::from(MEMORY_START), byte))
            .collect()
    }
}

/// Masks or states: all the same, or often such that only a few bits are forced.
fn force_bytes(rng: &mut Rng, count: usize, all: Option<u8>) -> Vec<u8> {
    (0..count)
        .map(|_| {
            let bit = 1 << rng.below(8);
            let any = rng.byte();
            let some = rng.pick(&[0x00, 0xFF, bit, !bit, any, any]);
            all.unwrap_or(some)
        })
        .collect()
}

/// Where a request's bytes begin: writable, read-only, half outside, outside or far off.
fn address(rng: &mut Rng, count: u8) -> u16 {
    let half = u16::from(count / 2);
    let end = MEMORY_END - u16::from(count);
    let far_end = 0xFFFF - u16::from(count.saturating_sub(1));
    match rng.below(12) {
        0 => rng.between(0x1000, 0x100F) as u16,
        1 => rng.pick(&[MEMORY_END - half, end + 1, MEMORY_END]),
        2 => rng.pick(&[MEMORY_START - half, MEMORY_START - 1]),
        3 => rng.pick(&[0, 0x8000, far_end - 1, far_end, far_end, 0x2010]),
        _ => writable_address(rng, count),
    }
}

/// The line of a request that 7 refuses.
pub fn refused(rng: &mut Rng) -> String {
    let bytes = |count: usize| " 5A".repeat(count);
    match rng.below(10) {
        0 => format!("request change 32 4112{}", bytes(2)),
        1 => format!("request change 4294967295 4112{}", bytes(2)),
        2 => format!("request change 3 65536{}", bytes(0)),
        3 => format!("request change 3 65535{}", bytes(2)),
        4 => format!("request change 3 4112{}", bytes(33)),
        5 => format!("request bits 3 4112{} /{}", bytes(17), bytes(17)),
        6 => format!("request bits 3 4112{} /{}", bytes(3), bytes(2)),
        7 => format!("request bits 3 4112{} /{}", bytes(0), bytes(1)),
        8 => format!("request bits 3 65530{} /{}", bytes(7), bytes(7)),
        _ => format!("request change 3 4294967295{}", bytes(9000)),
    }
}
