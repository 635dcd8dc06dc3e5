//! Datalink messages, as the card and the line master both have them (document 01, "Datalink").

use crate::card::NUM_MOST;
use crate::datalink::LONGEST;

/// First byte of every frame.
pub const START: u8 = 0x7E;
/// Command bits: a request for bytes.
pub const INTERROGATE: u8 = 0xE0;
/// Command bits: new bytes.
pub const CHANGE: u8 = 0xA0;
/// Command bits: masks and states.
pub const CHANGE_BITS: u8 = 0xC0;
/// Command bits: apply the pending change; two bytes, no LRC.
pub const ACKNOWLEDGE: u8 = 0x80;
/// Command bits: the card's answer.
pub const RESPONSE: u8 = 0x20;

/// The command of a command byte.
pub const COMMAND_FIELD: u8 = 0xE0;
/// The I.A. of a command byte.
pub const ADDRESS_FIELD: u8 = 0x1F;
/// Bytes before the data: 7Eh, command and I.A., NUM, low address, high address.
pub const HEAD: usize = 5;

/// Command and I.A., NUM, low address and high address: the bytes after 7Eh and before the data.
#[derive(Clone, Copy, PartialEq, Eq)]
pub struct Head(u32);

impl Head {
    #[inline]
    pub fn new(command: u8, num: u8, address: u16) -> Self {
        Self(u32::from(address) << 16 | u32::from(num) << 8 | u32::from(command))
    }

    /// Takes a frame apart into head, data and LRC.
    #[inline]
    pub fn take(frame: &[u8]) -> Option<(Self, &[u8], u8)> {
        let (&[_, a, b, c, d], rest) = frame.split_first_chunk()?;
        let (&lrc, data) = rest.split_last()?;
        Some((Self(u32::from_le_bytes([a, b, c, d])), data, lrc))
    }

    #[inline]
    pub fn command(self) -> u8 {
        self.0 as u8
    }

    #[inline]
    pub fn num(self) -> u8 {
        (self.0 >> 8) as u8
    }

    #[inline]
    pub fn address(self) -> u16 {
        (self.0 >> 16) as u16
    }

    #[inline]
    pub fn sum(self) -> u8 {
        let [command, num, low, high] = self.0.to_le_bytes();
        command.wrapping_add(num).wrapping_add(low).wrapping_add(high)
    }

    /// The head of the card's answer to this one.
    #[inline]
    pub fn response(self) -> Self {
        let command = u32::from(COMMAND_FIELD);
        Self(self.0 & !command | u32::from(RESPONSE))
    }

    /// The LRC of the card's answer, as far as it answers the same data: only the command differs.
    #[inline]
    pub fn response_lrc(self, lrc: u8) -> u8 {
        lrc.wrapping_sub(self.command()).wrapping_add(self.response().command())
    }

    /// Writes 7Eh, this head and the data.
    #[inline]
    pub fn write(self, data: &[u8], frame: &mut [u8; LONGEST]) {
        frame[0] = START;
        frame[1..HEAD].copy_from_slice(&self.0.to_le_bytes());
        frame[HEAD..HEAD + data.len()].copy_from_slice(data);
    }
}

/// Where a frame's data may stand.
#[inline]
pub fn data_room(frame: &[u8; LONGEST]) -> &[u8; NUM_MOST] {
    let [_, _, _, _, _, data @ .., _] = frame;
    data
}

/// What a masked byte becomes.
#[inline]
pub fn forced(old: u8, mask: u8, state: u8) -> u8 {
    (old & mask) | state
}
