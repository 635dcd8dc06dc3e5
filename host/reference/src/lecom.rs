//! The LECOM dialect (document 01, "LECOM"; source document 001).

use crate::blocks::{exclusive_or, exclusive_or_of_eight};
use crate::card::{Card, Tenths, CHANNELS, REGISTERS, REGISTER_RANGE};
use crate::figures::{is_upper_hex, shortest_decimal, upper_hex_byte, value_of_eight, EIGHT_ZEROS};
use crate::numbers::{Number, Reply, ANSWER_ROOM};

/// Shortest frame.
pub const SHORTEST: usize = 6;
/// Longest frame.
pub const LONGEST: usize = 25;

pub(crate) const STX: u8 = 0x02;
pub(crate) const ETX: u8 = 0x03;
pub(crate) const EOT: u8 = 0x04;
pub(crate) const ENQ: u8 = 0x05;
pub(crate) const ACK: u8 = 0x06;
pub(crate) const NAK: u8 = 0x15;

/// EOT and two address figures.
const HEAD: usize = 3;
/// Most data characters of a write.
const DATA_MOST: usize = 12;
const EXTENDED_MARK: u8 = b'!';

pub(crate) const LAST_REGISTER: u8 = REGISTERS as u8 - 1;
pub(crate) const FIRST_PROBE: u8 = 0x60;
pub(crate) const LAST_PROBE: u8 = FIRST_PROBE + CHANNELS as u8 - 1;
pub(crate) const ACTIVATE: u8 = 0x67;
pub(crate) const STORE: u8 = 0x68;
/// What an extended code reaches that begins with anything but "!00" or has a subcode: nothing, as every code above STORE.
const NOWHERE: u8 = 0xFF;

/// The characters of a code.
#[derive(Clone, Copy)]
pub(crate) enum Code<'a> {
    /// Two figures.
    Standard(&'a [u8; 2]),
    /// "!", four code figures, two of subcode.
    Extended(&'a [u8; 7]),
}

impl<'a> Code<'a> {
    #[inline(always)]
    fn characters(self) -> &'a [u8] {
        match self {
            Self::Standard(code) => code,
            Self::Extended(code) => code,
        }
    }
}

/// Entry: a LECOM frame.
pub fn lecom(card: &mut Card, frame: &[u8], answer: &mut [u8]) -> Reply {
    if !card.is_fit() {
        return Reply::silent(Number::Unfit);
    }
    let Some(answer) = answer.first_chunk_mut() else {
        return Reply::silent(Number::ShortBuffer);
    };
    if !(SHORTEST..=LONGEST).contains(&frame.len()) || frame[0] != EOT {
        return Reply::silent(Number::Form);
    }
    let (tens, ones) = (frame[1].wrapping_sub(b'0'), frame[2].wrapping_sub(b'0'));
    if tens > 9 || ones > 9 {
        return Reply::silent(Number::Form);
    }
    let called = 10 * u32::from(tens) + u32::from(ones);
    let unit = card.addresses.lecom;
    let is_alone = called == unit;
    if !is_alone && (ones != 0 || tens != 0 && u32::from(tens) != unit / 10) {
        return Reply::silent(Number::Foreign);
    }
    let line = Line { is_alone, answer };
    if frame[HEAD] == STX {
        write(card, frame, line)
    } else {
        read(card, &frame[HEAD..], line)
    }
}

/// Where answers go. To address 00 or the unit's ten no bytes are sent, NAK included, and 0 becomes 1.
struct Line<'a> {
    /// Whether the unit is called by its own address.
    is_alone: bool,
    answer: &'a mut [u8; ANSWER_ROOM],
}

impl Line<'_> {
    /// A write is done: ACK.
    #[inline(always)]
    fn written(self) -> Reply {
        if !self.is_alone {
            return Reply::silent(Number::Silent);
        }
        self.answer[0] = ACK;
        Reply::answered(1)
    }

    /// A refusal: NAK.
    #[inline(always)]
    fn refused(self, number: Number) -> Reply {
        if !self.is_alone {
            return Reply::silent(number);
        }
        self.answer[0] = NAK;
        Reply { number, length: 1 }
    }

    /// An unknown code in a read: STX, the code as received, EOT.
    #[inline(always)]
    fn unknown_code(self, code: Code) -> Reply {
        if !self.is_alone {
            return Reply::silent(Number::Unknown);
        }
        let code = code.characters();
        let end = 1 + code.len();
        self.answer[0] = STX;
        self.answer[1..end].copy_from_slice(code);
        self.answer[end] = EOT;
        Reply {
            number: Number::Unknown,
            length: end + 1,
        }
    }

    /// The value read: STX, the code, its shortest decimal, ETX and BCC.
    #[inline(always)]
    fn value(self, code: Code, value: i32) -> Reply {
        if !self.is_alone {
            return Reply::silent(Number::Silent);
        }
        match code {
            Code::Standard(code) => self.value_of(code, value),
            Code::Extended(code) => self.value_of(code, value),
        }
    }

    #[inline(always)]
    fn value_of<const N: usize>(self, code: &[u8; N], value: i32) -> Reply {
        let (text, count) = shortest_decimal(value);
        let text = text | u64::from(ETX) << (8 * count);
        let mut block = [0; 1 + 7 + 8 + 1];
        block[0] = STX;
        block[1..N + 1].copy_from_slice(code);
        block[N + 1..N + 9].copy_from_slice(&text.to_le_bytes());
        let end = N + 2 + count as usize;
        block[end] = code
            .iter()
            .fold(exclusive_or_of_eight(text), |bcc, &character| bcc ^ character);
        self.answer[..end + 1].copy_from_slice(&block[..end + 1]);
        Reply::answered(end + 1)
    }
}

/// Parts a code from what follows it: its characters, what it reaches, the rest; none if its layout is wrong.
#[inline(always)]
pub(crate) fn split_code(bytes: &[u8]) -> Option<(Code<'_>, u8, &[u8])> {
    if bytes[0] == EXTENDED_MARK {
        let (code, rest) = bytes.split_first_chunk()?;
        let reached = match *code {
            [_, b'0', b'0', high, low, b'0', b'0'] => upper_hex_byte(high, low)?,
            _ if code[1..].iter().all(|&character| is_upper_hex(character)) => NOWHERE,
            _ => return None,
        };
        return Some((Code::Extended(code), reached, rest));
    }
    let (code, rest) = bytes.split_first_chunk()?;
    Some((Code::Standard(code), upper_hex_byte(code[0], code[1])?, rest))
}

/// Answers a read: code and ENQ.
#[inline(always)]
fn read(card: &Card, body: &[u8], line: Line) -> Reply {
    let Some((code, reached, &[ENQ])) = split_code(body) else {
        return line.refused(Number::Form);
    };
    match reached {
        0..=LAST_REGISTER => line.value(code, card.operational[usize::from(reached)]),
        FIRST_PROBE..=LAST_PROBE => {
            let Some(Tenths(tenths)) = card.temperature(usize::from(reached - FIRST_PROBE)) else {
                return line.refused(Number::Fault);
            };
            line.value(code, tenths.into())
        }
        ACTIVATE | STORE => line.value(code, 0),
        _ => line.unknown_code(code),
    }
}

/// Carries out a write: STX, code, data, ETX, BCC.
#[inline(always)]
fn write(card: &mut Card, frame: &[u8], line: Line) -> Reply {
    let Some((_, reached, rest)) = split_code(&frame[HEAD + 1..]) else {
        return line.refused(Number::Form);
    };
    let Some((data, &[ETX, _])) = rest.split_last_chunk() else {
        return line.refused(Number::Form);
    };
    if !(1..=DATA_MOST).contains(&data.len()) {
        return line.refused(Number::Form);
    }
    // The frame at the end of a block: BCC, ETX and the data's end are then always in the same place.
    let mut block = [0; 32];
    block[32 - frame.len()..].copy_from_slice(frame);
    if exclusive_or(&block) != frame[0] ^ frame[1] ^ frame[2] ^ frame[3] {
        return line.refused(Number::Check);
    }
    let is_register = reached <= LAST_REGISTER;
    if !is_register && !matches!(reached, ACTIVATE | STORE) {
        let is_probe = (FIRST_PROBE..=LAST_PROBE).contains(&reached);
        return line.refused(if is_probe { Number::ReadOnly } else { Number::Unknown });
    }
    let Some(value) = value(&block, data.len()) else {
        return line.refused(Number::Outside);
    };
    if is_register {
        card.buffer[usize::from(reached)] = value;
        return line.written();
    }
    if !(0..=1).contains(&value) {
        return line.refused(Number::Outside);
    }
    if value == 1 {
        if reached == ACTIVATE {
            copy(&card.buffer, &mut card.operational);
        } else {
            copy(&card.operational, &mut card.saved);
        }
    }
    line.written()
}

/// Copies registers, in blocks that are copied in place: the C library's copy of all of them takes more instructions.
#[inline(always)]
fn copy(from: &[i32; REGISTERS], to: &mut [i32; REGISTERS]) {
    for (to, from) in to.as_chunks_mut::<32>().0.iter_mut().zip(from.as_chunks().0) {
        *to = *from;
    }
}

/// The value of the data characters before ETX and BCC at the block's end: an optional minus and at least one figure, in
/// a register's range.
#[inline(always)]
fn value(block: &[u8; 32], count: usize) -> Option<i32> {
    let is_negative = block[30 - count] == b'-';
    let figures = count - usize::from(is_negative);
    if figures == 0 {
        return None;
    }
    // The last eight characters, and the four before them, of which those that are no data count as zeros.
    let [.., a, b, c, d, e, f, g, h, _, _] = *block;
    let last = u64::from_le_bytes([a, b, c, d, e, f, g, h]) ^ EIGHT_ZEROS;
    let [.., a, b, c, d, _, _, _, _, _, _, _, _, _, _] = *block;
    let before = u32::from_le_bytes([a, b, c, d]) ^ EIGHT_ZEROS as u32;
    let foreign = 8 * (8 - figures.min(8));
    let foreign_before = 8 * (4 - figures.saturating_sub(8));
    if u64::from(before) >> foreign_before != 0 {
        return None;
    }
    let value = value_of_eight(last >> foreign << foreign)? as i32;
    let value = if is_negative { -value } else { value };
    (!REGISTER_RANGE.excludes(value)).then_some(value)
}
