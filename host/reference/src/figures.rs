//! Hexadecimal and decimal figures, as LECOM, Love and the console write them.
//!
//! Up to eight decimal figures are taken at once: one to a byte of a `u64`, the first in its lowest byte. Three steps
//! make pairs, fours and the eight of them, or take the eight apart again, each for the whole word at a time.

/// Marks a byte that is no hexadecimal figure in the tables below.
const NOT_HEX: u8 = 0xFF;

/// The value of each byte read as a hexadecimal figure of either case, or [`NOT_HEX`].
static HEX_VALUES: [u8; 256] = hex_values(true);
/// The value of each byte read as an upper-case hexadecimal figure, or [`NOT_HEX`].
static UPPER_HEX_VALUES: [u8; 256] = hex_values(false);
/// Each byte as two upper-case hexadecimal figures.
static HEX_FIGURES: [[u8; 2]; 256] = hex_figures_of_bytes();

const UPPER_HEX: &[u8; 16] = b"0123456789ABCDEF";

const fn hex_values(has_lower: bool) -> [u8; 256] {
    let mut values = [NOT_HEX; 256];
    let mut value = 0;
    while value < 16 {
        let figure = UPPER_HEX[value as usize];
        values[figure as usize] = value;
        if has_lower {
            values[figure.to_ascii_lowercase() as usize] = value;
        }
        value += 1;
    }
    values
}

const fn hex_figures_of_bytes() -> [[u8; 2]; 256] {
    let mut figures = [[0; 2]; 256];
    let mut byte = 0;
    while byte < 256 {
        figures[byte] = [UPPER_HEX[byte >> 4], UPPER_HEX[byte & 0x0F]];
        byte += 1;
    }
    figures
}

/// The byte that two hexadecimal figures of either case name.
#[inline]
pub fn hex_byte(high: u8, low: u8) -> Option<u8> {
    byte_of(HEX_VALUES[usize::from(high)], HEX_VALUES[usize::from(low)])
}

/// The byte that two upper-case hexadecimal figures name.
#[inline]
pub fn upper_hex_byte(high: u8, low: u8) -> Option<u8> {
    byte_of(UPPER_HEX_VALUES[usize::from(high)], UPPER_HEX_VALUES[usize::from(low)])
}

#[inline]
fn byte_of(high: u8, low: u8) -> Option<u8> {
    ((high | low) < 16).then_some(high << 4 | low)
}

/// Whether a byte is an upper-case hexadecimal figure.
#[inline]
pub fn is_upper_hex(byte: u8) -> bool {
    UPPER_HEX_VALUES[usize::from(byte)] != NOT_HEX
}

/// A byte as two upper-case hexadecimal figures.
#[inline]
pub fn hex_figures(byte: u8) -> [u8; 2] {
    HEX_FIGURES[usize::from(byte)]
}

/// The value of decimal figures, at most 18 of them; none for anything else, an empty slice too.
#[inline]
pub fn decimal_value(figures: &[u8]) -> Option<i64> {
    if figures.is_empty() || figures.len() > 18 {
        return None;
    }
    figures.iter().try_fold(0, |value, &figure| {
        figure.is_ascii_digit().then(|| value * 10 + i64::from(figure - b'0'))
    })
}

/// Eight times the character "0".
pub const EIGHT_ZEROS: u64 = u64::from_le_bytes([b'0'; 8]);
/// Added to figures, this sets the highest bit of every byte from 10 on that does not have it already.
const UP_TO_NINE: u64 = u64::from_le_bytes([0x80 - 10; 8]);
const HIGHEST_BITS: u64 = u64::from_le_bytes([0x80; 8]);

/// The value of eight decimal figures, given as their differences from "0" by exclusive-or; none if one is no figure.
#[inline]
pub fn value_of_eight(figures: u64) -> Option<u32> {
    if (figures.wrapping_add(UP_TO_NINE) | figures) & HIGHEST_BITS != 0 {
        return None;
    }
    let pairs = (figures * 10 + (figures >> 8)) & 0x00FF_00FF_00FF_00FF;
    let fours = (pairs * 100 + (pairs >> 16)) & 0x0000_FFFF_0000_FFFF;
    Some((fours as u32) * 10_000 + (fours >> 32) as u32)
}

/// The eight decimal figures, as values and not as characters, of a number below a hundred million.
#[inline]
pub fn eight_of(value: u32) -> u64 {
    let fours = u64::from(value / 10_000) | u64::from(value % 10_000) << 32;
    // By 5243 and a shift by 19 a number below ten thousand is divided by a hundred, by 103 and 10 one below a hundred
    // by ten.
    let hundreds = (fours * 5_243) >> 19 & 0x0000_007F_0000_007F;
    let pairs = hundreds | (fours - hundreds * 100) << 16;
    let tens = (pairs * 103) >> 10 & 0x000F_000F_000F_000F;
    tens | (pairs - tens * 10) << 8
}

/// The shortest decimal of a value of at most seven figures: its characters, the first in the lowest byte and zeros
/// after the last, and how many there are.
#[inline]
pub fn shortest_decimal(value: i32) -> (u64, u32) {
    let figures = eight_of(value.unsigned_abs());
    // The last figure is written even if it is a zero.
    let leading_zeros = (figures | 1 << 56).trailing_zeros() / 8;
    let text = (figures | EIGHT_ZEROS) >> (8 * leading_zeros);
    if value < 0 {
        (text << 8 | u64::from(b'-'), 9 - leading_zeros)
    } else {
        (text, 8 - leading_zeros)
    }
}

/// The value whose shortest decimal these characters are, at most eight of them; none if it is that of no value. They
/// stand as [`shortest_decimal`] gives them.
#[inline(always)]
pub fn value_of_shortest(text: u64, count: u32) -> Option<i32> {
    let is_negative = text as u8 == b'-';
    let text = if is_negative { text >> 8 } else { text };
    let figures = count - u32::from(is_negative);
    // A zero comes first only where it is all there is.
    if figures == 0 || text as u8 == b'0' && count > 1 {
        return None;
    }
    let value = value_of_eight((text ^ EIGHT_ZEROS) << (8 * (8 - figures)))? as i32;
    Some(if is_negative { -value } else { value })
}

/// The value of four decimal figures; none if one is no figure.
#[inline]
pub fn value_of_four(characters: [u8; 4]) -> Option<i32> {
    let figures = u32::from_le_bytes(characters) ^ EIGHT_ZEROS as u32;
    if (figures.wrapping_add(UP_TO_NINE as u32) | figures) & HIGHEST_BITS as u32 != 0 {
        return None;
    }
    let pairs = (figures * 10 + (figures >> 8)) & 0x00FF_00FF;
    Some(((pairs & 0xFF) * 100 + (pairs >> 16)) as i32)
}

/// The two decimal figures of a value below a hundred.
#[inline]
pub fn two_figures(value: u32) -> [u8; 2] {
    let tens = (value * 103) >> 10;
    let figures = tens | (value - tens * 10) << 8;
    (figures as u16 | EIGHT_ZEROS as u16).to_le_bytes()
}

/// The four decimal figures of a value below ten thousand.
#[inline]
pub fn four_figures(value: u32) -> [u8; 4] {
    let hundreds = (value * 5_243) >> 19;
    let pairs = hundreds | (value - hundreds * 100) << 16;
    let tens = (pairs * 103) >> 10 & 0x000F_000F;
    let figures = tens | (pairs - tens * 10) << 8;
    (figures | EIGHT_ZEROS as u32).to_le_bytes()
}

/// Most characters of a decimal: a minus and nineteen figures.
pub const DECIMAL_MOST: usize = 20;

/// The shortest decimal of a value, written at the end of the room lent.
#[inline]
pub fn decimal(value: i64, room: &mut [u8; DECIMAL_MOST]) -> &[u8] {
    let mut first = room.len();
    let mut left = value.unsigned_abs();
    loop {
        first -= 1;
        room[first] = b'0' + (left % 10) as u8;
        left /= 10;
        if left == 0 {
            break;
        }
    }
    if value < 0 {
        first -= 1;
        room[first] = b'-';
    }
    &room[first..]
}
