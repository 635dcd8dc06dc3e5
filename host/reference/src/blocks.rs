//! Bytes in blocks of a fixed length, which the compiler takes many at a time, so that a sum costs the same for every
//! length.
//!
//! The sums are kept out of line: where they are inlined, the compiler takes the blocks apart again.

/// A block with these bytes, at most 32, at its front and the same byte everywhere after them.
#[inline(always)]
pub fn padded(bytes: &[u8], after: u8) -> [u8; 32] {
    let mut block = [after; 32];
    block[..bytes.len()].copy_from_slice(bytes);
    block
}

/// The sum of a block's bytes modulo 256.
#[inline(never)]
pub fn sum(block: &[u8; 32]) -> u8 {
    block.iter().fold(0, |sum, &byte| sum.wrapping_add(byte))
}

/// The sum of a few bytes modulo 256.
#[inline(always)]
pub fn sum_of<const N: usize>(bytes: &[u8; N]) -> u8 {
    bytes.iter().fold(0, |sum, &byte| sum.wrapping_add(byte))
}

/// The sum modulo 256 of the first bytes of a block.
#[inline(never)]
pub fn sum_of_first(count: usize, block: &[u8; 32]) -> u8 {
    let bytes = block.iter().zip(&MASKS[count]);
    bytes.fold(0, |sum, (&byte, &mask)| sum.wrapping_add(byte & mask))
}

/// For each count, that many bytes of ones and after them zeros.
static MASKS: [[u8; 32]; 33] = {
    let mut masks = [[0; 32]; 33];
    let mut count = 0;
    while count <= 32 {
        let mut place = 0;
        while place < count {
            masks[count][place] = 0xFF;
            place += 1;
        }
        count += 1;
    }
    masks
};

/// The exclusive-or of a block's bytes.
#[inline(never)]
pub fn exclusive_or(block: &[u8; 32]) -> u8 {
    block.iter().fold(0, |all, &byte| all ^ byte)
}

/// The last eight of at least four bytes, the very last in the word's highest byte; where there are fewer than eight,
/// zeros come before them.
#[inline(always)]
pub fn last_eight(bytes: &[u8]) -> Option<u64> {
    if let Some(&last) = bytes.last_chunk() {
        return Some(u64::from_le_bytes(last));
    }
    let (first, last) = (*bytes.first_chunk()?, *bytes.last_chunk()?);
    let lower = u64::from(u32::from_le_bytes(first)) << (8 * (8 - bytes.len()));
    Some(u64::from(u32::from_le_bytes(last)) << 32 | lower)
}

/// The exclusive-or of a word's eight bytes.
#[inline]
pub fn exclusive_or_of_eight(word: u64) -> u8 {
    let four = word ^ word >> 32;
    let two = four ^ four >> 16;
    (two ^ two >> 8) as u8
}

/// Whether every byte of a block is a hexadecimal figure of either case.
#[inline(never)]
pub fn all_hex(block: &[u8; 32]) -> bool {
    block.iter().fold(true, |all, &byte| {
        let is_letter = (byte | 0x20).wrapping_sub(b'a') < 6;
        all & ((byte.wrapping_sub(b'0') < 10) | is_letter)
    })
}
