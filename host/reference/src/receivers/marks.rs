//! Bytes looked for eight at a time, in a word whose lowest byte came first. A mark is the highest bit of a byte.

const LOWEST_BITS: u64 = u64::from_le_bytes([0x01; 8]);
const HIGHEST_BITS: u64 = u64::from_le_bytes([0x80; 8]);
/// What stands above four bytes: nothing that is looked for.
const ABOVE_FOUR: u64 = 0xFFFF_FFFF << 32;

/// Marks the bytes that are zero. A 01h behind a zero is marked too; so only the first mark is sure, and all of them where
/// the lowest bits are clear.
#[inline(always)]
fn zeros(word: u64) -> u64 {
    word.wrapping_sub(LOWEST_BITS) & !word & HIGHEST_BITS
}

/// Marks the bytes below a limit, which is a power of two above 1.
#[inline(always)]
pub fn below<const LIMIT: u8>(word: u64) -> u64 {
    zeros(word & u64::from_le_bytes([!(LIMIT - 1); 8]))
}

/// Marks STX and ETX, which differ in the lowest bit.
#[inline(always)]
pub fn stx_and_etx(word: u64) -> u64 {
    zeros((word ^ u64::from_le_bytes([0x02; 8])) & !LOWEST_BITS)
}

/// The place of the first mark.
#[inline(always)]
pub fn first(marks: u64) -> usize {
    (marks.trailing_zeros() / 8) as usize
}

/// The place of the first byte below a limit from a place on; the bytes' end if there is none.
#[inline(always)]
pub fn find_below<const LIMIT: u8>(bytes: &[u8], from: usize) -> usize {
    find(bytes, from, below::<LIMIT>, |byte| byte < LIMIT)
}

/// The place of the first byte of this value from a place on; the bytes' end if there is none.
#[inline(always)]
pub fn find_equal(bytes: &[u8], from: usize, value: u8) -> usize {
    let eight = u64::from_le_bytes([value; 8]);
    find(bytes, from, |word| zeros(word ^ eight), |byte| byte == value)
}

/// Looks for a byte by a rule for words and the same rule for bytes.
#[inline(always)]
fn find(bytes: &[u8], from: usize, marks_of: impl Fn(u64) -> u64, is_wanted: impl Fn(u8) -> bool) -> usize {
    let mut left = &bytes[from..];
    while let Some((&eight, rest)) = left.split_first_chunk() {
        let marks = marks_of(u64::from_le_bytes(eight));
        if marks != 0 {
            return bytes.len() - left.len() + first(marks);
        }
        left = rest;
    }
    if let Some((&four, rest)) = left.split_first_chunk() {
        let marks = marks_of(u64::from(u32::from_le_bytes(four)) | ABOVE_FOUR);
        if marks != 0 {
            return bytes.len() - left.len() + first(marks);
        }
        left = rest;
    }
    while let Some((&byte, rest)) = left.split_first() {
        if is_wanted(byte) {
            break;
        }
        left = rest;
    }
    bytes.len() - left.len()
}
