use crate::blocks::{all_hex, exclusive_or, exclusive_or_of_eight, last_eight, padded, sum, sum_of, sum_of_first};

/// Bytes whose sums pass 256 many times.
fn block() -> [u8; 32] {
    std::array::from_fn(|place| (place * 53 + 201) as u8)
}

fn plain_sum(bytes: &[u8]) -> u8 {
    bytes.iter().fold(0, |sum, &byte| sum.wrapping_add(byte))
}

#[test]
fn sums_of_every_length() {
    let block = block();
    for count in 0..=32 {
        let bytes = &block[..count];
        assert_eq!(sum(&padded(bytes, 0)), plain_sum(bytes));
        assert_eq!(sum_of_first(count, &block), plain_sum(bytes));
    }
    let few: [u8; 10] = std::array::from_fn(|place| block[place]);
    assert_eq!(sum_of(&few), plain_sum(&few));
}

#[test]
fn exclusive_ors() {
    let block = block();
    let plain = |bytes: &[u8]| bytes.iter().fold(0, |all, &byte| all ^ byte);
    assert_eq!(exclusive_or(&block), plain(&block));
    let eight: [u8; 8] = std::array::from_fn(|place| block[place]);
    assert_eq!(exclusive_or_of_eight(u64::from_le_bytes(eight)), plain(&eight));
}

#[test]
fn the_last_eight_of_every_length() {
    let block = block();
    for count in 0..=32 {
        let bytes = &block[..count];
        let expected = (count >= 4).then(|| {
            let mut last = [0; 8];
            let kept = count.min(8);
            last[8 - kept..].copy_from_slice(&bytes[count - kept..]);
            u64::from_le_bytes(last)
        });
        assert_eq!(last_eight(bytes), expected);
    }
}

#[test]
fn hexadecimal_in_every_place() {
    for place in 0..32 {
        for byte in 0..=255_u8 {
            let mut block = [b'a'; 32];
            block[place] = byte;
            assert_eq!(all_hex(&block), byte.is_ascii_hexdigit());
        }
    }
}
