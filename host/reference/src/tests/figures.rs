use crate::figures::{
    decimal, decimal_value, four_figures, hex_byte, hex_figures, is_upper_hex, shortest_decimal, two_figures,
    upper_hex_byte, value_of_eight, value_of_four, value_of_shortest, DECIMAL_MOST, EIGHT_ZEROS,
};

/// Every magnitude up to 9,999, the neighbours of every power of ten, and steps over the rest, of either sign.
fn values() -> impl Iterator<Item = i32> {
    let edges = (0..8).map(|power| 10_i32.pow(power)).flat_map(|edge| [edge - 1, edge]);
    let magnitudes = (0..10_000).chain(edges).chain((10_000..10_000_000).step_by(977));
    magnitudes
        .filter(|&magnitude| magnitude < 10_000_000)
        .flat_map(|magnitude| [magnitude, -magnitude])
}

#[test]
fn a_decimal_in_one_word() {
    for value in values() {
        let (text, count) = shortest_decimal(value);
        assert_eq!(value_of_shortest(text, count), Some(value));
        let bytes = text.to_le_bytes();
        let (text, rest) = bytes.split_at(count as usize);
        assert_eq!(text, value.to_string().as_bytes());
        assert!(rest.iter().all(|&byte| byte == 0));
        assert_eq!(decimal(value.into(), &mut [0; DECIMAL_MOST]), text);
    }
}

#[test]
fn what_is_no_shortest_decimal() {
    let read = |text: &[u8]| {
        let mut word = [0; 8];
        word[..text.len()].copy_from_slice(text);
        value_of_shortest(u64::from_le_bytes(word), text.len() as u32)
    };
    assert_eq!(read(b"99999999"), Some(99_999_999));
    assert_eq!(read(b"-9999999"), Some(-9_999_999));
    for text in ["-", "-0", "--1", "00", "01", "-01", "+1", "1-", " 1", "1 ", "1.0", "A"] {
        assert_eq!(read(text.as_bytes()), None, "{text}");
    }
    for byte in (0..=255_u8).filter(|byte| !byte.is_ascii_digit()) {
        for place in 1..8 {
            let mut text = *b"19283746";
            text[place] = byte;
            assert_eq!(read(&text), None);
        }
    }
}

#[test]
fn eight_figures_in_one_word() {
    for value in values().map(i32::unsigned_abs) {
        let text = format!("{value:08}");
        let figures = u64::from_le_bytes(text.as_bytes().try_into().expect("eight figures")) ^ EIGHT_ZEROS;
        assert_eq!(value_of_eight(figures), Some(value));
    }
}

#[test]
fn two_figures_of_a_value() {
    for value in 0..100 {
        assert_eq!(two_figures(value), format!("{value:02}").as_bytes());
    }
}

#[test]
fn four_figures_and_back() {
    for value in 0..10_000 {
        let figures = four_figures(value);
        assert_eq!(figures, format!("{value:04}").as_bytes());
        assert_eq!(value_of_four(figures), Some(value as i32));
    }
}

/// In every place every other byte is refused.
#[test]
fn what_is_no_figure() {
    for byte in (0..=255_u8).filter(|byte| !byte.is_ascii_digit()) {
        for place in 0..8 {
            let mut text = *b"19283746";
            text[place] = byte;
            assert_eq!(value_of_eight(u64::from_le_bytes(text) ^ EIGHT_ZEROS), None);
        }
        for place in 0..4 {
            let mut text = *b"9081";
            text[place] = byte;
            assert_eq!(value_of_four(text), None);
        }
        assert_eq!(decimal_value(&[byte]), None);
    }
}

#[test]
fn hexadecimal_figures() {
    for byte in 0..=255_u8 {
        let upper = format!("{byte:02X}").into_bytes();
        let lower = upper.to_ascii_lowercase();
        assert_eq!(hex_figures(byte), upper[..]);
        assert_eq!(hex_byte(upper[0], upper[1]), Some(byte));
        assert_eq!(hex_byte(lower[0], upper[1]), Some(byte));
        assert_eq!(upper_hex_byte(upper[0], upper[1]), Some(byte));
        assert_eq!(upper_hex_byte(lower[0], lower[1]).is_some(), lower == upper);
        let is_upper = byte.is_ascii_hexdigit() && !byte.is_ascii_lowercase();
        assert_eq!(is_upper_hex(byte), is_upper);
        assert_eq!(hex_byte(byte, b'0').is_some(), byte.is_ascii_hexdigit());
        assert_eq!(upper_hex_byte(b'0', byte).is_some(), is_upper);
    }
}
