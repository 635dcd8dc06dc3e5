use super::{hex, Card, DATALINK};

/// "Takes its length from command and NUM": 6 for Interrogate, 6 and NUM for Change and Change Bits, of any I.A.; an odd NUM
/// of a Change Bits and a wrong LRC are the entry's business.
#[test]
fn length_from_command_and_num() {
    for num in 0..=32 {
        for (command, data) in [(0xE3, 0), (0xA3, num), (0xC3, num), (0xE0, 0), (0xBF, num), (0xDF, num)] {
            let mut frame = vec![0x7E, command, num, 0x34, 0x12];
            frame.extend((0..data).map(|place| 0x7E ^ place));
            frame.push(0x7E);
            assert_eq!(frame.len(), 6 + usize::from(data));
            DATALINK.hands_over(&frame);
        }
    }
}

/// An acknowledge is finished by its second byte, whosever it is.
#[test]
fn acknowledge() {
    for second in 0x80..=0x9F {
        DATALINK.hands_over(&[0x7E, second]);
    }
}

/// "Starts at 7Eh": anything else at rest is dropped.
#[test]
fn at_rest() {
    for byte in (0..=255).filter(|&byte| byte != 0x7E) {
        DATALINK.leaves(&[byte, byte], &[]);
        DATALINK.leaves(&[byte, 0x7E], &[0x7E]);
    }
}

/// "An unknown command (20h is one) drops what was collected, that byte included", 7Eh too.
#[test]
fn unknown_commands() {
    for second in 0..=0x7F {
        DATALINK.leaves(&[0x7E, second], &[]);
        DATALINK.leaves(&[0x7E, second, 0xE3, 0x7E], &[0x7E]);
    }
    for second in 0xA0..=0xFF {
        DATALINK.leaves(&[0x7E, second], &[0x7E, second]);
    }
}

/// "NUM above 32 drops what was collected, that byte included", 7Eh too.
#[test]
fn num_above_32() {
    for num in 33..=255 {
        for command in [0xE3, 0xA3, 0xC3] {
            DATALINK.leaves(&[0x7E, command, num], &[]);
            DATALINK.leaves(&[0x7E, command, num, 0xE3, 0x7E], &[0x7E]);
        }
    }
}

/// The head of a frame over several calls, and what drops it there.
#[test]
fn the_head_over_calls() {
    for (calls, collected) in [
        (&["7E", "E3", "02"][..], "7E E3 02"),
        (&["7E", "E3 02"], "7E E3 02"),
        (&["7E E3", "02 7E"], "7E E3 02 7E"),
        (&["7E", "7E", "7E"], "7E"),
        (&["7E", "20 7E"], "7E"),
        (&["7E", "E3 21", "7E A3"], "7E A3"),
        (&["7E E3", "7E 7E A3"], "7E A3"),
        (&["7E E3", "FF"], ""),
    ] {
        let mut card = Card::new();
        for call in calls {
            assert_eq!(DATALINK.hear(&mut card, call).0, 1, "{calls:?}");
        }
        assert_eq!(DATALINK.collected(&mut card), hex(collected), "{calls:?}");
    }
    let mut card = Card::new();
    assert_eq!(DATALINK.hear(&mut card, "7E"), (1, 1, vec![]));
    assert_eq!(DATALINK.hear(&mut card, "84 7E"), (0, 1, hex("7E 84")));
}

/// States that no bytes lead to.
#[test]
fn outside_the_rules() {
    for outside in [
        "7F",
        "7E 7E",
        "7E 83",
        "7E 23",
        "7E E3 21",
        "7E E3 09 00 10 FC",
        "7E A3 01 10 10 05 C9",
        "00 E3 02",
    ] {
        let mut card = DATALINK.card_with(&hex(outside));
        assert_eq!(DATALINK.hear(&mut card, "00").0, 12, "{outside}");
    }
    for inside in [
        "7E",
        "7E E3",
        "7E E3 20",
        "7E E3 09 00 10",
        "7E A3 01 10 10 05",
        "7E FF",
    ] {
        let mut card = DATALINK.card_with(&hex(inside));
        assert_eq!(DATALINK.hear(&mut card, "").0, 1, "{inside}");
    }
    let longest = [&hex("7E A3 20")[..], &[0; 35]].concat();
    assert_eq!(DATALINK.hear(&mut DATALINK.card_with(&longest), "").0, 12);
    let inside = &longest[..37];
    assert_eq!(DATALINK.hear(&mut DATALINK.card_with(inside), "").0, 1);
}
