use super::{hex, Card, LUCID};

/// A frame with this LEN.
fn frame(len: u8) -> Vec<u8> {
    let mut frame = vec![0x46, len, 0x40, len];
    frame.extend((0..len).map(|place| place ^ 0x5A));
    frame
}

/// "Counts from LEN": every frame is 4 and LEN bytes.
#[test]
fn counts_from_len() {
    for len in 0..=255 {
        LUCID.hands_over(&frame(len));
    }
}

/// Nothing is ever dropped: any bytes begin a frame.
#[test]
fn nothing_is_dropped() {
    for byte in 0..=255 {
        LUCID.leaves(&[byte, byte, byte], &[byte, byte, byte]);
    }
}

/// LEN comes in a later call.
#[test]
fn len_over_calls() {
    for split in 1..6 {
        let frame = frame(2);
        let mut card = Card::new();
        assert_eq!(LUCID.receive(&mut card, &frame[..split]), (1, split, vec![]));
        assert_eq!(LUCID.receive(&mut card, &frame[split..]), (0, 6 - split, frame));
    }
}

/// States that no bytes lead to: as many bytes as LEN says, or more.
#[test]
fn outside_the_rules() {
    for len in 0..=255 {
        let frame = frame(len);
        let mut card = LUCID.card_with(&frame);
        assert_eq!(LUCID.hear(&mut card, "").0, 12);
        *(LUCID.part)(&mut card).0 += 1;
        assert_eq!(LUCID.hear(&mut card, "").0, 12);
        assert_eq!(LUCID.hear(&mut LUCID.card_with(&frame[..frame.len() - 1]), "").0, 1);
    }
    assert_eq!(LUCID.hear(&mut LUCID.card_with(&hex("FF FF FF")), "").0, 1);
    let mut card = LUCID.card_with(&frame(255));
    *(LUCID.part)(&mut card).0 = 258;
    assert_eq!(LUCID.hear(&mut card, "").0, 1);
    *(LUCID.part)(&mut card).0 = 260;
    assert_eq!(LUCID.hear(&mut card, "").0, 12);
}
