use super::{hex, Card, LECOM};

/// EOT and ordinary bytes, 25 in all.
fn full() -> Vec<u8> {
    [&[0x04][..], &[0x31; 24]].concat()
}

/// EOT, STX and ordinary bytes, with an ETX as the 25th.
fn full_with_etx() -> Vec<u8> {
    [&[0x04, 0x02][..], &[0x31; 22], &[0x03]].concat()
}

/// "Ends at ENQ where no STX has come."
#[test]
fn ends_at_enq() {
    LECOM.hands_over(&hex("04 31 31 30 30 05"));
    LECOM.hands_over(&hex("04 31 31 21 30 38 31 41 30 30 05"));
    LECOM.hands_over(&hex("04 31 03 03 05"));
}

/// "Else with the byte after ETX, which is the BCC even if it is 04h"; ENQ and a later STX are then ordinary.
#[test]
fn ends_with_the_bcc() {
    for bcc in 0..=255 {
        LECOM.hands_over(&[0x04, 0x31, 0x31, 0x02, 0x30, 0x30, 0x31, 0x03, bcc]);
    }
    LECOM.hands_over(&hex("04 02 05 02 05 03 05"));
    LECOM.hands_over(&hex("04 03 02 03 04"));
}

/// A finished frame below the dialect's shortest is handed over.
#[test]
fn short_frames() {
    LECOM.hands_over(&hex("04 05"));
    LECOM.hands_over(&hex("04 02 03 01"));
}

/// "Starts anew at EOT"; at rest anything else is dropped.
#[test]
fn starts_anew_at_eot() {
    for byte in (0..=255).filter(|&byte| byte != 0x04) {
        LECOM.leaves(&[byte], &[]);
        LECOM.leaves(&[byte, 0x04], &[0x04]);
    }
    LECOM.leaves(&hex("04 31 31 04"), &hex("04"));
    LECOM.leaves(&hex("04 31 02 31 04 32"), &hex("04 32"));
    let mut card = Card::new();
    assert_eq!(LECOM.hear(&mut card, "04 31 02 31 04 32 05").2, hex("04 32 05"));
    LECOM.hear(&mut card, "04 02 30");
    assert_eq!(LECOM.hear(&mut card, "04 31 05"), (0, 3, hex("04 31 05")));
}

/// Bytes are bytes: no test of characters.
#[test]
fn any_byte_is_collected() {
    for byte in (0..=255).filter(|byte| ![0x04, 0x05].contains(byte)) {
        LECOM.leaves(&[0x04, byte], &[0x04, byte]);
    }
    for byte in (0..=255).filter(|byte| ![0x03, 0x04].contains(byte)) {
        LECOM.leaves(&[0x04, 0x02, byte], &[0x04, 0x02, byte]);
    }
}

/// "A byte past the dialect's longest drops the frame, itself too unless it starts anew."
#[test]
fn past_the_longest() {
    LECOM.leaves(&full(), &full());
    for byte in (0..=255).filter(|&byte| byte != 0x04) {
        LECOM.leaves(&[&full()[..], &[byte]].concat(), &[]);
        let mut card = LECOM.card_with(&full());
        assert_eq!(LECOM.receive(&mut card, &[byte, 0x04]), (1, 2, vec![]));
        assert_eq!(LECOM.collected(&mut card), [0x04]);
    }
    LECOM.leaves(&[&full()[..], &[0x04, 0x32]].concat(), &[0x04, 0x32]);
    let mut card = LECOM.card_with(&full());
    assert_eq!(LECOM.hear(&mut card, "04 32"), (1, 2, vec![]));
    assert_eq!(LECOM.collected(&mut card), [0x04, 0x32]);
    let mut longest = full();
    longest[24] = 0x05;
    LECOM.hands_over(&longest);
}

/// A BCC past the longest is dropped with the frame, 04h too.
#[test]
fn bcc_past_the_longest() {
    LECOM.leaves(&full_with_etx(), &full_with_etx());
    for bcc in 0..=255 {
        LECOM.leaves(&[&full_with_etx()[..], &[bcc]].concat(), &[]);
        LECOM.leaves(&[&full_with_etx()[..], &[bcc, 0x04, 0x33]].concat(), &[0x04, 0x33]);
        let mut card = LECOM.card_with(&full_with_etx());
        assert_eq!(LECOM.receive(&mut card, &[bcc]), (1, 1, vec![]));
        assert_eq!(LECOM.collected(&mut card), []);
    }
    let mut longest = full_with_etx();
    longest.remove(2);
    longest.push(0x04);
    LECOM.hands_over(&longest);
}

/// States that no bytes lead to.
#[test]
fn outside_the_rules() {
    for outside in [
        "05",
        "02",
        "04 04",
        "04 31 04",
        "04 05",
        "04 31 05 31",
        "04 05 02",
        "04 02 04",
        "04 02 03 31",
        "04 02 03 03",
    ] {
        let mut card = LECOM.card_with(&hex(outside));
        assert_eq!(LECOM.hear(&mut card, "").0, 12, "{outside}");
    }
    for inside in [
        "04",
        "04 03 03",
        "04 02 05 02 05",
        "04 02 03",
        "04 03 02 03",
        "04 FF 00 06 07",
    ] {
        let mut card = LECOM.card_with(&hex(inside));
        assert_eq!(LECOM.hear(&mut card, "").0, 1, "{inside}");
    }
    let mut card = LECOM.card_with(&full());
    *(LECOM.part)(&mut card).0 = 26;
    assert_eq!(LECOM.hear(&mut card, "").0, 12);
    for inside in [full(), full_with_etx()] {
        assert_eq!(LECOM.hear(&mut LECOM.card_with(&inside), "").0, 1);
    }
}
