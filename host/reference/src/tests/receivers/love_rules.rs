use super::{hex, Card, LOVE};

/// STX and ordinary bytes, 32 in all.
fn full() -> Vec<u8> {
    [&[0x02][..], &[0x30; 31]].concat()
}

/// "Runs from STX to ETX"; a finished frame below the dialect's shortest is handed over.
#[test]
fn from_stx_to_etx() {
    LOVE.hands_over(&hex("02 4C 33 32 30 30 43 35 03"));
    LOVE.hands_over(&hex("02 03"));
    for byte in (0..=255).filter(|byte| ![0x02, 0x03].contains(byte)) {
        LOVE.hands_over(&[0x02, byte, 0x03]);
    }
    let mut longest = full();
    longest[31] = 0x03;
    LOVE.hands_over(&longest);
}

/// At rest anything but STX is dropped.
#[test]
fn at_rest() {
    for byte in (0..=255).filter(|&byte| byte != 0x02) {
        LOVE.leaves(&[byte], &[]);
        LOVE.leaves(&[byte, 0x02], &[0x02]);
    }
}

/// "A later STX starts anew."
#[test]
fn a_later_stx() {
    LOVE.leaves(&hex("02 4C 33 02"), &hex("02"));
    let mut card = Card::new();
    LOVE.hear(&mut card, "02 4C 33");
    assert_eq!(LOVE.hear(&mut card, "02 4F 03 03"), (0, 3, hex("02 4F 03")));
}

/// "A byte past the dialect's longest drops the frame, itself too unless it starts anew."
#[test]
fn past_the_longest() {
    LOVE.leaves(&full(), &full());
    for byte in (0..=255).filter(|&byte| byte != 0x02) {
        LOVE.leaves(&[&full()[..], &[byte]].concat(), &[]);
        LOVE.leaves(&[&full()[..], &[byte, 0x03, 0x02, 0x31]].concat(), &[0x02, 0x31]);
        let mut card = LOVE.card_with(&full());
        assert_eq!(LOVE.receive(&mut card, &[byte]), (1, 1, vec![]));
        assert_eq!(LOVE.collected(&mut card), []);
    }
    LOVE.leaves(&[&full()[..], &[0x02, 0x31]].concat(), &[0x02, 0x31]);
    let mut card = LOVE.card_with(&full());
    assert_eq!(LOVE.hear(&mut card, "02 31 03"), (0, 3, hex("02 31 03")));
}

/// States that no bytes lead to.
#[test]
fn outside_the_rules() {
    for place in 1..32 {
        for byte in [0x02, 0x03] {
            let mut outside = full();
            outside[place] = byte;
            let mut card = LOVE.card_with(&outside[..=place]);
            assert_eq!(LOVE.hear(&mut card, "").0, 12);
            let mut card = LOVE.card_with(&outside);
            assert_eq!(LOVE.hear(&mut card, "").0, 12);
            *(LOVE.part)(&mut card).0 = place as u16;
            assert_eq!(LOVE.hear(&mut card, "").0, 1);
        }
    }
    assert_eq!(LOVE.hear(&mut LOVE.card_with(&hex("03")), "").0, 12);
    assert_eq!(LOVE.hear(&mut LOVE.card_with(&hex("02 01 00 04 FF")), "").0, 1);
    let mut card = LOVE.card_with(&full());
    assert_eq!(LOVE.hear(&mut card, "").0, 1);
    *(LOVE.part)(&mut card).0 = 33;
    assert_eq!(LOVE.hear(&mut card, "").0, 12);
}
