mod resets;

use super::{call, hex};
use crate::card::Card;

fn sent(card: &mut Card, frame: &str) -> (u8, Vec<u8>) {
    call(crate::lucid::lucid, card, &hex(frame))
}

#[test]
fn p11_and_p12() {
    let mut card = Card::new();
    card.memory[0] = 78;
    assert_eq!(sent(&mut card, "46 00 40 00"), (0, hex("00 02 F6 FF")));
    assert_eq!(sent(&mut card, "46 00 41 00"), (0, hex("00 04 9C FF FF FF")));
    card.memory[0] = 255;
    assert_eq!(sent(&mut card, "46 00 40 00"), (9, hex("D0 00")));
    card.memory[0] = 254;
    assert_eq!(sent(&mut card, "46 00 40 00"), (0, hex("00 02 66 03")));
}

#[test]
fn run_mask_0f_and_10() {
    let mut card = Card::new();
    card.memory[..4].copy_from_slice(&[80, 81, 82, 83]);
    assert_eq!(
        sent(&mut card, "48 0F 40 00"),
        (0, hex("00 08 00 00 05 00 0A 00 0F 00"))
    );
    assert_eq!(sent(&mut card, "48 10 40 00"), (6, hex("B2 00")));
    assert_eq!(sent(&mut card, "48 00 40 00"), (6, hex("B2 00")));
    card.memory[2] = 255;
    assert_eq!(sent(&mut card, "48 0F 41 00"), (9, hex("D0 00")));
    assert_eq!(
        sent(&mut card, "48 0B 41 00"),
        (0, hex("00 0C 00 00 00 00 32 00 00 00 96 00 00 00"))
    );
}

/// Source 002, 4.3.5 and 4.3.6.
#[test]
fn source_parameters() {
    let mut card = Card::new();
    assert_eq!(sent(&mut card, "A0 00 80 06 10 11 B0 71 0B 00"), (0, hex("00 00")));
    assert_eq!(sent(&mut card, "A2 00 00 02 10 11"), (0, hex("00 04 B0 71 0B 00")));
    assert_eq!((card.parameter[0][0], card.kept[0][0]), (750_000, 750_000));
    assert_eq!(sent(&mut card, "A0 00 00 06 10 11 E8 03 00 00"), (0, hex("00 00")));
    assert_eq!((card.parameter[0][0], card.kept[0][0]), (1_000, 750_000));
    assert_eq!(sent(&mut card, "A0 00 01 02 10 11"), (0, hex("00 00")));
    assert_eq!((card.parameter[0][0], card.kept[0][0]), (1_000_000, 750_000));
    assert_eq!(sent(&mut card, "A0 00 81 02 10 11"), (0, hex("00 00")));
    assert_eq!((card.parameter[0][0], card.kept[0][0]), (1_000_000, 1_000_000));
}

#[test]
fn demands() {
    let mut card = Card::new();
    assert_eq!(sent(&mut card, "40 02 10 02 34 12"), (0, hex("00 00")));
    assert_eq!(sent(&mut card, "42 09 10 04 01 00 02 00"), (0, hex("00 00")));
    assert_eq!(card.demand, [1, 65_535, 0x1234, 2]);
    assert_eq!(sent(&mut card, "46 02 10 00"), (0, hex("00 02 34 12")));
    assert_eq!(sent(&mut card, "48 0D 10 00"), (0, hex("00 06 01 00 34 12 02 00")));
}

#[test]
fn order_of_refusals() {
    let mut card = Card::new();
    let rows = [
        ("46 00 40", 3, ""),
        ("FF 09 FF 01", 3, "B0 00"),
        ("52 00 00 00", 5, "A0 00"),
        ("46 04 99 00", 6, "B8 00"),
        ("42 1F 99 00", 6, "B2 00"),
        ("46 00 99 01 00", 7, "B6 00"),
        ("40 00 99 01 00", 7, "B6 00"),
        ("40 00 40 01 00", 8, "B6 00"),
        ("A0 00 02 00", 7, "B4 00"),
        ("A2 00 80 00", 7, "B4 00"),
        ("46 00 40 01 00", 3, "B0 00"),
        ("40 00 10 01 00", 3, "B0 00"),
        ("42 03 10 02 00 00", 3, "B0 00"),
        ("A0 04 01 02 10 11", 6, "B8 00"),
        ("A0 00 03 00", 7, "B4 00"),
        ("A0 00 01 00", 3, "B0 00"),
        ("A0 00 81 01 10", 3, "B0 00"),
        ("A0 00 01 06 10 11 00 00 00 00", 3, "B0 00"),
        ("A0 00 81 03 99 11 00", 3, "B0 00"),
        ("A0 00 00 02 10 11", 3, "B0 00"),
        ("A0 00 80 05 99 11 00 00 00", 3, "B0 00"),
        ("A2 00 00 03 10 11 00", 3, "B0 00"),
        ("A0 00 00 06 30 11 00 00 00 00", 6, "BA 00"),
        ("A2 03 00 02 11 10", 6, "BA 00"),
        ("A0 00 01 02 11 10", 6, "BA 00"),
        ("A0 03 81 02 30 11", 6, "BA 00"),
        ("A0 00 00 06 10 11 E7 03 00 00", 7, "C0 00"),
        ("A0 00 00 06 10 11 01 87 93 03", 7, "C0 00"),
        ("A0 00 00 06 20 11 00 00 01 00", 7, "C0 00"),
        ("46 03 41 00", 9, "D0 00"),
    ];
    for (frame, number, answer) in rows {
        assert_eq!(sent(&mut card, frame), (number, hex(answer)), "{frame}");
    }
    let mut longest = vec![0x46; 259];
    longest[3] = 255;
    assert_eq!(call(crate::lucid::lucid, &mut card, &longest), (6, hex("B8 00")));
    longest.push(0);
    assert_eq!(call(crate::lucid::lucid, &mut card, &longest), (3, vec![]));
}
