use super::{call, hex};
use crate::card::{Card, PENDING_BITS, PENDING_CHANGE};

fn sent(card: &mut Card, frame: &str) -> (u8, Vec<u8>) {
    call(crate::datalink::datalink, card, &hex(frame))
}

/// A frame completed by its LRC.
fn summed(card: &mut Card, frame: &str) -> (u8, Vec<u8>) {
    let mut frame = hex(frame);
    let sum: u32 = frame[1..].iter().map(|&byte| u32::from(byte)).sum();
    frame.push((sum % 256) as u8);
    call(crate::datalink::datalink, card, &frame)
}

/// P1 is source 003's example A; its answer shows the four probe codes unsigned.
#[test]
fn p1_and_p2() {
    let mut card = Card::new();
    let answer = hex("7E 23 09 00 10 FF FF FF FF 00 00 00 00 00 38");
    assert_eq!(sent(&mut card, "7E E3 09 00 10 FC"), (0, answer));
    assert_eq!(sent(&mut card, "7E E3 09 00 10 FB"), (4, vec![]));
}

/// P3 is source 003's example B, whose addresses are read-only here.
#[test]
fn p3() {
    assert_eq!(sent(&mut Card::new(), "7E A3 02 00 10 08 0C C9"), (8, vec![]));
}

#[test]
fn p4_and_p5() {
    let mut card = Card::new();
    card.memory[0x20..0x22].copy_from_slice(&[0x5A, 0x5A]);
    let echo = hex("7E 23 04 20 10 F0 01 00 FF 47");
    assert_eq!(summed(&mut card, "7E C3 04 20 10 F0 01 00 FF"), (0, echo));
    assert_eq!(card.memory[0x20], 0x5A);
    assert_eq!(card.ports.pending.kind, PENDING_BITS);
    assert_eq!(sent(&mut card, "7E 83"), (1, vec![]));
    assert_eq!(card.memory[0x20..0x22], [0x51, 0xFF]);
    assert_eq!(sent(&mut card, "7E 83"), (10, vec![]));
}

#[test]
fn run_num_32_and_33() {
    let mut card = Card::new();
    let (number, answer) = summed(&mut card, "7E E3 20 10 10");
    assert_eq!((number, answer.len()), (0, 38));
    assert_eq!(summed(&mut card, "7E E3 21 10 10"), (3, vec![]));
    let data = "55 ".repeat(32);
    let (number, answer) = summed(&mut card, &format!("7E A3 20 10 10 {data}"));
    assert_eq!((number, answer.len()), (0, 38));
    let (number, answer) = summed(&mut card, &format!("7E A3 21 10 10 {data} 55"));
    assert_eq!((number, answer.len()), (3, 0));
    assert_eq!(sent(&mut card, "7E 83"), (1, vec![]));
    assert_eq!(card.memory[0x0F..0x11], [0x00, 0x55]);
    assert_eq!(card.memory[0x2F..0x31], [0x55, 0x00]);
}

#[test]
fn run_address_2000_with_num_0_and_1() {
    let mut card = Card::new();
    assert_eq!(summed(&mut card, "7E E3 00 00 20"), (0, hex("7E 23 00 00 20 43")));
    assert_eq!(summed(&mut card, "7E E3 01 00 20"), (6, vec![]));
    assert_eq!(summed(&mut card, "7E A3 00 00 20"), (0, hex("7E 23 00 00 20 43")));
    assert_eq!(summed(&mut card, "7E A3 01 00 20 00"), (6, vec![]));
    assert_eq!(summed(&mut card, "7E C3 02 00 20 00 00"), (6, vec![]));
    assert_eq!(summed(&mut card, "7E C3 02 FF 1F 00 00").0, 0);
}

#[test]
fn order_of_refusals() {
    let mut card = Card::new();
    assert_eq!(sent(&mut card, "7E").0, 3);
    assert_eq!(sent(&mut card, "7F E4").0, 3);
    assert_eq!(sent(&mut card, "7E 04").0, 2);
    assert_eq!(sent(&mut card, "7E 03").0, 5);
    assert_eq!(sent(&mut card, "7E 23 00").0, 5);
    assert_eq!(sent(&mut card, "7E E3").0, 3);
    assert_eq!(sent(&mut card, "7E 83 00").0, 3);
    assert_eq!(summed(&mut card, "7E C3 01 10 10 00").0, 3);
    assert_eq!(summed(&mut card, "7E A3 02 10 10 00").0, 3);
    assert_eq!(sent(&mut card, "7E E3 01 FF 0F 00").0, 4);
    assert_eq!(summed(&mut card, "7E E3 01 FF 0F").0, 6);
    assert_eq!(summed(&mut card, "7E A3 01 0F 10 00").0, 8);
    assert_eq!(summed(&mut card, "7E A3 00 0F 10").0, 0);
    assert_eq!(call(crate::datalink::datalink, &mut card, &[0x7E; 39]).0, 3);
}

#[test]
fn a_later_change_takes_the_place_of_an_older() {
    let mut card = Card::new();
    assert_eq!(summed(&mut card, "7E A3 01 10 10 11").0, 0);
    assert_eq!(summed(&mut card, "7E A3 01 12 10 22").0, 0);
    assert_eq!(summed(&mut card, "7E E3 01 10 10").0, 0);
    assert_eq!(card.ports.pending.kind, PENDING_CHANGE);
    assert_eq!(sent(&mut card, "7E 83").0, 1);
    assert_eq!(card.memory[0x10..0x13], [0x00, 0x00, 0x22]);
}
