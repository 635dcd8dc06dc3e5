use super::{call, hex};
use crate::card::Card;

fn sent(card: &mut Card, frame: &[u8]) -> (u8, Vec<u8>) {
    call(crate::love::love, card, frame)
}

/// A frame with filter L by its address and data characters, with its checksum.
fn host(card: &mut Card, text: &str) -> (u8, Vec<u8>) {
    let sum: u32 = text.bytes().map(u32::from).sum();
    let frame = format!("\x02L{text}{:02X}\x03", sum % 256);
    sent(card, frame.as_bytes())
}

fn error(code: &str) -> Vec<u8> {
    format!("\x02L32N{code}\x06").into_bytes()
}

/// Source 004's write of −15 to SP1 and the reply of its read.
#[test]
fn p8() {
    let mut card = Card::new();
    let write = hex("02 4C 33 32 30 32 30 30 30 30 31 35 46 46 37 39 03");
    assert_eq!(sent(&mut card, &write), (0, hex("02 4C 33 32 30 30 31 31 06")));
    assert_eq!(card.love, [-15, 0, 0, 0]);
    assert_eq!(
        host(&mut card, "320100"),
        (0, hex("02 4C 33 32 30 31 30 30 31 35 44 38 06"))
    );
}

#[test]
fn p9_and_p10() {
    let mut card = Card::new();
    assert_eq!(host(&mut card, "3200"), (0, b"\x02L32D000000045\x06".to_vec()));
    card.memory[0] = 90;
    assert_eq!(host(&mut card, "3200"), (0, b"\x02L32C000005049\x06".to_vec()));
    card.memory[0] = 78;
    assert_eq!(host(&mut card, "3200").1[4..12], *b"C0020010");
}

#[test]
fn run_probe_codes_254_and_255() {
    let mut card = Card::new();
    card.memory[0] = 254;
    assert_eq!(host(&mut card, "3200").1[4..12], *b"C0000870");
    card.memory[0] = 255;
    assert_eq!(host(&mut card, "3200").1[4..12], *b"D0000000");
}

#[test]
fn the_filter_follows_the_addresss_hundreds() {
    let mut card = Card::new();
    for (hundreds, filter) in (0..).zip(["L", "O", "V", "E"]) {
        card.addresses.love = 0x100 * hundreds + 0x32;
        let frame = format!("\x02{filter}3200C5\x03");
        let (number, answer) = sent(&mut card, frame.as_bytes());
        assert_eq!((number, answer[1]), (0, filter.as_bytes()[0]));
        assert_eq!(sent(&mut card, b"\x02X3200C5\x03"), (2, vec![]));
    }
}

#[test]
fn data_field_rules() {
    let mut card = Card::new();
    for data in [
        "",
        "0",
        "1",
        "0000",
        "000",
        "010",
        "12",
        "01000",
        "0200",
        "020000150",
        "01000000000",
        "00123456789",
    ] {
        assert_eq!(host(&mut card, &format!("32{data}")), (3, error("05")), "{data}");
    }
    for data in [
        "0101",
        "0201",
        "0300",
        "0124",
        "FFFF",
        "ffff",
        "0101000000",
        "0201999900",
        "020fA00000",
    ] {
        assert_eq!(host(&mut card, &format!("32{data}")), (5, error("01")), "{data}");
    }
    for data in ["020000A500", "0200001501", "02000015F0", "02000015FE"] {
        assert_eq!(host(&mut card, &format!("32{data}")), (7, error("05")), "{data}");
    }
    for data in ["0200087100", "02000401FF", "0205999900"] {
        assert_eq!(host(&mut card, &format!("32{data}")), (7, error("06")), "{data}");
    }
    assert_eq!(host(&mut card, "320200087000").0, 0);
    assert_eq!(host(&mut card, "3202020400Ff").0, 0);
    assert_eq!(host(&mut card, "3202040001ff").0, 0);
    assert_eq!(host(&mut card, "3202050000FF").0, 0);
    assert_eq!(card.love, [870, -400, -1, 0]);
    assert_eq!(host(&mut card, "3201G0"), (3, error("04")));
}

#[test]
fn order_of_refusals() {
    let mut card = Card::new();
    assert_eq!(sent(&mut card, b"\x02L32C5"), (3, vec![]));
    assert_eq!(sent(&mut card, b"\x03L3200C5\x03"), (3, vec![]));
    assert_eq!(sent(&mut card, b"\x02L3200C5\x06"), (3, vec![]));
    assert_eq!(sent(&mut card, b"\x02X3g00C5\x03"), (3, vec![]));
    assert_eq!(sent(&mut card, b"\x02L3300C5\x03"), (2, vec![]));
    assert_eq!(sent(&mut card, b"\x02L3200C6\x03"), (4, error("02")));
    assert_eq!(sent(&mut card, b"\x02L3200c5\x03"), (4, error("02")));
    assert_eq!(sent(&mut card, b"\x02L32..00\x03"), (4, error("02")));
}
