use super::{hex, made, OUTSIDE, UNCHECKED, WRONG};
use crate::masters::love::{hear, make, Order, Request};
use crate::masters::Heard;

const STATUS: Order = Order::Status;

fn read(place: u32) -> Order {
    Order::Read { place }
}

fn write(place: u32, value: i32) -> Order {
    Order::Write { place, value }
}

fn frame(address: u32, order: Order) -> (u8, Vec<u8>) {
    made(|room| make(&Request { address, order }, room))
}

/// What a reply of the card at 32h means.
fn heard(order: Order, reply: &str) -> Heard {
    hear(&Request { address: 0x32, order }, &hex(reply))
}

/// A reply of a card by its filter, address and data characters, with its checksum.
fn card_reply(text: &str) -> Vec<u8> {
    let sum: u32 = text.bytes().map(u32::from).sum();
    format!("\x02{text}{:02X}\x06", sum % 256).into_bytes()
}

/// What data of the card at 32h means.
fn heard_data(order: Order, data: &str) -> Heard {
    hear(&Request { address: 0x32, order }, &card_reply(&format!("L32{data}")))
}

/// The source's write and the reply to it; its read's reply.
#[test]
fn p8() {
    let expected = hex("02 4C 33 32 30 32 30 30 30 30 31 35 46 46 37 39 03");
    assert_eq!(frame(0x32, write(0, -15)), (0, expected));
    assert_eq!(heard(write(0, -15), "02 4C 33 32 30 30 31 31 06"), Heard::Done);
    assert_eq!(frame(0x32, read(0)), (0, hex("02 4C 33 32 30 31 30 30 32 36 03")));
    assert_eq!(
        heard(read(0), "02 4C 33 32 30 31 30 30 31 35 44 38 06"),
        Heard::Value(-15)
    );
}

#[test]
fn p9_and_p10() {
    assert_eq!(frame(0x32, STATUS), (0, hex("02 4C 33 32 30 30 43 35 03")));
    assert_eq!(
        heard(STATUS, "02 4C 33 32 44 30 30 30 30 30 30 30 34 35 06"),
        Heard::Fault
    );
    assert_eq!(
        heard(STATUS, "02 4C 33 32 43 30 30 30 30 30 35 30 34 39 06"),
        Heard::Value(50)
    );
}

#[test]
fn parameters_and_signs() {
    for (place, figure) in (0..).zip(["0", "2", "4", "5"]) {
        let (_, made) = frame(0x32, read(place));
        assert_eq!(made[4..8], *format!("010{figure}").as_bytes());
        for (value, data) in [
            (0, "000000"),
            (1, "000100"),
            (870, "087000"),
            (-1, "0001FF"),
            (-400, "0400FF"),
        ] {
            let (number, made) = frame(0x32, write(place, value));
            assert_eq!((number, &made[4..14]), (0, format!("020{figure}{data}").as_bytes()));
        }
        for value in [-401, 871, i32::MIN, i32::MAX] {
            assert_eq!(frame(0x32, write(place, value)).0, 7);
        }
    }
    for place in [4, 5, 256, u32::MAX] {
        assert_eq!(frame(0x32, read(place)).0, 7);
        assert_eq!(frame(0x32, write(place, 0)).0, 7);
        assert_eq!(heard(read(place), "02 4C 33 32 4E 30 35 06"), OUTSIDE);
        assert_eq!(heard(write(place, 0), "02 4C 33 32 30 30 31 31 06"), OUTSIDE);
    }
}

/// The filter follows the address's hundreds, in the request and in the reply; E is 45h.
#[test]
fn addresses() {
    for address in 0..0x500 {
        let [hundreds, low] = [address / 0x100, address % 0x100];
        let is_unit = hundreds < 4 && low != 0;
        let (number, made) = frame(address, STATUS);
        assert_eq!(number, if is_unit { 0 } else { 7 }, "{address}");
        if !is_unit {
            continue;
        }
        let text = format!("{}{low:02X}", ["L", "O", "V", "E"][hundreds as usize]);
        assert_eq!(made[1..4], *text.as_bytes());
        let request = Request {
            address,
            order: write(3, 5),
        };
        assert_eq!(hear(&request, &card_reply(&format!("{text}00"))), Heard::Done);
        let error = format!("\x02{text}N04\x06");
        assert_eq!(hear(&request, error.as_bytes()), Heard::Refused(Some(4)));
        for other in [address ^ 1, address ^ 0x100].map(|address| Request { address, ..request }) {
            let expected = if other.address % 0x100 == 0 { OUTSIDE } else { WRONG };
            assert_eq!(hear(&other, &card_reply(&format!("{text}00"))), expected);
            assert_eq!(hear(&other, error.as_bytes()), expected);
        }
    }
}

/// What 00 answers: the temperatures of codes 0 to 254, and no other.
#[test]
fn status_values() {
    for tenths in -999..=2000_i32 {
        let is_temperature = (-400..=870).contains(&tenths) && tenths % 5 == 0;
        let sign = if tenths < 0 { 2 } else { 0 };
        let expected = if is_temperature { Heard::Value(tenths) } else { WRONG };
        assert_eq!(heard_data(STATUS, &format!("C00{sign}{:04}", tenths.abs())), expected);
    }
    for data in [
        "C0020000", "C0010005", "C0030005", "C0100005", "D0000005", "D0020000", "C000005", "c0000005", "00",
    ] {
        assert_eq!(heard_data(STATUS, data), WRONG, "{data}");
    }
    assert_eq!(heard_data(read(0), "D0000000"), WRONG);
    assert_eq!(heard_data(write(0, 0), "D0000000"), WRONG);
}

/// What a read answers: every value of a parameter, and no other.
#[test]
fn read_values() {
    for value in -999..=2000_i32 {
        let sign = if value < 0 { "01" } else { "00" };
        let is_inside = (-400..=870).contains(&value);
        let expected = if is_inside { Heard::Value(value) } else { WRONG };
        assert_eq!(heard_data(read(2), &format!("{sign}{:04}", value.abs())), expected);
    }
    for data in [
        "010000", "020005", "FF0005", "100005", "00000A", "00", "0100005", "C0000005",
    ] {
        assert_eq!(heard_data(read(2), data), WRONG, "{data}");
    }
    for data in ["01", "0", "000", "10", "000000"] {
        assert_eq!(heard_data(write(2, 0), data), WRONG, "{data}");
    }
}

/// The checksum takes in the filter and is upper-case, else 4; an error reply has none.
#[test]
fn check_characters() {
    let cases = [
        (STATUS, "D0000000", Heard::Fault),
        (STATUS, "C0020010", Heard::Value(-10)),
        (read(1), "000870", Heard::Value(870)),
        (write(1, 7), "00", Heard::Done),
    ];
    for (order, data, expected) in cases {
        let request = Request { address: 0x32, order };
        let reply = card_reply(&format!("L32{data}"));
        let place = reply.len() - 3;
        for pair in 0..=u16::MAX {
            let mut other = reply.clone();
            other[place..place + 2].copy_from_slice(&pair.to_be_bytes());
            let expected = if other == reply { expected } else { UNCHECKED };
            assert_eq!(hear(&request, &other), expected);
        }
    }
    assert_eq!(heard(write(0, -15), "02 4C 33 32 30 30 43 35 06"), UNCHECKED);
    assert_eq!(heard(read(0), "02 4C 33 32 30 31 30 30 31 35 64 38 06"), UNCHECKED);
}

/// The codes that document 01 sends, whatever was asked; no other.
#[test]
fn error_codes() {
    for order in [STATUS, read(3), write(0, 1)] {
        let request = Request { address: 0x32, order };
        for code in 0..=255_u8 {
            let reply = format!("\x02L32N{code:02X}\x06");
            let is_sent = matches!(code, 1 | 2 | 4 | 5 | 6);
            let expected = if is_sent { Heard::Refused(Some(code)) } else { WRONG };
            assert_eq!(hear(&request, reply.as_bytes()), expected);
        }
        for reply in [
            "",
            "02",
            "02 4C 33 32",
            "02 4C 33 32 4E 30 35",
            "02 4C 33 32 4E 30 35 06 06",
        ] {
            assert_eq!(heard(order, reply), WRONG, "{reply}");
        }
        assert_eq!(heard(order, "02 4C 33 32 6E 30 35 06"), WRONG);
        assert_eq!(heard(order, "02 4C 33 32 4E 30 35 03"), WRONG);
        assert_eq!(heard(order, "03 4C 33 32 4E 30 35 06"), WRONG);
        assert_eq!(heard(order, "02 4C 33 32 4E 35 30 06"), WRONG);
    }
}
