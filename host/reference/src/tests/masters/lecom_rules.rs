use super::{hex, made, OUTSIDE, UNCHECKED, WRONG};
use crate::masters::lecom::{hear, make, Order, Request};
use crate::masters::Heard;

const ACTIVATE: u32 = 0x67;
const STORE: u32 = 0x68;
const REFUSED: Heard = Heard::Refused(None);

fn read(address: u32, code: u32) -> Request {
    let order = Order::Read;
    Request { address, code, order }
}

fn write(address: u32, code: u32, value: i32) -> Request {
    let order = Order::Write(value);
    Request { address, code, order }
}

fn frame(request: Request) -> (u8, Vec<u8>) {
    made(|room| make(&request, room))
}

fn heard(request: Request, reply: &str) -> Heard {
    hear(&request, &hex(reply))
}

/// A reply to a read: code and text, with its BCC.
fn value_reply(text: &str) -> Vec<u8> {
    let body = [text.as_bytes(), b"\x03"].concat();
    let bcc = body.iter().fold(0, |bcc, byte| bcc ^ byte);
    [b"\x02", &body[..], &[bcc]].concat()
}

/// P6 with the shortest data that means the same, and P7 as it is.
#[test]
fn p6_and_p7() {
    let change = write(11, 0, 9873);
    assert_eq!(frame(change), (0, hex("04 31 31 02 30 30 39 38 37 33 03 06")));
    assert_eq!(heard(change, "06"), Heard::Done);
    let activate = write(11, ACTIVATE, 1);
    assert_eq!(frame(activate), (0, hex("04 31 31 02 36 37 31 03 33")));
    assert_eq!(heard(activate, "06"), Heard::Done);
    assert_eq!(heard(read(11, 0), "02 30 30 39 38 37 33 03 06"), Heard::Value(9873));
}

/// Source 001, 3.3.1 and 6.1.5.
#[test]
fn source_requests() {
    assert_eq!(frame(read(31, 3)), (0, hex("04 33 31 30 33 05")));
    assert_eq!(frame(write(11, STORE, 1)), (0, hex("04 31 31 02 36 38 31 03 3C")));
}

#[test]
fn the_shortest_decimal_is_written() {
    for value in [0, 1, -1, 9, 10, -10, 99_999, 100_000, -99_999, 999_999, -999_999] {
        let body = format!("5F{value}\x03");
        let bcc = body.bytes().fold(0, |bcc, byte| bcc ^ byte);
        let expected = [b"\x0499\x02", body.as_bytes(), &[bcc]].concat();
        assert_eq!(frame(write(99, 0x5F, value)), (0, expected));
        assert_eq!(
            hear(&read(99, 0x5F), &value_reply(&format!("5F{value}"))),
            Heard::Value(value)
        );
    }
}

#[test]
fn addresses() {
    for address in 0..300 {
        let is_called = address == 0 || (10..=99).contains(&address);
        let number = if is_called { 0 } else { 7 };
        for request in [read(address, 5), write(address, 5, 1)] {
            assert_eq!(frame(request).0, number, "{address}");
            let expected = match number {
                7 => OUTSIDE,
                _ if address % 10 == 0 => WRONG,
                _ => REFUSED,
            };
            assert_eq!(heard(request, "15"), expected, "{address}");
        }
    }
    assert_eq!(frame(read(11 + (1 << 8), 5)).0, 7);
    assert_eq!(frame(read(11 + (1 << 16), 5)).0, 7);
    assert_eq!(frame(read(u32::MAX, 5)).0, 7);
}

/// A collective address reaches several units, and none of them replies.
#[test]
fn no_reply_from_a_collective_address() {
    assert_eq!(frame(read(0, 0x60)), (0, hex("04 30 30 36 30 05")));
    assert_eq!(frame(write(90, 0, -7)), (0, hex("04 39 30 02 30 30 2D 37 03 19")));
    for reply in ["", "06", "15", "02 30 30 30 03 33", "02 30 30 30 03 00", "02 36 34 04"] {
        assert_eq!(heard(read(10, 0), reply), WRONG);
        assert_eq!(heard(write(0, 0, 0), reply), WRONG);
    }
    assert_eq!(heard(write(10, 0x60, 0), "06"), OUTSIDE);
}

#[test]
fn codes_and_numbers() {
    for code in 0..300 {
        let is_known = matches!(code, 0..=0x63 | 0x67 | 0x68);
        assert_eq!(frame(read(11, code)).0, if is_known { 0 } else { 7 }, "{code}");
        let takes = |value: i32| match code {
            0..=0x5F => value.unsigned_abs() <= 999_999,
            0x67 | 0x68 => value == 0 || value == 1,
            _ => false,
        };
        for value in [
            0,
            1,
            2,
            -1,
            256,
            257,
            999_999,
            1_000_000,
            -1_000_000,
            i32::MIN,
            i32::MAX,
        ] {
            let number = if takes(value) { 0 } else { 7 };
            assert_eq!(frame(write(11, code, value)).0, number, "{code} {value}");
        }
    }
    assert_eq!(frame(read(11, 5 + (1 << 8))).0, 7);
    assert_eq!(frame(read(11, u32::MAX)).0, 7);
}

/// What a read gives: any value of a register, a probe code's temperature, nothing but 0 of a command.
#[test]
fn values_that_a_card_can_answer() {
    let values = |code: u32, value: i32| hear(&read(11, code), &value_reply(&format!("{code:02X}{value}")));
    for value in [-999_999, -1, 0, 1, 999_999] {
        assert_eq!(values(0x1A, value), Heard::Value(value));
    }
    assert_eq!(values(0x1A, 1_000_000), WRONG);
    assert_eq!(values(0x1A, -1_000_000), WRONG);
    for value in -1000..2000 {
        let is_temperature = (-400..=870).contains(&value) && value % 5 == 0;
        let expected = if is_temperature { Heard::Value(value) } else { WRONG };
        assert_eq!(values(0x63, value), expected);
    }
    for code in [ACTIVATE, STORE] {
        assert_eq!(values(code, 0), Heard::Value(0));
        assert_eq!(values(code, 1), WRONG);
    }
}

#[test]
fn replies_that_are_no_answer() {
    for text in [
        "00",
        "00-",
        "00-0",
        "0007",
        "00-07",
        "00+7",
        "007 ",
        "007.",
        "000x7",
        "0000000007",
        "017",
        "7",
        "",
    ] {
        assert_eq!(hear(&read(11, 0), &value_reply(text)), WRONG, "{text}");
    }
    assert_eq!(hear(&read(11, 0x1A), &value_reply("1a7")), WRONG);
    assert_eq!(hear(&read(11, 5), &value_reply("!0005007")), WRONG);
    for reply in [
        "",
        "06",
        "15 15",
        "06 06",
        "02",
        "02 04",
        "02 30 30 37 03",
        "02 30 30 37 03 34 00",
    ] {
        assert_eq!(heard(read(11, 0), reply), WRONG, "{reply}");
    }
    for reply in ["", "02 30 30 37 03 34", "06 00", "00"] {
        assert_eq!(heard(write(11, 0, 7), reply), WRONG, "{reply}");
    }
}

/// A BCC of 04h ends no refusal, and every other BCC is 4 alone.
#[test]
fn check_character() {
    let reply = hex("02 30 30 33 34 03 04");
    for bcc in 0..=255 {
        let mut reply = reply.clone();
        reply[6] = bcc;
        let expected = if bcc == 4 { Heard::Value(34) } else { UNCHECKED };
        assert_eq!(hear(&read(11, 0), &reply), expected);
        assert_eq!(hear(&read(11, 1), &reply), WRONG);
        assert_eq!(hear(&write(11, 0, 34), &reply), WRONG);
    }
    assert_eq!(heard(read(11, 0x60), "02 36 30 2D 31 03 00"), WRONG);
}

/// NAK; STX, an unknown code of either layout, EOT: whatever was asked.
#[test]
fn refusals() {
    for request in [read(11, 0), read(11, 0x60), write(11, 5, 1), write(11, STORE, 0)] {
        assert_eq!(heard(request, "15"), REFUSED);
        assert_eq!(heard(request, "02 21 30 38 31 41 30 30 04"), REFUSED);
        for code in 0..=255_u8 {
            let is_known = matches!(code, 0..=0x63 | 0x67 | 0x68);
            let expected = if is_known { WRONG } else { REFUSED };
            let reply = |code: String| [b"\x02", code.as_bytes(), b"\x04"].concat();
            assert_eq!(hear(&request, &reply(format!("{code:02X}"))), expected);
            assert_eq!(hear(&request, &reply(format!("!00{code:02X}00"))), expected);
            assert_eq!(hear(&request, &reply(format!("!00{code:02X}01"))), REFUSED);
            assert_eq!(hear(&request, &reply(format!("!01{code:02X}00"))), REFUSED);
            if code > 9 && code % 16 > 9 {
                assert_eq!(hear(&request, &reply(format!("{code:02x}"))), WRONG);
                assert_eq!(hear(&request, &reply(format!("!00{code:02x}01"))), WRONG);
            }
        }
        for reply in [
            "02 36 04",
            "02 36 34 34 04",
            "02 21 30 30 36 34 30 04",
            "02 36 34 05",
            "04 36 34 04",
        ] {
            assert_eq!(heard(request, reply), WRONG, "{reply}");
        }
    }
}
