use super::{hex, made, OUTSIDE, WRONG};
use crate::masters::lucid::{hear, make, Request};
use crate::masters::Heard;

const DEMAND: u32 = 0x10;
const TENTHS: u32 = 0x40;
const HUNDREDTHS: u32 = 0x41;
const DEFAULT: u32 = 0x01;
const PERSISTENT: u32 = 0x80;
const CYCLE: u32 = 0x1110;
const FLOOR: u32 = 0x1120;
/// What the card refuses with, but for the fault.
const STATUSES: [u8; 8] = [0xA0, 0xB0, 0xB2, 0xB4, 0xB6, 0xB8, 0xBA, 0xC0];

fn get(channel: u32, value_type: u32) -> Request<'static> {
    Request::GetIo { channel, value_type }
}

fn get_group(mask: u32, value_type: u32) -> Request<'static> {
    Request::GetIoGroup { mask, value_type }
}

fn set(channel: u32, value_type: u32, value: u32) -> Request<'static> {
    Request::SetIo {
        channel,
        value_type,
        value,
    }
}

fn set_group(mask: u32, value_type: u32, values: &[u32]) -> Request<'_> {
    Request::SetIoGroup {
        mask,
        value_type,
        values,
    }
}

fn get_param(channel: u32, option: u32, address: u32) -> Request<'static> {
    Request::GetParam {
        channel,
        option,
        address,
    }
}

fn set_param(channel: u32, option: u32, address: u32, value: u32) -> Request<'static> {
    Request::SetParam {
        channel,
        option,
        address,
        value,
    }
}

fn reset(channel: u32, option: u32, address: u32) -> Request<'static> {
    Request::Reset {
        channel,
        option,
        address,
    }
}

fn frame(request: Request) -> (u8, Vec<u8>) {
    made(|room| make(&request, room))
}

fn heard(request: Request, reply: &str) -> Heard {
    hear(&request, &hex(reply))
}

/// The values that a reply to a group has.
fn values(request: Request, reply: &str) -> Vec<i32> {
    match heard(request, reply) {
        Heard::Values(values) => values.as_slice().to_vec(),
        other => panic!("{other:?}"),
    }
}

#[test]
fn p11_and_p12() {
    assert_eq!(frame(get(0, TENTHS)), (0, hex("46 00 40 00")));
    assert_eq!(heard(get(0, TENTHS), "00 02 F6 FF"), Heard::Value(-10));
    assert_eq!(heard(get(0, TENTHS), "D0 00"), Heard::Fault);
    assert_eq!(heard(get(0, HUNDREDTHS), "00 04 9C FF FF FF"), Heard::Value(-100));
}

/// Source 002, 4.3.5 and 4.3.6.
#[test]
fn source_parameters() {
    let request = set_param(0, PERSISTENT, CYCLE, 750_000);
    assert_eq!(frame(request), (0, hex("A0 00 80 06 10 11 B0 71 0B 00")));
    assert_eq!(heard(request, "00 00"), Heard::Done);
    let request = get_param(0, 0, CYCLE);
    assert_eq!(frame(request), (0, hex("A2 00 00 02 10 11")));
    assert_eq!(heard(request, "00 04 B0 71 0B 00"), Heard::Value(750_000));
}

#[test]
fn frames_of_every_command() {
    assert_eq!(frame(get_group(9, HUNDREDTHS)), (0, hex("48 09 41 00")));
    assert_eq!(frame(set(2, DEMAND, 0x1234)), (0, hex("40 02 10 02 34 12")));
    assert_eq!(frame(set_group(8, DEMAND, &[1])), (0, hex("42 08 10 02 01 00")));
    assert_eq!(
        frame(set_group(9, DEMAND, &[0x0102, 0xFFFF])),
        (0, hex("42 09 10 04 02 01 FF FF"))
    );
    assert_eq!(
        frame(set_group(15, DEMAND, &[1, 2, 3, 0x0400])),
        (0, hex("42 0F 10 08 01 00 02 00 03 00 00 04"))
    );
    assert_eq!(frame(reset(3, DEFAULT, CYCLE)), (0, hex("A0 03 01 02 10 11")));
    assert_eq!(
        frame(reset(0, DEFAULT | PERSISTENT, FLOOR)),
        (0, hex("A0 00 81 02 20 11"))
    );
}

/// Every channel, mask, type and option up to 300, and a wider number whose low byte is right.
#[test]
fn headers() {
    let numbers = (0..300).chain([1 << 16, (1 << 16) + 1, u32::MAX]);
    for number in numbers {
        let is_channel = number < 4;
        let is_mask = (1..=15).contains(&number);
        let is_type = matches!(number, DEMAND | TENTHS | HUNDREDTHS);
        let demands = vec![7; (number % 16).count_ones() as usize];
        let cases = [
            (get(number, TENTHS), is_channel),
            (get(3, number), is_type),
            (get_group(number, DEMAND), is_mask),
            (get_group(15, number), is_type),
            (set(number, DEMAND, 0), is_channel),
            (set(3, number, 0), number == DEMAND),
            (set_group(number, DEMAND, &demands), is_mask),
            (set_group(1, number, &[0]), number == DEMAND),
            (get_param(number, 0, FLOOR), is_channel),
            (get_param(3, number, FLOOR), number == 0),
            (set_param(number, 0, FLOOR, 0), is_channel),
            (set_param(3, number, FLOOR, 0), matches!(number, 0 | PERSISTENT)),
            (reset(number, DEFAULT, CYCLE), is_channel),
            (reset(3, number, FLOOR), matches!(number, 0x01 | 0x81)),
        ];
        for (request, is_made) in cases {
            assert_eq!(frame(request).0, if is_made { 0 } else { 7 }, "{request:?}");
            let expected = if is_made { Heard::Fault } else { OUTSIDE };
            assert_eq!(heard(request, "D0 00"), expected, "{request:?}");
        }
    }
}

#[test]
fn numbers() {
    for (value, number) in [(0, 0), (65_535, 0), (65_536, 7), (u32::MAX, 7)] {
        assert_eq!(frame(set(0, DEMAND, value)).0, number);
        assert_eq!(frame(set_group(3, DEMAND, &[0, value])).0, number);
        assert_eq!(frame(set_group(3, DEMAND, &[value, 0])).0, number);
        assert_eq!(frame(set_param(0, 0, FLOOR, value)).0, number);
    }
    for (value, number) in [
        (999, 7),
        (1_000, 0),
        (60_000_000, 0),
        (60_000_001, 7),
        (0, 7),
        (1 << 31, 7),
    ] {
        assert_eq!(frame(set_param(0, 0, CYCLE, value)).0, number);
    }
    for address in [0, 0x110F, 0x1111, 0x1121, 0x1011, CYCLE + (1 << 16), u32::MAX] {
        let requests = [
            get_param(0, 0, address),
            set_param(0, 0, address, 1_000),
            reset(0, DEFAULT, address),
            reset(3, DEFAULT | PERSISTENT, address),
        ];
        for request in requests {
            assert_eq!(frame(request), (7, vec![]), "{request:?}");
            assert_eq!(heard(request, "00 00"), OUTSIDE, "{request:?}");
        }
    }
    for count in 0..8 {
        let values = vec![1; count];
        for mask in 1..16_u32 {
            let number = if mask.count_ones() as usize == count { 0 } else { 7 };
            assert_eq!(frame(set_group(mask, DEMAND, &values)).0, number);
        }
    }
}

#[test]
fn values_that_a_card_can_answer() {
    for value in 0..=u16::MAX {
        let [low, high] = value.to_le_bytes();
        let reply = [0, 2, low, high];
        assert_eq!(hear(&get(1, DEMAND), &reply), Heard::Value(value.into()));
        let tenths = i32::from(value as i16);
        let is_temperature = (-400..=870).contains(&tenths) && tenths % 5 == 0;
        let expected = if is_temperature { Heard::Value(tenths) } else { WRONG };
        assert_eq!(hear(&get(1, TENTHS), &reply), expected);
    }
    let wide = |request: Request, value: i32| hear(&request, &[&[0, 4], &value.to_le_bytes()[..]].concat());
    for hundredths in (-20_000..20_000).chain([i32::MIN, i32::MAX]) {
        let is_temperature = (-4_000..=8_700).contains(&hundredths) && hundredths % 50 == 0;
        let expected = if is_temperature {
            Heard::Value(hundredths)
        } else {
            WRONG
        };
        assert_eq!(wide(get(1, HUNDREDTHS), hundredths), expected);
    }
    for (address, least, most) in [(CYCLE, 1_000, 60_000_000), (FLOOR, 0, 65_535)] {
        let request = get_param(2, 0, address);
        assert_eq!(wide(request, least), Heard::Value(least));
        assert_eq!(wide(request, most), Heard::Value(most));
        assert_eq!(wide(request, least - 1), WRONG);
        assert_eq!(wide(request, most + 1), WRONG);
        assert_eq!(wide(request, i32::MIN), WRONG);
    }
}

/// A value for each channel of the mask; a group of one channel too.
#[test]
fn groups() {
    assert_eq!(values(get_group(4, DEMAND), "00 02 34 12"), [0x1234]);
    assert_eq!(values(get_group(9, TENTHS), "00 04 F6 FF 66 03"), [-10, 870]);
    assert_eq!(
        values(get_group(11, HUNDREDTHS), "00 0C 00 00 00 00 60 F0 FF FF FC 21 00 00"),
        [0, -4_000, 8_700]
    );
    assert_eq!(
        values(get_group(15, DEMAND), "00 08 01 00 02 00 03 00 FF FF"),
        [1, 2, 3, 65_535]
    );
    for reply in [
        "00 02 F6 FF",
        "00 06 F6 FF 66 03 00 00",
        "00 04 F6 FF 66",
        "00 04 F6 FF 66 03 00",
        "00 03 F6 FF 66 03",
        "00 04 F6 FF FF FF",
        "00 04 FF FF 66 03",
        "01 04 F6 FF 66 03",
        "00 00",
    ] {
        assert_eq!(heard(get_group(9, TENTHS), reply), WRONG, "{reply}");
    }
    assert_eq!(heard(get_group(9, TENTHS), "D0 00"), Heard::Fault);
}

/// Every status with LEN 0, whatever was asked; nothing behind it.
#[test]
fn statuses() {
    let gets = [get(0, DEMAND), get_group(1, TENTHS), get_param(0, 0, CYCLE)];
    let sets = [
        set(0, DEMAND, 1),
        set_group(1, DEMAND, &[1]),
        set_param(0, 0, FLOOR, 1),
        reset(0, DEFAULT, CYCLE),
        reset(3, DEFAULT | PERSISTENT, FLOOR),
    ];
    let all = gets.map(|request| (request, false)).into_iter();
    for (request, is_set) in all.chain(sets.map(|request| (request, true))) {
        for status in 0..=255 {
            let expected = match status {
                0x00 if is_set => Heard::Done,
                0xD0 => Heard::Fault,
                _ if STATUSES.contains(&status) => Heard::Refused(Some(status)),
                _ => WRONG,
            };
            assert_eq!(hear(&request, &[status, 0]), expected);
            assert_eq!(hear(&request, &[status, 1]), WRONG);
            assert_eq!(hear(&request, &[status, 0, 0]), WRONG);
            assert_eq!(hear(&request, &[status, 1, 0]), WRONG);
            assert_eq!(hear(&request, &[status]), WRONG);
        }
        assert_eq!(hear(&request, &[]), WRONG);
    }
}
