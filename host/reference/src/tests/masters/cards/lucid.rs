use std::ops::Range;

use super::{any_code, call, code_of, compare, hex, made, Asked, Entry, Random};
use crate::card::Card;
use crate::masters::lucid::{hear, make, Request};
use crate::masters::Heard;
use crate::numbers::{Number, Reply};

/// Of groups the rules' tests tell.
impl Asked for Request<'_> {
    const ENTRY: Entry = crate::lucid::lucid;
    const MAKE: fn(&Self, &mut [u8]) -> Reply = make;
    const HEAR: fn(&Self, &[u8]) -> Heard = hear;

    fn unit(&self) -> Card {
        Card::new()
    }

    fn vary(&self, card: &mut Card, random: &mut Random) {
        card.memory[..4].fill_with(|| any_code(random));
        card.demand.fill_with(|| random.below(65_536) as u32);
        card.parameter[0].fill_with(|| 1_000 + random.below(59_999_001) as u32);
        card.parameter[1].fill_with(|| random.below(65_536) as u32);
    }

    fn meaning(&self, card: &Card) -> Heard {
        let (channel, value_type) = match *self {
            Self::GetIo { channel, value_type } => (channel as usize, value_type),
            Self::GetParam { channel, address, .. } => {
                let parameter = usize::from(address == 0x1120);
                return Heard::Value(card.parameter[parameter][channel as usize] as i32);
            }
            _ => return Heard::Done,
        };
        match (value_type, card.temperature(channel)) {
            (0x10, _) => Heard::Value(card.demand[channel] as i32),
            (_, None) => Heard::Fault,
            (0x40, Some(tenths)) => Heard::Value(tenths.0.into()),
            (_, Some(tenths)) => Heard::Value(10 * i32::from(tenths.0)),
        }
    }

    fn guessed(&self, reply: &[u8]) -> Vec<Card> {
        let mut card = self.unit();
        let two = reply.get(2..4).and_then(|bytes| bytes.try_into().ok());
        let two = i16::from_le_bytes(two.unwrap_or_default());
        let four = reply.get(2..6).and_then(|bytes| bytes.try_into().ok());
        let four = i32::from_le_bytes(four.unwrap_or_default());
        match *self {
            Self::GetIo { value_type: 0x10, .. } => card.demand = [u32::from(two as u16); 4],
            Self::GetIo { value_type: 0x40, .. } => card.memory[..4].fill(code_of(two.into())),
            Self::GetIo { .. } => card.memory[..4].fill(code_of(four / 10)),
            Self::GetParam { address: 0x1110, .. } => card.parameter[0] = [four as u32; 4],
            Self::GetParam { .. } => card.parameter[1] = [four as u32; 4],
            _ => {}
        }
        vec![card]
    }

    fn refused(&self, _: &[u8]) -> Vec<Vec<u8>> {
        let frames = [
            "46 00 40 00",
            "46 00 10 01",
            "52 00 00 00",
            "46 04 10 00",
            "48 00 10 00",
            "46 00 11 00",
            "A2 00 80 00",
            "A2 00 00 02 00 00",
            "A0 00 01 00",
            "A0 00 01 02 00 00",
            "A0 00 00 06 10 11 00 00 00 00",
        ];
        frames.map(hex).to_vec()
    }

    fn refusal(&self, number: u8, reply: &[u8]) -> Heard {
        if number == Number::Fault as u8 {
            Heard::Fault
        } else {
            Heard::Refused(Some(reply[0]))
        }
    }

    /// There are none.
    fn check_places(&self, length: usize) -> Range<usize> {
        length..length
    }

    fn check(&self, _: &[u8]) -> Vec<u8> {
        vec![]
    }
}

#[test]
fn replies() {
    let mut random = Random(3);
    for turn in 0..16 {
        let channel = turn % 4;
        let requests = [
            get(channel, 0x10),
            get(channel, 0x40),
            get(channel, 0x41),
            get_param(channel, 0x1110),
            get_param(channel, 0x1120),
            reset(channel, 0x01, 0x1110),
            reset(channel, 0x81, 0x1120),
            Request::SetIo {
                channel,
                value_type: 0x10,
                value: turn,
            },
        ];
        for request in requests {
            compare(&request, &mut random);
        }
    }
}

/// Document 02, M-103: a made reset is that of the one parameter asked for, and of its saved copy where that is asked.
#[test]
fn resets() {
    let places = [(0, 0x1110, 1_000_000), (1, 0x1120, 0)];
    for (parameter, address, default) in places {
        for channel in 0..4 {
            for option in [0x01, 0x81] {
                let request = reset(channel, option, address);
                let mut card = request.unit();
                card.parameter = [[2_000; 4], [3_000; 4]];
                card.kept = [[4_000; 4], [5_000; 4]];
                let mut expected = card.clone();
                expected.parameter[parameter][channel as usize] = default;
                if option == 0x81 {
                    expected.kept[parameter][channel as usize] = default;
                }
                let (_, frame) = made(|room| make(&request, room));
                let (_, reply) = call(Request::ENTRY, &mut card, &frame);
                assert_eq!(hear(&request, &reply), Heard::Done, "{request:?}");
                assert!(card == expected, "{request:?}");
            }
        }
    }
}

fn get(channel: u32, value_type: u32) -> Request<'static> {
    Request::GetIo { channel, value_type }
}

fn get_param(channel: u32, address: u32) -> Request<'static> {
    Request::GetParam {
        channel,
        option: 0,
        address,
    }
}

fn reset(channel: u32, option: u32, address: u32) -> Request<'static> {
    Request::Reset {
        channel,
        option,
        address,
    }
}
