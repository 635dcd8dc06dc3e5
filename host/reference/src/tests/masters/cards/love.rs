use std::ops::Range;

use super::{any_code, code_of, compare, figures, Asked, Entry, Random};
use crate::card::Card;
use crate::masters::love::{hear, make, Order, Request};
use crate::masters::Heard;
use crate::numbers::Reply;

impl Asked for Request {
    const ENTRY: Entry = crate::love::love;
    const MAKE: fn(&Self, &mut [u8]) -> Reply = make;
    const HEAR: fn(&Self, &[u8]) -> Heard = hear;

    fn unit(&self) -> Card {
        let mut card = Card::new();
        card.addresses.love = self.address;
        card
    }

    fn vary(&self, card: &mut Card, random: &mut Random) {
        card.memory[0] = any_code(random);
        card.love.fill_with(|| random.below(1271) as i32 - 400);
    }

    fn meaning(&self, card: &Card) -> Heard {
        match self.order {
            Order::Status => {
                let temperature = card.temperature(0);
                temperature.map_or(Heard::Fault, |tenths| Heard::Value(tenths.0.into()))
            }
            Order::Read { place } => Heard::Value(card.love[place as usize]),
            Order::Write { .. } => Heard::Done,
        }
    }

    fn guessed(&self, reply: &[u8]) -> Vec<Card> {
        let values = [figures(reply, 6..10), figures(reply, 8..12)].into_iter().flatten();
        let cards = values.flat_map(|value| [value, -value]).map(|value| {
            let mut card = self.unit();
            card.memory[0] = code_of(value);
            card.love = [value; 4];
            card
        });
        // A value outside makes a card unfit, and the unit alone has a failed probe.
        cards.chain([self.unit()]).collect()
    }

    fn refused(&self, _: &[u8]) -> Vec<Vec<u8>> {
        let [hundreds, low] = [self.address / 256, self.address % 256];
        let filter = ["L", "O", "V", "E"][hundreds as usize];
        let frame = |data: &str, off: u32| {
            let text = format!("{low:02X}{data}");
            let sum: u32 = text.bytes().map(u32::from).sum();
            format!("\x02{filter}{text}{:02X}\x03", (sum + off) % 256).into_bytes()
        };
        vec![
            frame("00", 1),
            frame("0101", 0),
            frame("01G0", 0),
            frame("000", 0),
            frame("0200999900", 0),
        ]
    }

    fn refusal(&self, _: u8, reply: &[u8]) -> Heard {
        Heard::Refused(figures(reply, 5..7).map(|code| code as u8))
    }

    fn check_places(&self, length: usize) -> Range<usize> {
        length.saturating_sub(3)..length.saturating_sub(1)
    }

    fn check(&self, before: &[u8]) -> Vec<u8> {
        let sum: u32 = before.iter().skip(1).map(|&byte| u32::from(byte)).sum();
        format!("{:02X}", sum % 256).into_bytes()
    }
}

#[test]
fn replies() {
    let mut random = Random(2);
    for turn in 0..32 {
        let place = turn % 4;
        let orders = [Order::Status, Order::Read { place }, Order::Write { place, value: -1 }];
        for order in orders {
            let address = 256 * random.below(4) as u32 + 1 + random.below(255) as u32;
            compare(&Request { address, order }, &mut random);
        }
    }
}
