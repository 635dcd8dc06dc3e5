use std::ops::Range;

use super::{any_code, code_of, compare, figures, Asked, Entry, Random};
use crate::card::Card;
use crate::masters::lecom::{hear, make, Order, Request};
use crate::masters::Heard;
use crate::numbers::Reply;

impl Asked for Request {
    const ENTRY: Entry = crate::lecom::lecom;
    const MAKE: fn(&Self, &mut [u8]) -> Reply = make;
    const HEAR: fn(&Self, &[u8]) -> Heard = hear;

    fn unit(&self) -> Card {
        let mut card = Card::new();
        card.addresses.lecom = self.address;
        card
    }

    fn vary(&self, card: &mut Card, random: &mut Random) {
        card.memory[..4].fill_with(|| any_code(random));
        let limit = 10_usize.pow(random.below(7) as u32);
        card.operational
            .fill_with(|| random.below(2 * limit - 1) as i32 + 1 - limit as i32);
    }

    fn meaning(&self, card: &Card) -> Heard {
        match (self.order, self.code) {
            (Order::Write(_), _) => Heard::Done,
            (_, 0..=0x5F) => Heard::Value(card.operational[self.code as usize]),
            (_, 0x60..=0x63) => {
                let temperature = card.temperature(self.code as usize - 0x60);
                temperature.map_or(Heard::Refused(None), |tenths| Heard::Value(tenths.0.into()))
            }
            _ => Heard::Value(0),
        }
    }

    fn guessed(&self, reply: &[u8]) -> Vec<Card> {
        let mut card = self.unit();
        if let Some(value) = figures(reply, 3..reply.len().saturating_sub(2)) {
            match self.code {
                0..=0x5F => card.operational[self.code as usize] = value,
                0x60..=0x63 => card.memory[self.code as usize - 0x60] = code_of(value),
                _ => {}
            }
        }
        vec![card]
    }

    fn refused(&self, reply: &[u8]) -> Vec<Vec<u8>> {
        let code = reply.get(1..reply.len().saturating_sub(1)).unwrap_or_default();
        let frame = |code: &[u8]| [format!("\x04{}", self.address).as_bytes(), code, b"\x05"].concat();
        vec![frame(code), frame(b"xx")]
    }

    fn refusal(&self, _: u8, _: &[u8]) -> Heard {
        Heard::Refused(None)
    }

    /// ACK has no check character.
    fn check_places(&self, length: usize) -> Range<usize> {
        match self.order {
            Order::Read => length.saturating_sub(1)..length,
            Order::Write(_) => length..length,
        }
    }

    fn check(&self, before: &[u8]) -> Vec<u8> {
        vec![before.iter().skip(1).fold(0, |bcc, byte| bcc ^ byte)]
    }
}

#[test]
fn replies() {
    let mut random = Random(1);
    for code in (0..=0x63).chain([0x67, 0x68]) {
        for order in [Order::Read, Order::Write(1)] {
            let address = 11 + 10 * random.below(9) as u32 + random.below(9) as u32;
            let is_probe = (0x60..=0x63).contains(&code);
            if order == Order::Read || !is_probe {
                compare(&Request { address, code, order }, &mut random);
            }
        }
    }
}
