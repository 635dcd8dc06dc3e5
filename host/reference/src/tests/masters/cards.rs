//! The masters against the cards themselves: what document 02 says of answers, refusals and check characters, asked of the
//! dialects' entries.

mod lecom;
mod love;
mod lucid;

use std::ops::Range;

use super::{made, UNCHECKED, WRONG};
use crate::card::Card;
use crate::masters::Heard;
use crate::numbers::{Number, Reply};
use crate::tests::{call, hex, Random};

/// Replies tried of each request.
const TRIED: usize = 60;
/// Bytes that tell.
const TELLING: &[u8] = b"\x00\x01\x02\x03\x04\x05\x06\x15 !-/0129:ACDFLNacdf\xB0\xD0\xFF";

/// A dialect's entry.
type Entry = fn(&mut Card, &[u8], &mut [u8]) -> Reply;

/// A request to the card at its address, with what it takes to judge a reply by cards.
trait Asked: Sized {
    const ENTRY: Entry;
    const MAKE: fn(&Self, &mut [u8]) -> Reply;
    const HEAR: fn(&Self, &[u8]) -> Heard;

    /// The card at the request's address as the console starts with it, with all probes failed.
    fn unit(&self) -> Card;
    /// Gives the card any tables.
    fn vary(&self, card: &mut Card, random: &mut Random);
    /// What a card answers by its tables.
    fn meaning(&self, card: &Card) -> Heard;
    /// Cards of which one answers with this reply, if any does.
    fn guessed(&self, reply: &[u8]) -> Vec<Card>;
    /// Frames of which the unit refuses one with this reply, if any card there so refuses any frame.
    fn refused(&self, reply: &[u8]) -> Vec<Vec<u8>>;
    /// What a refusal means.
    fn refusal(&self, number: u8, reply: &[u8]) -> Heard;
    /// Where a reply of this length has its check characters.
    fn check_places(&self, length: usize) -> Range<usize>;
    /// The check characters of what comes before them.
    fn check(&self, before: &[u8]) -> Vec<u8>;
}

/// What document 02 has a reply mean.
fn expected<A: Asked>(asked: &A, frame: &[u8], reply: &[u8]) -> Heard {
    let mut is_unchecked = false;
    for mut card in asked.guessed(reply) {
        let meaning = asked.meaning(&card);
        let (number, mut answer) = call(A::ENTRY, &mut card, frame);
        if number == 0 && answer.len() == reply.len() {
            if answer == reply {
                return meaning;
            }
            let places = asked.check_places(reply.len());
            answer[places.clone()].copy_from_slice(&reply[places]);
            is_unchecked |= answer == reply;
        }
    }
    for frame in asked.refused(reply) {
        let (number, answer) = call(A::ENTRY, &mut asked.unit(), &frame);
        if number > 1 && !answer.is_empty() && answer == reply {
            return asked.refusal(number, reply);
        }
    }
    if is_unchecked {
        UNCHECKED
    } else {
        WRONG
    }
}

/// A reply spoiled in one or two places.
fn spoiled(random: &mut Random, reply: &[u8]) -> Vec<u8> {
    let mut reply = reply.to_vec();
    for _ in 0..1 + random.below(4) / 3 {
        let place = random.below(reply.len() + 1);
        let telling = TELLING[random.below(TELLING.len())];
        match (random.below(12), reply.get_mut(place)) {
            (0, _) => reply.truncate(place),
            (1 | 2, _) => reply.insert(place, telling),
            (3, Some(_)) => drop(reply.remove(place)),
            (4 | 5, Some(byte)) => *byte ^= 1 << random.below(8),
            (6, Some(byte)) => *byte ^= 0x20,
            (7 | 8, Some(byte)) => *byte = byte.wrapping_add(1),
            (_, Some(byte)) => *byte = telling,
            _ => {}
        }
    }
    reply
}

/// The reply with its check characters made right.
fn sealed(asked: &impl Asked, reply: &[u8]) -> Vec<u8> {
    let places = asked.check_places(reply.len());
    let check = asked.check(&reply[..places.start]);
    let mut sealed = reply.to_vec();
    sealed[places.clone()].copy_from_slice(&check[..places.len()]);
    sealed
}

/// A card's reply, and others close to it, as they are and with their check characters made right.
fn compare<A: Asked>(asked: &A, random: &mut Random) {
    let (number, frame) = made(|room| A::MAKE(asked, room));
    assert_eq!(number, 0);
    let mut card = asked.unit();
    asked.vary(&mut card, random);
    let meaning = asked.meaning(&card);
    let (number, reply) = call(A::ENTRY, &mut card, &frame);
    let is_answered = number == Number::Answered as u8;
    let own = if is_answered {
        meaning
    } else {
        asked.refusal(number, &reply)
    };
    assert_eq!(A::HEAR(asked, &reply), own);
    for _ in 0..TRIED {
        let reply = spoiled(random, &reply);
        for reply in [sealed(asked, &reply), reply] {
            assert_eq!(A::HEAR(asked, &reply), expected(asked, &frame, &reply), "{reply:02X?}");
        }
    }
    for frame in asked.refused(b"\x0264\x04") {
        let (number, reply) = call(A::ENTRY, &mut asked.unit(), &frame);
        assert_eq!(A::HEAR(asked, &reply), asked.refusal(number, &reply), "{frame:02X?}");
    }
}

/// A probe code, often that of a fault.
fn any_code(random: &mut Random) -> u8 {
    match random.below(4) {
        0 => 255,
        _ => random.below(256) as u8,
    }
}

/// The code that gives a temperature, or that of a fault if none does.
fn code_of(tenths: i32) -> u8 {
    u8::try_from((tenths + 400) / 5).unwrap_or(255)
}

/// A number of figures at a place of a reply.
fn figures(reply: &[u8], places: Range<usize>) -> Option<i32> {
    std::str::from_utf8(reply.get(places)?).ok()?.parse().ok()
}
