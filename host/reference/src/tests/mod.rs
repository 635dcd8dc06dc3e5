//! The checked examples and "Run:" cases of document 01 and the worked examples of its sources.

mod blocks;
mod card;
mod console;
mod datalink;
mod figures;
mod image;
mod lecom;
mod love;
mod lucid;
mod master;
mod masters;
mod receivers;

use crate::card::Card;
use crate::numbers::Reply;

/// Fills the answer buffer before each call.
const UNTOUCHED: u8 = 0xA5;

/// Bytes from hex figures.
fn hex(text: &str) -> Vec<u8> {
    let figures = |word| u8::from_str_radix(word, 16).expect("two hex figures");
    text.split_whitespace().map(figures).collect()
}

/// Random numbers (SplitMix64).
struct Random(u64);

impl Random {
    fn below(&mut self, count: usize) -> usize {
        self.0 = self.0.wrapping_add(0x9E37_79B9_7F4A_7C15);
        let mut mixed = self.0;
        mixed = (mixed ^ (mixed >> 30)).wrapping_mul(0xBF58_476D_1CE4_E5B9);
        mixed = (mixed ^ (mixed >> 27)).wrapping_mul(0x94D0_49BB_1331_11EB);
        ((mixed ^ (mixed >> 31)) % count as u64) as usize
    }
}

/// Calls a dialect with a buffer of 64 bytes; gives the number and the answer, and checks that the rest of the buffer
/// stays as it was and that a refusal keeps all tables.
fn call(entry: fn(&mut Card, &[u8], &mut [u8]) -> Reply, card: &mut Card, frame: &[u8]) -> (u8, Vec<u8>) {
    let before = card.clone();
    let mut buffer = [UNTOUCHED; 64];
    let reply = entry(card, frame, &mut buffer);
    let (answer, rest) = buffer.split_at(reply.length);
    assert!(rest.iter().all(|&byte| byte == UNTOUCHED));
    let number = reply.number as u8;
    assert!(number < 2 || *card == before);
    (number, answer.to_vec())
}
