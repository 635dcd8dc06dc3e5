//! The quick receivers against the plain ones, and "however one byte sequence with its quiet marks is divided over calls,
//! frames and final receiver state are equal".

use super::{Line, Plain, LINES};
use crate::card::Card;
use crate::numbers::Number;
use crate::tests::Random;

impl Random {
    /// Bytes that tell in a share of ten, and else any.
    fn bytes(&mut self, line: Line, count: usize) -> Vec<u8> {
        let share = self.below(11);
        (0..count)
            .map(|_| {
                if self.below(10) < share {
                    line.telling[self.below(line.telling.len())]
                } else {
                    self.below(256) as u8
                }
            })
            .collect()
    }
}

fn plain_of(line: Line, card: &mut Card) -> Plain {
    let (&mut count, bytes) = (line.part)(card);
    Plain {
        count: usize::from(count),
        bytes: bytes.to_vec(),
    }
}

/// Gives the same bytes to both and compares everything.
fn compare(line: Line, card: &mut Card, bytes: &[u8]) -> usize {
    let mut plain = plain_of(line, card);
    let before = plain.clone();
    let given = line.receive(card, bytes);
    if !before.is_reached(line.step) {
        assert_eq!(given, (12, 0, vec![]), "{before:02X?} {bytes:02X?}");
        return 0;
    }
    let (taken, frame) = plain.receive(line.step, bytes);
    assert_eq!(
        given,
        (u8::from(frame.is_empty()), taken, frame),
        "{before:02X?} {bytes:02X?}"
    );
    assert_eq!(plain_of(line, card), plain, "{before:02X?} {bytes:02X?}");
    taken
}

#[test]
fn as_the_plain_receivers_on_random_lines() {
    for line in LINES {
        let mut random = Random(line.longest as u64);
        let mut card = Card::new();
        for _ in 0..4_000 {
            let count = [0, 1, 2, 3, 4, 7, 8, 9, 16, 25, 33, 40, 70, 300][random.below(14)];
            let bytes = random.bytes(line, count);
            let mut left = &bytes[..];
            while !left.is_empty() {
                let size = 1 + random.below(left.len());
                let taken = compare(line, &mut card, &left[..size]);
                left = &left[taken..];
            }
        }
    }
}

/// Part frames that bytes lead to, and others, of every count and a little beyond the longest.
#[test]
fn as_the_plain_receivers_behind_any_part_frame() {
    for line in LINES {
        let mut random = Random(7 + line.longest as u64);
        for round in 0..8_000 {
            let mut card = Card::new();
            let stored = random.bytes(line, line.longest);
            let (count, bytes) = (line.part)(&mut card);
            bytes.copy_from_slice(&stored);
            if round % 2 == 0 {
                bytes[0] = line.whole()[0];
            }
            *count = random.below(line.longest + 4) as u16;
            let size = random.below(12);
            let given = random.bytes(line, size);
            compare(line, &mut card, &given);
            let mut plain = plain_of(line, &mut card);
            let is_reached = plain.is_reached(line.step);
            let number = (line.quiet)(&mut card);
            assert_eq!(number == Number::Silent, is_reached, "{plain:02X?}");
            plain.count = if is_reached { 0 } else { plain.count };
            assert_eq!(plain_of(line, &mut card), plain);
        }
    }
}

/// Every sequence of a few telling bytes, in one call and byte by byte.
#[test]
fn every_short_sequence() {
    for line in LINES {
        let symbols = &line.telling[..5];
        for number in 0..5_usize.pow(5) {
            let bytes: Vec<u8> = (0..5).map(|place| symbols[number / 5_usize.pow(place) % 5]).collect();
            let [mut whole, mut single] = [Card::new(), Card::new()];
            let frames = collect(line, &mut whole, std::slice::from_ref(&bytes));
            let each: Vec<Vec<u8>> = bytes.iter().map(|&byte| vec![byte]).collect();
            assert_eq!(collect(line, &mut single, &each), frames, "{bytes:02X?}");
            assert_eq!(whole, single, "{bytes:02X?}");
        }
    }
}

/// Gives calls to a receiver, and again what a finished frame left over; gives the frames.
fn collect(line: Line, card: &mut Card, calls: &[Vec<u8>]) -> Vec<Vec<u8>> {
    let mut frames = vec![];
    for call in calls {
        let mut left = &call[..];
        loop {
            let (number, taken, frame) = line.receive(card, left);
            left = &left[taken..];
            if number != 0 {
                break;
            }
            frames.push(frame);
        }
        assert_eq!(left, []);
    }
    frames
}

/// Sequences between quiet marks, each divided in two ways.
#[test]
fn frames_and_part_frame_do_not_depend_on_the_division() {
    for line in LINES {
        let mut random = Random(line.longest as u64 + 1);
        for _ in 0..200 {
            let [mut one, mut other] = [Card::new(), Card::new()];
            for _ in 0..3 {
                let count = random.below(3 * line.longest);
                let bytes = random.bytes(line, count);
                let [first, second] = [(); 2].map(|()| {
                    let size = 1 + random.below(20);
                    bytes.chunks(size).map(<[u8]>::to_vec).collect::<Vec<_>>()
                });
                assert_eq!(collect(line, &mut one, &first), collect(line, &mut other, &second));
                assert_eq!(one, other);
                assert_eq!((line.quiet)(&mut one), (line.quiet)(&mut other));
            }
        }
    }
}
