//! Bytes on a dialect's line, for its receiver: frames good, damaged, cut and of other units, frames around the longest, and
//! noise of bytes that the receiver looks at.

use crate::damage::damaged;
use crate::frames::datalink::{
    Datalink, ACKNOWLEDGE, CHANGE, CHANGE_BITS, COMMAND_FIELD, INTERROGATE, NUM_MOST, START,
};
use crate::frames::lecom::{Lecom, ENQ, EOT, ETX, STX};
use crate::frames::{love::Love, lucid::Lucid, Dialect};
use crate::image::Image;
use crate::receivers::Receiver;
use crate::rng::Rng;
use crate::writer::Addresses;

/// Most bytes of noise between frames.
const NOISE_MOST: usize = 12;
/// Characters that neither begin nor end a frame.
const ORDINARY: &[u8] = b"0123456789ABCDEF!-LOVE";
/// How many bytes a call has at most, line by line: an interrupt's few, or a whole line.
const CALL_SIZES: [usize; 6] = [1, 3, 3, 8, 40, 300];

/// A dialect whose bytes come one after another.
pub trait Streamed: Dialect {
    /// The dialect's receiver.
    const RECEIVER: Receiver;
    /// Bytes that the receiver looks at.
    const TELLING: &'static [u8];

    /// Bytes at each edge of the receiver's rules: the shortest and longest frames, what drops, and what starts anew.
    fn edges(rng: &mut Rng) -> Vec<Vec<u8>>;
}

impl Streamed for Datalink {
    const RECEIVER: Receiver = Receiver::Datalink;
    const TELLING: &'static [u8] = &[
        START,
        START,
        INTERROGATE | 3,
        CHANGE | 3,
        CHANGE_BITS | 31,
        ACKNOWLEDGE | 3,
        ACKNOWLEDGE,
        0x7F,
        0x20,
        0x23,
        0x40,
        0x60,
        0x00,
        0x01,
        0x02,
        0x21,
    ];

    fn edges(rng: &mut Rng) -> Vec<Vec<u8>> {
        let mut edges = Vec::new();
        for command in (0..=u8::MAX).step_by(0x20) {
            let second = command | rng.byte() & !COMMAND_FIELD;
            for num in [0, NUM_MOST, NUM_MOST + 1, START] {
                let mut bytes = vec![START, second, num];
                bytes.extend(rng.bytes(Self::LONGEST - bytes.len()));
                edges.push(bytes);
            }
        }
        edges.push(vec![START; 4]);
        edges
    }
}

impl Streamed for Lecom {
    const RECEIVER: Receiver = Receiver::Lecom;
    const TELLING: &'static [u8] = &[EOT, EOT, ENQ, STX, STX, ETX, ETX, 0x06, 0x15, b'1', b'0'];

    fn edges(rng: &mut Rng) -> Vec<Vec<u8>> {
        let mut edges = vec![
            vec![EOT, ENQ],
            vec![EOT, STX, ETX, EOT],
            vec![EOT, b'1', EOT, ENQ],
            vec![EOT, STX, b'0', EOT, ETX, ENQ],
        ];
        for last in [EOT, ENQ, ETX, STX, b'0'] {
            for length in [Self::LONGEST - 1, Self::LONGEST] {
                edges.push(filled(rng, &[EOT], length, &[last]));
                edges.push(filled(rng, &[EOT, STX], length, &[last]));
                edges.push(filled(rng, &[EOT, STX], length - 1, &[ETX, last]));
            }
        }
        edges
    }
}

impl Streamed for Love {
    const RECEIVER: Receiver = Receiver::Love;
    const TELLING: &'static [u8] = &[STX, STX, ETX, ETX, 0x01, 0x00, 0x06, b'L', b'0'];

    fn edges(rng: &mut Rng) -> Vec<Vec<u8>> {
        let mut edges = vec![vec![STX, ETX], vec![STX, b'L', STX, ETX]];
        for last in [STX, ETX, b'0'] {
            for length in [Self::LONGEST - 1, Self::LONGEST] {
                edges.push(filled(rng, &[STX], length, &[last]));
            }
        }
        edges
    }
}

impl Streamed for Lucid {
    const RECEIVER: Receiver = Receiver::Lucid;
    const TELLING: &'static [u8] = &[0, 0, 1, 2, 3, 4, 0x46, 0xFF];

    fn edges(rng: &mut Rng) -> Vec<Vec<u8>> {
        let edge = |len: u8| {
            let mut bytes = rng.bytes(3);
            bytes.push(len);
            bytes.extend(rng.bytes(usize::from(len)));
            bytes
        };
        [0, 1, 254, 255].map(edge).to_vec()
    }
}

/// Bytes filled up with ordinary characters to a length, and what follows them.
fn filled(rng: &mut Rng, first: &[u8], length: usize, last: &[u8]) -> Vec<u8> {
    let mut bytes = first.to_vec();
    while bytes.len() < length {
        bytes.push(rng.pick(ORDINARY));
    }
    bytes.extend_from_slice(last);
    bytes
}

/// One piece of a line: a frame of this card or of another unit, whole or not, or noise.
pub fn piece<D: Streamed>(rng: &mut Rng, to: &Addresses) -> Vec<u8> {
    match rng.below(14) {
        0..=3 => D::valid(rng, to),
        4 => {
            let other = Image::fit_addresses(rng);
            D::valid(rng, &other)
        }
        5 => D::assembled(rng, to),
        6 | 7 => {
            let frame = D::valid(rng, to);
            let place = rng.below(frame.len());
            damaged(rng, &frame, place)
        }
        8 => {
            let mut frame = D::valid(rng, to);
            let kept = rng.below(frame.len());
            frame.truncate(kept);
            frame
        }
        9..=11 => edge::<D>(rng),
        12 => noise::<D>(rng, 100),
        _ => noise::<D>(rng, 50),
    }
}

/// Bytes at one of the edges.
pub fn edge<D: Streamed>(rng: &mut Rng) -> Vec<u8> {
    let mut edges = D::edges(rng);
    let place = rng.below(edges.len());
    edges.swap_remove(place)
}

/// Random bytes, so many in a hundred of them ones that the receiver looks at.
fn noise<D: Streamed>(rng: &mut Rng, telling: usize) -> Vec<u8> {
    let count = 1 + rng.below(NOISE_MOST);
    let byte = |rng: &mut Rng| {
        if rng.chance(telling) {
            rng.pick(D::TELLING)
        } else {
            rng.byte()
        }
    };
    (0..count).map(|_| byte(rng)).collect()
}

/// So many pieces of a line, one behind the other.
pub fn pieces<D: Streamed>(rng: &mut Rng, to: &Addresses, count: usize) -> Vec<u8> {
    (0..count).flat_map(|_| piece::<D>(rng, to)).collect()
}

/// Bytes divided at random over calls, about so many at most, some of which have no bytes.
pub fn divided(rng: &mut Rng, bytes: &[u8], calls_most: usize) -> Vec<Vec<u8>> {
    let most = rng.pick(&CALL_SIZES).max(2 * bytes.len() / calls_most);
    let mut calls = Vec::new();
    let mut left = bytes;
    while !left.is_empty() {
        let size = if rng.chance(5) { 0 } else { 1 + rng.below(most) };
        let (call, rest) = left.split_at(size.min(left.len()));
        calls.push(call.to_vec());
        left = rest;
    }
    calls
}

#[cfg(test)]
mod tests {
    use super::*;

    #[test]
    fn divided_bytes_are_all_there() {
        let mut rng = Rng::new(1);
        let bytes = rng.bytes(500);
        for _ in 0..100 {
            assert_eq!(divided(&mut rng, &bytes, 10).concat(), bytes);
        }
    }

    /// Checks that every way in which bytes end a frame comes up in lines.
    fn all_ways_come_up<D: Streamed>(lines: &[Vec<u8>]) {
        let mut reached = Vec::new();
        for line in lines {
            let mut collected = Vec::new();
            reached.extend(line.iter().filter_map(|&byte| D::RECEIVER.take(&mut collected, byte)));
        }
        let missing = D::RECEIVER.ways().iter().filter(|way| !reached.contains(way));
        let missing: Vec<&str> = missing.copied().collect();
        assert_eq!(missing, ["quiet", "restart"], "{:?}", D::RECEIVER);
    }

    #[test]
    fn every_way_comes_up_at_the_edges_behind_noise() {
        fn check<D: Streamed>() {
            let mut edges = D::edges(&mut Rng::new(2));
            edges.push(vec![0x35]);
            all_ways_come_up::<D>(&edges);
        }
        check::<Datalink>();
        check::<Lecom>();
        check::<Love>();
        check::<Lucid>();
    }

    #[test]
    fn every_way_comes_up_in_a_few_pieces() {
        fn check<D: Streamed>() {
            let mut rng = Rng::new(3);
            all_ways_come_up::<D>(&[pieces::<D>(&mut rng, &Addresses::START, 1000)]);
        }
        check::<Datalink>();
        check::<Lecom>();
        check::<Love>();
        check::<Lucid>();
    }
}
