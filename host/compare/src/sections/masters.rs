//! Section `masters`: requests at and past every limit, and every reply to them: the card's own, spoiled ones, those of
//! other requests, refusals of every kind.
//!
//! What a card replies goes back to the master, so these scripts are followed in the reference library.

use crate::asked::Mastered;
use crate::damage::other_byte;
use crate::frames::{lecom::Lecom, love::Love, lucid::Lucid};
use crate::masters::Master;
use crate::text::{bytes_of, hex_words, number, words};
use crate::writer::{Writer, ANSWER_ROOM, ROOM_MOST};

/// Scenes of this section, for each dialect.
const SCENES: usize = 6;
/// Requests at and past the limits in one scene.
const REQUESTS: usize = 100;
/// Requests of one scene whose replies are exchanged.
const EXCHANGED: usize = 6;
/// Other bytes in each place of a reply.
const OTHERS: usize = 4;
/// Values of a byte.
const BYTES: usize = 256;
/// Scenes of each kind and dialect, so that every request at and past the limits comes up.
const TURNS: usize = 44;
/// Calls of one turn of all scenes and dialects, about.
const TURN_CALLS: usize = 5_000;
/// Calls of the whole section.
pub const CASES: usize = TURNS * TURN_CALLS;

/// Writes the next scene, of each dialect in turn.
pub fn scene(out: &mut Writer) {
    let turn = out.turn / Master::ALL.len();
    match Master::ALL[out.turn % Master::ALL.len()] {
        Master::Lecom => scene_of::<Lecom>(out, turn),
        Master::Love => scene_of::<Love>(out, turn),
        Master::Lucid => scene_of::<Lucid>(out, turn),
    }
}

/// Writes the next scene of a dialect; the peeks at its end show that nothing was changed by looking.
fn scene_of<D: Mastered>(out: &mut Writer, turn: usize) {
    if out.rng.chance(30) {
        out.move_card();
    }
    out.peek(false);
    let scene = turn / SCENES;
    match turn % SCENES {
        0 => limits::<D>(out, scene),
        1 => spoiled::<D>(out),
        2 => every_byte::<D>(out, scene),
        3 => refusals::<D>(out, scene),
        4 => other_values::<D>(out, scene),
        _ => other_requests::<D>(out),
    }
    out.peek(false);
}

/// Asks with a room; gives the frame if it is made.
fn ask<D: Mastered>(out: &mut Writer, room: usize, request: &str) -> Option<Vec<u8>> {
    let answer = out.look(&format!("ask {} {room} {request}", D::CALL))?;
    let mut answer = words(answer.as_bytes());
    (answer.next().and_then(number) == Some(0)).then(|| bytes_of(answer))?
}

/// Gives the master a reply.
fn reply<D: Mastered>(out: &mut Writer, bytes: &[u8]) {
    out.look(&format!("reply {}{}", D::CALL, hex_words(bytes)));
}

/// Gives the master a reply as it is, and with its check characters made right.
fn reply_sealed<D: Mastered>(out: &mut Writer, bytes: &[u8]) {
    reply::<D>(out, bytes);
    let mut sealed = bytes.to_vec();
    D::seal_reply(&mut sealed);
    if sealed != bytes {
        reply::<D>(out, &sealed);
    }
}

/// Asks for any request of a kind, sends it to the card and gives the reply to the master; none if there is none.
fn exchange<D: Mastered>(out: &mut Writer, kind: usize) -> Option<(String, Vec<u8>)> {
    let request = D::request(out, kind % D::KINDS);
    let frame = ask::<D>(out, ROOM_MOST, &request)?;
    let answer = out.frame(D::CALL, ANSWER_ROOM, &frame)?;
    let bytes = bytes_of(words(answer.as_bytes()).skip(1))?;
    reply::<D>(out, &bytes);
    (!bytes.is_empty()).then_some((request, bytes))
}

/// An exchange of any kind with a reply.
fn any_exchange<D: Mastered>(out: &mut Writer) -> Option<(String, Vec<u8>)> {
    let kind = out.rng.below(D::KINDS);
    exchange::<D>(out, kind)
}

/// Requests at and past the limits in turn, with rooms around the frame's length. A reply comes after each request's first
/// call, which has no room for any frame, and after its last.
fn limits<D: Mastered>(out: &mut Writer, turn: usize) {
    let requests = D::limits();
    let mut replies = vec![Vec::new()];
    replies.extend(any_exchange::<D>(out).map(|(_, bytes)| bytes));
    replies.extend(D::refusals(&mut out.rng, &out.addresses, turn));
    for place in 0..REQUESTS {
        let request = &requests[(REQUESTS * turn + place) % requests.len()];
        ask::<D>(out, 0, request);
        let [first, last] = [0, 1].map(|_| out.rng.below(replies.len()));
        reply::<D>(out, &replies[first]);
        let room = out.rng.pick(&[ROOM_MOST, ROOM_MOST, ANSWER_ROOM]);
        if let Some(frame) = ask::<D>(out, room, request) {
            for room in [frame.len(), out.rng.below(frame.len()), frame.len() - 1] {
                ask::<D>(out, room, request);
            }
        }
        reply::<D>(out, &replies[last]);
    }
}

/// A card's reply with each byte changed, cut at each place, and with a byte more or less.
fn spoiled<D: Mastered>(out: &mut Writer) {
    let Some((_, bytes)) = any_exchange::<D>(out) else {
        return;
    };
    for place in 0..bytes.len() {
        let mut changed = bytes.clone();
        let mut others = vec![bytes[place] ^ 0x20];
        others.extend((0..OTHERS).map(|_| other_byte(&mut out.rng, bytes[place])));
        for other in others {
            changed[place] = other;
            reply_sealed::<D>(out, &changed);
        }
        reply_sealed::<D>(out, &bytes[..place]);
        let mut longer = bytes.clone();
        longer.insert(place, bytes[place]);
        reply_sealed::<D>(out, &longer);
        longer.remove(place);
        longer.remove(place);
        reply_sealed::<D>(out, &longer);
    }
    let mut longer = bytes.clone();
    longer.push(out.rng.byte());
    reply_sealed::<D>(out, &longer);
    reply::<D>(out, &[&bytes[..], &bytes].concat());
}

/// Each of the 256 bytes in two places of a reply, each place in its turn; requests of every kind in turn.
fn every_byte<D: Mastered>(out: &mut Writer, turn: usize) {
    let Some((_, bytes)) = exchange::<D>(out, turn) else {
        return;
    };
    let first = turn / D::KINDS;
    for place in [first, first + bytes.len() / 2] {
        let mut changed = bytes.clone();
        for byte in 0..BYTES {
            changed[place % bytes.len()] = byte as u8;
            reply_sealed::<D>(out, &changed);
        }
    }
}

/// Refusals of every code or status in turn, sent by cards or not, after a request of any kind.
fn refusals<D: Mastered>(out: &mut Writer, turn: usize) {
    any_exchange::<D>(out);
    for bytes in D::refusals(&mut out.rng, &out.addresses, turn) {
        reply_sealed::<D>(out, &bytes);
    }
}

/// A card's reply with other values, which cards have and which none has; requests of every kind in turn.
fn other_values<D: Mastered>(out: &mut Writer, turn: usize) {
    if let Some((_, bytes)) = exchange::<D>(out, turn) {
        for bytes in D::variants(&mut out.rng, &bytes) {
            reply::<D>(out, &bytes);
        }
    }
}

/// Several exchanges, one of them with a card at another address; then each request with all replies.
fn other_requests<D: Mastered>(out: &mut Writer) {
    let mut exchanges = Vec::new();
    for _ in 0..EXCHANGED {
        exchanges.extend(any_exchange::<D>(out));
    }
    out.move_card();
    exchanges.extend(any_exchange::<D>(out));
    for (request, _) in &exchanges {
        ask::<D>(out, ROOM_MOST, request);
        for (_, bytes) in &exchanges {
            reply::<D>(out, bytes);
        }
        reply::<D>(out, &[]);
    }
}

#[cfg(test)]
mod tests {
    use std::collections::HashSet;

    use super::super::{Scribe, SECTIONS};
    use super::*;
    use crate::calls::{Listed, CALLS};

    /// The whole section's lines.
    fn lines() -> HashSet<String> {
        let listed = Listed::read(&format!("calls: {}\n", CALLS.join("; "))).unwrap();
        let section = SECTIONS.iter().find(|section| section.name == "masters").unwrap();
        let mut scribe = Scribe::new(section, &listed, 1, CASES);
        let mut lines = HashSet::new();
        while let Some(script) = scribe.script() {
            let script = script.iter().map(|line| String::from_utf8_lossy(line));
            lines.extend(script.map(|line| line.trim_end().to_owned()));
        }
        lines
    }

    fn assert_limits<D: Mastered>(lines: &HashSet<String>) {
        let asked: HashSet<&str> = lines
            .iter()
            .filter_map(|line| line.strip_prefix(&format!("ask {} ", D::CALL)))
            .filter_map(|line| Some(line.split_once(' ')?.1))
            .collect();
        for request in D::limits() {
            assert!(asked.contains(&request[..]), "{} {request}", D::CALL);
        }
    }

    #[test]
    fn every_limit_and_refusal_comes_up() {
        let lines = lines();
        assert_limits::<Lecom>(&lines);
        assert_limits::<Love>(&lines);
        assert_limits::<Lucid>(&lines);
        for byte in 0..BYTES {
            assert!(lines.contains(&format!("reply lucid {byte:02X} 00")));
            let [high, low] = format!("{byte:02X}").into_bytes()[..] else {
                panic!("two figures");
            };
            assert!(lines.contains(&format!("reply lecom 02 {high:02X} {low:02X} 04")));
        }
    }
}
