//! Requests to the masters and replies to them (document 02, M-102): requests at and past every limit, replies close to
//! those of a card, and replies that no card sends.

pub mod lecom;
pub mod love;
pub mod lucid;

use crate::card;
use crate::frames::Dialect;
use crate::rng::Rng;
use crate::writer::{Addresses, Writer};

/// Codes or statuses of refusals in one turn of their sweep.
const SWEPT: usize = 16;
/// Values of a byte.
const BYTES: usize = 256;
/// The code of a failed probe.
const FAULT_CODE: u8 = 255;

/// A dialect with a master.
pub trait Mastered: Dialect {
    /// Kinds of requests that can be made.
    const KINDS: usize;

    /// Every request at and past each limit of document 01, as the words after ROOM.
    fn limits() -> Vec<String>;

    /// A request of a kind that the card takes, as the words after ROOM; the entries that it asks for get any value.
    fn request(out: &mut Writer, kind: usize) -> String;

    /// Refusals, of codes that a card sends and others, and with parts left out or changed; `turn` moves the sweep on.
    fn refusals(rng: &mut Rng, to: &Addresses, turn: usize) -> Vec<Vec<u8>>;

    /// Replies with other values in the place of those in a card's reply, and check characters made right.
    fn variants(rng: &mut Rng, reply: &[u8]) -> Vec<Vec<u8>>;

    /// Makes a reply's check characters right; a dialect may have none, and a reply be too short for them.
    fn seal_reply(reply: &mut [u8]);
}

/// Numbers that become the one given in a narrower type, and the ends of the wide ones.
fn wider(number: u32) -> [u32; 4] {
    [number + (1 << 8), number + (1 << 16), 1 << 31, u32::MAX]
}

/// The bytes of one turn of a sweep.
fn swept(turn: usize) -> impl Iterator<Item = u8> {
    (0..SWEPT).map(move |place| ((SWEPT * turn + place) % BYTES) as u8)
}

/// A probe code, often that of a fault.
fn probe_code(rng: &mut Rng) -> i64 {
    if rng.chance(20) {
        i64::from(FAULT_CODE)
    } else {
        i64::from(card::probe_code(rng))
    }
}

/// A value between two limits, often at one or close to zero.
fn any_value(rng: &mut Rng, (lowest, highest): (i64, i64)) -> i64 {
    let inside = rng.between(lowest, highest);
    let small = rng.between(-20, 20).clamp(lowest, highest);
    rng.pick(&[lowest, highest, inside, inside, small])
}

#[cfg(test)]
mod tests {
    use super::*;
    use crate::calls::{Listed, CALLS};
    use crate::frames::{lecom::Lecom, love::Love, lucid::Lucid};
    use crate::model::Model;
    use crate::text::hex_words;

    /// Requests tried of each kind.
    const TRIED: usize = 100;

    /// Asks for every kind, has the card answer, and gives what the replies meant.
    fn meanings<D: Mastered>() -> Vec<String> {
        let listed = Listed::read(&format!("calls: {}\n", CALLS.join("; "))).unwrap();
        let mut out = Writer::new(&listed, Rng::new(13));
        out.follow();
        let mut seen = Vec::new();
        for turn in 0..D::KINDS * TRIED {
            let request = D::request(&mut out, turn % D::KINDS);
            let made = out.look(&format!("ask {} 1024 {request}", D::CALL)).unwrap();
            let frame = made.strip_prefix("0 ").unwrap_or_else(|| panic!("{request}: {made}"));
            let answer = out.look(&format!("{} 38 {frame}", D::CALL)).unwrap();
            let (number, reply) = answer.split_once(' ').unwrap_or((&answer, ""));
            assert!(matches!(number, "0" | "1" | "9"), "{request}: {answer}");
            let heard = out.look(&format!("reply {} {reply}", D::CALL)).unwrap();
            let meaning: String = heard.split(' ').take(2).collect::<Vec<_>>().join(" ");
            if !seen.contains(&meaning) {
                seen.push(meaning);
            }
        }
        seen.sort();
        seen
    }

    #[test]
    fn the_card_takes_requests_of_every_kind() {
        assert_eq!(meanings::<Lecom>(), ["1 done", "1 refused", "1 value", "3"]);
        assert_eq!(meanings::<Love>(), ["1 done", "1 fault", "1 value"]);
        assert_eq!(meanings::<Lucid>(), ["1 done", "1 fault", "1 value"]);
    }

    /// The numbers that requests at and past the limits get, and how many there are.
    fn limits<D: Mastered>() -> (Vec<String>, usize) {
        let mut model = Model::new();
        let requests = D::limits();
        let mut numbers: Vec<String> = requests
            .iter()
            .map(|request| model.line(format!("ask {} 1024 {request}", D::CALL).as_bytes()))
            .map(|answer| answer.split(' ').next().unwrap_or_default().to_owned())
            .collect();
        numbers.sort();
        numbers.dedup();
        (numbers, requests.len())
    }

    #[test]
    fn limits_are_met_from_both_sides() {
        for (numbers, requests) in [limits::<Lecom>(), limits::<Love>(), limits::<Lucid>()] {
            assert_eq!(numbers, ["0", "7"]);
            assert!(requests > 1000);
        }
    }

    /// What replies of these bytes mean to a request.
    fn heard<D: Mastered>(request: &str, replies: &[Vec<u8>]) -> Vec<String> {
        let mut model = Model::new();
        model.line(format!("ask {} 1024 {request}", D::CALL).as_bytes());
        let lines = replies
            .iter()
            .map(|reply| format!("reply {}{}", D::CALL, hex_words(reply)));
        lines.map(|line| model.line(line.as_bytes())).collect()
    }

    /// Each request with a reply to it: refusals and variants of the reply are met and missed.
    fn both_sides<D: Mastered>(cases: &[(&str, &[u8])]) {
        let mut rng = Rng::new(14);
        for (request, reply) in cases {
            let mut sealed = reply.to_vec();
            D::seal_reply(&mut sealed);
            assert_eq!(sealed, *reply, "{request}");
            let variants: Vec<Vec<u8>> = (0..20).flat_map(|_| D::variants(&mut rng, reply)).collect();
            let turns = 0..BYTES / SWEPT;
            let refusals: Vec<Vec<u8>> = turns
                .flat_map(|turn| D::refusals(&mut rng, &Addresses::START, turn))
                .collect();
            for (replies, meant) in [
                (variants, ["1 value", "1 done"]),
                (refusals, ["1 refused", "1 refused"]),
            ] {
                let heard = heard::<D>(request, &replies);
                assert!(heard
                    .iter()
                    .any(|heard| meant.iter().any(|meant| heard.starts_with(meant))));
                assert!(heard.iter().any(|heard| heard == "3"));
            }
        }
    }

    #[test]
    fn replies_come_from_both_sides() {
        both_sides::<Lecom>(&[
            ("11 read 5", b"\x0205-7\x03\x1C"),
            ("11 read 96", b"\x026070\x03\x02"),
            ("11 write 5 1", b"\x06"),
        ]);
        both_sides::<Love>(&[
            ("50 status", b"\x02L32C000005049\x06"),
            ("50 read 0", b"\x02L32010015D8\x06"),
            ("50 write 0 1", b"\x02L320011\x06"),
        ]);
        both_sides::<Lucid>(&[
            ("getio 0 64", &[0, 2, 0xF6, 0xFF]),
            ("getiogroup 3 65", &[0, 8, 0, 0, 0, 0, 50, 0, 0, 0]),
            ("getparam 0 0 4368", &[0, 4, 0xB0, 0x71, 0x0B, 0]),
            ("reset 0 1 4368", &[0, 0]),
        ]);
    }
}
