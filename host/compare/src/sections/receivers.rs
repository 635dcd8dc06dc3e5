//! Section `receivers`: bytes as they come, in calls of any size, with quiet lines and restarts between.
//!
//! What a call left over is lent again, so these scripts are followed in the reference library.

use super::dialect::send_valid;
use crate::card::{ranged_places, PART};
use crate::frames::{datalink::Datalink, lecom::Lecom, love::Love, lucid::Lucid, Dialect};
use crate::image::Image;
use crate::receivers::Receiver;
use crate::rng::Rng;
use crate::streams::{divided, edge, piece, pieces, Streamed};
use crate::text::{bytes_of, hex_words, number, words};
use crate::writer::{Writer, ROOM_MOST};

/// Scenes of this section, for each dialect.
const SCENES: usize = 9;
/// Pieces of one line.
const PIECES: usize = 4;
/// Calls that such pieces are divided over, about.
const CALLS: usize = 12;
/// Edges of one scene.
const EDGES: usize = 12;
/// Part frames of one scene.
const PARTS: usize = 12;
/// Calls of a scene that all receivers share.
const SHARED_CALLS: usize = 16;
/// The place of a part frame's count; its bytes follow.
const COUNT_PLACE: usize = 0;
/// The highest count that can be poked.
const COUNT_MOST: i64 = 65_535;

/// Writes the next scene, of each dialect in turn.
pub fn scene(out: &mut Writer) {
    let turn = out.turn / Receiver::ALL.len();
    match out.turn % Receiver::ALL.len() {
        0 => scene_of::<Datalink>(out, turn),
        1 => scene_of::<Lecom>(out, turn),
        2 => scene_of::<Love>(out, turn),
        _ => scene_of::<Lucid>(out, turn),
    }
}

/// Writes the next scene of a dialect.
fn scene_of<D: Streamed>(out: &mut Writer, turn: usize) {
    match turn % SCENES {
        0 | 1 => line::<D>(out),
        2 => same_line_twice::<D>(out),
        3 => poked::<D>(out),
        4 => every_entry::<D>(out),
        5 => rooms::<D>(out),
        6 => unfit::<D>(out, turn / SCENES),
        7 => edges::<D>(out, turn / SCENES),
        _ => all_receivers(out),
    }
}

/// The room of a frame buffer, seldom too short.
fn room<D: Streamed>(rng: &mut Rng) -> usize {
    match rng.below(20) {
        0 => D::LONGEST - 1,
        1 => rng.pick(&[0, 1, D::LONGEST - 2]),
        2 => rng.pick(&[ROOM_MOST, D::LONGEST + 1]),
        3 => rng.below(ROOM_MOST + 1),
        _ => D::LONGEST,
    }
}

/// Gives bytes to the receiver; tells how many it took, none if it refused, and the frame.
fn receive<D: Streamed>(out: &mut Writer, room: usize, bytes: &[u8]) -> Option<(usize, Vec<u8>)> {
    let line = format!("receive {} {room}{}", D::CALL, hex_words(bytes));
    let answer = out.call(&line)?;
    let mut answer = words(answer.as_bytes()).skip(1);
    let taken = number(answer.next()?)?;
    Some((taken as usize, bytes_of(answer)?))
}

/// Lends bytes, and again what a finished frame or a short frame buffer left over. Where that may be lost it seldom is. A
/// frame handed over is now and then given to the dialect's entry.
fn lend<D: Streamed>(out: &mut Writer, bytes: &[u8], may_be_lost: bool) {
    let mut left = bytes;
    loop {
        let room = room::<D>(&mut out.rng);
        match receive::<D>(out, room, left) {
            Some((taken, frame)) => {
                left = &left[taken..];
                if !frame.is_empty() && out.rng.chance(25) {
                    let room = out.room();
                    out.frame(D::CALL, room, &frame);
                }
            }
            None if room >= D::LONGEST => return,
            None => {}
        }
        if left.is_empty() || may_be_lost && out.rng.chance(10) {
            return;
        }
    }
}

/// Tells the receiver of a quiet line.
fn quiet<D: Streamed>(out: &mut Writer) {
    out.call(&format!("quiet {}", D::CALL));
}

/// Lends some bytes to a receiver; for scenes of all entries.
fn lend_some<D: Streamed>(out: &mut Writer) {
    let bytes = piece::<D>(&mut out.rng, &out.addresses);
    let size = 1 + out.rng.below(bytes.len().max(1));
    lend::<D>(out, &bytes[..size.min(bytes.len())], true);
}

/// For each receiver a call with bytes and one that tells of a quiet line.
const RECEIVER_CALLS: [[fn(&mut Writer); 2]; 4] = [
    [lend_some::<Datalink>, quiet::<Datalink>],
    [lend_some::<Lecom>, quiet::<Lecom>],
    [lend_some::<Love>, quiet::<Love>],
    [lend_some::<Lucid>, quiet::<Lucid>],
];

/// Lends bytes to any receiver.
pub fn lend_any(out: &mut Writer) {
    let [lend, _] = out.rng.pick(&RECEIVER_CALLS);
    lend(out);
}

/// Tells any receiver of a quiet line.
pub fn quiet_any(out: &mut Writer) {
    let [_, quiet] = out.rng.pick(&RECEIVER_CALLS);
    quiet(out);
}

/// Stores a part frame as it is, fit or not, and peeks; bytes beyond the longest frame have no place.
fn set_part<D: Streamed>(out: &mut Writer, count: i64, bytes: &[u8]) {
    let table = format!("{PART} {}", D::CALL);
    for (place, &byte) in bytes.iter().take(D::LONGEST).enumerate() {
        out.set(&table, COUNT_PLACE + 1 + place, i64::from(byte));
    }
    out.set(&table, COUNT_PLACE, count);
    out.peek(false);
}

/// Stores an empty part frame, which is always fit.
fn set_no_part<D: Streamed>(out: &mut Writer) {
    set_part::<D>(out, 0, &[]);
}

/// A part frame that bytes lead to, seldom an empty one.
fn part<D: Streamed>(out: &mut Writer) -> Vec<u8> {
    let bytes = piece::<D>(&mut out.rng, &out.addresses);
    let count = out.rng.below(bytes.len() + 1);
    D::RECEIVER.collected(&bytes[..count])
}

/// Pieces of a line divided over calls, with quiet lines and restarts between; what is left over is seldom lost. In the end
/// old bytes behind the count are shown again.
fn line<D: Streamed>(out: &mut Writer) {
    for _ in 0..PIECES {
        let bytes = pieces::<D>(&mut out.rng, &out.addresses, 2);
        for call in divided(&mut out.rng, &bytes, CALLS) {
            lend::<D>(out, &call, true);
            if out.rng.chance(3) {
                quiet::<D>(out);
            }
        }
        match out.rng.below(4) {
            0 => quiet::<D>(out),
            1 => drop(out.call("restart")),
            _ => {}
        }
    }
    let count = out.rng.below(D::LONGEST + 2);
    set_part::<D>(out, count as i64, &[]);
    lend_some::<D>(out);
    set_no_part::<D>(out);
}

/// Every edge of the receiver's rules in turn, each from rest, in one call or in two.
fn edges<D: Streamed>(out: &mut Writer, turn: usize) {
    let edges = D::edges(&mut out.rng);
    for number in 0..EDGES {
        quiet::<D>(out);
        let bytes = &edges[(EDGES * turn + number) % edges.len()];
        let (first, second) = bytes.split_at(out.rng.below(bytes.len()));
        lend::<D>(out, first, false);
        lend::<D>(out, second, false);
    }
}

/// The same bytes with their quiet marks, divided in two ways, each from the same part frame.
fn same_line_twice<D: Streamed>(out: &mut Writer) {
    let start = part::<D>(out);
    let stretches: Vec<Vec<u8>> = (0..PIECES / 2)
        .map(|_| pieces::<D>(&mut out.rng, &out.addresses, 2))
        .collect();
    for _ in 0..2 {
        set_part::<D>(out, start.len() as i64, &start);
        for (number, bytes) in stretches.iter().enumerate() {
            if number > 0 {
                quiet::<D>(out);
            }
            for call in divided(&mut out.rng, bytes, CALLS) {
                lend::<D>(out, &call, false);
            }
        }
    }
    set_no_part::<D>(out);
}

/// Part frames inside and outside the rules, each with a few bytes behind it.
fn poked<D: Streamed>(out: &mut Writer) {
    for _ in 0..PARTS {
        let (count, bytes) = any_part::<D>(out);
        set_part::<D>(out, count, &bytes);
        let room = room::<D>(&mut out.rng);
        let size = out.rng.below(4);
        let more: Vec<u8> = (0..size).map(|_| out.rng.pick(D::TELLING)).collect();
        receive::<D>(out, room, &more);
    }
    set_no_part::<D>(out);
}

/// A part frame inside or outside the rules, and every entry: the receivers look at it, and no other.
fn every_entry<D: Streamed>(out: &mut Writer) {
    let (count, bytes) = any_part::<D>(out);
    set_part::<D>(out, count, &bytes);
    receive::<Datalink>(out, Datalink::LONGEST, &[]);
    receive::<Lecom>(out, Lecom::LONGEST, &[]);
    receive::<Love>(out, Love::LONGEST, &[]);
    receive::<Lucid>(out, Lucid::LONGEST, &[]);
    receive::<D>(out, D::LONGEST - 1, &[]);
    out.set_code();
    out.call("governor 0");
    send_valid::<Datalink>(out);
    send_valid::<Lecom>(out);
    send_valid::<Love>(out);
    send_valid::<Lucid>(out);
    let image = Image::fit(&mut out.rng, &out.addresses);
    out.load(&image.bytes());
    quiet_any(out);
    quiet::<D>(out);
    if out.rng.chance(50) {
        set_part::<D>(out, count, &bytes);
        out.call("restart");
        lend_some::<D>(out);
    }
    set_no_part::<D>(out);
}

/// A part frame that bytes lead to, the beginning of any line, or a part frame spoiled.
fn any_part<D: Streamed>(out: &mut Writer) -> (i64, Vec<u8>) {
    let mut bytes = match out.rng.below(4) {
        0 => piece::<D>(&mut out.rng, &out.addresses),
        1 => edge::<D>(&mut out.rng),
        _ => part::<D>(out),
    };
    let rng = &mut out.rng;
    match rng.below(3) {
        0 => {
            let kept = rng.below(bytes.len() + 1);
            bytes.truncate(kept);
        }
        1 => spoil::<D>(rng, &mut bytes),
        _ => {}
    }
    let (count, longest) = (bytes.len() as i64, D::LONGEST as i64);
    let count = match rng.below(12) {
        0 => rng.pick(&[longest, longest + 1, 256 + count, COUNT_MOST]),
        1 => rng.between(0, longest),
        2 => rng.between(0, count),
        _ => count,
    };
    (count, bytes)
}

/// Spoils one byte of a part frame, or puts one behind it.
fn spoil<D: Streamed>(rng: &mut Rng, bytes: &mut Vec<u8>) {
    let anywhere = rng.below(bytes.len() + 1);
    let place = rng.pick(&[0, anywhere, anywhere, bytes.len()]);
    match bytes.get_mut(place) {
        Some(byte) => *byte = rng.pick(D::TELLING),
        None => bytes.push(rng.pick(D::TELLING)),
    }
}

/// The same bytes with every room worth a look; too short a room takes none of them.
fn rooms<D: Streamed>(out: &mut Writer) {
    let bytes = piece::<D>(&mut out.rng, &out.addresses);
    let swept = out.rng.below(ROOM_MOST + 1);
    for room in [0, D::LONGEST - 1, D::LONGEST, D::LONGEST + 1, swept, ROOM_MOST] {
        receive::<D>(out, room, &bytes);
    }
    quiet::<D>(out);
}

/// A card with one entry of any value, or a pending change that there cannot be: 12 comes before 16.
fn unfit<D: Streamed>(out: &mut Writer, turn: usize) {
    lend_some::<D>(out);
    let places = ranged_places();
    let place = places[turn % places.len()];
    let is_pending = out.rng.chance(20);
    if is_pending {
        out.set_pending(3, 0x1010, 0);
        out.peek(false);
    } else {
        let value = place.any_value(&mut out.rng);
        out.poke(place, value);
    }
    let bytes = piece::<D>(&mut out.rng, &out.addresses);
    for room in [D::LONGEST, D::LONGEST - 1, 0] {
        receive::<D>(out, room, &bytes);
    }
    quiet::<D>(out);
    quiet_any(out);
    out.call("restart");
    if is_pending {
        out.set_pending(0, 0, 0);
        out.peek(false);
    } else {
        out.repair(place);
    }
    lend_some::<D>(out);
    quiet::<D>(out);
}

/// All receivers in turn, with the dialects' entries, quiet lines and restarts between.
fn all_receivers(out: &mut Writer) {
    for _ in 0..SHARED_CALLS {
        match out.rng.below(12) {
            0 => quiet_any(out),
            1 => send_valid::<Datalink>(out),
            2 => send_valid::<Lecom>(out),
            3 => send_valid::<Love>(out),
            4 => send_valid::<Lucid>(out),
            5 if out.rng.chance(30) => drop(out.call("restart")),
            _ => lend_any(out),
        }
    }
}
