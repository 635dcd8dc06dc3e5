//! Scenes that every dialect goes through.

use crate::card::ranged_places;
use crate::damage::damaged;
use crate::frames::Dialect;
use crate::writer::{Writer, ANSWER_ROOM, TELLING_ROOMS};

/// Frames of one scene.
const FRAMES: usize = 6;
/// Lengths of noise: 0 to this.
const NOISE_MOST: usize = 300;
/// A frame's length far beyond every limit.
const LONG_NOISE: usize = 9000;

/// How many scenes [`scene`] knows.
pub const SCENES: usize = 7;

/// The shared scene of a number below [`SCENES`]; `turn` moves the sweeps on.
pub fn scene<D: Dialect>(out: &mut Writer, number: usize, turn: usize) {
    match number {
        0 => valid::<D>(out),
        1 | 2 => damage::<D>(out, turn),
        3 => assembled::<D>(out),
        4 => noise::<D>(out, turn),
        5 => rooms::<D>(out),
        _ => unfit::<D>(out, turn),
    }
}

/// Sends a valid frame.
pub fn send_valid<D: Dialect>(out: &mut Writer) {
    let frame = D::valid(&mut out.rng, &out.addresses);
    let room = out.room();
    out.frame(D::CALL, room, &frame);
}

/// Valid frames one after another on the card as it stands, with other addresses and probes now and then.
fn valid<D: Dialect>(out: &mut Writer) {
    if out.rng.chance(30) {
        out.move_card();
    }
    if out.rng.chance(60) {
        out.set_probes();
    }
    for _ in 0..FRAMES {
        send_valid::<D>(out);
    }
    if out.rng.chance(30) {
        out.call("restart");
    }
}

/// A valid frame, and the same frame damaged in one place, with its check characters as they were and made right.
fn damage<D: Dialect>(out: &mut Writer, turn: usize) {
    let frame = D::valid(&mut out.rng, &out.addresses);
    for attempt in 0..FRAMES / 2 {
        let spoiled = damaged(&mut out.rng, &frame, turn + attempt);
        let mut resealed = spoiled.clone();
        D::seal(&mut resealed);
        out.frame(D::CALL, ANSWER_ROOM, &spoiled);
        if resealed != spoiled {
            out.frame(D::CALL, ANSWER_ROOM, &resealed);
        }
    }
    out.frame(D::CALL, ANSWER_ROOM, &frame);
}

/// Frames whose parts are each right or wrong.
fn assembled<D: Dialect>(out: &mut Writer) {
    if out.rng.chance(30) {
        out.set_probes();
    }
    for _ in 0..2 * FRAMES {
        let frame = D::assembled(&mut out.rng, &out.addresses);
        let room = out.room();
        out.frame(D::CALL, room, &frame);
    }
}

/// Random bytes of every length, alone and behind the beginning of a valid frame.
fn noise<D: Dialect>(out: &mut Writer, turn: usize) {
    let limits = [D::SHORTEST - 1, D::SHORTEST, D::LONGEST, D::LONGEST + 1];
    for length in [turn % (NOISE_MOST + 1), limits[turn % limits.len()]] {
        let mut bytes = out.rng.bytes(length);
        out.frame(D::CALL, ANSWER_ROOM, &bytes);
        let mut begun = D::valid(&mut out.rng, &out.addresses);
        let kept = out.rng.below(begun.len() + 1);
        begun.truncate(kept.min(length));
        bytes[..begun.len()].copy_from_slice(&begun);
        out.frame(D::CALL, ANSWER_ROOM, &bytes);
        D::seal(&mut bytes);
        out.frame(D::CALL, ANSWER_ROOM, &bytes);
    }
    if out.rng.chance(2) {
        let bytes = out.rng.bytes(LONG_NOISE);
        out.frame(D::CALL, ANSWER_ROOM, &bytes);
    }
}

/// The same frame with every room worth a look: too short a room refuses right and wrong frames alike.
fn rooms<D: Dialect>(out: &mut Writer) {
    let frame = if out.rng.chance(70) {
        D::valid(&mut out.rng, &out.addresses)
    } else {
        D::assembled(&mut out.rng, &out.addresses)
    };
    for room in TELLING_ROOMS {
        out.frame(D::CALL, room, &frame);
    }
}

/// Frames to a card with one entry of any value, then with that entry fit again.
fn unfit<D: Dialect>(out: &mut Writer, turn: usize) {
    let places = ranged_places();
    let place = places[turn % places.len()];
    let value = place.any_value(&mut out.rng);
    out.poke(place, value);
    for room in [ANSWER_ROOM, out.rng.below(ANSWER_ROOM)] {
        let valid = D::valid(&mut out.rng, &out.addresses);
        out.frame(D::CALL, room, &valid);
        let assembled = D::assembled(&mut out.rng, &out.addresses);
        out.frame(D::CALL, room, &assembled);
    }
    out.repair(place);
    send_valid::<D>(out);
}
