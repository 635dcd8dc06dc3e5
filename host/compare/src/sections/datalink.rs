//! Section `datalink`: changes, acknowledges and interrogates in every order.

use super::dialect;
use crate::card::{MEMORY_END, MEMORY_START};
use crate::frames::datalink::{
    acknowledge, interrogate, message, valid_change, valid_interrogate, Datalink, ACKNOWLEDGE, CHANGE, CHANGE_BITS,
    INTERROGATE, TELLING_ADDRESSES, TELLING_NUMS,
};
use crate::frames::Dialect;
use crate::writer::{Writer, ANSWER_ROOM};

/// Scenes of this section's own.
const OWN_SCENES: usize = 5;

/// Writes the next scene.
pub fn scene(out: &mut Writer) {
    let kinds = dialect::SCENES + OWN_SCENES;
    let turn = out.turn / kinds;
    match out.turn % kinds {
        0 => sequence(out),
        1 => transaction(out),
        2 => command_bytes(out, turn),
        3 => limits(out, turn),
        4 => whole_range(out, turn),
        shared => dialect::scene::<Datalink>(out, shared - OWN_SCENES, turn),
    }
}

/// Sends a frame with enough room.
fn send(out: &mut Writer, frame: &[u8]) {
    out.frame(Datalink::CALL, ANSWER_ROOM, frame);
}

/// Changes, acknowledges, interrogates, restarts and probe codes in random order.
fn sequence(out: &mut Writer) {
    for _ in 0..10 {
        let ia = out.addresses.ia;
        match out.rng.below(10) {
            0..=2 => {
                let frame = valid_change(&mut out.rng, ia);
                send(out, &frame);
            }
            3..=5 => send(out, &acknowledge(ia)),
            6 | 7 => {
                let frame = valid_interrogate(&mut out.rng, ia);
                send(out, &frame);
            }
            8 => {
                out.set_probes();
                send(out, &interrogate(ia, 16, MEMORY_START));
            }
            _ => {
                out.call("restart");
            }
        }
    }
}

/// A change, its acknowledge and a look at the same bytes; another acknowledge finds nothing pending.
fn transaction(out: &mut Writer) {
    let ia = out.addresses.ia;
    let change = valid_change(&mut out.rng, ia);
    let address = u16::from_le_bytes([change[3], change[4]]);
    let shown = (MEMORY_END - address).min(32) as u8;
    send(out, &change);
    if out.rng.chance(30) {
        send(out, &change);
    }
    if out.rng.chance(20) {
        let other = valid_change(&mut out.rng, ia);
        send(out, &other);
    }
    send(out, &acknowledge(ia));
    send(out, &interrogate(ia, shown, address));
    send(out, &acknowledge(ia));
}

/// Every second byte, as a frame of two bytes, as an interrogate and as a change.
fn command_bytes(out: &mut Writer, turn: usize) {
    let second = (turn % 256) as u8;
    send(out, &[0x7E, second]);
    let mut frames = [
        interrogate(0, 4, MEMORY_START),
        message(CHANGE, 0, 2, 0x1010, &[1, 2]),
        message(CHANGE_BITS, 0, 2, 0x1010, &[0xF0, 2]),
    ];
    for frame in &mut frames {
        frame[1] = second;
        Datalink::seal(frame);
        send(out, frame);
    }
}

/// Every pair of a telling address and a telling NUM, for each command that has them.
fn limits(out: &mut Writer, turn: usize) {
    let ia = out.addresses.ia;
    let num = TELLING_NUMS[turn % TELLING_NUMS.len()];
    let address = TELLING_ADDRESSES[turn / TELLING_NUMS.len() % TELLING_ADDRESSES.len()];
    let data = out.rng.bytes(usize::from(num));
    send(out, &message(INTERROGATE, ia, num, address, &[]));
    send(out, &message(CHANGE, ia, num, address, &data));
    send(out, &message(CHANGE_BITS, ia, num, address, &data));
    send(out, &message(ACKNOWLEDGE, ia, num, address, &data));
    send(out, &acknowledge(ia));
}

/// Ranges that end at and past the memory's end, and begin below and in it, for every count of bytes.
fn whole_range(out: &mut Writer, turn: usize) {
    let ia = out.addresses.ia;
    let num = (turn % 33) as u8;
    let data = out.rng.bytes(usize::from(num));
    let last = MEMORY_END - u16::from(num);
    for address in [last, last + 1, MEMORY_START - 1, 0x100F, 0x1010] {
        send(out, &interrogate(ia, num, address));
        send(out, &message(CHANGE, ia, num, address, &data));
    }
    let halves = MEMORY_END - u16::from(num / 2);
    for address in [halves, halves + 1] {
        send(out, &message(CHANGE_BITS, ia, num, address, &data));
    }
    send(out, &acknowledge(ia));
}
