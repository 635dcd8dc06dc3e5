//! Section `love`: every command, data length, filter and address.

use super::dialect;
use crate::card::LOVE_RANGE;
use crate::frames::love::{request, Love, PARAMETERS};
use crate::frames::Dialect;
use crate::writer::{Writer, ANSWER_ROOM};

/// Scenes of this section's own.
const OWN_SCENES: usize = 5;
/// Data lengths that still fit the longest frame, and some beyond.
const LENGTHS: usize = 30;
/// Data lengths at the limits: no data, a command, a write, the longest frame; one less and one more.
const TELLING_LENGTHS: [usize; 10] = [0, 1, 2, 3, 4, 9, 10, 11, 25, 26];

/// Writes the next scene.
pub fn scene(out: &mut Writer) {
    let kinds = dialect::SCENES + OWN_SCENES;
    let turn = out.turn / kinds;
    match out.turn % kinds {
        0 => sequence(out),
        1 => values(out, turn),
        2 => process_value(out, turn),
        3 => lengths(out, turn),
        4 => commands(out, turn),
        shared => dialect::scene::<Love>(out, shared - OWN_SCENES, turn),
    }
}

/// Sends data to the card with enough room.
fn send(out: &mut Writer, data: &str) {
    let frame = request(out.addresses.love, data.as_bytes());
    out.frame(Love::CALL, ANSWER_ROOM, &frame);
}

/// Writes and reads of all parameters on one card, which a restart leaves.
fn sequence(out: &mut Writer) {
    out.move_card();
    for parameter in PARAMETERS {
        let (lowest, highest) = LOVE_RANGE;
        let value = out.rng.between(lowest - 20, highest + 20);
        let sign = if value < 0 { "FF" } else { "00" };
        send(out, &format!("02{parameter}{:04}{sign}", value.abs()));
    }
    if out.rng.chance(50) {
        out.call("restart");
    }
    for parameter in PARAMETERS {
        send(out, &format!("01{parameter}"));
    }
}

/// Every value from below the range to above it, with every kind of sign.
fn values(out: &mut Writer, turn: usize) {
    let parameter = out.rng.pick(&PARAMETERS);
    let figures = turn * 7 % 1000;
    for sign in ["00", "FF", "01"] {
        send(out, &format!("02{parameter}{figures:04}{sign}"));
        send(out, &format!("01{parameter}"));
    }
    let (lowest, highest) = LOVE_RANGE;
    for (limit, sign) in [(-lowest, "FF"), (highest, "00")] {
        send(out, &format!("02{parameter}{limit:04}{sign}"));
        send(out, &format!("02{parameter}{:04}{sign}", limit + 1));
    }
}

/// The process value of probe 0 with every code.
fn process_value(out: &mut Writer, turn: usize) {
    out.set_probes();
    send(out, "00");
    out.call(&format!("probe 0 {}", turn % 256));
    send(out, "00");
}

/// Data of every length, behind known commands and alone.
fn lengths(out: &mut Writer, turn: usize) {
    let telling = TELLING_LENGTHS[turn % TELLING_LENGTHS.len()];
    for length in [turn % LENGTHS, telling] {
        let commands = ["", "00", "0100", "0200", "0101", "FF"];
        for command in [out.rng.pick(&commands), "00", "0200"] {
            let mut data = command.to_owned();
            while data.len() < length {
                data.push(char::from(out.rng.pick(b"0000123456789ABCDEFabcdef")));
            }
            data.truncate(length);
            send(out, &data);
        }
    }
}

/// Every command of two figures behind 01 and 02, and every first half before 00.
fn commands(out: &mut Writer, turn: usize) {
    let number = turn % 256;
    send(out, &format!("01{number:02X}"));
    send(out, &format!("01{number:02x}"));
    send(out, &format!("02{number:02X}001500"));
    send(out, &format!("{number:02X}00"));
    send(out, &format!("{number:02X}00001500"));
    send(out, &format!("{number:02X}"));
}
