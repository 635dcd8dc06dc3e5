//! Section `lucid`: every command, channel, mask, type and option.

use super::dialect;
use crate::card::{CHANNELS, PARAMETER_RANGES};
use crate::frames::lucid::{
    get_param, request, reset, set_param, valid_set_param, Lucid, COMMANDS, DEFAULT, DEMAND, GET_IO, GET_IO_GROUP,
    GET_PARAM, HUNDREDTHS, PARAMETERS, PERSISTENT, SET_IO, SET_IO_GROUP, SET_PARAM, TENTHS,
};
use crate::frames::Dialect;
use crate::writer::{Writer, ANSWER_ROOM};

/// Scenes of this section's own.
const OWN_SCENES: usize = 6;
/// Data lengths beyond the longest that LEN can tell.
const LENGTHS: usize = 262;

/// Writes the next scene.
pub fn scene(out: &mut Writer) {
    let kinds = dialect::SCENES + OWN_SCENES;
    let turn = out.turn / kinds;
    match out.turn % kinds {
        0 => sequence(out),
        1 => headers(out, turn),
        2 => probes(out, turn),
        3 => demands(out, turn),
        4 => parameters(out, turn),
        5 => lengths(out, turn),
        shared => dialect::scene::<Lucid>(out, shared - OWN_SCENES, turn),
    }
}

/// Sends a frame with enough room.
fn send(out: &mut Writer, frame: &[u8]) {
    out.frame(Lucid::CALL, ANSWER_ROOM, frame);
}

/// Shows both parameters of a channel.
fn show_parameters(out: &mut Writer, channel: u8) {
    for address in PARAMETERS {
        send(out, &get_param(channel, address));
    }
}

/// SetParam with and without options, before and after a restart.
fn sequence(out: &mut Writer) {
    let channel = out.rng.below(CHANNELS) as u8;
    for _ in 0..3 {
        let frame = valid_set_param(&mut out.rng, channel);
        send(out, &frame);
    }
    show_parameters(out, channel);
    if out.rng.chance(70) {
        out.call("restart");
        show_parameters(out, channel);
        send(out, &request(GET_IO_GROUP, 0x0F, DEMAND, &[]));
    }
}

/// Every OPC, P1 and P2 in turn, each with the other two right.
fn headers(out: &mut Writer, turn: usize) {
    let byte = (turn % 256) as u8;
    let channel = out.rng.below(CHANNELS) as u8;
    let address = out.rng.pick(&PARAMETERS).to_le_bytes();
    send(out, &request(byte, channel, DEMAND, &[]));
    for command in COMMANDS {
        let (p2, data): (u8, &[u8]) = match command {
            GET_IO | GET_IO_GROUP => (DEMAND, &[]),
            SET_IO | SET_IO_GROUP => (DEMAND, &[1, 2]),
            SET_PARAM => (DEFAULT, &address),
            _ => (0, &address),
        };
        send(out, &request(command, byte, p2, data));
        send(out, &request(command, channel, byte, data));
    }
}

/// Probe readings of every code in both units, alone and in every group.
fn probes(out: &mut Writer, turn: usize) {
    out.set_probes();
    let channel = (turn % CHANNELS) as u8;
    let code = turn / CHANNELS % 256;
    out.call(&format!("probe {channel} {code}"));
    for unit in [TENTHS, HUNDREDTHS] {
        send(out, &request(GET_IO, channel, unit, &[]));
        let mask = (turn % 16) as u8;
        send(out, &request(GET_IO_GROUP, mask, unit, &[]));
        send(out, &request(SET_IO, channel, unit, &[1, 0]));
    }
}

/// Demands set and read, alone and in every group.
fn demands(out: &mut Writer, turn: usize) {
    let mask = (turn % 18) as u8;
    let count = 2 * mask.count_ones() as usize;
    let values = out.rng.bytes(count);
    send(out, &request(SET_IO_GROUP, mask, DEMAND, &values));
    send(out, &request(GET_IO_GROUP, 0x0F, DEMAND, &[]));
    let channel = (turn % (CHANNELS + 1)) as u8;
    let value = out.rng.bytes(2);
    send(out, &request(SET_IO, channel, DEMAND, &value));
    send(out, &request(GET_IO, channel, DEMAND, &[]));
}

/// Values at and past each end of a parameter's range, with and without the saved copy; an address of no parameter; a reset.
fn parameters(out: &mut Writer, turn: usize) {
    let channel = (turn % CHANNELS) as u8;
    let parameter = turn / CHANNELS % PARAMETERS.len();
    let (lowest, highest) = PARAMETER_RANGES[parameter];
    let option = out.rng.pick(&[0, PERSISTENT]);
    let wild = i64::from(out.rng.word() as u32);
    for value in [lowest - 1, lowest, highest, highest + 1, wild] {
        let value = value.max(0) as u32;
        send(out, &set_param(channel, option, PARAMETERS[parameter], value));
    }
    show_parameters(out, channel);
    let near = PARAMETERS[parameter] ^ (1 << out.rng.below(16));
    send(out, &set_param(channel, option, near, lowest as u32));
    send(out, &get_param(channel, near));
    for address in [near, PARAMETERS[parameter]] {
        send(out, &reset(channel, DEFAULT | option, address));
    }
    show_parameters(out, channel);
}

/// Data of every length for every command, with LEN right and one off.
fn lengths(out: &mut Writer, turn: usize) {
    let length = turn % LENGTHS;
    let data = out.rng.bytes(length);
    for command in COMMANDS {
        let p2 = match command {
            SET_PARAM => out.rng.pick(&[0, DEFAULT, PERSISTENT, DEFAULT | PERSISTENT]),
            GET_PARAM => 0,
            _ => DEMAND,
        };
        let mut frame = request(command, 1, p2, &data);
        send(out, &frame);
        frame[3] = frame[3].wrapping_add(1);
        send(out, &frame);
    }
}
