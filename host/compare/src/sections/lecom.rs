//! Section `lecom`: reads, writes, ACTIVATE and STORE through every code and address.

use super::dialect;
use crate::card::{CHANNELS, REGISTERS};
use crate::frames::lecom::{code, extended, figures, read, standard, value, write, Lecom, ACTIVATE, STORE};
use crate::frames::Dialect;
use crate::writer::{Writer, ANSWER_ROOM};

/// Scenes of this section's own.
const OWN_SCENES: usize = 5;

/// Places of the figures that are zero in an extended code that reaches a register: two of the code, two of the
/// subcode.
const ZERO_FIGURES: [usize; 4] = [1, 2, 5, 6];

/// Writes the next scene.
pub fn scene(out: &mut Writer) {
    let kinds = dialect::SCENES + OWN_SCENES;
    let turn = out.turn / kinds;
    match out.turn % kinds {
        0 => sequence(out, turn),
        1 => codes(out, turn),
        2 => addresses(out, turn),
        3 => probes(out, turn),
        4 => commands(out),
        shared => dialect::scene::<Lecom>(out, shared - OWN_SCENES, turn),
    }
}

/// Sends a frame with enough room.
fn send(out: &mut Writer, frame: &[u8]) {
    out.frame(Lecom::CALL, ANSWER_ROOM, frame);
}

/// A write is seen after ACTIVATE only, and after a restart only if STORE followed.
fn sequence(out: &mut Writer, turn: usize) {
    let unit = figures(out.addresses.lecom);
    let register = (turn % REGISTERS) as u8;
    let data = value(&mut out.rng);
    let register = code(&mut out.rng, register);
    send(out, &write(unit, &register, &data));
    send(out, &read(unit, &register));
    if out.rng.chance(80) {
        send(out, &write(unit, &standard(ACTIVATE), b"1"));
        send(out, &read(unit, &register));
    }
    if out.rng.chance(60) {
        send(out, &write(unit, &standard(STORE), b"1"));
    }
    if out.rng.chance(60) {
        out.call("restart");
    }
    send(out, &read(unit, &register));
}

/// Every standard code and its extended form, read and written, and the latter with one figure changed.
fn codes(out: &mut Writer, turn: usize) {
    let unit = figures(out.addresses.lecom);
    let number = (turn % 256) as u8;
    let long = extended(u16::from(number), 0);
    for form in [&standard(number), &long] {
        send(out, &read(unit, form));
        let data = value(&mut out.rng);
        send(out, &write(unit, form, &data));
    }
    for place in ZERO_FIGURES {
        let mut other = long.clone();
        other[place] = out.rng.pick(b"123456789ABCDEF");
        send(out, &read(unit, &other));
    }
}

/// Every pair of address figures, read and written, with a unit that they reach or not.
fn addresses(out: &mut Writer, turn: usize) {
    out.move_card();
    let own = figures(out.addresses.lecom);
    let called = figures((turn % 100) as u8);
    let tens = [own[0], b'0'];
    for pair in [called, tens, *b"00", own] {
        let register = out.rng.below(REGISTERS) as u8;
        let data = value(&mut out.rng);
        send(out, &write(pair, &standard(register), &data));
        send(out, &read(pair, &standard(register)));
        send(out, &read(pair, &standard(0xFF)));
    }
}

/// Each probe with each code.
fn probes(out: &mut Writer, turn: usize) {
    let unit = figures(out.addresses.lecom);
    let channel = turn % CHANNELS;
    let sent = turn / CHANNELS % 256;
    let register = standard(0x60 + channel as u8);
    out.call(&format!("probe {channel} {sent}"));
    send(out, &read(unit, &register));
    send(out, &write(unit, &register, b"1"));
    send(out, &write(unit, &register, b"A"));
    out.set_probes();
    for channel in 0..CHANNELS as u8 {
        let register = code(&mut out.rng, 0x60 + channel);
        send(out, &read(unit, &register));
    }
}

/// ACTIVATE and STORE with every kind of data.
fn commands(out: &mut Writer) {
    let unit = figures(out.addresses.lecom);
    let register = out.rng.below(REGISTERS) as u8;
    let data = value(&mut out.rng);
    send(out, &write(unit, &standard(register), &data));
    for command in [ACTIVATE, STORE] {
        let data: &[u8] = out.rng.pick(&[
            b"0",
            b"1",
            b"2",
            b"-1",
            b"-0",
            b"001",
            b"10",
            b"A",
            b"-",
            b"1 ",
            b"000000000001",
        ]);
        let register = code(&mut out.rng, command);
        send(out, &write(unit, &register, data));
        send(out, &read(unit, &register));
    }
}
