//! Section `resets`: SetParam with every option and every LEN at every parameter, and at addresses of none; resets with every
//! byte in every place (document 02, M-103).
//!
//! Before each scene every parameter gets a value other than its default, in both copies, so that a reset shows wherever it
//! goes.

use crate::card::{CHANNELS, PARAMETERS, PARAMETER_DEFAULTS, PARAMETER_RANGES};
use crate::frames::lucid::{
    get_param, request, reset, Lucid, DEFAULT, HEAD, OTHER_PARAMETERS, PARAMETERS as ADDRESSES, PERSISTENT, SET_PARAM,
};
use crate::frames::Dialect;
use crate::image::IMAGE;
use crate::rng::Rng;
use crate::text::hex_words;
use crate::writer::{Writer, ANSWER_ROOM, ROOM_MOST};

/// Values of a byte.
const BYTES: usize = 256;
/// Values of LEN.
const LENS: usize = 256;
/// Each LEN below this comes at every parameter and at every unknown address, and each other one at both parameters of one channel.
const SHORT: usize = 9;
/// Calls of a scene about LENs besides those of the LENs: a request, a reply, two parameters and the image.
const OTHER_CALLS: usize = 5;
/// Scenes about LENs: each option at each parameter.
const LEN_SCENES: usize = BYTES * PARAMETERS;
/// Calls of all these scenes.
const LEN_CALLS: usize = LEN_SCENES * (2 * SHORT + OTHER_CALLS) + BYTES * ADDRESSES.len() * (LENS - SHORT);
/// The options of resets.
const RESET_OPTIONS: [u8; 2] = [DEFAULT, DEFAULT | PERSISTENT];
/// Bytes of a parameter's address.
const ADDRESS: usize = 2;
/// Bytes of a parameter's value.
const VALUE: usize = 4;
/// Bytes of a reset.
const RESET: usize = HEAD + ADDRESS;
/// Scenes of one call about bytes: each byte in each place of each reset.
const BYTE_SCENES: usize = BYTES * RESET * ADDRESSES.len() * RESET_OPTIONS.len();
/// Every case once.
pub const CASES: usize = LEN_CALLS + BYTE_SCENES;

/// Writes the next scene.
pub fn scene(out: &mut Writer) {
    change_parameters(out);
    let turn = out.turn % (LEN_SCENES + BYTE_SCENES);
    match turn.checked_sub(LEN_SCENES) {
        None => lens(out, (turn / PARAMETERS) as u8, turn % PARAMETERS),
        Some(case) => byte(out, case),
    }
}

/// Gives every parameter a value other than its default, in both copies.
fn change_parameters(out: &mut Writer) {
    for table in ["parameter", "kept"] {
        for place in 0..PARAMETERS {
            let value = changed_value(&mut out.rng, place % ADDRESSES.len());
            out.set(table, place, value);
        }
    }
}

/// A fit value of a parameter other than its default.
fn changed_value(rng: &mut Rng, parameter: usize) -> i64 {
    let (lowest, highest) = PARAMETER_RANGES[parameter];
    let value = rng.between(lowest, highest);
    if value == PARAMETER_DEFAULTS[parameter] {
        highest
    } else {
        value
    }
}

/// SetParam of an option at an unknown address, and at a parameter with some longer LENs and every short one; the LEN that is
/// taken comes last, so that one that resets and refuses shows. The master is asked for such a reset and hears that it is done.
/// What is then read shows the parameters by GetParam, and both copies in the image.
fn lens(out: &mut Writer, option: u8, place: usize) {
    let channel = (place / ADDRESSES.len()) as u8;
    let parameter = place % ADDRESSES.len();
    let address = ADDRESSES[parameter];
    let data = data(&mut out.rng, parameter);
    let frame = |data: &[u8]| request(SET_PARAM, channel, option, data);
    out.look(&format!(
        "ask {} {ROOM_MOST} reset {channel} {option} {address}",
        Lucid::CALL
    ));
    let mut unknown = data.clone();
    unknown[..ADDRESS].copy_from_slice(&unknown_address(place).to_le_bytes());
    for len in 0..SHORT {
        look(out, &frame(&unknown[..len]));
    }
    for len in (SHORT + usize::from(channel)..LENS).step_by(CHANNELS) {
        look(out, &frame(&data[..len]));
    }
    let taken = if option & DEFAULT != 0 {
        ADDRESS
    } else {
        ADDRESS + VALUE
    };
    for len in (0..SHORT).filter(|&len| len != taken).chain([taken]) {
        out.frame(Lucid::CALL, ANSWER_ROOM, &frame(&data[..len]));
    }
    out.look(&format!("reply {} 00 00", Lucid::CALL));
    for address in ADDRESSES {
        look(out, &get_param(channel, address));
    }
    out.look(&format!("save {IMAGE}"));
    out.peek(false);
}

/// A parameter's address, a value that it can have, and any bytes.
fn data(rng: &mut Rng, parameter: usize) -> Vec<u8> {
    let mut data = ADDRESSES[parameter].to_le_bytes().to_vec();
    let value = changed_value(rng, parameter) as u32;
    data.extend(value.to_le_bytes());
    data.extend(rng.bytes(LENS));
    data
}

/// The address that takes the place of a parameter's; all unknown ones come up.
fn unknown_address(place: usize) -> u16 {
    OTHER_PARAMETERS[place % OTHER_PARAMETERS.len()]
}

/// Sends a frame that changes nothing, without peeks.
fn look(out: &mut Writer, frame: &[u8]) {
    out.look(&format!("{} {ANSWER_ROOM}{}", Lucid::CALL, hex_words(frame)));
}

/// Sends a reset with a byte in a place, with LEN as it was.
fn byte(out: &mut Writer, case: usize) {
    let (byte, place) = (case % BYTES, case / BYTES % RESET);
    let number = case / BYTES / RESET;
    let channel = out.rng.below(CHANNELS) as u8;
    let option = RESET_OPTIONS[number / ADDRESSES.len()];
    let mut frame = reset(channel, option, ADDRESSES[number % ADDRESSES.len()]);
    frame[place] = byte as u8;
    out.frame(Lucid::CALL, ANSWER_ROOM, &frame);
}

#[cfg(test)]
mod tests {
    use std::collections::{HashMap, HashSet};
    use std::sync::LazyLock;

    use super::super::{Scribe, SECTIONS};
    use super::*;
    use crate::calls::{Listed, CALLS};
    use crate::frames::lucid::LEN;
    use crate::model::Model;
    use crate::text::{bytes_of, words};
    use crate::writer::Line;

    /// The whole section's scripts, without peeks.
    static SCRIPTS: LazyLock<Vec<Vec<Line>>> = LazyLock::new(|| {
        let calls = CALLS.join("; ").replace("peek; ", "");
        let listed = Listed::read(&format!("calls: {calls}\n")).unwrap();
        let section = SECTIONS.iter().find(|section| section.name == "resets").unwrap();
        let mut scribe = Scribe::new(section, &listed, 1, CASES);
        std::iter::from_fn(|| scribe.script()).collect()
    });
    /// Every line of the scripts.
    static LINES: LazyLock<HashSet<&[u8]>> =
        LazyLock::new(|| SCRIPTS.iter().flatten().map(|line| line.trim_ascii_end()).collect());

    /// Each channel, option and address.
    fn places(options: impl Iterator<Item = u8>) -> Vec<(u8, u8, u16)> {
        let mut places = Vec::new();
        for option in options {
            for channel in 0..CHANNELS as u8 {
                places.extend(ADDRESSES.map(|address| (channel, option, address)));
            }
        }
        places
    }

    /// The line that sends a frame.
    fn sent(frame: &[u8]) -> Vec<u8> {
        format!("lucid {ANSWER_ROOM}{}", hex_words(frame)).into_bytes()
    }

    /// The bytes through the address of a SetParam with a right LEN, if a line sends one.
    fn begun(line: &[u8]) -> Option<Vec<u8>> {
        let words: Vec<&[u8]> = words(line).collect();
        let [b"lucid", _, frame @ ..] = &words[..] else {
            return None;
        };
        let begun = bytes_of(frame.iter().copied().take(RESET))?;
        let is_right = begun[0] == SET_PARAM && HEAD + usize::from(begun[LEN]) == frame.len();
        is_right.then_some(begun)
    }

    #[test]
    fn every_option_meets_every_len() {
        let begun: HashSet<Vec<u8>> = LINES.iter().filter_map(|line| begun(line)).collect();
        let lens: HashSet<(u8, u8)> = begun.iter().map(|frame| (frame[2], frame[LEN])).collect();
        assert_eq!(lens.len(), BYTES * LENS);
        let named: HashSet<(u8, u8, u16)> = begun
            .iter()
            .filter_map(|frame| match frame[..] {
                [_, _, option, len, low, high] => Some((option, len, u16::from_le_bytes([low, high]))),
                _ => None,
            })
            .filter(|(_, _, address)| ADDRESSES.contains(address))
            .collect();
        assert_eq!(named.len(), BYTES * (LENS - ADDRESS) * ADDRESSES.len());
        for (number, (channel, option, address)) in places(0..=u8::MAX).into_iter().enumerate() {
            for address in [address, unknown_address(number % PARAMETERS)] {
                let mut frame = reset(channel, option, address);
                for len in ADDRESS..SHORT {
                    frame[LEN] = len as u8;
                    assert!(begun.contains(&frame), "{frame:02X?}");
                }
            }
        }
    }

    #[test]
    fn every_unknown_address_comes_up() {
        let unknown: HashSet<u16> = (0..PARAMETERS).map(unknown_address).collect();
        assert_eq!(unknown, HashSet::from(OTHER_PARAMETERS));
    }

    #[test]
    fn every_byte_comes_in_every_place() {
        for (place, byte) in (0..RESET).flat_map(|place| (0..=u8::MAX).map(move |byte| (place, byte))) {
            let changed = places(RESET_OPTIONS.into_iter())
                .into_iter()
                .filter(|&(channel, option, address)| {
                    let mut frame = reset(channel, option, address);
                    frame[place] = byte;
                    LINES.contains(&sent(&frame)[..])
                });
            let resets: HashSet<(u8, u16)> = changed.map(|(_, option, address)| (option, address)).collect();
            assert_eq!(
                resets.len(),
                RESET_OPTIONS.len() * ADDRESSES.len(),
                "{place} {byte:02X}"
            );
        }
    }

    #[test]
    fn every_reset_is_asked_for() {
        for (channel, option, address) in places(0..=u8::MAX) {
            let line = format!("ask lucid {ROOM_MOST} reset {channel} {option} {address}");
            assert!(LINES.contains(line.as_bytes()), "{line}");
        }
    }

    /// Both copies of the parameters.
    fn copies(model: &mut Model) -> Vec<String> {
        let shown = [&b"peek parameter"[..], b"peek kept"].map(|line| model.line(line));
        let entries = shown.iter().flat_map(|copy| copy.split(' '));
        entries.map(str::to_owned).collect()
    }

    /// What a reset changes was not at its default, in any copy; and all is reset that can be.
    #[test]
    fn every_reset_shows() {
        let resets = places(RESET_OPTIONS.into_iter()).into_iter();
        let mut resets: HashMap<Vec<u8>, (usize, bool)> = resets
            .map(|(channel, option, address)| {
                let copies = if option == DEFAULT { 1 } else { 2 };
                (sent(&reset(channel, option, address)), (copies, false))
            })
            .collect();
        for script in SCRIPTS.iter() {
            let mut model = Model::new();
            for line in script.iter().map(|line| line.trim_ascii_end()) {
                let Some((changed, is_seen)) = resets.get_mut(line) else {
                    model.line(line);
                    continue;
                };
                *is_seen = true;
                let before = copies(&mut model);
                model.line(line);
                let after = copies(&mut model);
                let changes = before.iter().zip(&after).filter(|(old, new)| old != new).count();
                assert_eq!(changes, *changed, "{}", String::from_utf8_lossy(line));
            }
        }
        assert!(resets.values().all(|&(_, is_seen)| is_seen));
    }
}
