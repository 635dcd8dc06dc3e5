//! Document 02, M-103: option 01h resets the one parameter that its data name.

use super::{call, hex, sent, Card};
use crate::lucid::lucid;

/// The addresses of a channel's parameters, with their defaults, in their tables' order.
const PARAMETERS: [(u16, u32); 2] = [(0x1110, 1_000_000), (0x1120, 0)];
/// Addresses that name no parameter.
const OTHERS: [u16; 9] = [0x0000, 0x110F, 0x1111, 0x111F, 0x1121, 0x1130, 0x1011, 0x2011, 0xFFFF];
/// Channels, and numbers that are none.
const CHANNELS: [u8; 8] = [0, 1, 2, 3, 4, 5, 0x80, 0xFF];
/// The two that SetParam takes, those around them, and longer ones.
const LENS: [usize; 13] = [0, 1, 2, 3, 4, 5, 6, 7, 8, 9, 16, 34, 255];
/// A value that both parameters take.
const VALUE: u32 = 0x0000_5A17;
const DEFAULT: u8 = 0x01;
const PERSISTENT: u8 = 0x80;

/// A card whose parameters all differ in both copies, from their defaults too.
fn changed_card() -> Card {
    let mut card = Card::new();
    let entries = card.parameter.iter_mut().chain(&mut card.kept).flatten();
    for (entry, value) in entries.zip(2_000..) {
        *entry = value;
    }
    card
}

/// A SetParam of these data.
fn set_param(channel: u8, option: u8, data: &[u8]) -> Vec<u8> {
    [&[0xA0, channel, option, data.len() as u8], data].concat()
}

/// So much of an address, a value and zeros.
fn data(address: u16, len: usize) -> Vec<u8> {
    let mut data = [&address.to_le_bytes()[..], &VALUE.to_le_bytes()].concat();
    data.resize(len, 0);
    data
}

/// Number and status of the first refusal in the order of document 01, if there is one.
fn refusal(channel: u8, option: u8, len: usize, address: u16) -> Option<(u8, u8)> {
    let taken = if option & DEFAULT != 0 { 2 } else { 6 };
    let rules = [
        (channel > 3, (6, 0xB8)),
        (option & !(DEFAULT | PERSISTENT) != 0, (7, 0xB4)),
        (len != taken, (3, 0xB0)),
        (PARAMETERS.iter().all(|&(known, _)| known != address), (6, 0xBA)),
    ];
    rules
        .into_iter()
        .find_map(|(is_broken, refusal)| is_broken.then_some(refusal))
}

/// Sends a SetParam to a changed card; its answer and all tables must be as the rule has them.
fn check(channel: u8, option: u8, len: usize, address: u16) {
    let (mut card, mut expected) = (changed_card(), changed_card());
    let frame = set_param(channel, option, &data(address, len));
    let given = call(lucid, &mut card, &frame);
    if let Some((number, status)) = refusal(channel, option, len, address) {
        assert_eq!(given, (number, vec![status, 0]), "{frame:02X?}");
    } else {
        let place = usize::from(address == PARAMETERS[1].0);
        let is_reset = option & DEFAULT != 0;
        let value = if is_reset { PARAMETERS[place].1 } else { VALUE };
        expected.parameter[place][usize::from(channel)] = value;
        if option & PERSISTENT != 0 {
            expected.kept[place][usize::from(channel)] = value;
        }
        assert_eq!(given, (0, hex("00 00")), "{frame:02X?}");
    }
    assert!(card == expected, "{frame:02X?}");
}

#[test]
fn every_option_with_telling_lens() {
    for option in 0..=255 {
        for len in LENS {
            for channel in CHANNELS {
                for (address, _) in PARAMETERS {
                    check(channel, option, len, address);
                }
            }
            for address in OTHERS {
                check(option % 5, option, len, address);
            }
        }
    }
}

#[test]
fn every_len() {
    for len in 0..=255 {
        for option in [0, DEFAULT, PERSISTENT, DEFAULT | PERSISTENT] {
            check(2, option, len, 0x1110);
            check(3, option, len, 0x1120);
        }
    }
}

#[test]
fn every_address() {
    for address in 0..=u16::MAX {
        check(1, DEFAULT, 2, address);
    }
}

/// A reset changes one entry, or two where the saved copy is asked for; the entries are those of its channel and address.
#[test]
fn a_reset_changes_one_entry_of_a_copy() {
    for channel in 0..4 {
        for (place, (address, default)) in PARAMETERS.into_iter().enumerate() {
            for (option, copies) in [(DEFAULT, 1), (DEFAULT | PERSISTENT, 2)] {
                let (before, mut after) = (changed_card(), changed_card());
                let frame = set_param(channel, option, &address.to_le_bytes());
                assert_eq!(call(lucid, &mut after, &frame), (0, hex("00 00")));
                let olds = before.parameter.iter().chain(&before.kept).flatten();
                let news = after.parameter.iter().chain(&after.kept).flatten();
                assert_eq!(olds.zip(news).filter(|(old, new)| old != new).count(), copies);
                let entry = [after.parameter, after.kept].map(|copy| copy[place][usize::from(channel)]);
                assert_eq!(entry[..copies], vec![default; copies]);
            }
        }
    }
}

/// A site resets a channel's cycle time and keeps its fan floor, also after a restart; then the other way round.
#[test]
fn a_site_keeps_its_other_parameter() {
    let cycle = "A0 02 80 06 10 11 B0 71 0B 00";
    let floor = "A0 02 80 06 20 11 34 12 00 00";
    let of_channel_2 = |card: &Card| [card.parameter, card.kept].map(|copy| copy.map(|parameter| parameter[2]));
    let rows = [
        ("A0 02 01 02 10 11", [[1_000_000, 0x1234], [750_000, 0x1234]]),
        ("A0 02 81 02 10 11", [[1_000_000, 0x1234], [1_000_000, 0x1234]]),
        ("A0 02 01 02 20 11", [[750_000, 0], [750_000, 0x1234]]),
        ("A0 02 81 02 20 11", [[750_000, 0], [750_000, 0]]),
    ];
    for (reset, [running, saved]) in rows {
        let mut card = Card::new();
        for frame in [cycle, floor, reset] {
            assert_eq!(sent(&mut card, frame), (0, hex("00 00")), "{frame}");
        }
        assert_eq!(of_channel_2(&card), [running, saved], "{reset}");
        crate::card::restart(&mut card);
        assert_eq!(of_channel_2(&card), [saved, saved], "{reset}");
    }
}
