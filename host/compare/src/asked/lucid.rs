//! LucidControl's requests and replies.

use super::{any_value, probe_code, swept, wider, Mastered};
use crate::card::{CHANNELS, DEMAND_RANGE, PARAMETERS, PARAMETER_RANGES};
use crate::frames::lucid::{
    Lucid, DEFAULT, DEMAND, HUNDREDTHS, MASK_MOST, PARAMETERS as ADDRESSES, PERSISTENT, TENTHS,
};
use crate::rng::Rng;
use crate::writer::{Addresses, Writer};

/// Status and LEN.
const HEAD: usize = 2;
/// Channels, masks, types and options up to this are all asked.
const NUMBERS: u32 = 260;
/// Counts of values up to this are asked of every mask.
const COUNTS: usize = 6;
/// Demands on both sides of the limit.
const DEMANDS: [u32; 8] = [0, 1, 255, 256, 65_535, 65_536, 1 << 31, u32::MAX];
/// Parameter addresses near the known ones.
const OTHER_ADDRESSES: [u32; 12] = [
    0,
    0x110F,
    0x1111,
    0x111F,
    0x1121,
    0x1011,
    0x2011,
    0xFFFF,
    0x1_1110,
    0x1_1120,
    1 << 31,
    u32::MAX,
];
/// Values of two bytes in a reply: temperatures and neighbours, limits of either sign.
const SHORT_VALUES: [i16; 15] = [
    0,
    1,
    -1,
    5,
    -5,
    -400,
    -405,
    -399,
    870,
    875,
    869,
    256,
    i16::MAX,
    i16::MIN,
    1_000,
];
/// Values of four bytes: the same in hundredths, and limits of the parameters.
const LONG_VALUES: [i32; 22] = [
    0,
    10,
    50,
    -50,
    -10,
    -4_000,
    -4_050,
    -3_990,
    8_700,
    8_750,
    8_690,
    -1,
    999,
    1_000,
    60_000_000,
    60_000_001,
    65_535,
    65_536,
    i32::MAX,
    i32::MIN,
    1 << 24,
    870,
];

impl Mastered for Lucid {
    const KINDS: usize = 11;

    fn limits() -> Vec<String> {
        let mut requests = Vec::new();
        let wide = [3, MASK_MOST as u32, u32::from(DEMAND), u32::from(TENTHS)]
            .into_iter()
            .flat_map(wider);
        for number in (0..=NUMBERS).chain(wide) {
            requests.extend(headers(number));
        }
        for mask in 0..=MASK_MOST + 1 {
            requests.extend((0..=COUNTS).map(|count| format!("setiogroup {mask} 16{}", " 7".repeat(count))));
        }
        for demand in DEMANDS {
            requests.push(format!("setio 2 16 {demand}"));
            requests.push(format!("setiogroup 10 16 {demand} 1"));
            requests.push(format!("setiogroup 15 16 1 2 3 {demand}"));
        }
        requests.extend(parameters());
        requests
    }

    fn request(out: &mut Writer, kind: usize) -> String {
        let channel = out.rng.below(CHANNELS);
        let mask = 1 + out.rng.below(MASK_MOST);
        let parameter = out.rng.below(ADDRESSES.len());
        let value = any_value(&mut out.rng, PARAMETER_RANGES[parameter]);
        let address = ADDRESSES[parameter];
        let demand = any_value(&mut out.rng, DEMAND_RANGE);
        let option = out.rng.pick(&[0, PERSISTENT]);
        set_tables(out);
        match kind {
            0 => format!("getio {channel} {DEMAND}"),
            1 => format!("getio {channel} {TENTHS}"),
            2 => format!("getio {channel} {HUNDREDTHS}"),
            3 => format!("getiogroup {mask} {DEMAND}"),
            4 => format!("getiogroup {mask} {TENTHS}"),
            5 => format!("getiogroup {mask} {HUNDREDTHS}"),
            6 => format!("getparam {channel} 0 {address}"),
            7 => format!("setio {channel} {DEMAND} {demand}"),
            8 => {
                let demands = (0..mask.count_ones()).map(|place| format!(" {}", demand ^ i64::from(place)));
                format!("setiogroup {mask} {DEMAND}{}", demands.collect::<String>())
            }
            9 => format!("setparam {channel} {option} {address} {value}"),
            _ => format!("reset {channel} {} {address}", DEFAULT | option),
        }
    }

    fn refusals(rng: &mut Rng, _: &Addresses, turn: usize) -> Vec<Vec<u8>> {
        let statuses = swept(turn).flat_map(|status| {
            let other = 1 + rng.below(255) as u8;
            [
                vec![status],
                vec![status, 0],
                vec![status, 1],
                vec![status, other],
                vec![status, 0, 0],
                vec![status, 1, other],
            ]
        });
        statuses.collect()
    }

    fn variants(rng: &mut Rng, reply: &[u8]) -> Vec<Vec<u8>> {
        let mut replies = vec![vec![0, 0], vec![0, 0, 0], vec![0, 1, 0]];
        let values = reply.len().saturating_sub(HEAD);
        for short in SHORT_VALUES {
            replies.extend(with_value(rng, reply, values, &short.to_le_bytes()));
        }
        for long in LONG_VALUES {
            replies.extend(with_value(rng, reply, values, &long.to_le_bytes()));
        }
        for _ in 0..SHORT_VALUES.len() {
            let tenths = rng.between(-82, 256) as i16 * 5;
            replies.extend(with_value(rng, reply, values, &tenths.to_le_bytes()));
            let hundredths = 10 * i32::from(tenths);
            replies.extend(with_value(rng, reply, values, &hundredths.to_le_bytes()));
        }
        replies
    }

    /// There are none.
    fn seal_reply(_: &mut [u8]) {}
}

/// A number in the place of each channel, mask, type and option.
fn headers(number: u32) -> Vec<String> {
    let named = (number as usize & MASK_MOST).count_ones() as usize;
    vec![
        format!("getio {number} 64"),
        format!("getio 1 {number}"),
        format!("getiogroup {number} 65"),
        format!("getiogroup 5 {number}"),
        format!("setio {number} 16 7"),
        format!("setio 1 {number} 7"),
        format!("setiogroup {number} 16{}", " 7".repeat(named)),
        format!("setiogroup 5 {number} 7 8"),
        format!("getparam {number} 0 4368"),
        format!("getparam 1 {number} 4384"),
        format!("setparam {number} 0 4368 1000"),
        format!("setparam 1 {number} 4384 7"),
        format!("reset {number} 1 4368"),
        format!("reset 1 {number} 4384"),
    ]
}

/// Parameter addresses, known and not, and values on both sides of each limit, with either option.
fn parameters() -> Vec<String> {
    let mut requests = Vec::new();
    for address in OTHER_ADDRESSES.into_iter().chain(ADDRESSES.map(u32::from)) {
        requests.push(format!("getparam 2 0 {address}"));
        requests.push(format!("setparam 2 0 {address} 1000"));
        requests.extend([0, PERSISTENT].map(|option| format!("reset 2 {} {address}", DEFAULT | option)));
    }
    for (address, (lowest, highest)) in ADDRESSES.into_iter().zip(PARAMETER_RANGES) {
        let values = [
            0,
            lowest - 1,
            lowest,
            highest,
            highest + 1,
            1 << 31,
            i64::from(u32::MAX),
        ];
        for value in values.map(|value| value.max(0)) {
            requests.extend([0, PERSISTENT].map(|option| format!("setparam 3 {option} {address} {value}")));
        }
    }
    requests
}

/// Gives every entry that can be read or reset any value; every probe fails now and then.
fn set_tables(out: &mut Writer) {
    for channel in 0..CHANNELS {
        let code = probe_code(&mut out.rng);
        out.set("probe", channel, code);
        let demand = any_value(&mut out.rng, DEMAND_RANGE);
        out.set("demand", channel, demand);
    }
    for table in ["parameter", "kept"] {
        for place in 0..PARAMETERS {
            let value = any_value(&mut out.rng, PARAMETER_RANGES[place % ADDRESSES.len()]);
            out.set(table, place, value);
        }
    }
}

/// The reply with a value in the place of any one of its own, if it has that many bytes for one.
fn with_value(rng: &mut Rng, reply: &[u8], values: usize, value: &[u8]) -> Option<Vec<u8>> {
    let places = values / value.len();
    let place = HEAD + value.len() * rng.below(places.max(1));
    let mut reply = reply.to_vec();
    reply.get_mut(place..place + value.len())?.copy_from_slice(value);
    Some(reply)
}
