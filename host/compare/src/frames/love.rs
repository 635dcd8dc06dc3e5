//! Love frames (document 01, "Love").

use super::{hex_figures, sum, Dialect};
use crate::card::LOVE_RANGE;
use crate::rng::Rng;
use crate::writer::Addresses;

/// Begins every frame.
pub const STX: u8 = 0x02;
/// Ends every request.
pub const ETX: u8 = 0x03;
/// Filter characters by the address's hundreds in hex.
pub const FILTER: &[u8; 4] = b"LOVE";
/// STX and the filter, before the characters that the checksum adds.
const HEAD: usize = 2;
/// Two checksum figures and ETX, or ACK in a reply.
pub const TAIL: usize = 3;
/// The low halves of the commands that read (01) and write (02) a parameter.
pub const PARAMETERS: [&str; 4] = ["00", "02", "04", "05"];
/// Figures and sign of a write, right and wrong.
const TELLING_VALUES: [&str; 24] = [
    "000000", "0000FF", "0000ff", "0000Ff", "000001", "0000F0", "00000F", "0000FE", "087000", "0870FF", "087100",
    "040000", "0400FF", "0401FF", "040100", "999900", "9999FF", "00A000", "A00000", "000a00", "0015FF", "001500",
    "00150G", "FFFFFF",
];
/// Data fields of odd length or with an unknown command.
const TELLING_FIELDS: [&str; 30] = [
    "",
    "0",
    "00",
    "000",
    "0000",
    "00000",
    "0000000000",
    "01",
    "010",
    "0100",
    "01000",
    "0100000000",
    "0101",
    "0103",
    "0106",
    "010A",
    "010a",
    "02",
    "0200",
    "02000",
    "020000150",
    "0200001500",
    "02000015000",
    "0201001500",
    "0203001500",
    "0300",
    "0400",
    "FFFF",
    "ffffffffff",
    "0206001500",
];

/// The Love dialect.
pub struct Love;

impl Dialect for Love {
    const CALL: &'static str = "love";
    const SHORTEST: usize = 7;
    const LONGEST: usize = 32;

    fn valid(rng: &mut Rng, to: &Addresses) -> Vec<u8> {
        let parameter = rng.pick(&PARAMETERS);
        let data = match rng.below(4) {
            0 => "00".to_owned(),
            1 => format!("01{parameter}"),
            _ => format!("02{parameter}{}", value(rng)),
        };
        request(to.love, data.as_bytes())
    }

    fn assembled(rng: &mut Rng, to: &Addresses) -> Vec<u8> {
        let address = match rng.below(20) {
            0 => rng.word() as u16 & 0x3FF,
            1 => to.love ^ 0x100,
            2 => to.love ^ (1 << rng.below(10)),
            _ => to.love,
        };
        let mut frame = request(address, &field(rng));
        match rng.below(20) {
            0 => frame[0] = rng.pick(&[ETX, 0, b'L']),
            1 => frame[1] = rng.pick(b"LOVElove\x43"),
            2 => frame[HEAD] = frame[HEAD].to_ascii_lowercase(),
            3 => frame[HEAD + rng.below(2)] = rng.byte(),
            4 => lower_checksum(&mut frame),
            5 => spoil_checksum(rng, &mut frame),
            6 => {
                let last = frame.len() - 1;
                frame[last] = rng.byte();
            }
            _ => {}
        }
        frame
    }

    fn seal(frame: &mut [u8]) {
        let length = frame.len();
        if length > HEAD + TAIL {
            let checksum = hex_figures(sum(&frame[HEAD..length - TAIL]));
            frame[length - TAIL..length - 1].copy_from_slice(&checksum);
        }
    }
}

/// A request to an address, with a right filter and checksum.
pub fn request(address: u16, data: &[u8]) -> Vec<u8> {
    let [hundreds, low] = address.to_be_bytes();
    let mut frame = vec![STX, FILTER[usize::from(hundreds & 3)]];
    frame.extend(hex_figures(low));
    frame.extend_from_slice(data);
    frame.extend_from_slice(&[0, 0, ETX]);
    Love::seal(&mut frame);
    frame
}

/// Four figures and the sign of a parameter's value in its range.
pub fn value(rng: &mut Rng) -> String {
    let (lowest, highest) = LOVE_RANGE;
    let inside = rng.between(lowest, highest);
    let value = rng.pick(&[lowest, highest, 0, -1, inside, inside]);
    let sign = match value {
        0 => rng.pick(&["00", "FF"]),
        1.. => "00",
        _ => rng.pick(&["FF", "FF", "ff", "Ff"]),
    };
    format!("{:04}{sign}", value.unsigned_abs())
}

/// A data field: commands and values, right and wrong, with lower-case and wrong characters.
fn field(rng: &mut Rng) -> Vec<u8> {
    let parameter = rng.pick(&PARAMETERS);
    let text = match rng.below(6) {
        0 => rng.pick(&TELLING_FIELDS).to_owned(),
        1 => format!("02{parameter}{}", rng.pick(&TELLING_VALUES)),
        2 => format!("0{}{parameter}", rng.below(4)),
        3 => format!("02{parameter}{:04}{}", rng.below(10_000), rng.pick(&["00", "FF"])),
        4 => format!("{:04X}", rng.word() as u16),
        _ => format!("02{parameter}{}", value(rng)),
    };
    let mut data = text.into_bytes();
    if !data.is_empty() && rng.chance(10) {
        let place = rng.below(data.len());
        data[place] = rng.pick(b"G/:@`g af\x00\x02\x03\xFF");
    }
    data
}

/// The checksum figures in lower case.
fn lower_checksum(frame: &mut [u8]) {
    let length = frame.len();
    frame[length - TAIL..length - 1].make_ascii_lowercase();
}

/// One checksum figure changed.
fn spoil_checksum(rng: &mut Rng, frame: &mut [u8]) {
    let place = frame.len() - TAIL + rng.below(2);
    frame[place] = frame[place].wrapping_add(1);
}
