//! LECOM's requests and replies.

use super::{any_value, probe_code, swept, wider, Mastered};
use crate::card::{CHANNELS, REGISTERS, REGISTER_RANGE};
use crate::frames::lecom::{extended, standard, Lecom, ACTIVATE, ENQ, EOT, ETX, FIRST_PROBE, STORE, STX};
use crate::rng::Rng;
use crate::writer::{Addresses, Writer};

/// The answer to a write.
const ACK: u8 = 0x06;
/// The refusal without a code.
const NAK: u8 = 0x15;
/// Addresses up to this are all asked.
const ADDRESSES: u32 = 120;
/// Codes up to this are all asked.
const CODES: u32 = 260;
/// Codes on both sides of each limit, which get every value.
const WRITTEN_CODES: [u32; 7] = [0, 95, 96, 100, 103, 104, 105];
/// Values on both sides of each limit, and where another figure is needed.
const VALUES: [i64; 28] = [
    -2_147_483_648,
    -1_000_001,
    -1_000_000,
    -999_999,
    -100_000,
    -99_999,
    -1_000,
    -10,
    -9,
    -2,
    -1,
    0,
    1,
    2,
    9,
    10,
    99,
    100,
    256,
    257,
    9_999,
    65_537,
    99_999,
    100_000,
    999_999,
    1_000_000,
    1_000_001,
    2_147_483_647,
];
/// Texts in the place of a value: of temperatures and not, in range and not, shortest and not.
const TEXTS: [&str; 34] = [
    "0",
    "1",
    "-1",
    "-0",
    "00",
    "01",
    "-01",
    "5",
    "-5",
    "7",
    "-400",
    "-405",
    "-399",
    "870",
    "875",
    "869",
    "999999",
    "-999999",
    "1000000",
    "-1000000",
    "9999999",
    "-9999999",
    "0999999",
    "-099999",
    "",
    "-",
    "--1",
    "+1",
    "1-",
    " 1",
    "1 ",
    "1.5",
    "A",
    "99999999999",
];

impl Mastered for Lecom {
    const KINDS: usize = 6;

    fn limits() -> Vec<String> {
        let mut requests = Vec::new();
        for address in (0..=ADDRESSES).chain(wider(11)).chain(wider(10)) {
            requests.push(format!("{address} read 5"));
            requests.push(format!("{address} write 5 -7"));
        }
        for code in (0..=CODES).chain(wider(5)).chain(wider(u32::from(ACTIVATE))) {
            requests.push(format!("11 read {code}"));
            requests.extend([0, 1].map(|value| format!("11 write {code} {value}")));
        }
        for code in WRITTEN_CODES {
            requests.extend(VALUES.map(|value| format!("11 write {code} {value}")));
        }
        requests
    }

    fn request(out: &mut Writer, kind: usize) -> String {
        let unit = out.addresses.lecom;
        let register = out.rng.below(REGISTERS);
        let command = out.rng.pick(&[ACTIVATE, STORE]);
        let value = value(&mut out.rng);
        match kind {
            0 => {
                out.set("operational", register, value);
                format!("{unit} read {register}")
            }
            1 => {
                let channel = out.rng.below(CHANNELS);
                let code = probe_code(&mut out.rng);
                out.set("probe", channel, code);
                format!("{unit} read {}", usize::from(FIRST_PROBE) + channel)
            }
            2 => format!("{unit} read {command}"),
            3 => format!("{unit} write {register} {value}"),
            4 => format!("{unit} write {command} {}", out.rng.below(2)),
            _ => {
                let collective = out.rng.pick(&[0, unit - unit % 10]);
                let order = out.rng.pick(&["read 5", "read 96", "write 5 -7", "write 103 1"]);
                format!("{collective} {order}")
            }
        }
    }

    fn refusals(rng: &mut Rng, _: &Addresses, turn: usize) -> Vec<Vec<u8>> {
        let mut replies = vec![
            vec![NAK],
            vec![ACK],
            vec![EOT],
            vec![NAK, NAK],
            vec![STX, EOT],
            vec![STX, b'6', EOT],
        ];
        for code in swept(turn) {
            let wide = u16::from(code);
            let subcode = 1 + rng.below(255) as u8;
            let high = 1 + rng.below(255) as u16;
            let codes = [
                standard(code),
                standard(code).to_ascii_lowercase(),
                extended(wide, 0),
                extended(wide, subcode),
                extended(wide | high << 8, 0),
                extended(wide, subcode).to_ascii_lowercase(),
                extended(wide, 0)[1..].to_vec(),
                rng.bytes(2),
            ];
            replies.extend(codes.iter().map(|code| enclosed(code, EOT)));
            replies.push(enclosed(&standard(code), rng.pick(&[ENQ, ETX, STX])));
        }
        replies
    }

    fn variants(rng: &mut Rng, reply: &[u8]) -> Vec<Vec<u8>> {
        let Some(&[STX, high, low]) = reply.first_chunk() else {
            return [ACK, NAK, STX, 0].map(|byte| vec![byte]).to_vec();
        };
        let any = value(rng).to_string();
        let temperature = (5 * rng.between(-82, 256)).to_string();
        let texts = TEXTS.into_iter().chain([&any[..], &temperature]);
        texts
            .map(|text| {
                let mut reply = enclosed(&[&[high, low], text.as_bytes(), &[ETX]].concat(), 0);
                Self::seal_reply(&mut reply);
                reply
            })
            .collect()
    }

    fn seal_reply(reply: &mut [u8]) {
        if let [STX, checked @ .., bcc] = reply {
            *bcc = checked.iter().fold(0, |bcc, byte| bcc ^ byte);
        }
    }
}

/// Characters between STX and another byte.
fn enclosed(characters: &[u8], last: u8) -> Vec<u8> {
    [&[STX], characters, &[last]].concat()
}

/// A register's value, of every number of figures alike.
fn value(rng: &mut Rng) -> i64 {
    let limit = 10_i64.pow(rng.below(7) as u32) - 1;
    let (lowest, highest) = REGISTER_RANGE;
    any_value(rng, (lowest.max(-limit), highest.min(limit)))
}
