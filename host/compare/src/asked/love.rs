//! Love's requests and replies.

use super::{any_value, probe_code, swept, wider, Mastered};
use crate::card::{LOVE_PARAMETERS, LOVE_RANGE};
use crate::frames::love::{Love, ETX, FILTER, STX, TAIL};
use crate::frames::{hex_figures, sum};
use crate::rng::Rng;
use crate::writer::{Addresses, Writer};

/// Ends a reply.
const ACK: u8 = 0x06;
/// STX, filter and two address figures.
const HEAD: usize = 4;
/// Addresses up to this are all asked.
const ADDRESSES: u32 = 0x410;
/// Addresses on both sides of each limit, which get every order.
const TELLING_ADDRESSES: [u32; 12] = [0, 1, 0x7F, 0xFF, 0x100, 0x101, 0x1FF, 0x200, 0x300, 0x3FF, 0x400, 0x401];
/// Places up to this are all asked.
const PLACES: u32 = 9;
/// Values beyond each limit that are all asked.
const BEYOND: i64 = 20;
/// Values far beyond.
const FAR_VALUES: [i64; 10] = [
    -2_147_483_648,
    -65_537,
    -10_000,
    -9_999,
    -1_000,
    1_000,
    9_999,
    10_000,
    65_536,
    2_147_483_647,
];
/// Data in the place of a reply's, of every length that there is.
const DATA: [&str; 24] = [
    "", "0", "00", "01", "10", "0F", "fF", "000", "D0000000", "D0000005", "D0020000", "d0000000", "C0020000",
    "C0000871", "C0000875", "C0020405", "C0100005", "C000000A", "010000", "000871", "010401", "FF0015", "100015",
    "00001500",
];

impl Mastered for Love {
    const KINDS: usize = 3;

    fn limits() -> Vec<String> {
        let mut requests = Vec::new();
        let addresses = (0..=ADDRESSES).chain(wider(0x32));
        requests.extend(addresses.map(|address| format!("{address} status")));
        for address in TELLING_ADDRESSES {
            requests.push(format!("{address} read 1"));
            requests.push(format!("{address} write 2 -3"));
        }
        for place in (0..=PLACES).chain((0..LOVE_PARAMETERS as u32).flat_map(wider)) {
            requests.push(format!("50 read {place}"));
            requests.extend([-401, -400, 0, 870, 871].map(|value| format!("50 write {place} {value}")));
        }
        let (lowest, highest) = LOVE_RANGE;
        for value in (lowest - BEYOND..=highest + BEYOND).chain(FAR_VALUES) {
            let place = value.unsigned_abs() as usize % LOVE_PARAMETERS;
            requests.push(format!("50 write {place} {value}"));
        }
        requests
    }

    fn request(out: &mut Writer, kind: usize) -> String {
        let unit = out.addresses.love;
        let place = out.rng.below(LOVE_PARAMETERS);
        let value = any_value(&mut out.rng, LOVE_RANGE);
        match kind {
            0 => {
                let code = probe_code(&mut out.rng);
                out.set("probe", 0, code);
                format!("{unit} status")
            }
            1 => {
                out.set("love", place, value);
                format!("{unit} read {place}")
            }
            _ => format!("{unit} write {place} {value}"),
        }
    }

    fn refusals(rng: &mut Rng, to: &Addresses, turn: usize) -> Vec<Vec<u8>> {
        let mut replies = vec![vec![ACK], vec![ETX], head(to.love)];
        for code in swept(turn) {
            let error = |code: &[u8], last: u8| [&head(to.love), &b"N"[..], code, &[last]].concat();
            let figures = hex_figures(code);
            replies.push(error(&figures, ACK));
            replies.push(error(&figures.map(|figure| figure.to_ascii_lowercase()), ACK));
            replies.push(error(&figures, rng.pick(&[ETX, STX, 0])));
            replies.push(error(&[&figures[..], b"00"].concat(), ACK));
            let other = to.love ^ 1 << rng.below(10);
            replies.push([&head(other), &b"N"[..], &figures, &[ACK]].concat());
        }
        replies
    }

    fn variants(rng: &mut Rng, reply: &[u8]) -> Vec<Vec<u8>> {
        let head = &reply[..HEAD.min(reply.len())];
        let mut fields: Vec<String> = DATA.map(str::to_owned).to_vec();
        for _ in 0..DATA.len() {
            fields.extend(values(rng));
        }
        let replies = fields.iter().map(|data| {
            let mut reply = [head, data.as_bytes(), &[0, 0, ACK]].concat();
            Self::seal_reply(&mut reply);
            reply
        });
        replies.collect()
    }

    fn seal_reply(reply: &mut [u8]) {
        let length = reply.len();
        if length >= HEAD + TAIL {
            let checksum = hex_figures(sum(&reply[1..length - TAIL]));
            reply[length - TAIL..length - 1].copy_from_slice(&checksum);
        }
    }
}

/// What a reply from an address begins with.
fn head(address: u16) -> Vec<u8> {
    let [hundreds, low] = address.to_be_bytes();
    let [first, second] = hex_figures(low);
    vec![STX, FILTER[usize::from(hundreds & 3)], first, second]
}

/// A value as data of a status and of a read, in range or close to it, seldom with a wrong sign.
fn values(rng: &mut Rng) -> [String; 2] {
    let choices = [5 * rng.between(-81, 175), rng.between(-410, 880)];
    let tenths = rng.pick(&choices);
    let (mut status_sign, mut read_sign) = if tenths < 0 { (2, 1) } else { (0, 0) };
    if rng.chance(20) {
        status_sign = rng.below(4);
        read_sign = rng.below(3);
    }
    let figures = tenths.unsigned_abs();
    [
        format!("C00{status_sign}{figures:04}"),
        format!("0{read_sign}{figures:04}"),
    ]
}
