use super::hex;
use crate::card::Card;
use crate::datalink::datalink;
use crate::master::{step, Master, Order, Request, Says};

/// A step's number, what the master says, and its frame.
type Seen = (u8, Says, Vec<u8>);

fn stepped(master: &mut Master, request: &Request, answer: Option<&[u8]>) -> Seen {
    let mut frame = [0; 38];
    let step = step(master, request, answer, &mut frame);
    (step.number as u8, master.says(), frame[..step.length].to_vec())
}

fn bytes(bytes: &[u8]) -> Request<'_> {
    let order = Order::Bytes(bytes);
    Request {
        ia: 3,
        address: 0x1010,
        order,
    }
}

fn bits<'a>(masks: &'a [u8], states: &'a [u8]) -> Request<'a> {
    let order = Order::Bits { masks, states };
    Request {
        ia: 3,
        address: 0x1010,
        order,
    }
}

/// Runs a request against the card without loss.
fn lossless(card: &mut Card, request: &Request) -> (Vec<Vec<u8>>, Says) {
    let mut master = Master::new();
    let mut frames = vec![];
    let mut answer: Option<Vec<u8>> = None;
    loop {
        let (number, says, frame) = stepped(&mut master, request, answer.as_deref());
        if number == 1 {
            return (frames, says);
        }
        assert_eq!((number, says), (0, Says::Open));
        let mut buffer = [0; 38];
        let reply = datalink(card, &frame, &mut buffer);
        answer = (reply.number as u8 == 0).then(|| buffer[..reply.length].to_vec());
        frames.push(frame);
    }
}

#[test]
fn bytes_without_loss() {
    let mut card = Card::new();
    let frames = ["7E A3 02 10 10 08 0C D9", "7E 83", "7E E3 02 10 10 05"]
        .map(hex)
        .to_vec();
    assert_eq!(lossless(&mut card, &bytes(&[8, 12])), (frames, Says::Done));
    assert_eq!(card.memory[0x10..0x12], [8, 12]);
}

#[test]
fn bits_without_loss() {
    let mut card = Card::new();
    card.memory[0x10] = 0x5A;
    let frames = ["7E C3 02 10 10 F0 01 D6", "7E 83", "7E E3 01 10 10 04"]
        .map(hex)
        .to_vec();
    assert_eq!(lossless(&mut card, &bits(&[0xF0], &[0x01])), (frames, Says::Done));
    assert_eq!(card.memory[0x10], 0x51);
    assert_eq!(lossless(&mut card, &bits(&[0x0F; 16], &[0x80; 16])).1, Says::Done);
    assert_eq!(lossless(&mut card, &bytes(&[])).1, Says::Done);
}

#[test]
fn without_an_exact_echo_the_exchange_ends() {
    let request = bytes(&[8]);
    let echo = hex("7E 23 01 10 10 08 4C");
    let wrong: [Option<&[u8]>; 3] = [None, Some(&echo[..6]), Some(&hex("7E 23 01 10 10 09 4D"))];
    for answer in wrong {
        let mut master = Master::new();
        assert_eq!(
            stepped(&mut master, &request, Some(&echo)).2,
            hex("7E A3 01 10 10 08 CC")
        );
        assert_eq!(stepped(&mut master, &request, answer), (1, Says::Unknown, vec![]));
        assert_eq!(stepped(&mut master, &request, Some(&echo)), (10, Says::Unknown, vec![]));
    }
}

/// The answer to the acknowledge's round is ignored; a repeated echo counts as a read-back only in its own round.
#[test]
fn the_read_back_decides() {
    let request = bits(&[0xF0], &[0x01]);
    let echo = hex("7E 23 02 10 10 F0 01 36");
    let read_backs = [
        ("7E 23 01 10 10 51 95", Says::Done),
        ("7E 23 01 10 10 F1 35", Says::Done),
        ("7E 23 01 10 10 50 94", Says::Unknown),
        ("7E 23 01 10 10 53 97", Says::Unknown),
        ("7E 23 01 10 10 51 96", Says::Unknown),
        ("7E 24 01 10 10 51 96", Says::Unknown),
        ("7E 23 01 11 10 51 96", Says::Unknown),
        ("7E 23 02 10 10 F0 01 36", Says::Unknown),
        ("7E 23 01 10 10 51 95 00", Says::Unknown),
        ("7E 23 01 10 10 51", Says::Unknown),
        ("", Says::Unknown),
    ];
    for (read_back, says) in read_backs {
        let mut master = Master::new();
        stepped(&mut master, &request, None);
        assert_eq!(
            stepped(&mut master, &request, Some(&echo)),
            (0, Says::Open, hex("7E 83"))
        );
        let interrogate = hex("7E E3 01 10 10 04");
        assert_eq!(
            stepped(&mut master, &request, Some(&echo)),
            (0, Says::Open, interrogate)
        );
        let read_back = hex(read_back);
        assert_eq!(stepped(&mut master, &request, Some(&read_back)), (1, says, vec![]));
        assert_eq!(stepped(&mut master, &request, None), (10, says, vec![]));
    }
}

#[test]
fn refusals_by_7_and_11() {
    let refused = |request: Request| stepped(&mut Master::new(), &request, None).0 == 7;
    let order = Order::Bytes(&[1]);
    assert!(!refused(Request {
        ia: 31,
        address: 65_535,
        order
    }));
    assert!(refused(Request {
        ia: 32,
        address: 0,
        order
    }));
    assert!(refused(Request {
        ia: 0,
        address: 65_536,
        order: Order::Bytes(&[])
    }));
    assert!(refused(Request {
        ia: 0,
        address: 65_535,
        order: Order::Bytes(&[1, 2])
    }));
    assert!(refused(Request {
        ia: 0,
        address: u32::MAX,
        order
    }));
    assert!(!refused(bytes(&[0; 32])));
    assert!(refused(bytes(&[0; 33])));
    assert!(!refused(bits(&[0; 16], &[0; 16])));
    assert!(refused(bits(&[0; 17], &[0; 17])));
    assert!(refused(bits(&[0], &[])));

    let mut master = Master::new();
    let outcome = step(&mut master, &bytes(&[1]), None, &mut [0; 37]);
    assert_eq!((outcome.number as u8, outcome.length), (11, 0));
    assert_eq!(master, Master::new());
    let outcome = step(&mut master, &bytes(&[0; 33]), None, &mut []);
    assert_eq!(outcome.number as u8, 7);
}

/// Requests for every number of bytes, and of bytes of bits.
fn requests<'a>(masks: &'a [u8], states: &'a [u8]) -> impl Iterator<Item = Request<'a>> {
    let of_bytes = (0..=32).map(|count| bytes(&masks[..count]));
    of_bytes.chain((0..=16).map(|count| bits(&masks[..count], &states[..count])))
}

fn patterns() -> [[u8; 32]; 2] {
    [(29, 7), (91, 130)].map(|(factor, first)| std::array::from_fn(|place| (place * factor + first) as u8))
}

#[test]
fn every_length_is_done() {
    let [masks, states] = patterns();
    for request in requests(&masks, &states) {
        let mut card = Card::new();
        card.memory[0x10..0x40].fill(0x5A);
        assert_eq!(lossless(&mut card, &request).1, Says::Done);
        for (place, &byte) in card.memory[0x10..0x40].iter().enumerate() {
            let new = match request.order {
                Order::Bytes(bytes) => bytes.get(place).copied(),
                Order::Bits { masks, states } => masks.get(place).map(|mask| 0x5A & mask | states[place]),
            };
            assert_eq!(byte, new.unwrap_or(0x5A));
        }
    }
}

/// The frame with its LRC made right.
fn summed(mut frame: Vec<u8>) -> Vec<u8> {
    frame.pop();
    frame.push(frame[1..].iter().fold(0, |sum, byte| byte.wrapping_add(sum)));
    frame
}

/// A bit of the echo's or the read-back's data differs, under a right LRC: unknown, but for a read-back's bit that the
/// request leaves free.
#[test]
fn every_differing_bit() {
    let [masks, states] = patterns();
    for request in requests(&masks, &states) {
        let frames = lossless(&mut Card::new(), &request).0;
        let response = |frame: &[u8], data: &[u8]| summed([&[0x7E, 0x23], &frame[2..5], data, &[0]].concat());
        let echo = response(&frames[0], &frames[0][5..frames[0].len() - 1]);
        let asked: Vec<u8> = match request.order {
            Order::Bytes(bytes) => bytes.to_vec(),
            Order::Bits { masks, states } => masks
                .iter()
                .zip(states)
                .map(|(mask, state)| 0x5A & mask | state)
                .collect(),
        };
        let read = response(&frames[2], &asked);
        for bit in 0..8 * (echo.len() - 6) {
            let mut differing = echo.clone();
            differing[5 + bit / 8] ^= 1 << (bit % 8);
            let mut master = Master::new();
            stepped(&mut master, &request, None);
            assert_eq!(
                stepped(&mut master, &request, Some(&summed(differing))).1,
                Says::Unknown
            );
        }
        for bit in 0..8 * asked.len() {
            let mut differing = read.clone();
            differing[5 + bit / 8] ^= 1 << (bit % 8);
            let mut master = Master::new();
            for answer in [None, Some(&echo[..]), None] {
                assert_eq!(stepped(&mut master, &request, answer).1, Says::Open);
            }
            let is_free = match request.order {
                Order::Bytes(_) => false,
                Order::Bits { masks, states } => (masks[bit / 8] & !states[bit / 8]) >> (bit % 8) & 1 == 1,
            };
            let expected = if is_free { Says::Done } else { Says::Unknown };
            assert_eq!(stepped(&mut master, &request, Some(&summed(differing))).1, expected);
        }
    }
}
