//! Document 02, M-102: what all masters have in common. Each dialect's own rules stand in a file of their own.

mod cards;
mod lecom_rules;
mod love_rules;
mod lucid_rules;

use super::{hex, UNTOUCHED};
use crate::masters::Heard;
use crate::numbers::{Number, Reply};

/// No answer and no refusal.
const WRONG: Heard = Heard::Nothing(Number::Form);
/// An answer but for its check characters.
const UNCHECKED: Heard = Heard::Nothing(Number::Check);
/// Of a request that cannot be made.
const OUTSIDE: Heard = Heard::Nothing(Number::Outside);

/// Makes a request with a buffer of each length up to 64 bytes; gives the number and the frame, and checks that they are the
/// same with every buffer that the frame fits, and 11 with every other, and that no further byte is touched.
fn made(make: impl Fn(&mut [u8]) -> Reply) -> (u8, Vec<u8>) {
    let mut buffer = [UNTOUCHED; 64];
    let reply = make(&mut buffer);
    let frame = buffer[..reply.length].to_vec();
    for room in 0..=buffer.len() {
        let mut buffer = [UNTOUCHED; 64];
        let given = make(&mut buffer[..room]);
        let fits = room >= frame.len();
        assert_eq!(
            given,
            if fits {
                reply
            } else {
                Reply::silent(Number::ShortBuffer)
            }
        );
        let (own, rest) = buffer.split_at(given.length);
        assert_eq!(own, &frame[..given.length]);
        assert!(rest.iter().all(|&byte| byte == UNTOUCHED));
    }
    (reply.number as u8, frame)
}
