//! Section `lengths`: every LEN of a LucidControl request against every length of the slice.

use crate::frames::lucid::{Lucid, COMMANDS, DEMAND, HEAD};
use crate::frames::Dialect;
use crate::writer::{Writer, ANSWER_ROOM};

/// The longest slice.
const SLICE_MOST: usize = 300;
/// Values of LEN.
const LENS: usize = 256;
/// LEN and slice length, each pair once.
pub const CASES: usize = LENS * (SLICE_MOST + 1);

/// Sends the next pair's request.
pub fn scene(out: &mut Writer) {
    let length = out.turn / LENS % (SLICE_MOST + 1);
    let len = (out.turn % LENS) as u8;
    let mut frame = vec![out.rng.pick(&COMMANDS), 1, DEMAND, len];
    frame.extend(out.rng.bytes(SLICE_MOST - HEAD));
    frame.truncate(length);
    out.frame(Lucid::CALL, ANSWER_ROOM, &frame);
}
