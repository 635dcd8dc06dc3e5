//! The LucidControl receiver: it "counts from LEN".

use super::run::Run;
use super::{quiet, receive, Received};
use crate::card::{Card, Part, Ports};
use crate::lucid::{LONGEST, SHORTEST};
use crate::numbers::Number;

/// Where LEN stands; it counts the bytes behind it.
const LEN: usize = SHORTEST - 1;

/// Entry: bytes come for the LucidControl receiver.
pub fn receive_lucid(card: &mut Card, bytes: &[u8], frame: &mut [u8]) -> Received {
    let others = |ports: &Ports| ports.datalink.count | ports.lecom.count | ports.love.count;
    receive(card, others, frame, |ports, frame| {
        collect(&mut ports.lucid, bytes, frame)
    })
}

/// Entry: the LucidControl line is quiet.
pub fn quiet_lucid(card: &mut Card) -> Number {
    quiet(card, |ports| &mut ports.lucid.count)
}

/// Whether bytes lead to a part frame: LEN has not come, or not all bytes that it counts.
#[inline(always)]
pub fn is_reached(part: &Part<LONGEST>) -> bool {
    let count = usize::from(part.count);
    count <= LEN || count <= LEN + usize::from(part.bytes[LEN])
}

/// Takes bytes; none if no bytes lead to the part frame. No byte drops it.
#[inline(always)]
fn collect(part: &mut Part<LONGEST>, bytes: &[u8], frame: &mut [u8; LONGEST]) -> Option<Received> {
    if !is_reached(part) {
        return None;
    }
    let run = Run::behind(part, bytes);
    let len = if run.before > LEN {
        Some(&part.bytes[LEN])
    } else {
        bytes.get(LEN - run.before)
    };
    let followed = match len {
        Some(&len) => run.counted(LEN + 1 + usize::from(len), part, frame),
        None => run.end(part),
    };
    followed.ok()
}
