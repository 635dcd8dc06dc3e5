//! The Love receiver: it "runs from STX to ETX; a later STX starts anew".

use super::run::{follow_from, Followed, Run};
use super::{marks, quiet, receive, Received};
use crate::card::{Card, Part, Ports};
use crate::love::{ETX, LONGEST, STX};
use crate::numbers::Number;

/// Entry: bytes come for the Love receiver.
pub fn receive_love(card: &mut Card, bytes: &[u8], frame: &mut [u8]) -> Received {
    let others = |ports: &Ports| ports.datalink.count | ports.lecom.count | ports.lucid.count;
    receive(card, others, frame, |ports, frame| {
        collect(&mut ports.love, bytes, frame)
    })
}

/// Entry: the Love line is quiet.
pub fn quiet_love(card: &mut Card) -> Number {
    quiet(card, |ports| &mut ports.love.count)
}

/// Whether bytes lead to a part frame that is not empty: STX, and neither STX nor ETX behind it.
#[inline(always)]
pub fn is_begun(part: &Part<LONGEST>) -> bool {
    let mut left = usize::from(part.count);
    if part.bytes[0] != STX || left > LONGEST {
        return false;
    }
    // The mark of the first byte, which is STX.
    let mut first = 0x80;
    for &eight in part.bytes.as_chunks().0 {
        let marks = marks::stx_and_etx(u64::from_le_bytes(eight)) ^ first;
        if left <= 8 {
            return marks << (8 * (8 - left)) == 0;
        }
        if marks != 0 {
            return false;
        }
        left -= 8;
        first = 0;
    }
    true
}

/// Takes bytes; none if no bytes lead to the part frame.
#[inline(always)]
fn collect(part: &mut Part<LONGEST>, bytes: &[u8], frame: &mut [u8; LONGEST]) -> Option<Received> {
    let mut next = 0;
    if part.count != 0 {
        if !is_begun(part) {
            return None;
        }
        match follow(Run::behind(part, bytes), 0, part, frame) {
            Ok(received) => return Some(received),
            Err(place) => next = place,
        }
    }
    Some(follow_from(next, STX, bytes, part, |run, part| {
        follow(run, run.from + 1, part, frame)
    }))
}

/// Follows a frame from a place on.
#[inline(always)]
fn follow(mut run: Run<LONGEST>, place: usize, part: &mut Part<LONGEST>, frame: &mut [u8; LONGEST]) -> Followed {
    let mut place = place;
    loop {
        let within = run.within();
        place = marks::find_below::<4>(within, place);
        match within.get(place) {
            Some(&ETX) => return run.finish(place, part, frame),
            Some(&STX) => run = run.anew(place, part),
            Some(_) => {}
            None if place == run.bytes.len() => return run.end(part),
            None => return run.dropped(place, place, part),
        }
        place += 1;
    }
}
