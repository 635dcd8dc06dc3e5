//! The Datalink receiver: it "starts at 7Eh and takes its length from command and NUM; an unknown command (20h is one) or
//! NUM above 32 drops what was collected, that byte included".

use super::run::{follow_from, Followed, Run};
use super::{quiet, receive, Received};
use crate::card::{Card, Part, Ports, NUM_MOST};
use crate::datalink::{LONGEST, SHORTEST};
use crate::message::{ACKNOWLEDGE, CHANGE, HEAD, INTERROGATE, START};
use crate::numbers::Number;

/// Bytes that say how long a frame is: 7Eh, command and NUM.
const SAYING: usize = 3;

/// What the first bytes of a frame say.
enum Head {
    /// The frame's length.
    Length(usize),
    /// That the byte at this place drops the frame.
    Drop(usize),
    /// Nothing yet.
    Open,
}

/// Entry: bytes come for the Datalink receiver.
pub fn receive_datalink(card: &mut Card, bytes: &[u8], frame: &mut [u8]) -> Received {
    let others = |ports: &Ports| ports.lecom.count | ports.love.count | ports.lucid.count;
    receive(card, others, frame, |ports, frame| {
        collect(&mut ports.datalink, bytes, frame)
    })
}

/// Entry: the Datalink line is quiet.
pub fn quiet_datalink(card: &mut Card) -> Number {
    quiet(card, |ports| &mut ports.datalink.count)
}

/// What a frame's first bytes say, of which the first is 7Eh. The highest commands have a NUM; those below the acknowledge
/// are unknown.
#[inline(always)]
fn head(bytes: &[u8]) -> Head {
    match *bytes {
        [_, command, ..] if command < ACKNOWLEDGE => Head::Drop(1),
        [_, command, ..] if command < CHANGE => Head::Length(SHORTEST),
        [_, _, num, ..] if usize::from(num) > NUM_MOST => Head::Drop(2),
        [_, command, num, ..] => {
            let data = if command >= INTERROGATE { 0 } else { num };
            Head::Length(HEAD + usize::from(data) + 1)
        }
        _ => Head::Open,
    }
}

/// What a part frame that is not empty says; none if no bytes lead to it.
#[inline(always)]
fn collected_head(part: &Part<LONGEST>) -> Option<Head> {
    if part.bytes[0] != START {
        return None;
    }
    let count = usize::from(part.count);
    let said = if count >= SAYING {
        head(&part.bytes[..SAYING])
    } else {
        head(&part.bytes[..count])
    };
    match said {
        Head::Length(length) if count >= length => None,
        Head::Drop(_) => None,
        said => Some(said),
    }
}

/// Whether bytes lead to a part frame that is not empty.
#[inline(always)]
pub fn is_begun(part: &Part<LONGEST>) -> bool {
    collected_head(part).is_some()
}

/// Takes bytes; none if no bytes lead to the part frame.
#[inline(always)]
fn collect(part: &mut Part<LONGEST>, bytes: &[u8], frame: &mut [u8; LONGEST]) -> Option<Received> {
    let mut next = 0;
    if part.count != 0 {
        let run = Run::behind(part, bytes);
        let followed = match collected_head(part)? {
            Head::Length(length) => run.counted(length, part, frame),
            _ => follow_behind(run, part, frame),
        };
        match followed {
            Ok(received) => return Some(received),
            Err(place) => next = place,
        }
    }
    Some(follow_from(next, START, bytes, part, |run, part| {
        follow(head(&bytes[run.from..]), run, part, frame)
    }))
}

/// Follows a frame of which one or two bytes were collected.
#[inline(always)]
fn follow_behind(run: Run<LONGEST>, part: &mut Part<LONGEST>, frame: &mut [u8; LONGEST]) -> Followed {
    let mut first = [START, part.bytes[1], 0];
    for (to, &from) in first[run.before..].iter_mut().zip(run.bytes) {
        *to = from;
    }
    let count = SAYING.min(run.before + run.bytes.len());
    follow(head(&first[..count]), run, part, frame)
}

/// Follows a frame by what its first bytes say.
#[inline(always)]
fn follow(said: Head, run: Run<LONGEST>, part: &mut Part<LONGEST>, frame: &mut [u8; LONGEST]) -> Followed {
    match said {
        Head::Length(length) => run.counted(length, part, frame),
        Head::Drop(place) => {
            let at = run.from + place - run.before;
            run.dropped(at, at + 1, part)
        }
        Head::Open => run.end(part),
    }
}
