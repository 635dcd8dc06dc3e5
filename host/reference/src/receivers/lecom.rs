//! The LECOM receiver: it "starts anew at EOT and ends at ENQ where no STX has come, else with the byte after ETX, which is
//! the BCC even if it is 04h".

use super::run::{follow_from, Followed, Run};
use super::{marks, quiet, receive, Received};
use crate::card::{Card, Part, Ports};
use crate::lecom::{ENQ, EOT, ETX, LONGEST, STX};
use crate::numbers::Number;

/// What can come next, besides an EOT that starts anew and ordinary bytes.
#[derive(Clone, Copy, PartialEq, Eq)]
enum Due {
    /// ENQ, which ends the frame, or STX.
    EnqOrStx,
    /// ETX.
    Etx,
    /// The BCC, whatever byte it is.
    Bcc,
}

/// Entry: bytes come for the LECOM receiver.
pub fn receive_lecom(card: &mut Card, bytes: &[u8], frame: &mut [u8]) -> Received {
    let others = |ports: &Ports| ports.datalink.count | ports.love.count | ports.lucid.count;
    receive(card, others, frame, |ports, frame| {
        collect(&mut ports.lecom, bytes, frame)
    })
}

/// Entry: the LECOM line is quiet.
pub fn quiet_lecom(card: &mut Card) -> Number {
    quiet(card, |ports| &mut ports.lecom.count)
}

/// What is due behind a part frame that is not empty; none if no bytes lead to it.
#[inline(always)]
fn due_behind(part: &Part<LONGEST>) -> Option<Due> {
    let [EOT, behind @ ..] = &part.bytes else {
        return None;
    };
    let count = usize::from(part.count) - 1;
    if count > behind.len() {
        return None;
    }
    let mut due = Due::EnqOrStx;
    for (word, &eight) in behind.as_chunks().0.iter().enumerate() {
        let mut marks = marks::below::<8>(u64::from_le_bytes(eight));
        while marks != 0 {
            let place = 8 * word + marks::first(marks);
            marks &= marks - 1;
            if place >= count {
                return Some(due);
            }
            match (behind[place], due) {
                (EOT, _) | (ENQ, Due::EnqOrStx) => return None,
                (STX, Due::EnqOrStx) => due = Due::Etx,
                (ETX, Due::Etx) => return (place + 1 == count).then_some(Due::Bcc),
                _ => {}
            }
        }
        if 8 * (word + 1) >= count {
            break;
        }
    }
    Some(due)
}

/// Whether bytes lead to a part frame that is not empty.
#[inline(always)]
pub fn is_begun(part: &Part<LONGEST>) -> bool {
    due_behind(part).is_some()
}

/// Takes bytes; none if no bytes lead to the part frame.
#[inline(always)]
fn collect(part: &mut Part<LONGEST>, bytes: &[u8], frame: &mut [u8; LONGEST]) -> Option<Received> {
    let mut next = 0;
    if part.count != 0 {
        let due = due_behind(part)?;
        match follow(Run::behind(part, bytes), 0, due, part, frame) {
            Ok(received) => return Some(received),
            Err(place) => next = place,
        }
    }
    Some(follow_from(next, EOT, bytes, part, |run, part| {
        follow(run, run.from + 1, Due::EnqOrStx, part, frame)
    }))
}

/// Follows a frame from a place on.
#[inline(always)]
fn follow(
    mut run: Run<LONGEST>,
    place: usize,
    mut due: Due,
    part: &mut Part<LONGEST>,
    frame: &mut [u8; LONGEST],
) -> Followed {
    let mut place = place;
    while due != Due::Bcc {
        let within = run.within();
        place = marks::find_below::<8>(within, place);
        match within.get(place) {
            Some(&EOT) => {
                run = run.anew(place, part);
                due = Due::EnqOrStx;
            }
            Some(&ENQ) if due == Due::EnqOrStx => return run.finish(place, part, frame),
            Some(&STX) => due = Due::Etx,
            Some(&ETX) if due == Due::Etx => due = Due::Bcc,
            Some(_) => {}
            None if place == run.bytes.len() => return run.end(part),
            None => return run.dropped(place, place, part),
        }
        place += 1;
    }
    if place < run.within().len() {
        run.finish(place, part, frame)
    } else if place == run.bytes.len() {
        run.end(part)
    } else {
        run.dropped(place, place + 1, part)
    }
}
