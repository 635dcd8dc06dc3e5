//! The receivers byte by byte, as document 02, M-100 words them: part frames are drawn by them, and the ways counted in
//! which a frame ends.

use crate::frames::datalink::{ACKNOWLEDGE, CHANGE, CHANGE_BITS, COMMAND_FIELD, INTERROGATE, NUM_MOST, START};
use crate::frames::lecom::{ENQ, EOT, ETX, STX};
use crate::frames::{datalink::Datalink, lecom::Lecom, love::Love, lucid::Lucid, Dialect};

/// A frame is finished.
const FINISHED: &str = "finished";
/// A finished frame is below its dialect's shortest.
const SHORT: &str = "short";
/// A BCC of 04h finishes a frame.
const BCC_04: &str = "BCC-04";
/// A byte is dropped at rest.
const AT_REST: &str = "at-rest";
/// An unknown command drops.
const COMMAND: &str = "command";
/// A NUM above 32 drops.
const NUM: &str = "NUM";
/// A byte starts the frame anew.
const ANEW: &str = "anew";
/// A byte past the longest drops.
const PAST: &str = "past";
/// A byte past the longest starts anew.
const PAST_ANEW: &str = "past-anew";
/// A BCC past the longest drops.
const PAST_BCC: &str = "past-BCC";
/// A BCC of 04h past the longest drops.
const PAST_BCC_04: &str = "past-BCC-04";
/// A quiet line drops a part frame.
pub const QUIET: &str = "quiet";
/// A restart drops a part frame.
pub const RESTART: &str = "restart";

/// A dialect's receiver.
#[derive(Clone, Copy, PartialEq, Eq, Hash, Debug)]
pub enum Receiver {
    Datalink,
    Lecom,
    Love,
    Lucid,
}

/// What a byte does to the part frame, with the way in which a frame ends by it, if one does.
#[derive(Clone, Copy, PartialEq, Eq, Debug)]
pub enum Step {
    /// It is collected.
    Keep,
    /// It is the first byte of a new part frame.
    Anew(Option<&'static str>),
    /// It is dropped with what was collected.
    Drop(&'static str),
    /// It finishes the frame.
    Finish(&'static str),
}

impl Receiver {
    /// All receivers.
    pub const ALL: [Self; 4] = [Self::Datalink, Self::Lecom, Self::Love, Self::Lucid];

    /// The dialect's word in a line.
    pub fn word(self) -> &'static str {
        match self {
            Self::Datalink => Datalink::CALL,
            Self::Lecom => Lecom::CALL,
            Self::Love => Love::CALL,
            Self::Lucid => Lucid::CALL,
        }
    }

    /// The receiver whose dialect a word names.
    pub fn of_word(word: &[u8]) -> Option<Self> {
        Self::ALL
            .into_iter()
            .find(|receiver| receiver.word().as_bytes() == word)
    }

    /// Every way in which a frame can end.
    pub fn ways(self) -> &'static [&'static str] {
        match self {
            Self::Datalink => &[FINISHED, AT_REST, COMMAND, NUM, QUIET, RESTART],
            Self::Lecom => &[
                FINISHED,
                SHORT,
                BCC_04,
                AT_REST,
                ANEW,
                PAST,
                PAST_ANEW,
                PAST_BCC,
                PAST_BCC_04,
                QUIET,
                RESTART,
            ],
            Self::Love => &[FINISHED, SHORT, AT_REST, ANEW, PAST, PAST_ANEW, QUIET, RESTART],
            Self::Lucid => &[FINISHED, QUIET, RESTART],
        }
    }

    /// What a byte does behind those collected.
    pub fn step(self, collected: &[u8], byte: u8) -> Step {
        match self {
            Self::Datalink => datalink(collected, byte),
            Self::Lecom => lecom(collected, byte),
            Self::Love => love(collected, byte),
            Self::Lucid => lucid(collected, byte),
        }
    }

    /// What is collected after bytes, none of which were collected before; finished frames are left out.
    pub fn collected(self, bytes: &[u8]) -> Vec<u8> {
        let mut collected = Vec::new();
        for &byte in bytes {
            self.take(&mut collected, byte);
        }
        collected
    }

    /// Takes a byte; gives the way in which a frame ends by it.
    pub fn take(self, collected: &mut Vec<u8>, byte: u8) -> Option<&'static str> {
        let step = self.step(collected, byte);
        if step != Step::Keep {
            collected.clear();
        }
        if matches!(step, Step::Keep | Step::Anew(_)) {
            collected.push(byte);
        }
        match step {
            Step::Keep => None,
            Step::Anew(way) => way,
            Step::Drop(way) | Step::Finish(way) => Some(way),
        }
    }
}

/// Datalink "starts at 7Eh and takes its length from command and NUM".
fn datalink(collected: &[u8], byte: u8) -> Step {
    match *collected {
        [] if byte == START => Step::Keep,
        [] => Step::Drop(AT_REST),
        [_] => match byte & COMMAND_FIELD {
            INTERROGATE | CHANGE | CHANGE_BITS => Step::Keep,
            ACKNOWLEDGE => Step::Finish(FINISHED),
            _ => Step::Drop(COMMAND),
        },
        [_, _] if byte > NUM_MOST => Step::Drop(NUM),
        [_, _] => Step::Keep,
        [_, command, num, ..] => {
            let has_data = command & COMMAND_FIELD != INTERROGATE;
            let data = if has_data { usize::from(num) } else { 0 };
            counted(collected, 6 + data)
        }
    }
}

/// LECOM "starts anew at EOT and ends at ENQ where no STX has come, else with the byte after ETX, which is the BCC even if
/// it is 04h".
fn lecom(collected: &[u8], byte: u8) -> Step {
    let stx = collected.iter().position(|&byte| byte == STX);
    let is_bcc = stx.is_some_and(|stx| collected[stx..].contains(&ETX));
    let is_full = collected.len() == Lecom::LONGEST;
    match (byte, collected) {
        (EOT, _) if is_bcc && is_full => Step::Drop(PAST_BCC_04),
        (_, _) if is_bcc && is_full => Step::Drop(PAST_BCC),
        (EOT, _) if is_bcc => Step::Finish(BCC_04),
        (_, _) if is_bcc => finished::<Lecom>(collected),
        (EOT, []) => Step::Anew(None),
        (EOT, _) if is_full => Step::Anew(Some(PAST_ANEW)),
        (EOT, _) => Step::Anew(Some(ANEW)),
        (_, []) => Step::Drop(AT_REST),
        (_, _) if is_full => Step::Drop(PAST),
        (ENQ, _) if stx.is_none() => finished::<Lecom>(collected),
        _ => Step::Keep,
    }
}

/// Love "runs from STX to ETX; a later STX starts anew".
fn love(collected: &[u8], byte: u8) -> Step {
    let is_full = collected.len() == Love::LONGEST;
    match (byte, collected) {
        (STX, []) => Step::Anew(None),
        (STX, _) if is_full => Step::Anew(Some(PAST_ANEW)),
        (STX, _) => Step::Anew(Some(ANEW)),
        (_, []) => Step::Drop(AT_REST),
        (_, _) if is_full => Step::Drop(PAST),
        (ETX, _) => finished::<Love>(collected),
        _ => Step::Keep,
    }
}

/// "LucidControl counts from LEN."
fn lucid(collected: &[u8], byte: u8) -> Step {
    match *collected {
        [_, _, _] => counted(collected, 4 + usize::from(byte)),
        [_, _, _, len, ..] => counted(collected, 4 + usize::from(len)),
        _ => Step::Keep,
    }
}

/// What a byte does in a frame of a known length.
fn counted(collected: &[u8], length: usize) -> Step {
    if collected.len() + 1 == length {
        Step::Finish(FINISHED)
    } else {
        Step::Keep
    }
}

/// The end of a frame by the byte behind those collected.
fn finished<D: Dialect>(collected: &[u8]) -> Step {
    let is_short = collected.len() + 1 < D::SHORTEST;
    Step::Finish(if is_short { SHORT } else { FINISHED })
}

#[cfg(test)]
mod tests {
    use super::*;

    /// The ways in which frames end by bytes, and what is collected after them.
    fn ways(receiver: Receiver, bytes: &[u8]) -> (Vec<&'static str>, Vec<u8>) {
        let mut collected = Vec::new();
        let ways = bytes.iter().filter_map(|&byte| receiver.take(&mut collected, byte));
        (ways.collect(), collected)
    }

    /// Bytes that end frames in each way of a receiver, by bytes alone.
    fn telling(receiver: Receiver) -> Vec<u8> {
        match receiver {
            Receiver::Datalink => vec![0x7D, 0x7E, 0x7E, 0x7E, 0xE3, 33, 0x7E, 0x83],
            Receiver::Lecom => {
                let full = [&[4][..], &[0x30; 24]].concat();
                let due = [&[4, 2][..], &[0x30; 22], &[3]].concat();
                let few = [5, 4, 5, 4, 0x31, 0x31, 0x30, 0x30, 5, 4, 0x31, 4, 2, 3, 4];
                [&few[..], &full, &[5], &full, &[4, 5], &due, &[0x30], &due, &[4]].concat()
            }
            Receiver::Love => {
                let full = [&[2][..], &[0x30; 31]].concat();
                let few = [3, 2, 3, 2, 0x4C, 2, 0x4C, 0x33, 0x32, 0x30, 0x30, 3];
                [&few[..], &full, &[3], &full, &[2]].concat()
            }
            Receiver::Lucid => vec![1, 2, 3, 1, 5],
        }
    }

    #[test]
    fn every_way_by_bytes_can_be_reached() {
        for receiver in Receiver::ALL {
            let (reached, _) = ways(receiver, &telling(receiver));
            for way in receiver.ways() {
                let is_by_bytes = ![QUIET, RESTART].contains(way);
                assert_eq!(reached.contains(way), is_by_bytes, "{receiver:?} {way}");
            }
            assert!(reached.iter().all(|way| receiver.ways().contains(way)), "{receiver:?}");
        }
    }

    #[test]
    fn what_is_collected_is_what_began_last() {
        assert_eq!(Receiver::Lecom.collected(&[4, 2, 4, 0x31]), [4, 0x31]);
        assert_eq!(Receiver::Love.collected(&[2, 3, 0x31]), []);
        assert_eq!(Receiver::Datalink.collected(&[0x7E, 0xE3, 32]), [0x7E, 0xE3, 32]);
        assert_eq!(Receiver::Lucid.collected(&[1, 2, 3, 0, 9]), [9]);
    }

    #[test]
    fn words_name_receivers() {
        for receiver in Receiver::ALL {
            assert_eq!(Receiver::of_word(receiver.word().as_bytes()), Some(receiver));
        }
        assert_eq!(Receiver::of_word(b"Love"), None);
    }
}
