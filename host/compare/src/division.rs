//! What must not depend on how bytes are divided over calls (document 02, M-100): "however one byte sequence with its quiet
//! marks is divided over calls, frames and final receiver state are equal". Checked on a program's own answers.
//!
//! A watch follows each receiver from a part frame that was shown: the bytes taken, the quiet marks and the frames handed
//! over. Where the same sequence came before from the same part frame, it must have given the same frames and have left the
//! same part frame. A restart and a poke of a part frame begin anew.

use std::collections::HashMap;

use crate::receivers::Receiver;
use crate::text::{bytes_of, number, words};

/// A byte, or a quiet mark.
type Event = Option<u8>;
/// A part frame as it is shown.
type Shown = Vec<u8>;

/// A receiver's line since a part frame was shown.
#[derive(Clone, PartialEq, Eq, Hash)]
struct Sequence {
    receiver: Receiver,
    start: Shown,
    events: Vec<Event>,
}

/// A receiver's line as it is followed.
struct Line {
    sequence: Sequence,
    /// The frames handed over.
    frames: Vec<Vec<u8>>,
}

/// What a sequence gave.
struct Outcome {
    frames: Vec<Vec<u8>>,
    part: Shown,
}

/// Follows the receivers of a script.
#[derive(Default)]
pub struct Watch {
    /// Each receiver's line; none until its part frame is shown.
    lines: [Option<Line>; Receiver::ALL.len()],
    known: HashMap<Sequence, Outcome>,
}

impl Watch {
    /// Takes in a line and its answer; says if they break the clause.
    pub fn see(&mut self, line: &[u8], answer: &[u8]) -> Result<(), String> {
        let line: Vec<&[u8]> = words(line).collect();
        let given: Vec<&[u8]> = words(answer).collect();
        match (&line[..], &given[..]) {
            (_, [b"error", ..]) => {}
            ([b"peek", b"part", dialect], _) => return self.see_part(dialect, answer),
            ([b"poke", b"part", dialect, ..], _) => self.begin_anew(dialect),
            ([b"restart"], [b"1"]) => self.lines = Default::default(),
            ([b"quiet", dialect], [b"1"]) => self.see_events(dialect, &[None], &[]),
            ([b"receive", dialect, _, bytes @ ..], [b"0" | b"1", taken, frame @ ..]) => {
                let taken = number(taken).unwrap_or(0) as usize;
                let bytes = bytes_of(bytes.iter().take(taken).copied()).unwrap_or_default();
                let events: Vec<Event> = bytes.into_iter().map(Some).collect();
                self.see_events(dialect, &events, frame);
            }
            _ => {}
        }
        Ok(())
    }

    /// A part frame is poked: what is shown next is a new beginning.
    fn begin_anew(&mut self, dialect: &[u8]) {
        if let Some(receiver) = Receiver::of_word(dialect) {
            self.lines[receiver as usize] = None;
        }
    }

    /// Bytes were taken, or the line was quiet; a frame may have been handed over.
    fn see_events(&mut self, dialect: &[u8], events: &[Event], frame: &[&[u8]]) {
        let receiver = Receiver::of_word(dialect);
        let Some(line) = receiver.and_then(|receiver| self.lines[receiver as usize].as_mut()) else {
            return;
        };
        line.sequence.events.extend_from_slice(events);
        if !frame.is_empty() {
            line.frames.push(bytes_of(frame.iter().copied()).unwrap_or_default());
        }
    }

    /// A part frame is shown.
    fn see_part(&mut self, dialect: &[u8], answer: &[u8]) -> Result<(), String> {
        let shown: Option<Shown> = words(answer).map(|word| u8::try_from(number(word)?).ok()).collect();
        let (Some(receiver), Some(part)) = (Receiver::of_word(dialect), shown) else {
            return Ok(());
        };
        let Some(line) = &self.lines[receiver as usize] else {
            self.lines[receiver as usize] = Some(Line {
                sequence: Sequence {
                    receiver,
                    start: part,
                    events: Vec::new(),
                },
                frames: Vec::new(),
            });
            return Ok(());
        };
        match self.known.get(&line.sequence) {
            Some(known) if known.frames != line.frames => {
                Err("the same bytes, otherwise divided, gave other frames".to_owned())
            }
            Some(known) if known.part != part => {
                Err("the same bytes, otherwise divided, left another part frame".to_owned())
            }
            Some(_) => Ok(()),
            None => {
                let frames = line.frames.clone();
                self.known.insert(line.sequence.clone(), Outcome { frames, part });
                Ok(())
            }
        }
    }
}

#[cfg(test)]
mod tests {
    use super::*;
    use crate::model::Model;

    /// Shows lines with their answers to a watch; gives what it says to the last one.
    fn watched(lines: &[(&str, &str)]) -> Result<(), String> {
        let mut watch = Watch::default();
        let mut said = Ok(());
        for (line, answer) in lines {
            said?;
            said = watch.see(line.as_bytes(), answer.as_bytes());
        }
        said
    }

    /// A new beginning at rest.
    const BEGIN: [(&str, &str); 2] = [("poke part love 0 0", "ok"), ("peek part love", "")];

    /// Two lines from the same beginning, the second of which ends with a look at the part frame.
    fn divided(one: &[(&str, &str)], other: &[(&str, &str)]) -> Result<(), String> {
        watched(&[&BEGIN[..], one, &BEGIN, other].concat())
    }

    const WHOLE: [(&str, &str); 2] = [("receive love 32 02 4C 30", "1 3"), ("peek part love", "2 76 48")];

    #[test]
    fn the_same_part_frame_breaks_no_clause() {
        let other = [
            ("receive love 32 02", "1 1"),
            ("peek part love", "2"),
            ("receive love 32", "1 0"),
            ("receive love 32 4C 30", "1 2"),
            ("peek part love", "2 76 48"),
        ];
        assert!(divided(&WHOLE, &other).is_ok());
    }

    #[test]
    fn another_part_frame_breaks_the_clause() {
        let other = [
            ("receive love 32 02", "1 1"),
            ("receive love 32 4C 30", "1 2"),
            ("peek part love", "2 76"),
        ];
        assert!(divided(&WHOLE, &other).is_err());
    }

    #[test]
    fn other_frames_break_the_clause() {
        let one = [("receive love 32 02 03", "0 2 02 03"), ("peek part love", "")];
        let other = |answer| {
            [
                ("receive love 32 02", "1 1"),
                ("receive love 32 03", answer),
                ("peek part love", ""),
            ]
        };
        assert!(divided(&one, &other("0 1 02 03")).is_ok());
        assert!(divided(&one, &other("1 1")).is_err());
        assert!(divided(&one, &other("0 1 03")).is_err());
    }

    #[test]
    fn quiet_marks_belong_to_the_sequence() {
        let quiet = |part| {
            [
                ("receive love 32 02", "1 1"),
                ("quiet love", "1"),
                ("peek part love", part),
            ]
        };
        assert!(divided(&WHOLE[..1], &quiet("")).is_ok());
        assert!(divided(&quiet(""), &quiet("2")).is_err());
    }

    #[test]
    fn refused_calls_take_nothing() {
        let other = [
            ("receive love 31 02", "16"),
            ("receive love 32 02 4C 30", "1 3"),
            ("quiet love", "12"),
            ("peek part love", "2 76 48"),
        ];
        assert!(divided(&WHOLE, &other).is_ok());
    }

    #[test]
    fn another_beginning_is_another_sequence() {
        let begin = [("poke part love 0 1", "ok"), ("peek part love", "2")];
        let other = [("receive love 32 02 4C 30", "1 3"), ("peek part love", "2 76")];
        assert!(watched(&[&BEGIN[..], &WHOLE, &begin, &other].concat()).is_ok());
        let restarted = [("restart", "1"), ("peek part love", "")];
        assert!(watched(&[&BEGIN[..], &WHOLE, &restarted, &other].concat()).is_err());
    }

    #[test]
    fn the_reference_breaks_no_clause() {
        let mut model = Model::new();
        let mut watch = Watch::default();
        let play = [
            "receive lecom 25 04 31 02 30",
            "peek part lecom",
            "receive lecom 25 03",
            "receive lecom 25 04",
            "peek part lecom",
            "poke part lecom 0 0",
            "peek part lecom",
            "receive lecom 25 04 31 02 30 03 04",
            "peek part lecom",
        ];
        for line in ["peek part lecom"].iter().chain(&play) {
            let answer = model.line(line.as_bytes());
            assert!(watch.see(line.as_bytes(), answer.as_bytes()).is_ok(), "{line}");
        }
        assert_eq!(watch.known.len(), 2);
    }
}
