//! The ways in which frames end in a script: read off the bytes that a receiver took, behind what it last showed.

use crate::entries::Entry;
use crate::receivers::{Receiver, QUIET, RESTART};
use crate::text::{bytes_of, number, words};

/// The part frame of each receiver as it was last shown, as long as nothing may have changed it.
#[derive(Default)]
pub struct Ways {
    shown: [Option<Vec<u8>>; Receiver::ALL.len()],
}

impl Ways {
    /// Takes in a line and its answer; gives the ways of the frames that ended.
    pub fn see(&mut self, line: &[u8], answer: &[u8]) -> Vec<(Receiver, &'static str)> {
        let called: Vec<&[u8]> = words(line).collect();
        let given: Vec<&[u8]> = words(answer).collect();
        match (&called[..], &given[..], Entry::of_line(line)) {
            ([b"peek", b"part", dialect], ..) => self.show(dialect, answer),
            ([b"poke", ..], ..) => self.shown = Default::default(),
            (_, [b"0" | b"1", ..], Some(Entry::Receive(receiver))) => return self.received(receiver, &called, &given),
            (_, [b"1"], Some(Entry::Quiet(receiver))) => return self.dropped(&[receiver], QUIET),
            (_, [b"1"], Some(Entry::Restart)) => return self.dropped(&Receiver::ALL, RESTART),
            _ => {}
        }
        Vec::new()
    }

    /// A part frame is shown.
    fn show(&mut self, dialect: &[u8], answer: &[u8]) {
        let bytes = words(answer).map(|word| u8::try_from(number(word)?).ok()).collect();
        if let Some(receiver) = Receiver::of_word(dialect) {
            self.shown[receiver as usize] = bytes;
        }
    }

    /// A receiver took bytes.
    fn received(&mut self, receiver: Receiver, line: &[&[u8]], answer: &[&[u8]]) -> Vec<(Receiver, &'static str)> {
        let taken = answer.get(1).and_then(|word| number(word)).unwrap_or(0) as usize;
        let bytes = bytes_of(line.iter().skip(3).take(taken).copied());
        let (Some(mut collected), Some(bytes)) = (self.shown[receiver as usize].take(), bytes) else {
            return Vec::new();
        };
        let ways = bytes.iter().filter_map(|&byte| receiver.take(&mut collected, byte));
        ways.map(|way| (receiver, way)).collect()
    }

    /// The part frames of receivers, where there are any, are dropped otherwise than by a byte.
    fn dropped(&mut self, receivers: &[Receiver], way: &'static str) -> Vec<(Receiver, &'static str)> {
        let mut has_part = |receiver: Receiver| {
            let collected = self.shown[receiver as usize].take();
            collected.is_some_and(|collected| !collected.is_empty())
        };
        let dropped = receivers.iter().filter(|&&receiver| has_part(receiver));
        dropped.map(|&receiver| (receiver, way)).collect()
    }
}

#[cfg(test)]
mod tests {
    use super::*;

    /// The ways of a call behind a part frame that was shown.
    fn ways(shown: &str, line: &str, answer: &str) -> Vec<(Receiver, &'static str)> {
        let mut ways = Ways::default();
        assert!(ways.see(b"peek part lecom\n", shown.as_bytes()).is_empty());
        ways.see(line.as_bytes(), answer.as_bytes())
    }

    #[test]
    fn bytes_taken_are_followed_behind_what_was_shown() {
        let lecom = Receiver::Lecom;
        let ended = ways("4 2 3\n", "receive lecom 25 04 05 04\n", "0 1 04 02 03 04\n");
        assert_eq!(ended, [(lecom, "BCC-04")]);
        let ended = ways("\n", "receive lecom 25 05 04 04 05\n", "0 4 04 05\n");
        assert_eq!(ended, [(lecom, "at-rest"), (lecom, "anew"), (lecom, "short")]);
        assert_eq!(ways("4 49\n", "quiet lecom\n", "1\n"), [(lecom, "quiet")]);
        assert_eq!(ways("4 49\n", "restart\n", "1\n"), [(lecom, "restart")]);
    }

    #[test]
    fn what_drops_nothing_is_no_way() {
        assert!(ways("\n", "quiet lecom\n", "1\n").is_empty());
        assert!(ways("\n", "restart\n", "1\n").is_empty());
        assert!(ways("4\n", "quiet love\n", "1\n").is_empty());
        assert!(ways("4\n", "restart\n", "12\n").is_empty());
        assert!(ways("4\n", "receive lecom 24 05\n", "16\n").is_empty());
        assert!(ways("4\n", "receive lecom 25 31\n", "1 1\n").is_empty());
    }

    #[test]
    fn a_part_frame_that_may_have_changed_is_not_followed() {
        let mut ways = Ways::default();
        ways.see(b"peek part lecom\n", b"4\n");
        ways.see(b"poke part lecom 0 0\n", b"ok\n");
        assert!(ways.see(b"restart\n", b"1\n").is_empty());
    }
}
