//! The masters' rounds: "A made request means to the card what was asked; a card's reply is read as what it answered"
//! (document 02, M-102), as far as a program's own answers show it.
//!
//! A watch follows a made frame to the card's entry and the card's reply back to the master, so any part of a script can
//! be watched.

use crate::entries::Entry;
use crate::masters::Master;
use crate::text::{bytes_of, number, words};

/// Numbers with which the card may answer or refuse a made frame: besides 0 and 1 a foreign address, a failed probe, a short
/// buffer, an unfit card.
const POSSIBLE: [i64; 6] = [0, 1, 2, FAULT, 11, 12];
/// The number of a failed probe.
const FAULT: i64 = 9;
/// Where a Love reply's data begins: with D at fault.
const LOVE_DATA: usize = 4;

/// A request on its way.
#[derive(Default)]
struct Round {
    /// The frame made for the request last asked, if it was made.
    frame: Option<Vec<u8>>,
    /// Whether the card had a failed probe to tell of, and what it replied to that frame.
    reply: Option<(bool, Vec<u8>)>,
}

/// Follows the requests of a script.
#[derive(Default)]
pub struct Watch {
    rounds: [Round; Master::ALL.len()],
}

impl Watch {
    /// Takes in a line and its answer; says which clause they break.
    pub fn see(&mut self, line: &[u8], answer: &[u8]) -> Result<(), String> {
        let mut answered = words(answer);
        let Some(given) = answered.next().and_then(number) else {
            return Ok(());
        };
        match Entry::of_line(line) {
            Some(Entry::Ask(master)) => {
                self.rounds[master as usize] = Round {
                    frame: bytes_of(answered).filter(|_| given == 0),
                    reply: None,
                };
                Ok(())
            }
            Some(Entry::Reply(master)) => self.see_reply(master, line, answer),
            Some(Entry::Lecom) => self.see_card(Master::Lecom, line, given, answered),
            Some(Entry::Love) => self.see_card(Master::Love, line, given, answered),
            Some(Entry::Lucid) => self.see_card(Master::Lucid, line, given, answered),
            _ => Ok(()),
        }
    }

    /// The card gets a frame.
    fn see_card<'a>(
        &mut self,
        master: Master,
        line: &[u8],
        given: i64,
        answered: impl Iterator<Item = &'a [u8]>,
    ) -> Result<(), String> {
        let round = &mut self.rounds[master as usize];
        let frame = bytes_of(words(line).skip(2));
        if round.frame.is_none() || round.frame != frame {
            return Ok(());
        }
        if !POSSIBLE.contains(&given) {
            return Err("the card refuses a made request".to_owned());
        }
        if let Some(reply) = bytes_of(answered).filter(|reply| !reply.is_empty()) {
            let is_love_fault = master == Master::Love && reply.get(LOVE_DATA) == Some(&b'D');
            round.reply = Some((given == FAULT || is_love_fault, reply));
        }
        Ok(())
    }

    /// The master gets a reply.
    fn see_reply(&self, master: Master, line: &[u8], answer: &[u8]) -> Result<(), String> {
        let Some((is_fault, reply)) = &self.rounds[master as usize].reply else {
            return Ok(());
        };
        if bytes_of(words(line).skip(2)).as_ref() != Some(reply) {
            return Ok(());
        }
        let said: Vec<&[u8]> = words(answer).collect();
        let is_understood = match (is_fault, &said[..]) {
            (false, [b"1", b"value", ..] | [b"1", b"done"]) => true,
            (true, [b"1", b"refused"]) => master == Master::Lecom,
            (true, [b"1", b"fault"]) => master != Master::Lecom,
            _ => false,
        };
        if is_understood {
            Ok(())
        } else {
            Err("the card's reply is not read as what it answered".to_owned())
        }
    }
}

#[cfg(test)]
mod tests {
    use super::*;

    const ASKED: (&str, &str) = ("ask lucid 4 getio 0 64\n", "0 46 00 40 00\n");
    const SENT: &str = "lucid 38 46 00 40 00\n";

    /// What the watch says to the last of these lines, each with its answer.
    fn said(lines: &[(&str, &str)]) -> Result<(), String> {
        let mut watch = Watch::default();
        let mut said = Ok(());
        for (line, answer) in lines {
            said = watch.see(line.as_bytes(), answer.as_bytes());
        }
        said
    }

    #[test]
    fn a_value_must_be_read_as_one() {
        let round = |heard| said(&[ASKED, (SENT, "0 00 02 F6 FF\n"), ("reply lucid 00 02 F6 FF\n", heard)]);
        assert!(round("1 value -10\n").is_ok());
        for heard in ["3\n", "7\n", "1 fault\n", "1 refused 176\n"] {
            assert!(round(heard).is_err(), "{heard}");
        }
    }

    #[test]
    fn a_fault_must_be_read_as_one() {
        let round = |heard| said(&[ASKED, (SENT, "9 D0 00\n"), ("reply lucid D0 00\n", heard)]);
        assert!(round("1 fault\n").is_ok());
        assert!(round("1 refused 208\n").is_err());
        assert!(round("1 value -1\n").is_err());
        let lecom = |heard| {
            let asked = ("ask lecom 6 11 read 96\n", "0 04 31 31 36 30 05\n");
            said(&[
                asked,
                ("lecom 38 04 31 31 36 30 05\n", "9 15\n"),
                ("reply lecom 15\n", heard),
            ])
        };
        assert!(lecom("1 refused\n").is_ok());
        assert!(lecom("1 fault\n").is_err());
        let love = |heard| {
            let reply = "02 4C 33 32 44 30 30 30 30 30 30 30 34 35 06\n";
            said(&[
                ("ask love 9 50 status\n", "0 02 4C 33 32 30 30 43 35 03\n"),
                ("love 38 02 4C 33 32 30 30 43 35 03\n", &format!("0 {reply}")),
                (&format!("reply love {reply}"), heard),
            ])
        };
        assert!(love("1 fault\n").is_ok());
        assert!(love("1 value 0\n").is_err());
    }

    #[test]
    fn the_card_must_take_a_made_request() {
        assert!(said(&[ASKED, (SENT, "7 B6 00\n")]).is_err());
        assert!(said(&[ASKED, (SENT, "12\n")]).is_ok());
        assert!(said(&[ASKED, ("lucid 38 46 00 42 00\n", "7 B6 00\n")]).is_ok());
        assert!(said(&[("ask lucid 3 getio 0 64\n", "11\n"), (SENT, "7 B6 00\n")]).is_ok());
    }

    #[test]
    fn other_replies_and_requests_are_not_followed() {
        let answered = (SENT, "0 00 02 F6 FF\n");
        assert!(said(&[ASKED, answered, ("reply lucid 00 02 F7 FF\n", "3\n")]).is_ok());
        let other = ("ask lucid 4 getio 1 65\n", "0 46 01 41 00\n");
        assert!(said(&[ASKED, answered, other, ("reply lucid 00 02 F6 FF\n", "3\n")]).is_ok());
    }
}
