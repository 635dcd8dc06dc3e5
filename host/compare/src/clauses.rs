//! The clauses of whole exchanges (document 01, "Datalink", second half), checked on a program's own answers.
//!
//! A watch reads lines and answers and follows the exchange from `request` on. It checks only while the premise
//! holds: a request that 7 does not refuse, answers that the frame last sent got in its round, and no other change or
//! acknowledge that was accepted, nor a poke. So any part of a script can be watched. Where a frame comes byte by byte it
//! arrives when the Datalink entry gets it (document 02, M-100); what the receiver takes and drops does not matter.

use crate::card::{IA_MOST, MEMORY_END, MEMORY_PLACES, MEMORY_START, WRITABLE_START};
use crate::frames::datalink::{ACKNOWLEDGE, CHANGE, CHANGE_BITS, COMMAND_FIELD};
use crate::master::{ADDRESS_END, ARRIVALS_MOST, BITS_MOST, BYTES_MOST, ROUNDS};
use crate::text::{bytes_of, number, words};

/// The first writable entry of the memory.
const WRITABLE: usize = (WRITABLE_START - MEMORY_START) as usize;
/// Frames that the master sends before the acknowledge: the change.
const FRAMES_BEFORE_ACKNOWLEDGE: usize = 1;

/// What a request asks, as masks and states: a data byte has mask 00h.
struct Asked {
    address: i64,
    forces: Vec<(u8, u8)>,
}

impl Asked {
    /// The request of a line's words after `request`; none if 7 refuses it.
    fn read(rest: &[&[u8]]) -> Option<Self> {
        let (&[kind, ia, address], data) = rest.split_first_chunk()?;
        let (ia, address) = (number(ia)?, number(address)?);
        let forces: Vec<(u8, u8)> = if kind == b"bits" {
            let slash = data.iter().position(|word| *word == b"/")?;
            let masks = bytes_of(data[..slash].iter().copied())?;
            let states = bytes_of(data[slash + 1..].iter().copied())?;
            if masks.len() != states.len() || masks.len() > BITS_MOST {
                return None;
            }
            masks.into_iter().zip(states).collect()
        } else {
            let bytes = bytes_of(data.iter().copied())?;
            bytes.into_iter().map(|byte| (0, byte)).collect()
        };
        let fits = ia <= IA_MOST
            && forces.len() <= BYTES_MOST
            && address < ADDRESS_END
            && address + forces.len() as i64 <= ADDRESS_END;
        fits.then_some(Self { address, forces })
    }

    /// Whether the order gives the range neither 6 nor 8.
    fn is_writable(&self) -> bool {
        let first = if self.forces.is_empty() {
            MEMORY_START
        } else {
            WRITABLE_START
        };
        let end = self.address + self.forces.len() as i64;
        self.address >= i64::from(first) && end <= i64::from(MEMORY_END)
    }

    /// The memory with every named writable byte as asked.
    fn applied(&self, old: &[u8]) -> Vec<u8> {
        let mut memory = old.to_vec();
        for (place, &(mask, state)) in (self.address..).zip(&self.forces) {
            let place = usize::try_from(place - i64::from(MEMORY_START)).unwrap_or(0);
            if (WRITABLE..memory.len()).contains(&place) {
                memory[place] = (memory[place] & mask) | state;
            }
        }
        memory
    }
}

/// An exchange while its premise holds.
struct Exchange {
    asked: Asked,
    old: Vec<u8>,
    /// The memory with the named bytes as asked.
    new: Vec<u8>,
    /// What the master said at its last step, refused or not.
    says: Vec<u8>,
    /// The frame last sent; none before the first and after the end.
    frame: Option<Vec<u8>>,
    /// How many frames were sent.
    frames: usize,
    /// Answers with number 0 that its arrivals in this round got.
    answers: Vec<Vec<u8>>,
    arrivals: usize,
    is_first_accepted: bool,
    /// For each closed round whether it was lossless.
    closed: Vec<bool>,
    /// Whether a restart fell between the first arrivals of change and acknowledge.
    is_restarted_between: bool,
}

impl Exchange {
    /// An exchange before its first step, on the memory as it is.
    fn new(asked: Asked, old: Vec<u8>) -> Self {
        let new = asked.applied(&old);
        Self {
            asked,
            old,
            new,
            says: Vec::new(),
            frame: None,
            frames: 0,
            answers: Vec::new(),
            arrivals: 0,
            is_first_accepted: false,
            closed: Vec::new(),
            is_restarted_between: false,
        }
    }

    /// A step that was not refused; false if the answer it got breaks the premise.
    fn step(&mut self, heard: &[u8], sent: Vec<u8>) -> bool {
        if self.frame.is_some() {
            if !heard.is_empty() && !self.answers.iter().any(|answer| answer == heard) {
                return false;
            }
            let is_acknowledge = self.closed.len() == 1;
            let is_heard = is_acknowledge || !heard.is_empty();
            self.closed
                .push(self.arrivals > 0 && self.is_first_accepted && is_heard);
        }
        self.frame = Some(sent).filter(|frame| !frame.is_empty());
        self.frames += usize::from(self.frame.is_some());
        self.answers.clear();
        self.arrivals = 0;
        true
    }

    /// A Datalink frame with the number and bytes that it got; false if it breaks the premise.
    fn arrival(&mut self, frame: &[u8], number: i64, answer: Vec<u8>) -> bool {
        let is_accepted = number == 0 || number == 1;
        if self.frame.as_deref() == Some(frame) && self.arrivals < ARRIVALS_MOST {
            if self.arrivals == 0 {
                self.is_first_accepted = is_accepted;
            }
            self.arrivals += 1;
            if number == 0 {
                self.answers.push(answer);
            }
            return true;
        }
        let command = frame.get(1).map_or(0, |byte| byte & COMMAND_FIELD);
        !(is_accepted && matches!(command, CHANGE | CHANGE_BITS | ACKNOWLEDGE))
    }

    /// A restart: it counts between the first arrivals of change and acknowledge.
    fn restart(&mut self) {
        let after_change = self.closed.len() == 1 || self.arrivals > 0;
        let before_acknowledge = self.closed.is_empty() || (self.closed.len() == 1 && self.arrivals == 0);
        self.is_restarted_between |= after_change && before_acknowledge;
    }

    /// Lossless rounds lead to done, and say nothing before.
    fn check_says(&self) -> Result<(), String> {
        let is_lossless = self.closed.iter().all(|&lossless| lossless);
        if !is_lossless || self.is_restarted_between || !self.asked.is_writable() {
            return Ok(());
        }
        let expected: &[u8] = if self.closed.len() < ROUNDS { b"open" } else { b"done" };
        if self.says == expected {
            return Ok(());
        }
        Err(format!(
            "after {} lossless rounds the master must say {}",
            self.closed.len(),
            String::from_utf8_lossy(expected)
        ))
    }

    /// Named bytes all old or all as asked, by what is said and sent; every other writable byte old.
    fn check_memory(&self, memory: &[u8]) -> Result<(), String> {
        let [old, new, now] = [&self.old, &self.new, memory].map(|bytes| &bytes[WRITABLE..]);
        if now != old && now != new {
            return Err("the writable bytes are neither all old nor all as asked".to_owned());
        }
        if self.frames <= FRAMES_BEFORE_ACKNOWLEDGE && now != old {
            return Err("a byte changed before the acknowledge was sent".to_owned());
        }
        if self.says == b"done" && (now != new || !self.asked.is_writable()) {
            return Err("the master says done, but a named byte is not as asked".to_owned());
        }
        Ok(())
    }
}

/// Follows the exchanges of a script.
#[derive(Default)]
pub struct Watch {
    /// The memory as it is, if nothing may have changed it since it was shown.
    memory: Option<Vec<u8>>,
    exchange: Option<Exchange>,
}

impl Watch {
    /// Takes in a line and its answer; says which clause they break.
    pub fn see(&mut self, line: &[u8], answer: &[u8]) -> Result<(), String> {
        let line: Vec<&[u8]> = words(line).collect();
        let answer: Vec<&[u8]> = words(answer).collect();
        let (Some((&call, rest)), Some(&first)) = (line.split_first(), answer.first()) else {
            return Ok(());
        };
        if first == b"error" {
            return Ok(());
        }
        match call {
            b"peek" if rest == [b"memory"] => return self.see_memory(&answer),
            b"peek" | b"governor" | b"save" | b"receive" | b"quiet" | b"ask" | b"reply" | b"help" => {}
            b"request" => {
                let asked = Asked::read(rest);
                let old = self.memory.clone();
                self.exchange = asked.zip(old).map(|(asked, old)| Exchange::new(asked, old));
            }
            b"step" => return self.see_step(rest, &answer),
            b"poke" => {
                self.memory = None;
                self.exchange = None;
            }
            _ => self.see_card(call, rest, &answer),
        }
        Ok(())
    }

    /// The memory is shown.
    fn see_memory(&mut self, answer: &[&[u8]]) -> Result<(), String> {
        let shown: Option<Vec<u8>> = answer.iter().map(|word| u8::try_from(number(word)?).ok()).collect();
        self.memory = shown.filter(|memory| memory.len() == MEMORY_PLACES);
        match (&self.exchange, &self.memory) {
            (Some(exchange), Some(memory)) => exchange.check_memory(memory),
            _ => Ok(()),
        }
    }

    /// The master takes a step. A refused one closes no round, but what it says counts.
    fn see_step(&mut self, rest: &[&[u8]], answer: &[&[u8]]) -> Result<(), String> {
        let (&[given, says], sent) = match answer.split_first_chunk() {
            Some(parts) => parts,
            None => return Ok(()),
        };
        let heard = bytes_of(rest.iter().skip(1).copied());
        let sent = bytes_of(sent.iter().copied());
        let is_refused = !matches!(number(given), Some(0 | 1));
        let (Some(exchange), Some(heard), Some(sent)) = (&mut self.exchange, heard, sent) else {
            return Ok(());
        };
        exchange.says = says.to_vec();
        if !is_refused && !exchange.step(&heard, sent) {
            self.exchange = None;
            return Ok(());
        }
        exchange.check_says()
    }

    /// Another call of the card, which may change the memory.
    fn see_card(&mut self, call: &[u8], rest: &[&[u8]], answer: &[&[u8]]) {
        self.memory = None;
        let Some(exchange) = &mut self.exchange else {
            return;
        };
        let Some(given) = number(answer[0]) else {
            return;
        };
        match call {
            b"restart" if given == 1 => exchange.restart(),
            b"datalink" => {
                let frame = bytes_of(rest.iter().skip(1).copied()).unwrap_or_default();
                let reply = bytes_of(answer[1..].iter().copied()).unwrap_or_default();
                if !exchange.arrival(&frame, given, reply) {
                    self.exchange = None;
                }
            }
            _ => {}
        }
    }
}

#[cfg(test)]
mod tests {
    use super::*;
    use crate::model::Model;
    use crate::text::hex_words;

    const ECHO: &str = "datalink 38 7E A3 02 10 10 01 02 C8";
    const ACKNOWLEDGED: &str = "datalink 38 7E 83";
    const READ_BACK: &str = "datalink 38 7E E3 02 10 10 05";

    /// A watch over the model's answers.
    struct Followed {
        model: Model,
        watch: Watch,
    }

    impl Followed {
        /// An exchange that asks for bytes 01h and 02h at 1010h.
        fn new() -> Self {
            let mut followed = Self {
                model: Model::new(),
                watch: Watch::default(),
            };
            followed.take("peek memory");
            followed.take("request change 3 4112 01 02");
            followed
        }

        /// Carries a line out and shows it to the watch, then the memory.
        fn take(&mut self, line: &str) -> String {
            let answer = self.model.line(line.as_bytes());
            self.watch.see(line.as_bytes(), answer.as_bytes()).unwrap();
            let memory = self.model.line(b"peek memory");
            self.watch.see(b"peek memory", memory.as_bytes()).unwrap();
            answer
        }

        /// The change, its acknowledge and the interrogate arrive; gives the line of the last step.
        fn reach_last_step(&mut self) -> String {
            self.take("step 38");
            let echo = self.take(ECHO);
            self.take(&format!("step 38{}", &echo[1..]));
            self.take(ACKNOWLEDGED);
            self.take("step 38");
            let read_back = self.take(READ_BACK);
            format!("step 38{}", &read_back[1..])
        }

        /// What the watch says to an answer that the model did not give.
        fn see(&mut self, line: &str, answer: &str) -> Result<(), String> {
            self.watch.see(line.as_bytes(), answer.as_bytes())
        }

        /// What the watch says to a memory with one byte changed.
        fn see_byte(&mut self, place: usize, value: u8) -> Result<(), String> {
            let memory = self.model.line(b"peek memory");
            let mut entries: Vec<&str> = memory.split(' ').collect();
            let value = value.to_string();
            entries[place] = &value;
            self.see("peek memory", &entries.join(" "))
        }

        /// What the watch says to a memory with both named bytes as asked.
        fn see_as_asked(&mut self) -> Result<(), String> {
            let mut memory = vec!["0"; MEMORY_PLACES];
            memory[16] = "1";
            memory[17] = "2";
            self.see("peek memory", &memory.join(" "))
        }
    }

    #[test]
    fn a_lossless_exchange_breaks_no_clause() {
        let mut followed = Followed::new();
        let last = followed.reach_last_step();
        assert_eq!(followed.take(&last), "1 done");
        assert!(followed.watch.exchange.is_some());
    }

    #[test]
    fn lossless_rounds_must_end_in_done() {
        let mut followed = Followed::new();
        let last = followed.reach_last_step();
        assert!(followed.see(&last, "1 unknown").is_err());
    }

    #[test]
    fn the_master_must_not_give_up_before_the_end() {
        let mut followed = Followed::new();
        followed.take("step 38");
        let echo = followed.take(ECHO);
        let second = format!("step 38{}", &echo[1..]);
        assert!(followed.see(&second, "1 unknown").is_err());
    }

    #[test]
    fn half_a_change_breaks_a_clause() {
        let mut followed = Followed::new();
        followed.reach_last_step();
        assert!(followed.see_byte(17, 0).is_err());
    }

    #[test]
    fn another_writable_byte_must_stay() {
        let mut followed = Followed::new();
        assert!(followed.see_byte(15, 9).is_ok());
        assert!(followed.see_byte(18, 9).is_err());
    }

    #[test]
    fn nothing_changes_before_the_acknowledge() {
        let mut followed = Followed::new();
        followed.take("step 38");
        let echo = followed.take(ECHO);
        assert!(followed.see_as_asked().is_err());
        followed.take(&format!("step 38{}", &echo[1..]));
        assert!(followed.see_as_asked().is_ok());
    }

    #[test]
    fn nothing_changes_after_an_end_without_an_echo() {
        let mut followed = Followed::new();
        followed.take("step 38");
        followed.take(ECHO);
        assert_eq!(followed.take("step 38"), "1 unknown");
        assert!(followed.see_as_asked().is_err());
    }

    #[test]
    fn a_refused_step_must_not_say_done() {
        let mut followed = Followed::new();
        followed.take("step 38");
        assert_eq!(followed.take("step 38"), "1 unknown");
        assert!(followed.see("step 38", "10 done").is_ok());
        let memory = followed.model.line(b"peek memory");
        assert!(followed.see("peek memory", &memory).is_err());
    }

    #[test]
    fn a_refused_step_must_not_end_a_lossless_exchange() {
        for answer in ["11 unknown", "11 done"] {
            let mut followed = Followed::new();
            followed.take("step 38");
            followed.take(ECHO);
            assert!(followed.see("step 37", answer).is_err(), "{answer}");
        }
    }

    #[test]
    fn a_refused_step_closes_no_round() {
        let mut followed = Followed::new();
        assert_eq!(followed.take("step 37"), "11 open");
        followed.take("step 38");
        let echo = followed.take(ECHO);
        assert_eq!(followed.take(&format!("step 37{}", &echo[1..])), "11 open");
        followed.take(&format!("step 38{}", &echo[1..]));
        followed.take(ACKNOWLEDGED);
        assert_eq!(followed.take("step 37"), "11 open");
        followed.take("step 38");
        let read_back = followed.take(READ_BACK);
        assert_eq!(followed.take(&format!("step 37{}", &read_back[1..])), "11 open");
        assert_eq!(followed.take(&format!("step 38{}", &read_back[1..])), "1 done");
        assert_eq!(followed.take("step 38"), "10 done");
        let exchange = followed.watch.exchange.unwrap();
        assert_eq!(exchange.closed, [true; ROUNDS]);
    }

    #[test]
    fn done_needs_every_byte_as_asked() {
        let mut followed = Followed::new();
        followed.take("step 38");
        let echo = followed.take(ECHO);
        followed.take(&format!("step 38{}", &echo[1..]));
        followed.take("step 38");
        let read_back = followed.take(READ_BACK);
        let last = format!("step 38{}", &read_back[1..]);
        assert!(followed.see(&last, "1 done").is_ok());
        let memory = followed.model.line(b"peek memory");
        assert!(followed.see("peek memory", &memory).is_err());
    }

    #[test]
    fn what_breaks_the_premise_ends_the_watch() {
        let others = ["datalink 38 7E A3 00 10 10 C3", "poke memory 100 1", "step 38 00"];
        for other in others {
            let mut followed = Followed::new();
            followed.take("step 38");
            followed.take(other);
            assert!(followed.watch.exchange.is_none(), "{other}");
        }
        let mut followed = Followed::new();
        followed.take("step 38");
        followed.take("datalink 38 7E E3 00 10 10 03");
        followed.take("restart");
        assert!(followed.watch.exchange.is_some());
    }

    #[test]
    fn a_collected_frame_arrives_when_the_entry_gets_it() {
        let mut followed = Followed::new();
        followed.take("step 38");
        assert_eq!(followed.take("receive datalink 38 55 7E A3 02 10 10 01 02"), "1 8");
        let collected = followed.take("receive datalink 38 C8");
        followed.take("quiet datalink");
        assert_eq!(followed.watch.exchange.as_ref().unwrap().arrivals, 0);
        followed.take(&format!("datalink 38{}", &collected["0 1".len()..]));
        let exchange = followed.watch.exchange.as_ref().unwrap();
        assert_eq!((exchange.arrivals, exchange.is_first_accepted), (1, true));
    }

    #[test]
    fn requests_that_7_refuses_are_not_watched() {
        let bytes = hex_words(&[0; BYTES_MOST + 1]);
        let refused = [
            "change 32 4112 01".to_owned(),
            "change 3 65536".to_owned(),
            "change 3 65535 01 02".to_owned(),
            "bits 3 4112 01 / 01 02".to_owned(),
            format!("change 3 4112{bytes}"),
        ];
        for line in &refused {
            let rest: Vec<&[u8]> = words(line.as_bytes()).collect();
            assert!(Asked::read(&rest).is_none(), "{line}");
        }
        let rest: Vec<&[u8]> = words(b"change 3 65535 01").collect();
        assert!(Asked::read(&rest).is_some());
    }
}
