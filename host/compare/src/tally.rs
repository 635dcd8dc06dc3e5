//! Counts how often each number came up for each entry, and which ones are missing.

use std::collections::BTreeMap;
use std::fmt;

use crate::calls::Listed;
use crate::entries::{Entry, NUMBERS, UNFIT};
use crate::masters::meaning;
use crate::text::{bytes_of, number, words};

/// Bytes of a Love error reply.
const LOVE_ERROR_LENGTH: usize = 8;
/// Where its N stands; the code follows.
const LOVE_ERROR_PLACE: usize = 4;

/// What came up for one entry.
#[derive(Clone, Default)]
struct Counts {
    numbers: BTreeMap<usize, u64>,
    marks: BTreeMap<String, u64>,
}

/// What came up for all entries.
#[derive(Default)]
pub struct Tally {
    counts: [Counts; Entry::ALL.len()],
}

impl Tally {
    /// Counts a call's answer; other lines, and answers that tell of an unreadable line, do not count.
    pub fn count(&mut self, line: &[u8], answer: &[u8]) {
        let Some(entry) = Entry::of_line(line) else {
            return;
        };
        let mut answered = words(answer);
        let Some(first) = answered.next().and_then(number) else {
            return;
        };
        let counts = &mut self.counts[entry.place()];
        *counts.numbers.entry(first as usize).or_default() += 1;
        if let Some(mark) = mark(entry, first, answered) {
            self.mark(entry, mark);
        }
    }

    /// Counts a mark of an entry.
    pub fn mark(&mut self, entry: Entry, mark: String) {
        *self.counts[entry.place()].marks.entry(mark).or_default() += 1;
    }

    /// What can come up for these entries but did not, and what came up but cannot.
    pub fn faults(&self, entries: &[Entry], listed: &Listed) -> Vec<String> {
        let mut faults = Vec::new();
        for entry in Entry::ALL {
            let counts = &self.counts[entry.place()];
            let name = entry.name();
            let possible = entry.numbers();
            if entries.contains(&entry) {
                let missing = possible
                    .iter()
                    .filter(|number| !counts.numbers.contains_key(number) && can_come_up(entry, **number, listed));
                faults.extend(missing.map(|number| format!("{name} never gave {number}")));
            }
            let strange = counts.numbers.keys().filter(|number| !possible.contains(number));
            faults.extend(strange.map(|number| format!("{name} gave {number}, which it cannot")));
            faults.extend(mark_faults(entry, counts, entries.contains(&entry)));
        }
        faults
    }
}

/// Whether scripts of the listed calls can bring a number up.
fn can_come_up(entry: Entry, number: usize, listed: &Listed) -> bool {
    match (entry, number) {
        (Entry::Load, UNFIT) => true,
        (_, UNFIT) => listed.has("poke"),
        (Entry::Governor, 0) => listed.has("probe") || listed.has("poke"),
        _ => true,
    }
}

/// Marks that are missing though they are asked for, and marks that cannot be.
fn mark_faults(entry: Entry, counts: &Counts, is_asked: bool) -> Vec<String> {
    let Some((kind, possible)) = entry.marks() else {
        return Vec::new();
    };
    let name = entry.name();
    let missing = possible
        .iter()
        .filter(|mark| is_asked && !counts.marks.contains_key(**mark))
        .map(|mark| format!("{name} never gave {kind} {mark}"));
    let strange = counts
        .marks
        .keys()
        .filter(|mark| !possible.contains(&mark.as_str()))
        .map(|mark| format!("{name} gave {kind} {mark}, which it cannot"));
    missing.chain(strange).collect()
}

/// The mark in an answer of this number: Love's error code, LucidControl's status, what the master says, what a reply means.
fn mark<'a>(entry: Entry, number: i64, mut words: impl Iterator<Item = &'a [u8]>) -> Option<String> {
    match entry {
        Entry::Love => {
            let bytes = bytes_of(words)?;
            let is_error = bytes.len() == LOVE_ERROR_LENGTH && bytes[LOVE_ERROR_PLACE] == b'N';
            let code = bytes.get(LOVE_ERROR_PLACE + 1..LOVE_ERROR_LENGTH - 1)?;
            is_error.then(|| String::from_utf8_lossy(code).into_owned())
        }
        Entry::Lucid if number == 0 => None,
        Entry::Lucid | Entry::Step => {
            let word = words.next()?;
            Some(String::from_utf8_lossy(word).into_owned())
        }
        Entry::Reply(_) => meaning(words),
        _ => None,
    }
}

impl fmt::Display for Tally {
    fn fmt(&self, out: &mut fmt::Formatter) -> fmt::Result {
        write!(out, "{:<16}", "entry")?;
        for number in NUMBERS {
            write!(out, "{number:>8}")?;
        }
        writeln!(out)?;
        for entry in Entry::ALL {
            write!(out, "{:<16}", entry.name())?;
            for number in NUMBERS {
                match self.counts[entry.place()].numbers.get(&number) {
                    Some(count) => write!(out, "{count:>8}")?,
                    None if entry.numbers().contains(&number) => write!(out, "{:>8}", 0)?,
                    None => write!(out, "{:>8}", "-")?,
                }
            }
            writeln!(out)?;
        }
        for entry in Entry::ALL {
            let Some((kind, possible)) = entry.marks() else {
                continue;
            };
            write!(out, "{} {kind}:", entry.name())?;
            for mark in possible {
                let count = self.counts[entry.place()].marks.get(*mark);
                write!(out, "  {mark} {}", count.unwrap_or(&0))?;
            }
            writeln!(out)?;
        }
        Ok(())
    }
}

#[cfg(test)]
mod tests {
    use super::*;
    use crate::masters::Master;
    use crate::receivers::Receiver;

    fn listed() -> Listed {
        Listed::read("calls: probe CHANNEL CODE; poke TABLE PLACE VALUE\n").unwrap()
    }

    #[test]
    fn missing_and_strange_numbers_are_faults() {
        let mut tally = Tally::default();
        tally.count(b"probe 0 1\n", b"1\n");
        tally.count(b"probe 9 1\n", b"6\n");
        tally.count(b"probe 0\n", b"error expected probe CHANNEL CODE\n");
        let faults = tally.faults(&[Entry::Probe], &listed());
        assert_eq!(faults, ["probe never gave 12"]);
        tally.count(b"probe 0 1\n", b"12\n");
        assert!(tally.faults(&[Entry::Probe], &listed()).is_empty());
        tally.count(b"probe 0 1\n", b"7\n");
        let faults = tally.faults(&[], &listed());
        assert_eq!(faults, ["probe gave 7, which it cannot"]);
    }

    #[test]
    fn ways_are_counted_for_each_receiver() {
        let entry = Entry::Receive(Receiver::Lucid);
        let listed = Listed::read("calls: receive DIALECT ROOM BYTES; poke TABLE PLACE VALUE\n").unwrap();
        let mut tally = Tally::default();
        for answer in ["0 4 01 02 03 00\n", "1 0\n", "12\n", "16\n"] {
            tally.count(b"receive lucid 259 01 02 03 00\n", answer.as_bytes());
        }
        tally.count(b"receive love 32\n", b"1 0\n");
        for way in ["finished", "quiet"] {
            tally.mark(entry, way.to_owned());
        }
        assert_eq!(
            tally.faults(&[entry], &listed),
            ["receive lucid never gave way restart"]
        );
        tally.mark(entry, "restart".to_owned());
        assert!(tally.faults(&[entry], &listed).is_empty());
        tally.count(b"receive lucid 259\n", b"11\n");
        assert_eq!(tally.faults(&[], &listed), ["receive lucid gave 11, which it cannot"]);
    }

    #[test]
    fn meanings_are_counted_for_each_master() {
        let entry = Entry::Reply(Master::Lecom);
        let listed = Listed::read("calls: reply lecom BYTES\n").unwrap();
        let mut tally = Tally::default();
        for answer in ["1 value 7\n", "1 refused\n", "3\n", "4\n", "7\n", "error no request\n"] {
            tally.count(b"reply lecom 15\n", answer.as_bytes());
        }
        tally.count(b"reply love 06\n", b"1 done\n");
        assert_eq!(tally.faults(&[entry], &listed), ["reply lecom never gave meaning done"]);
        tally.count(b"reply lecom 06\n", b"1 done\n");
        assert!(tally.faults(&[entry], &listed).is_empty());
        tally.count(b"reply lecom 15\n", b"1 refused 5\n");
        assert_eq!(
            tally.faults(&[], &listed),
            ["reply lecom gave meaning refused-5, which it cannot"]
        );
    }

    #[test]
    fn love_codes_and_lucid_statuses_are_marks() {
        let reply = words(b"02 4C 33 32 4E 30 35 06");
        assert_eq!(mark(Entry::Love, 3, reply), Some("05".to_owned()));
        let reply = words(b"02 4C 33 32 30 30 31 31 06");
        assert_eq!(mark(Entry::Love, 0, reply), None);
        assert_eq!(mark(Entry::Lucid, 9, words(b"D0 00")), Some("D0".to_owned()));
        assert_eq!(mark(Entry::Lucid, 3, words(b"")), None);
        assert_eq!(mark(Entry::Lucid, 0, words(b"00 00")), None);
    }
}
