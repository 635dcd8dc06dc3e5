//! The entries and the numbers that documents 01 and 02 let each of them return.

use crate::masters::Master;
use crate::receivers::Receiver;
use crate::text::words;

/// All numbers: 0 to 14 are document 01's, 16 comes with the receivers.
pub const NUMBERS: [usize; 16] = [0, 1, 2, 3, 4, 5, 6, 7, 8, 9, 10, 11, 12, 13, 14, 16];
/// The number of an unfit card.
pub const UNFIT: usize = 12;
/// The number of a frame buffer below a dialect's longest frame.
const SHORT_FRAME_BUFFER: usize = 16;

/// An entry of the card or the master.
#[derive(Clone, Copy, PartialEq, Eq, Debug)]
pub enum Entry {
    Probe,
    Restart,
    Governor,
    Datalink,
    Lecom,
    Love,
    Lucid,
    /// Bytes come for a dialect's receiver.
    Receive(Receiver),
    /// A dialect's line is quiet.
    Quiet(Receiver),
    Save,
    Load,
    Step,
    /// A master makes a request.
    Ask(Master),
    /// A master reads a reply.
    Reply(Master),
}

impl Entry {
    /// All entries, in the order of `help`.
    pub const ALL: [Self; 24] = [
        Self::Probe,
        Self::Restart,
        Self::Governor,
        Self::Datalink,
        Self::Lecom,
        Self::Love,
        Self::Lucid,
        Self::Receive(Receiver::Datalink),
        Self::Receive(Receiver::Lecom),
        Self::Receive(Receiver::Love),
        Self::Receive(Receiver::Lucid),
        Self::Quiet(Receiver::Datalink),
        Self::Quiet(Receiver::Lecom),
        Self::Quiet(Receiver::Love),
        Self::Quiet(Receiver::Lucid),
        Self::Save,
        Self::Load,
        Self::Step,
        Self::Ask(Master::Lecom),
        Self::Ask(Master::Love),
        Self::Ask(Master::Lucid),
        Self::Reply(Master::Lecom),
        Self::Reply(Master::Love),
        Self::Reply(Master::Lucid),
    ];

    /// The entry's place among all.
    pub fn place(self) -> usize {
        let place = Self::ALL.iter().position(|&entry| entry == self);
        place.expect("all entries are listed")
    }

    /// The entry's call.
    pub fn call(self) -> &'static str {
        match self {
            Self::Probe => "probe",
            Self::Restart => "restart",
            Self::Governor => "governor",
            Self::Datalink => "datalink",
            Self::Lecom => "lecom",
            Self::Love => "love",
            Self::Lucid => "lucid",
            Self::Receive(_) => "receive",
            Self::Quiet(_) => "quiet",
            Self::Save => "save",
            Self::Load => "load",
            Self::Step => "step",
            Self::Ask(_) => "ask",
            Self::Reply(_) => "reply",
        }
    }

    /// The dialect that the call's second word names, if it names one.
    fn dialect(self) -> Option<&'static str> {
        match self {
            Self::Receive(receiver) | Self::Quiet(receiver) => Some(receiver.word()),
            Self::Ask(master) | Self::Reply(master) => Some(master.word()),
            _ => None,
        }
    }

    /// The call, and the dialect where there is an entry for each.
    pub fn name(self) -> String {
        match self.dialect() {
            Some(dialect) => format!("{} {dialect}", self.call()),
            None => self.call().to_owned(),
        }
    }

    /// The entry that a line calls, if any.
    pub fn of_line(line: &[u8]) -> Option<Self> {
        let mut words = words(line);
        let call = words.next()?;
        let second = words.next();
        Self::ALL.into_iter().find(|entry| {
            let dialect = entry.dialect().map(str::as_bytes);
            entry.call().as_bytes() == call && (dialect.is_none() || dialect == second)
        })
    }

    /// The numbers that can come up.
    pub fn numbers(self) -> &'static [usize] {
        match self {
            Self::Probe => &[1, 6, UNFIT],
            Self::Restart | Self::Quiet(_) => &[1, UNFIT],
            Self::Governor => &[0, 6, 9, UNFIT],
            Self::Datalink => &[0, 1, 2, 3, 4, 5, 6, 8, 10, 11, UNFIT],
            Self::Lecom => &[0, 1, 2, 3, 4, 6, 7, 8, 9, 11, UNFIT],
            Self::Love => &[0, 2, 3, 4, 5, 7, 11, UNFIT],
            Self::Lucid => &[0, 3, 5, 6, 7, 8, 9, 11, UNFIT],
            Self::Receive(_) => &[0, 1, UNFIT, SHORT_FRAME_BUFFER],
            Self::Save => &[0, 11, UNFIT],
            Self::Load => &[1, UNFIT, 13, 14],
            Self::Step => &[0, 1, 7, 10, 11],
            Self::Ask(_) => &[0, 7, 11],
            Self::Reply(master) => master.reply_numbers(),
        }
    }

    /// What else a call shows besides its number, and every mark that can come up.
    pub fn marks(self) -> Option<(&'static str, &'static [&'static str])> {
        match self {
            Self::Love => Some(("error code", &["01", "02", "04", "05", "06"])),
            Self::Lucid => Some(("status", &["A0", "B0", "B2", "B4", "B6", "B8", "BA", "C0", "D0"])),
            Self::Receive(receiver) => Some(("way", receiver.ways())),
            Self::Step => Some(("says", &["open", "done", "unknown"])),
            Self::Reply(master) => Some(("meaning", master.meanings())),
            _ => None,
        }
    }
}

#[cfg(test)]
mod tests {
    use super::*;

    #[test]
    fn lines_call_entries() {
        assert_eq!(Entry::of_line(b"restart\n"), Some(Entry::Restart));
        assert_eq!(Entry::of_line(b"love 38 02\n"), Some(Entry::Love));
        let love = Receiver::Love;
        assert_eq!(Entry::of_line(b"receive love 32 02\n"), Some(Entry::Receive(love)));
        assert_eq!(Entry::of_line(b"quiet love\n"), Some(Entry::Quiet(love)));
        assert_eq!(Entry::of_line(b"receive nothing 32\n"), None);
        let lucid = Master::Lucid;
        assert_eq!(Entry::of_line(b"ask lucid 4 getio 0 16\n"), Some(Entry::Ask(lucid)));
        assert_eq!(Entry::of_line(b"reply lucid\n"), Some(Entry::Reply(lucid)));
        assert_eq!(Entry::of_line(b"reply datalink\n"), None);
        assert_eq!(Entry::of_line(b"peek love\n"), None);
    }

    #[test]
    fn names_are_the_beginnings_of_lines() {
        for entry in Entry::ALL {
            assert_eq!(Entry::of_line(entry.name().as_bytes()), Some(entry));
            assert_eq!(Entry::ALL[entry.place()], entry);
        }
    }
}
