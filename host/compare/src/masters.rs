//! The masters of LECOM, Love and LucidControl (document 02, M-102): what each can say to a reply.

use crate::frames::{lecom::Lecom, love::Love, lucid::Lucid, Dialect};

/// One value.
const VALUE: &str = "value";
/// The values of a group.
const VALUES: &str = "values";
/// What was asked is done.
const DONE: &str = "done";
/// A failed probe.
const FAULT: &str = "fault";
/// A refusal that carries no code and no status.
const REFUSED: &str = "refused";

/// A dialect's master.
#[derive(Clone, Copy, PartialEq, Eq, Debug)]
pub enum Master {
    Lecom,
    Love,
    Lucid,
}

impl Master {
    /// All masters.
    pub const ALL: [Self; 3] = [Self::Lecom, Self::Love, Self::Lucid];

    /// The dialect's word in a line.
    pub fn word(self) -> &'static str {
        match self {
            Self::Lecom => Lecom::CALL,
            Self::Love => Love::CALL,
            Self::Lucid => Lucid::CALL,
        }
    }

    /// The numbers that a reply can get; LucidControl has no check characters.
    pub fn reply_numbers(self) -> &'static [usize] {
        match self {
            Self::Lecom | Self::Love => &[1, 3, 4, 7],
            Self::Lucid => &[1, 3, 7],
        }
    }

    /// Everything that a reply can mean, as [`meaning`] names it.
    pub fn meanings(self) -> &'static [&'static str] {
        match self {
            Self::Lecom => &[VALUE, DONE, REFUSED],
            Self::Love => &[
                VALUE,
                DONE,
                FAULT,
                "refused-1",
                "refused-2",
                "refused-4",
                "refused-5",
                "refused-6",
            ],
            Self::Lucid => &[
                VALUE,
                VALUES,
                DONE,
                FAULT,
                "refused-160",
                "refused-176",
                "refused-178",
                "refused-180",
                "refused-182",
                "refused-184",
                "refused-186",
                "refused-192",
            ],
        }
    }
}

/// What a master said, in one word: values are told from one value, and refusals by their code or status.
pub fn meaning<'a>(mut words: impl Iterator<Item = &'a [u8]>) -> Option<String> {
    let said = String::from_utf8_lossy(words.next()?).into_owned();
    let numbers: Vec<&[u8]> = words.collect();
    Some(match (said.as_str(), &numbers[..]) {
        (VALUE, [_, _, ..]) => VALUES.to_owned(),
        (REFUSED, [code]) => format!("{REFUSED}-{}", String::from_utf8_lossy(code)),
        _ => said,
    })
}

#[cfg(test)]
mod tests {
    use super::*;
    use crate::text::words;

    #[test]
    fn meanings_are_one_word() {
        let of = |answer: &str| meaning(words(answer.as_bytes()));
        assert_eq!(of("value -5\n").as_deref(), Some("value"));
        assert_eq!(of("value 1 2\n").as_deref(), Some("values"));
        assert_eq!(of("refused\n").as_deref(), Some("refused"));
        assert_eq!(of("refused 176\n").as_deref(), Some("refused-176"));
        assert_eq!(of("done\n").as_deref(), Some("done"));
        assert_eq!(of("\n"), None);
    }
}
