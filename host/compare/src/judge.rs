//! Runs both programs on a script and finds the first difference, or the first clause that the console breaks.

use std::path::{Path, PathBuf};

use crate::calls::Listed;
use crate::clauses::Watch;
use crate::division;
use crate::entries::Entry;
use crate::program::{ask, run_both, End, Run};
use crate::rounds;
use crate::stillness::Stillness;
use crate::tally::Tally;
use crate::text::is_silent;
use crate::ways::Ways;
use crate::writer::Line;

/// The line that lists the calls.
const HELP: &str = "help\n";

/// What is wrong with a script's answers.
#[derive(Clone, PartialEq, Eq, Debug)]
pub enum Finding {
    /// The programs differ.
    Difference {
        /// The place of the line that was answered differently; the script's length if it is after the last.
        line: usize,
        /// What each wrote.
        console: Vec<u8>,
        reference: Vec<u8>,
    },
    /// The console's own answers break a clause.
    Clause {
        /// The place of the line whose answer broke it.
        line: usize,
        /// The line's answer.
        console: Vec<u8>,
        /// The clause.
        clause: String,
    },
}

impl Finding {
    /// The place of the line in question.
    pub fn line(&self) -> usize {
        match self {
            Self::Difference { line, .. } | Self::Clause { line, .. } => *line,
        }
    }
}

/// The two programs, and what the scripts need to know of them.
pub struct Judge {
    console: PathBuf,
    reference: PathBuf,
    /// What each answers to `help`, with its line feed.
    console_help: String,
    reference_help: String,
}

impl Judge {
    /// Asks both programs for their calls.
    pub fn new(console: &Path, reference: &Path) -> Result<Self, String> {
        let console = find(console)?;
        let reference = find(reference)?;
        Ok(Self {
            console_help: ask(&console, HELP)?,
            reference_help: ask(&reference, HELP)?,
            console,
            reference,
        })
    }

    /// The calls that the console lists: the reference's, or some of them in the same order; else the difference.
    pub fn listed(&self) -> Result<Listed, String> {
        let own = Listed::read(&self.console_help);
        let other = Listed::read(&self.reference_help);
        match (own, other) {
            (Some(own), Some(other)) if own.is_within(&other) => Ok(own),
            _ => Err(format!(
                "line:      help\nconsole:   {}reference: {}",
                self.console_help, self.reference_help
            )),
        }
    }

    /// Runs a script; gives what is wrong, and else counts the answers.
    pub fn judge(&self, script: &[&Line], is_exchange: bool, tally: &mut Tally) -> Result<Option<Finding>, String> {
        let input: Vec<u8> = script.iter().flat_map(|line| line.iter().copied()).collect();
        let [console, reference] = run_both(&self.console, &self.reference, &input)?;
        if let Some(difference) = self.difference(script, &console, &reference) {
            return Ok(Some(difference));
        }
        let mut stillness = Stillness::default();
        let mut division = division::Watch::default();
        let mut rounds = rounds::Watch::default();
        let mut ways = Ways::default();
        let mut watch = is_exchange.then(Watch::default);
        for (line, answer) in answers(script, &console.output) {
            tally.count(script[line], answer);
            for (receiver, way) in ways.see(script[line], answer) {
                tally.mark(Entry::Receive(receiver), way.to_owned());
            }
            let mut seen = stillness.see(script[line], answer);
            seen = seen.and_then(|()| division.see(script[line], answer));
            seen = seen.and_then(|()| rounds.see(script[line], answer));
            if let Some(watch) = &mut watch {
                seen = seen.and_then(|()| watch.see(script[line], answer));
            }
            if let Err(clause) = seen {
                let console = answer.to_vec();
                return Ok(Some(Finding::Clause { line, console, clause }));
            }
        }
        Ok(None)
    }

    /// The first line that the programs answered differently.
    fn difference(&self, script: &[&Line], console: &Run, reference: &Run) -> Option<Finding> {
        if console.output != reference.output {
            let mut own = console.output.split_inclusive(is_feed);
            let mut other = reference.output.split_inclusive(is_feed);
            let mut lines = (0..script.len()).filter(|&line| !is_silent(script[line]));
            loop {
                let line = lines.next().unwrap_or(script.len());
                let (own, other) = (own.next(), other.next());
                if own.is_none() && other.is_none() {
                    break;
                }
                if own != other.map(|answer| self.expected(answer)) {
                    return Some(Finding::Difference {
                        line,
                        console: shown(own, &console.end),
                        reference: shown(other, &reference.end),
                    });
                }
            }
        }
        (console.end != End::Well || reference.end != End::Well).then(|| Finding::Difference {
            line: script.len(),
            console: shown(None, &console.end),
            reference: shown(None, &reference.end),
        })
    }

    /// What the console must answer where the reference answers this: the list of calls is the console's own.
    fn expected<'a>(&'a self, answer: &'a [u8]) -> &'a [u8] {
        if answer == self.reference_help.as_bytes() {
            self.console_help.as_bytes()
        } else {
            answer
        }
    }
}

/// Each line that has an answer, by its place, with the answer.
fn answers<'a>(script: &'a [&Line], output: &'a [u8]) -> impl Iterator<Item = (usize, &'a [u8])> + 'a {
    (0..script.len())
        .filter(|&line| !is_silent(script[line]))
        .zip(output.split_inclusive(is_feed))
}

/// Whether a byte ends a line.
fn is_feed(byte: &u8) -> bool {
    *byte == b'\n'
}

/// An answer, or how the program ended where it has none.
fn shown(answer: Option<&[u8]>, end: &End) -> Vec<u8> {
    match (answer, end) {
        (Some(answer), _) => answer.to_vec(),
        (None, End::Well) => b"(no line)".to_vec(),
        (None, End::Badly(how)) => format!("(no line; {how})").into_bytes(),
    }
}

/// A program's path, so that it is not looked for elsewhere.
fn find(program: &Path) -> Result<PathBuf, String> {
    program
        .canonicalize()
        .map_err(|error| format!("{}: {error}", program.display()))
}
