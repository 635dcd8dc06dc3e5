//! The command line.

use std::path::PathBuf;

use crate::sections::SECTIONS;

/// How the program is called.
pub const USAGE: &str = "usage: compare [--seed N] [--calls N] [--console PATH] [--reference PATH] [--section NAME]";

/// The seed if none is given.
const SEED: u64 = 1;
/// The calls if no number is given.
const CALLS: usize = 20_000;
/// The console, seen from the repository's root.
const CONSOLE: &str = "crates/console/out/console";
/// The second program, seen from the repository's root.
const REFERENCE: &str = "host/reference/target/release/reference";

/// What the command line asks for.
#[derive(Clone, PartialEq, Eq, Debug)]
pub struct Options {
    /// Decides all scripts.
    pub seed: u64,
    /// Calls in all; peeks, and pokes that set a scene, do not count.
    pub calls: usize,
    /// The program to be compared.
    pub console: PathBuf,
    /// The program it is compared with.
    pub reference: PathBuf,
    /// The only section, if not all.
    pub section: Option<String>,
}

impl Default for Options {
    fn default() -> Self {
        Self {
            seed: SEED,
            calls: CALLS,
            console: CONSOLE.into(),
            reference: REFERENCE.into(),
            section: None,
        }
    }
}

impl Options {
    /// Reads the words after the program's name.
    pub fn read(mut words: impl Iterator<Item = String>) -> Result<Self, String> {
        let mut options = Self::default();
        while let Some(word) = words.next() {
            let value = words.next().ok_or_else(|| format!("{word} needs a value"))?;
            let whole = |value: &str| value.parse().map_err(|_| format!("{word} needs a whole number"));
            match word.as_str() {
                "--seed" => options.seed = whole(&value)?,
                "--calls" => options.calls = whole(&value)? as usize,
                "--console" => options.console = value.into(),
                "--reference" => options.reference = value.into(),
                "--section" => options.section = Some(known_section(value)?),
                _ => return Err(format!("unknown option {word}")),
            }
        }
        Ok(options)
    }
}

/// A section's name, or an error that lists all.
fn known_section(name: String) -> Result<String, String> {
    let names = SECTIONS.map(|section| section.name);
    if names.contains(&name.as_str()) {
        Ok(name)
    } else {
        Err(format!("unknown section {name}; sections: {}", names.join(", ")))
    }
}

#[cfg(test)]
mod tests {
    use super::*;

    fn read(line: &str) -> Result<Options, String> {
        Options::read(line.split_whitespace().map(str::to_owned))
    }

    #[test]
    fn words_become_options() {
        let options = read("--seed 7 --calls 100 --console a/b --section love").unwrap();
        assert_eq!((options.seed, options.calls), (7, 100));
        assert_eq!(options.console, PathBuf::from("a/b"));
        assert_eq!(options.section.as_deref(), Some("love"));
        assert_eq!(read(""), Ok(Options::default()));
    }

    #[test]
    fn wrong_words_are_refused() {
        for line in ["--seed", "--seed x", "--calls -1", "--wild 1", "--section nothing"] {
            assert!(read(line).is_err(), "{line}");
        }
    }
}
