//! Shows a finding: the lines that differ and a short script that shows it.

use crate::judge::Finding;
use crate::writer::Line;

/// Longest part of a line that is shown; of longer ones the part around the first difference.
const SHOWN: usize = 400;
/// What is shown before the first difference.
const BEFORE: usize = 100;

/// Tells what is wrong with a script.
pub fn tell(finding: &Finding, script: &[&Line]) -> String {
    let mut text = String::new();
    let at = |line: usize| match script.get(line) {
        Some(call) => cut(call, 0),
        None => "(after the last line)".to_owned(),
    };
    match finding {
        Finding::Difference {
            line,
            console,
            reference,
        } => {
            let from = first_difference(console, reference).saturating_sub(BEFORE);
            text += &format!("line:      {}\n", at(*line));
            text += &format!("console:   {}\n", cut(console, from));
            text += &format!("reference: {}\n", cut(reference, from));
        }
        Finding::Clause { line, console, clause } => {
            text += &format!("clause:    {clause}\n");
            text += &format!("line:      {}\n", at(*line));
            text += &format!("console:   {}\n", cut(console, 0));
        }
    }
    text + &listing(script)
}

/// The script itself, with bytes that cannot be printed as printf writes them.
fn listing(script: &[&Line]) -> String {
    let is_plain = script.iter().all(|line| escaped(line) == readable(line));
    let note = if is_plain {
        ""
    } else {
        ", escaped as printf '%b' reads it"
    };
    let mut text = format!("script of {} lines{note}:\n", script.len());
    for line in script {
        text += &escaped(line);
        text.push('\n');
    }
    text
}

/// A line without its line feed, as text.
fn readable(line: &[u8]) -> String {
    let line = line.strip_suffix(b"\n").unwrap_or(line);
    String::from_utf8_lossy(line).into_owned()
}

/// A line without its line feed, with backslashes and bytes that cannot be printed escaped.
fn escaped(line: &[u8]) -> String {
    let line = line.strip_suffix(b"\n").unwrap_or(line);
    line.iter()
        .map(|&byte| match byte {
            b'\\' => "\\\\".to_owned(),
            b' '..=b'~' => char::from(byte).to_string(),
            _ => format!("\\x{byte:02X}"),
        })
        .collect()
}

/// A part of a line that is not too long, from a place on.
fn cut(line: &[u8], from: usize) -> String {
    let line = line.strip_suffix(b"\n").unwrap_or(line);
    if line.len() <= SHOWN {
        return escaped(line);
    }
    let from = from.min(line.len());
    let end = (from + SHOWN).min(line.len());
    format!("(from byte {from} of {}) {}", line.len(), escaped(&line[from..end]))
}

/// Where two lines part.
fn first_difference(one: &[u8], other: &[u8]) -> usize {
    one.iter().zip(other).take_while(|(a, b)| a == b).count()
}

#[cfg(test)]
mod tests {
    use super::*;

    #[test]
    fn plain_scripts_are_shown_as_they_are() {
        let line = b"probe 0 1\n".to_vec();
        assert_eq!(listing(&[&line]), "script of 1 lines:\nprobe 0 1\n");
    }

    #[test]
    fn other_bytes_are_escaped() {
        let line = b"a\tb\\\xFF\n".to_vec();
        let text = listing(&[&line]);
        assert!(text.contains("printf"));
        assert!(text.ends_with("a\\x09b\\\\\\xFF\n"));
    }

    #[test]
    fn long_lines_are_cut_around_the_difference() {
        let one = vec![b'0'; 5000];
        let mut other = one.clone();
        other[3000] = b'1';
        assert_eq!(first_difference(&one, &other), 3000);
        assert!(cut(&other, 2900).starts_with("(from byte 2900 of 5000) 000"));
    }
}
