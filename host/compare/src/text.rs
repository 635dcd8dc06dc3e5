//! Words, bytes and numbers as the console's lines hold them (docs/CONSOLE.md, "Lines").

use std::fmt::Write;

/// Longest line that can be read, without its line feed.
pub const LINE_MOST: usize = 32_768;

/// Bytes as upper-case figures, each byte after one space.
pub fn hex_words(bytes: &[u8]) -> String {
    let mut words = String::with_capacity(3 * bytes.len());
    for byte in bytes {
        write!(words, " {byte:02X}").expect("a string takes every character");
    }
    words
}

/// The bytes of words of two figures each, or none if one is not such a word.
pub fn bytes_of<'a>(words: impl Iterator<Item = &'a [u8]>) -> Option<Vec<u8>> {
    words
        .map(|word| {
            let figures = std::str::from_utf8(word).ok()?;
            u8::from_str_radix(figures, 16).ok()
        })
        .collect()
}

/// The words of a line: what lies between spaces and its line feed.
pub fn words(line: &[u8]) -> impl Iterator<Item = &[u8]> {
    line.split(|&byte| byte == b' ' || byte == b'\n')
        .filter(|word| !word.is_empty())
}

/// A word as a number.
pub fn number(word: &[u8]) -> Option<i64> {
    std::str::from_utf8(word).ok()?.parse().ok()
}

/// Whether a line gets no answer: a comment or spaces alone, but not if it is too long to be read.
pub fn is_silent(line: &[u8]) -> bool {
    let line = line.strip_suffix(b"\n").unwrap_or(line);
    let is_comment = line.first() == Some(&b'#');
    let is_blank = line.iter().all(|&byte| byte == b' ');
    line.len() <= LINE_MOST && (is_comment || is_blank)
}

#[cfg(test)]
mod tests {
    use super::*;

    #[test]
    fn bytes_become_words_and_come_back() {
        let text = hex_words(&[0x7E, 0x0A, 0xFF]);
        assert_eq!(text, " 7E 0A FF");
        assert_eq!(bytes_of(words(text.as_bytes())), Some(vec![0x7E, 0x0A, 0xFF]));
        assert_eq!(bytes_of(words(b"7E 0x")), None);
    }

    #[test]
    fn only_comments_and_blank_lines_are_silent() {
        assert!(is_silent(b"\n"));
        assert!(is_silent(b"   \n"));
        assert!(is_silent(b"# probe 0 1\n"));
        assert!(is_silent(b"#"));
        assert!(!is_silent(b" # probe 0 1\n"));
        assert!(!is_silent(b"\t\n"));
        assert!(!is_silent(&[b'#'; LINE_MOST + 1]));
    }
}
