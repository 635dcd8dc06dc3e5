//! The words of a console line (docs/CONSOLE.md): how they are told apart and read.

use crate::figures::{decimal_value, hex_byte};

/// Largest ROOM.
pub const ROOM_MOST: usize = 1_024;
/// Most figures of a number.
const FIGURES_MOST: usize = 10;

/// The words do not fit the call's usage.
pub struct Unreadable;

/// The first word, empty at the line's end, and what follows it.
pub fn split_word(line: &[u8]) -> (&[u8], &[u8]) {
    let first = line.iter().position(|&byte| byte != b' ');
    let line = &line[first.unwrap_or(line.len())..];
    let end = line.iter().position(|&byte| byte == b' ');
    line.split_at(end.unwrap_or(line.len()))
}

/// No word is left.
pub fn end(words: &[u8]) -> Result<(), Unreadable> {
    if words.iter().all(|&byte| byte == b' ') {
        Ok(())
    } else {
        Err(Unreadable)
    }
}

/// The words before and after the first word that is a slash.
pub fn split_slash(words: &[u8]) -> Result<(&[u8], &[u8]), Unreadable> {
    let mut left = words;
    loop {
        let (word, rest) = split_word(left);
        match word {
            b"" => return Err(Unreadable),
            b"/" => return Ok((&words[..words.len() - rest.len() - word.len()], rest)),
            _ => left = rest,
        }
    }
}

/// Appends bytes of two hex figures each, to the line's end.
pub fn append_bytes(bytes: &mut Vec<u8>, words: &[u8]) -> Result<(), Unreadable> {
    let mut left = words;
    loop {
        match *left {
            [] => return Ok(()),
            [b' ', ref rest @ ..] => left = rest,
            [high, low, ref rest @ ..] if matches!(rest.first(), None | Some(b' ')) => {
                bytes.push(hex_byte(high, low).ok_or(Unreadable)?);
                left = rest;
            }
            _ => return Err(Unreadable),
        }
    }
}

/// A number of one to ten figures, with no sign.
fn number(word: &[u8]) -> Result<i64, Unreadable> {
    if word.len() > FIGURES_MOST {
        return Err(Unreadable);
    }
    decimal_value(word).ok_or(Unreadable)
}

/// A number that its type can hold.
pub fn unsigned<T: TryFrom<i64>>(word: &[u8]) -> Result<T, Unreadable> {
    T::try_from(number(word)?).map_err(|_| Unreadable)
}

/// A number that may have a minus.
pub fn signed(word: &[u8]) -> Result<i32, Unreadable> {
    let value = match word.split_first() {
        Some((b'-', figures)) => -number(figures)?,
        _ => number(word)?,
    };
    i32::try_from(value).map_err(|_| Unreadable)
}

/// The first word as [`unsigned`] reads it, and the words after it.
pub fn split_unsigned<T: TryFrom<i64>>(words: &[u8]) -> Result<(T, &[u8]), Unreadable> {
    let (word, words) = split_word(words);
    Ok((unsigned(word)?, words))
}

/// The words to the line's end, each as [`unsigned`] reads it.
pub fn all_unsigned<T: TryFrom<i64>>(words: &[u8]) -> Result<Vec<T>, Unreadable> {
    let mut numbers = Vec::new();
    let mut left = words;
    while end(left).is_err() {
        let (number, words) = split_unsigned(left)?;
        numbers.push(number);
        left = words;
    }
    Ok(numbers)
}

/// ROOM, and the words after it.
pub fn room(words: &[u8]) -> Result<(usize, &[u8]), Unreadable> {
    let (room, words) = split_word(words);
    let room = usize::from(unsigned::<u16>(room)?);
    if room > ROOM_MOST {
        return Err(Unreadable);
    }
    Ok((room, words))
}
