//! What must change nothing: numbers 2 to 14 and 16, unreadable lines, and calls that only look (document 01, "Numbers
//! returned"; docs/CONSOLE.md, "Lines"); and that a receiver changes its part frame alone (document 02, M-100). Checked on a
//! program's own peeks.

use std::collections::HashMap;

use crate::text::{number, words};

/// The lowest number of a refusal.
const FIRST_REFUSAL: i64 = 2;

/// The tables as they were last shown, as long as nothing may have changed them.
#[derive(Default)]
pub struct Stillness {
    shown: HashMap<Vec<u8>, Vec<u8>>,
}

impl Stillness {
    /// Takes in a line and its answer; complains of a table that changed though nothing may have changed it.
    pub fn see(&mut self, line: &[u8], answer: &[u8]) -> Result<(), String> {
        let first = words(answer).next().unwrap_or_default();
        if first == b"error" {
            return Ok(());
        }
        let mut called = words(line);
        match called.next() {
            Some(b"peek") => return self.see_table(line, answer),
            None | Some(b"governor" | b"save" | b"request" | b"step" | b"ask" | b"reply" | b"help") => {}
            Some(_) if number(first).is_some_and(|number| number >= FIRST_REFUSAL) => {}
            Some(b"receive" | b"quiet") => {
                let part = [b"peek", &b"part"[..], called.next().unwrap_or_default()];
                self.shown.retain(|shown, _| !words(shown).eq(part));
            }
            Some(_) => self.shown.clear(),
        }
        Ok(())
    }

    /// A table is shown.
    fn see_table(&mut self, line: &[u8], answer: &[u8]) -> Result<(), String> {
        match self.shown.get(line) {
            None => {
                self.shown.insert(line.to_vec(), answer.to_vec());
                Ok(())
            }
            Some(before) if before == answer => Ok(()),
            Some(_) => Err("a table changed, though every call since it was shown changes nothing".to_owned()),
        }
    }
}

#[cfg(test)]
mod tests {
    use super::*;

    /// Whether a call with this answer may lie between two different tables.
    fn may_change(line: &[u8], answer: &[u8]) -> bool {
        let mut stillness = Stillness::default();
        stillness.see(b"peek probe\n", b"255 255 255 255\n").unwrap();
        stillness.see(line, answer).unwrap();
        stillness.see(b"peek probe\n", b"1 255 255 255\n").is_ok()
    }

    #[test]
    fn only_calls_that_are_done_change_tables() {
        assert!(may_change(b"probe 0 1\n", b"1\n"));
        assert!(may_change(b"datalink 38 7E\n", b"0 7E\n"));
        assert!(may_change(b"poke probe 0 1\n", b"ok\n"));
        assert!(!may_change(b"probe 0 1\n", b"12\n"));
        assert!(!may_change(b"love 38 02\n", b"3 02\n"));
        assert!(!may_change(b"probe 0\n", b"error expected probe CHANNEL CODE\n"));
        assert!(!may_change(b"step 38\n", b"0 open 7E\n"));
        assert!(!may_change(b"save 293\n", b"0 00\n"));
        assert!(!may_change(b"ask lucid 4 getio 0 16\n", b"0 46 00 10 00\n"));
        assert!(!may_change(b"reply lucid 00 00\n", b"1 done\n"));
        assert!(!may_change(b"receive love 32 02\n", b"1 1\n"));
        assert!(!may_change(b"quiet love\n", b"1\n"));
    }

    #[test]
    fn receivers_change_their_own_part_frame_alone() {
        let see = |call: &[u8], answer: &[u8], table: &[u8]| {
            let mut stillness = Stillness::default();
            stillness.see(table, b"2\n").unwrap();
            stillness.see(call, answer).unwrap();
            stillness.see(table, b"\n").is_ok()
        };
        for call in [&b"receive love 32 03\n"[..], b"quiet love\n"] {
            assert!(see(call, b"1\n", b"peek part love\n"));
            assert!(!see(call, b"1\n", b"peek part lecom\n"));
            assert!(!see(call, b"12\n", b"peek part love\n"));
            assert!(!see(call, b"16\n", b"peek part love\n"));
        }
        assert!(see(b"restart\n", b"1\n", b"peek part love\n"));
    }
}
