//! The sections: each writes scripts about one part of the card, scene by scene.

mod characters;
mod datalink;
mod dialect;
mod exchanges;
mod image;
mod lecom;
mod lengths;
mod love;
mod lucid;
mod masters;
mod receivers;
mod resets;
mod tables;
mod unreadable;

use crate::calls::Listed;
use crate::entries::Entry;
use crate::masters::Master;
use crate::receivers::Receiver;
use crate::rng::Rng;
use crate::writer::{Line, Writer};

/// Calls of one script at most; a script is one run of both programs.
pub const SCRIPT_CALLS: usize = 2000;

/// How many calls a section makes.
#[derive(Clone, Copy)]
pub enum Share {
    /// A part of all calls, beside the other sections' parts.
    Part(usize),
    /// So many, whatever is asked for: every case once.
    Whole(usize),
}

/// One part of what is compared.
pub struct Section {
    /// Its name for `--section`.
    pub name: &'static str,
    /// How many calls it makes.
    share: Share,
    /// Calls without which it has nothing to say.
    needs: &'static [&'static str],
    /// Entries whose every number comes up in it.
    pub entries: &'static [Entry],
    /// Whether its scripts depend on what was answered.
    is_followed: bool,
    /// Whether the clauses of whole exchanges are checked on its scripts, for which the memory is peeked after each call.
    pub is_exchange: bool,
    /// Writes the next scene.
    scene: fn(&mut Writer),
    /// Writes what stands at a script's end, after the last peeks.
    close: fn(&mut Writer),
}

impl Section {
    /// Its part of all calls.
    pub fn part(&self) -> usize {
        match self.share {
            Share::Part(part) => part,
            Share::Whole(_) => 0,
        }
    }

    /// Its calls, of all the calls of sections with so many parts.
    pub fn calls(&self, all: usize, parts: usize) -> usize {
        match self.share {
            Share::Part(part) => all.saturating_mul(part).div_ceil(parts),
            Share::Whole(cases) => cases,
        }
    }

    /// Whether the listed calls suffice: all that it needs, and one of its entries.
    pub fn is_possible(&self, listed: &Listed) -> bool {
        let mut entries = self.entries.iter();
        self.needs.iter().all(|call| listed.has(call))
            && (self.entries.is_empty() || entries.any(|entry| listed.has(entry.call())))
    }
}

/// The entries of all receivers.
const RECEIVER_ENTRIES: [Entry; 8] = [
    Entry::Receive(Receiver::Datalink),
    Entry::Receive(Receiver::Lecom),
    Entry::Receive(Receiver::Love),
    Entry::Receive(Receiver::Lucid),
    Entry::Quiet(Receiver::Datalink),
    Entry::Quiet(Receiver::Lecom),
    Entry::Quiet(Receiver::Love),
    Entry::Quiet(Receiver::Lucid),
];

/// The entries of all masters but Datalink's.
const MASTER_ENTRIES: [Entry; 6] = [
    Entry::Ask(Master::Lecom),
    Entry::Ask(Master::Love),
    Entry::Ask(Master::Lucid),
    Entry::Reply(Master::Lecom),
    Entry::Reply(Master::Love),
    Entry::Reply(Master::Lucid),
];

/// All sections, in the order of their turns.
pub const SECTIONS: [Section; 13] = [
    Section {
        name: "tables",
        share: Share::Part(3),
        needs: &[],
        entries: &[Entry::Probe, Entry::Restart, Entry::Governor],
        is_followed: false,
        is_exchange: false,
        scene: tables::scene,
        close: |_| {},
    },
    Section {
        name: "unreadable",
        share: Share::Part(2),
        needs: &[],
        entries: &[],
        is_followed: false,
        is_exchange: false,
        scene: unreadable::scene,
        close: unreadable::close,
    },
    Section {
        name: "datalink",
        share: Share::Part(2),
        needs: &["datalink"],
        entries: &[Entry::Datalink],
        is_followed: false,
        is_exchange: false,
        scene: datalink::scene,
        close: |_| {},
    },
    Section {
        name: "lecom",
        share: Share::Part(2),
        needs: &["lecom"],
        entries: &[Entry::Lecom],
        is_followed: false,
        is_exchange: false,
        scene: lecom::scene,
        close: |_| {},
    },
    Section {
        name: "love",
        share: Share::Part(2),
        needs: &["love"],
        entries: &[Entry::Love],
        is_followed: false,
        is_exchange: false,
        scene: love::scene,
        close: |_| {},
    },
    Section {
        name: "lucid",
        share: Share::Part(2),
        needs: &["lucid"],
        entries: &[Entry::Lucid],
        is_followed: false,
        is_exchange: false,
        scene: lucid::scene,
        close: |_| {},
    },
    Section {
        name: "lengths",
        share: Share::Whole(lengths::CASES),
        needs: &["lucid"],
        entries: &[],
        is_followed: false,
        is_exchange: false,
        scene: lengths::scene,
        close: |_| {},
    },
    Section {
        name: "resets",
        share: Share::Whole(resets::CASES),
        needs: &["lucid", "poke", "peek"],
        entries: &[],
        is_followed: false,
        is_exchange: false,
        scene: resets::scene,
        close: |_| {},
    },
    Section {
        name: "characters",
        share: Share::Whole(characters::CASES),
        needs: &["lecom", "love", "datalink", "probe", "poke"],
        entries: &[],
        is_followed: false,
        is_exchange: false,
        scene: characters::scene,
        close: |_| {},
    },
    Section {
        name: "receivers",
        share: Share::Part(4),
        needs: &["receive", "quiet", "restart", "poke", "peek"],
        entries: &RECEIVER_ENTRIES,
        is_followed: true,
        is_exchange: false,
        scene: receivers::scene,
        close: |_| {},
    },
    Section {
        name: "masters",
        share: Share::Whole(masters::CASES),
        needs: &["ask", "reply", "lecom", "love", "lucid", "poke", "peek"],
        entries: &MASTER_ENTRIES,
        is_followed: true,
        is_exchange: false,
        scene: masters::scene,
        close: |_| {},
    },
    Section {
        name: "image",
        share: Share::Part(2),
        needs: &[],
        entries: &[Entry::Save, Entry::Load],
        is_followed: false,
        is_exchange: false,
        scene: image::scene,
        close: |_| {},
    },
    Section {
        name: "exchanges",
        share: Share::Part(4),
        needs: &["datalink", "request", "step", "poke", "peek"],
        entries: &[Entry::Step],
        is_followed: true,
        is_exchange: true,
        scene: exchanges::scene,
        close: |_| {},
    },
];

/// Writes a section's scripts one after another.
pub struct Scribe<'a> {
    /// The section.
    pub section: &'a Section,
    listed: &'a Listed,
    seed: u64,
    scripts: u64,
    scenes: usize,
    /// Calls still to be written.
    left: usize,
}

impl<'a> Scribe<'a> {
    /// A section's scripts of `calls` calls in all.
    pub fn new(section: &'a Section, listed: &'a Listed, seed: u64, calls: usize) -> Self {
        Self {
            section,
            listed,
            seed,
            scripts: 0,
            scenes: 0,
            left: calls,
        }
    }

    /// The next script, or none if all calls were written.
    pub fn script(&mut self) -> Option<Vec<Line>> {
        if self.left == 0 {
            return None;
        }
        let rng = Rng::of_script(self.seed, self.section.name, self.scripts);
        let mut writer = Writer::new(self.listed, rng);
        if self.section.is_followed {
            writer.follow();
        }
        if self.section.is_exchange {
            writer.peek_memory_always();
        }
        let most = self.left.min(SCRIPT_CALLS);
        while writer.calls() < most {
            writer.turn = self.scenes;
            (self.section.scene)(&mut writer);
            self.scenes += 1;
        }
        writer.peek(true);
        (self.section.close)(&mut writer);
        self.scripts += 1;
        self.left = self.left.saturating_sub(writer.calls());
        Some(writer.finish())
    }
}

#[cfg(test)]
mod tests {
    use super::*;
    use crate::calls::CALLS;
    use crate::model::Model;
    use crate::text::words;

    /// Calls of a tried script: enough for every scene of a section.
    const TRIED_CALLS: usize = 300;

    fn all_calls() -> Listed {
        Listed::read(&format!("calls: {}\n", CALLS.join("; "))).unwrap()
    }

    fn script(section: &Section, listed: &Listed, seed: u64) -> Vec<Line> {
        Scribe::new(section, listed, seed, TRIED_CALLS).script().unwrap()
    }

    #[test]
    fn a_seed_decides_the_scripts() {
        let listed = all_calls();
        for section in &SECTIONS {
            assert_eq!(
                script(section, &listed, 5),
                script(section, &listed, 5),
                "{}",
                section.name
            );
            assert_ne!(
                script(section, &listed, 5),
                script(section, &listed, 6),
                "{}",
                section.name
            );
        }
    }

    #[test]
    fn scripts_are_readable_but_for_one_section() {
        let listed = all_calls();
        for section in &SECTIONS {
            let mut model = Model::new();
            let lines = script(section, &listed, 1);
            let unreadable = lines
                .iter()
                .filter(|line| model.line(line.trim_ascii_end()).starts_with("error"))
                .count();
            assert_eq!(unreadable > 0, section.name == "unreadable", "{}", section.name);
        }
    }

    #[test]
    fn calls_that_are_not_listed_are_left_out() {
        let listed = Listed::read("calls: restart; love ROOM BYTES; help\n").unwrap();
        let possible = SECTIONS.iter().filter(|section| section.is_possible(&listed));
        let names: Vec<&str> = possible.clone().map(|section| section.name).collect();
        assert_eq!(names, ["tables", "unreadable", "love"]);
        for section in possible {
            for line in script(section, &listed, 1) {
                let name = words(&line).next().unwrap_or_default();
                let call = CALLS.iter().find(|call| call.as_bytes() == name);
                assert!(call.is_none_or(|call| listed.has(call)), "{call:?}");
            }
        }
    }

    #[test]
    fn followed_exchanges_end_in_both_ways() {
        let listed = all_calls();
        let section = SECTIONS.iter().find(|section| section.is_exchange).unwrap();
        let mut model = Model::new();
        let answers: Vec<String> = script(section, &listed, 1)
            .iter()
            .map(|line| model.line(line.trim_ascii_end()))
            .collect();
        assert!(answers.iter().any(|answer| answer == "1 done"));
        assert!(answers.iter().any(|answer| answer == "1 unknown"));
    }
}
