//! Writes a script: calls, and after each call the peeks that show what it changed.

use std::ops::Range;

use crate::calls::{Listed, CALLS};
use crate::card::{self, Place, MEMORY, PART, PART_TABLES, SMALL_TABLES};
use crate::model::Model;
use crate::rng::Rng;
use crate::text::{hex_words, words};

/// A line of a script, with its line feed unless it is a last line without one.
pub type Line = Vec<u8>;

/// The room for an answer that every dialect takes.
pub const ANSWER_ROOM: usize = 38;
/// The largest room of a call.
pub const ROOM_MOST: usize = 1024;
/// Where the pending change has its kind.
const PENDING_KIND: usize = 0;
/// Where it has its address.
const PENDING_ADDRESS: usize = 1;
/// Where it has its NUM.
const PENDING_NUM: usize = 2;
/// Where it has its data.
const PENDING_DATA: Range<usize> = 3..35;
/// Rooms around each limit.
pub const TELLING_ROOMS: [usize; 10] = [0, 1, 37, 38, 39, 292, 293, 294, 1023, ROOM_MOST];

/// The card's addresses as the script last set them.
#[derive(Clone, Copy, PartialEq, Eq, Debug)]
pub struct Addresses {
    /// Datalink I.A.
    pub ia: u8,
    /// LECOM address.
    pub lecom: u8,
    /// Love address.
    pub love: u16,
}

impl Addresses {
    /// The addresses with which the console starts.
    pub const START: Self = Self {
        ia: 3,
        lecom: 11,
        love: 0x32,
    };
}

/// When the Datalink memory is peeked.
#[derive(Clone, Copy, PartialEq, Eq, Debug)]
pub enum MemoryPeeks {
    /// After calls that may touch it.
    WhereTouched,
    /// After every call.
    Always,
}

/// A script in the making.
pub struct Writer<'a> {
    /// The script's random numbers.
    pub rng: Rng,
    /// How many scenes the section has written before this one: what sweeps go by.
    pub turn: usize,
    /// The card's addresses, if they are fit.
    pub addresses: Addresses,
    listed: &'a Listed,
    model: Option<Model>,
    memory_peeks: MemoryPeeks,
    lines: Vec<Line>,
    calls: usize,
}

impl<'a> Writer<'a> {
    /// An empty script of the listed calls.
    pub fn new(listed: &'a Listed, rng: Rng) -> Self {
        Self {
            rng,
            turn: 0,
            addresses: Addresses::START,
            listed,
            model: None,
            memory_peeks: MemoryPeeks::WhereTouched,
            lines: Vec::new(),
            calls: 0,
        }
    }

    /// Follows the script in the reference library, so that calls give their answers.
    pub fn follow(&mut self) {
        self.model = Some(Model::new());
    }

    /// Peeks the Datalink memory after every call.
    pub fn peek_memory_always(&mut self) {
        self.memory_peeks = MemoryPeeks::Always;
    }

    /// How many calls were written; peeks, and pokes that set a scene, do not count.
    pub fn calls(&self) -> usize {
        self.calls
    }

    /// Writes any line without a line feed in it, readable or not, without peeks; it does not count.
    pub fn bare(&mut self, line: &[u8]) {
        self.quiet(line);
    }

    /// The script's lines; the last one has no line feed half of the time.
    pub fn finish(mut self) -> Vec<Line> {
        if self.rng.chance(50) {
            if let Some(last) = self.lines.last_mut() {
                last.pop();
            }
        }
        self.lines
    }

    /// Writes a call and its peeks; gives the answer if the script is followed. Calls that are not listed are left
    /// out.
    pub fn call(&mut self, line: &str) -> Option<String> {
        self.raw(line.as_bytes())
    }

    /// Writes any line without a line feed in it, readable or not, and peeks after it.
    pub fn raw(&mut self, line: &[u8]) -> Option<String> {
        let answer = self.quiet(line)?;
        self.calls += 1;
        self.peek(touches_memory(line));
        answer
    }

    /// Writes a call that only looks at what it is given, and so needs no peeks; else like [`Self::call`].
    pub fn look(&mut self, line: &str) -> Option<String> {
        let answer = self.quiet(line.as_bytes())?;
        self.calls += 1;
        answer
    }

    /// Writes a line without peeks, unless its call is not listed.
    fn quiet(&mut self, line: &[u8]) -> Option<Option<String>> {
        let mut words = words(line);
        let name = words.next().unwrap_or_default();
        let is_left_out = CALLS
            .iter()
            .any(|call| call.as_bytes() == name && !self.listed.has(call));
        let is_part = matches!(name, b"poke" | b"peek") && words.next() == Some(PART.as_bytes());
        if is_left_out || is_part && !self.has_receivers() {
            return None;
        }
        let mut ended = line.to_vec();
        ended.push(b'\n');
        self.lines.push(ended);
        Some(self.model.as_mut().map(|model| model.line(line)))
    }

    /// Whether the console has receivers, and with them part frames.
    pub fn has_receivers(&self) -> bool {
        self.listed.has("receive")
    }

    /// Shows every small table and part frame, and the memory where that is asked.
    pub fn peek(&mut self, with_memory: bool) {
        if !self.listed.has("peek") {
            return;
        }
        self.lines.extend(SMALL_TABLES.map(peek_line));
        if self.has_receivers() {
            self.lines.extend(PART_TABLES.map(peek_line));
        }
        if with_memory || self.memory_peeks == MemoryPeeks::Always {
            self.lines.push(peek_line(MEMORY));
        }
    }

    /// Stores an entry, then peeks.
    pub fn poke(&mut self, place: Place, value: i64) {
        if !self.set(place.table, place.place, value) {
            return;
        }
        self.calls += 1;
        self.peek(matches!(place.table, "memory" | "probe"));
    }

    /// Stores an entry without a look at the tables, to set a scene; tells whether pokes are listed.
    pub fn set(&mut self, table: &str, place: usize, value: i64) -> bool {
        self.quiet(format!("poke {table} {place} {value}").as_bytes()).is_some()
    }

    /// Stores a pending change of any kind; each of its entries is set, since no paper says what the entries hold
    /// that are not shown while nothing is pending.
    pub fn set_pending(&mut self, kind: u8, address: u16, num: u8) {
        self.set("pending", PENDING_KIND, 0);
        self.set("pending", PENDING_ADDRESS, i64::from(address));
        self.set("pending", PENDING_NUM, i64::from(num));
        for place in PENDING_DATA {
            let value = i64::from(self.rng.byte());
            self.set("pending", place, value);
        }
        self.set("pending", PENDING_KIND, i64::from(kind));
    }

    /// Makes an entry fit again.
    pub fn repair(&mut self, place: Place) {
        if place.table == "address" {
            self.set_addresses();
        } else {
            let value = place.fit_value(&mut self.rng);
            self.poke(place, value);
        }
    }

    /// Gives the card other addresses.
    pub fn move_card(&mut self) {
        self.addresses = Addresses {
            ia: self.rng.between(0, card::IA_MOST) as u8,
            lecom: card::lecom_address(&mut self.rng) as u8,
            love: card::love_address(&mut self.rng) as u16,
        };
        self.set_addresses();
    }

    /// Pokes the addresses as the script believes them to be.
    pub fn set_addresses(&mut self) {
        let Addresses { ia, lecom, love } = self.addresses;
        self.set("address", 0, i64::from(ia));
        self.set("address", 1, i64::from(lecom));
        self.set("address", 2, i64::from(love));
    }

    /// Sets the code of every probe, by the entry or by a poke.
    pub fn set_probes(&mut self) {
        for channel in 0..card::CHANNELS {
            let code = card::probe_code(&mut self.rng);
            if self.rng.chance(50) {
                self.quiet(format!("probe {channel} {code}").as_bytes());
            } else {
                self.set("probe", channel, i64::from(code));
            }
        }
    }

    /// Sets a probe code by the entry, seldom of a channel that there is not.
    pub fn set_code(&mut self) {
        let channel = self.rng.below(card::CHANNELS + 1);
        let code = card::probe_code(&mut self.rng);
        self.call(&format!("probe {channel} {code}"));
    }

    /// Sends a frame to a dialect's entry.
    pub fn frame(&mut self, dialect: &str, room: usize, bytes: &[u8]) -> Option<String> {
        self.call(&format!("{dialect} {room}{}", hex_words(bytes)))
    }

    /// Reads an image.
    pub fn load(&mut self, image: &[u8]) -> Option<String> {
        self.call(&format!("load{}", hex_words(image)))
    }

    /// A room for a dialect's answer, seldom too short.
    pub fn room(&mut self) -> usize {
        match self.rng.below(20) {
            0 => self.rng.pick(&TELLING_ROOMS),
            1 => self.rng.below(ROOM_MOST + 1),
            _ => ANSWER_ROOM,
        }
    }
}

/// The line that shows a table.
fn peek_line(table: &str) -> Line {
    format!("peek {table}\n").into_bytes()
}

/// Whether a line's call may change Datalink bytes.
fn touches_memory(line: &[u8]) -> bool {
    let name = words(line).next().unwrap_or_default();
    matches!(name, b"probe" | b"restart" | b"datalink")
}
