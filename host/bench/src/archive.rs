//! The firmware library as C sees it (include/nakshvilor.h), and the tables that are lent to it.

use reference::card::{by_channel, Card, Part, Pending, PENDING_NONE};

/// Elements of the words, of the port's row, and of the pending change at its front.
const WORDS: usize = 315;
const PORTS: usize = 398;
const PENDING: usize = 36;
/// Bytes of the pending change before its data: kind, NUM, low address, high address.
const PENDING_HEAD: usize = 4;

/// The tables of a card.
pub struct Tables {
    pub words: Vec<u32>,
    pub memory: Vec<u8>,
    pub ports: Vec<u8>,
}

/// A pending change as it stands in the row.
fn pending_bytes(pending: &Pending) -> Vec<u8> {
    let [low, high] = pending.address.to_le_bytes();
    [&[pending.kind, pending.num, low, high][..], &pending.data].concat()
}

/// A part frame as it stands in the row: how many bytes it has, then room for all.
fn part_bytes<const LONGEST: usize>(part: &Part<LONGEST>) -> Vec<u8> {
    [&part.count.to_le_bytes()[..], &part.bytes].concat()
}

impl Tables {
    /// A card in the library's layout.
    pub fn of(card: &Card) -> Self {
        let mut words = vec![card.addresses.datalink, card.addresses.lecom, card.addresses.love];
        words.extend(card.love.map(|value| value as u32));
        words.extend(card.demand);
        words.extend(by_channel(&card.parameter));
        words.extend(by_channel(&card.kept));
        for copy in [&card.buffer, &card.operational, &card.saved] {
            words.extend(copy.map(|value| value as u32));
        }
        let ports = [
            pending_bytes(&card.ports.pending),
            part_bytes(&card.ports.datalink),
            part_bytes(&card.ports.lecom),
            part_bytes(&card.ports.love),
            part_bytes(&card.ports.lucid),
        ]
        .concat();
        assert_eq!((words.len(), ports.len()), (WORDS, PORTS));
        Self {
            words,
            memory: card.memory.to_vec(),
            ports,
        }
    }

    /// Whether these are the card's tables; bytes of a pending change that mean nothing are not looked at.
    pub fn are_of(&self, card: &Card) -> bool {
        let other = Self::of(card);
        let meant = match card.ports.pending.kind {
            PENDING_NONE => 1,
            _ => PENDING_HEAD + usize::from(card.ports.pending.num),
        };
        let same_row = |from, to| self.ports[from..to] == other.ports[from..to];
        self.words == other.words && self.memory == other.memory && same_row(0, meant) && same_row(PENDING, PORTS)
    }
}

/// Declares entries: each takes the three tables, pointer and count, before its own arguments.
macro_rules! entries {
    ($($name:ident($($argument:ident: $type:ty),*);)*) => {
        extern "C" {
            $(pub fn $name(
                words: *mut u32,
                words_count: usize,
                memory: *mut u8,
                memory_count: usize,
                ports: *mut u8,
                ports_count: usize,
                $($argument: $type),*
            ) -> u8;)*
        }
    };
}

entries! {
    nk_set_code(channel: u32, code: u8);
    nk_restart();
    nk_governor(channel: u32, degrees: *mut f32);
    nk_datalink(frame: *const u8, frame_count: usize, answer: *mut u8, answer_count: usize, len: *mut usize);
    nk_lecom(frame: *const u8, frame_count: usize, answer: *mut u8, answer_count: usize, len: *mut usize);
    nk_love(frame: *const u8, frame_count: usize, answer: *mut u8, answer_count: usize, len: *mut usize);
    nk_lucid(frame: *const u8, frame_count: usize, answer: *mut u8, answer_count: usize, len: *mut usize);
    nk_receive_datalink(bytes: *const u8, bytes_count: usize, frame: *mut u8, frame_count: usize, taken: *mut usize, len: *mut usize);
    nk_receive_lecom(bytes: *const u8, bytes_count: usize, frame: *mut u8, frame_count: usize, taken: *mut usize, len: *mut usize);
    nk_receive_love(bytes: *const u8, bytes_count: usize, frame: *mut u8, frame_count: usize, taken: *mut usize, len: *mut usize);
    nk_receive_lucid(bytes: *const u8, bytes_count: usize, frame: *mut u8, frame_count: usize, taken: *mut usize, len: *mut usize);
    nk_quiet_datalink();
    nk_quiet_lecom();
    nk_quiet_love();
    nk_quiet_lucid();
    nk_write_image(image: *mut u8, image_count: usize, len: *mut usize);
    nk_read_image(image: *const u8, image_count: usize);
}

extern "C" {
    pub fn nk_step(
        phase: *mut u8,
        kind: u8,
        ia: u32,
        address: u32,
        sent: *const u8,
        sent_count: usize,
        states: *const u8,
        states_count: usize,
        answer: *const u8,
        answer_count: usize,
        frame: *mut u8,
        frame_count: usize,
        len: *mut usize,
    ) -> u8;
}

/// What a master hears in a reply.
#[repr(C)]
#[derive(Clone, Copy)]
pub struct Heard {
    pub number: u8,
    /// [`HEARD_NOTHING`] to [`HEARD_REFUSED`].
    pub said: u8,
    pub count: usize,
    pub values: [i32; 4],
}

/// Declares the entries of the masters without phases: `ask` and `hear` take the same request before their own arguments.
macro_rules! masters {
    ($($ask:ident, $hear:ident($($argument:ident: $type:ty),*);)*) => {
        extern "C" {
            $(pub fn $ask($($argument: $type,)* frame: *mut u8, frame_count: usize, len: *mut usize) -> u8;
            pub fn $hear($($argument: $type,)* reply: *const u8, reply_count: usize) -> Heard;)*
        }
    };
}

masters! {
    nk_ask_lecom, nk_hear_lecom(address: u32, task: u8, code: u32, value: i32);
    nk_ask_love, nk_hear_love(address: u32, task: u8, place: u32, value: i32);
    nk_ask_lucid, nk_hear_lucid(command: u8, p1: u32, p2: u32, address: u32, values: *const u32, values_count: usize);
}

/// The master's phases that say something, and the one it begins with.
pub const NEW: u8 = 0;
pub const ENDED_DONE: u8 = 4;
pub const ENDED_UNKNOWN: u8 = 5;
/// Kinds of a request.
pub const BYTES: u8 = 0;
pub const BITS: u8 = 1;
/// Tasks in LECOM and Love.
pub const READ: u8 = 0;
pub const WRITE: u8 = 1;
pub const STATUS: u8 = 2;
/// Commands in LucidControl.
pub const GET_IO: u8 = 0;
pub const GET_IO_GROUP: u8 = 1;
pub const SET_IO: u8 = 2;
pub const SET_IO_GROUP: u8 = 3;
pub const GET_PARAM: u8 = 4;
pub const SET_PARAM: u8 = 5;
pub const RESET: u8 = 6;
/// What a reply says.
pub const HEARD_NOTHING: u8 = 0;
pub const HEARD_VALUE: u8 = 1;
pub const HEARD_DONE: u8 = 2;
pub const HEARD_FAULT: u8 = 3;
pub const HEARD_REFUSED: u8 = 4;
