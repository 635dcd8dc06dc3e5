//! One call of an entry, made on either side.

use reference::card::{governor, restart, set_probe, Card, Governor};
use reference::master::{step, Master, Order, Request as MasterRequest, Says};
use reference::masters::{lecom, love, lucid, Heard};
use reference::numbers::{Number, Reply};
use reference::receivers::{self, Received};

use crate::archive::{self, Tables};
use crate::questions::Questions;

/// Room for every answer and for an image.
const ROOM: usize = 320;

/// The entries, each with its function in the library.
macro_rules! entries {
    ($($entry:ident: $function:ident,)*) => {
        #[derive(Clone, Copy, PartialEq, Eq, Hash)]
        pub enum Entry {
            $($entry),*
        }

        impl Entry {
            pub const ALL: &[Self] = &[$(Self::$entry),*];

            /// The function's name.
            pub fn symbol(self) -> &'static str {
                match self {
                    $(Self::$entry => stringify!($function)),*
                }
            }

            /// Where its code is.
            pub fn address(self) -> usize {
                match self {
                    $(Self::$entry => archive::$function as *const () as usize),*
                }
            }
        }
    };
}

entries! {
    SetCode: nk_set_code,
    Restart: nk_restart,
    Governor: nk_governor,
    Datalink: nk_datalink,
    Lecom: nk_lecom,
    Love: nk_love,
    Lucid: nk_lucid,
    ReceiveDatalink: nk_receive_datalink,
    ReceiveLecom: nk_receive_lecom,
    ReceiveLove: nk_receive_love,
    ReceiveLucid: nk_receive_lucid,
    QuietDatalink: nk_quiet_datalink,
    QuietLecom: nk_quiet_lecom,
    QuietLove: nk_quiet_love,
    QuietLucid: nk_quiet_lucid,
    WriteImage: nk_write_image,
    ReadImage: nk_read_image,
    Step: nk_step,
    AskLecom: nk_ask_lecom,
    HearLecom: nk_hear_lecom,
    AskLove: nk_ask_love,
    HearLove: nk_hear_love,
    AskLucid: nk_ask_lucid,
    HearLucid: nk_hear_lucid,
}

/// A call: an entry and its arguments, as far as it has them.
pub struct Request {
    pub entry: Entry,
    pub channel: u32,
    pub code: u8,
    /// The frame, the bytes that come, the image to read, the bytes or masks that the line master sends, or a reply to
    /// another master.
    pub bytes: Vec<u8>,
    pub ask: Ask,
    pub questions: Questions,
}

/// The rest of the line master's request, and the answer to its last frame; and both as the second program takes them, which
/// a caller makes once for an exchange.
pub struct Ask {
    /// Whether the exchange begins with this step.
    pub begins: bool,
    /// [`archive::BYTES`] or [`archive::BITS`].
    pub kind: u8,
    pub ia: u32,
    pub address: u32,
    pub states: &'static [u8],
    pub answer: &'static [u8],
    pub second: MasterRequest<'static>,
    pub second_answer: Option<&'static [u8]>,
}

impl Ask {
    /// A step with these bytes, or masks and states.
    pub fn new(kind: u8, ia: u32, address: u32, sent: &'static [u8], states: &'static [u8]) -> Self {
        let order = match kind {
            archive::BYTES => Order::Bytes(sent),
            _ => Order::Bits { masks: sent, states },
        };
        Self {
            begins: false,
            kind,
            ia,
            address,
            states,
            answer: &[],
            second: MasterRequest { ia, address, order },
            second_answer: None,
        }
    }
}

/// A card on both sides, the buffers, and what the last call gave.
pub struct Bed {
    pub tables: Tables,
    pub card: Box<Card>,
    pub answer: Vec<u8>,
    pub number: u8,
    pub len: usize,
    pub taken: usize,
    pub degrees: f32,
    pub phase: u8,
    pub master: Master,
    pub heard: archive::Heard,
    pub second_heard: Heard,
}

/// Nothing heard, and the number of no such call.
const UNHEARD: archive::Heard = archive::Heard {
    number: Number::Answered as u8,
    said: archive::HEARD_NOTHING,
    count: 0,
    values: [0; 4],
};
const SECOND_UNHEARD: Heard = Heard::Nothing(Number::Answered);

impl Bed {
    pub fn new(card: Card) -> Self {
        Self {
            tables: Tables::of(&card),
            card: Box::new(card),
            answer: vec![0; ROOM],
            number: 0,
            len: 0,
            taken: 0,
            degrees: 0.0,
            phase: archive::NEW,
            master: Master::new(),
            heard: UNHEARD,
            second_heard: SECOND_UNHEARD,
        }
    }
}

/// Which program a call goes to; `Bare` does nothing and shows what measuring costs.
#[derive(Clone, Copy, PartialEq, Eq)]
pub enum Side {
    Archive,
    Second,
    Bare,
}

/// Makes a call as its user would: arguments from memory, what comes back to memory.
pub type Thunk = fn(&mut Bed, &Request);

/// The thunk of an entry on a side.
pub fn thunk(side: Side, entry: Entry) -> Thunk {
    match side {
        Side::Archive => archive_thunk(entry),
        Side::Second => second_thunk(entry),
        Side::Bare => bare,
    }
}

#[inline(never)]
fn bare(_: &mut Bed, _: &Request) {}

/// Calls an entry of the library with the bed's tables before the arguments given.
macro_rules! lent {
    ($name:ident, $bed:ident, $($argument:expr),*) => {{
        let Tables { words, memory, ports } = &mut $bed.tables;
        // The pointers and counts are those of live vectors that do not overlap, as the header asks.
        unsafe {
            archive::$name(
                words.as_mut_ptr(),
                words.len(),
                memory.as_mut_ptr(),
                memory.len(),
                ports.as_mut_ptr(),
                ports.len(),
                $($argument),*
            )
        }
    }};
}

/// The thunk of a dialect's entry in the library.
macro_rules! archive_dialect {
    ($name:ident) => {
        |bed: &mut Bed, request: &Request| {
            let (frame, answer) = (&request.bytes, &mut bed.answer);
            bed.number = lent!(
                $name,
                bed,
                frame.as_ptr(),
                frame.len(),
                answer.as_mut_ptr(),
                answer.len(),
                &mut bed.len
            );
        }
    };
}

/// The thunk of a receiver's entry in the library.
macro_rules! archive_receiver {
    ($name:ident) => {
        |bed: &mut Bed, request: &Request| {
            let (bytes, frame) = (&request.bytes, &mut bed.answer);
            bed.number = lent!(
                $name,
                bed,
                bytes.as_ptr(),
                bytes.len(),
                frame.as_mut_ptr(),
                frame.len(),
                &mut bed.taken,
                &mut bed.len
            );
        }
    };
}

/// The thunk of an entry in the library that is told of a quiet line.
macro_rules! archive_quiet {
    ($name:ident) => {
        |bed: &mut Bed, _: &Request| {
            bed.number = lent!($name, bed,);
        }
    };
}

/// Calls an entry of the library with the request of LECOM's or Love's master before the arguments given.
macro_rules! asked_of_unit {
    ($name:ident, $question:expr, $($argument:expr),*) => {{
        let question = &$question;
        // As above: live vectors that do not overlap.
        unsafe {
            archive::$name(
                question.address,
                question.task,
                question.place,
                question.value,
                $($argument),*
            )
        }
    }};
}

/// The same with the request of LucidControl's master.
macro_rules! asked_of_lucid {
    ($name:ident, $question:expr, $($argument:expr),*) => {{
        let question = &$question;
        // As above: live vectors that do not overlap.
        unsafe {
            archive::$name(
                question.command,
                question.p1,
                question.p2,
                question.address,
                question.values.as_ptr(),
                question.values.len(),
                $($argument),*
            )
        }
    }};
}

/// The thunk of an entry in the library that makes a frame.
macro_rules! archive_ask {
    ($asked:ident, $name:ident, $dialect:ident) => {
        |bed: &mut Bed, request: &Request| {
            let frame = &mut bed.answer;
            bed.number = $asked!(
                $name,
                request.questions.$dialect,
                frame.as_mut_ptr(),
                frame.len(),
                &mut bed.len
            );
        }
    };
}

/// The thunk of an entry in the library that reads a reply.
macro_rules! archive_hear {
    ($asked:ident, $name:ident, $dialect:ident) => {
        |bed: &mut Bed, request: &Request| {
            let reply = &request.bytes;
            bed.heard = $asked!($name, request.questions.$dialect, reply.as_ptr(), reply.len());
        }
    };
}

fn archive_thunk(entry: Entry) -> Thunk {
    match entry {
        Entry::SetCode => |bed, request| {
            bed.number = lent!(nk_set_code, bed, request.channel, request.code);
        },
        Entry::Restart => |bed, _| {
            bed.number = lent!(nk_restart, bed,);
        },
        Entry::Governor => |bed, request| {
            bed.number = lent!(nk_governor, bed, request.channel, &mut bed.degrees);
        },
        Entry::Datalink => archive_dialect!(nk_datalink),
        Entry::Lecom => archive_dialect!(nk_lecom),
        Entry::Love => archive_dialect!(nk_love),
        Entry::Lucid => archive_dialect!(nk_lucid),
        Entry::ReceiveDatalink => archive_receiver!(nk_receive_datalink),
        Entry::ReceiveLecom => archive_receiver!(nk_receive_lecom),
        Entry::ReceiveLove => archive_receiver!(nk_receive_love),
        Entry::ReceiveLucid => archive_receiver!(nk_receive_lucid),
        Entry::QuietDatalink => archive_quiet!(nk_quiet_datalink),
        Entry::QuietLecom => archive_quiet!(nk_quiet_lecom),
        Entry::QuietLove => archive_quiet!(nk_quiet_love),
        Entry::QuietLucid => archive_quiet!(nk_quiet_lucid),
        Entry::WriteImage => |bed, _| {
            let image = &mut bed.answer;
            bed.number = lent!(nk_write_image, bed, image.as_mut_ptr(), image.len(), &mut bed.len);
        },
        Entry::ReadImage => |bed, request| {
            bed.number = lent!(nk_read_image, bed, request.bytes.as_ptr(), request.bytes.len());
        },
        Entry::Step => archive_step,
        Entry::AskLecom => archive_ask!(asked_of_unit, nk_ask_lecom, lecom),
        Entry::HearLecom => archive_hear!(asked_of_unit, nk_hear_lecom, lecom),
        Entry::AskLove => archive_ask!(asked_of_unit, nk_ask_love, love),
        Entry::HearLove => archive_hear!(asked_of_unit, nk_hear_love, love),
        Entry::AskLucid => archive_ask!(asked_of_lucid, nk_ask_lucid, lucid),
        Entry::HearLucid => archive_hear!(asked_of_lucid, nk_hear_lucid, lucid),
    }
}

fn archive_step(bed: &mut Bed, request: &Request) {
    let (ask, sent, frame) = (&request.ask, &request.bytes, &mut bed.answer);
    if ask.begins {
        bed.phase = archive::NEW;
    }
    // As above: live vectors that do not overlap.
    bed.number = unsafe {
        archive::nk_step(
            &mut bed.phase,
            ask.kind,
            ask.ia,
            ask.address,
            sent.as_ptr(),
            sent.len(),
            ask.states.as_ptr(),
            ask.states.len(),
            ask.answer.as_ptr(),
            ask.answer.len(),
            frame.as_mut_ptr(),
            frame.len(),
            &mut bed.len,
        )
    };
}

/// The second program's entries as functions that are called, as the library's are.
macro_rules! called {
    ($($name:ident($($argument:ident: $type:ty),*) -> $given:ty = $entry:path;)*) => {
        $(#[inline(never)]
        fn $name($($argument: $type),*) -> $given {
            $entry($($argument),*)
        })*
    };
}

called! {
    second_set_code(card: &mut Card, channel: u8, code: u8) -> Number = set_probe;
    second_restart(card: &mut Card) -> Number = restart;
    second_governor(card: &Card, channel: u8) -> Governor = governor;
    second_datalink(card: &mut Card, frame: &[u8], answer: &mut [u8]) -> Reply = reference::datalink::datalink;
    second_lecom(card: &mut Card, frame: &[u8], answer: &mut [u8]) -> Reply = reference::lecom::lecom;
    second_love(card: &mut Card, frame: &[u8], answer: &mut [u8]) -> Reply = reference::love::love;
    second_lucid(card: &mut Card, frame: &[u8], answer: &mut [u8]) -> Reply = reference::lucid::lucid;
    second_receive_datalink(card: &mut Card, bytes: &[u8], frame: &mut [u8]) -> Received = receivers::receive_datalink;
    second_receive_lecom(card: &mut Card, bytes: &[u8], frame: &mut [u8]) -> Received = receivers::receive_lecom;
    second_receive_love(card: &mut Card, bytes: &[u8], frame: &mut [u8]) -> Received = receivers::receive_love;
    second_receive_lucid(card: &mut Card, bytes: &[u8], frame: &mut [u8]) -> Received = receivers::receive_lucid;
    second_quiet_datalink(card: &mut Card) -> Number = receivers::quiet_datalink;
    second_quiet_lecom(card: &mut Card) -> Number = receivers::quiet_lecom;
    second_quiet_love(card: &mut Card) -> Number = receivers::quiet_love;
    second_quiet_lucid(card: &mut Card) -> Number = receivers::quiet_lucid;
    second_write_image(card: &Card, image: &mut [u8]) -> Reply = reference::image::save;
    second_read_image(card: &mut Card, image: &[u8]) -> Number = reference::image::load;
    second_master(master: &mut Master, request: &MasterRequest, answer: Option<&[u8]>, frame: &mut [u8]) -> Reply = step;
    second_ask_lecom(request: &lecom::Request, frame: &mut [u8]) -> Reply = lecom::make;
    second_hear_lecom(request: &lecom::Request, reply: &[u8]) -> Heard = lecom::hear;
    second_ask_love(request: &love::Request, frame: &mut [u8]) -> Reply = love::make;
    second_hear_love(request: &love::Request, reply: &[u8]) -> Heard = love::hear;
    second_ask_lucid(request: &lucid::Request, frame: &mut [u8]) -> Reply = lucid::make;
    second_hear_lucid(request: &lucid::Request, reply: &[u8]) -> Heard = lucid::hear;
}

/// The thunk of a dialect's entry in the second program.
macro_rules! second_dialect {
    ($name:ident) => {
        |bed: &mut Bed, request: &Request| {
            let reply = $name(&mut bed.card, &request.bytes, &mut bed.answer);
            keep(bed, reply);
        }
    };
}

/// The thunk of a receiver's entry in the second program.
macro_rules! second_receiver {
    ($name:ident) => {
        |bed: &mut Bed, request: &Request| {
            let received = $name(&mut bed.card, &request.bytes, &mut bed.answer);
            bed.number = received.number as u8;
            bed.taken = received.taken;
            bed.len = received.length;
        }
    };
}

/// The thunk of an entry in the second program that is told of a quiet line.
macro_rules! second_quiet {
    ($name:ident) => {
        |bed: &mut Bed, _: &Request| bed.number = $name(&mut bed.card) as u8
    };
}

/// The thunk of an entry in the second program that makes a frame.
macro_rules! second_ask {
    ($name:ident, $dialect:ident) => {
        |bed: &mut Bed, request: &Request| {
            let reply = $name(&request.questions.$dialect.second, &mut bed.answer);
            keep(bed, reply);
        }
    };
}

/// The thunk of an entry in the second program that reads a reply.
macro_rules! second_hear {
    ($name:ident, $dialect:ident) => {
        |bed: &mut Bed, request: &Request| {
            bed.second_heard = $name(&request.questions.$dialect.second, &request.bytes);
        }
    };
}

fn second_thunk(entry: Entry) -> Thunk {
    match entry {
        Entry::SetCode => |bed, request| {
            bed.number = second_set_code(&mut bed.card, request.channel as u8, request.code) as u8;
        },
        Entry::Restart => |bed, _| {
            bed.number = second_restart(&mut bed.card) as u8;
        },
        Entry::Governor => |bed, request| match second_governor(&bed.card, request.channel as u8) {
            Governor::Degrees(degrees) => {
                bed.degrees = degrees;
                bed.number = Number::Answered as u8;
            }
            Governor::Fault => bed.number = Number::Fault as u8,
            Governor::Refused(number) => bed.number = number as u8,
        },
        Entry::Datalink => second_dialect!(second_datalink),
        Entry::Lecom => second_dialect!(second_lecom),
        Entry::Love => second_dialect!(second_love),
        Entry::Lucid => second_dialect!(second_lucid),
        Entry::ReceiveDatalink => second_receiver!(second_receive_datalink),
        Entry::ReceiveLecom => second_receiver!(second_receive_lecom),
        Entry::ReceiveLove => second_receiver!(second_receive_love),
        Entry::ReceiveLucid => second_receiver!(second_receive_lucid),
        Entry::QuietDatalink => second_quiet!(second_quiet_datalink),
        Entry::QuietLecom => second_quiet!(second_quiet_lecom),
        Entry::QuietLove => second_quiet!(second_quiet_love),
        Entry::QuietLucid => second_quiet!(second_quiet_lucid),
        Entry::WriteImage => |bed, _| {
            let reply = second_write_image(&bed.card, &mut bed.answer);
            keep(bed, reply);
        },
        Entry::ReadImage => |bed, request| {
            bed.number = second_read_image(&mut bed.card, &request.bytes) as u8;
        },
        Entry::Step => second_step,
        Entry::AskLecom => second_ask!(second_ask_lecom, lecom),
        Entry::HearLecom => second_hear!(second_hear_lecom, lecom),
        Entry::AskLove => second_ask!(second_ask_love, love),
        Entry::HearLove => second_hear!(second_hear_love, love),
        Entry::AskLucid => second_ask!(second_ask_lucid, lucid),
        Entry::HearLucid => second_hear!(second_hear_lucid, lucid),
    }
}

fn second_step(bed: &mut Bed, request: &Request) {
    let ask = &request.ask;
    if ask.begins {
        bed.master = Master::new();
    }
    let reply = second_master(&mut bed.master, &ask.second, ask.second_answer, &mut bed.answer);
    keep(bed, reply);
}

#[inline]
fn keep(bed: &mut Bed, reply: Reply) {
    bed.number = reply.number as u8;
    bed.len = reply.length;
}

/// What a call gives; bytes are the whole answer buffer.
#[derive(PartialEq, Debug)]
struct Given {
    number: u8,
    len: usize,
    taken: usize,
    bytes: Vec<u8>,
    degrees: f32,
    said: u8,
    values: Vec<i32>,
}

/// What a call gives, from empty buffers.
fn given(side: Side, bed: &mut Bed, request: &Request) -> Given {
    (bed.number, bed.len, bed.taken, bed.degrees) = (0, 0, 0, 0.0);
    (bed.heard, bed.second_heard) = (UNHEARD, SECOND_UNHEARD);
    bed.answer.fill(0);
    thunk(side, request.entry)(bed, request);
    let (number, said, values) = match side {
        Side::Archive => said(&bed.heard),
        _ => second_said(&bed.second_heard),
    };
    Given {
        // Those that hear give it with what was heard.
        number: bed.number.max(number),
        len: bed.len,
        taken: bed.taken,
        bytes: bed.answer.clone(),
        degrees: bed.degrees,
        said,
        values,
    }
}

/// Number, case and values of what the library heard.
fn said(heard: &archive::Heard) -> (u8, u8, Vec<i32>) {
    (heard.number, heard.said, heard.values[..heard.count].to_vec())
}

/// The same of what the second program heard.
fn second_said(heard: &Heard) -> (u8, u8, Vec<i32>) {
    let (said, values) = match heard {
        Heard::Value(value) => (archive::HEARD_VALUE, vec![*value]),
        Heard::Values(values) => (archive::HEARD_VALUE, values.as_slice().to_vec()),
        Heard::Done => (archive::HEARD_DONE, Vec::new()),
        Heard::Fault => (archive::HEARD_FAULT, Vec::new()),
        Heard::Refused(code) => (archive::HEARD_REFUSED, code.iter().map(|&code| code.into()).collect()),
        Heard::Nothing(_) => (archive::HEARD_NOTHING, Vec::new()),
    };
    (heard.number() as u8, said, values)
}

/// Makes a call on both sides of a bed and panics unless they agree in all they give and in their tables.
pub fn agree(bed: &mut Bed, request: &Request, name: &str) {
    let (archive, second) = (given(Side::Archive, bed, request), given(Side::Second, bed, request));
    assert!(
        archive == second,
        "{name}: the library gives {archive:?}, the second program {second:?}"
    );
    assert!(bed.tables.are_of(&bed.card), "{name}: the tables differ");
    let says = match bed.phase {
        archive::ENDED_DONE => Says::Done,
        archive::ENDED_UNKNOWN => Says::Unknown,
        _ => Says::Open,
    };
    assert!(says == bed.master.says(), "{name}: the masters say something else");
}
