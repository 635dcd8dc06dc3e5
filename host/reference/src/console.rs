//! The console: one card and one line master, driven by lines (docs/CONSOLE.md).

mod masters;
mod receivers;
mod tables;
mod words;

use std::io::{self, Read, Write};

use self::masters::Asked;
use self::receivers::receiver;
use self::tables::split_table;
use self::words::{append_bytes, end, room, split_slash, split_word, unsigned, Unreadable, ROOM_MOST};
use crate::card::{self, Card, Governor};
use crate::figures::{decimal, hex_figures, DECIMAL_MOST};
use crate::master::{self, Master, Order, Request, Says};
use crate::masters::Heard;
use crate::numbers::{Number, Reply};
use crate::{datalink, image, lecom, love, lucid};

/// Longest line, without its line feed.
const LINE_MOST: usize = 32_768;
/// Bytes taken from the input at a time.
const CHUNK: usize = 65_536;
/// Output held back before it is written, though input is left.
const HELD_MOST: usize = 65_536;

/// Reads the words after a call's name, carries it out and appends what it writes.
type Run = fn(&mut Console, &[u8], &mut Vec<u8>) -> Result<(), Error>;

/// A call of the console.
struct Call {
    name: &'static str,
    /// The call's lines in `help`.
    usages: &'static [&'static str],
    run: Run,
}

/// All calls in the order of `help`. A call without a row here is unknown to the console.
const CALLS: &[Call] = &[
    Call {
        name: "probe",
        usages: &["probe CHANNEL CODE"],
        run: Console::probe,
    },
    Call {
        name: "restart",
        usages: &["restart"],
        run: Console::restart,
    },
    Call {
        name: "governor",
        usages: &["governor CHANNEL"],
        run: Console::governor,
    },
    Call {
        name: "datalink",
        usages: &["datalink ROOM BYTES"],
        run: |console, words, out| console.dialect(datalink::datalink, words, out),
    },
    Call {
        name: "lecom",
        usages: &["lecom ROOM BYTES"],
        run: |console, words, out| console.dialect(lecom::lecom, words, out),
    },
    Call {
        name: "love",
        usages: &["love ROOM BYTES"],
        run: |console, words, out| console.dialect(love::love, words, out),
    },
    Call {
        name: "lucid",
        usages: &["lucid ROOM BYTES"],
        run: |console, words, out| console.dialect(lucid::lucid, words, out),
    },
    Call {
        name: "receive",
        usages: &["receive DIALECT ROOM BYTES"],
        run: Console::receive,
    },
    Call {
        name: "quiet",
        usages: &["quiet DIALECT"],
        run: Console::quiet,
    },
    Call {
        name: "save",
        usages: &["save ROOM"],
        run: Console::save,
    },
    Call {
        name: "load",
        usages: &["load BYTES"],
        run: Console::load,
    },
    Call {
        name: "request",
        usages: &[
            "request change IA ADDRESS BYTES",
            "request bits IA ADDRESS MASKS / STATES",
        ],
        run: Console::request,
    },
    Call {
        name: "step",
        usages: &["step ROOM BYTES"],
        run: Console::step,
    },
    Call {
        name: "ask",
        usages: &[
            "ask lecom ROOM ADDRESS read CODE",
            "ask lecom ROOM ADDRESS write CODE VALUE",
            "ask love ROOM ADDRESS status",
            "ask love ROOM ADDRESS read PLACE",
            "ask love ROOM ADDRESS write PLACE VALUE",
            "ask lucid ROOM getio CHANNEL TYPE",
            "ask lucid ROOM getiogroup MASK TYPE",
            "ask lucid ROOM setio CHANNEL TYPE VALUE",
            "ask lucid ROOM setiogroup MASK TYPE VALUES",
            "ask lucid ROOM getparam CHANNEL OPTION ADDRESS",
            "ask lucid ROOM setparam CHANNEL OPTION ADDRESS VALUE",
            "ask lucid ROOM reset CHANNEL OPTION ADDRESS",
        ],
        run: Console::ask,
    },
    Call {
        name: "reply",
        usages: &["reply lecom BYTES", "reply love BYTES", "reply lucid BYTES"],
        run: Console::reply,
    },
    Call {
        name: "poke",
        usages: &["poke TABLE PLACE VALUE"],
        run: Console::poke,
    },
    Call {
        name: "peek",
        usages: &["peek TABLE"],
        run: Console::peek,
    },
    Call {
        name: "help",
        usages: &["help"],
        run: Console::help,
    },
];

/// Why a call's line cannot be carried out.
enum Error {
    /// The words do not fit the call's usage.
    Expected,
    /// A step or a reply before the first request.
    NoRequest,
}

impl From<Unreadable> for Error {
    fn from(_: Unreadable) -> Self {
        Self::Expected
    }
}

/// A dialect's entry.
type Dialect = fn(&mut Card, &[u8], &mut [u8]) -> Reply;

/// The request that the console keeps for its master.
struct KeptRequest {
    ia: u32,
    address: u32,
    /// The bytes, or the masks and after them the states.
    bytes: Vec<u8>,
    /// For bits, how many masks there are.
    masks: Option<usize>,
}

impl KeptRequest {
    fn lent(&self) -> Request<'_> {
        let order = match self.masks {
            None => Order::Bytes(&self.bytes),
            Some(count) => {
                let (masks, states) = self.bytes.split_at(count);
                Order::Bits { masks, states }
            }
        };
        Request {
            ia: self.ia,
            address: self.address,
            order,
        }
    }
}

/// The card, the masters' states and requests, and the buffers lent to their entries.
pub struct Console {
    card: Card,
    master: Master,
    request: Option<KeptRequest>,
    asked: Asked,
    /// The bytes of the present line.
    bytes: Vec<u8>,
    room: [u8; ROOM_MOST],
}

/// Reads lines to the input's end; writes what they give before it waits for more.
pub fn run(input: &mut impl Read, output: &mut impl Write) -> io::Result<()> {
    let mut console = Console::new();
    let mut chunk = vec![0; CHUNK];
    let mut line = Vec::with_capacity(LINE_MOST + 1);
    let mut held = Vec::new();
    loop {
        let count = match input.read(&mut chunk) {
            Err(error) if error.kind() == io::ErrorKind::Interrupted => continue,
            result => result?,
        };
        if count == 0 {
            console.line(&line, &mut held);
            output.write_all(&held)?;
            return output.flush();
        }
        let mut rest = &chunk[..count];
        while let Some(end) = rest.iter().position(|&byte| byte == b'\n') {
            extend_line(&mut line, &rest[..end]);
            console.line(&line, &mut held);
            line.clear();
            rest = &rest[end + 1..];
            if held.len() >= HELD_MOST {
                output.write_all(&held)?;
                held.clear();
            }
        }
        extend_line(&mut line, rest);
        output.write_all(&held)?;
        output.flush()?;
        held.clear();
    }
}

/// Appends to a line, of which no more is kept than shows that it is too long.
fn extend_line(line: &mut Vec<u8>, more: &[u8]) {
    let left = (LINE_MOST + 1).saturating_sub(line.len());
    line.extend_from_slice(&more[..more.len().min(left)]);
}

impl Console {
    /// The console as it starts.
    pub fn new() -> Self {
        Self {
            card: Card::new(),
            master: Master::new(),
            request: None,
            asked: Asked::default(),
            bytes: Vec::new(),
            room: [0; ROOM_MOST],
        }
    }

    /// Carries out one line, given without its line feed, and appends what it writes.
    pub fn line(&mut self, line: &[u8], out: &mut Vec<u8>) {
        if line.len() > LINE_MOST {
            out.extend_from_slice(format!("error line longer than {LINE_MOST} bytes\n").as_bytes());
            return;
        }
        if line.first() == Some(&b'#') {
            return;
        }
        let (name, words) = split_word(line);
        if name.is_empty() {
            return;
        }
        let Some(call) = CALLS.iter().find(|call| call.name.as_bytes() == name) else {
            out.extend_from_slice(b"error unknown call\n");
            return;
        };
        match (call.run)(self, words, out) {
            Ok(()) => {}
            Err(Error::Expected) => {
                out.extend_from_slice(b"error expected ");
                out.extend_from_slice(call.usages.join(" or ").as_bytes());
            }
            Err(Error::NoRequest) => out.extend_from_slice(b"error no request"),
        }
        out.push(b'\n');
    }

    fn probe(&mut self, words: &[u8], out: &mut Vec<u8>) -> Result<(), Error> {
        let (channel, words) = split_word(words);
        let (code, words) = split_word(words);
        let channel = unsigned(channel)?;
        let code = unsigned(code)?;
        end(words)?;
        write_number(out, card::set_probe(&mut self.card, channel, code));
        Ok(())
    }

    fn restart(&mut self, words: &[u8], out: &mut Vec<u8>) -> Result<(), Error> {
        end(words)?;
        write_number(out, card::restart(&mut self.card));
        Ok(())
    }

    fn governor(&mut self, words: &[u8], out: &mut Vec<u8>) -> Result<(), Error> {
        let (channel, words) = split_word(words);
        let channel = unsigned(channel)?;
        end(words)?;
        match card::governor(&self.card, channel) {
            Governor::Fault => write_number(out, Number::Fault),
            Governor::Refused(number) => write_number(out, number),
            Governor::Degrees(degrees) => {
                write_number(out, Number::Answered);
                out.push(b' ');
                for byte in degrees.to_bits().to_be_bytes() {
                    out.extend_from_slice(&hex_figures(byte));
                }
            }
        }
        Ok(())
    }

    fn dialect(&mut self, dialect: Dialect, words: &[u8], out: &mut Vec<u8>) -> Result<(), Error> {
        let (room, words) = room(words)?;
        self.take_bytes(words)?;
        let reply = dialect(&mut self.card, &self.bytes, &mut self.room[..room]);
        write_number(out, reply.number);
        write_bytes(out, &self.room[..reply.length]);
        Ok(())
    }

    fn receive(&mut self, words: &[u8], out: &mut Vec<u8>) -> Result<(), Error> {
        let (dialect, words) = split_word(words);
        let receiver = receiver(dialect)?;
        let (room, words) = room(words)?;
        self.take_bytes(words)?;
        let received = (receiver.receive)(&mut self.card, &self.bytes, &mut self.room[..room]);
        write_number(out, received.number);
        if matches!(received.number, Number::Answered | Number::Silent) {
            out.push(b' ');
            write_entries(out, &[received.taken as i64]);
        }
        write_bytes(out, &self.room[..received.length]);
        Ok(())
    }

    fn quiet(&mut self, words: &[u8], out: &mut Vec<u8>) -> Result<(), Error> {
        let (dialect, words) = split_word(words);
        let receiver = receiver(dialect)?;
        end(words)?;
        write_number(out, (receiver.quiet)(&mut self.card));
        Ok(())
    }

    fn save(&mut self, words: &[u8], out: &mut Vec<u8>) -> Result<(), Error> {
        let (room, words) = room(words)?;
        end(words)?;
        let reply = image::save(&self.card, &mut self.room[..room]);
        write_number(out, reply.number);
        write_bytes(out, &self.room[..reply.length]);
        Ok(())
    }

    fn load(&mut self, words: &[u8], out: &mut Vec<u8>) -> Result<(), Error> {
        self.take_bytes(words)?;
        write_number(out, image::load(&mut self.card, &self.bytes));
        Ok(())
    }

    fn request(&mut self, words: &[u8], out: &mut Vec<u8>) -> Result<(), Error> {
        let (form, words) = split_word(words);
        let (ia, words) = split_word(words);
        let (address, words) = split_word(words);
        let ia = unsigned(ia)?;
        let address = unsigned(address)?;
        let mut bytes = Vec::new();
        let masks = match form {
            b"change" => {
                append_bytes(&mut bytes, words)?;
                None
            }
            b"bits" => {
                let (masks, states) = split_slash(words)?;
                append_bytes(&mut bytes, masks)?;
                let count = bytes.len();
                append_bytes(&mut bytes, states)?;
                Some(count)
            }
            _ => return Err(Error::Expected),
        };
        self.request = Some(KeptRequest {
            ia,
            address,
            bytes,
            masks,
        });
        self.master = Master::new();
        out.extend_from_slice(b"ok");
        Ok(())
    }

    fn step(&mut self, words: &[u8], out: &mut Vec<u8>) -> Result<(), Error> {
        let (room, words) = room(words)?;
        self.take_bytes(words)?;
        let request = self.request.as_ref().ok_or(Error::NoRequest)?.lent();
        let answer = Some(&self.bytes[..]).filter(|answer| !answer.is_empty());
        let frame = &mut self.room[..room];
        let step = master::step(&mut self.master, &request, answer, frame);
        write_number(out, step.number);
        out.extend_from_slice(match self.master.says() {
            Says::Open => b" open",
            Says::Done => b" done",
            Says::Unknown => b" unknown",
        });
        write_bytes(out, &self.room[..step.length]);
        Ok(())
    }

    fn ask(&mut self, words: &[u8], out: &mut Vec<u8>) -> Result<(), Error> {
        let reply = self.asked.ask(words, &mut self.room)?;
        write_number(out, reply.number);
        write_bytes(out, &self.room[..reply.length]);
        Ok(())
    }

    fn reply(&mut self, words: &[u8], out: &mut Vec<u8>) -> Result<(), Error> {
        let (dialect, words) = split_word(words);
        self.take_bytes(words)?;
        let heard = self.asked.hear(dialect, &self.bytes)?;
        write_number(out, heard.number());
        write_heard(out, &heard);
        Ok(())
    }

    fn poke(&mut self, words: &[u8], out: &mut Vec<u8>) -> Result<(), Error> {
        let (table, words) = split_table(words)?;
        let (place, words) = split_word(words);
        let (value, words) = split_word(words);
        let place = usize::from(unsigned::<u16>(place)?);
        end(words)?;
        tables::poke(&mut self.card, table, place, value)?;
        out.extend_from_slice(b"ok");
        Ok(())
    }

    fn peek(&mut self, words: &[u8], out: &mut Vec<u8>) -> Result<(), Error> {
        let (table, words) = split_table(words)?;
        end(words)?;
        tables::peek(&self.card, table, out)?;
        Ok(())
    }

    fn help(&mut self, words: &[u8], out: &mut Vec<u8>) -> Result<(), Error> {
        end(words)?;
        let lines: Vec<&str> = CALLS.iter().flat_map(|call| call.usages).copied().collect();
        out.extend_from_slice(b"calls: ");
        out.extend_from_slice(lines.join("; ").as_bytes());
        Ok(())
    }

    /// Reads the words to the line's end as bytes.
    fn take_bytes(&mut self, words: &[u8]) -> Result<(), Error> {
        self.bytes.clear();
        append_bytes(&mut self.bytes, words)?;
        Ok(())
    }
}

impl Default for Console {
    fn default() -> Self {
        Self::new()
    }
}

/// Writes entries in decimal, separated by one space.
fn write_entries<T: Copy + Into<i64>>(out: &mut Vec<u8>, entries: &[T]) {
    let mut room = [0; DECIMAL_MOST];
    for (place, &entry) in entries.iter().enumerate() {
        if place > 0 {
            out.push(b' ');
        }
        out.extend_from_slice(decimal(entry.into(), &mut room));
    }
}

/// Writes a number in decimal.
fn write_number(out: &mut Vec<u8>, number: Number) {
    write_entries(out, &[number as u8]);
}

/// Writes what a master heard, if it heard anything.
fn write_heard(out: &mut Vec<u8>, heard: &Heard) {
    let (word, values): (&[u8], &[i32]) = match heard {
        Heard::Value(value) => (b" value", &[*value]),
        Heard::Values(values) => (b" value", values.as_slice()),
        Heard::Done => (b" done", &[]),
        Heard::Fault => (b" fault", &[]),
        Heard::Refused(None) => (b" refused", &[]),
        Heard::Refused(Some(code)) => (b" refused", &[(*code).into()]),
        Heard::Nothing(_) => (b"", &[]),
    };
    out.extend_from_slice(word);
    for &value in values {
        out.push(b' ');
        write_entries(out, &[value]);
    }
}

/// Writes bytes as two upper-case figures, each after one space.
fn write_bytes(out: &mut Vec<u8>, bytes: &[u8]) {
    for &byte in bytes {
        let [high, low] = hex_figures(byte);
        out.extend_from_slice(&[b' ', high, low]);
    }
}
