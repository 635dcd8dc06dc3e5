//! The calls of the receivers: bytes as they come.

use crate::calls::Entry;
use crate::frames::{change, lecom_write, love, lucid, CHANGE, ENQ, EOT, ETX, STX};
use crate::groups::{case, Case, Group, Start};

/// A dialect's receiver.
pub struct Receiver {
    name: &'static str,
    receive: Entry,
    quiet: Entry,
    /// The longest frame.
    longest: Vec<u8>,
    /// The longest part frame.
    fullest: Vec<u8>,
}

impl Receiver {
    /// The receivers of all dialects.
    pub fn all() -> [Self; 4] {
        let datalink = change(CHANGE, 0x1101, 32);
        let lucid = lucid(0x42, 0x0F, 0x10, &[1; 255]);
        [
            Self {
                name: "Datalink",
                receive: Entry::ReceiveDatalink,
                quiet: Entry::QuietDatalink,
                fullest: all_but_last(&datalink),
                longest: datalink,
            },
            Self {
                name: "LECOM",
                receive: Entry::ReceiveLecom,
                quiet: Entry::QuietLecom,
                longest: lecom_write("11", "!005F00", "-00000999999"),
                fullest: [&[EOT][..], &[b'x'; 24]].concat(),
            },
            Self {
                name: "Love",
                receive: Entry::ReceiveLove,
                quiet: Entry::QuietLove,
                longest: love("L32", &"f".repeat(25)),
                fullest: [&[STX][..], &[b'x'; 31]].concat(),
            },
            Self {
                name: "LucidControl",
                receive: Entry::ReceiveLucid,
                quiet: Entry::QuietLucid,
                fullest: all_but_last(&lucid),
                longest: lucid,
            },
        ]
    }

    /// The call that leaves the longest part frame.
    pub fn fill(&self) -> Case {
        self.lend("the longest part frame", &self.fullest)
    }

    fn lend(&self, name: impl Into<String>, bytes: &[u8]) -> Case {
        case(name, self.receive, bytes.to_vec())
    }

    fn be_quiet(&self) -> Case {
        case("quiet", self.quiet, Vec::new())
    }

    /// Bytes of a frame, one a call.
    fn one_by_one(&self, frame: &[u8]) -> Vec<Case> {
        let one = |(place, &byte): (usize, &u8)| self.lend(format!("byte {}", place + 1), &[byte]);
        frame.iter().enumerate().map(one).collect()
    }

    /// A frame, one byte a call and in one call.
    fn both_ways(&self, what: &str, frame: &[u8]) -> [Group; 2] {
        let name = |way: &str| format!("{}, {what}{way}", self.name);
        [
            Group::new(name(", one a call"), self.one_by_one(frame)),
            Group::new(name(" in one call"), vec![self.lend("all bytes", frame)]),
        ]
    }

    /// The first bytes of a frame in one call, over their number, each from a receiver at rest.
    fn growth(&self, what: &str, counts: &[usize], frame: &[u8]) -> Group {
        let name = format!("{} receiver, {what} in one call", self.name);
        let both = |&count: &usize| {
            let lent = Case {
                point: Some((name.clone(), count)),
                ..self.lend(count.to_string(), &frame[..count])
            };
            [lent, self.be_quiet()]
        };
        Group::new(name.clone(), counts.iter().flat_map(both).collect())
    }

    /// The longest frame, and in LECOM those that take the most looking for STX, each with a name.
    fn long_frames(&self) -> Vec<(&'static str, Vec<u8>)> {
        let mut frames = vec![("longest frame", self.longest.clone())];
        if self.receive == Entry::ReceiveLecom {
            frames.push(("ETX before STX", etx_before_stx()));
            frames.push(("ETX before ENQ", etx_before_enq()));
        }
        frames
    }

    /// Calls among the longest part frames of all dialects.
    fn among_full(&self) -> Vec<Case> {
        let mut cases = vec![self.be_quiet()];
        for (what, frame) in &self.long_frames() {
            let last = frame.len() - 1;
            cases.push(self.lend(format!("{what}, all bytes"), frame));
            cases.push(self.lend(format!("{what}, all but the last byte"), &frame[..last]));
            cases.push(self.lend(format!("{what}, the last byte"), &frame[last..]));
            cases.extend(self.one_by_one(frame));
        }
        cases
    }
}

fn all_but_last(frame: &[u8]) -> Vec<u8> {
    frame[..frame.len() - 1].to_vec()
}

/// LECOM frames of the longest with ETX in every place where it ends nothing: behind each, STX is looked for.
fn etx_before_stx() -> Vec<u8> {
    [&[EOT][..], &[ETX; 21], &[STX, ETX, EOT]].concat()
}

fn etx_before_enq() -> Vec<u8> {
    [&[EOT][..], &[ETX; 23], &[ENQ]].concat()
}

/// Bytes that finish no LECOM frame and take the most looking for STX.
fn etx_again_and_again() -> Vec<u8> {
    [&[EOT][..], &[ETX; 24]].concat().repeat(16)
}

/// The first byte of a frame to each receiver at rest.
pub fn at_rest() -> Vec<Group> {
    let first = |receiver: Receiver| {
        let byte = receiver.lend("first byte", &receiver.longest[..1]);
        Group::new(format!("{}, a byte at rest", receiver.name), vec![byte])
    };
    Receiver::all().map(first).into()
}

/// Whole frames, and quiet. Each leaves the receivers at rest.
pub fn rows() -> Vec<Group> {
    let mut groups = Vec::new();
    for receiver in Receiver::all() {
        let what = format!("{} bytes", receiver.longest.len());
        groups.extend(receiver.both_ways(&what, &receiver.longest));
        if receiver.receive == Entry::ReceiveLecom {
            groups.extend(receiver.both_ways("25 bytes with 21 ETX before STX", &etx_before_stx()));
        }
    }
    let quiet = Receiver::all().map(|receiver| receiver.be_quiet());
    groups.push(Group::new("quiet", quiet.into()));
    groups
}

/// More bytes than a frame has, over their number: those of no frame, and those that take LECOM the most looking for STX.
pub fn long() -> Vec<Group> {
    let [datalink, lecom, ..] = &Receiver::all();
    let counts = [25, 50, 100, 200, 400];
    vec![
        datalink.growth("bytes of no frame", &counts, &[0; 400]),
        lecom.growth("EOT and 24 ETX again and again", &counts, &etx_again_and_again()),
    ]
}

/// Bytes of each receiver over their number, and calls among full part frames.
pub fn sweeps() -> Vec<Group> {
    let mut groups = Vec::new();
    for receiver in Receiver::all() {
        let counts: Vec<usize> = (1..receiver.longest.len()).collect();
        groups.push(receiver.growth("bytes of a frame", &counts, &receiver.longest));
        let name = format!("{} receiver among full part frames", receiver.name);
        groups.push(Group::new(name, receiver.among_full()).from(Start::Full));
    }
    groups
}
