//! The calls that are measured: what goes over each line, the entries without one, and sweeps over all lengths.

use reference::card::{Card, REGISTERS};
use reference::image::IMAGE;

use crate::archive::{BITS, BYTES};
use crate::calls::{thunk, Ask, Bed, Entry, Request, Side};
use crate::frames::{
    change, datalink, interrogate, lecom_read, lecom_write, love, lucid, ACKNOWLEDGE, CHANGE, CHANGE_BITS,
    FOREIGN_INTERROGATE, FOREIGN_RESPONSE, RESPONSE,
};
use crate::masters;
use crate::questions::Questions;
use crate::receivers::{self, Receiver};

/// A call under a name.
pub struct Case {
    pub name: String,
    pub request: Request,
    /// The sweep over lengths that it belongs to, and its length.
    pub point: Option<(String, usize)>,
}

/// The name of the Datalink call with the longest answer.
pub const LONGEST_INTERROGATE: &str = "interrogate 32";

/// The card that a group's calls start from.
#[derive(Clone, Copy, PartialEq, Eq)]
pub enum Start {
    /// The busy card.
    Busy,
    /// The busy card with the longest pending change.
    Pending,
    /// The same, and every receiver has the longest part frame.
    Full,
    /// The busy card, of which the library gets no words at all, so that it refuses at once.
    Wordless,
}

/// Calls that are made one after the other on one card.
pub struct Group {
    pub name: String,
    pub start: Start,
    pub cases: Vec<Case>,
}

impl Group {
    pub fn new(name: impl Into<String>, cases: Vec<Case>) -> Self {
        Self {
            name: name.into(),
            start: Start::Busy,
            cases,
        }
    }

    pub fn from(self, start: Start) -> Self {
        Self { start, ..self }
    }

    /// The card that the calls start from, on both sides.
    pub fn bed(&self) -> Bed {
        let mut bed = Bed::new(busy_card());
        if matches!(self.start, Start::Pending | Start::Full) {
            let change = case("", Entry::Datalink, change(CHANGE_BITS, 0x1101, 32)).request;
            make(&mut bed, &change);
        }
        if self.start == Start::Full {
            for receiver in Receiver::all() {
                make(&mut bed, &receiver.fill().request);
            }
        }
        if self.start == Start::Wordless {
            bed.tables.words.clear();
        }
        bed
    }
}

/// Makes a call on both sides. The second program is called through the measured thunks alone: another place that calls
/// it would change how it is compiled.
fn make(bed: &mut Bed, request: &Request) {
    for side in [Side::Archive, Side::Second] {
        thunk(side, request.entry)(bed, request);
    }
}

/// Everything that is counted.
pub struct Plan {
    /// What goes over each dialect's line.
    pub dialects: Vec<Group>,
    /// The card's loop: a probe's code, the governor's reading, then a frame of each dialect.
    pub mix: Group,
    /// The first byte of a frame to each receiver.
    pub at_rest: Vec<Group>,
    /// Whole frames to each receiver, byte by byte and in one call, and quiet.
    pub receivers: Vec<Group>,
    /// Whole exchanges of the line master: change, acknowledge, interrogate, end.
    pub master: Group,
    /// Requests and replies of the other dialects' masters.
    pub masters: Vec<Group>,
    /// The entries without a dialect.
    pub others: Group,
    /// Refused just after fitness: the governor's channel is the cheapest test that comes next.
    pub fitness: Group,
    /// The same with a pending change to look at.
    pub fitness_pending: Group,
    /// The same refused before fitness, by a table's length.
    pub unfit: Group,
    /// Commands over their lengths and values, and the other entries, from a card with a pending change.
    pub sweeps: Vec<Group>,
    /// More bytes to a receiver than a frame has.
    pub long: Vec<Group>,
}

impl Plan {
    pub fn new() -> Self {
        let channel_4 = |name| Group::new(name, vec![probe("governor of channel 4", Entry::Governor, 4, 0)]);
        let pending = |group: Group| match group.start {
            Start::Busy => group.from(Start::Pending),
            _ => group,
        };
        Self {
            dialects: dialects(),
            mix: mix(),
            at_rest: receivers::at_rest(),
            receivers: receivers::rows(),
            master: exchanges("line master", &[2, 9, 32], &[1, 16]),
            masters: masters::rows(),
            others: others(),
            fitness: channel_4("fitness"),
            fitness_pending: channel_4("fitness with a pending change").from(Start::Pending),
            unfit: channel_4("no words").from(Start::Wordless),
            sweeps: sweeps()
                .into_iter()
                .chain(receivers::sweeps())
                .map(pending)
                .chain(masters::sweeps())
                .collect(),
            long: receivers::long().into_iter().map(pending).collect(),
        }
    }

    /// All groups; their order is the same in every run.
    pub fn groups(&self) -> Vec<&Group> {
        let fitness = [&self.fitness, &self.fitness_pending, &self.unfit];
        let single = [&self.mix, &self.master, &self.others].into_iter().chain(fitness);
        let received = self.at_rest.iter().chain(&self.receivers);
        self.dialects
            .iter()
            .chain(single)
            .chain(received)
            .chain(&self.masters)
            .chain(&self.sweeps)
            .chain(&self.long)
            .collect()
    }
}

/// A fit card with something in every table: registers of every length and sign, no probe at fault.
fn busy_card() -> Card {
    let mut card = Card::new();
    for place in 0..REGISTERS {
        let value = place as i32 * 20_833 % 1_000_000;
        let signed = if place % 2 == 0 { value } else { -value };
        card.buffer[place] = signed;
        card.operational[place] = signed / 10_i32.pow(place as u32 % 6);
        card.saved[place] = -signed;
    }
    for (place, byte) in card.memory.iter_mut().enumerate() {
        *byte = (place * 7 % 251) as u8;
    }
    card.memory[..4].copy_from_slice(&[90, 78, 0, 254]);
    card.love = [-15, 870, -400, 5];
    card.demand = [0, 1, 1_000, 65_535];
    card.parameter = [[750_000, 1_000, 60_000_000, 1_000_000], [0, 1, 65_535, 100]];
    card.kept = [[1_000_000, 2_000, 59_999_999, 1_000], [0, 2, 1_000, 65_535]];
    card
}

/// A call with these bytes.
pub fn case(name: impl Into<String>, entry: Entry, bytes: Vec<u8>) -> Case {
    Case {
        name: name.into(),
        request: Request {
            entry,
            channel: 0,
            code: 0,
            bytes,
            ask: Ask::new(BYTES, 0, 0, &[], &[]),
            questions: Questions::none(),
        },
        point: None,
    }
}

fn probe(name: &str, entry: Entry, channel: u32, code: u8) -> Case {
    let mut case = case(name, entry, Vec::new());
    case.request.channel = channel;
    case.request.code = code;
    case
}

/// A group of one dialect's named frames.
fn frames(name: &'static str, entry: Entry, frames: Vec<(&str, Vec<u8>)>) -> Group {
    let cases = frames
        .into_iter()
        .map(|(name, frame)| case(name, entry, frame))
        .collect();
    Group::new(name, cases)
}

fn dialects() -> Vec<Group> {
    vec![
        frames(
            "Datalink",
            Entry::Datalink,
            vec![
                ("interrogate 9 (P1)", interrogate(0x1000, 9)),
                ("interrogate 4", interrogate(0x1000, 4)),
                (LONGEST_INTERROGATE, interrogate(0x1400, 32)),
                ("change 2", change(CHANGE, 0x1010, 2)),
                ("acknowledge", ACKNOWLEDGE.to_vec()),
                ("change 32", change(CHANGE, 0x1100, 32)),
                ("acknowledge", ACKNOWLEDGE.to_vec()),
                ("change bits 2", change(CHANGE_BITS, 0x1020, 2)),
                ("acknowledge", ACKNOWLEDGE.to_vec()),
                ("change bits 32", change(CHANGE_BITS, 0x1200, 32)),
                ("acknowledge", ACKNOWLEDGE.to_vec()),
                ("nothing pending", ACKNOWLEDGE.to_vec()),
                ("foreign interrogate", datalink(FOREIGN_INTERROGATE, 9, 0x1000, &[])),
                ("foreign response 9", datalink(FOREIGN_RESPONSE, 9, 0x1000, &[7; 9])),
                ("wrong LRC (P2)", vec![0x7E, 0xE3, 0x09, 0x00, 0x10, 0xFB]),
                ("read-only (P3)", vec![0x7E, 0xA3, 0x02, 0x00, 0x10, 0x08, 0x0C, 0xC9]),
            ],
        ),
        frames(
            "LECOM",
            Entry::Lecom,
            vec![
                ("write 5 figures (P6)", lecom_write("11", "00", "09873")),
                ("read 1 figure", lecom_read("11", "00")),
                ("ACTIVATE (P7)", lecom_write("11", "67", "1")),
                ("read 4 figures", lecom_read("11", "00")),
                ("write -999999", lecom_write("11", "5F", "-999999")),
                ("ACTIVATE", lecom_write("11", "67", "1")),
                ("read -999999", lecom_read("11", "5F")),
                ("read, extended code", lecom_read("11", "!005F00")),
                ("write 12 characters", lecom_write("11", "3A", "-00000012345")),
                ("write, extended code", lecom_write("11", "!000100", "250")),
                ("STORE", lecom_write("11", "68", "1")),
                ("probe", lecom_read("11", "61")),
                ("collective read", lecom_read("10", "00")),
                ("foreign read", lecom_read("31", "03")),
                ("foreign write", lecom_write("31", "03", "12345")),
                ("unknown code", lecom_read("11", "!081A00")),
                ("wrong BCC", [&lecom_write("11", "00", "09873")[..12], b"7"].concat()),
                ("value outside", lecom_write("11", "01", "1000000")),
            ],
        ),
        frames(
            "Love",
            Entry::Love,
            vec![
                ("write SP1 (P8)", love("L32", "02000015FF")),
                ("read SP1", love("L32", "0100")),
                ("probe (P10)", love("L32", "00")),
                ("write ALHI", love("L32", "0205087000")),
                ("read SP2", love("L32", "0102")),
                ("read ALLO", love("L32", "0104")),
                ("read ALHI", love("L32", "0105")),
                ("write, lower case", love("L32", "02040400ff")),
                ("foreign address", love("L33", "00")),
                ("foreign filter", love("O32", "0100")),
                ("foreign write", love("L33", "0200001500")),
                ("wrong checksum", b"\x02L3200C6\x03".to_vec()),
                ("illegal character", love("L32", "0G")),
                ("unknown command", love("L32", "0106")),
                ("value outside", love("L32", "0200087100")),
            ],
        ),
        frames(
            "LucidControl",
            Entry::Lucid,
            vec![
                ("probe, tenths (P11)", lucid(0x46, 1, 0x40, &[])),
                ("probe, hundredths", lucid(0x46, 0, 0x41, &[])),
                ("demand", lucid(0x46, 1, 0x10, &[])),
                ("4 probes, tenths", lucid(0x48, 0x0F, 0x40, &[])),
                ("4 probes, hundredths", lucid(0x48, 0x0F, 0x41, &[])),
                ("2 demands", lucid(0x48, 0x09, 0x10, &[])),
                ("set demand", lucid(0x40, 1, 0x10, &[0x34, 0x12])),
                ("set 4 demands", lucid(0x42, 0x0F, 0x10, &[1, 0, 2, 0, 3, 0, 4, 0x80])),
                (
                    "set parameter, saved",
                    lucid(0xA0, 0, 0x80, &[0x10, 0x11, 0xB0, 0x71, 0x0B, 0]),
                ),
                ("set parameter 1120h", lucid(0xA0, 2, 0x00, &[0x20, 0x11, 1, 2, 0, 0])),
                ("reset, saved", lucid(0xA0, 3, 0x81, &[0x10, 0x11])),
                ("get parameter", lucid(0xA2, 0, 0, &[0x10, 0x11])),
                ("channel 4", lucid(0x46, 4, 0x40, &[])),
                ("unknown command", lucid(0x52, 0, 0, &[])),
                ("unknown type", lucid(0x46, 3, 0x1D, &[])),
                ("value outside", lucid(0xA0, 0, 0, &[0x20, 0x11, 0, 0, 1, 0])),
            ],
        ),
    ]
}

fn mix() -> Group {
    let mut lines: Vec<_> = dialects().into_iter().map(|group| group.cases.into_iter()).collect();
    let mut cases = Vec::new();
    for channel in (0..4).cycle() {
        let frames: Vec<Case> = lines.iter_mut().filter_map(Iterator::next).collect();
        if frames.is_empty() {
            break;
        }
        cases.push(probe("set code", Entry::SetCode, channel, 100));
        cases.push(probe("governor", Entry::Governor, channel, 0));
        cases.extend(frames);
    }
    Group::new("mix", cases)
}

fn others() -> Group {
    let mut bed = Bed::new(busy_card());
    make(&mut bed, &case("", Entry::WriteImage, Vec::new()).request);
    let image = bed.answer[..IMAGE].to_vec();
    Group::new(
        "other entries",
        vec![
            probe("set code", Entry::SetCode, 0, 100),
            probe("governor", Entry::Governor, 0, 0),
            case("write image", Entry::WriteImage, Vec::new()),
            case("read image", Entry::ReadImage, image),
            case("restart", Entry::Restart, Vec::new()),
        ],
    )
}

/// A sweep over data lengths: each case is named by its length.
fn lengths(name: &'static str, entry: Entry, counts: &[usize], frame: impl Fn(usize) -> Vec<u8>) -> Group {
    let cases = counts.iter().map(|&count| Case {
        point: Some((name.to_owned(), count)),
        ..case(count.to_string(), entry, frame(count))
    });
    Group::new(name, cases.collect())
}

/// Datalink acknowledges of changes of each length, each after its change.
fn acknowledges(name: &'static str, command: u8, nums: &[usize]) -> Group {
    let both = |&num: &usize| {
        let acknowledge = Case {
            point: Some((name.to_owned(), num)),
            ..case(num.to_string(), Entry::Datalink, ACKNOWLEDGE.to_vec())
        };
        [
            case(
                format!("change {num}"),
                Entry::Datalink,
                change(command, 0x1101, num as u8),
            ),
            acknowledge,
        ]
    };
    Group::new(name, nums.iter().flat_map(both).collect())
}

fn sweeps() -> Vec<Group> {
    let nums: Vec<usize> = (0..=32).collect();
    let even: Vec<usize> = (0..=32).step_by(2).collect();
    let data: Vec<usize> = (1..=12).collect();
    let fields: Vec<usize> = (0..=25).collect();
    let lens = [0, 1, 2, 4, 6, 7, 8, 9, 16, 32, 64, 128, 255];
    let one = |count: usize| format!("{:0count$}", 1);
    let minus = |count: usize| {
        if count == 1 {
            "7".into()
        } else {
            format!("-{:0>1$}", 999_999 % 10_u32.pow(6.min(count as u32 - 1)), count - 1)
        }
    };
    vec![
        lengths("Datalink interrogate", Entry::Datalink, &nums, |num| {
            interrogate(0x1FE0, num as u8)
        }),
        lengths("Datalink change", Entry::Datalink, &nums, |num| {
            change(CHANGE, 0x1101, num as u8)
        }),
        lengths("Datalink change bits", Entry::Datalink, &even, |num| {
            change(CHANGE_BITS, 0x1101, num as u8)
        }),
        acknowledges("Datalink acknowledge of a change", CHANGE, &nums),
        acknowledges("Datalink acknowledge of change bits", CHANGE_BITS, &even),
        lengths("LECOM write", Entry::Lecom, &data, |count| {
            lecom_write("11", "5F", &minus(count))
        }),
        lengths("LECOM extended write", Entry::Lecom, &data, |count| {
            lecom_write("11", "!005F00", &minus(count))
        }),
        lengths("LECOM extended ACTIVATE", Entry::Lecom, &data, |count| {
            lecom_write("11", "!006700", &one(count))
        }),
        lengths("LECOM extended STORE", Entry::Lecom, &data, |count| {
            lecom_write("11", "!006800", &one(count))
        }),
        lengths("LECOM collective extended STORE", Entry::Lecom, &data, |count| {
            lecom_write("00", "!006800", &one(count))
        }),
        registers(),
        lengths("Love data to be refused", Entry::Love, &fields, |count| {
            love("L32", &"f".repeat(count))
        }),
        parameters(),
        channels(),
        lengths("LucidControl LEN to be refused", Entry::Lucid, &lens, |count| {
            lucid(0x42, 0x0F, 0x10, &vec![1; count])
        }),
        probes(),
        others(),
        exchanges(
            "line master",
            &(0..=32).collect::<Vec<u8>>(),
            &(0..=16).collect::<Vec<u8>>(),
        ),
    ]
}

/// Reads of every LECOM register, by a standard and an extended code.
fn registers() -> Group {
    let read = |code: String| case(format!("read {code}"), Entry::Lecom, lecom_read("11", &code));
    let standard = (0..REGISTERS).map(|place| read(format!("{place:02X}")));
    let extended = (0..REGISTERS).map(|place| read(format!("!00{place:02X}00")));
    Group::new("LECOM read", standard.chain(extended).collect())
}

/// Writes and reads of every Love parameter, at both ends of its range.
fn parameters() -> Group {
    let mut cases = Vec::new();
    for parameter in ["00", "02", "04", "05"] {
        for value in ["087000", "0400FF", "0000ff", "040100"] {
            let data = format!("02{parameter}{value}");
            cases.push(case(format!("write {data}"), Entry::Love, love("L32", &data)));
            cases.push(case(
                format!("read 01{parameter}"),
                Entry::Love,
                love("L32", &format!("01{parameter}")),
            ));
        }
    }
    Group::new("Love parameters", cases)
}

/// Every LucidControl command on every mask, type and parameter.
fn channels() -> Group {
    let mut cases = Vec::new();
    let mut push = |name: String, frame: Vec<u8>| cases.push(case(name, Entry::Lucid, frame));
    for mask in 1..=15_u8 {
        for kind in [0x10, 0x40, 0x41] {
            push(
                format!("GetIoGroup {mask:02X} {kind:02X}"),
                lucid(0x48, mask, kind, &[]),
            );
        }
        let data = vec![0x5A; 2 * mask.count_ones() as usize];
        push(format!("SetIoGroup {mask:02X}"), lucid(0x42, mask, 0x10, &data));
    }
    for channel in 0..4 {
        for kind in [0x10, 0x40, 0x41] {
            push(format!("GetIo {channel} {kind:02X}"), lucid(0x46, channel, kind, &[]));
        }
        push(format!("SetIo {channel}"), lucid(0x40, channel, 0x10, &[1, 2]));
        for low in [0x10, 0x20] {
            let address = [low, 0x11];
            for option in [0x00, 0x80] {
                let data = [&address[..], &[0xFF, 0xFF, 0, 0]].concat();
                push(
                    format!("SetParam {channel} 11{low:02X} {option:02X}"),
                    lucid(0xA0, channel, option, &data),
                );
            }
            push(
                format!("GetParam {channel} 11{low:02X}"),
                lucid(0xA2, channel, 0, &address),
            );
        }
        for option in [0x01, 0x81] {
            push(
                format!("SetParam {channel} {option:02X}"),
                lucid(0xA0, channel, option, &[]),
            );
        }
    }
    Group::new("LucidControl commands", cases)
}

/// Every entry that reads probe 0, for the codes at both ends and at fault.
fn probes() -> Group {
    let mut cases = Vec::new();
    for code in [0, 79, 80, 254, 255] {
        let read = |entry, frame| case(format!("probe with code {code}"), entry, frame);
        cases.push(probe(&format!("code {code}"), Entry::SetCode, 0, code));
        cases.push(probe(&format!("code {code}"), Entry::Governor, 0, 0));
        cases.push(read(Entry::Lecom, lecom_read("11", "!006000")));
        cases.push(read(Entry::Love, love("L32", "00")));
        cases.push(read(Entry::Lucid, lucid(0x48, 0x0F, 0x41, &[])));
    }
    Group::new("probes", cases)
}

/// Exchanges of the master that name this many bytes, or this many bytes of bits, with a card that answers every frame.
fn exchanges(name: &'static str, bytes: &[u8], bits: &[u8]) -> Group {
    let mut cases = Vec::new();
    for &count in bytes {
        let sent: Vec<u8> = (0..count).map(|place| place.wrapping_mul(29)).collect();
        let echo = datalink(RESPONSE, count, ADDRESS, &sent);
        cases.extend(exchange(BYTES, &sent, &[], [echo.clone(), echo]));
    }
    for &count in bits {
        let (masks, states) = (vec![0xF0; count.into()], vec![0x01; count.into()]);
        let pairs = [0xF0, 0x01].repeat(count.into());
        let echo = datalink(RESPONSE, 2 * count, ADDRESS, &pairs);
        let read = datalink(RESPONSE, count, ADDRESS, &vec![0x51; count.into()]);
        cases.extend(exchange(BITS, &masks, &states, [echo, read]));
    }
    Group::new(name, cases)
}

/// Where the master's changes go.
const IA: u32 = 3;
const ADDRESS: u16 = 0x1101;

/// The four steps of an exchange that gets this echo and this read-back.
fn exchange(kind: u8, sent: &[u8], states: &[u8], [echo, read]: [Vec<u8>; 2]) -> Vec<Case> {
    let answers = [Vec::new(), echo, Vec::new(), read];
    let names = ["change", "acknowledge", "interrogate", "end"];
    let step = |(name, answer): (&str, Vec<u8>)| {
        let what = if kind == BYTES { "bytes" } else { "bytes of bits" };
        let mut case = case(format!("{name}, {} {what}", sent.len()), Entry::Step, sent.to_vec());
        case.point = Some((format!("master: {name}, {what}"), sent.len()));
        // Lent to the second program for the rest of the run.
        let (sent, states, answer) = (sent.to_vec().leak(), states.to_vec().leak(), answer.leak());
        let second_answer = Some(&*answer).filter(|answer| !answer.is_empty());
        case.request.ask = Ask {
            begins: name == names[0],
            answer,
            second_answer,
            ..Ask::new(kind, IA, ADDRESS.into(), sent, states)
        };
        case
    };
    names.into_iter().zip(answers).map(step).collect()
}
