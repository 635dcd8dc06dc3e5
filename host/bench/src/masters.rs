//! The calls of the masters of LECOM, Love and LucidControl: requests that are asked, and replies that are heard.

use reference::masters::{lecom, love, lucid};

use crate::frames::{lecom_data, lecom_unknown, love_error, love_reply, lucid_reply, ACK, ETX, NAK};
use crate::groups::{case, Case, Group};
use crate::questions::Asked;

/// The LECOM unit that is asked.
const LECOM_UNIT: u32 = 11;
/// The Love unit that is asked, and its filter and address in frames.
const LOVE_UNIT: u32 = 0x32;
const LOVE_FRAMED: &str = "L32";
/// LECOM's last register, as a number and in frames.
const LAST: u32 = 0x5F;
const LAST_FRAMED: &str = "5F";

/// Types of a value in LucidControl, and addresses of a channel's parameters.
const DEMAND: u32 = 0x10;
const TENTHS: u32 = 0x40;
const HUNDREDTHS: u32 = 0x41;
const CYCLE: u32 = 0x1110;
const FLOOR: u32 = 0x1120;
/// Demands of all channels.
const DEMANDS: &[u32] = &[1, 0x1234, 0, 65_535];

/// How many data replies have: as many as an answer, and more.
fn data_lengths() -> impl Iterator<Item = usize> {
    (0..=20).chain([32, 64, 128, 255])
}

/// A request's frame is made.
fn ask<Request: Asked>(name: impl Into<String>, request: Request) -> Case {
    let mut case = case(format!("ask {}", name.into()), Request::ASK, Vec::new());
    request.put(&mut case.request.questions);
    case
}

/// A reply to a request is read.
fn hear<Request: Asked>(name: impl Into<String>, request: Request, reply: Vec<u8>) -> Case {
    let mut case = case(format!("hear {}", name.into()), Request::HEAR, reply);
    request.put(&mut case.request.questions);
    case
}

/// A sweep over lengths: each case is named by its length.
fn lengths(name: &str, counts: impl IntoIterator<Item = usize>, call: impl Fn(usize) -> Case) -> Group {
    let cases = counts.into_iter().map(|count| Case {
        name: count.to_string(),
        point: Some((name.to_owned(), count)),
        ..call(count)
    });
    Group::new(name, cases.collect())
}

/// A reply with another character so far from its end.
fn other_character(mut reply: Vec<u8>, back: usize) -> Vec<u8> {
    let place = reply.len() - back;
    reply[place] ^= 1;
    reply
}

/// What each master asks and hears.
pub fn rows() -> Vec<Group> {
    vec![
        Group::new("LECOM master", lecom_row()),
        Group::new("Love master", love_row()),
        Group::new("LucidControl master", lucid_row()),
    ]
}

/// Requests and replies over all lengths, values and commands.
pub fn sweeps() -> Vec<Group> {
    let mut groups = lecom_sweeps();
    groups.extend(love_sweeps());
    groups.extend(lucid_sweeps());
    groups
}

/// A read of a LECOM code.
fn lecom_read(code: u32) -> lecom::Request {
    lecom::Request {
        address: LECOM_UNIT,
        code,
        order: lecom::Order::Read,
    }
}

/// A write to a LECOM code.
fn lecom_write(code: u32, value: i32) -> lecom::Request {
    lecom::Request {
        order: lecom::Order::Write(value),
        ..lecom_read(code)
    }
}

fn lecom_row() -> Vec<Case> {
    let store = lecom::Request {
        address: 0,
        ..lecom_write(0x68, 1)
    };
    vec![
        ask("read", lecom_read(0)),
        hear("1 figure", lecom_read(0), lecom_data("00", "0")),
        hear("4 figures", lecom_read(0), lecom_data("00", "9873")),
        hear("-999999", lecom_read(LAST), lecom_data(LAST_FRAMED, "-999999")),
        hear("wrong BCC", lecom_read(0), other_character(lecom_data("00", "9873"), 1)),
        hear("value of another code", lecom_read(0), lecom_data("01", "9873")),
        ask("read probe", lecom_read(0x61)),
        hear("probe", lecom_read(0x61), lecom_data("61", "-10")),
        hear("probe's NAK", lecom_read(0x61), vec![NAK]),
        hear("unknown code", lecom_read(0), lecom_unknown("69")),
        hear("unknown extended code", lecom_read(0), lecom_unknown("!081A00")),
        hear("known extended code", lecom_read(0), lecom_unknown("!000000")),
        hear("no reply", lecom_read(0), Vec::new()),
        ask("write 4 figures", lecom_write(0, 9_873)),
        ask("write -999999", lecom_write(LAST, -999_999)),
        hear("ACK", lecom_write(0, 9_873), vec![ACK]),
        hear("NAK", lecom_write(0, 9_873), vec![NAK]),
        ask("ACTIVATE", lecom_write(0x67, 1)),
        hear("ACTIVATE's ACK", lecom_write(0x67, 1), vec![ACK]),
        ask("collective STORE", store),
        ask("unknown code", lecom_read(0x69)),
        ask("value outside", lecom_write(0, 1_000_000)),
        hear("value outside", lecom_write(0, 1_000_000), vec![ACK]),
    ]
}

/// A value whose shortest decimal has so many characters, with a minus where there is room for one.
fn of_length(count: usize) -> i32 {
    match count {
        1 => 7,
        _ => 1 - 10_i32.pow(count as u32 - 1),
    }
}

fn lecom_sweeps() -> Vec<Group> {
    let replied = |data: &str| hear("", lecom_read(LAST), lecom_data(LAST_FRAMED, data));
    let padded = |count: usize| replied(&format!("-{:0>1$}", 999_999, count - 1));
    let nines = |count: usize| replied(&"9".repeat(count));
    vec![
        lengths("LECOM master: ask write", 1..=7, |count| {
            ask("", lecom_write(LAST, of_length(count)))
        }),
        lengths("LECOM master: hear value", 1..=7, |count| {
            replied(&of_length(count).to_string())
        }),
        lengths("LECOM master: hear zeros before a value", 8..=12, padded),
        lengths("LECOM master: hear any number of figures", data_lengths(), nines),
        Group::new("LECOM master, codes", lecom_codes()),
    ]
}

/// Codes of every kind: what can be asked and replied.
fn lecom_codes() -> Vec<Case> {
    let mut cases = Vec::new();
    for code in [0x00, 0x0A, LAST, 0x60, 0x63, 0x67, 0x68] {
        let (framed, read) = (format!("{code:02X}"), lecom_read(code));
        cases.push(ask(format!("read {framed}"), read));
        for value in [0, 1, -5, -400, 870, 875, 999_999, -999_999, 1_000_000] {
            let (name, data) = (format!("{framed} {value}"), value.to_string());
            let reply = lecom_data(&framed, &data);
            cases.push(ask(format!("write {name}"), lecom_write(code, value)));
            cases.push(hear(
                format!("{name}, wrong BCC"),
                read,
                other_character(reply.clone(), 1),
            ));
            cases.push(hear(name, read, reply));
        }
        for unknown in ["00", "69", "FF", "G0", "!006700", "!006900", "!FFFFFF", "!00000G"] {
            cases.push(hear(format!("{framed}, {unknown} EOT"), read, lecom_unknown(unknown)));
            cases.push(hear(
                format!("{framed} written, {unknown} EOT"),
                lecom_write(code, 1),
                lecom_unknown(unknown),
            ));
        }
        // Behind a code that is known its reply is looked at as a value.
        cases.push(hear(
            format!("{framed}, its extended code, EOT"),
            read,
            lecom_unknown(&format!("!00{framed}00")),
        ));
        cases.push(hear(
            format!("{framed}, STX and ETX alone"),
            read,
            lecom_data(&framed, ""),
        ));
        cases.push(hear(format!("{framed}, ETX"), read, vec![ETX]));
    }
    for address in [0, 9, 10, 19, 90, 99, 100, u32::MAX] {
        for order in [lecom::Order::Read, lecom::Order::Write(-999_999)] {
            let request = lecom::Request {
                address,
                code: LAST,
                order,
            };
            let what = match order {
                lecom::Order::Read => "read",
                lecom::Order::Write(_) => "write",
            };
            cases.push(ask(format!("{what} of unit {address}"), request));
            for reply in [lecom_data(LAST_FRAMED, "-999999"), vec![ACK], lecom_unknown("!000000")] {
                let length = reply.len();
                cases.push(hear(
                    format!("{length} bytes for a {what} of unit {address}"),
                    request,
                    reply,
                ));
            }
        }
    }
    cases
}

/// A request to the Love unit.
fn love_order(order: love::Order) -> love::Request {
    love::Request {
        address: LOVE_UNIT,
        order,
    }
}

fn love_read(place: u32) -> love::Request {
    love_order(love::Order::Read { place })
}

fn love_write(place: u32, value: i32) -> love::Request {
    love_order(love::Order::Write { place, value })
}

fn love_row() -> Vec<Case> {
    let status = love_order(love::Order::Status);
    let replied = |data: &str| love_reply(LOVE_FRAMED, data);
    let refused = |code: &str| love_error(LOVE_FRAMED, code);
    vec![
        ask("status", status),
        hear("status", status, replied("C0000050")),
        hear("status below zero", status, replied("C0020400")),
        hear("fault", status, replied("D0000000")),
        hear(
            "status, wrong checksum",
            status,
            other_character(replied("C0000050"), 2),
        ),
        ask("read", love_read(0)),
        hear("value", love_read(0), replied("000870")),
        hear("value below zero", love_read(0), replied("010015")),
        hear(
            "value, wrong checksum",
            love_read(0),
            other_character(replied("010015"), 2),
        ),
        ask("write SP1", love_write(0, -15)),
        ask("write ALHI", love_write(3, 870)),
        hear("written", love_write(3, 870), replied("00")),
        hear(
            "written, wrong checksum",
            love_write(3, 870),
            other_character(replied("00"), 3),
        ),
        hear("status, error 02", status, refused("02")),
        hear("read, error 01", love_read(0), refused("01")),
        hear("write, error 06", love_write(0, -15), refused("06")),
        hear("another unit's value", love_read(0), love_reply("L33", "000870")),
        hear("no reply", status, Vec::new()),
        ask("unknown parameter", love_read(4)),
        ask("value outside", love_write(0, 871)),
        hear("value outside", love_write(0, 871), replied("00")),
    ]
}

fn love_sweeps() -> Vec<Group> {
    let status = love_order(love::Order::Status);
    vec![
        lengths("Love master: hear any number of figures", data_lengths(), |count| {
            hear("", status, love_reply(LOVE_FRAMED, &"0".repeat(count)))
        }),
        Group::new("Love master, replies", love_replies()),
        Group::new("Love master, parameters", love_parameters()),
    ]
}

/// Every kind of reply to every kind of request.
fn love_replies() -> Vec<Case> {
    let mut replies: Vec<(String, Vec<u8>)> = Vec::new();
    for data in [
        "C0020400", "C0020005", "C0000000", "C0020000", "C0000870", "C0000873", "C0000875", "D0000000", "D0000001",
        "000000", "010000", "010400", "010401", "000870", "000871", "009999", "00087G", "00", "0G",
    ] {
        replies.push((data.to_owned(), love_reply(LOVE_FRAMED, data)));
        for back in [1, 2, 3, 4] {
            let reply = other_character(love_reply(LOVE_FRAMED, data), back);
            replies.push((format!("{data}, another character {back} from the end"), reply));
        }
    }
    for code in ["00", "01", "02", "03", "04", "05", "06", "07", "11"] {
        replies.push((format!("N{code}"), love_error(LOVE_FRAMED, code)));
        replies.push((format!("N{code} of another unit"), love_error("O32", code)));
    }
    let requests = [
        ("status", love_order(love::Order::Status)),
        ("read", love_read(2)),
        ("write", love_write(2, -400)),
    ];
    let all = requests.into_iter().flat_map(|(what, request)| {
        let heard = |(name, reply): &(String, Vec<u8>)| hear(format!("{what}, {name}"), request, reply.clone());
        replies.iter().map(heard).collect::<Vec<_>>()
    });
    all.collect()
}

/// Every parameter at both ends of its range and beyond, of units at both ends of theirs and beyond.
fn love_parameters() -> Vec<Case> {
    let mut cases = Vec::new();
    for address in [0, 1, 0x3FF, 0x400] {
        for place in 0..=4 {
            for value in [-401, -400, 0, 870] {
                let order = love::Order::Write { place, value };
                cases.push(ask(
                    format!("write {place} {value} of unit {address:X}"),
                    love::Request { address, order },
                ));
            }
            let order = love::Order::Read { place };
            cases.push(ask(
                format!("read {place} of unit {address:X}"),
                love::Request { address, order },
            ));
        }
        let order = love::Order::Status;
        cases.push(ask(
            format!("status of unit {address:X}"),
            love::Request { address, order },
        ));
    }
    cases
}

type Lucid = lucid::Request<'static>;

/// A set of the first so many demands, on the channels of a mask.
fn set_group(mask: u32, count: usize) -> Lucid {
    Lucid::SetIoGroup {
        mask,
        value_type: DEMAND,
        values: &DEMANDS[..count],
    }
}

/// A value of a type, as it stands in a reply: the coldest or the warmest, and for a demand the lowest or the highest.
fn value_bytes(value_type: u32, is_high: bool) -> Vec<u8> {
    let tenths: i16 = if is_high { 870 } else { -400 };
    match value_type {
        DEMAND => if is_high { u16::MAX } else { 0 }.to_le_bytes().to_vec(),
        TENTHS => tenths.to_le_bytes().to_vec(),
        _ => (10 * i32::from(tenths)).to_le_bytes().to_vec(),
    }
}

fn lucid_row() -> Vec<Case> {
    let get = |value_type| Lucid::GetIo { channel: 1, value_type };
    let get_group = |value_type| Lucid::GetIoGroup { mask: 0x0F, value_type };
    let set = Lucid::SetIo {
        channel: 1,
        value_type: DEMAND,
        value: 0x1234,
    };
    let set_all = set_group(0x0F, 4);
    let get_parameter = Lucid::GetParam {
        channel: 0,
        option: 0,
        address: CYCLE,
    };
    let set_parameter = Lucid::SetParam {
        channel: 0,
        option: 0x80,
        address: CYCLE,
        value: 750_000,
    };
    let reset = Lucid::Reset {
        channel: 3,
        option: 0x81,
        address: CYCLE,
    };
    let channel_4 = Lucid::GetIo {
        channel: 4,
        value_type: TENTHS,
    };
    let replied = |data: &[u8]| lucid_reply(0, data);
    let four = |value_type| replied(&value_bytes(value_type, false).repeat(4));
    vec![
        ask("GetIo", get(TENTHS)),
        hear("tenths", get(TENTHS), replied(&value_bytes(TENTHS, false))),
        hear("hundredths", get(HUNDREDTHS), replied(&value_bytes(HUNDREDTHS, false))),
        hear("demand", get(DEMAND), replied(&value_bytes(DEMAND, true))),
        ask("GetIoGroup", get_group(HUNDREDTHS)),
        hear("4 tenths", get_group(TENTHS), four(TENTHS)),
        hear("4 hundredths", get_group(HUNDREDTHS), four(HUNDREDTHS)),
        hear("4 demands", get_group(DEMAND), four(DEMAND)),
        ask("SetIo", set),
        hear("demand set", set, replied(&[])),
        ask("SetIoGroup of 4", set_all),
        hear("4 demands set", set_all, replied(&[])),
        ask("GetParam", get_parameter),
        hear("parameter", get_parameter, replied(&750_000_u32.to_le_bytes())),
        ask("SetParam", set_parameter),
        hear("parameter set", set_parameter, replied(&[])),
        ask("Reset", reset),
        hear("reset", reset, replied(&[])),
        hear("fault", get(TENTHS), lucid_reply(0xD0, &[])),
        hear("GetIo, B8h", get(TENTHS), lucid_reply(0xB8, &[])),
        hear("SetIoGroup, B2h", set_all, lucid_reply(0xB2, &[])),
        hear("SetParam, C0h", set_parameter, lucid_reply(0xC0, &[])),
        hear(
            "tenths for hundredths",
            get(HUNDREDTHS),
            replied(&value_bytes(TENTHS, false)),
        ),
        hear("no step of a probe", get(TENTHS), replied(&[1, 0])),
        hear("no reply", get(TENTHS), Vec::new()),
        ask("channel 4", channel_4),
        hear("channel 4", channel_4, lucid_reply(0xB8, &[])),
    ]
}

fn lucid_sweeps() -> Vec<Group> {
    let group = |mask| Lucid::GetIoGroup {
        mask,
        value_type: HUNDREDTHS,
    };
    // The mask of the first so many channels.
    let first = |count: usize| (1 << count) - 1;
    vec![
        lengths("LucidControl master: ask SetIoGroup", [2, 4, 6, 8], |bytes| {
            ask("", set_group(first(bytes / 2), bytes / 2))
        }),
        lengths("LucidControl master: hear hundredths", [4, 8, 12, 16], |bytes| {
            let data = value_bytes(HUNDREDTHS, true).repeat(bytes / 4);
            hear("", group(first(bytes / 4)), lucid_reply(0, &data))
        }),
        lengths("LucidControl master: hear any LEN", data_lengths(), |count| {
            hear("", group(0x0F), lucid_reply(0, &vec![0; count]))
        }),
        Group::new("LucidControl master, commands", lucid_commands()),
        Group::new("LucidControl master, replies", lucid_replies()),
    ]
}

/// Every command on every mask, type, option and parameter, and the reply that it is done or that gives values.
fn lucid_commands() -> Vec<Case> {
    let mut cases = Vec::new();
    let mut both = |name: String, request: Lucid, data: Vec<u8>| {
        cases.push(ask(name.clone(), request));
        cases.push(hear(name, request, lucid_reply(0, &data)));
    };
    for mask in 0..=16_u32 {
        let count = mask.count_ones() as usize;
        for value_type in [DEMAND, TENTHS, HUNDREDTHS, 0x42] {
            let name = format!("GetIoGroup {mask:02X} {value_type:02X}");
            let data = value_bytes(value_type, true).repeat(count);
            both(name, Lucid::GetIoGroup { mask, value_type }, data);
        }
        both(format!("SetIoGroup {mask:02X}"), set_group(mask, count), Vec::new());
    }
    for channel in [0, 3, 4] {
        for value_type in [DEMAND, TENTHS, HUNDREDTHS, 0x42] {
            let name = format!("GetIo {channel} {value_type:02X}");
            let data = value_bytes(value_type, true);
            both(name, Lucid::GetIo { channel, value_type }, data);
        }
        for value in [0, 65_535, 65_536] {
            let request = Lucid::SetIo {
                channel,
                value_type: DEMAND,
                value,
            };
            both(format!("SetIo {channel} {value}"), request, Vec::new());
        }
        for address in [CYCLE, FLOOR, 0x1130] {
            for value in [0_u32, 1_000, 65_535, 60_000_000] {
                let request = Lucid::GetParam {
                    channel,
                    option: 0,
                    address,
                };
                let name = format!("GetParam {channel} {address:X}, {value}");
                both(name, request, value.to_le_bytes().to_vec());
                let request = Lucid::SetParam {
                    channel,
                    option: 0x80,
                    address,
                    value,
                };
                both(format!("SetParam {channel} {address:X} {value}"), request, Vec::new());
            }
            for option in [0x00, 0x01, 0x80, 0x81] {
                let request = Lucid::Reset {
                    channel,
                    option,
                    address,
                };
                both(format!("Reset {channel} {option:02X} {address:X}"), request, Vec::new());
            }
        }
    }
    cases
}

/// Every status in reply to a read and to a set, with LEN 0 and with data.
fn lucid_replies() -> Vec<Case> {
    let requests = [
        (
            "GetIoGroup",
            Lucid::GetIoGroup {
                mask: 0x0F,
                value_type: HUNDREDTHS,
            },
        ),
        ("SetIoGroup", set_group(0x0F, 4)),
    ];
    let mut cases = Vec::new();
    for (name, request) in requests {
        for status in [0x00, 0xA0, 0xB0, 0xB2, 0xB4, 0xB6, 0xB8, 0xBA, 0xC0, 0xD0, 0xFF] {
            for length in [0, 1, 16] {
                let reply = lucid_reply(status, &vec![0; length]);
                cases.push(hear(format!("{name}, {status:02X} {length:02X}"), request, reply));
            }
        }
    }
    cases
}
