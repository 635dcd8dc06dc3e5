//! The console's time against the second program's, as programs, on one long script.

use std::fs::{self, File};
use std::io;
use std::path::Path;
use std::process::Command;
use std::time::{Duration, Instant};

use reference::masters::{lecom, love, lucid};

use crate::archive::BYTES;
use crate::calls::{Entry, Request};
use crate::groups::{Plan, Start};
use crate::time::Ratio;

/// The console and the second program, seen from the repository's root.
const CONSOLE: &str = "crates/console/out/console";
const SECOND: &str = "host/reference/target/release/reference";

/// Lines of the script at least, and turns of both programs on it.
const LINES: usize = 200_000;
const TURNS: usize = 41;

/// The answer buffer that a line asks for.
const ROOM: usize = 320;

/// Time as a ratio, turn by turn, and how many lines the script has. Files go to a folder.
pub fn ratio(plan: &Plan, folder: &Path) -> io::Result<(Ratio, usize)> {
    let script = folder.join("script");
    let lines = long_script(plan);
    fs::write(&script, lines.join("\n"))?;
    let answers = [folder.join("console"), folder.join("second")];
    let mut ratios = Vec::with_capacity(TURNS);
    for turn in 0..TURNS {
        // Who begins changes from turn to turn.
        let begins = turn % 2;
        let mut times = [Duration::ZERO; 2];
        for side in [begins, 1 - begins] {
            times[side] = run_time([CONSOLE, SECOND][side], &script, &answers[side])?;
        }
        ratios.push(times[0].as_secs_f64() / times[1].as_secs_f64());
    }
    let [console, second] = answers.map(fs::read);
    assert!(console? == second?, "both programs write the same");
    Ok((Ratio::of(ratios), lines.len()))
}

/// The time of a program from its start to its end, from a file to a file.
fn run_time(program: &str, script: &Path, answers: &Path) -> io::Result<Duration> {
    let (input, output) = (File::open(script)?, File::create(answers)?);
    let start = Instant::now();
    let status = Command::new(program).stdin(input).stdout(output).status()?;
    let time = start.elapsed();
    assert!(status.success(), "{program} ends well");
    Ok(time)
}

/// All calls that are measured, as lines, again and again.
fn long_script(plan: &Plan) -> Vec<String> {
    let lent = plan.groups().into_iter().filter(|group| group.start != Start::Wordless);
    let once: Vec<String> = lent
        .flat_map(|group| &group.cases)
        .flat_map(|case| lines(&case.request))
        .collect();
    once.iter()
        .cycle()
        .take(LINES.next_multiple_of(once.len()))
        .cloned()
        .collect()
}

/// A call as the console takes it. Where an exchange begins, the line master's request comes first; before a reply to
/// another master comes what it was asked.
fn lines(request: &Request) -> Vec<String> {
    let Request {
        channel,
        code,
        bytes,
        ask,
        questions,
        ..
    } = request;
    let line = match request.entry {
        Entry::SetCode => format!("probe {channel} {code}"),
        Entry::Restart => "restart".to_owned(),
        Entry::Governor => format!("governor {channel}"),
        Entry::Datalink => format!("datalink {ROOM}{}", figures(bytes)),
        Entry::Lecom => format!("lecom {ROOM}{}", figures(bytes)),
        Entry::Love => format!("love {ROOM}{}", figures(bytes)),
        Entry::Lucid => format!("lucid {ROOM}{}", figures(bytes)),
        Entry::ReceiveDatalink => format!("receive datalink {ROOM}{}", figures(bytes)),
        Entry::ReceiveLecom => format!("receive lecom {ROOM}{}", figures(bytes)),
        Entry::ReceiveLove => format!("receive love {ROOM}{}", figures(bytes)),
        Entry::ReceiveLucid => format!("receive lucid {ROOM}{}", figures(bytes)),
        Entry::QuietDatalink => "quiet datalink".to_owned(),
        Entry::QuietLecom => "quiet lecom".to_owned(),
        Entry::QuietLove => "quiet love".to_owned(),
        Entry::QuietLucid => "quiet lucid".to_owned(),
        Entry::WriteImage => format!("save {ROOM}"),
        Entry::ReadImage => format!("load{}", figures(bytes)),
        Entry::Step => format!("step {ROOM}{}", figures(ask.answer)),
        Entry::AskLecom => ask_lecom(&questions.lecom.second),
        Entry::AskLove => ask_love(&questions.love.second),
        Entry::AskLucid => ask_lucid(&questions.lucid.second),
        Entry::HearLecom => format!("reply lecom{}", figures(bytes)),
        Entry::HearLove => format!("reply love{}", figures(bytes)),
        Entry::HearLucid => format!("reply lucid{}", figures(bytes)),
    };
    let asked = match request.entry {
        Entry::Step if ask.begins => {
            let (ia, address, sent) = (ask.ia, ask.address, figures(bytes));
            match ask.kind {
                BYTES => format!("request change {ia} {address}{sent}"),
                _ => format!("request bits {ia} {address}{sent} /{}", figures(ask.states)),
            }
        }
        Entry::HearLecom => ask_lecom(&questions.lecom.second),
        Entry::HearLove => ask_love(&questions.love.second),
        Entry::HearLucid => ask_lucid(&questions.lucid.second),
        _ => return vec![line],
    };
    vec![asked, line]
}

fn ask_lecom(request: &lecom::Request) -> String {
    let lecom::Request { address, code, order } = request;
    let front = format!("ask lecom {ROOM} {address}");
    match order {
        lecom::Order::Read => format!("{front} read {code}"),
        lecom::Order::Write(value) => format!("{front} write {code} {value}"),
    }
}

fn ask_love(request: &love::Request) -> String {
    let love::Request { address, order } = request;
    let front = format!("ask love {ROOM} {address}");
    match order {
        love::Order::Status => format!("{front} status"),
        love::Order::Read { place } => format!("{front} read {place}"),
        love::Order::Write { place, value } => format!("{front} write {place} {value}"),
    }
}

fn ask_lucid(request: &lucid::Request) -> String {
    use lucid::Request::{GetIo, GetIoGroup, GetParam, Reset, SetIo, SetIoGroup, SetParam};
    let rest = match request {
        GetIo { channel, value_type } => format!("getio {channel} {value_type}"),
        GetIoGroup { mask, value_type } => format!("getiogroup {mask} {value_type}"),
        SetIo {
            channel,
            value_type,
            value,
        } => format!("setio {channel} {value_type} {value}"),
        SetIoGroup {
            mask,
            value_type,
            values,
        } => {
            let values: String = values.iter().map(|value| format!(" {value}")).collect();
            format!("setiogroup {mask} {value_type}{values}")
        }
        GetParam {
            channel,
            option,
            address,
        } => format!("getparam {channel} {option} {address}"),
        SetParam {
            channel,
            option,
            address,
            value,
        } => format!("setparam {channel} {option} {address} {value}"),
        Reset {
            channel,
            option,
            address,
        } => format!("reset {channel} {option} {address}"),
    };
    format!("ask lucid {ROOM} {rest}")
}

/// Bytes of two figures, each after a space.
fn figures(bytes: &[u8]) -> String {
    bytes.iter().map(|byte| format!(" {byte:02X}")).collect()
}
