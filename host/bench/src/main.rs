//! Measures the firmware library against the second program, on the same calls (README.md).

mod archive;
mod callgrind;
mod calls;
mod console;
mod frames;
mod groups;
mod masters;
mod questions;
mod receivers;
mod report;
mod stack;
mod time;

use std::path::Path;
use std::process::ExitCode;

use groups::{Group, Plan, Start};

const USAGE: &str =
    "bench agree | count | report DUMPS DISASSEMBLY | console FOLDER | calls DUMPS (host/bench/run does all)";

fn main() -> ExitCode {
    let words: Vec<String> = std::env::args().skip(1).collect();
    let words: Vec<&str> = words.iter().map(String::as_str).collect();
    let plan = Plan::new();
    match words[..] {
        ["agree"] => agree(&plan),
        ["count"] => callgrind::count_all(&plan),
        ["report", dumps, disassembly] => report(&plan, Path::new(dumps), Path::new(disassembly)),
        ["console", folder] => report::console(&plan, Path::new(folder)),
        ["calls", dumps] => calls(&plan, Path::new(dumps)),
        _ => {
            eprintln!("{USAGE}");
            return ExitCode::from(2);
        }
    }
    ExitCode::SUCCESS
}

/// Both sides give the same on every call that is measured.
fn agree(plan: &Plan) {
    let mut count = 0;
    let both = |group: &&Group| group.start != Start::Wordless;
    for group in plan.groups().into_iter().filter(both) {
        let mut bed = group.bed();
        for case in &group.cases {
            calls::agree(&mut bed, &case.request, &format!("{}: {}", group.name, case.name));
            count += 1;
        }
    }
    println!("Both sides agree on all {count} calls.\n");
}

fn report(plan: &Plan, dumps: &Path, disassembly: &Path) {
    let costs = callgrind::read_costs(plan, dumps).expect("callgrind's dumps can be read");
    let counted = report::Counted::all(plan, &costs);
    let text = std::fs::read_to_string(disassembly).expect("the disassembly can be read");
    report::calls_by_group(plan, &counted);
    report::receivers(plan, &counted);
    report::fitness(plan, &counted);
    report::worst(plan, &counted, &stack::Frames::read(&text), &stack::most_touched(plan));
    report::growth(plan, &counted);
    report::times(plan);
}

fn calls(plan: &Plan, dumps: &Path) {
    let costs = callgrind::read_costs(plan, dumps).expect("callgrind's dumps can be read");
    report::calls(&report::Counted::all(plan, &costs));
}
