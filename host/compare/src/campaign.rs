//! The whole comparison: scripts of all sections in turn, and what came up in them.

use std::time::{Duration, Instant};

use crate::calls::Listed;
use crate::entries::Entry;
use crate::judge::{Finding, Judge};
use crate::minimise::minimise;
use crate::options::Options;
use crate::report;
use crate::sections::{Scribe, Section, SECTIONS};
use crate::tally::Tally;
use crate::writer::Line;

/// How long a failing script is made shorter; then it is shown as it is.
const SHORTENING_LIMIT: Duration = Duration::from_secs(60);

/// What was compared so far.
#[derive(Default)]
struct Total {
    tally: Tally,
    scripts: usize,
    lines: usize,
}

/// Compares the programs; false if something was found or a number is missing.
pub fn run(options: &Options) -> Result<bool, String> {
    let started = Instant::now();
    let judge = Judge::new(&options.console, &options.reference)?;
    let listed = match judge.listed() {
        Ok(listed) => listed,
        Err(difference) => {
            print!("{difference}");
            return Ok(false);
        }
    };
    let sections: Vec<&Section> = SECTIONS
        .iter()
        .filter(|section| options.section.as_deref().is_none_or(|name| name == section.name))
        .filter(|section| section.is_possible(&listed))
        .collect();
    if sections.is_empty() {
        return Err("the console lists too few calls".to_owned());
    }
    let mut total = Total::default();
    if let Some(report) = compare(options, &judge, &listed, &sections, &mut total)? {
        print!("{report}");
        return Ok(false);
    }
    let faults = total.tally.faults(&wanted(&sections, &listed), &listed);
    print!("{}", total.tally);
    for fault in &faults {
        println!("{fault}");
    }
    let Total { scripts, lines, .. } = total;
    let (seed, seconds) = (options.seed, started.elapsed().as_secs());
    println!("seed {seed}: {scripts} scripts of {lines} lines agree, in {seconds} s");
    Ok(faults.is_empty())
}

/// The entries whose every number the sections must bring up.
fn wanted(sections: &[&Section], listed: &Listed) -> Vec<Entry> {
    sections
        .iter()
        .flat_map(|section| section.entries.iter().copied())
        .filter(|entry| listed.has(entry.call()))
        .collect()
}

/// Runs the sections' scripts in turn; reports the first finding.
fn compare(
    options: &Options,
    judge: &Judge,
    listed: &Listed,
    sections: &[&Section],
    total: &mut Total,
) -> Result<Option<String>, String> {
    let parts: usize = sections.iter().map(|section| section.part()).sum();
    let mut scribes: Vec<Scribe> = sections
        .iter()
        .map(|section| {
            let calls = section.calls(options.calls, parts);
            Scribe::new(section, listed, options.seed, calls)
        })
        .collect();
    loop {
        let before = total.scripts;
        for scribe in &mut scribes {
            let Some(script) = scribe.script() else {
                continue;
            };
            total.scripts += 1;
            total.lines += script.len();
            let script: Vec<&Line> = script.iter().collect();
            let Section { name, is_exchange, .. } = *scribe.section;
            if let Some(finding) = judge.judge(&script, is_exchange, &mut total.tally)? {
                let shown = shortest(judge, &script, is_exchange, finding);
                return Ok(Some(format!("section {name}, seed {}\n{shown}", options.seed)));
            }
        }
        if total.scripts == before {
            return Ok(None);
        }
    }
}

/// Makes a failing script short and tells what is wrong with it.
fn shortest(judge: &Judge, script: &[&Line], is_exchange: bool, finding: Finding) -> String {
    let started = Instant::now();
    let end = (finding.line() + 1).min(script.len());
    let mut found = finding;
    let mut fails = |fewer: &[&Line]| {
        if started.elapsed() > SHORTENING_LIMIT {
            return false;
        }
        match judge.judge(fewer, is_exchange, &mut Tally::default()) {
            Ok(Some(finding)) => {
                found = finding;
                true
            }
            _ => false,
        }
    };
    // A program that stops may have answered less than it had read, so the lines that follow can be needed.
    let begun = &script[..end];
    let whole = if fails(begun) { begun } else { script };
    let kept = minimise(whole.to_vec(), fails);
    report::tell(&found, &kept)
}
