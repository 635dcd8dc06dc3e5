//! The tables, as Markdown.

use std::cmp::Reverse;
use std::collections::HashMap;
use std::path::Path;
use std::slice::from_ref;

use crate::callgrind::Cost;
use crate::calls::Entry;
use crate::console;
use crate::groups::{Case, Group, Plan, LONGEST_INTERROGATE};
use crate::stack::Frames;
use crate::time::{ratio, Ratio};

/// What is aimed at: no more instructions than the second program's, and as many for fitness alone.
const RATIO_AIM: f64 = 1.0;
const FITNESS_AIM: u64 = 430;
/// And of the second program's time for the console.
const CONSOLE_AIM: f64 = 1.5;

/// How a figure stands to its aim.
fn verdict(is_met: bool) -> &'static str {
    if is_met {
        "met"
    } else {
        "missed"
    }
}

/// How a ratio stands to its aim, if it has one.
fn ratio_verdict(ratio: f64, has_aim: bool) -> &'static str {
    if has_aim {
        verdict(ratio <= RATIO_AIM)
    } else {
        ""
    }
}

/// A group with what its calls cost.
pub struct Counted<'a> {
    group: &'a Group,
    costs: &'a [Cost],
}

impl<'a> Counted<'a> {
    /// All groups of a plan.
    pub fn all(plan: &'a Plan, costs: &'a [Vec<Cost>]) -> Vec<Self> {
        let pairs = plan.groups().into_iter().zip(costs);
        pairs.map(|(group, costs)| Self { group, costs }).collect()
    }

    fn cases(&self) -> impl Iterator<Item = (&'a Case, Cost)> {
        self.group.cases.iter().zip(self.costs.iter().copied())
    }

    fn total(&self) -> Cost {
        let sum = |part: fn(&Cost) -> u64| self.costs.iter().map(part).sum();
        Cost {
            archive: sum(|cost| cost.archive),
            second: sum(|cost| cost.second),
        }
    }
}

fn quotient(cost: Cost) -> f64 {
    cost.archive as f64 / cost.second as f64
}

fn named<'a>(counted: &'a [Counted], group: &Group) -> &'a Counted<'a> {
    let found = counted.iter().find(|counted| std::ptr::eq(counted.group, group));
    found.expect("every group of the plan is counted")
}

/// Instructions of a call, group by group.
pub fn calls_by_group(plan: &Plan, counted: &[Counted]) {
    println!("## Instructions of a call\n");
    println!("| Calls | Number of them | Library | Second program | Ratio | Aim: {RATIO_AIM:.1} |");
    println!("|---|---|---|---|---|---|");
    for group in &plan.dialects {
        print_group(named(counted, group), true);
    }
    for (case, cost) in named(counted, &plan.others).cases() {
        print_mean(&case.name, 1, cost, true);
    }
    print_group(named(counted, &plan.master), true);
    for group in &plan.masters {
        print_group(named(counted, group), true);
    }
    print_group(named(counted, &plan.mix), false);
    let mut interrogates = named(counted, &plan.dialects[0]).cases();
    let longest = interrogates.find(|(case, _)| case.name == LONGEST_INTERROGATE);
    let (_, cost) = longest.expect("it is among Datalink's calls");
    print_mean("Datalink interrogate of 32 bytes", 1, cost, false);
}

/// Instructions of a receiver's call.
pub fn receivers(plan: &Plan, counted: &[Counted]) {
    println!("\n## Instructions of a receiver's call\n");
    println!("| Calls | Number of them | Library | Second program | Ratio | Aim: {RATIO_AIM:.1} |");
    println!("|---|---|---|---|---|---|");
    for group in plan.at_rest.iter().chain(&plan.receivers) {
        print_group(named(counted, group), true);
    }
}

/// A row with the mean of a group's calls.
fn print_group(counted: &Counted, has_aim: bool) {
    print_mean(&counted.group.name, counted.costs.len(), counted.total(), has_aim);
}

/// A row with the mean of some calls.
fn print_mean(name: &str, count: usize, total: Cost, has_aim: bool) {
    let mean = |instructions: u64| instructions as f64 / count as f64;
    let (archive, second) = (mean(total.archive), mean(total.second));
    let ratio = quotient(total);
    let verdict = ratio_verdict(ratio, has_aim);
    println!("| {name} | {count} | {archive:.0} | {second:.0} | {ratio:.3} | {verdict} |");
}

/// Fitness alone.
pub fn fitness(plan: &Plan, counted: &[Counted]) {
    let cost = |group| named(counted, group).costs[0];
    let unfit = cost(&plan.unfit).archive;
    println!("\n## Fitness alone\n");
    println!(
        "| Governor of channel 4 | Library | Second program | Ratio | Library, fitness itself | Aim: {FITNESS_AIM} |"
    );
    println!("|---|---|---|---|---|---|");
    for (name, group) in [
        ("nothing pending", &plan.fitness),
        ("a change pending", &plan.fitness_pending),
    ] {
        let whole = cost(group);
        println!(
            "| {name} | {} | {} | {:.3} | {} | {} |",
            whole.archive,
            whole.second,
            quotient(whole),
            whole.archive - unfit,
            verdict(whole.archive <= FITNESS_AIM)
        );
    }
    println!("| refused before fitness, by a table's length | {unfit} | | | | |");
}

/// The dearest call of each entry on either side, and the library's stack. A receiver is lent no more bytes than a frame has.
pub fn worst(plan: &Plan, counted: &[Counted], frames: &Frames, touched: &HashMap<Entry, usize>) {
    let is_long = |counted: &&Counted| plan.long.iter().any(|group| std::ptr::eq(group, counted.group));
    println!("\n## Worst cases\n");
    println!(
        "| Entry | Library | its dearest call | Second program | its dearest call | Ratio | Stack bytes | of them touched |"
    );
    println!("|---|---|---|---|---|---|---|---|");
    for &entry in Entry::ALL {
        let dearest = |part: fn(&Cost) -> u64| {
            let calls = counted
                .iter()
                .filter(|counted| !is_long(counted))
                .flat_map(|counted| counted.cases().map(|(case, cost)| (counted.group, case, part(&cost))));
            let own = calls.filter(|(_, case, _)| case.request.entry == entry);
            let (group, case, cost) = own
                .min_by_key(|(_, _, cost)| Reverse(*cost))
                .expect("every entry is called");
            (format!("{}: {}", group.name, case.name), cost)
        };
        let (archive_call, archive) = dearest(|cost| cost.archive);
        let (second_call, second) = dearest(|cost| cost.second);
        println!(
            "| `{}` | {archive} | {archive_call} | {second} | {second_call} | {:.3} | {} | {} |",
            entry.symbol(),
            quotient(Cost { archive, second }),
            frames.most(entry.symbol()),
            touched[&entry]
        );
    }
}

/// How cost grows with a frame, sweep by sweep.
pub fn growth(plan: &Plan, counted: &[Counted]) {
    println!("\n## Growth with the frame\n");
    println!(
        "| Sweep | Bytes | Library | Second program | Library, each byte | Second program, each byte | Aim: no more |"
    );
    println!("|---|---|---|---|---|---|---|");
    let mut sweeps: Vec<(&str, Vec<(f64, Cost)>)> = Vec::new();
    for group in plan.sweeps.iter().chain(&plan.long) {
        for (case, cost) in named(counted, group).cases() {
            let Some((name, length)) = &case.point else {
                continue;
            };
            let point = (*length as f64, cost);
            match sweeps.iter_mut().find(|(known, _)| known == name) {
                Some((_, points)) => points.push(point),
                None => sweeps.push((name, vec![point])),
            }
        }
    }
    for (name, points) in sweeps {
        let (first, last) = (points[0], points[points.len() - 1]);
        let (archive, second) = (slope(&points, |cost| cost.archive), slope(&points, |cost| cost.second));
        println!(
            "| {name} | {} to {} | {} to {} | {} to {} | {archive:.1} | {second:.1} | {} |",
            first.0,
            last.0,
            first.1.archive,
            last.1.archive,
            first.1.second,
            last.1.second,
            // A second program that gets cheaper by the byte asks no more than one that stays as it is.
            verdict(archive <= second.max(0.0))
        );
    }
}

/// Instructions for each byte more, by least squares.
fn slope(points: &[(f64, Cost)], part: fn(&Cost) -> u64) -> f64 {
    let count = points.len() as f64;
    let mean_length = points.iter().map(|point| point.0).sum::<f64>() / count;
    let mean_cost = points.iter().map(|point| part(&point.1) as f64).sum::<f64>() / count;
    let product = |point: &(f64, Cost)| (point.0 - mean_length) * (part(&point.1) as f64 - mean_cost);
    let square = |point: &(f64, Cost)| (point.0 - mean_length).powi(2);
    let slope = points.iter().map(product).sum::<f64>() / points.iter().map(square).sum::<f64>();
    // No minus before a zero.
    (slope * 10.0).round() / 10.0 + 0.0
}

/// Time ratios, in the order of the instructions.
pub fn times(plan: &Plan) {
    println!("\n## Time, library to second program\n");
    println!("| Calls | Median | Middle half of the turns | Aim: {RATIO_AIM:.1} |");
    println!("|---|---|---|---|");
    for group in &plan.dialects {
        print_time(&group.name, &ratio(group, &group.cases), true);
    }
    for case in &plan.others.cases {
        print_time(&case.name, &ratio(&plan.others, from_ref(case)), true);
    }
    for (group, has_aim) in [(&plan.master, true), (&plan.mix, false), (&plan.fitness, false)] {
        print_time(&group.name, &ratio(group, &group.cases), has_aim);
    }
    for group in plan.masters.iter().chain(&plan.receivers) {
        print_time(&group.name, &ratio(group, &group.cases), true);
    }
}

/// A row with the time of some calls.
fn print_time(name: &str, ratio: &Ratio, has_aim: bool) {
    let verdict = ratio_verdict(ratio.median, has_aim);
    println!(
        "| {name} | {:.2} | {:.2} to {:.2} | {verdict} |",
        ratio.median, ratio.lower, ratio.upper
    );
}

/// The console's time.
pub fn console(plan: &Plan, folder: &Path) {
    let (ratio, lines) = console::ratio(plan, folder).expect("both programs can be run");
    println!("\n## The console\n");
    println!("| Script | Lines | Median | Middle half of the turns | Aim: {CONSOLE_AIM:.1} |");
    println!("|---|---|---|---|---|");
    println!(
        "| the calls of the tables above, again and again | {lines} | {:.2} | {:.2} to {:.2} | {} |",
        ratio.median,
        ratio.lower,
        ratio.upper,
        verdict(ratio.median <= CONSOLE_AIM)
    );
}

/// Every call by itself.
pub fn calls(counted: &[Counted]) {
    println!("\n## Every call\n");
    println!("| Group | Call | Library | Second program | Ratio |");
    println!("|---|---|---|---|---|");
    for counted in counted {
        for (case, cost) in counted.cases() {
            println!(
                "| {} | {} | {} | {} | {:.3} |",
                counted.group.name,
                case.name,
                cost.archive,
                cost.second,
                quotient(cost)
            );
        }
    }
}
