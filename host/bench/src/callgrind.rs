//! Counting the instructions of single calls: requests to callgrind, and its dumps.

use std::arch::asm;
use std::collections::HashMap;
use std::ffi::CString;
use std::hint::black_box;
use std::path::Path;
use std::{fs, io};

use crate::calls::{thunk, Bed, Request, Side};
use crate::groups::{Group, Plan};

/// Callgrind's requests, by valgrind/callgrind.h.
const TOGGLE_COLLECT: usize = 0x4354_0002;
const DUMP_STATS_AT: usize = 0x4354_0003;

/// Asks callgrind for something; outside callgrind this does nothing.
#[inline(always)]
fn ask(request: usize, argument: usize) {
    let arguments = [request, argument, 0, 0, 0, 0];
    // Valgrind's mark for a request (valgrind/valgrind.h): four rotations that leave rdi as it was, and an exchange of
    // rbx with itself.
    unsafe {
        asm!(
            "rol rdi, 3",
            "rol rdi, 13",
            "rol rdi, 61",
            "rol rdi, 51",
            "xchg rbx, rbx",
            in("rax") arguments.as_ptr(),
            inout("rdx") 0_usize => _,
            options(nostack),
        );
    }
}

/// Makes a call; callgrind dumps what it cost under a label.
fn count(side: Side, bed: &mut Bed, request: &Request, label: &str) {
    let label = CString::new(label).expect("a label has no zero byte");
    let thunk = black_box(thunk(side, request.entry));
    ask(TOGGLE_COLLECT, 0);
    thunk(bed, request);
    ask(TOGGLE_COLLECT, 0);
    ask(DUMP_STATS_AT, label.as_ptr() as usize);
}

/// A letter for a side.
fn letter(side: Side) -> char {
    match side {
        Side::Archive => 'a',
        Side::Second => 's',
        Side::Bare => 'b',
    }
}

/// The label of a call: side, group, place in the group.
fn label(side: Side, group: usize, place: usize) -> String {
    format!("{}-{group}-{place}", letter(side))
}

/// Makes every call on every side, once unseen and once counted. To be run under callgrind.
pub fn count_all(plan: &Plan) {
    for (number, group) in plan.groups().into_iter().enumerate() {
        for side in [Side::Archive, Side::Second, Side::Bare] {
            let mut bed = group.bed();
            for case in &group.cases {
                thunk(side, case.request.entry)(&mut bed, &case.request);
            }
            let mut bed = group.bed();
            for (place, case) in group.cases.iter().enumerate() {
                count(side, &mut bed, &case.request, &label(side, number, place));
            }
        }
    }
}

/// Instructions of a call on both sides.
#[derive(Clone, Copy)]
pub struct Cost {
    pub archive: u64,
    pub second: u64,
}

/// Instructions of every call of the plan, as callgrind dumped them into a folder: for each group and each of its cases.
pub fn read_costs(plan: &Plan, folder: &Path) -> io::Result<Vec<Vec<Cost>>> {
    let dumps = read_dumps(folder)?;
    let raw = |side, group, place| {
        let label = label(side, group, place);
        *dumps.get(&label).unwrap_or_else(|| panic!("no dump of call {label}"))
    };
    let cost = |group, place| {
        let measuring = raw(Side::Bare, group, place);
        Cost {
            archive: raw(Side::Archive, group, place) - measuring,
            second: raw(Side::Second, group, place) - measuring,
        }
    };
    let costs = |(number, group): (usize, &Group)| (0..group.cases.len()).map(|place| cost(number, place)).collect();
    Ok(plan.groups().into_iter().enumerate().map(costs).collect())
}

/// The totals of all dumps by their labels.
fn read_dumps(folder: &Path) -> io::Result<HashMap<String, u64>> {
    let mut dumps = HashMap::new();
    for file in fs::read_dir(folder)? {
        let text = fs::read_to_string(file?.path())?;
        let field = |name: &str| text.lines().find_map(|line| line.strip_prefix(name));
        let label = field("desc: Trigger: Client Request: ");
        let total = field("summary: ").and_then(|total| total.trim().parse().ok());
        if let (Some(label), Some(total)) = (label, total) {
            dumps.insert(label.to_owned(), total);
        }
    }
    Ok(dumps)
}
