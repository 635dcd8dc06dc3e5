//! Stack bytes of the library's entries: what their code takes, and what calls were seen to touch.

use std::arch::asm;
use std::collections::HashMap;

use crate::archive::NEW;
use crate::calls::{Bed, Entry, Request};
use crate::groups::Plan;
use crate::questions::{LucidQuestion, UnitQuestion};

/// A return address, a pushed register.
const WORD: usize = 8;
/// Words of the painted stack, and those left above the arguments.
const AREA: usize = 8192;
const ABOVE: usize = 16;
const PAINT: u64 = 0xA5C3_3C5A_A5C3_3C5A;
/// Arguments that the C convention passes in registers.
const REGISTERS: usize = 6;

/// Makes a call on a painted stack and gives how many bytes of it were touched from the return address down.
fn touched(bed: &mut Bed, request: &Request) -> usize {
    let mut area = vec![PAINT; AREA];
    let mut arguments = arguments(bed, request);
    arguments.resize(arguments.len().max(REGISTERS), 0);
    let (registers, stack) = arguments.split_at(REGISTERS);
    // The stack pointer is a multiple of 16 where a call is made.
    let address = area.as_mut_ptr() as usize;
    let top = (AREA - ABOVE - stack.len()) / 2 * 2 + address % 16 / WORD;
    area[top..top + stack.len()].copy_from_slice(stack);
    // A call by the C convention, on a stack of its own.
    unsafe {
        asm!(
            "mov r12, rsp",
            "mov rsp, r13",
            "call r14",
            "mov rsp, r12",
            in("rdi") registers[0],
            in("rsi") registers[1],
            in("rdx") registers[2],
            in("rcx") registers[3],
            in("r8") registers[4],
            in("r9") registers[5],
            out("r12") _,
            in("r13") area.as_mut_ptr().add(top),
            in("r14") request.entry.address(),
            clobber_abi("C"),
        );
    }
    let bytes: Vec<u8> = area[..top].iter().flat_map(|word| word.to_ne_bytes()).collect();
    let paint = PAINT.to_ne_bytes();
    let kept = bytes
        .iter()
        .zip(paint.iter().cycle())
        .take_while(|(byte, paint)| byte == paint);
    bytes.len() - kept.count()
}

/// A slice as C gets it.
fn lent<T>(slice: &[T]) -> [u64; 2] {
    [slice.as_ptr() as u64, slice.len() as u64]
}

/// A call's arguments in their order.
fn arguments(bed: &mut Bed, request: &Request) -> Vec<u64> {
    let tables = [
        lent(&bed.tables.words),
        lent(&bed.tables.memory),
        lent(&bed.tables.ports),
    ]
    .concat();
    let answer = [&lent(&bed.answer)[..], &[&raw mut bed.len as u64]].concat();
    let bytes = lent(&request.bytes).to_vec();
    let channel = u64::from(request.channel);
    let questions = &request.questions;
    // C returns a struct of this size where a first argument points.
    let heard = vec![&raw mut bed.heard as u64];
    match request.entry {
        Entry::SetCode => [tables, vec![channel, request.code.into()]].concat(),
        Entry::Restart => tables,
        Entry::Governor => [tables, vec![channel, &raw mut bed.degrees as u64]].concat(),
        Entry::WriteImage => [tables, answer].concat(),
        Entry::ReadImage => [tables, bytes].concat(),
        Entry::Datalink | Entry::Lecom | Entry::Love | Entry::Lucid => [tables, bytes, answer].concat(),
        Entry::ReceiveDatalink | Entry::ReceiveLecom | Entry::ReceiveLove | Entry::ReceiveLucid => {
            let frame = lent(&bed.answer).to_vec();
            let told = vec![&raw mut bed.taken as u64, &raw mut bed.len as u64];
            [tables, bytes, frame, told].concat()
        }
        Entry::QuietDatalink | Entry::QuietLecom | Entry::QuietLove | Entry::QuietLucid => tables,
        Entry::Step => {
            let ask = &request.ask;
            if ask.begins {
                bed.phase = NEW;
            }
            let asked = vec![
                &raw mut bed.phase as u64,
                ask.kind.into(),
                ask.ia.into(),
                ask.address.into(),
            ];
            let rest = [lent(ask.states), lent(ask.answer)].concat();
            [asked, bytes, rest, answer].concat()
        }
        Entry::AskLecom => [asked_of_unit(&questions.lecom), answer].concat(),
        Entry::HearLecom => [heard, asked_of_unit(&questions.lecom), bytes].concat(),
        Entry::AskLove => [asked_of_unit(&questions.love), answer].concat(),
        Entry::HearLove => [heard, asked_of_unit(&questions.love), bytes].concat(),
        Entry::AskLucid => [asked_of_lucid(&questions.lucid), answer].concat(),
        Entry::HearLucid => [heard, asked_of_lucid(&questions.lucid), bytes].concat(),
    }
}

/// The request of LECOM's or Love's master.
fn asked_of_unit<Second>(question: &UnitQuestion<Second>) -> Vec<u64> {
    let value = question.value as u32;
    vec![
        question.address.into(),
        question.task.into(),
        question.place.into(),
        value.into(),
    ]
}

/// The request of LucidControl's master.
fn asked_of_lucid(question: &LucidQuestion) -> Vec<u64> {
    let asked = [
        question.command.into(),
        question.p1.into(),
        question.p2.into(),
        question.address.into(),
    ];
    [&asked[..], &lent(&question.values)].concat()
}

/// The most bytes that a call of the plan touched, for each entry.
pub fn most_touched(plan: &Plan) -> HashMap<Entry, usize> {
    let mut most = HashMap::new();
    for group in plan.groups() {
        let mut bed = group.bed();
        for case in &group.cases {
            let bytes = touched(&mut bed, &case.request);
            let entry = most.entry(case.request.entry).or_default();
            *entry = bytes.max(*entry);
        }
    }
    most
}

/// What a function of the library takes of the stack, from its disassembly.
#[derive(Default)]
struct Frame {
    /// Pushed registers and locals.
    own: usize,
    /// How far below the stack pointer it reaches without moving it.
    below: usize,
    callees: Vec<String>,
}

/// The functions of the library.
pub struct Frames {
    functions: HashMap<String, Frame>,
}

impl Frames {
    /// Reads what `objdump -dr --no-show-raw-insn` writes of the library.
    pub fn read(disassembly: &str) -> Self {
        let mut functions: HashMap<String, Frame> = HashMap::new();
        let mut name = String::new();
        for line in disassembly.lines() {
            if let Some(started) = line.strip_suffix(">:").and_then(|line| line.split_once(" <")) {
                name = started.1.to_owned();
            }
            let frame = functions.entry(name.clone()).or_default();
            if let Some((_, callee)) = line.split_once("R_X86_64_PLT32\t") {
                let callee = callee.trim_start_matches(".text.").trim_end_matches("-0x4");
                frame.callees.push(callee.to_owned());
            } else if let Some((_, instruction)) = line.split_once(":\t") {
                frame.add(instruction);
            }
        }
        Self { functions }
    }

    /// The most bytes that a call of a function takes, with its return address. Functions outside the library (memcpy,
    /// memset) count with their return address alone.
    pub fn most(&self, name: &str) -> usize {
        let Some(frame) = self.functions.get(name) else {
            return WORD;
        };
        let callees = frame.callees.iter().map(|callee| self.most(callee)).max();
        WORD + frame.own + frame.below.max(callees.unwrap_or(0))
    }
}

impl Frame {
    /// Adds what one instruction takes: a push, a lowered stack pointer, a place below it.
    fn add(&mut self, instruction: &str) {
        let hex = |text: &str| usize::from_str_radix(text, 16).expect("objdump writes hexadecimal figures");
        if instruction.starts_with("push") {
            self.own += WORD;
        } else if let Some(lowered) = instruction.strip_prefix("sub    $0x") {
            if let Some(bytes) = lowered.strip_suffix(",%rsp") {
                self.own += hex(bytes);
            }
        } else if instruction.starts_with("and ") {
            assert!(!instruction.ends_with("%rsp"), "an aligned frame is not reckoned with");
        }
        if let Some((front, _)) = instruction.split_once("(%rsp") {
            if let Some((_, bytes)) = front.rsplit_once("-0x") {
                self.below = self.below.max(hex(bytes));
            }
        }
    }
}
