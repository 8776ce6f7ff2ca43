//! A brute-force oracle for the interval path explorer, after document 01 and Nos. 1 to 8 of
//! document 02.
//!
//! A group holds every choice of its box, each with a plain machine of its own; a value is fixed if
//! all of them give the same, and pieces are made by sorting the choices. Nothing is computed from
//! the ends of intervals alone, so it is slow and plain: boxes of up to some 100,000 choices. Where
//! choices are counted in larger boxes, a group holds the two at its corners alone.
//!
//! It is the other side of every comparison, a reading of the papers by itself: it has a decoder, a
//! machine, numbers, and writers and readers of records and jobs of its own, and shares none with
//! tool or crates.

#![allow(dead_code)] // a program that includes this module uses a part of it

use std::collections::{BTreeMap, BTreeSet};
use std::rc::Rc;

pub const MEMORY_WORDS: usize = 512;
pub const STACK_START: u64 = 4096;
pub const HIGHEST_ADDRESS: u64 = 4088;
pub const READ: u64 = 63;
pub const EXIT: u64 = 93;
pub const WORDS_PER_ENTRY: usize = 8;
const BLOCK_WORDS: usize = 64;
const PAYLOAD_WORDS: usize = BLOCK_WORDS - 1;
const BLOCK_BYTES: usize = 512;

// Kinds, as document 01 numbers them; since No. 3 of document 02 no path has kind 2.
pub const EXITED: u64 = 1;
pub const BAD_PC: u64 = 3;
pub const BAD_WORD: u64 = 4;
pub const BAD_ADDRESS: u64 = 5;
pub const BAD_CALL: u64 = 6;
pub const STEP_LIMIT: u64 = 7;
pub const NOT_FOLLOWED: u64 = 8;
pub const TRACE_FULL: u64 = 9;

// Reasons of kind 8; since No. 5 of document 02 no path has reason 2 or 3.
pub const BOTH_OPEN: u64 = 1;
pub const DIVISOR_OPEN: u64 = 4;
pub const QUOTIENTS: u64 = 5;
pub const BASE_OPEN: u64 = 6;
pub const CALL_OPEN: u64 = 7;

/// Low and high, both included.
pub type Interval = (u64, u64);

// ---------------------------------------------------------------------------------------------
// The decoder: one line for each row of the instruction table.

#[derive(Clone, Copy, Debug, PartialEq, Eq)]
pub enum Operation {
    Add,
    Sub,
    Mul,
    Divu,
    Remu,
    Sltu,
}

/// Immediates are already widened to words, in two's complement.
#[derive(Clone, Copy, Debug, PartialEq, Eq)]
pub enum Instruction {
    Lui { rd: usize, imm: u64 },
    Addi { rd: usize, rs1: usize, imm: u64 },
    Register { operation: Operation, rd: usize, rs1: usize, rs2: usize },
    Ld { rd: usize, rs1: usize, imm: u64 },
    Sd { rs1: usize, rs2: usize, imm: u64 },
    Beq { rs1: usize, rs2: usize, imm: u64 },
    Jal { rd: usize, imm: u64 },
    Jalr { rd: usize, rs1: usize, imm: u64 },
    Ecall,
}

fn bits(word: u32, from: u32, count: u32) -> u32 {
    (word >> from) & ((1 << count) - 1)
}

/// The lowest `width` bits of a value as a signed number, as a word of 64 bits.
fn sign_extend(value: u32, width: u32) -> u64 {
    let unused = 64 - width;
    (((value as u64) << unused) as i64 >> unused) as u64
}

fn imm_i(word: u32) -> u64 {
    sign_extend(bits(word, 20, 12), 12)
}

fn imm_s(word: u32) -> u64 {
    sign_extend(bits(word, 25, 7) << 5 | bits(word, 7, 5), 12)
}

fn imm_b(word: u32) -> u64 {
    let high = bits(word, 31, 1) << 12 | bits(word, 7, 1) << 11;
    sign_extend(high | bits(word, 25, 6) << 5 | bits(word, 8, 4) << 1, 13)
}

fn imm_u(word: u32) -> u64 {
    sign_extend(bits(word, 12, 20) << 12, 32)
}

fn imm_j(word: u32) -> u64 {
    let high = bits(word, 31, 1) << 20 | bits(word, 12, 8) << 12;
    sign_extend(high | bits(word, 20, 1) << 11 | bits(word, 21, 10) << 1, 21)
}

/// What a word means; none if it matches no row.
pub fn decode(word: u32) -> Option<Instruction> {
    let rd = bits(word, 7, 5) as usize;
    let rs1 = bits(word, 15, 5) as usize;
    let rs2 = bits(word, 20, 5) as usize;
    let register = |operation| Some(Instruction::Register { operation, rd, rs1, rs2 });
    match (bits(word, 0, 7), bits(word, 12, 3), bits(word, 25, 7)) {
        (55, _, _) => Some(Instruction::Lui { rd, imm: imm_u(word) }),
        (19, 0, _) => Some(Instruction::Addi { rd, rs1, imm: imm_i(word) }),
        (51, 0, 0) => register(Operation::Add),
        (51, 0, 32) => register(Operation::Sub),
        (51, 0, 1) => register(Operation::Mul),
        (51, 5, 1) => register(Operation::Divu),
        (51, 7, 1) => register(Operation::Remu),
        (51, 3, 0) => register(Operation::Sltu),
        (3, 3, _) => Some(Instruction::Ld { rd, rs1, imm: imm_i(word) }),
        (35, 3, _) => Some(Instruction::Sd { rs1, rs2, imm: imm_s(word) }),
        (99, 0, _) => Some(Instruction::Beq { rs1, rs2, imm: imm_b(word) }),
        (111, _, _) => Some(Instruction::Jal { rd, imm: imm_j(word) }),
        (103, 0, _) => Some(Instruction::Jalr { rd, rs1, imm: imm_i(word) }),
        _ if word == 115 => Some(Instruction::Ecall),
        _ => None,
    }
}

// ---------------------------------------------------------------------------------------------
// The plain machine.

/// Memory as lent, shared by all machines of a job, and the words that this machine wrote.
#[derive(Clone, Debug)]
pub struct Memory {
    lent: Rc<Vec<u64>>,
    written: BTreeMap<usize, u64>,
}

impl Memory {
    /// Words beyond those lent are 0.
    pub fn new(lent: &[u64]) -> Memory {
        assert!(lent.len() <= MEMORY_WORDS, "memory has {} words", lent.len());
        Memory { lent: Rc::new(lent.to_vec()), written: BTreeMap::new() }
    }

    pub fn load(&self, index: usize) -> u64 {
        let lent = self.lent.get(index).copied().unwrap_or(0);
        self.written.get(&index).copied().unwrap_or(lent)
    }

    fn store(&mut self, index: usize, value: u64) {
        self.written.insert(index, value);
    }
}

#[derive(Clone, Debug)]
pub struct Machine {
    pub pc: u64,
    pub registers: [u64; 32],
    pub memory: Memory,
    pub reads: usize,
}

impl Machine {
    pub fn start(memory: Memory) -> Machine {
        let mut registers = [0; 32];
        registers[2] = STACK_START;
        Machine { pc: 0, registers, memory, reads: 0 }
    }

    fn put(&mut self, register: usize, value: u64) {
        // register 0 stays 0
        if register != 0 {
            self.registers[register] = value;
        }
    }

    fn offset(&self, register: usize, imm: u64) -> u64 {
        self.registers[register].wrapping_add(imm)
    }

    fn advance(&mut self) {
        self.pc = self.pc.wrapping_add(4);
    }

    /// One instruction completed; the caller has made sure that nothing stops the machine at it.
    fn step(&mut self, instruction: Instruction, inputs: &[u64]) {
        match instruction {
            Instruction::Lui { rd, imm } => self.write(rd, imm),
            Instruction::Addi { rd, rs1, imm } => self.write(rd, self.offset(rs1, imm)),
            Instruction::Register { operation, rd, rs1, rs2 } => {
                self.write(rd, result(operation, self.registers[rs1], self.registers[rs2]))
            }
            Instruction::Ld { rd, rs1, imm } => {
                self.write(rd, self.memory.load(self.offset(rs1, imm) as usize / 8))
            }
            Instruction::Sd { rs1, rs2, imm } => {
                self.memory.store(self.offset(rs1, imm) as usize / 8, self.registers[rs2]);
                self.advance();
            }
            Instruction::Beq { rs1, rs2, imm } => {
                let taken = self.registers[rs1] == self.registers[rs2];
                self.pc = self.pc.wrapping_add(if taken { imm } else { 4 });
            }
            Instruction::Jal { rd, imm } => self.jump(rd, self.pc.wrapping_add(imm)),
            Instruction::Jalr { rd, rs1, imm } => self.jump(rd, self.offset(rs1, imm) & !1),
            Instruction::Ecall => self.read(inputs),
        }
    }

    fn write(&mut self, rd: usize, value: u64) {
        self.put(rd, value);
        self.advance();
    }

    /// The target is computed before the link is written: they may be one register.
    fn jump(&mut self, rd: usize, target: u64) {
        self.put(rd, self.pc.wrapping_add(4));
        self.pc = target;
    }

    fn read(&mut self, inputs: &[u64]) {
        let left = self.reads < inputs.len();
        if left {
            self.memory.store(self.registers[11] as usize / 8, inputs[self.reads]);
            self.reads += 1;
        }
        self.write(10, if left { 8 } else { 0 });
    }
}

fn result(operation: Operation, a: u64, b: u64) -> u64 {
    match operation {
        Operation::Add => a.wrapping_add(b),
        Operation::Sub => a.wrapping_sub(b),
        Operation::Mul => a.wrapping_mul(b),
        // No. 3 of document 02: by 0, DIVU gives MAX and REMU the dividend
        Operation::Divu => a.checked_div(b).unwrap_or(u64::MAX),
        Operation::Remu => a.checked_rem(b).unwrap_or(a),
        Operation::Sltu => (a < b) as u64,
    }
}

/// The word at pc; none if pc is not a multiple of 4 or is beyond the code.
fn word_at(code: &[u32], pc: u64) -> Option<u32> {
    let inside = pc % 4 == 0 && pc / 4 < code.len() as u64;
    inside.then(|| code[(pc / 4) as usize])
}

fn bad_address(address: u64) -> bool {
    address % 8 != 0 || address > HIGHEST_ADDRESS
}

// ---------------------------------------------------------------------------------------------
// One run of the plain machine, for a choice of any box.

/// Where a run is: after `steps` instructions, and the kind that stopped it if one did.
#[derive(Clone, Debug)]
pub struct Run {
    pub machine: Machine,
    pub steps: u64,
    pub stop: Option<u64>,
}

/// At most `steps` instructions for one choice; kinds 1 and 3 to 6 stop it before.
pub fn run_plain(code: &[u32], memory: &[u64], inputs: &[u64], steps: u64) -> Run {
    let mut run = Run { machine: Machine::start(Memory::new(memory)), steps: 0, stop: None };
    while run.steps < steps {
        match next_plain(code, &run.machine) {
            Err(kind) => {
                run.stop = Some(kind);
                return run;
            }
            Ok(instruction) => run.machine.step(instruction, inputs),
        }
        run.steps += 1;
    }
    run
}

/// A completed step of a run: where it was, how the fork rules sort it, the entries for its writes.
#[derive(Clone, Copy, Debug, PartialEq, Eq, PartialOrd, Ord)]
pub struct Step {
    pub pc: u64,
    pub class: u64,
    pub writes: u64,
}

/// The steps of a run; a stop ends it. Two choices fell in the same piece at every fork exactly if
/// these are the same.
pub fn trace_plain(code: &[u32], memory: &[u64], inputs: &[u64], steps: u64) -> Vec<Step> {
    let mut machine = Machine::start(Memory::new(memory));
    let mut trace = Vec::new();
    while (trace.len() as u64) < steps {
        let Ok(instruction) = next_plain(code, &machine) else { break };
        let class = class_of(&machine, instruction);
        let writes = writes(instruction, machine.reads < inputs.len());
        trace.push(Step { pc: machine.pc, class, writes });
        machine.step(instruction, inputs);
    }
    trace
}

/// The instruction that the machine completes next, or the kind that stops it there.
fn next_plain(code: &[u32], machine: &Machine) -> Result<Instruction, u64> {
    let word = word_at(code, machine.pc).ok_or(BAD_PC)?;
    let instruction = decode(word).ok_or(BAD_WORD)?;
    match plain_stop(machine, instruction) {
        Some(kind) => Err(kind),
        None => Ok(instruction),
    }
}

/// Points 5, 6 and 9 of the ending order, for one machine.
fn plain_stop(machine: &Machine, instruction: Instruction) -> Option<u64> {
    let value = |register: usize| machine.registers[register];
    match instruction {
        Instruction::Ecall => call_stop(value(17), value(10), value(11), value(12)),
        Instruction::Ld { rs1, imm, .. } | Instruction::Sd { rs1, imm, .. } => {
            bad_address(machine.offset(rs1, imm)).then_some(BAD_ADDRESS)
        }
        _ => None,
    }
}

/// How ECALL stops: points 5, 6 and 9, on the registers 17, 10, 11 and 12.
fn call_stop(number: u64, file: u64, address: u64, count: u64) -> Option<u64> {
    if number == EXIT {
        Some(EXITED)
    } else if number != READ || file != 0 || count != 8 {
        Some(BAD_CALL)
    } else if bad_address(address) {
        Some(BAD_ADDRESS)
    } else {
        None
    }
}

// ---------------------------------------------------------------------------------------------
// Groups: a box with all of its choices.

/// What an accepted call lends; memory beyond the words given is 0.
#[derive(Clone, Debug)]
pub struct Job {
    pub code: Vec<u32>,
    pub memory: Vec<u64>,
    pub limit: u64,
    pub intervals: Vec<Interval>,
    pub entries: u64,
}

/// An ended path; its number is its place in the listing. `reason` is 0 unless the kind is 8.
#[derive(Clone, Debug, PartialEq, Eq)]
pub struct Path {
    pub kind: u64,
    pub reason: u64,
    pub pc: u64,
    pub steps: u64,
    pub boxes: Vec<Interval>,
    pub reads: u64,
    pub registers: [Interval; 32],
}

#[derive(Clone)]
struct Choice {
    inputs: Rc<Vec<u64>>,
    machine: Machine,
}

struct Group {
    choices: Vec<Choice>,
    steps: u64,
    used: u64,
}

/// Every way to take one value from each interval.
pub fn all_inputs(intervals: &[Interval]) -> Vec<Vec<u64>> {
    let mut all = vec![Vec::new()];
    for &(low, high) in intervals {
        let longer = |inputs: &Vec<u64>| {
            let inputs = inputs.clone();
            (low..=high).map(move |value| [inputs.as_slice(), &[value]].concat())
        };
        all = all.iter().flat_map(longer).collect();
    }
    all
}

fn starting_group(job: &Job) -> Group {
    let machine = Machine::start(Memory::new(&job.memory));
    let start = |inputs| Choice { inputs: Rc::new(inputs), machine: machine.clone() };
    let choices = all_inputs(&job.intervals).into_iter().map(start).collect();
    Group { choices, steps: 0, used: 0 }
}

impl Group {
    fn low_high(&self, value: impl Fn(&Choice) -> u64) -> Interval {
        let low = self.choices.iter().map(&value).min();
        let high = self.choices.iter().map(&value).max();
        (low.expect("a group has a choice"), high.expect("a group has a choice"))
    }

    fn register(&self, register: usize) -> Interval {
        self.low_high(|choice| choice.machine.registers[register])
    }

    /// Every choice in the present box gives the same value.
    fn is_fixed(&self, register: usize) -> bool {
        let (low, high) = self.register(register);
        low == high
    }

    fn is_open(&self, register: usize) -> bool {
        !self.is_fixed(register)
    }

    /// The value of a fixed register.
    fn value(&self, register: usize) -> u64 {
        let (low, high) = self.register(register);
        assert!(low == high, "register {} is not fixed", register);
        low
    }

    /// What all choices must share: they have fallen in the same pieces.
    fn shared(&self, value: impl Fn(&Choice) -> u64) -> u64 {
        let (low, high) = self.low_high(value);
        assert!(low == high, "choices of one group went apart");
        low
    }

    fn pc(&self) -> u64 {
        self.shared(|choice| choice.machine.pc)
    }

    fn reads(&self) -> u64 {
        self.shared(|choice| choice.machine.reads as u64)
    }

    fn input_count(&self) -> usize {
        self.choices[0].inputs.len()
    }

    /// The box of the choices: each input's least and greatest value.
    fn intervals(&self) -> Vec<Interval> {
        (0..self.input_count()).map(|input| self.low_high(|choice| choice.inputs[input])).collect()
    }

    /// A box has all the choices between its lows and highs; a group must be one.
    fn is_box(&self) -> bool {
        let size = |(low, high): Interval| (high - low) as usize + 1;
        self.intervals().into_iter().map(size).product::<usize>() == self.choices.len()
    }
}

// ---------------------------------------------------------------------------------------------
// The ending order.

/// A kind and its reason.
pub type End = (u64, u64);

/// Points 1 to 3: the instruction that a group comes to, or the group's end.
fn next(job: &Job, group: &Group) -> Result<Instruction, End> {
    if group.steps == job.limit {
        return Err((STEP_LIMIT, 0));
    }
    let word = word_at(&job.code, group.pc()).ok_or((BAD_PC, 0))?;
    decode(word).ok_or((BAD_WORD, 0))
}

/// Points 4 to 10: the trace entries that the instruction takes, or the group's end.
fn decide(job: &Job, group: &Group, instruction: Instruction) -> Result<u64, End> {
    if let Some(end) = end_at(group, instruction) {
        return Err(end);
    }
    let needed = entries_needed(group, instruction);
    if needed > job.entries - group.used {
        return Err((TRACE_FULL, 0));
    }
    Ok(needed)
}

/// A group of any size, by the choices at its lows and at its highs alone: where every value only
/// rises or only falls with one input, these decide.
fn corners(job: &Job, intervals: &[Interval], steps: u64, used: u64) -> Group {
    let corner = |end: fn(&Interval) -> u64| {
        let inputs: Vec<u64> = intervals.iter().map(end).collect();
        let machine = run_plain(&job.code, &job.memory, &inputs, steps).machine;
        Choice { inputs: Rc::new(inputs), machine }
    };
    Group { choices: vec![corner(|ends| ends.0), corner(|ends| ends.1)], steps, used }
}

/// The end of a group of any size.
pub fn end_by_corners(job: &Job, intervals: &[Interval], steps: u64, used: u64) -> Option<End> {
    let group = corners(job, intervals, steps, used);
    next(job, &group).and_then(|instruction| decide(job, &group, instruction)).err()
}

/// Points 4 to 9.
fn end_at(group: &Group, instruction: Instruction) -> Option<End> {
    match instruction {
        Instruction::Ecall => call_end(group),
        Instruction::Ld { rs1, imm, .. } | Instruction::Sd { rs1, imm, .. } => {
            data_end(group, rs1, imm)
        }
        Instruction::Jalr { rs1, .. } if group.is_open(rs1) => Some((NOT_FOLLOWED, BASE_OPEN)),
        // No. 1 of document 02: BEQ, SUB and SLTU naming one register twice do not meet reason 1
        Instruction::Beq { rs1, rs2, .. } if rs1 != rs2 => both_open(group, rs1, rs2),
        // arithmetic into register 0 skips points 7 and 8
        Instruction::Register { operation, rd, rs1, rs2 } if rd != 0 => match operation {
            Operation::Divu | Operation::Remu => division_end(group, operation, rs1, rs2),
            Operation::Mul => multiplication_end(group, rs1, rs2),
            Operation::Sub | Operation::Sltu if rs1 == rs2 => None,
            Operation::Add | Operation::Sub | Operation::Sltu => both_open(group, rs1, rs2),
        },
        _ => None,
    }
}

fn call_end(group: &Group) -> Option<End> {
    if group.is_open(17) {
        return Some((NOT_FOLLOWED, CALL_OPEN));
    }
    let read = group.value(17) == READ;
    if read && [10, 11, 12].iter().any(|&register| group.is_open(register)) {
        return Some((NOT_FOLLOWED, CALL_OPEN));
    }
    // the registers that decide are fixed, so any choice's machine tells
    plain_stop(&group.choices[0].machine, Instruction::Ecall).map(|kind| (kind, 0))
}

fn data_end(group: &Group, base: usize, imm: u64) -> Option<End> {
    if group.is_open(base) {
        return Some((NOT_FOLLOWED, BASE_OPEN));
    }
    let address = group.value(base).wrapping_add(imm);
    bad_address(address).then_some((BAD_ADDRESS, 0))
}

fn both_open(group: &Group, rs1: usize, rs2: usize) -> Option<End> {
    let open = group.is_open(rs1) && group.is_open(rs2);
    open.then_some((NOT_FOLLOWED, BOTH_OPEN))
}

fn division_end(group: &Group, operation: Operation, rs1: usize, rs2: usize) -> Option<End> {
    if group.is_open(rs2) {
        return Some((NOT_FOLLOWED, DIVISOR_OPEN));
    }
    quotients_end(group, operation, rs1, rs2)
}

fn multiplication_end(group: &Group, rs1: usize, rs2: usize) -> Option<End> {
    both_open(group, rs1, rs2).or_else(|| {
        let (value, factor) = if group.is_fixed(rs2) { (rs1, rs2) } else { (rs2, rs1) };
        quotients_end(group, Operation::Mul, value, factor)
    })
}

/// Reason 5, by a fixed number; DIVU, which sorts by nothing, never has it.
fn quotients_end(group: &Group, operation: Operation, value: usize, by: usize) -> Option<End> {
    (quotients_apart(group, operation, value, by) > 1).then_some((NOT_FOLLOWED, QUOTIENTS))
}

/// How far apart the fork rule's quotients are at the value's low and high.
fn quotients_apart(group: &Group, operation: Operation, value: usize, by: usize) -> u64 {
    let (low, high) = group.register(value);
    let quotient = |value| operation_class(operation, value, group.value(by));
    quotient(high) - quotient(low)
}

/// The product div 2^64.
fn high_half(a: u64, b: u64) -> u64 {
    ((a as u128 * b as u128) >> 64) as u64
}

// ---------------------------------------------------------------------------------------------
// Forks: the choices sorted into pieces.

/// What a fork rule sorts a choice by: wrap, quotient or comparison.
fn class_of(machine: &Machine, instruction: Instruction) -> u64 {
    let value = |register: usize| machine.registers[register];
    match instruction {
        // nothing is computed into register 0
        Instruction::Addi { rd: 0, .. } | Instruction::Register { rd: 0, .. } => 0,
        Instruction::Addi { rs1, imm, .. } => value(rs1).overflowing_add(imm).1 as u64,
        Instruction::Register { operation, rs1, rs2, .. } => {
            operation_class(operation, value(rs1), value(rs2))
        }
        // less, equal and greater
        Instruction::Beq { rs1, rs2, .. } => value(rs1).cmp(&value(rs2)) as i8 as u64,
        _ => 0,
    }
}

fn operation_class(operation: Operation, a: u64, b: u64) -> u64 {
    match operation {
        Operation::Add => a.overflowing_add(b).1 as u64,
        Operation::Sub => a.overflowing_sub(b).1 as u64,
        Operation::Mul => high_half(a, b),
        // No. 5 of document 02: no fork by any divisor
        Operation::Divu => 0,
        // No. 3 of document 02: by 0 there is no quotient, and no fork
        Operation::Remu => a.checked_div(b).unwrap_or(0),
        Operation::Sltu => (a < b) as u64,
    }
}

/// Point 10: an entry for each write, and one more for a fork.
fn entries_needed(group: &Group, instruction: Instruction) -> u64 {
    let class = |choice: &Choice| class_of(&choice.machine, instruction);
    let (low, high) = group.low_high(class);
    let input_left = group.reads() < group.input_count() as u64;
    writes(instruction, input_left) + (low != high) as u64
}

/// The registers (not 0) and memory words that a step writes.
fn writes(instruction: Instruction, input_left: bool) -> u64 {
    match instruction {
        Instruction::Lui { rd, .. }
        | Instruction::Addi { rd, .. }
        | Instruction::Register { rd, .. }
        | Instruction::Ld { rd, .. }
        | Instruction::Jal { rd, .. }
        | Instruction::Jalr { rd, .. } => (rd != 0) as u64,
        Instruction::Sd { .. } => 1,
        Instruction::Beq { .. } => 0,
        // register 10, and the word where an input is left
        Instruction::Ecall => 1 + input_left as u64,
    }
}

/// The pieces of a group, one step later.
fn split(group: Group, instruction: Instruction, needed: u64) -> Vec<Group> {
    let (steps, used) = (group.steps + 1, group.used + needed);
    let mut classes: BTreeMap<u64, Vec<Choice>> = BTreeMap::new();
    for mut choice in group.choices {
        let class = class_of(&choice.machine, instruction);
        choice.machine.step(instruction, &choice.inputs);
        classes.entry(class).or_default().push(choice);
    }
    let piece = |choices| Group { choices, steps, used };
    in_rising_order(classes.into_values().map(piece).collect())
}

/// Pieces differ in one input alone, the input cut: they are put in its rising order.
fn in_rising_order(mut pieces: Vec<Group>) -> Vec<Group> {
    if pieces.len() == 1 {
        return pieces;
    }
    assert!(pieces.iter().all(Group::is_box), "a piece is not a box");
    pieces.sort_by_key(Group::intervals);
    for pair in pieces.windows(2) {
        let (below, above) = (pair[0].intervals(), pair[1].intervals());
        let cut = below.iter().zip(&above).filter(|(b, a)| b != a);
        let rising: Vec<bool> = cut.map(|(b, a)| b.1 < a.0).collect();
        assert!(rising == [true], "a fork must cut one input");
    }
    pieces
}

/// The pieces of a group that has its corners alone, one step later.
fn split_corners(job: &Job, mut group: Group, instruction: Instruction, needed: u64) -> Vec<Group> {
    let (steps, used) = (group.steps + 1, group.used + needed);
    let (low, high) = group.low_high(|choice| class_of(&choice.machine, instruction));
    if low == high {
        let step = |choice: &mut Choice| choice.machine.step(instruction, &choice.inputs);
        group.choices.iter_mut().for_each(step);
        return vec![Group { steps, used, ..group }];
    }
    let class = |inputs: &[u64]| {
        let machine = run_plain(&job.code, &job.memory, inputs, group.steps).machine;
        class_of(&machine, instruction)
    };
    let pieces = cut(&group.intervals(), &class);
    pieces.iter().map(|piece| corners(job, piece, steps, used)).collect()
}

/// The boxes of one class each, in rising order of the input cut: the one along which it changes.
fn cut(boxed: &[Interval], class: &impl Fn(&[u64]) -> u64) -> Vec<Vec<Interval>> {
    let along = |input: usize, value: u64| {
        let mut inputs: Vec<u64> = boxed.iter().map(|ends| ends.0).collect();
        inputs[input] = value;
        class(&inputs)
    };
    let changes = |&input: &usize| along(input, boxed[input].0) != along(input, boxed[input].1);
    let Some(input) = (0..boxed.len()).find(changes) else { return vec![boxed.to_vec()] };
    let last = last_of_first_class(boxed[input], |value| along(input, value));
    let (mut below, mut above) = (boxed.to_vec(), boxed.to_vec());
    (below[input].1, above[input].0) = (last, last + 1);
    [vec![below], cut(&above, class)].concat()
}

/// By halving; the class at the low does not come back once it has changed.
fn last_of_first_class((mut low, mut high): Interval, class: impl Fn(u64) -> u64) -> u64 {
    let first = class(low);
    while high - low > 1 {
        let middle = low + (high - low) / 2;
        if class(middle) == first {
            low = middle;
        } else {
            high = middle;
        }
    }
    low
}

// ---------------------------------------------------------------------------------------------
// The plain listing.

fn path_of(group: &Group, (kind, reason): End) -> Path {
    let mut registers = [(0, 0); 32];
    for (register, interval) in registers.iter_mut().enumerate() {
        *interval = group.register(register);
    }
    Path {
        kind,
        reason,
        pc: group.pc(),
        steps: group.steps,
        boxes: group.intervals(),
        reads: group.reads(),
        registers,
    }
}

/// All the paths of a job, in their order.
pub fn listing(job: &Job) -> Vec<Path> {
    listing_and_met(job).0
}

/// The listing, and what its groups came to of `TO_MEET`.
pub fn listing_and_met(job: &Job) -> (Vec<Path>, BTreeSet<Met>) {
    moves(job, starting_group(job), split, usize::MAX)
}

/// The first paths of the listing of a box of any size, at most so many.
pub fn listing_by_corners(job: &Job, most: usize) -> Vec<Path> {
    let split = |group, instruction, needed| split_corners(job, group, instruction, needed);
    moves(job, corners(job, &job.intervals, 0, 0), split, most).0
}

/// The moves from a starting group on, until no group waits or there are the most paths.
fn moves(
    job: &Job,
    start: Group,
    split: impl Fn(Group, Instruction, u64) -> Vec<Group>,
    most: usize,
) -> (Vec<Path>, BTreeSet<Met>) {
    let (mut ended, mut met) = (Vec::new(), BTreeSet::new());
    // the first waiting group is the last of the vector
    let mut waiting = vec![start];
    while let Some(group) = waiting.pop().filter(|_| ended.len() < most) {
        let decided = next(job, &group).and_then(|instruction| {
            met.extend(meets(&group, instruction));
            Ok((instruction, decide(job, &group, instruction)?))
        });
        match decided {
            Err(end) => ended.push(path_of(&group, end)),
            Ok((instruction, needed)) => {
                waiting.extend(split(group, instruction, needed).into_iter().rev())
            }
        }
    }
    (ended, met)
}

/// The number of the one path in whose box a choice lies.
pub fn owner(paths: &[Path], inputs: &[u64]) -> Result<usize, String> {
    let owners = (0..paths.len()).filter(|&number| has(&paths[number], inputs));
    match owners.collect::<Vec<usize>>()[..] {
        [owner] => Ok(owner),
        ref owners => Err(format!("{inputs:?} lies in {} paths", owners.len())),
    }
}

fn has(path: &Path, inputs: &[u64]) -> bool {
    path.boxes.iter().zip(inputs).all(|(ends, value)| (ends.0..=ends.1).contains(value))
}

/// What random jobs must come to; the first are the operations in their order.
pub const TO_MEET: [&str; 13] = [
    "ADD twice",
    "SUB twice",
    "MUL twice",
    "DIVU twice",
    "REMU twice",
    "SLTU twice",
    "BEQ twice",
    "DIVU by zero",
    "REMU by zero",
    // No. 5 of document 02: by a fixed number that is neither 0 nor a power of two
    "MUL by no power",
    "DIVU by no power",
    "MUL by no power with two quotients",
    "MUL by no power with more",
];
const BEQ_TWICE: usize = 6;
const DIVU_BY_ZERO: usize = 7;
const REMU_BY_ZERO: usize = 8;
const MUL_BY_NO_POWER: usize = 9;
const DIVU_BY_NO_POWER: usize = 10;
const TWO_QUOTIENTS: usize = 11;
const MORE_QUOTIENTS: usize = 12;

/// So many of them, the first, are met with a fixed operand too; a fixed product has one quotient.
pub const TO_MEET_FIXED: usize = TWO_QUOTIENTS;

/// One of them, by its place there, and whether the operand was open: the one that is multiplied or
/// divided, and the first of a comparison.
#[derive(Clone, Copy, Debug, PartialEq, Eq, PartialOrd, Ord)]
pub struct Met {
    pub place: usize,
    pub open: bool,
}

/// None into register 0, where nothing is asked of the operands.
fn meets(group: &Group, instruction: Instruction) -> Vec<Met> {
    let twice = |place, register| Met { place, open: group.is_open(register) };
    match instruction {
        Instruction::Beq { rs1, rs2, .. } if rs1 == rs2 => vec![twice(BEQ_TWICE, rs1)],
        Instruction::Register { operation, rd, rs1, rs2 } if rd != 0 => {
            let mut met = meets_by(group, operation, rs1, rs2);
            if operation == Operation::Mul {
                met.extend(meets_by(group, operation, rs2, rs1));
            }
            met.extend((rs1 == rs2).then(|| twice(operation as usize, rs1)));
            met
        }
        _ => Vec::new(),
    }
}

/// What a value meets with the number that it is multiplied or divided by, where that is fixed.
fn meets_by(group: &Group, operation: Operation, value: usize, by: usize) -> Vec<Met> {
    if group.is_open(by) {
        return Vec::new();
    }
    let number = group.value(by);
    let no_power = number != 0 && !number.is_power_of_two();
    let places: &[usize] = match operation {
        Operation::Divu if number == 0 => &[DIVU_BY_ZERO],
        Operation::Remu if number == 0 => &[REMU_BY_ZERO],
        Operation::Divu if no_power => &[DIVU_BY_NO_POWER],
        Operation::Mul if no_power => match quotients_apart(group, operation, value, by) {
            0 => &[MUL_BY_NO_POWER],
            1 => &[MUL_BY_NO_POWER, TWO_QUOTIENTS],
            _ => &[MUL_BY_NO_POWER, MORE_QUOTIENTS],
        },
        _ => &[],
    };
    let open = group.is_open(value);
    places.iter().map(|&place| Met { place, open }).collect()
}

// ---------------------------------------------------------------------------------------------
// A whole call: the questions at the door, and the report.

/// A path takes two blocks, with any number of inputs.
fn path_bytes(_inputs: usize) -> usize {
    2 * BLOCK_BYTES
}

/// The number of the first question that is answered by no.
pub fn door(
    code_words: usize,
    intervals: &[u64],
    limit: u64,
    table_words: usize,
    memory_words: usize,
    report_bytes: usize,
    first: u64,
) -> Option<u64> {
    let questions = [
        (1..=1024).contains(&code_words),
        intervals.len() % 2 == 0 && intervals.len() <= 16,
        intervals.chunks_exact(2).all(|pair| pair[0] <= pair[1]),
        (1..=65536).contains(&limit),
        table_words >= WORDS_PER_ENTRY,
        memory_words == MEMORY_WORDS,
        report_bytes % path_bytes(intervals.len() / 2) == 0 && report_bytes > 0,
        first < 1 << 32,
    ];
    let no = questions.iter().position(|&yes| !yes)?;
    Some(no as u64 + 1)
}

/// `refusal` is 0 for an accepted call.
#[derive(Clone, Copy, Debug, PartialEq, Eq)]
pub struct Answer {
    pub refusal: u64,
    pub count: u64,
    pub more: bool,
}

/// The answer to a call, with its report left as the call leaves it.
pub fn call(
    code: &[u32],
    memory: &[u64],
    intervals: &[u64],
    limit: u64,
    table_words: usize,
    report: &mut [u8],
    first: u64,
) -> Answer {
    let refusal =
        door(code.len(), intervals, limit, table_words, memory.len(), report.len(), first);
    if let Some(refusal) = refusal {
        return Answer { refusal, count: 0, more: false };
    }
    let job = Job {
        code: code.to_vec(),
        memory: memory.to_vec(),
        limit,
        intervals: intervals.chunks_exact(2).map(|pair| (pair[0], pair[1])).collect(),
        entries: (table_words / WORDS_PER_ENTRY) as u64,
    };
    write_page(&listing(&job), report, first)
}

/// The paths from `first` on, as many as exist and fit.
pub fn write_page(paths: &[Path], report: &mut [u8], first: u64) -> Answer {
    let inputs = paths.first().map_or(0, |path| path.boxes.len());
    let wanted = paths.iter().enumerate().skip(first as usize);
    let mut count = 0;
    for ((number, path), place) in wanted.zip(report.chunks_exact_mut(path_bytes(inputs))) {
        let (head, tail) = place.split_at_mut(BLOCK_BYTES);
        write_block(head, &first_block(number as u64, path));
        write_block(tail, &second_block(number as u64, path));
        count += 1;
    }
    Answer { refusal: 0, count, more: first + count < paths.len() as u64 }
}

fn first_block(number: u64, path: &Path) -> [u64; BLOCK_WORDS] {
    let mut block = [0; BLOCK_WORDS];
    block[0] = number;
    block[1] = path.kind;
    block[2] = path.pc;
    block[3] = path.steps;
    block[4] = path.boxes.len() as u64;
    for (input, &(low, high)) in path.boxes.iter().enumerate() {
        block[5 + input] = low;
        block[13 + input] = high;
    }
    if path.kind == EXITED {
        (block[21], block[22]) = path.registers[10];
    }
    block[23] = path.reason;
    block[24] = path.reads;
    with_check(block)
}

fn second_block(number: u64, path: &Path) -> [u64; BLOCK_WORDS] {
    let mut block = [0; BLOCK_WORDS];
    block[0] = number;
    for register in 1..32 {
        (block[2 * register - 1], block[2 * register]) = path.registers[register];
    }
    with_check(block)
}

fn with_check(mut block: [u64; BLOCK_WORDS]) -> [u64; BLOCK_WORDS] {
    block[PAYLOAD_WORDS] = check(&block[..PAYLOAD_WORDS]);
    block
}

fn write_block(bytes: &mut [u8], block: &[u64; BLOCK_WORDS]) {
    for (place, word) in bytes.chunks_exact_mut(8).zip(block) {
        place.copy_from_slice(&word.to_le_bytes());
    }
}

/// The check word of a payload.
pub fn check(payload: &[u64]) -> u64 {
    payload.iter().fold(1, |sum: u64, word| sum.rotate_left(1).wrapping_add(*word))
}

// ---------------------------------------------------------------------------------------------
// Placing rows: No. 2 of document 02.

pub const BAD_RECORDS: u64 = 12;
pub const BAD_ROWS: u64 = 13;

/// The answer for a row in no path.
pub const NO_PATH: u64 = u64::MAX;

/// Writes the path number for each row; 0, or the number of the refusal.
pub fn place(inputs: u64, report: &[u8], rows: &[u64], answers: &mut [u64]) -> u64 {
    let Some(paths) = records(inputs, report) else { return BAD_RECORDS };
    let inputs = inputs as usize;
    let count = rows.len() / inputs;
    if rows.len() % inputs != 0 || count > 1024 || answers.len() != count {
        return BAD_ROWS;
    }
    for (row, answer) in rows.chunks(inputs).zip(answers) {
        let first = paths.iter().find(|path| holds(path, row));
        *answer = first.map_or(NO_PATH, |path| path[0]);
    }
    0
}

/// The words of each record; none if the report is refused.
fn records(inputs: u64, report: &[u8]) -> Option<Vec<Vec<u64>>> {
    let size = path_bytes(inputs as usize);
    if inputs == 0 || inputs > 8 || report.len() % size != 0 {
        return None;
    }
    let paths: Vec<Vec<u64>> = report.chunks(size).map(words).collect();
    paths.iter().all(|path| is_record(inputs, path)).then_some(paths)
}

/// The count in word 4, and the checks of both blocks.
fn is_record(inputs: u64, path: &[u64]) -> bool {
    path[4] == inputs && path.chunks(BLOCK_WORDS).all(agrees)
}

/// Is the last word of a block its check?
fn agrees(block: &[u64]) -> bool {
    check(&block[..PAYLOAD_WORDS]) == block[PAYLOAD_WORDS]
}

/// Each value of the row between the low and the high of its input, both ends included.
fn holds(path: &[u64], row: &[u64]) -> bool {
    (0..row.len()).all(|input| path[5 + input] <= row[input] && row[input] <= path[13 + input])
}

/// Little-endian words of eight bytes.
fn words(bytes: &[u8]) -> Vec<u64> {
    let word = |bytes: &[u8]| bytes.iter().rev().fold(0, |value, &byte| value * 256 + byte as u64);
    bytes.chunks(8).map(word).collect()
}

// ---------------------------------------------------------------------------------------------
// A sheet: No. 6 of document 02.

pub const SHORT_SHEET: u64 = 14;

const COLUMNS: usize = 72;
const FIELD_COLUMNS: usize = 20;
/// Where the fields begin, counted from 1.
const FIELD_STARTS: [usize; 3] = [1, 24, 48];

/// Prints the report; 0, or the number of the refusal.
pub fn sheet(inputs: u64, report: &[u8], sheet: &mut [u8]) -> u64 {
    let Some(paths) = records(inputs, report) else { return BAD_RECORDS };
    if (sheet.len() as u64) < sheet_bytes(inputs, report.len()) {
        return SHORT_SHEET;
    }
    let text: String = paths.iter().flat_map(|path| fields(path)).map(line).collect();
    sheet[..text.len()].copy_from_slice(text.as_bytes());
    0
}

/// A line and its line feed for each path and for each of its inputs; MAX where these are more.
pub fn sheet_bytes(inputs: u64, report_bytes: usize) -> u64 {
    let paths = report_bytes / path_bytes(inputs as usize);
    let lines = paths as u128 * (1 + inputs as u128);
    u64::try_from(lines * (COLUMNS as u128 + 1)).unwrap_or(u64::MAX)
}

/// Path number, kind and reason, then for each input its number, low and high.
fn fields(path: &[u64]) -> Vec<[u64; 3]> {
    let mut lines = vec![[path[0], path[1], path[23]]];
    for input in 0..path[4] as usize {
        lines.push([input as u64, path[5 + input], path[13 + input]]);
    }
    lines
}

fn line(fields: [u64; 3]) -> String {
    let mut columns = vec![' '; COLUMNS];
    for (field, start) in fields.iter().zip(FIELD_STARTS) {
        let digits: Vec<char> = field.to_string().chars().collect();
        let after = start - 1 + FIELD_COLUMNS;
        columns[after - digits.len()..after].copy_from_slice(&digits);
    }
    columns.push('\n');
    columns.into_iter().collect()
}

// ---------------------------------------------------------------------------------------------
// A job in blocks.

pub const BAD_BLOCKS: u64 = 9;
pub const BAD_CHECK: u64 = 10;
pub const BAD_FORM: u64 = 11;

const PROGRAM_TABLE_WORDS: usize = 8192;

/// What the program explores, or the number of the first question that is answered by no.
pub fn read_job(bytes: &[u8]) -> Result<Job, u64> {
    let count = bytes.len() / BLOCK_BYTES;
    if bytes.len() % BLOCK_BYTES != 0 || !(1..=19).contains(&count) {
        return Err(BAD_BLOCKS);
    }
    let blocks: Vec<Vec<u64>> = bytes.chunks(BLOCK_BYTES).map(words).collect();
    if !blocks.iter().all(|block| agrees(block)) {
        return Err(BAD_CHECK);
    }
    let payloads: Vec<&[u64]> = blocks.iter().map(|block| &block[..PAYLOAD_WORDS]).collect();
    match header_refusal(payloads[0]) {
        Some(number) => Err(number),
        None => job_of(payloads[0], &payloads[1..]).ok_or(BAD_FORM),
    }
}

/// The questions at the door that the header answers; table and report are the program's own.
fn header_refusal(header: &[u64]) -> Option<u64> {
    let intervals = header_intervals(header);
    // up to 512 words may be given, and the rest are 0
    let memory_words = MEMORY_WORDS.max(header[21] as usize);
    let (code_words, report_bytes) = (header[1] as usize, path_bytes(intervals.len()));
    let (limit, first) = (header[3], header[4]);
    let flat = flat(&intervals);
    door(code_words, &flat, limit, PROGRAM_TABLE_WORDS, memory_words, report_bytes, first)
}

/// Nine for any number above eight: the header has no place for more, and nine are refused.
fn header_intervals(header: &[u64]) -> Vec<Interval> {
    let inputs = header[2].min(9) as usize;
    (0..inputs).map(|input| (header[5 + input], header[13 + input])).collect()
}

/// Low, high, low, high, as a call lends them.
fn flat(intervals: &[Interval]) -> Vec<u64> {
    intervals.iter().flat_map(|&(low, high)| [low, high]).collect()
}

/// What the blocks hold after a header that passed; none if their form is another.
fn job_of(header: &[u64], rest: &[&[u64]]) -> Option<Job> {
    let [code_words, inputs, memory_words] = [1, 2, 21].map(|place| header[place] as usize);
    let code_blocks = code_words.div_ceil(2 * PAYLOAD_WORDS);
    let memory_blocks = memory_words.div_ceil(PAYLOAD_WORDS);
    if header[0] != 1 || rest.len() != code_blocks + memory_blocks {
        return None;
    }
    let (code, memory) = (rest[..code_blocks].concat(), rest[code_blocks..].concat());
    // two words to a payload word, the low half first
    let halves: Vec<u64> = code.iter().flat_map(|word| [word % (1 << 32), word >> 32]).collect();
    let in_header = [&header[5 + inputs..13], &header[13 + inputs..21], &header[22..]].concat();
    let unused = [&in_header[..], &halves[code_words..], &memory[memory_words..]].concat();
    unused.iter().all(|&word| word == 0).then(|| Job {
        code: halves[..code_words].iter().map(|&half| half as u32).collect(),
        memory: memory[..memory_words].to_vec(),
        limit: header[3],
        intervals: header_intervals(header),
        entries: (PROGRAM_TABLE_WORDS / WORDS_PER_ENTRY) as u64,
    })
}

// ---------------------------------------------------------------------------------------------
// Choices counted: No. 7 of document 02.

pub const TOO_MANY_CHOICES: u64 = 15;
pub const TOO_MANY_PATHS: u64 = 16;
pub const MOST_COUNTED_PATHS: usize = 64;

/// A box of so many choices is still counted choice by choice.
pub const MOST_TRIED: u128 = 2000;

/// The choices on paths that exit with each fixed value, on paths whose exit varies, and on paths
/// of each other kind; the total is worked out from the starting intervals.
#[derive(Clone, Debug, Default, PartialEq, Eq)]
pub struct Counts {
    pub values: BTreeMap<u64, u128>,
    pub varying: u128,
    pub kinds: BTreeMap<u64, u128>,
    pub total: u128,
}

impl Counts {
    /// Where the choices of a path are counted; an exit value comes if it is fixed.
    fn place(&mut self, kind: u64, value: Option<u64>) -> &mut u128 {
        match (kind, value) {
            (EXITED, Some(value)) => self.values.entry(value).or_default(),
            (EXITED, None) => &mut self.varying,
            _ => self.kinds.entry(kind).or_default(),
        }
    }

    fn sum(&self) -> u128 {
        let counts = self.values.values().chain(self.kinds.values());
        counts.sum::<u128>() + self.varying
    }
}

/// The counts of a job in blocks, or the number of the refusal.
pub fn count(bytes: &[u8]) -> Result<Counts, u64> {
    count_and_paths(bytes).map(|(counts, _)| counts)
}

/// The counts, and the paths that were counted: all, whatever first path the job names.
pub fn count_and_paths(bytes: &[u8]) -> Result<(Counts, Vec<Path>), u64> {
    let job = read_job(bytes)?;
    let total = choices_in(&job.intervals);
    if total >= 1 << 64 {
        return Err(TOO_MANY_CHOICES);
    }
    let small = total <= MOST_TRIED;
    let paths = match small {
        true => listing(&job),
        false => listing_by_corners(&job, MOST_COUNTED_PATHS + 1),
    };
    if paths.len() > MOST_COUNTED_PATHS {
        return Err(TOO_MANY_PATHS);
    }
    let counts = if small { count_choices(&job, &paths) } else { count_boxes(&paths) };
    assert!(counts.sum() == total, "the counts do not add up to the starting box");
    Ok((Counts { total, ..counts }, paths))
}

/// 2^128 - 1 where there are more.
pub fn choices_in(intervals: &[Interval]) -> u128 {
    let width = |&(low, high): &Interval| (high - low) as u128 + 1;
    intervals.iter().map(width).fold(1, u128::saturating_mul)
}

/// Choice by choice: on which path each lies, and with what its own run exits.
pub fn count_choices(job: &Job, paths: &[Path]) -> Counts {
    let mut counts = Counts::default();
    for (path, values) in paths.iter().zip(exit_values(job, paths)) {
        let fixed = values.iter().all(|&value| value == values[0]);
        *counts.place(path.kind, fixed.then_some(values[0])) += values.len() as u128;
    }
    counts
}

/// For each path, register 10 of each choice on it where the path ends.
fn exit_values(job: &Job, paths: &[Path]) -> Vec<Vec<u64>> {
    let mut values = vec![Vec::new(); paths.len()];
    for inputs in all_inputs(&job.intervals) {
        let number = owner(paths, &inputs).expect("a choice has one path");
        let run = run_plain(&job.code, &job.memory, &inputs, paths[number].steps);
        values[number].push(run.machine.registers[10]);
    }
    values
}

/// By the sizes of the paths' boxes.
pub fn count_boxes(paths: &[Path]) -> Counts {
    let mut counts = Counts::default();
    for path in paths {
        let (low, high) = path.registers[10];
        *counts.place(path.kind, (low == high).then_some(low)) += choices_in(&path.boxes);
    }
    counts
}

// ---------------------------------------------------------------------------------------------
// Jobs written: No. 8 of document 02.

pub const SHORT_SPACE: u64 = 14;

/// What a job is written from; what the reader gets back has 512 memory words and whole pairs.
#[derive(Clone, Debug, PartialEq, Eq, PartialOrd, Ord)]
pub struct Values {
    pub code: Vec<u32>,
    pub memory: Vec<u64>,
    pub intervals: Vec<u64>,
    pub limit: u64,
    pub first: u64,
}

/// Writes the job at the start of the space; 0 and its bytes, or the number of the refusal and 0.
pub fn write_job(values: &Values, space: &mut [u8]) -> (u64, u64) {
    if let Some(number) = values_refusal(values) {
        return (number, 0);
    }
    let job = job_bytes(values);
    if space.len() < job.len() {
        return (SHORT_SPACE, 0);
    }
    space[..job.len()].copy_from_slice(&job);
    (0, job.len() as u64)
}

/// The reader's questions on the values, in its order; table and report are the program's own.
fn values_refusal(values: &Values) -> Option<u64> {
    let Values { code, memory, intervals, limit, first } = values;
    let (table_words, report_bytes) = (PROGRAM_TABLE_WORDS, path_bytes(intervals.len() / 2));
    door(code.len(), intervals, *limit, table_words, memory.len(), report_bytes, *first)
}

/// The header, the code, and the memory words up to the last that is not 0.
fn job_bytes(values: &Values) -> Vec<u8> {
    let Values { code, memory, intervals, limit, first } = values;
    let given = memory.iter().rposition(|&word| word != 0).map_or(0, |last| last + 1);
    let (code_words, inputs) = (code.len() as u64, intervals.len() as u64 / 2);
    let mut header = [0; PAYLOAD_WORDS];
    header[..5].copy_from_slice(&[1, code_words, inputs, *limit, *first]);
    for (input, pair) in intervals.chunks(2).enumerate() {
        (header[5 + input], header[13 + input]) = (pair[0], pair[1]);
    }
    header[21] = given as u64;
    // two words to a payload word, the low half first
    let pair = |words: &[u32]| words[0] as u64 + ((*words.get(1).unwrap_or(&0) as u64) << 32);
    let code: Vec<u64> = code.chunks(2).map(pair).collect();
    [&header[..], &code, &memory[..given]].map(blocks_of).concat()
}

/// As few blocks as hold these words; unused ones are 0.
fn blocks_of(words: &[u64]) -> Vec<u8> {
    let block = |payload: &[u64]| {
        let mut block = [0; BLOCK_WORDS];
        block[..payload.len()].copy_from_slice(payload);
        with_check(block)
    };
    words.chunks(PAYLOAD_WORDS).flat_map(block).flat_map(u64::to_le_bytes).collect()
}

/// What the reader gets from a job, or the number of the refusal: jobs that give the same mean the
/// same.
pub fn read_values(bytes: &[u8]) -> Result<Values, u64> {
    let Job { code, mut memory, limit, intervals, .. } = read_job(bytes)?;
    memory.resize(MEMORY_WORDS, 0);
    Ok(Values { code, memory, intervals: flat(&intervals), limit, first: words(bytes)[4] })
}
