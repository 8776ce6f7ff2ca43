//! Random programs and boxes, made so that forks, loops, memory and every end occur often.

use formats::assembler::*;
use formats::blocks::Interval;
use formats::job::Job;
use formats::limits::{MEMORY_WORDS, PATH_NUMBERS};
use formats::random::Random;

// ---------------------------------------------------------------------------------------------
// Boxes.

pub fn input_count(random: &mut Random) -> usize {
    random.pick(&[0, 1, 1, 1, 1, 1, 1, 1, 2, 2, 2, 2, 2, 2, 3, 3, 3, 4, 5, 8])
}

/// A box of at most `budget` choices, for the brute force.
pub fn small_box(random: &mut Random, inputs: usize, mut budget: usize) -> Vec<Interval> {
    let mut intervals = Vec::new();
    for _ in 0..inputs {
        let width = 1 + random.below(budget.min(60));
        budget /= width;
        // near 3600 the quotients by 60 and by 3600 change, near MAX / 60 the products by 60 wrap
        let small = random.pick(&[0, 0, 3, 100, 3590]);
        let large = random.pick(&[1 << 32, u64::MAX / 60 - 20, (1 << 63) - 4, u64::MAX - 70]);
        let anchor = random.pick(&[small, small, large]);
        let low = anchor + random.below(10) as u64;
        intervals.push((low, low + width as u64 - 1));
    }
    intervals
}

pub fn large_box(random: &mut Random, inputs: usize) -> Vec<Interval> {
    (0..inputs).map(|_| large_interval(random)).collect()
}

fn large_interval(random: &mut Random) -> Interval {
    let (a, b) = (random.next(), random.next());
    let short = random.next() >> random.below(64);
    match random.below(8) {
        0 | 1 => (0, u64::MAX),
        2 => (0, 1 << 63),
        3 => (short, short),
        4 => (0, short),
        5 => (u64::MAX - short, u64::MAX),
        6 => (a.min(b), a.max(b)),
        _ => (0, 255),
    }
}

// ---------------------------------------------------------------------------------------------
// Memory: random words, and constants near the places where the box can be cut.

/// The constants' registers, loaded from memory words 32 and on.
const NEAR: u32 = 18;
const WIDE: u32 = 19;
const SMALL_POWER: u32 = 20;
const POWER: u32 = 21;
const WILD: u32 = 22;
const FACTOR: u32 = 23;
const WRAPPING: u32 = 24;
const CONSTANTS: [u32; 7] = [NEAR, WIDE, SMALL_POWER, POWER, WILD, FACTOR, WRAPPING];
const FIRST_CONSTANT: usize = 32;
pub const CONSTANT_WORDS: std::ops::Range<usize> = FIRST_CONSTANT..FIRST_CONSTANT + CONSTANTS.len();

pub fn memory_for(random: &mut Random, intervals: &[Interval]) -> Vec<u64> {
    let mut memory: Vec<u64> = (0..MEMORY_WORDS).map(|_| random.next()).collect();
    let (near, wide) = (near_value(random, intervals), near_value(random, intervals));
    let (small, power) = (1 << random.below(4), 1 << random.below(64));
    let wild = random.pick(&[0, 1, 3, 8, 63, 93, 1 << 63, u64::MAX]);
    let (factor, wrapping) = (any_factor(random), wrapping_factor(random, intervals));
    let constants = [near, wide, small, power, wild, factor, wrapping];
    memory[CONSTANT_WORDS].copy_from_slice(&constants);
    memory
}

/// A number of any size to multiply and divide by, small ones most often.
fn any_factor(random: &mut Random) -> u64 {
    let small = random.pick(&[3, 5, 7, 10, 12]);
    let usual = random.pick(&[60, 60, 100, 1000, 3600]);
    let any = random.next() >> random.below(64);
    let highest = u64::MAX - random.below(5) as u64;
    random.pick(&[small, small, small, usual, usual, any, highest])
}

/// By this number the product passes a multiple of 2^64 near some value of the box, where it can.
fn wrapping_factor(random: &mut Random, intervals: &[Interval]) -> u64 {
    if intervals.is_empty() {
        return random.next();
    }
    let ends = random.pick(intervals);
    let inside = random.between(ends);
    // 2^64 - v passes a multiple where v does
    let passing = inside.min(inside.wrapping_neg()).max(2) as u128;
    let turns: u128 = random.pick(&[1, 1, 1, 1, 2, 3]);
    (turns << 64).div_ceil(passing) as u64
}

fn near_value(random: &mut Random, intervals: &[Interval]) -> u64 {
    if intervals.is_empty() {
        return random.below(300) as u64;
    }
    let (low, high) = random.pick(intervals);
    let inside = random.between((low, high));
    let value = random.pick(&[low, high, high - low, inside.wrapping_neg()]);
    let near = random.pick(&[value, value, inside, inside, inside]);
    near.wrapping_add(random.pick(&[0, 0, 1, u64::MAX]))
}

// ---------------------------------------------------------------------------------------------
// Programs.

/// Registers for values that hang on inputs; 8 counts a loop's turns, 9 is a comparison's, and 25
/// holds a number to compare with.
const VALUES: [u32; 8] = [5, 6, 7, 28, 29, 30, 31, 10];
const COUNTER: u32 = 8;
const TEST: u32 = 9;
const LIMIT: u32 = 25;

struct Writer<'a> {
    random: &'a mut Random,
    code: Vec<u32>,
    reads: u32,
}

/// A program that loads the constants, reads inputs, does some work and, as a rule, exits.
pub fn program(random: &mut Random, inputs: usize) -> Vec<u32> {
    let mut writer = Writer { random, code: Vec::new(), reads: 0 };
    for (place, register) in CONSTANTS.into_iter().enumerate() {
        writer.code.push(ld(register, 8 * (FIRST_CONSTANT + place) as i64, 0));
    }
    // at times fewer than there are, at times one more
    let wanted = [inputs, inputs, inputs, inputs, inputs + 1, inputs / 2];
    for _ in 0..writer.random.pick(&wanted) {
        writer.read();
    }
    // right after the reads most values are open
    match writer.random.below(10) {
        0 | 1 => writer.by_zero(),
        2..=7 => writer.scale(),
        _ => {}
    }
    for _ in 0..2 + writer.random.below(12) {
        writer.snippet();
    }
    if !writer.random.once_in(12) {
        let value = writer.value();
        writer.code.push(addi(10, value, 0));
        writer.code.extend(closing());
    }
    writer.code
}

/// A program as a job, which at times leaves out the last words of its memory.
pub fn random_job(random: &mut Random, intervals: Vec<Interval>) -> Job {
    let (short, near) = (1 + random.below(60) as u64, random.below(6) as u64);
    let mut memory = memory_for(random, &intervals);
    memory.truncate(random.pick(&[CONSTANT_WORDS.end, 100, MEMORY_WORDS]));
    let code = program(random, intervals.len());
    let limit = random.pick(&[short, 100, 200, 400]);
    Job { code, intervals, limit, first: random.pick(&[0, near, PATH_NUMBERS - 1]), memory }
}

impl Writer<'_> {
    fn value(&mut self) -> u32 {
        // the registers of the inputs read, more often than others
        let read = self.reads.clamp(1, 7) as usize;
        let common = self.random.pick(&VALUES[..read]);
        let other = self.random.pick(&VALUES);
        if self.random.once_in(4) {
            other
        } else {
            common
        }
    }

    fn read(&mut self) {
        let register = VALUES[self.reads as usize % 7];
        self.code.extend(read(self.reads, register));
        self.reads += 1;
    }

    fn snippet(&mut self) {
        match self.random.below(57) {
            0..=11 => self.operation(),
            12..=14 => self.immediate(),
            15..=20 => self.skip_unless_less(),
            21..=25 => self.skip_if_equal(),
            26..=29 => self.store_and_load(),
            30..=32 => self.counted_loop(),
            33 => self.loop_while_less(),
            34 => self.subroutine(),
            35 => self.read(),
            36 => self.wild_word(),
            37..=39 => self.oddity(),
            40..=42 => self.against_itself(),
            43..=48 => self.by_zero(),
            _ => self.scale(),
        }
    }

    fn operation(&mut self) {
        let value = self.value();
        let other = self.value();
        let constant = self.random.pick(&CONSTANTS);
        let power = self.random.pick(&[SMALL_POWER, SMALL_POWER, POWER, constant]);
        let limit = self.random.pick(&[NEAR, WIDE, constant]);
        let rd = self.random.pick(&[value, value, other, other, other, 10, 0]);
        let (left, right) = self.random.pick(&[(value, limit), (value, limit), (limit, value)]);
        let twice = self.random.pick(&[value, value, constant]);
        let word = match self.random.below(18) {
            0..=2 => add(rd, left, right),
            3..=5 => sub(rd, left, right),
            6..=9 => sltu(rd, left, right),
            10 => mul(rd, value, power),
            11 => mul(rd, power, value),
            12 => divu(rd, value, power),
            13 | 14 => remu(rd, value, limit),
            15 => self.random.pick(&[add(rd, value, other), mul(rd, constant, limit)]),
            _ => self.random.pick(&[add, mul, divu, remu])(rd, twice, twice),
        };
        self.code.push(word);
    }

    /// SUB, SLTU or BEQ of one register twice; what they leave is often used at once.
    fn against_itself(&mut self) {
        let (value, other) = (self.value(), self.value());
        let constant = self.random.pick(&CONSTANTS);
        let twice = self.random.pick(&[value, value, value, constant]);
        let zero = self.random.pick(&[TEST, TEST, 10, other]);
        let skip = beq(twice, twice, self.random.pick(&[4, 8, 8, 12]));
        let words = [sub(zero, twice, twice), sltu(zero, twice, twice), skip];
        self.code.push(self.random.pick(&words));
        if self.random.once_in(2) {
            let uses = [ld(other, 64, zero), add(other, zero, value), beq(value, zero, 8)];
            self.code.push(self.random.pick(&uses));
        }
    }

    /// DIVU or REMU by 0; what they give is often used at once.
    fn by_zero(&mut self) {
        let (value, other) = (self.value(), self.value());
        let constant = self.random.pick(&CONSTANTS);
        let dividend = self.random.pick(&[value, value, value, value, constant, 0]);
        let rd = self.random.pick(&[TEST, TEST, value, other, other, 10, 0]);
        let divide = self.random.pick(&[divu, remu]);
        let words: [&[u32]; 5] = [
            &[divide(rd, dividend, 0)],
            &[divide(rd, dividend, 0)],
            &[sub(TEST, value, value), divide(rd, dividend, TEST)],
            // the divisor is 0 in one piece of a fork alone
            &[sltu(TEST, value, NEAR), divide(rd, dividend, TEST)],
            &[beq(other, 0, 8), jal(0, 8), divide(rd, dividend, other)],
        ];
        self.code.extend(self.random.pick(&words));
        if !self.random.once_in(3) {
            self.use_at_once(rd);
        }
    }

    /// MUL, DIVU or both by a number of any size; what they give is compared with what they give
    /// for a number near the value, or used at once.
    fn scale(&mut self) {
        let (any, other) = (self.value(), self.value());
        // the first input is open most often
        let value = self.random.pick(&[any, VALUES[0]]);
        let rd = self.random.pick(&[TEST, TEST, value, other, other, 10, 10, 10, 0]);
        let factor = self.random.pick(&[FACTOR, WRAPPING, WRAPPING]);
        let divisor = self.random.pick(&[FACTOR, FACTOR, NEAR]);
        let way = self.random.below(7);
        let scaled = |rd, value| match way {
            0 => vec![mul(rd, value, factor)],
            1 => vec![mul(rd, factor, value)],
            2 | 3 => vec![divu(rd, value, divisor)],
            4 => vec![divu(rd, value, divisor), mul(rd, rd, divisor)],
            5 => vec![divu(rd, value, divisor), mul(rd, rd, WRAPPING)],
            _ => vec![mul(rd, value, factor), divu(rd, rd, divisor)],
        };
        self.code.extend(scaled(rd, value));
        if self.random.once_in(3) {
            self.use_at_once(rd);
        } else {
            self.code.extend(scaled(LIMIT, NEAR));
            self.compare(rd);
        }
    }

    /// Compares the result with the number in register 25, which is near it.
    fn compare(&mut self, result: u32) {
        let other = self.value();
        let words: [&[u32]; 6] = [
            &[sltu(TEST, result, LIMIT), beq(TEST, 0, 8)],
            &[sltu(TEST, LIMIT, result), beq(TEST, 0, 8)],
            &[beq(result, LIMIT, 8)],
            &[beq(LIMIT, result, 12)],
            &[sub(other, result, LIMIT)],
            &[sub(other, LIMIT, result)],
        ];
        self.code.extend(self.random.pick(&words));
    }

    fn use_at_once(&mut self, result: u32) {
        let (value, other) = (self.value(), self.value());
        let limit = self.random.pick(&[NEAR, NEAR, WIDE]);
        let words: [&[u32]; 12] = [
            &[sltu(TEST, result, limit), beq(TEST, 0, 8)],
            &[sltu(TEST, value, result), beq(TEST, 0, 8)],
            &[beq(result, limit, 8)],
            &[beq(value, result, 8)],
            &[add(other, result, limit)],
            &[sub(other, limit, result)],
            &[sd(result, 64, 0), ld(other, 64, 0)],
            &[mul(other, result, SMALL_POWER)],
            &[mul(other, FACTOR, result)],
            &[divu(other, result, FACTOR)],
            &[remu(other, result, limit)],
            &[remu(other, value, result)],
        ];
        self.code.extend(self.random.pick(&words));
    }

    fn immediate(&mut self) {
        let (rd, value) = (self.value(), self.value());
        let imm = self.random.pick(&[-2048, -7, -1, 0, 1, 5, 40, 2047]);
        let upper = self.random.pick(&[0, 1, 5, 0x7FFFF, 0x80000, 0xFFFFF]);
        let words = [addi(rd, value, imm), addi(rd, value, imm), lui(rd, upper), addi(rd, 0, imm)];
        let word = self.random.pick(&words);
        self.code.push(word);
    }

    /// Skips one or two words where a value is not below a constant.
    fn skip_unless_less(&mut self) {
        let value = self.value();
        let limit = self.random.pick(&[NEAR, WIDE]);
        let offset = self.random.pick(&[8, 8, 12]);
        self.code.extend([sltu(TEST, value, limit), beq(TEST, 0, offset)]);
    }

    fn skip_if_equal(&mut self) {
        let value = self.value();
        let limit = self.random.pick(&[NEAR, NEAR, WIDE, 0]);
        let offset = self.random.pick(&[8, 8, 12]);
        let word = self.random.pick(&[beq(value, limit, offset), beq(limit, value, offset)]);
        self.code.push(word);
    }

    /// A value through a word of memory or of the stack; at times only half of the way.
    fn store_and_load(&mut self) {
        let (from, to) = (self.value(), self.value());
        let (base, offset) = self.random.pick(&[(0, 64), (0, 72), (2, -8), (2, -2048), (0, 2040)]);
        let pair = [sd(from, offset, base), ld(to, offset, base)];
        let words = self.random.pick(&[&pair[..], &pair[..], &pair[..1], &pair[1..]]);
        self.code.extend(words);
    }

    fn counted_loop(&mut self) {
        let turns = 1 + self.random.below(6) as i64;
        self.code.push(addi(COUNTER, 0, turns));
        let start = self.code.len();
        for _ in 0..1 + self.random.below(3) {
            match self.random.below(12) {
                0 | 1 => self.against_itself(),
                2 => self.by_zero(),
                _ => self.operation(),
            }
        }
        self.code.extend([addi(COUNTER, COUNTER, -1), beq(COUNTER, 0, 8)]);
        self.jump_back(start);
    }

    /// A jump by JAL or, as compilers write it, by BEQ of one register twice.
    fn jump_back(&mut self, start: usize) {
        let offset = 4 * (start as i64 - self.code.len() as i64);
        let value = self.value();
        let word = self.random.pick(&[jal(0, offset), beq(value, value, offset)]);
        self.code.push(word);
    }

    /// Adds to a value while it is below a constant: a fork in each turn.
    fn loop_while_less(&mut self) {
        let value = self.value();
        let start = self.code.len();
        let more = self.random.pick(&[addi(value, value, 9), add(value, value, WIDE)]);
        self.code.extend([sltu(TEST, value, NEAR), beq(TEST, 0, 12), more]);
        self.jump_back(start);
    }

    fn subroutine(&mut self) {
        self.code.extend([jal(1, 8), jal(0, 12)]);
        self.operation();
        self.code.push(jalr(0, 0, 1));
    }

    /// A row of the table with any registers and any immediate.
    fn wild_word(&mut self) {
        let rows = [0x37, 0x13, 0x33, 0x40000033, 0x02000033, 0x02005033, 0x02007033, 0x3033];
        let short = [0x3003, 0x3023, 0x63, 0x6F, 0x67, 0x73];
        let row: u32 = self.random.pick(&[&rows[..], &short].concat());
        let free = match row & 0x7F {
            0x33 => 0x01FF8F80,
            0x37 | 0x6F => 0xFFFFFF80,
            _ => 0xFFFF8F80,
        };
        self.code.push(row | self.random.next() as u32 & free);
    }

    /// What ends a path, or would without a guard before it.
    fn oddity(&mut self) {
        let value = self.value();
        let odd = self.random.next() as u32;
        let words: [&[u32]; 19] = [
            &[ld(10, 0, value)],
            &[sd(10, 0, value)],
            &[jalr(1, 0, value)],
            &[addi(17, value, 0), ecall()],
            &[addi(17, 0, 63), addi(11, value, 0), ecall()],
            &[addi(17, 0, 63), addi(12, value, 0), ecall()],
            &[addi(17, 0, 63), addi(12, 0, 8), addi(10, 0, 0), addi(11, 0, 4), ecall()],
            &[ld(10, 4, 0)],
            &[sd(value, 0, 2)],
            &[odd],
            &[0],
            &[jal(0, 6)],
            &[jal(1, 4096)],
            &[jalr(1, -3, 0)],
            &[addi(17, 0, 64), ecall()],
            &[addi(17, 0, 63), addi(12, 0, 4), ecall()],
            &[divu(10, POWER, value)],
            &[jal(0, 0)],
            &[beq(value, value, 0)],
        ];
        self.code.extend(self.random.pick(&words));
    }
}
