//! Programs written in Rust: a function for each instruction, which gives its word, and Job A with
//! the parts of it that other programs share.

use crate::instruction::{decode, encode, Instruction, ROWS};
use crate::job::Job;
use crate::source::assemble;

fn word(name: &str, rd: u32, rs1: u32, rs2: u32, imm: i64) -> u32 {
    let row = ROWS.iter().position(|row| row.name == name).expect("a row of the table");
    let instruction = Instruction { row, rd, rs1, rs2, imm };
    let word = encode(&instruction);
    assert_eq!(decode(word), Some(instruction), "an operand does not fit its place");
    word
}

pub fn lui(rd: u32, upper: u32) -> u32 {
    assert!(upper < 1 << 20);
    word("lui", rd, 0, 0, (upper << 12) as i32 as i64)
}

pub fn addi(rd: u32, rs1: u32, imm: i64) -> u32 {
    word("addi", rd, rs1, 0, imm)
}

macro_rules! register_rows {
    ($($name:ident)*) => {
        $(pub fn $name(rd: u32, rs1: u32, rs2: u32) -> u32 {
            word(stringify!($name), rd, rs1, rs2, 0)
        })*
    };
}

register_rows! { add sub mul divu remu sltu }

pub fn ld(rd: u32, imm: i64, rs1: u32) -> u32 {
    word("ld", rd, rs1, 0, imm)
}

pub fn sd(rs2: u32, imm: i64, rs1: u32) -> u32 {
    word("sd", 0, rs1, rs2, imm)
}

pub fn beq(rs1: u32, rs2: u32, offset: i64) -> u32 {
    word("beq", 0, rs1, rs2, offset)
}

pub fn jal(rd: u32, offset: i64) -> u32 {
    word("jal", rd, 0, 0, offset)
}

pub fn jalr(rd: u32, imm: i64, rs1: u32) -> u32 {
    word("jalr", rd, rs1, 0, imm)
}

pub fn ecall() -> u32 {
    word("ecall", 0, 0, 0, 0)
}

/// Document 01's Job A.
pub fn job_a() -> Job {
    assemble(include_str!("../../jobs/job-a.s")).expect("Job A has no fault")
}

/// Job A's first words: they read an input to address 0 and load it into register 5.
pub fn opening() -> Vec<u32> {
    job_a().code[..4].to_vec()
}

/// Job A's last words: they exit with register 10.
pub fn closing() -> Vec<u32> {
    job_a().code[6..].to_vec()
}

/// A program that reads an input into register 5, does the work and exits.
pub fn reads(work: &[u32]) -> Vec<u32> {
    [&opening(), work, &closing()].concat()
}

/// Work for `reads`: document 01's v < 5 tested ten times.
pub fn ten_tests() -> [u32; 6] {
    let turn = [sltu(10, 5, 6), addi(7, 7, -1), beq(7, 0, 8), jal(0, -12)];
    [addi(6, 0, 5), addi(7, 0, 10), turn[0], turn[1], turn[2], turn[3]]
}

/// Reads the next input, as input `k`, to a word of its own and loads it.
pub fn read(k: u32, register: u32) -> [u32; 6] {
    let address = 8 * k as i64;
    let [number, count] = [addi(17, 0, 63), addi(12, 0, 8)];
    [number, count, addi(10, 0, 0), addi(11, 0, address), ecall(), ld(register, address, 0)]
}

#[cfg(test)]
mod tests {
    use super::*;
    use std::panic::catch_unwind;

    #[test]
    fn operands_that_do_not_fit_are_refused() {
        let wrong: [fn() -> u32; 7] = [
            || lui(5, 1 << 20),
            || addi(5, 0, 2048),
            || ld(5, -2049, 0),
            || add(32, 0, 0),
            || beq(0, 0, 3),
            || beq(0, 0, 4096),
            || jal(0, 1 << 20),
        ];
        for program in wrong {
            assert!(catch_unwind(program).is_err());
        }
    }
}
