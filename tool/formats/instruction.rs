//! The fourteen instructions: their words, and their text.

use crate::limits::REGISTERS;

/// What a row's operands are; each form has its own places for them in the word.
#[derive(Clone, Copy, Debug, PartialEq, Eq)]
pub enum Form {
    Upper,
    Immediate,
    Register,
    Load,
    Store,
    Branch,
    Jump,
    JumpRegister,
    Call,
}

#[derive(Debug)]
pub struct Row {
    pub name: &'static str,
    pub form: Form,
    opcode: u32,
    funct3: u32,
    funct7: u32,
}

const fn row(name: &'static str, form: Form, opcode: u32, funct3: u32, funct7: u32) -> Row {
    Row { name, form, opcode, funct3, funct7 }
}

/// In the order of document 01's table; a function that a row lacks is 0.
pub const ROWS: [Row; 14] = [
    row("lui", Form::Upper, 55, 0, 0),
    row("addi", Form::Immediate, 19, 0, 0),
    row("add", Form::Register, 51, 0, 0),
    row("sub", Form::Register, 51, 0, 32),
    row("mul", Form::Register, 51, 0, 1),
    row("divu", Form::Register, 51, 5, 1),
    row("remu", Form::Register, 51, 7, 1),
    row("sltu", Form::Register, 51, 3, 0),
    row("ld", Form::Load, 3, 3, 0),
    row("sd", Form::Store, 35, 3, 0),
    row("beq", Form::Branch, 99, 0, 0),
    row("jal", Form::Jump, 111, 0, 0),
    row("jalr", Form::JumpRegister, 103, 0, 0),
    row("ecall", Form::Call, 115, 0, 0),
];

const REGISTER_NAMES: [&str; REGISTERS] = [
    "zero", "ra", "sp", "gp", "tp", "t0", "t1", "t2", "s0", "s1", "a0", "a1", "a2", "a3", "a4",
    "a5", "a6", "a7", "s2", "s3", "s4", "s5", "s6", "s7", "s8", "s9", "s10", "s11", "t3", "t4",
    "t5", "t6",
];

/// A row by its place in the table; operands that its form lacks are 0. The immediate is the number
/// that the machine adds: for lui the whole word, sign-extended from 32 bits.
#[derive(Clone, Copy, Debug, PartialEq, Eq)]
pub struct Instruction {
    pub row: usize,
    pub rd: u32,
    pub rs1: u32,
    pub rs2: u32,
    pub imm: i64,
}

// ---------------------------------------------------------------------------------------------
// Registers.

pub fn register_name(register: u32) -> &'static str {
    REGISTER_NAMES[register as usize % REGISTERS]
}

/// x0 to x31, the names of the calling convention, and fp for s0.
pub fn register_number(name: &str) -> Option<u32> {
    if name == "fp" {
        return Some(8);
    }
    (0..REGISTERS as u32)
        .find(|&register| name == register_name(register) || name == format!("x{register}"))
}

// ---------------------------------------------------------------------------------------------
// Words.

#[inline]
pub fn bits(word: u32, from: u32, count: u32) -> u32 {
    (word >> from) & ((1 << count) - 1)
}

#[inline]
fn sign_extend(value: u32, width: u32) -> i64 {
    let unused = 64 - width;
    ((value as i64) << unused) >> unused
}

/// The word of an instruction whose operands fit their places.
pub fn encode(instruction: &Instruction) -> u32 {
    let Instruction { row, rd, rs1, rs2, imm } = *instruction;
    let row = &ROWS[row];
    let imm = imm as u32;
    let low = row.opcode | row.funct3 << 12;
    match row.form {
        Form::Upper => low | rd << 7 | imm & 0xFFFFF000,
        Form::Register => low | rd << 7 | rs1 << 15 | rs2 << 20 | row.funct7 << 25,
        Form::Immediate | Form::Load | Form::JumpRegister => {
            low | rd << 7 | rs1 << 15 | bits(imm, 0, 12) << 20
        }
        Form::Store => low | rs1 << 15 | rs2 << 20 | store_bits(imm),
        Form::Branch => low | rs1 << 15 | rs2 << 20 | branch_bits(imm),
        Form::Jump => low | rd << 7 | jump_bits(imm),
        Form::Call => low,
    }
}

fn store_bits(imm: u32) -> u32 {
    bits(imm, 0, 5) << 7 | bits(imm, 5, 7) << 25
}

fn branch_bits(imm: u32) -> u32 {
    let low = bits(imm, 11, 1) << 7 | bits(imm, 1, 4) << 8;
    low | bits(imm, 5, 6) << 25 | bits(imm, 12, 1) << 31
}

fn jump_bits(imm: u32) -> u32 {
    let low = bits(imm, 12, 8) << 12 | bits(imm, 11, 1) << 20;
    low | bits(imm, 1, 10) << 21 | bits(imm, 20, 1) << 31
}

/// What a word means; none if it matches no row.
pub fn decode(word: u32) -> Option<Instruction> {
    let row = ROWS.iter().position(|row| row_has(row, word))?;
    let form = ROWS[row].form;
    let field = |from, is_there| if is_there { bits(word, from, 5) } else { 0 };
    Some(Instruction {
        row,
        rd: field(7, !matches!(form, Form::Store | Form::Branch | Form::Call)),
        rs1: field(15, !matches!(form, Form::Upper | Form::Jump | Form::Call)),
        rs2: field(20, matches!(form, Form::Register | Form::Store | Form::Branch)),
        imm: immediate(form, word),
    })
}

fn row_has(row: &Row, word: u32) -> bool {
    let opcode = bits(word, 0, 7) == row.opcode;
    let funct3 = bits(word, 12, 3) == row.funct3;
    match row.form {
        Form::Call => word == row.opcode,
        Form::Upper | Form::Jump => opcode,
        Form::Register => opcode && funct3 && bits(word, 25, 7) == row.funct7,
        _ => opcode && funct3,
    }
}

/// The number that a word of this form carries.
#[inline]
pub fn immediate(form: Form, word: u32) -> i64 {
    match form {
        Form::Upper => sign_extend(word & 0xFFFFF000, 32),
        Form::Immediate | Form::Load | Form::JumpRegister => sign_extend(bits(word, 20, 12), 12),
        Form::Store => sign_extend(bits(word, 25, 7) << 5 | bits(word, 7, 5), 12),
        Form::Branch => branch_immediate(word),
        Form::Jump => jump_immediate(word),
        Form::Register | Form::Call => 0,
    }
}

#[inline]
fn branch_immediate(word: u32) -> i64 {
    let high = bits(word, 31, 1) << 12 | bits(word, 7, 1) << 11;
    sign_extend(high | bits(word, 25, 6) << 5 | bits(word, 8, 4) << 1, 13)
}

#[inline]
fn jump_immediate(word: u32) -> i64 {
    let high = bits(word, 31, 1) << 20 | bits(word, 12, 8) << 12;
    sign_extend(high | bits(word, 20, 1) << 11 | bits(word, 21, 10) << 1, 21)
}

// ---------------------------------------------------------------------------------------------
// Text.

/// The line that the assembler reads back to the same instruction.
pub fn text(instruction: &Instruction) -> String {
    let Instruction { row, imm, .. } = *instruction;
    let [rd, rs1, rs2] = [instruction.rd, instruction.rs1, instruction.rs2].map(register_name);
    let name = ROWS[row].name;
    match ROWS[row].form {
        Form::Upper => format!("{name} {rd}, {:#X}", (imm as u32) >> 12),
        Form::Immediate => format!("{name} {rd}, {rs1}, {imm}"),
        Form::Register => format!("{name} {rd}, {rs1}, {rs2}"),
        Form::Load | Form::JumpRegister => format!("{name} {rd}, {imm}({rs1})"),
        Form::Store => format!("{name} {rs2}, {imm}({rs1})"),
        Form::Branch => format!("{name} {rs1}, {rs2}, {imm}"),
        Form::Jump => format!("{name} {rd}, {imm}"),
        Form::Call => name.to_string(),
    }
}

#[cfg(test)]
mod tests {
    use super::*;
    use crate::random::Random;
    use crate::source::assemble;

    /// A word to a line, with its row and fields in hex; the RISC-V assembler made the words.
    const VECTORS: &str = include_str!("../../crates/decoder_tests/stdin");
    const NO_ROW: u64 = 14;

    fn vectors() -> Vec<(u32, Option<Instruction>)> {
        VECTORS.lines().map(vector).collect()
    }

    fn vector(line: &str) -> (u32, Option<Instruction>) {
        let numbers: Vec<u64> =
            line.split(' ').map(|field| u64::from_str_radix(field, 16).unwrap()).collect();
        let [word, row, rd, rs1, rs2, imm] = numbers[..] else { panic!("{line}") };
        let [rd, rs1, rs2] = [rd, rs1, rs2].map(|register| register as u32);
        let instruction = Instruction { row: row as usize, rd, rs1, rs2, imm: imm as i64 };
        (word as u32, (row != NO_ROW).then_some(instruction))
    }

    fn assembled(line: &str) -> u32 {
        let job = assemble(line).unwrap_or_else(|faults| panic!("{line}: {faults:?}"));
        job.code[0]
    }

    #[test]
    fn words_of_the_risc_v_assembler_decode() {
        assert!(vectors().len() > 900);
        for (word, instruction) in vectors() {
            assert_eq!(decode(word), instruction, "{word:08X}");
        }
    }

    #[test]
    fn instructions_encode_and_assemble_to_the_words_of_the_risc_v_assembler() {
        for (word, instruction) in vectors() {
            let Some(instruction) = instruction else { continue };
            assert_eq!(encode(&instruction), word, "{instruction:?}");
            assert_eq!(assembled(&text(&instruction)), word, "{}", text(&instruction));
        }
    }

    #[test]
    fn every_row_comes_back_from_its_text() {
        let mut random = Random(7);
        let mut seen = [0; ROWS.len()];
        for _ in 0..20_000 {
            let row = &ROWS[random.below(ROWS.len())];
            let fixed = row.opcode | row.funct3 << 12 | row.funct7 << 25;
            let free = if row.form == Form::Register { 0x01FF8F80 } else { 0xFFFF8F80 };
            let word = fixed | random.next() as u32 & free;
            let Some(instruction) = decode(word) else { continue };
            assert_eq!(assembled(&text(&instruction)), word, "{}", text(&instruction));
            seen[instruction.row] += 1;
        }
        // a random word is hardly ever ecall's, which the vectors have
        assert!(seen[..13].iter().all(|&count| count > 1000), "{seen:?}");
    }

    #[test]
    fn random_words_decode_or_not_and_encode_to_themselves() {
        let mut random = Random(8);
        for _ in 0..200_000 {
            let word = random.next() as u32;
            if let Some(instruction) = decode(word) {
                assert_eq!(encode(&instruction), word, "{}", text(&instruction));
            }
        }
    }

    #[test]
    fn registers_have_two_names() {
        for register in 0..32 {
            assert_eq!(register_number(register_name(register)), Some(register));
            assert_eq!(register_number(&format!("x{register}")), Some(register));
        }
        assert_eq!(register_number("fp"), Some(8));
        for name in ["", "x", "x32", "x01", "x-1", "a8", "t7", "A0", "s12"] {
            assert_eq!(register_number(name), None, "{name}");
        }
    }
}
