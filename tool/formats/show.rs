//! A job in readable form, which the assembler reads back to the same job.

use crate::instruction::{decode, text, Form, Instruction, ROWS};
use crate::job::Job;
use std::fmt::Write;

pub fn job_text(job: &Job) -> String {
    let mut shown = format!(
        "# code words {}, inputs {}, memory words given {}\n.limit {}\n.first {}\n",
        job.code.len(),
        job.intervals.len(),
        job.memory.len(),
        job.limit,
        job.first
    );
    for (low, high) in &job.intervals {
        let _ = writeln!(shown, ".input {low}..{high}");
    }
    for (place, &word) in job.code.iter().enumerate() {
        shown += &code_line(4 * place as i64, word);
    }
    for (place, word) in job.memory.iter().enumerate() {
        let _ = writeln!(shown, "{:<29}# address {}", format!(".word {word}"), 8 * place);
    }
    shown
}

/// The instruction, then its address, its word and where it may jump to.
pub fn code_line(address: i64, word: u32) -> String {
    let note = match decode(word) {
        Some(instruction) => target_text(&instruction, address),
        None => "  no instruction".to_string(),
    };
    format!("    {:<25}# {address:>4}: {word:08X}{note}\n", word_text(word))
}

/// The instruction, or the word as it is.
pub fn word_text(word: u32) -> String {
    decode(word).map_or_else(|| format!(".code {word:#010X}"), |instruction| text(&instruction))
}

fn target_text(instruction: &Instruction, address: i64) -> String {
    match ROWS[instruction.row].form {
        Form::Branch | Form::Jump => format!("  to {}", address + instruction.imm),
        _ => String::new(),
    }
}

#[cfg(test)]
mod tests {
    use super::*;
    use crate::assembler::job_a;
    use crate::job::random_job;
    use crate::random::Random;
    use crate::source::assemble;

    const OPCODES: [u32; 9] = [55, 19, 51, 3, 35, 99, 111, 103, 115];

    #[test]
    fn job_a_is_shown_with_its_addresses() {
        let shown = job_text(&job_a());
        assert!(shown.starts_with("# code words 8, inputs 1, memory words given 0\n.limit 100\n"));
        let first = format!("addi a7, zero, 63        #    0: {:08X}\n", job_a().code[0]);
        assert!(shown.contains(&format!("\n.input 0..255\n    {first}")), "{shown}");
        assert!(shown.ends_with("\n    ecall                    #   28: 00000073\n"), "{shown}");
    }

    #[test]
    fn targets_memory_and_strange_words_are_shown() {
        let shown = job_text(&assemble(".word 7, 9\nnop\nj -4\n.code 0").unwrap());
        assert!(shown.contains("    jal zero, -4             #    4: FFDFF06F  to 0\n"), "{shown}");
        assert!(shown.contains("    .code 0x00000000         #    8: 00000000  no instruction\n"));
        assert!(shown.ends_with(".word 9                      # address 8\n"), "{shown}");
    }

    #[test]
    fn a_shown_job_assembles_to_the_same_job() {
        let mut random = Random(6);
        for _ in 0..200 {
            let mut job = random_job(&mut random);
            job.code.iter_mut().for_each(|word| *word = *word & !0x7F | random.pick(&OPCODES));
            assert_eq!(assemble(&job_text(&job)), Ok(job));
        }
    }
}
