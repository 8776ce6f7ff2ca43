//! Document 01's sizes and limits, each said once; include/mirokefa.h has them by the same names.

pub const REGISTERS: usize = 32;
pub const MEMORY_WORDS: usize = 512;
pub const MOST_CODE_WORDS: usize = 1024;
pub const MOST_INPUTS: usize = 8;
pub const MOST_STEPS: u64 = 65_536;
/// Table words that make one trace entry.
pub const ENTRY_WORDS: usize = 8;
/// The first path wanted is below this.
pub const PATH_NUMBERS: u64 = 1 << 32;
/// Rows that one call places.
pub const MOST_ROWS: usize = 1024;
/// Bytes of a line on a sheet: 72 columns and a line feed.
pub const LINE_BYTES: usize = 73;
/// Paths of a job whose choices are counted, and so the most exit values.
pub const MOST_COUNTED_PATHS: usize = 64;

/// The last word of a block checks the others.
pub const BLOCK_WORDS: usize = 64;
pub const PAYLOAD_WORDS: usize = BLOCK_WORDS - 1;
pub const BLOCK_BYTES: usize = 8 * BLOCK_WORDS;
/// Blocks of the largest job.
pub const MOST_BLOCKS: usize = 19;
pub const MOST_JOB_BYTES: usize = MOST_BLOCKS * BLOCK_BYTES;

/// The table and the page of the course's program.
pub const USUAL_TABLE_WORDS: usize = 8192;
pub const USUAL_PAGE_PATHS: usize = 64;

/// Bytes of a path's record in the report of a job with so many inputs: two blocks have room for all.
pub const fn path_bytes(_inputs: usize) -> usize {
    2 * BLOCK_BYTES
}

/// The number that the C header has after a text.
#[cfg(test)]
pub fn in_header(text: &str) -> Option<u64> {
    let header = include_str!("../../include/mirokefa.h");
    let after = header.split_once(&format!(" {text} "))?.1;
    after.split(|letter: char| !letter.is_ascii_digit()).next()?.parse().ok()
}

#[cfg(test)]
mod tests {
    use super::*;

    #[test]
    fn the_header_for_c_has_the_same_numbers() {
        let numbers = [
            ("MEMORY_WORDS", MEMORY_WORDS),
            ("MOST_CODE_WORDS", MOST_CODE_WORDS),
            ("MOST_INPUTS", MOST_INPUTS),
            ("MOST_STEPS", MOST_STEPS as usize),
            ("ENTRY_WORDS", ENTRY_WORDS),
            ("PATH_NUMBERS (UINT64_C(1) <<", PATH_NUMBERS.ilog2() as usize),
            ("MOST_ROWS", MOST_ROWS),
            ("LINE_BYTES", LINE_BYTES),
            ("MOST_COUNTED_PATHS", MOST_COUNTED_PATHS),
            ("BLOCK_WORDS", BLOCK_WORDS),
            ("BLOCK_BYTES", BLOCK_BYTES),
            ("MOST_BLOCKS", MOST_BLOCKS),
            ("MOST_JOB_BYTES", MOST_JOB_BYTES),
            ("PATH_BYTES(inputs)", path_bytes(MOST_INPUTS)),
            ("USUAL_TABLE_WORDS", USUAL_TABLE_WORDS),
            ("USUAL_PAGE_PATHS", USUAL_PAGE_PATHS),
        ];
        for (name, number) in numbers {
            assert_eq!(in_header(&format!("MIROKEFA_{name}")), Some(number as u64), "{name}");
        }
    }

    #[test]
    fn the_largest_job_has_the_most_blocks() {
        let code = MOST_CODE_WORDS.div_ceil(2 * PAYLOAD_WORDS);
        assert_eq!(1 + code + MEMORY_WORDS.div_ceil(PAYLOAD_WORDS), MOST_BLOCKS);
    }
}
