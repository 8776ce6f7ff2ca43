//! The numbers of documents 01 and 02 in words; docs/NUMBERS.md says more.

use crate::limits::*;

// The highest numbers; the lowest is 1. The first refusals are an exploration's.
pub const CALL_REFUSALS: u64 = 8;
pub const REFUSALS: u64 = 16;
pub const KINDS: u64 = 9;
pub const REASONS: u64 = 7;

/// The kind of a path that ends by exit.
pub const EXITED: u64 = 1;

/// A place for each number of a kind, and 0.
pub const KIND_PLACES: usize = KINDS as usize + 1;

/// Is it the kind of some path? No. 3 of document 02 leaves 2 unused.
pub fn kind_occurs(kind: u64) -> bool {
    kind != 2 && (1..=KINDS).contains(&kind)
}

/// Is it the reason of some path? No. 5 of document 02 leaves 2 and 3 unused.
pub fn reason_occurs(reason: u64) -> bool {
    reason != 2 && reason != 3 && (1..=REASONS).contains(&reason)
}

/// What placing answers for a row that no path holds.
pub const NO_PATH: u64 = u64::MAX;

pub fn refusal_text(number: u64) -> String {
    match number {
        1 => format!("the code is not 1 to {MOST_CODE_WORDS} words"),
        2 => format!("the intervals are not whole pairs for at most {MOST_INPUTS} inputs"),
        3 => "an interval's low is above its high".to_string(),
        4 => format!("the step limit is not 1 to {MOST_STEPS}"),
        5 => format!("the table has fewer than {ENTRY_WORDS} words"),
        6 => format!("memory is not {MEMORY_WORDS} words, or a job gives more than {MEMORY_WORDS}"),
        7 => format!("the report is empty or not a multiple of {} bytes", path_bytes(MOST_INPUTS)),
        8 => format!("the first path wanted is not below {PATH_NUMBERS}"),
        9 => format!("the job is not 1 to {MOST_BLOCKS} whole blocks of {BLOCK_BYTES} bytes"),
        10 => "a block's check does not agree with its words".to_string(),
        11 => "the header's first word is not 1, blocks are missing or too many, or an unused word is not 0".to_string(),
        12 => format!("the input count is not 1 to {MOST_INPUTS}, or the report is not whole records of that count with checks that agree"),
        13 => format!("the rows are not whole or more than {MOST_ROWS}, or there is not one answer for each"),
        14 => "the lent space is shorter than what is to be written: a sheet's text, a job".to_string(),
        15 => "the starting box has 2^64 choices or more".to_string(),
        16 => format!("the job has more than {MOST_COUNTED_PATHS} paths"),
        _ => "no such refusal".to_string(),
    }
}

pub fn kind_text(kind: u64) -> &'static str {
    match kind {
        1 => "exit",
        // a stored report may still have it
        2 => "division by zero (no longer given)",
        3 => "pc outside the code, or not a multiple of 4",
        4 => "the word at pc is no instruction",
        5 => "data address above 4088, or not a multiple of 8",
        6 => "no such call, or a read whose a0 is not 0 or whose a2 is not 8",
        7 => "the step limit is reached",
        8 => "not followed",
        9 => "the trace table is full",
        _ => "no such kind",
    }
}

pub fn reason_text(reason: u64) -> &'static str {
    match reason {
        1 => "both operands vary",
        // a stored report may still have these two
        2 => "the fixed multiplier is neither 0 nor a power of two (no longer given)",
        3 => "the fixed divisor of divu is neither 0 nor a power of two (no longer given)",
        4 => "the divisor varies",
        5 => "the product or remainder wraps more than once over the interval",
        6 => "the base address of ld, sd or jalr varies",
        7 => "the call number or an operand of read varies",
        _ => "no such reason",
    }
}

// ---------------------------------------------------------------------------------------------
// What to do.

const PAGE: &str = include_str!("../../docs/NUMBERS.md");

// Its parts that have a table, after the text at its top.
#[cfg(test)]
const REFUSAL_PART: usize = 1;
const KIND_PART: usize = 2;
const REASON_PART: usize = 3;

/// What a rule writer can do about paths of this kind; Markdown, as is the page's.
pub fn kind_advice(kind: u64) -> &'static str {
    advice(KIND_PART, kind)
}

/// The same for a reason of kind 8.
pub fn reason_advice(reason: u64) -> &'static str {
    advice(REASON_PART, reason)
}

/// The last field of a number's row; nothing for a number that has none.
fn advice(part: usize, number: u64) -> &'static str {
    let start = format!("| {number} | ");
    let row = rows(part).find(|row| row.starts_with(&start)).unwrap_or("");
    row.trim_end_matches(" |").split(" | ").nth(2).unwrap_or("")
}

/// The rows of a part's table, without its heading.
fn rows(part: usize) -> impl Iterator<Item = &'static str> {
    let part = PAGE.split("\n## ").nth(part).unwrap_or("");
    part.lines().filter(|line| line.starts_with("| ")).skip(1)
}

#[cfg(test)]
mod tests {
    use super::*;
    use std::collections::BTreeSet;

    /// The rows of a part of docs/NUMBERS.md stand in order and begin with the words of the tool.
    fn check_page(part: usize, text: impl Fn(u64) -> String, highest: u64) {
        let rows: Vec<&str> = rows(part).collect();
        assert_eq!(rows.len() as u64, highest);
        for (row, number) in rows.iter().zip(1..) {
            assert!(row.starts_with(&format!("| {number} | {} | ", text(number))), "{row}");
        }
    }

    #[test]
    fn the_page_has_the_same_words() {
        check_page(REFUSAL_PART, refusal_text, REFUSALS);
        check_page(KIND_PART, |kind| kind_text(kind).to_string(), KINDS);
        check_page(REASON_PART, |reason| reason_text(reason).to_string(), REASONS);
    }

    #[test]
    fn every_number_has_its_advice() {
        let rows = |highest, advice: fn(u64) -> &'static str| (1..=highest).map(advice);
        for advice in rows(KINDS, kind_advice).chain(rows(REASONS, reason_advice)) {
            assert!(advice.ends_with('.') && !advice.contains('|'), "{advice}");
        }
        assert!(kind_advice(7).starts_with("Look for a loop that does not end;"));
        assert!(reason_advice(7).starts_with("Set a7, "));
        assert_eq!([kind_advice(0), kind_advice(10), reason_advice(8)], [""; 3]);
    }

    fn check_texts(text: impl Fn(u64) -> String, highest: u64) {
        let texts: BTreeSet<String> = (1..=highest).map(&text).collect();
        assert_eq!(texts.len() as u64, highest, "two numbers share a text");
        assert!(texts.iter().all(|text| !text.starts_with("no such r") && text != "no such kind"));
        assert!(text(0).starts_with("no such") && text(highest + 1).starts_with("no such"));
    }

    #[test]
    fn every_number_has_words() {
        check_texts(refusal_text, REFUSALS);
        check_texts(|kind| kind_text(kind).to_string(), KINDS);
        check_texts(|reason| reason_text(reason).to_string(), REASONS);
    }

    #[test]
    fn the_header_for_c_has_a_place_for_each_kind() {
        assert_eq!(in_header("MIROKEFA_KIND_PLACES"), Some(KIND_PLACES as u64));
        assert_eq!(in_header("MIROKEFA_EXIT ="), Some(EXITED));
    }

    #[test]
    fn kind_2_does_not_occur() {
        let kinds: Vec<u64> = (0..=KINDS + 1).filter(|&kind| kind_occurs(kind)).collect();
        assert_eq!(kinds, [1, 3, 4, 5, 6, 7, 8, 9]);
    }

    #[test]
    fn reasons_2_and_3_do_not_occur() {
        let reasons: Vec<u64> = (0..=REASONS + 1).filter(|&reason| reason_occurs(reason)).collect();
        assert_eq!(reasons, [1, 4, 5, 6, 7]);
    }

    #[test]
    fn numbers_that_are_not_given_say_so() {
        let says_so = |text: &str| text.ends_with("(no longer given)");
        assert!((1..=KINDS).all(|kind| kind_occurs(kind) != says_so(kind_text(kind))));
        assert!((1..=REASONS).all(|reason| reason_occurs(reason) != says_so(reason_text(reason))));
    }
}
