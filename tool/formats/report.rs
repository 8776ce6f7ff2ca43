//! A report's records, one for each path, and the lines of the listing.

use crate::blocks::{intervals, payload, word, Interval};
use crate::instruction::register_name;
use crate::limits::{path_bytes, BLOCK_BYTES, MOST_INPUTS, REGISTERS};
use crate::numbers::{kind_text, reason_text, EXITED, KINDS};
use std::fmt::Write;

// The words of a path's first block, beside the lows and highs; its second block has the number too.
const NUMBER: usize = 0;
const KIND: usize = 1;
const PC: usize = 2;
const STEPS: usize = 3;
const INPUT_COUNT: usize = 4;
const EXIT_LOW: usize = 21;
const EXIT_HIGH: usize = 22;
const REASON: usize = 23;
const INPUTS_READ: usize = 24;

const NOT_FOLLOWED: u64 = 8;

/// A path as its record gives it; register 0 is 0..0.
#[derive(Clone, Debug, PartialEq, Eq)]
pub struct Record {
    pub number: u64,
    pub kind: u64,
    pub pc: u64,
    pub steps: u64,
    pub intervals: Vec<Interval>,
    pub exit: Interval,
    pub reason: u64,
    pub reads: u64,
    pub registers: [Interval; REGISTERS],
}

impl Record {
    /// Does the path's box hold this row of inputs?
    pub fn holds(&self, row: &[u64]) -> bool {
        let within = |(&(low, high), value): (&Interval, &u64)| (low..=high).contains(value);
        self.intervals.len() == row.len() && self.intervals.iter().zip(row).all(within)
    }
}

/// Which registers are shown with a path.
#[derive(Clone, Copy, Debug, PartialEq, Eq)]
pub enum Shown {
    None,
    NotZero,
    All,
}

// ---------------------------------------------------------------------------------------------
// Reading.

/// The path of a record, or what is wrong with its bytes.
pub fn read(bytes: &[u8]) -> Result<Record, String> {
    let (first, second) = bytes.split_at(BLOCK_BYTES.min(bytes.len()));
    let first = payload(first).ok_or("the first block's check does not agree")?;
    let second = payload(second).ok_or("the second block's check does not agree")?;
    let (number, again) = (first[NUMBER], second[NUMBER]);
    if number != again {
        return Err(format!("its blocks belong to paths {number} and {again}"));
    }
    if first[INPUT_COUNT] > MOST_INPUTS as u64 {
        return Err(format!("it has {} inputs", first[INPUT_COUNT]));
    }
    if !(1..=KINDS).contains(&first[KIND]) {
        return Err(format!("it has kind {}", first[KIND]));
    }
    Ok(record(&first, &second))
}

fn record(first: &[u64], second: &[u64]) -> Record {
    let mut registers = [(0, 0); REGISTERS];
    for (register, value) in registers.iter_mut().enumerate().skip(1) {
        *value = (second[2 * register - 1], second[2 * register]);
    }
    Record {
        number: first[NUMBER],
        kind: first[KIND],
        pc: first[PC],
        steps: first[STEPS],
        intervals: intervals(first, first[INPUT_COUNT] as usize),
        exit: (first[EXIT_LOW], first[EXIT_HIGH]),
        reason: first[REASON],
        reads: first[INPUTS_READ],
        registers,
    }
}

/// The paths of whole pages of a job with so many inputs.
pub fn read_pages(bytes: &[u8], inputs: usize) -> Result<Vec<Record>, String> {
    let records = bytes.chunks(path_bytes(inputs)).enumerate();
    records.map(|(place, bytes)| read(bytes).map_err(|fault| no_path(place, &fault))).collect()
}

fn no_path(place: usize, fault: &str) -> String {
    format!("record {place} is no path: {fault}")
}

/// The input count that a report's first record names, none of a report that is shorter.
pub fn inputs_of(report: &[u8]) -> usize {
    let words = report.chunks_exact(8);
    words.map(word).nth(INPUT_COUNT).unwrap_or(0) as usize
}

/// A report without the whole records of zeros at its end: no path was written there.
pub fn used(report: &[u8]) -> &[u8] {
    let size = path_bytes(inputs_of(report));
    let is_used = |record: &[u8]| record.len() < size || !is_unwritten(record);
    let count = report.chunks(size).rposition(is_used).map_or(0, |last| last + 1);
    &report[..report.len().min(count * size)]
}

fn is_unwritten(record: &[u8]) -> bool {
    record.iter().all(|&byte| byte == 0)
}

// ---------------------------------------------------------------------------------------------
// Writing.

/// The listing's line of a path.
pub fn line(record: &Record) -> String {
    let Record { number, kind, pc, steps, .. } = record;
    let mut line = format!("path {number} end {kind} at {pc} steps {steps}");
    for (low, high) in &record.intervals {
        let _ = write!(line, " in {low}..{high}");
    }
    if *kind == EXITED {
        let _ = write!(line, " exit {}..{}", record.exit.0, record.exit.1);
    }
    if *kind == NOT_FOLLOWED {
        let _ = write!(line, " reason {}", record.reason);
    }
    line + "\n"
}

/// A line for each register that is shown.
pub fn register_lines(record: &Record, shown: Shown) -> String {
    let wanted = |value| shown == Shown::All || shown == Shown::NotZero && value != (0, 0);
    let registers = record.registers.iter().enumerate().skip(1);
    registers
        .filter(|(_, value)| wanted(**value))
        .map(|(register, (low, high))| {
            format!("    x{register:<3}{:<4}{low}..{high}\n", register_name(register as u32))
        })
        .collect()
}

/// How a path ends, in words; the exit interval is that of all its choices.
pub fn end_text(record: &Record) -> String {
    let kind = kind_text(record.kind);
    match (record.kind, record.exit) {
        (EXITED, (low, high)) if low == high => format!("{kind} with {low}"),
        (EXITED, (low, high)) => format!("{kind} with {low} to {high}"),
        (NOT_FOLLOWED, _) => format!("{kind}: {}", reason_text(record.reason)),
        _ => kind.to_string(),
    }
}

/// The listing of a page that the library has written.
pub fn listing(page: &[Record], more: bool, shown: Shown) -> String {
    let mut text = format!("paths {} more {}\n", page.len(), more as u64);
    for record in page {
        text += &(line(record) + &register_lines(record, shown));
    }
    text
}

/// A report from anywhere: its paths in words, and how many records are not a path.
pub fn report_text(bytes: &[u8]) -> Result<(String, usize), String> {
    let size = path_bytes(inputs_of(bytes));
    if bytes.is_empty() || bytes.len() % size != 0 {
        return Err(format!("{} bytes are not whole records of {size}", bytes.len()));
    }
    let (mut text, mut empty, mut faults) = (String::new(), 0, 0);
    for (place, bytes) in bytes.chunks(size).enumerate() {
        match read(bytes) {
            Ok(record) => text += &record_text(&record),
            Err(_) if is_unwritten(bytes) => empty += 1,
            Err(fault) => {
                faults += 1;
                text += &(no_path(place, &fault) + "\n");
            }
        }
    }
    if empty > 0 {
        text += &format!("records with no path written: {empty}\n");
    }
    Ok((text, faults))
}

fn record_text(record: &Record) -> String {
    let end = format!("    {}; inputs read {}\n", end_text(record), record.reads);
    line(record) + &end + &register_lines(record, Shown::NotZero)
}

#[cfg(test)]
mod tests {
    use super::*;
    use crate::blocks::{to_bytes, HIGHS, LOWS};
    use crate::limits::{in_header, PAYLOAD_WORDS};
    use crate::random::Random;

    /// A record of Job A's one input.
    const RECORD: usize = path_bytes(1);

    fn bytes_of(first: &[(usize, u64)], second: &[(usize, u64)]) -> Vec<u8> {
        let mut words = [0; 2 * PAYLOAD_WORDS];
        first.iter().for_each(|&(place, word)| words[place] = word);
        second.iter().for_each(|&(place, word)| words[PAYLOAD_WORDS + place] = word);
        to_bytes(&words)
    }

    #[test]
    fn the_header_for_c_has_the_same_places() {
        let places = [
            ("NUMBER", NUMBER),
            ("KIND", KIND),
            ("PC", PC),
            ("STEPS", STEPS),
            ("INPUT_COUNT", INPUT_COUNT),
            ("LOWS", LOWS),
            ("HIGHS", HIGHS),
            ("EXIT_LOW", EXIT_LOW),
            ("EXIT_HIGH", EXIT_HIGH),
            ("REASON", REASON),
            ("INPUTS_READ", INPUTS_READ),
        ];
        for (name, place) in places {
            assert_eq!(in_header(&format!("MIROKEFA_PATH_{name} =")), Some(place as u64), "{name}");
        }
    }

    /// Path 1 of Job A, every word put in its place by hand.
    fn path_of_a() -> Vec<u8> {
        let first = [(0, 1), (1, 1), (2, 28), (3, 7), (4, 1), (5, 10), (13, 255), (24, 1)];
        let second = [(0, 1), (3, 4096), (4, 4096), (9, 10), (10, 255), (62, 7)];
        bytes_of(&first, &second)
    }

    #[test]
    fn a_path_of_job_a() {
        let record = read(&path_of_a()).unwrap();
        assert_eq!(line(&record), "path 1 end 1 at 28 steps 7 in 10..255 exit 0..0\n");
        let registers = "    x2  sp  4096..4096\n    x5  t0  10..255\n    x31 t6  0..7\n";
        assert_eq!(register_lines(&record, Shown::NotZero), registers);
        assert_eq!(register_lines(&record, Shown::All).lines().count(), 31);
        assert_eq!(register_lines(&record, Shown::None), "");
    }

    #[test]
    fn every_word_has_its_place() {
        let mut first: Vec<(usize, u64)> =
            (0..25).map(|place| (place, 100 + place as u64)).collect();
        (first[1].1, first[4].1) = (1, 8);
        let second: Vec<(usize, u64)> =
            (0..PAYLOAD_WORDS).map(|place| (place, 100 + place as u64)).collect();
        let record = read(&bytes_of(&first, &second)).unwrap();
        let Record { number, kind, pc, steps, reason, reads, .. } = record;
        assert_eq!([number, kind, pc, steps, reason, reads], [100, 1, 102, 103, 123, 124]);
        assert_eq!(record.exit, (121, 122));
        let intervals: Vec<Interval> = (105..113).map(|low| (low, low + 8)).collect();
        assert_eq!(record.intervals, intervals);
        assert_eq!(record.registers[..2], [(0, 0), (101, 102)]);
        assert_eq!(record.registers[31], (161, 162));
    }

    #[test]
    fn kind_8_has_a_reason_and_no_exit() {
        let first = [(1, 8), (2, 20), (3, 5), (4, 2), (5, 1), (13, 2), (6, 3), (14, 4), (23, 4)];
        let record = read(&bytes_of(&first, &[])).unwrap();
        assert_eq!(line(&record), "path 0 end 8 at 20 steps 5 in 1..2 in 3..4 reason 4\n");
    }

    #[test]
    fn ends_in_words() {
        let end = |first: &[(usize, u64)]| end_text(&read(&bytes_of(first, &[])).unwrap());
        assert_eq!(end(&[(1, 1), (21, 3), (22, 3)]), "exit with 3");
        assert_eq!(end(&[(1, 1), (21, 0), (22, u64::MAX)]), format!("exit with 0 to {}", u64::MAX));
        assert_eq!(end(&[(1, 2)]), "division by zero (no longer given)");
        assert_eq!(end(&[(1, 7)]), "the step limit is reached");
        assert_eq!(end(&[(1, 8), (23, 4)]), "not followed: the divisor varies");
        let unused = "the fixed multiplier is neither 0 nor a power of two (no longer given)";
        assert_eq!(end(&[(1, 8), (23, 2)]), format!("not followed: {unused}"));
        assert_eq!(end(&[(1, 8), (23, 9)]), "not followed: no such reason");
    }

    #[test]
    fn a_box_holds_its_ends_and_what_is_between() {
        let first = [(1, 1), (4, 2), (5, 3), (13, 5), (6, 0), (14, u64::MAX)];
        let record = read(&bytes_of(&first, &[])).unwrap();
        assert!([[3, 0], [4, 9], [5, u64::MAX]].iter().all(|row| record.holds(row)));
        assert!([[2, 0], [6, 0]].iter().all(|row| !record.holds(row)));
        assert!(!record.holds(&[4]) && !record.holds(&[4, 4, 4]));
    }

    #[test]
    fn unwritten_records_are_cut_at_the_end_alone() {
        let (path, empty) = (path_of_a(), [0; RECORD]);
        assert_eq!(used(&[&path[..], &path, &empty, &empty].concat()), [&path[..], &path].concat());
        assert_eq!(used(&path), path);
        let between = [&empty[..], &path].concat();
        assert_eq!(used(&between), between);
        let part = [&path[..], &[0; RECORD - 1]].concat();
        assert_eq!(used(&part), part);
        assert!(used(&empty).is_empty() && used(&[]).is_empty());
        assert_eq!(used(&[0; 20]), [0; 20]);
    }

    #[test]
    fn records_that_are_no_path() {
        let fault = |first, second| read(&bytes_of(first, second)).unwrap_err();
        assert_eq!(fault(&[(0, 1), (1, 1)], &[(0, 2)]), "its blocks belong to paths 1 and 2");
        assert_eq!(fault(&[(1, 1), (4, 9)], &[]), "it has 9 inputs");
        assert_eq!(fault(&[(1, 10)], &[]), "it has kind 10");
        assert!(read(&[0; RECORD]).is_err());
        assert!(read(&[]).is_err());
    }

    #[test]
    fn each_flipped_bit_is_seen() {
        let bytes = path_of_a();
        for bit in 0..8 * bytes.len() {
            let mut bytes = bytes.clone();
            bytes[bit / 8] ^= 1 << (bit % 8);
            assert!(read(&bytes).is_err(), "bit {bit}");
        }
    }

    #[test]
    fn a_report_with_unwritten_and_damaged_records() {
        let damaged = [1; RECORD];
        let report = [&path_of_a()[..], &damaged, &[0; 2 * RECORD]].concat();
        let (text, faults) = report_text(&report).unwrap();
        assert_eq!(faults, 1);
        assert!(text.starts_with("path 1 end 1 at 28"));
        let end = "record 1 is no path: the first block's check does not agree\n\
                   records with no path written: 2\n";
        assert!(text.ends_with(end), "{text}");
        assert!(report_text(&[]).is_err() && report_text(&report[1..]).is_err());
    }

    #[test]
    fn random_bytes_are_no_paths() {
        let mut random = Random(5);
        for _ in 0..300 {
            let count = random.below(40 * BLOCK_BYTES);
            assert!(report_text(&random.bytes(count)).map_or(0, |(_, faults)| faults) <= 20);
        }
    }
}
