//! Reports printed through the library's border, compared with the oracle: reports of random
//! programs, foreign and damaged reports, with wrong input counts and on sheets that are too short,
//! exact and too long. `sheet_test [SEED]`: another seed brings other reports and sheets.

#[allow(dead_code)] // rows are placed by place_test
#[path = "../tool/library.rs"]
mod library;
mod oracle;
#[allow(dead_code)] // every input count is tried here, none is drawn
mod programs;
#[allow(dead_code)] // the boxes of foreign reports are for rows
mod reports;
mod runs;

use formats::blocks::{intervals, Interval};
use formats::limits::{path_bytes, LINE_BYTES, MOST_INPUTS};
use formats::random::Random;
use formats::report::{read_pages, Record};
use oracle::{BAD_RECORDS, SHORT_SHEET};
use reports::{own_report, record, report_of, Damage, ReportTest, MOST_PATHS, NUMBER};
use runs::{any_room, flip, with_margins, Seen, Test, FILL, MARGIN};
use std::fmt;

/// Programs explored, and foreign reports made, for each input count.
const OWN_REPORTS: usize = 40;
const FOREIGN_REPORTS: usize = 60;
/// Lengths asked for with arguments of any size.
const LENGTHS: usize = 20_000;
/// The longest sheets have up to so many bytes more than the text.
const MORE: usize = 10_000;
/// The digits of MAX.
const MOST_DIGITS: usize = 20;
const NOT_FOLLOWED: u64 = 8;

// Words of a record that a sheet shows, beside its number, the lows and the highs.
const KIND: usize = 1;
const REASON: usize = 23;

// ---------------------------------------------------------------------------------------------
// A call.

struct Call<'a> {
    inputs: u64,
    report: &'a [u8],
    sheet_bytes: usize,
}

/// A call whose sheet has the length of the text.
fn call(inputs: usize, report: &[u8]) -> Call<'_> {
    let inputs = inputs as u64;
    Call { inputs, report, sheet_bytes: oracle::sheet_bytes(inputs, report.len()) as usize }
}

impl Call<'_> {
    /// What the library does otherwise, in its number or in a byte that is lent or near it.
    fn difference(&self, came: &[u8], wanted: u64, expected: &[u8]) -> Option<String> {
        let report = with_margins(self.report, FILL as u8);
        let mut sheet = came.to_vec();
        let lent = &mut sheet[MARGIN..][..self.sheet_bytes];
        let number = library::sheet(self.inputs, &report[MARGIN..][..self.report.len()], lent);
        if number != wanted {
            return Some(format!("the number is {number}, expected {wanted}"));
        }
        if let Some(at) = (0..sheet.len()).find(|&at| sheet[at] != expected[at]) {
            let (place, text) = (at as i64 - MARGIN as i64, |byte| (byte as char).escape_default());
            let line = LINE_BYTES as i64;
            let (line, column) = (place.div_euclid(line) + 1, place.rem_euclid(line) + 1);
            let (found, expected) = (text(sheet[at]), text(expected[at]));
            return Some(format!("line {line} column {column} is {found}, expected {expected}"));
        }
        let kept = report == with_margins(self.report, FILL as u8);
        (!kept).then(|| "the report was changed".to_string())
    }
}

impl fmt::Display for Call<'_> {
    fn fmt(&self, f: &mut fmt::Formatter) -> fmt::Result {
        let (inputs, report, sheet) = (self.inputs, self.report.len(), self.sheet_bytes);
        write!(f, "{inputs} inputs, {report} report bytes, {sheet} sheet bytes")
    }
}

// ---------------------------------------------------------------------------------------------
// The run.

type Run = runs::Run<Tally>;

/// The numbers on a sheet: path number, kind, reason, low and high.
const FIELDS: usize = 5;

/// How often each thing was seen.
#[derive(Default)]
struct Tally {
    own_reports: [u64; MOST_INPUTS],
    own_pages: [u64; 3],
    own_paths: [u64; 2],
    digits: [[u64; MOST_DIGITS]; FIELDS],
    zeros: [u64; FIELDS],
    highest: [u64; FIELDS],
    foreign_odd: [u64; 3],
    sheets: [[u64; 7]; 2],
    empty: [u64; 2],
    long: [u64; 3],
    lengths: [u64; 3],
    counts: [u64; 2],
    damage: Damage,
}

impl Test for Tally {
    const NUMBERS: &'static [u64] = &[0, BAD_RECORDS, SHORT_SHEET];

    fn seen(&self) -> Vec<Seen<'_>> {
        let mut seen: Vec<Seen> = vec![
            ("own reports of several paths, with 1 to 8 inputs", &self.own_reports),
            ("own reports whole, first pages, later pages", &self.own_pages),
            ("own paths without a reason and with one", &self.own_paths),
            ("foreign path numbers of 1 to 20 digits", &self.digits[0]),
            ("foreign kinds", &self.digits[1]),
            ("foreign reasons", &self.digits[2]),
            ("foreign lows", &self.digits[3]),
            ("foreign highs", &self.digits[4]),
            ("0 as path number, kind, reason, low, high", &self.zeros),
            ("MAX as path number, kind, reason, low, high", &self.highest),
            ("reasons without kind 8, kind 8 with 0, lows above highs", &self.foreign_odd),
            ("sheets of 0 bytes, of any too few, a line less, a byte less", &self.sheets[0][..4]),
            ("exact ones, a byte more, many more", &self.sheets[0][4..]),
            ("such sheets with a bad report", &self.sheets[1]),
            ("sheets of 0 bytes and longer ones with no record", &self.empty),
            ("long reports accepted, on too short a sheet, unreadable", &self.long),
            ("lengths that are 0, that fit and that do not", &self.lengths),
            ("input counts whose lengths all fit, and do not", &self.counts),
        ];
        seen.extend(self.damage.seen());
        seen
    }
}

impl ReportTest for Tally {
    fn damage(&mut self) -> &mut Damage {
        &mut self.damage
    }

    fn lend(run: &mut Run, case: &str, inputs: u64, report: &[u8], readable: Option<bool>) -> bool {
        // a count that is wrong by itself gets a sheet that some count has
        let exact = call(inputs.min(MOST_INPUTS as u64) as usize, report).sheet_bytes;
        let below = exact.saturating_sub(1);
        let sheet_bytes = run.random.pick(&[exact, exact, exact + 1, below, 0]);
        let call = Call { inputs, report, sheet_bytes };
        let fits = if sheet_bytes < exact { SHORT_SHEET } else { 0 };
        let known = readable.map(|readable| if readable { fits } else { BAD_RECORDS });
        let (number, _) = run.compare(case, &call, known);
        number != BAD_RECORDS
    }
}

impl Run {
    /// The number on which the library and the oracle must agree, and the sheet as the call leaves it.
    fn compare(&mut self, case: &str, call: &Call, known: Option<u64>) -> (u64, Vec<u8>) {
        let came = any_room(&mut self.random, call.sheet_bytes);
        let mut expected = came.clone();
        let lent = &mut expected[MARGIN..][..call.sheet_bytes];
        let number = oracle::sheet(call.inputs, call.report, lent);
        if let Some(text) = call.difference(&came, number, &expected) {
            self.fault(case, call, &text);
        }
        self.count_call(number);
        self.require(case, call, number, known);
        self.compare_length(call.inputs, call.report.len());
        (number, expected[MARGIN..][..call.sheet_bytes].to_vec())
    }

    /// The lines' numbers are known without the oracle; the sheet has the length of the text.
    fn expect_lines(&mut self, case: &str, call: &Call, lines: &[[u64; 3]]) {
        let (number, sheet) = self.compare(case, call, Some(0));
        let whole = sheet.len() == lines.len() * LINE_BYTES;
        if number != 0 || !whole || read_back(&sheet) != lines {
            let found = String::from_utf8_lossy(&sheet);
            self.fault(case, call, &format!("the oracle prints {found}"));
        }
    }
}

/// The numbers on each line of a sheet.
fn read_back(sheet: &[u8]) -> Vec<Vec<u64>> {
    let number = |text: &str| text.parse().expect("a number on a sheet");
    let line = |text: &str| text.split_whitespace().map(number).collect();
    String::from_utf8_lossy(sheet).lines().map(line).collect()
}

// ---------------------------------------------------------------------------------------------
// Own reports.

/// The numbers on the lines of a path: its number, kind and reason, then each input with its ends.
fn lines_of(path: [u64; 3], boxed: &[Interval]) -> Vec<[u64; 3]> {
    let mut lines = vec![path];
    for (input, &(low, high)) in boxed.iter().enumerate() {
        lines.push([input as u64, low, high]);
    }
    lines
}

fn own_lines(record: &Record) -> Vec<[u64; 3]> {
    lines_of([record.number, record.kind, record.reason], &record.intervals)
}

impl Run {
    fn own_reports(&mut self) {
        for inputs in 1..=MOST_INPUTS {
            for _ in 0..OWN_REPORTS {
                let (_, report) = own_report(&mut self.random, inputs);
                self.print_own(inputs, &report);
            }
        }
    }

    /// Whole, and a page of some of its paths.
    fn print_own(&mut self, inputs: usize, report: &[u8]) {
        let records = read_pages(report, inputs).expect("a page of the library");
        self.tally.own_reports[inputs - 1] += (records.len() > 1) as u64;
        self.tally.own_pages[0] += 1;
        for record in &records {
            self.tally.own_paths[(record.reason != 0) as usize] += 1;
        }
        let lines: Vec<Vec<[u64; 3]>> = records.iter().map(own_lines).collect();
        self.expect_lines("own report", &call(inputs, report), &lines.concat());
        let first = self.random.below(lines.len());
        let end = first + 1 + self.random.below(lines.len() - first);
        let page = &report[first * path_bytes(inputs)..end * path_bytes(inputs)];
        self.expect_lines("a page", &call(inputs, page), &lines[first..end].concat());
        self.tally.own_pages[1 + (first > 0) as usize] += 1;
    }
}

// ---------------------------------------------------------------------------------------------
// Foreign reports.

/// Of any number of digits, often the least or the greatest of them.
fn any_number(random: &mut Random) -> u64 {
    let digits = 1 + random.below(MOST_DIGITS) as u32;
    let low = if digits == 1 { 0 } else { 10_u64.pow(digits - 1) };
    let high = 10_u64.checked_pow(digits).map_or(u64::MAX, |power| power - 1);
    let between = random.between((low, high));
    random.pick(&[low, high, between, between])
}

/// A record that shows any numbers; the words that are not shown hold anything.
fn foreign(random: &mut Random, inputs: usize) -> Vec<u64> {
    let mut ends = Vec::new();
    for _ in 0..inputs {
        ends.push((any_number(random), any_number(random)));
    }
    let number = any_number(random);
    let mut words = record(random, inputs as u64, number, &ends);
    let kind = any_number(random);
    words[KIND] = random.pick(&[kind, kind, NOT_FOLLOWED]);
    words[REASON] = any_number(random);
    words
}

fn foreign_lines(words: &[u64], inputs: usize) -> Vec<[u64; 3]> {
    lines_of([words[NUMBER], words[KIND], words[REASON]], &intervals(words, inputs))
}

impl Run {
    fn foreign_reports(&mut self) {
        for inputs in 1..=MOST_INPUTS {
            for _ in 0..FOREIGN_REPORTS {
                let paths = self.random.pick(&[1, 2, 3, 4, 5, 6, 7, 8, 30, MOST_PATHS]);
                let records: Vec<Vec<u64>> =
                    (0..paths).map(|_| foreign(&mut self.random, inputs)).collect();
                let lines = records.iter().map(|words| foreign_lines(words, inputs));
                let lines: Vec<Vec<[u64; 3]>> = lines.collect();
                lines.iter().for_each(|lines| self.count_foreign(lines));
                let report = report_of(&records);
                self.expect_lines("foreign report", &call(inputs, &report), &lines.concat());
                self.sheets(inputs, &report);
            }
        }
    }

    fn count_foreign(&mut self, lines: &[[u64; 3]]) {
        let [_, kind, reason] = lines[0];
        self.count_fields(0, &lines[0]);
        for line in &lines[1..] {
            self.count_fields(3, &line[1..]);
        }
        let falling = lines[1..].iter().any(|line| line[1] > line[2]);
        let followed = kind != NOT_FOLLOWED;
        let odd = [followed && reason != 0, !followed && reason == 0, falling];
        for (count, odd) in self.tally.foreign_odd.iter_mut().zip(odd) {
            *count += odd as u64;
        }
    }

    /// Numbers of these fields, from the first on.
    fn count_fields(&mut self, first: usize, numbers: &[u64]) {
        for (field, &number) in (first..).zip(numbers) {
            let digits = number.checked_ilog10().unwrap_or(0) as usize;
            self.tally.digits[field][digits] += 1;
            self.tally.zeros[field] += (number == 0) as u64;
            self.tally.highest[field] += (number == u64::MAX) as u64;
        }
    }
}

// ---------------------------------------------------------------------------------------------
// Sheets of other lengths, with no record, and of long reports.

impl Run {
    /// With the report, and with one bit of it flipped.
    fn sheets(&mut self, inputs: usize, report: &[u8]) {
        let mut damaged = report.to_vec();
        flip(&mut damaged, self.random.below(8 * report.len()));
        let exact = call(inputs, report).sheet_bytes;
        let (few, many) = (self.random.below(exact), exact + 2 + self.random.below(MORE - 1));
        let lengths = [0, few, exact - LINE_BYTES, exact - 1, exact, exact + 1, many];
        for (kind, sheet_bytes) in lengths.into_iter().enumerate() {
            let number = if sheet_bytes < exact { SHORT_SHEET } else { 0 };
            self.compare("a sheet", &Call { sheet_bytes, ..call(inputs, report) }, Some(number));
            self.tally.sheets[0][kind] += 1;
            let bad = Call { sheet_bytes, ..call(inputs, &damaged) };
            self.compare("a sheet with a bad report", &bad, Some(BAD_RECORDS));
            self.tally.sheets[1][kind] += 1;
        }
    }

    fn empty_reports(&mut self) {
        for inputs in 1..=MOST_INPUTS {
            for sheet_bytes in [0, 1, LINE_BYTES - 1, LINE_BYTES, 2 * LINE_BYTES, 1000] {
                let call = Call { inputs: inputs as u64, report: &[], sheet_bytes };
                self.compare("no record", &call, Some(0));
                self.tally.empty[(sheet_bytes > 0) as usize] += 1;
            }
        }
    }

    /// One record more than one byte, or two bytes, can count.
    fn long_reports(&mut self) {
        for count in [(1 << 8) + 1, (1 << 16) + 1] {
            let path = |_| foreign(&mut self.random, 1);
            let records: Vec<Vec<u64>> = (0..count).map(path).collect();
            let lines: Vec<[u64; 3]> =
                records.iter().flat_map(|words| foreign_lines(words, 1)).collect();
            let mut report = report_of(&records);
            self.expect_lines("a long report", &call(1, &report), &lines);
            self.tally.long[0] += 1;
            let whole = call(1, &report);
            let short = Call { sheet_bytes: whole.sheet_bytes - 1, ..whole };
            self.compare("a long report on a short sheet", &short, Some(SHORT_SHEET));
            self.tally.long[1] += 1;
            let last_bit = 8 * report.len() - 1;
            flip(&mut report, last_bit);
            self.compare("a long report's last check", &call(1, &report), Some(BAD_RECORDS));
            self.tally.long[2] += 1;
        }
    }
}

// ---------------------------------------------------------------------------------------------
// Lengths asked for alone, with any arguments.

/// Small numbers, and each power of two with its neighbours.
fn numbers() -> Vec<u64> {
    let powers = (5..64).map(|exponent| 1 << exponent);
    let near = powers.flat_map(|power: u64| [power - 1, power, power + 1]);
    (0..=30).chain(near).chain([u64::MAX - 1, u64::MAX]).collect()
}

impl Run {
    fn lengths(&mut self) {
        for inputs in numbers() {
            for report_bytes in numbers() {
                self.compare_length(inputs, report_bytes as usize);
            }
            self.last_length(inputs);
        }
        for _ in 0..LENGTHS {
            let [inputs, bytes] = [0; 2].map(|_| self.random.next() >> self.random.below(64));
            self.compare_length(inputs, bytes as usize);
            self.last_length(inputs);
        }
    }

    /// The length on which the library and the oracle must agree.
    fn compare_length(&mut self, inputs: u64, report_bytes: usize) -> u64 {
        let expected = oracle::sheet_bytes(inputs, report_bytes);
        let found = library::sheet_bytes(inputs, report_bytes) as u64;
        if found != expected {
            let call = format!("{inputs} inputs, {report_bytes} report bytes");
            self.fault("a length", &call, &format!("it is {found}, expected {expected}"));
        }
        let kind = match expected {
            0 => 0,
            u64::MAX => 2,
            _ => 1,
        };
        self.tally.lengths[kind] += 1;
        expected
    }

    /// Of the longest report of this count whose sheet has a length, and of one byte more.
    fn last_length(&mut self, inputs: u64) {
        let (line, size) = (LINE_BYTES as u128, path_bytes(inputs as usize) as u128);
        let path_lines = 1 + inputs as u128;
        let paths = u64::MAX as u128 / line / path_lines;
        let all_fit = (paths + 1) * size > u64::MAX as u128;
        self.tally.counts[!all_fit as usize] += 1;
        if all_fit {
            return;
        }
        let next = ((paths + 1) * size) as usize;
        let last = self.compare_length(inputs, next - 1);
        let lengths = [last as u128, self.compare_length(inputs, next) as u128];
        if lengths != [paths * path_lines * line, u64::MAX as u128] {
            let call = format!("{inputs} inputs, {next} report bytes");
            self.fault("a last length", &call, &format!("the oracle gives {lengths:?}"));
        }
    }
}

fn main() {
    let mut run = Run::start("sheet_test");
    run.own_reports();
    run.foreign_reports();
    run.damaged_reports();
    run.empty_reports();
    run.long_reports();
    run.lengths();
    run.finish()
}
