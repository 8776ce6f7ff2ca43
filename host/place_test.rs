//! Rows placed through the library's border, compared with the oracle: in reports of random
//! programs, in foreign and in damaged reports, with wrong input counts and wrong lengths.
//! `place_test [SEED]`: another seed brings other reports and rows.

#[allow(dead_code)] // sheets are printed by sheet_test
#[path = "../tool/library.rs"]
mod library;
mod oracle;
#[allow(dead_code)] // every input count is tried here, none is drawn
mod programs;
mod reports;
mod runs;

use formats::blocks::{word, Interval, HIGHS, LOWS};
use formats::limits::{path_bytes, BLOCK_BYTES, MOST_INPUTS, MOST_ROWS};
use formats::random::Random;
use formats::report::read_pages;
use oracle::{BAD_RECORDS, BAD_ROWS, NO_PATH};
use reports::{
    foreign, own_report, record, report_of, Damage, Foreign, ReportTest, MOST_PATHS, NUMBER,
};
use runs::{flip, with_margins, Seen, Test, FILL, MARGIN};
use std::fmt;

/// Programs explored, and foreign reports made, for each input count.
const OWN_REPORTS: usize = 40;
const FOREIGN_REPORTS: usize = 60;
/// Rows of a report that are placed one by one.
const ALONE: usize = 16;

// ---------------------------------------------------------------------------------------------
// A call.

struct Call<'a> {
    inputs: u64,
    report: &'a [u8],
    rows: &'a [u64],
    answer_words: usize,
}

/// A call with an answer for each row.
fn call<'a>(inputs: usize, report: &'a [u8], rows: &'a [u64]) -> Call<'a> {
    Call { inputs: inputs as u64, report, rows, answer_words: rows.len() / inputs }
}

impl Call<'_> {
    /// The oracle's number and its answers, with their margins.
    fn expected(&self) -> (u64, Vec<u64>) {
        let mut answers = with_margins(&vec![FILL; self.answer_words], FILL);
        let lent = &mut answers[MARGIN..][..self.answer_words];
        let number = oracle::place(self.inputs, self.report, self.rows, lent);
        (number, answers)
    }

    /// What the library does otherwise, in its number or in a byte that is lent or near it.
    fn difference(&self, wanted: u64, expected: &[u64]) -> Option<String> {
        let (report, rows) = self.readable();
        let mut answers = with_margins(&vec![FILL; self.answer_words], FILL);
        let number = library::place(
            self.inputs,
            &report[MARGIN..][..self.report.len()],
            &rows[MARGIN..][..self.rows.len()],
            &mut answers[MARGIN..][..self.answer_words],
        );
        if number != wanted {
            return Some(format!("the number is {number}, expected {wanted}"));
        }
        if let Some(at) = (0..answers.len()).find(|&at| answers[at] != expected[at]) {
            let (place, found) = (at as i64 - MARGIN as i64, answers[at]);
            return Some(format!("answer {place} is {found}, expected {}", expected[at]));
        }
        let (report_came, rows_came) = self.readable();
        let kept = report == report_came && rows == rows_came;
        (!kept).then(|| "the report or the rows were changed".to_string())
    }

    /// The report and the rows, with margins.
    fn readable(&self) -> (Vec<u8>, Vec<u64>) {
        (with_margins(self.report, FILL as u8), with_margins(self.rows, FILL))
    }
}

impl fmt::Display for Call<'_> {
    fn fmt(&self, f: &mut fmt::Formatter) -> fmt::Result {
        let (inputs, report, rows) = (self.inputs, self.report.len(), self.rows.len());
        write!(f, "{inputs} inputs, {report} report bytes, {rows} row words, ")?;
        write!(f, "{} answer words", self.answer_words)
    }
}

// ---------------------------------------------------------------------------------------------
// The run.

type Run = runs::Run<Tally>;

/// How often each thing was seen.
#[derive(Default)]
struct Tally {
    own_reports: [u64; MOST_INPUTS],
    own_rows: [u64; 2],
    again: [u64; 3],
    foreign_rows: [u64; 3],
    foreign_odd: [u64; 4],
    lengths: [u64; 2],
    long: [u64; 2],
    damage: Damage,
}

impl Test for Tally {
    const NUMBERS: &'static [u64] = &[0, BAD_RECORDS, BAD_ROWS];

    fn seen(&self) -> Vec<Seen<'_>> {
        let mut seen: Vec<Seen> = vec![
            ("own reports of several paths, with 1 to 8 inputs", &self.own_reports),
            ("rows outside and inside the starting box", &self.own_rows),
            ("rows again in another order, alone, on a later page", &self.again),
            ("foreign rows in no record, in one, in several", &self.foreign_rows),
            ("with a 0, a MAX, a path numbered MAX, a low above a high", &self.foreign_odd),
            ("lengths of rows and answers, with a good and a bad report", &self.lengths),
            ("long reports accepted and refused", &self.long),
        ];
        seen.extend(self.damage.seen());
        seen
    }
}

impl ReportTest for Tally {
    fn damage(&mut self) -> &mut Damage {
        &mut self.damage
    }

    fn lend(run: &mut Run, case: &str, inputs: u64, report: &[u8], readable: Option<bool>) -> bool {
        // a count that is wrong by itself gets rows that some count has
        let values = inputs.clamp(1, MOST_INPUTS as u64) as usize;
        let rows = rows_at(report, values);
        let call = Call { inputs, ..call(values, report, &rows) };
        let known = readable.map(|readable| if readable { 0 } else { BAD_RECORDS });
        let (number, _) = run.compare(case, &call, known);
        number != BAD_RECORDS
    }
}

impl Run {
    /// The number and the answers on which the library and the oracle must agree.
    fn compare(&mut self, case: &str, call: &Call, known: Option<u64>) -> (u64, Vec<u64>) {
        let (number, answers) = call.expected();
        if let Some(text) = call.difference(number, &answers) {
            self.fault(case, call, &text);
        }
        self.count_call(number);
        self.require(case, call, number, known);
        (number, answers[MARGIN..][..call.answer_words].to_vec())
    }

    /// The answers are known without the oracle.
    fn expect_answers(&mut self, case: &str, call: &Call, answers: &[u64]) {
        let (_, found) = self.compare(case, call, Some(0));
        if found != answers {
            let text = format!("the oracle gives {found:?}, expected {answers:?}");
            self.fault(case, call, &text);
        }
    }
}

// ---------------------------------------------------------------------------------------------
// Rows.

fn holds(boxed: &[Interval], row: &[u64]) -> bool {
    boxed.iter().zip(row).all(|(ends, value)| (ends.0..=ends.1).contains(value))
}

/// Each value at an end or between them; in half of the rows one value is moved just outside.
fn row_near(random: &mut Random, boxed: &[Interval]) -> Vec<u64> {
    let mut row = Vec::new();
    for &(low, high) in boxed {
        let between = random.between((low.min(high), low.max(high)));
        row.push(random.pick(&[low, high, between]));
    }
    if random.once_in(2) {
        let input = random.below(row.len());
        let (low, high) = boxed[input];
        row[input] = random.pick(&[low.wrapping_sub(1), high.wrapping_add(1)]);
    }
    row
}

fn rows_near(random: &mut Random, boxes: &[Vec<Interval>], count: usize) -> Vec<Vec<u64>> {
    let row = |_| {
        let place = random.below(boxes.len());
        row_near(random, &boxes[place])
    };
    (0..count).map(row).collect()
}

/// A row of fives, and the lows and the highs of a report's first record if it has them.
fn rows_at(report: &[u8], values: usize) -> Vec<u64> {
    let words: Vec<u64> = report.chunks_exact(8).take(HIGHS + values).map(word).collect();
    let mut rows = vec![5; values];
    for ends in [LOWS, HIGHS] {
        rows.extend(words.get(ends..ends + values).unwrap_or_default());
    }
    rows
}

fn row_count(random: &mut Random) -> usize {
    let few = 1 + random.below(40);
    random.pick(&[few, few, few, few, few, few, few, MOST_ROWS])
}

// ---------------------------------------------------------------------------------------------
// Own reports.

/// A starting box, the complete report of a program on it with its boxes, and rows.
struct Own {
    start: Vec<Interval>,
    report: Vec<u8>,
    boxes: Vec<Vec<Interval>>,
    rows: Vec<Vec<u64>>,
}

fn with_rows(random: &mut Random, start: Vec<Interval>, report: Vec<u8>) -> Own {
    let records = read_pages(&report, start.len()).expect("a page of the library");
    let boxes: Vec<Vec<Interval>> = records.into_iter().map(|record| record.intervals).collect();
    let count = row_count(random);
    let at_paths = rows_near(random, &boxes, count / 2);
    let at_start = rows_near(random, &[start.clone()], count - count / 2);
    Own { start, report, boxes, rows: [at_paths, at_start].concat() }
}

impl Own {
    fn call<'a>(&self, report: &'a [u8], rows: &'a [u64]) -> Call<'a> {
        call(self.start.len(), report, rows)
    }

    /// A row of the starting box lies in one path alone; any other row lies in none.
    fn path_of(&self, row: &[u64]) -> u64 {
        let holders = (0..self.boxes.len()).filter(|&place| holds(&self.boxes[place], row));
        let holders: Vec<usize> = holders.collect();
        let inside = holds(&self.start, row);
        assert_eq!(holders.len(), inside as usize, "{row:?} lies in paths {holders:?}");
        holders.first().map_or(NO_PATH, |&place| place as u64)
    }
}

impl Run {
    fn own_reports(&mut self) {
        for inputs in 1..=MOST_INPUTS {
            for _ in 0..OWN_REPORTS {
                let (start, report) = own_report(&mut self.random, inputs);
                let own = with_rows(&mut self.random, start, report);
                self.tally.own_reports[inputs - 1] += (own.boxes.len() > 1) as u64;
                self.place_own(&own);
            }
        }
    }

    fn place_own(&mut self, own: &Own) {
        let answers: Vec<u64> = own.rows.iter().map(|row| own.path_of(row)).collect();
        for &answer in &answers {
            self.tally.own_rows[(answer != NO_PATH) as usize] += 1;
        }
        let rows = own.rows.concat();
        self.expect_answers("own report", &own.call(&own.report, &rows), &answers);
        self.place_in_other_order(own, &answers);
        self.place_alone(own, &answers);
        self.place_on_page(own, &answers);
    }

    fn place_in_other_order(&mut self, own: &Own, answers: &[u64]) {
        let mut order: Vec<usize> = (0..own.rows.len()).collect();
        for place in 1..order.len() {
            order.swap(place, self.random.below(place + 1));
        }
        let rows: Vec<u64> = order.iter().flat_map(|&place| own.rows[place].clone()).collect();
        let answers: Vec<u64> = order.iter().map(|&place| answers[place]).collect();
        self.expect_answers("another order", &own.call(&own.report, &rows), &answers);
        self.tally.again[0] += answers.len() as u64;
    }

    fn place_alone(&mut self, own: &Own, answers: &[u64]) {
        for (row, &answer) in own.rows.iter().zip(answers).take(ALONE) {
            self.expect_answers("a row alone", &own.call(&own.report, row), &[answer]);
            self.tally.again[1] += 1;
        }
    }

    /// On some of the paths the rows of the others have no answer, and numbers are not places.
    fn place_on_page(&mut self, own: &Own, answers: &[u64]) {
        let (size, paths) = (path_bytes(own.start.len()), own.boxes.len());
        let first = self.random.below(paths);
        let end = first + 1 + self.random.below(paths - first);
        let kept = |answer: u64| (first as u64..end as u64).contains(&answer);
        let answer = |&answer: &u64| if kept(answer) { answer } else { NO_PATH };
        let answers: Vec<u64> = answers.iter().map(answer).collect();
        let (page, rows) = (&own.report[first * size..end * size], own.rows.concat());
        self.expect_answers("a page", &own.call(page, &rows), &answers);
        let later = answers.iter().filter(|&&answer| first > 0 && answer != NO_PATH);
        self.tally.again[2] += later.count() as u64;
    }
}

// ---------------------------------------------------------------------------------------------
// Foreign reports.

/// The numbers of the paths that hold a row, in their order.
fn numbers(foreign: &Foreign, row: &[u64]) -> Vec<u64> {
    let paths = foreign.boxes.iter().zip(&foreign.records);
    let holders = paths.filter(|(boxed, _)| holds(boxed, row));
    holders.map(|(_, record)| record[NUMBER]).collect()
}

impl Run {
    fn foreign_reports(&mut self) {
        for inputs in 1..=MOST_INPUTS {
            for _ in 0..FOREIGN_REPORTS {
                let paths = self.random.pick(&[1, 2, 3, 4, 5, 6, 7, 8, 30, MOST_PATHS]);
                let foreign = foreign(&mut self.random, inputs, paths);
                let count = row_count(&mut self.random);
                let rows = rows_near(&mut self.random, &foreign.boxes, count);
                self.place_foreign(&foreign, &rows);
            }
        }
    }

    fn place_foreign(&mut self, foreign: &Foreign, rows: &[Vec<u64>]) {
        let mut answers = Vec::new();
        for row in rows {
            let numbers = numbers(foreign, row);
            self.count_foreign(foreign, row, &numbers);
            answers.push(numbers.first().copied().unwrap_or(NO_PATH));
        }
        let (report, words) = (report_of(&foreign.records), rows.concat());
        self.expect_answers("foreign report", &call(foreign.inputs, &report, &words), &answers);
    }

    fn count_foreign(&mut self, foreign: &Foreign, row: &[u64], numbers: &[u64]) {
        self.tally.foreign_rows[numbers.len().min(2)] += 1;
        let Some(&first) = numbers.first() else { return };
        let falling = foreign.boxes.iter().flatten().any(|(low, high)| low > high);
        let odd = [row.contains(&0), row.contains(&u64::MAX), first == NO_PATH, falling];
        for (count, odd) in self.tally.foreign_odd.iter_mut().zip(odd) {
            *count += odd as u64;
        }
    }
}

// ---------------------------------------------------------------------------------------------
// Wrong lengths.

impl Run {
    /// Around the limits: whole rows, and a value less or more.
    fn lengths(&mut self) {
        for inputs in 1..=MOST_INPUTS {
            let foreign = foreign(&mut self.random, inputs, 3);
            let rows = rows_near(&mut self.random, &foreign.boxes, MOST_ROWS + 2).concat();
            for count in [0, 1, 2, MOST_ROWS - 1, MOST_ROWS, MOST_ROWS + 1] {
                let words = count * inputs;
                for words in [words.saturating_sub(1), words, words + 1] {
                    self.answer_lengths(&foreign, &rows[..words], count);
                }
            }
        }
    }

    fn answer_lengths(&mut self, foreign: &Foreign, rows: &[u64], count: usize) {
        let inputs = foreign.inputs;
        let report = report_of(&foreign.records);
        let mut damaged = report.clone();
        flip(&mut damaged, self.random.below(8 * report.len()));
        for answer_words in [0, count.saturating_sub(1), count, count + 1, rows.len()] {
            let whole = rows.len() % inputs == 0 && rows.len() / inputs == answer_words;
            let number = if whole && answer_words <= MOST_ROWS { 0 } else { BAD_ROWS };
            let good = call(inputs, &report, rows);
            self.compare("a length", &Call { answer_words, ..good }, Some(number));
            self.tally.lengths[0] += 1;
            for bad in [&damaged, &report[1..], &report[..report.len() - BLOCK_BYTES]] {
                let call = Call { answer_words, ..call(inputs, bad, rows) };
                self.compare("a length with a bad report", &call, Some(BAD_RECORDS));
                self.tally.lengths[1] += 1;
            }
        }
    }
}

// ---------------------------------------------------------------------------------------------
// Long reports.

impl Run {
    /// One record more than one byte, or two bytes, can count; path 3k is the box k..k.
    fn long_reports(&mut self) {
        for count in [(1 << 8) + 1, (1 << 16) + 1] {
            let path = |place| record(&mut self.random, 1, 3 * place, &[(place, place)]);
            let mut report = report_of(&(0..count).map(path).collect::<Vec<_>>());
            let rows = [0, count - 3, count - 2, count - 1, count];
            let answers = rows.map(|row| if row < count { 3 * row } else { NO_PATH });
            self.expect_answers("a long report", &call(1, &report, &rows), &answers);
            self.tally.long[0] += 1;
            let last_bit = 8 * report.len() - 1;
            flip(&mut report, last_bit);
            self.compare("a long report's last check", &call(1, &report, &rows), Some(BAD_RECORDS));
            self.tally.long[1] += 1;
        }
    }
}

fn main() {
    let mut run = Run::start("place_test");
    run.own_reports();
    run.foreign_reports();
    run.damaged_reports();
    run.lengths();
    run.long_reports();
    run.finish()
}
