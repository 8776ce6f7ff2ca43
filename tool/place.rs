//! The command `place`: which path of a rule does each row of inputs take?

use crate::rule::whole_report;
use crate::{accepted, fault, library, line_faults, output, read_file};
use crate::{read_job, read_text, Output, Result, MOST_PAGE_PATHS};
use formats::job::Job;
use formats::limits::{path_bytes, MOST_INPUTS, MOST_ROWS};
use formats::numbers::NO_PATH;
use formats::report::{self, Record};
use formats::rows;

/// The paths that rows are placed in, as the library is lent them.
#[derive(Debug, PartialEq, Eq)]
struct Paths {
    inputs: usize,
    report: Vec<u8>,
    /// A stored report does not say whether its listing has other pages.
    whole: bool,
}

pub fn place(rule: &str, rows: &str) -> Result<Output> {
    let text = read_text(rows)?;
    let paths = read_paths(rule)?;
    let records = read_records(rule, &paths)?;
    let rows = rows::read(&text, paths.inputs).map_err(|faults| line_faults(rows, &faults))?;
    placed(&paths, &records, &rows).map(output)
}

// ---------------------------------------------------------------------------------------------
// The rule.

fn read_paths(name: &str) -> Result<Paths> {
    match name.rsplit_once('.') {
        Some((_, "report")) => read_report(name),
        Some((_, "s" | "job")) => whole_listing(name, &read_job(name)?, MOST_PAGE_PATHS as usize),
        _ => Err(fault(name, "the name of a rule ends in .s, .job or .report")),
    }
}

/// Every path of a job, whatever first path it names.
fn whole_listing(name: &str, job: &Job, most: usize) -> Result<Paths> {
    let inputs = job.intervals.len();
    if inputs == 0 {
        return Err(fault(name, "the rule has no input, so there is no row to place"));
    }
    Ok(Paths { inputs, report: whole_report(name, job, most)?, whole: true })
}

fn read_report(name: &str) -> Result<Paths> {
    let most = MOST_PAGE_PATHS as usize * path_bytes(MOST_INPUTS);
    let bytes = read_file(name, most)?;
    if bytes.len() > most {
        return Err(fault(name, format!("the report has more than {MOST_PAGE_PATHS} records")));
    }
    stored_paths(name, &bytes)
}

fn stored_paths(name: &str, bytes: &[u8]) -> Result<Paths> {
    let report = report::used(bytes);
    if report.is_empty() {
        return Err(fault(
            name,
            "the report has no path, so it does not say how many values a row has",
        ));
    }
    Ok(Paths { inputs: report::inputs_of(report), report: report.to_vec(), whole: false })
}

/// The library is asked about the report alone first: the rows are read by its input count.
fn read_records(name: &str, paths: &Paths) -> Result<Vec<Record>> {
    accepted(library::place(paths.inputs as u64, &paths.report, &[], &mut []))?;
    report::read_pages(&paths.report, paths.inputs).map_err(|message| fault(name, message))
}

// ---------------------------------------------------------------------------------------------
// The rows.

/// A line for each row.
fn placed(paths: &Paths, records: &[Record], rows: &[Vec<u64>]) -> Result<String> {
    let mut text = String::new();
    for ((row, answer), number) in rows.iter().zip(answers(paths, rows)?).zip(1..) {
        let path = path_text(record_of(answer, row, records)?, paths.whole);
        let values: Vec<String> = row.iter().map(u64::to_string).collect();
        text += &format!("row {number} ({}): {path}\n", values.join(", "));
    }
    Ok(text)
}

/// A call takes so many rows and no more; a row's answer does not depend on the others.
fn answers(paths: &Paths, rows: &[Vec<u64>]) -> Result<Vec<u64>> {
    let mut answers = vec![NO_PATH; rows.len()];
    for (rows, answers) in rows.chunks(MOST_ROWS).zip(answers.chunks_mut(MOST_ROWS)) {
        let inputs = paths.inputs as u64;
        accepted(library::place(inputs, &paths.report, &rows.concat(), answers))?;
    }
    Ok(answers)
}

/// The record that an answer names, none for no path; a foreign report may have a number twice.
fn record_of<'a>(answer: u64, row: &[u64], records: &'a [Record]) -> Result<Option<&'a Record>> {
    let record = records.iter().find(|record| record.number == answer && record.holds(row));
    match record {
        None if answer != NO_PATH => {
            Err(fault("the library's answer", format!("path {answer} does not hold {row:?}")))
        }
        _ => Ok(record),
    }
}

fn path_text(record: Option<&Record>, whole: bool) -> String {
    match record {
        Some(record) => format!("path {}, {}", record.number, report::end_text(record)),
        None if whole => "in no path".to_string(),
        None => "in no path of this report".to_string(),
    }
}

#[cfg(test)]
mod tests {
    use super::*;
    use crate::{explore_page, stopped, Stop};
    use formats::assembler::job_a;
    use formats::blocks::{to_bytes, Interval};
    use formats::limits::PAYLOAD_WORDS;
    use formats::source::assemble;

    /// What the command says of a rule's paths and a text of rows.
    fn said(paths: Result<Paths>, text: &str) -> String {
        let output = paths.and_then(|paths| {
            let records = read_records("rule", &paths)?;
            let rows = rows::read(text, paths.inputs).expect("rows without faults");
            placed(&paths, &records, &rows).map(output)
        });
        let Output { out, note, .. } = output.unwrap_or_else(stopped);
        String::from_utf8(out).unwrap() + &note
    }

    fn by_job(job: &Job, text: &str) -> String {
        said(whole_listing("rule", job, 64), text)
    }

    fn by_report(records: &[Vec<u8>], text: &str) -> String {
        said(stored_paths("rule", &records.concat()), text)
    }

    /// A record of a path that exits, with every word put in its place by hand.
    fn record(number: u64, (low, high): Interval, exit: Interval) -> Vec<u8> {
        let mut words = [0; 2 * PAYLOAD_WORDS];
        let places =
            [(0, number), (1, 1), (4, 1), (5, low), (13, high), (21, exit.0), (22, exit.1)];
        places.iter().for_each(|&(place, word)| words[place] = word);
        words[PAYLOAD_WORDS] = number;
        to_bytes(&words)
    }

    #[test]
    fn rows_of_job_a_at_the_ends_of_its_paths() {
        let lines = "row 1 (0): path 0, exit with 1\n\
                     row 2 (9): path 0, exit with 1\n\
                     row 3 (10): path 1, exit with 0\n\
                     row 4 (255): path 1, exit with 0\n\
                     row 5 (256): in no path\n\
                     row 6 (18446744073709551615): in no path\n";
        let text = "0\n9\n10\n255\n256\n18446744073709551615\n";
        assert_eq!(by_job(&job_a(), text), lines);
        assert_eq!(by_job(&Job { first: 1, ..job_a() }, text), lines);
        let (page, _) = explore_page(&job_a(), 64, 0).unwrap();
        let by_report = by_report(&[page], text);
        assert_eq!(by_report, lines.replace("in no path", "in no path of this report"));
    }

    #[test]
    fn a_report_may_be_a_page_of_a_longer_listing() {
        let (page, _) = explore_page(&job_a(), 1, 1).unwrap();
        let lines = "row 1 (9): in no path of this report\nrow 2 (10): path 1, exit with 0\n";
        assert_eq!(by_report(&[page], "9\n10"), lines);
    }

    #[test]
    fn ends_that_are_no_exit() {
        let unfollowed = assemble(include_str!("../jobs/unfollowed.s")).unwrap();
        let line = "row 1 (7, 9): path 0, not followed: both operands vary\n";
        assert_eq!(by_job(&unfollowed, "7 9"), line);
        let short = Job { limit: 5, ..job_a() };
        assert_eq!(by_job(&short, "7"), "row 1 (7): path 0, the step limit is reached\n");
    }

    #[test]
    fn more_rows_than_a_call_takes() {
        let values = 0..2 * MOST_ROWS + 2;
        let text: String = values.clone().map(|value| format!("{}\n", value % 300)).collect();
        let said = by_job(&job_a(), &text);
        assert_eq!(said.lines().count(), values.len());
        for (line, place) in said.lines().zip(values) {
            let alone = by_job(&job_a(), &format!("{}", place % 300));
            let (_, rest) = alone.trim_end().split_once(" (").unwrap();
            assert_eq!(line, format!("row {} ({rest}", place + 1));
        }
    }

    #[test]
    fn the_first_record_of_a_foreign_report_wins() {
        let records = [
            record(7, (5, 9), (1, 1)),
            record(3, (0, 20), (2, 3)),
            record(7, (0, 50), (4, 4)),
            record(u64::MAX, (60, 60), (5, 5)),
        ];
        let lines = "row 1 (5): path 7, exit with 1\n\
                     row 2 (4): path 3, exit with 2 to 3\n\
                     row 3 (30): path 7, exit with 4\n\
                     row 4 (60): path 18446744073709551615, exit with 5\n\
                     row 5 (51): in no path of this report\n";
        assert_eq!(by_report(&records, "5\n4\n30\n60\n51"), lines);
    }

    #[test]
    fn an_answer_is_looked_up_by_number_and_row() {
        let bytes = [record(7, (5, 9), (1, 1)), record(7, (10, 20), (2, 2))].concat();
        let records = report::read_pages(&bytes, 1).unwrap();
        assert_eq!(record_of(7, &[12], &records), Ok(Some(&records[1])));
        assert_eq!(record_of(NO_PATH, &[30], &records), Ok(None));
        let fault = "the library's answer: path 7 does not hold [30]\n".to_string();
        assert_eq!(record_of(7, &[30], &records), Err(Stop::Fault(fault)));
    }

    #[test]
    fn unused_records_are_cut_and_a_report_without_a_path_is_a_fault() {
        let (path, empty) = (record(7, (5, 9), (1, 1)), vec![0; path_bytes(1)]);
        let line = "row 1 (5): path 7, exit with 1\n";
        assert_eq!(by_report(&[path, empty.clone(), empty.clone()], "5"), line);
        let fault = "rule: the report has no path, so it does not say how many values a row has\n";
        assert_eq!(by_report(&[empty], "5"), fault);
        assert_eq!(by_report(&[], "5"), fault);
    }

    #[test]
    fn the_library_refuses_damaged_reports() {
        let path = record(7, (5, 9), (1, 1));
        let mut damaged = path.clone();
        damaged[600] ^= 1;
        let short = path[..path.len() - 1].to_vec();
        let empty = vec![0; path_bytes(1)];
        for records in [vec![damaged], vec![short], vec![path.clone(), vec![1]], vec![empty, path]]
        {
            assert!(by_report(&records, "5").starts_with("turned away 12\n"));
        }
    }

    #[test]
    fn a_record_that_is_no_path_is_a_fault() {
        let mut words = [0; 2 * PAYLOAD_WORDS];
        (words[1], words[4]) = (10, 1);
        let records = [record(0, (5, 9), (1, 1)), to_bytes(&words)];
        assert_eq!(by_report(&records, "5"), "rule: record 1 is no path: it has kind 10\n");
    }

    #[test]
    fn a_rule_without_inputs_or_of_another_name_is_a_fault() {
        let job = assemble("li a7, 93\necall").unwrap();
        let fault = "rule: the rule has no input, so there is no row to place\n";
        assert_eq!(by_job(&job, "5"), fault);
        let fault = "shift.rows: the name of a rule ends in .s, .job or .report\n".to_string();
        assert_eq!(read_paths("shift.rows"), Err(Stop::Fault(fault)));
    }

    #[test]
    fn no_row_is_placed_in_a_part_of_the_paths() {
        assert!(whole_listing("rule", &job_a(), 2).is_ok());
        let fault = "rule: the rule has more than 1 paths; narrow its inputs\n".to_string();
        assert_eq!(whole_listing("rule", &job_a(), 1), Err(Stop::Fault(fault)));
    }
}
