//! The command `witnesses`: the lowest and the highest inputs of each path, as rows that placing reads, each with
//! the end that a plain run of the rule has there.

use crate::plain::{self, Ending};
use crate::progress;
use crate::rule::{self, Rule};
use crate::{fault, output, Output, Result};
use formats::numbers::{kind_text, EXITED};
use formats::report::{end_text, Record};
use std::sync::atomic::Ordering;

const HEADING: &str = "# The lowest and the highest inputs of each path, and how a plain run of the rule ends there.\n";

pub fn witnesses(name: &str) -> Result<Output> {
    let rule = rule::read(name)?;
    if rule.job.intervals.is_empty() {
        return Err(fault(name, "the rule has no input, so there is no row to write"));
    }
    written(&rule, &rule.records()?).map(output)
}

fn written(rule: &Rule, records: &[Record]) -> Result<String> {
    let lines = progress::shown("plain runs of paths", records.len(), |done| {
        let both = records.iter().map(|record| {
            let lowest = line(rule, record, "lowest", &plain::lowest(record))?;
            let highest = line(rule, record, "highest", &plain::highest(record))?;
            done.fetch_add(1, Ordering::Relaxed);
            Ok([lowest, highest])
        });
        both.collect::<Result<Vec<_>>>()
    });
    let lines = lines?.concat();
    let width = lines.iter().map(|(row, _)| row.len()).max().unwrap_or(0);
    let line = |(row, end): &(String, String)| format!("{row:<width$}  # {end}\n");
    Ok(HEADING.to_string() + &lines.iter().map(line).collect::<String>())
}

/// A row, and what is said of it.
fn line(rule: &Rule, record: &Record, which: &str, row: &[u64]) -> Result<(String, String)> {
    let ending = plain::ending(&rule.job, record, row);
    let ending = ending.map_err(|message| fault(&rule.name, message))?;
    let values: Vec<String> = row.iter().map(u64::to_string).collect();
    let end = ending_text(ending, record);
    Ok((values.join(", "), format!("path {}, {which}: {end}", record.number)))
}

/// The plain run's end; where the engine stopped before it, why it did.
fn ending_text(ending: Ending, record: &Record) -> String {
    let end = match ending.kind {
        EXITED => format!("{} with {}", kind_text(EXITED), ending.value),
        kind => kind_text(kind).to_string(),
    };
    if plain::stops(record) || ending.kind == record.kind {
        return end;
    }
    format!("{end}; the engine stops before: {}", end_text(record))
}

#[cfg(test)]
mod tests {
    use super::*;
    use formats::assembler::job_a;
    use formats::job::Job;
    use formats::source::assemble;

    fn text(job: Job) -> String {
        let rule = Rule::of_job(job);
        written(&rule, &rule.records().unwrap()).unwrap()
    }

    #[test]
    fn the_rows_of_job_a() {
        let rows = "0    # path 0, lowest: exit with 1\n\
                    9    # path 0, highest: exit with 1\n\
                    10   # path 1, lowest: exit with 0\n\
                    255  # path 1, highest: exit with 0\n";
        assert_eq!(text(job_a()), HEADING.to_string() + rows);
        assert_eq!(text(Job { first: 1, ..job_a() }), HEADING.to_string() + rows);
    }

    #[test]
    fn where_the_engine_stops_a_plain_run_goes_on() {
        let job = assemble(include_str!("../jobs/unfollowed.s")).unwrap();
        let why = "the engine stops before: not followed: both operands vary";
        let rows = format!(
            "0, 0      # path 0, lowest: exit with 0; {why}\n\
             255, 255  # path 0, highest: exit with 510; {why}\n"
        );
        assert_eq!(text(job.clone()), HEADING.to_string() + &rows);
        let limited = "the step limit is reached";
        let rows = rows.replace("exit with 0", limited).replace("exit with 510", limited);
        assert_eq!(text(Job { limit: 9, ..job.clone() }), HEADING.to_string() + &rows);
        let ends = text(Job { limit: 8, ..job });
        assert_eq!(ends.matches("the engine stops before").count(), 0, "{ends}");
    }

    #[test]
    fn placing_reads_the_rows() {
        let job = assemble(include_str!("../jobs/waiting-time.s")).unwrap();
        let rows = formats::rows::read(&text(job), 3).unwrap();
        assert_eq!(rows.len(), 2 * 13);
        assert_eq!(rows[2..4], [vec![0, 0, 1], vec![7, 15, 1]]);
    }

    #[test]
    fn a_record_that_no_run_meets_is_a_fault() {
        let rule = Rule::of_job(job_a());
        let mut records = rule.records().unwrap();
        records[1].steps = 3;
        let stop =
            crate::Stop::Fault("rule.job: path 1: a plain run on [10] differs\n".to_string());
        assert_eq!(written(&rule, &records), Err(stop));
    }
}
