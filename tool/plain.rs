//! The plain machine at the ends of a path: its lowest inputs are the witness that the report gives, and its
//! highest run the same way. The machine is the oracle's, which shares nothing with the library.

#[path = "../host/oracle.rs"]
mod oracle;

use formats::job::Job;
use formats::numbers::EXITED;
use formats::report::Record;
use oracle::Run;
pub use oracle::Step;

/// The highest kind that stops the plain machine too; the kinds above stop the engine alone.
const HIGHEST_STOP: u64 = 6;
/// The register that has the exit value.
const EXIT_REGISTER: usize = 10;

/// How a plain run ends, within the job's limit.
#[derive(Clone, Copy, Debug, PartialEq, Eq)]
pub struct Ending {
    pub kind: u64,
    /// 0 unless the kind is exit.
    pub value: u64,
}

pub fn lowest(record: &Record) -> Vec<u64> {
    record.intervals.iter().map(|&(low, _)| low).collect()
}

pub fn highest(record: &Record) -> Vec<u64> {
    record.intervals.iter().map(|&(_, high)| high).collect()
}

/// Does the rule stop at the path's end, or only the engine?
pub fn stops(record: &Record) -> bool {
    record.kind <= HIGHEST_STOP
}

/// The end for a row of the path, also where the engine has stopped before; what differs from the record is a fault.
pub fn ending(job: &Job, record: &Record, row: &[u64]) -> Result<Ending, String> {
    let run = match agrees(job, record, row)? {
        run if stops(record) => run,
        _ => oracle::run_plain(&job.code, &job.memory, row, job.limit),
    };
    let kind = run.stop.unwrap_or(oracle::STEP_LIMIT);
    let value = run.machine.registers[EXIT_REGISTER];
    Ok(Ending { kind, value: if kind == EXITED { value } else { 0 } })
}

/// The steps of the path, found at its witness: every choice of the path completes the same ones.
pub fn steps(job: &Job, record: &Record) -> Result<Vec<Step>, String> {
    let witness = lowest(record);
    agrees(job, record, &witness)?;
    Ok(oracle::trace_plain(&job.code, &job.memory, &witness, record.steps))
}

/// Where two paths part: the pc of the first step that the fork rules sort differently.
pub fn parting(one: &[Step], other: &[Step]) -> Option<u64> {
    one.iter().zip(other).find(|(one, other)| one.class != other.class).map(|(one, _)| one.pc)
}

/// A run on a row completes the record's steps, is then at its pc with every register inside its interval, and
/// stops there if the rule does.
fn agrees(job: &Job, record: &Record, row: &[u64]) -> Result<Run, String> {
    let stops = stops(record);
    let most = record.steps + stops as u64;
    let run = oracle::run_plain(&job.code, &job.memory, row, most);
    let within = |(value, (low, high)): (&u64, &(u64, u64))| (low..=high).contains(&value);
    let agrees = run.steps == record.steps
        && run.stop == stops.then_some(record.kind)
        && run.machine.pc == record.pc
        && run.machine.registers.iter().zip(&record.registers).all(within);
    let number = record.number;
    agrees.then_some(run).ok_or_else(|| format!("path {number}: a plain run on {row:?} differs"))
}

#[cfg(test)]
mod tests {
    use super::*;
    use crate::rule::Rule;
    use formats::assembler::job_a;
    use formats::source::assemble;

    fn records(job: &Job) -> Vec<Record> {
        Rule::of_job(job.clone()).records().unwrap()
    }

    #[test]
    fn job_a_exits_at_both_ends_of_its_paths() {
        let job = job_a();
        let paths = records(&job);
        let values = paths.iter().map(|record| {
            let end = |row: Vec<u64>| ending(&job, record, &row).unwrap();
            [end(lowest(record)), end(highest(record))].map(|Ending { kind, value }| (kind, value))
        });
        assert_eq!(values.collect::<Vec<_>>(), [[(1, 1); 2], [(1, 0); 2]]);
    }

    #[test]
    fn a_plain_run_goes_on_where_the_engine_stops() {
        let job = assemble(include_str!("../jobs/unfollowed.s")).unwrap();
        let record = &records(&job)[0];
        assert!(!stops(record));
        assert_eq!(ending(&job, record, &highest(record)), Ok(Ending { kind: 1, value: 510 }));
        let job = Job { limit: 9, ..job };
        let record = &records(&job)[0];
        assert_eq!(ending(&job, record, &lowest(record)), Ok(Ending { kind: 7, value: 0 }));
    }

    #[test]
    fn paths_part_where_the_rule_forks() {
        let wrap = assemble(include_str!("../jobs/wrap.s")).unwrap();
        let paths = records(&wrap);
        let [one, other] = [0, 1].map(|path| steps(&wrap, &paths[path]).unwrap());
        let pcs = |steps: &[Step]| steps.iter().map(|step| step.pc).collect::<Vec<_>>();
        assert_eq!(pcs(&one), pcs(&other));
        assert_eq!(parting(&one, &other), Some(16));
        assert_eq!(parting(&one, &one), None);
    }

    #[test]
    fn a_record_that_no_run_meets_is_a_fault() {
        let job = job_a();
        let record = records(&job).remove(0);
        let wrong = [
            Record { steps: 6, ..record.clone() },
            Record { steps: 8, ..record.clone() },
            Record { pc: 24, ..record.clone() },
            Record { kind: 6, ..record.clone() },
            Record { kind: 7, steps: 8, ..record.clone() },
            Record { registers: [(0, 0); 32], ..record.clone() },
        ];
        for record in wrong {
            let fault = "path 0: a plain run on [0] differs".to_string();
            assert_eq!(steps(&job, &record), Err(fault));
        }
        assert!(ending(&job, &record, &[10]).is_err());
    }
}
