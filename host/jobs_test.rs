//! The expected listings of jobs/, compared with the oracle where the box is small enough for it.
//! `jobs_test FILE.s..`: beside each source stands FILE.out.

mod oracle;

use formats::blocks::flat;
use formats::job::Job;
use formats::limits::{path_bytes, USUAL_PAGE_PATHS, USUAL_TABLE_WORDS};
use formats::report::{self, Shown};
use formats::source;
use std::fs::read_to_string;

const MOST_CHOICES: u128 = 100_000;

/// How many choices of inputs the job has, if the oracle can try them all.
fn choices(job: &Job) -> Option<u128> {
    let width = |&(low, high): &(u64, u64)| (high - low) as u128 + 1;
    let all = job.intervals.iter().map(width).try_fold(1_u128, |all, width| all.checked_mul(width));
    all.filter(|&all| all <= MOST_CHOICES)
}

fn oracle_listing(job: &Job) -> Result<String, String> {
    let inputs = job.intervals.len();
    let mut page = vec![0; USUAL_PAGE_PATHS * path_bytes(inputs)];
    let answer = oracle::call(
        &job.code,
        &job.whole_memory(),
        &flat(&job.intervals),
        job.limit,
        USUAL_TABLE_WORDS,
        &mut page,
        job.first,
    );
    page.truncate(answer.count as usize * path_bytes(inputs));
    Ok(report::listing(&report::read_pages(&page, inputs)?, answer.more, Shown::None))
}

/// The number of choices tried, none for a box that is too large.
fn check(source: &str) -> Result<Option<u128>, String> {
    let text = read_to_string(source).map_err(|error| error.to_string())?;
    let listing = source.strip_suffix(".s").unwrap_or(source).to_string() + ".out";
    let expected = read_to_string(&listing).map_err(|error| format!("{listing}: {error}"))?;
    let job = source::assemble(&text).map_err(|faults| format!("{faults:?}"))?;
    let Some(choices) = choices(&job) else { return Ok(None) };
    let found = oracle_listing(&job)?;
    match found == expected {
        true => Ok(Some(choices)),
        false => Err(format!("the oracle's listing is\n{found}")),
    }
}

fn main() {
    for source in std::env::args().skip(1) {
        match check(&source) {
            Ok(Some(choices)) => println!("{source}: {choices} choices agree"),
            Ok(None) => println!("{source}: too large for the oracle"),
            Err(fault) => {
                eprintln!("{source}: {fault}");
                std::process::exit(1);
            }
        }
    }
}
