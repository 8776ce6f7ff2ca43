//! The program itself, on jobs from its standard input, compared with the oracle: with more paths
//! than its report has room for, from any first path on, and every refusal. `program_test PROGRAM`.

mod oracle;
mod runs;

use formats::assembler::{addi, beq, jal, job_a, reads};
use formats::blocks::LOWS;
use formats::job::Job;
use formats::limits::{
    path_bytes, BLOCK_BYTES, MEMORY_WORDS, MOST_CODE_WORDS, MOST_INPUTS, MOST_JOB_BYTES,
    MOST_STEPS, PATH_NUMBERS, USUAL_PAGE_PATHS, USUAL_TABLE_WORDS,
};
use formats::report::{self, Shown};
use oracle::Values;
use runs::{flip, with_word};
use std::io::Write;
use std::process::{Command, Stdio};

const MAX: u64 = u64::MAX;

/// Paths of a job, its first path, and the first line of what the program prints.
const PAGES: [(u64, u64, &str); 11] = [
    (1, 0, "paths 1 more 0"),
    (64, 0, "paths 64 more 0"),
    (65, 0, "paths 64 more 1"),
    (65, 1, "paths 64 more 0"),
    (65, 64, "paths 1 more 0"),
    (200, 0, "paths 64 more 1"),
    (200, 100, "paths 64 more 1"),
    (200, 136, "paths 64 more 0"),
    (200, 199, "paths 1 more 0"),
    (200, 200, "paths 0 more 0"),
    (200, PATH_NUMBERS - 1, "paths 0 more 0"),
];

/// A word of Job A's header, another value for it, and the number of the refusal.
const HEADERS: [(usize, u64, u64); 11] = [
    (1, 0, 1),
    (1, MOST_CODE_WORDS as u64 + 1, 1),
    (2, MOST_INPUTS as u64 + 1, 2),
    (LOWS, 256, 3),
    (3, 0, 4),
    (3, MOST_STEPS + 1, 4),
    (21, MEMORY_WORDS as u64 + 1, 6),
    (4, PATH_NUMBERS, 8),
    (0, 2, 11),
    (21, 1, 11),
    (22, 1, 11),
];

/// A job with a path for each value of its first input. It is as long as a job can be, and numbers
/// of 20 digits make its text long.
fn pages_job(paths: u64, first: u64) -> Vec<u8> {
    let compare_and_count = [beq(5, 6, 12), addi(6, 6, 1), jal(0, -8)];
    let work = [&[addi(6, 0, -(paths as i64))], &compare_and_count[..], &[addi(10, 5, 0)]].concat();
    let (mut code, memory) = (reads(&work), vec![MAX; MEMORY_WORDS]);
    code.resize(MOST_CODE_WORDS, 0);
    let mut intervals = vec![(MAX, MAX); MOST_INPUTS];
    intervals[0].0 = MAX - (paths - 1);
    Job { code, intervals, limit: 1000, first, memory }.to_bytes()
}

/// Bytes of each refusal, with its number.
fn refused() -> Vec<(Vec<u8>, u64)> {
    let job = job_a().to_bytes();
    let mut changed = job.clone();
    flip(&mut changed, 0);
    let long = vec![0; MOST_JOB_BYTES + BLOCK_BYTES];
    let of_bytes = [(vec![], 9), (job[1..].to_vec(), 9), (long, 9), (changed, 10)];
    let of_words = HEADERS.map(|(word, value, number)| (with_word(&job, word, value), number));
    of_bytes.into_iter().chain(of_words).collect()
}

fn expected(job: &[u8]) -> String {
    match oracle::read_values(job) {
        Ok(values) => listing(&values),
        Err(number) => format!("turned away {number}\n"),
    }
}

fn listing(values: &Values) -> String {
    let Values { code, memory, intervals, limit, first } = values;
    let inputs = intervals.len() / 2;
    let mut page = vec![0; USUAL_PAGE_PATHS * path_bytes(inputs)];
    let table = USUAL_TABLE_WORDS;
    let answer = oracle::call(code, memory, intervals, *limit, table, &mut page, *first);
    page.truncate(answer.count as usize * path_bytes(inputs));
    let records = report::read_pages(&page, inputs).expect("the oracle's records");
    report::listing(&records, answer.more, Shown::None)
}

fn printed(program: &str, job: &[u8]) -> std::io::Result<String> {
    let mut command = Command::new(program);
    let mut child = command.stdin(Stdio::piped()).stdout(Stdio::piped()).spawn()?;
    child.stdin.take().expect("a pipe").write_all(job)?;
    Ok(String::from_utf8_lossy(&child.wait_with_output()?.stdout).into_owned())
}

/// The program and the oracle print this line first, and then the same.
fn compare(program: &str, case: &str, job: &[u8], first_line: &str) {
    let found = printed(program, job).expect("the program runs");
    let expected = expected(job);
    if found != expected || found.lines().next() != Some(first_line) {
        eprintln!("{case}: {first_line}\nthe oracle's listing is\n{expected}\nprinted is\n{found}");
        std::process::exit(1);
    }
}

fn main() {
    let program = std::env::args().nth(1).expect("the name of the program");
    for (paths, first, line) in PAGES {
        let case = format!("{paths} paths from {first} on");
        compare(&program, &case, &pages_job(paths, first), line);
    }
    let refused = refused();
    for (place, (job, number)) in refused.iter().enumerate() {
        compare(&program, &format!("refusal {place}"), job, &format!("turned away {number}"));
    }
    println!("{program}: {} pages and {} refusals agree", PAGES.len(), refused.len());
}
