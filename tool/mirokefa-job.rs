//! Makes, shows, explores and draws jobs, places rows in their paths and counts their choices. A job's blocks,
//! exploring, placing, counting and the text of a sheet are the proved library's; the rest is not proved.

mod count;
mod form;
#[allow(dead_code)] // jobs are served in the host tests alone
mod library;
mod page;
mod place;
mod plain;
mod progress;
mod rule;
mod sheet;
mod witnesses;

use formats::blocks::flat;
use formats::job::{self, Job};
use formats::limits::{
    path_bytes, MOST_INPUTS, MOST_JOB_BYTES, USUAL_PAGE_PATHS, USUAL_TABLE_WORDS,
};
use formats::report::{self, Shown};
use formats::source::{self, Fault};
use formats::{numbers, show};
use library::Reply;
use std::fs::File;
use std::io::{Read, Write};
use std::process::ExitCode;

const USAGE: &str = include_str!("usage.txt");

/// Larger pages are not worth their memory: ask for the next one.
const MOST_PAGE_PATHS: u64 = 65_536;
/// The witnesses of as many paths as a page may have are shorter.
const MOST_TEXT_BYTES: usize = 1 << 26;

// Exit statuses.
const TURNED_AWAY: u8 = 1;
const FAULT: u8 = 2;

/// What a command writes, and its exit status.
#[derive(Default)]
struct Output {
    out: Vec<u8>,
    note: String,
    status: u8,
}

fn output(text: impl Into<Vec<u8>>) -> Output {
    Output { out: text.into(), ..Output::default() }
}

/// Why a command stops: a fault's message, of whole lines, or the number of a refusal.
#[derive(Debug, PartialEq, Eq)]
enum Stop {
    Fault(String),
    Refused(u64),
}

type Result<T> = std::result::Result<T, Stop>;

fn fault(what: &str, message: impl std::fmt::Display) -> Stop {
    Stop::Fault(format!("{what}: {message}\n"))
}

/// What is wrong with the lines of a text file.
fn line_faults(name: &str, faults: &[Fault]) -> Stop {
    let line = |fault: &Fault| format!("{name}:{}: {}\n", fault.line, fault.message);
    Stop::Fault(faults.iter().map(line).collect())
}

fn usage() -> Stop {
    Stop::Fault(USAGE.to_string())
}

/// The library's number: 0, or that of a refusal.
fn accepted(number: u64) -> Result<()> {
    match number {
        0 => Ok(()),
        _ => Err(Stop::Refused(number)),
    }
}

fn stopped(stop: Stop) -> Output {
    match stop {
        Stop::Fault(note) => Output { note, status: FAULT, ..Output::default() },
        Stop::Refused(number) => {
            let words = numbers::refusal_text(number);
            let note = format!("mirokefa-job: refusal {number}: {words}\n");
            Output { note, status: TURNED_AWAY, ..output(format!("turned away {number}\n")) }
        }
    }
}

// ---------------------------------------------------------------------------------------------
// Files.

/// The bytes of a file, or a few more than `most` of them.
fn read_file(name: &str, most: usize) -> Result<Vec<u8>> {
    let mut bytes = Vec::new();
    let file = File::open(name).map_err(|error| fault(name, error))?;
    file.take(most as u64 + 1).read_to_end(&mut bytes).map_err(|error| fault(name, error))?;
    Ok(bytes)
}

/// A source or a file of rows.
fn read_text(name: &str) -> Result<String> {
    let bytes = read_file(name, MOST_TEXT_BYTES)?;
    if bytes.len() > MOST_TEXT_BYTES {
        return Err(fault(name, format!("the text has more than {MOST_TEXT_BYTES} bytes")));
    }
    String::from_utf8(bytes).map_err(|error| {
        let before = &error.as_bytes()[..error.utf8_error().valid_up_to()];
        let line = before.iter().filter(|&&byte| byte == b'\n').count() + 1;
        fault(&format!("{name}:{line}"), "this is not UTF-8 text")
    })
}

fn read_source(name: &str) -> Result<Job> {
    assembled(name, &read_text(name)?)
}

fn assembled(name: &str, text: &str) -> Result<Job> {
    source::assemble(text).map_err(|faults| line_faults(name, &faults))
}

fn is_source(name: &str) -> bool {
    name.ends_with(".s")
}

/// A job's blocks, which a source is made into.
fn read_blocks(name: &str) -> Result<Vec<u8>> {
    if is_source(name) {
        return form::written(&read_source(name)?);
    }
    read_file(name, MOST_JOB_BYTES)
}

/// A job from its source or from its blocks.
fn read_job(name: &str) -> Result<Job> {
    job_of(&read_blocks(name)?)
}

fn job_of(blocks: &[u8]) -> Result<Job> {
    job::read(blocks).map_err(Stop::Refused)
}

// ---------------------------------------------------------------------------------------------
// Commands.

fn make(name: &str) -> Result<Output> {
    form::written(&read_source(name)?).map(output)
}

fn show(name: &str) -> Result<Output> {
    read_job(name).map(|job| output(show::job_text(&job)))
}

fn report(name: &str) -> Result<Output> {
    let bytes = read_file(name, MOST_PAGE_PATHS as usize * path_bytes(MOST_INPUTS))?;
    let (text, faults) = report::report_text(&bytes).map_err(|message| fault(name, message))?;
    Ok(Output { status: if faults > 0 { FAULT } else { 0 }, ..output(text) })
}

#[derive(Clone, Debug, PartialEq, Eq)]
struct Options {
    first: Option<u64>,
    paths: usize,
    shown: Shown,
    sheet: bool,
    report: Option<String>,
    page: Option<String>,
}

fn options(arguments: &[String]) -> Result<Options> {
    let (paths, shown) = (USUAL_PAGE_PATHS, Shown::None);
    let mut options = Options { first: None, paths, shown, sheet: false, report: None, page: None };
    let mut left = arguments.iter();
    while let Some(argument) = left.next() {
        match (argument.as_str(), &mut left) {
            ("--registers", _) => options.shown = Shown::All,
            ("--sheet", _) => options.sheet = true,
            ("--first", left) => options.first = Some(option_number(argument, left.next())?),
            ("--paths", left) => options.paths = path_count(argument, left.next())?,
            ("--report", left) => options.report = Some(left.next().ok_or_else(usage)?.clone()),
            ("--page", left) => options.page = Some(left.next().ok_or_else(usage)?.clone()),
            _ => return Err(usage()),
        }
    }
    if options.sheet && options.shown != Shown::None {
        return Err(fault("--sheet", "a sheet has no registers: leave out --sheet or --registers"));
    }
    Ok(options)
}

fn option_number(option: &str, text: Option<&String>) -> Result<u64> {
    let number = text.and_then(|text| text.parse().ok());
    number.ok_or_else(|| fault(option, "a number from 0 to 18446744073709551615 must follow"))
}

fn path_count(option: &str, text: Option<&String>) -> Result<usize> {
    let count = option_number(option, text)?;
    if count > MOST_PAGE_PATHS {
        return Err(fault(option, format!("{count} is above {MOST_PAGE_PATHS}")));
    }
    Ok(count as usize)
}

fn explore(name: &str, arguments: &[String]) -> Result<Output> {
    let options = options(arguments)?;
    let rule = rule::read(name)?;
    // made first and stored last: a rule that has no page, or is turned away, leaves no file
    let page = options.page.as_ref().map(|_| page::page_text(&rule)).transpose()?;
    let output = explore_job(&rule.job, &options)?;
    for (name, text) in options.page.iter().zip(page) {
        std::fs::write(name, text).map_err(|error| fault(name, error))?;
    }
    Ok(output)
}

fn explore_job(job: &Job, options: &Options) -> Result<Output> {
    let first = options.first.unwrap_or(job.first);
    let (page, reply) = explore_page(job, options.paths, first)?;
    let inputs = job.intervals.len();
    let used = &page[..reply.count as usize * path_bytes(inputs)];
    let output = if options.sheet {
        sheet::sheet_output(inputs, used, first, reply)?
    } else {
        listing_output(inputs, used, reply, options.shown)?
    };
    // last: a rule that is turned away leaves no file
    if let Some(name) = &options.report {
        std::fs::write(name, &page).map_err(|error| fault(name, error))?;
    }
    Ok(output)
}

fn listing_output(inputs: usize, page: &[u8], reply: Reply, shown: Shown) -> Result<Output> {
    let records = report::read_pages(page, inputs);
    let records = records.map_err(|message| fault("the library's report", message))?;
    Ok(output(report::listing(&records, reply.more != 0, shown)))
}

/// A page of so many paths, zero where none is written, and the library's reply.
fn explore_page(job: &Job, paths: usize, first: u64) -> Result<(Vec<u8>, Reply)> {
    let mut table = vec![0; USUAL_TABLE_WORDS];
    let mut page = vec![0; paths * path_bytes(job.intervals.len())];
    let reply = library::explore(
        &job.code,
        &job.whole_memory(),
        &flat(&job.intervals),
        job.limit,
        &mut table,
        &mut page,
        first,
    );
    accepted(reply.refused)?;
    Ok((page, reply))
}

// ---------------------------------------------------------------------------------------------
// The program.

fn run(arguments: &[String]) -> Result<Output> {
    let words: Vec<&str> = arguments.iter().map(String::as_str).collect();
    if words == ["help"] || words.iter().any(|word| ["--help", "-h"].contains(word)) {
        return Ok(output(USAGE));
    }
    match words[..] {
        ["make", name] => make(name),
        ["form", name] => form::form(name),
        ["show", name] => show(name),
        ["report", name] => report(name),
        ["explore", name, ..] => explore(name, &arguments[2..]),
        ["page", name] => page::page(name),
        ["place", rule, rows] => place::place(rule, rows),
        ["witnesses", name] => witnesses::witnesses(name),
        ["count", name] => count::count(name),
        _ => Err(usage()),
    }
}

fn main() -> ExitCode {
    let arguments: Vec<String> =
        std::env::args_os().skip(1).map(|word| word.to_string_lossy().into_owned()).collect();
    let output = run(&arguments).unwrap_or_else(stopped);
    // the notes last, and a closed standard output is a fault and no panic
    let written = std::io::stdout().write_all(&output.out).and_then(|_| std::io::stdout().flush());
    let _ = std::io::stderr().write_all(output.note.as_bytes());
    ExitCode::from(if written.is_ok() { output.status } else { FAULT })
}

#[cfg(test)]
mod tests {
    use super::*;
    use formats::assembler::job_a;
    use formats::blocks;
    use formats::limits::{BLOCK_BYTES, PAYLOAD_WORDS};

    const JOB_A_LISTING: &str = include_str!("../jobs/job-a.out");

    fn listing_of(job: &Job, words: &[&str]) -> String {
        let words: Vec<String> = words.iter().map(|word| word.to_string()).collect();
        let output = explore_job(job, &options(&words).unwrap()).unwrap_or_else(stopped);
        String::from_utf8(output.out).unwrap()
    }

    #[test]
    fn job_a_has_document_01s_listing() {
        assert_eq!(listing_of(&job_a(), &[]), JOB_A_LISTING);
        let job = job::read(&job_a().to_bytes()).unwrap();
        assert_eq!(listing_of(&job, &[]), JOB_A_LISTING);
    }

    #[test]
    fn pages_of_job_a() {
        let lines: Vec<&str> = JOB_A_LISTING.lines().collect();
        let page = |first, paths| listing_of(&job_a(), &["--first", first, "--paths", paths]);
        assert_eq!(page("0", "1"), format!("paths 1 more 1\n{}\n", lines[1]));
        assert_eq!(page("1", "1"), format!("paths 1 more 0\n{}\n", lines[2]));
        assert_eq!(page("2", "1"), "paths 0 more 0\n");
        assert_eq!(page("0", "0"), "turned away 7\n");
        assert_eq!(page("4294967296", "1"), "turned away 8\n");
    }

    #[test]
    fn all_registers_of_job_a() {
        let listing = listing_of(&job_a(), &["--registers"]);
        assert_eq!(listing.lines().count(), 1 + 2 * 32);
        assert!(listing.contains("    x5  t0  10..255\n    x6  t1  10..10\n"), "{listing}");
        let paths: Vec<&str> = listing.lines().filter(|line| !line.starts_with(' ')).collect();
        assert_eq!(paths.join("\n") + "\n", JOB_A_LISTING);
    }

    /// Each flipped bit with a new check, through the library: a listing, or the refusal that counting has too.
    #[test]
    fn damaged_jobs_are_listed_or_refused() {
        let mut listed = 0;
        let bits = 64 * PAYLOAD_WORDS;
        for bit in 0..2 * bits {
            let mut bytes = job_a().to_bytes();
            let block = &mut bytes[bit / bits * BLOCK_BYTES..][..BLOCK_BYTES];
            block[bit % bits / 8] ^= 1 << (bit % 8);
            let words: Vec<u64> = block.chunks(8).take(PAYLOAD_WORDS).map(blocks::word).collect();
            block.copy_from_slice(&blocks::to_bytes(&words));
            match job::read(&bytes) {
                Ok(job) => {
                    assert!(listing_of(&job, &["--paths", "3"]).starts_with("paths "));
                    listed += 1;
                }
                Err(number) => {
                    assert_eq!(count::counted(&bytes).err(), Some(Stop::Refused(number)));
                }
            }
        }
        assert!(listed > 300, "{listed}");
    }

    #[test]
    fn wrong_arguments_get_the_usage() {
        let run_words = |words: &[&str]| {
            run(&words.iter().map(|word| word.to_string()).collect::<Vec<String>>())
        };
        let wrong = [
            &[][..],
            &["make"],
            &["make", "a", "b"],
            &["form"],
            &["form", "a.job", "b.job"],
            &["explore"],
            &["list", "a"],
            &["place", "a.s"],
            &["place", "a.s", "a.rows", "b.rows"],
            &["count"],
            &["count", "a.s", "b.s"],
            &["count", "a.s", "--sheet"],
            &["page"],
            &["page", "a.s", "b.s"],
            &["witnesses"],
            &["witnesses", "a.s", "--page"],
        ];
        for words in wrong {
            assert_eq!(run_words(words).err(), Some(usage()));
        }
        for words in [&["help"][..], &["-h"], &["--help"], &["make", "-h"], &["explore", "--help"]]
        {
            assert_eq!(run_words(words).unwrap().out, USAGE.as_bytes());
        }
        assert!(USAGE.contains(&format!("and not of {USUAL_PAGE_PATHS}\n")));
        for words in [
            &["--first"][..],
            &["--first", "x"],
            &["--paths", "65537"],
            &["--report"],
            &["--page"],
            &["-x"],
        ] {
            assert!(run_words(&[&["explore", "none.job"], words].concat()).is_err());
        }
        assert!(run_words(&["show", "no/such/file.job"]).is_err());
        assert!(run_words(&["place", "no/such/file.s", "no/such/file.rows"]).is_err());
    }
}
