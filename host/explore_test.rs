//! Random jobs through the library's border, compared with the oracle.
//!
//! A job is a list of calls on one memory and one table. Small boxes are compared with the brute
//! force byte for byte; large ones with single runs of the plain machine. Before them come the small
//! examples, and products and quotients by numbers of all sizes.
//! `explore_test [SEED COUNT]`: job k of a run has the seed SEED + k.

mod examples;
#[allow(dead_code)] // rows are placed by place_test, sheets printed by sheet_test
#[path = "../tool/library.rs"]
mod library;
mod listing_check;
mod oracle;
#[allow(dead_code)] // a job here brings its own memory and first paths
mod programs;

use formats::assembler::{addi, beq, divu, ld, mul, reads, sltu};
use formats::blocks::flat;
use formats::limits::*;
use formats::numbers::{kind_occurs, reason_occurs, CALL_REFUSALS, KINDS, REASONS};
use formats::random::Random;
use formats::show::code_line;
use library::Reply;
use oracle::{Interval, Job, Met, Path, TO_MEET, TO_MEET_FIXED};
use programs::{input_count, large_box, memory_for, program, small_box};
use std::collections::BTreeSet;

const FIRST_SEED: u64 = 1;
const JOBS: u64 = 10_400;
/// From this many jobs on, all that `Tally` asks for must have been seen.
const ENOUGH_JOBS: u64 = 10_000;
const SHOWN_FAILURES: u64 = 3;
/// Words before and after each lent slice, to see that nothing beyond it is written.
const MARGIN: usize = 16;
/// Longer listings are checked no better, and every page explores from the start.
const MOST_PATHS: usize = 200;

// ---------------------------------------------------------------------------------------------
// What is lent.

/// One memory and one table for a whole list of calls, as they came and as they are.
struct Lent {
    memory: Vec<u64>,
    memory_came: Vec<u64>,
    memory_words: usize,
    table: Vec<u64>,
    table_came: Vec<u64>,
    table_words: usize,
    accepted: bool,
}

fn lent(random: &mut Random, memory: &[u64], table_words: usize) -> Lent {
    let margin: Vec<u64> = (0..MARGIN).map(|_| random.next()).collect();
    let memory_came = [&margin, memory, &margin].concat();
    let table_came: Vec<u64> = (0..table_words + 2 * MARGIN).map(|_| random.next()).collect();
    Lent {
        memory: memory_came.clone(),
        memory_came,
        memory_words: memory.len(),
        table: table_came.clone(),
        table_came,
        table_words,
        accepted: false,
    }
}

impl Lent {
    fn entries(&self) -> u64 {
        (self.table_words / ENTRY_WORDS) as u64
    }

    fn memory(&self) -> &[u64] {
        &self.memory_came[MARGIN..][..self.memory_words]
    }

    /// Memory as it came; the table zero if any call was accepted, otherwise as it came.
    fn check(&self) -> Result<(), String> {
        if self.memory != self.memory_came {
            return Err("memory was changed".to_string());
        }
        let mut table = self.table_came.clone();
        if self.accepted {
            table[MARGIN..][..self.table_words].fill(0);
        }
        let differs = (0..table.len()).find(|&place| table[place] != self.table[place]);
        match differs {
            Some(place) => Err(format!(
                "table word {} of {} is {:#X}, expected {:#X}",
                place as i64 - MARGIN as i64,
                self.table_words,
                self.table[place],
                table[place]
            )),
            None => Ok(()),
        }
    }
}

#[derive(Clone, Debug)]
struct Call {
    code: Vec<u32>,
    intervals: Vec<u64>,
    limit: u64,
    memory_words: usize,
    table_words: usize,
    report_bytes: usize,
    first: u64,
}

impl Call {
    fn path_bytes(&self) -> usize {
        path_bytes(self.intervals.len() / 2)
    }

    fn refusal(&self) -> Option<u64> {
        oracle::door(
            self.code.len(),
            &self.intervals,
            self.limit,
            self.table_words,
            self.memory_words,
            self.report_bytes,
            self.first,
        )
    }

    /// The report with its margins as the call leaves it; `report` is how it came.
    fn make(&self, lent: &mut Lent, report: &[u8]) -> (Reply, Vec<u8>) {
        let mut report = report.to_vec();
        let reply = library::explore(
            &self.code,
            &lent.memory[MARGIN..][..self.memory_words],
            &self.intervals,
            self.limit,
            &mut lent.table[MARGIN..][..self.table_words],
            &mut report[MARGIN..][..self.report_bytes],
            self.first,
        );
        lent.accepted |= reply.refused == 0;
        (reply, report)
    }
}

fn random_report(random: &mut Random, bytes: usize) -> Vec<u8> {
    (0..(bytes + 2 * MARGIN).div_ceil(8)).flat_map(|_| random.next().to_le_bytes()).collect()
}

// ---------------------------------------------------------------------------------------------
// A call compared.

/// The answer and every byte lent, against the job's whole listing; gives back the page.
fn compare_call(
    random: &mut Random,
    lent: &mut Lent,
    call: &Call,
    listing: &[Path],
) -> Result<Vec<u8>, String> {
    let came = random_report(random, call.report_bytes);
    let mut expected = came.clone();
    let answer = match call.refusal() {
        Some(refusal) => oracle::Answer { refusal, count: 0, more: false },
        None => {
            let place = &mut expected[MARGIN..][..call.report_bytes];
            oracle::write_page(listing, place, call.first)
        }
    };
    let (reply, report) = call.make(lent, &came);
    let wanted = Reply { refused: answer.refusal, count: answer.count, more: answer.more as u64 };
    if reply != wanted {
        return Err(format!("{}: {reply:?}, expected {wanted:?}", call_text(call)));
    }
    if let Some(place) = (0..report.len()).find(|&place| report[place] != expected[place]) {
        return Err(format!("{}: {}", call_text(call), byte_text(call, place, &report, &expected)));
    }
    lent.check().map_err(|fault| format!("{}: {fault}", call_text(call)))?;
    Ok(report[MARGIN..][..answer.count as usize * call.path_bytes()].to_vec())
}

fn call_text(call: &Call) -> String {
    format!(
        "call with {} code words, intervals {:?}, limit {}, {} memory words, {} table words, \
         {} report bytes, first path {}",
        call.code.len(),
        call.intervals,
        call.limit,
        call.memory_words,
        call.table_words,
        call.report_bytes,
        call.first
    )
}

/// A byte of the report that differs, by the path, block and word of the page that it lies in.
fn byte_text(call: &Call, place: usize, report: &[u8], expected: &[u8]) -> String {
    let at = place as i64 - MARGIN as i64;
    let (path, block) = (call.path_bytes() as i64, BLOCK_BYTES as i64);
    format!(
        "report byte {at} (path {} of the page, block {}, word {}) is {}, expected {}",
        at.div_euclid(path),
        at.rem_euclid(path) / block,
        at.rem_euclid(block) / 8,
        report[place],
        expected[place]
    )
}

// ---------------------------------------------------------------------------------------------
// Jobs.

/// What a list of calls asks about: a program on a box, and its listing.
struct Task {
    job: Job,
    listing: Vec<Path>,
    /// What the brute force came to; none for a large box.
    met: BTreeSet<Met>,
    /// Where the walk through the pages is, with the pages so far; none when it is whole.
    next: Option<u64>,
    joined: Vec<u8>,
}

impl Task {
    fn new(job: Job, listing: Vec<Path>, met: BTreeSet<Met>) -> Task {
        Task { job, listing, met, next: Some(0), joined: Vec::new() }
    }

    fn path_bytes(&self) -> usize {
        path_bytes(self.job.intervals.len())
    }

    fn call(&self, lent: &Lent, paths: usize, first: u64) -> Call {
        Call {
            code: self.job.code.clone(),
            intervals: flat(&self.job.intervals),
            limit: self.job.limit,
            memory_words: lent.memory_words,
            table_words: lent.table_words,
            report_bytes: paths * self.path_bytes(),
            first,
        }
    }
}

fn table_words(random: &mut Random) -> usize {
    let few = random.pick(&[0, 1, 7, 8, 9, 15, 16, 23, 24, 40, 88, 150, 199, 240]);
    let usual = USUAL_TABLE_WORDS;
    random.pick(&[few, 400, 640, 1000, usual, usual, usual, usual + ENTRY_WORDS - 1])
}

fn limit(random: &mut Random) -> u64 {
    let short = 1 + random.below(60) as u64;
    random.pick(&[short, 80, 100, 150, 200, 200, 300, 400])
}

fn random_job(random: &mut Random, lent: &Lent, intervals: &[Interval]) -> Job {
    Job {
        code: program(random, intervals.len()),
        memory: lent.memory().to_vec(),
        limit: limit(random),
        intervals: intervals.to_vec(),
        entries: lent.entries(),
    }
}

/// Steps up to the highest limit, on one choice.
fn long_job(random: &mut Random, lent: &Lent) -> Job {
    let mut job = random_job(random, lent, &[(7, 7)]);
    job.limit = random.pick(&[MOST_STEPS, MOST_STEPS - 1, 10_000]);
    job
}

fn small_task(random: &mut Random, lent: &Lent, intervals: &[Interval]) -> Task {
    let long = random.once_in(100);
    let job = if long { long_job(random, lent) } else { random_job(random, lent, intervals) };
    // a list that is refused whole needs no listing
    let fits = lent.memory_words == MEMORY_WORDS && lent.entries() > 0;
    let (listing, met) = if fits { oracle::listing_and_met(&job) } else { Default::default() };
    Task::new(job, listing, met)
}

/// The listing is the library's own, once single runs have agreed with it.
fn large_task(random: &mut Random, lent: &mut Lent, boxed: &[Interval]) -> Result<Task, Failure> {
    let job = random_job(random, lent, boxed);
    let mut task = Task::new(job, Vec::new(), BTreeSet::new());
    match own_listing(random, lent, &mut task) {
        Ok(listing) => task.listing = listing,
        Err(fault) => return Err(failure(lent, &task.job, fault)),
    }
    Ok(task)
}

/// The listing on one page; while it does not fit, the job gets half of its steps.
fn own_listing(random: &mut Random, lent: &mut Lent, task: &mut Task) -> Result<Vec<Path>, String> {
    let (mut reply, mut page) = whole_page(random, lent, task)?;
    while reply.more == 1 {
        task.job.limit /= 2;
        (reply, page) = whole_page(random, lent, task)?;
    }
    let listing = listing_check::read_listing(&page, task.job.intervals.len())?;
    listing_check::check_listing(random, &task.job, &listing)?;
    Ok(listing)
}

fn whole_page(
    random: &mut Random,
    lent: &mut Lent,
    task: &Task,
) -> Result<(Reply, Vec<u8>), String> {
    let call = task.call(lent, MOST_PATHS, 0);
    let came = random_report(random, call.report_bytes);
    let (reply, report) = call.make(lent, &came);
    let full = reply.count == MOST_PATHS as u64;
    if reply.refused != 0 || reply.count > MOST_PATHS as u64 || reply.more > full as u64 {
        return Err(format!("{}: {reply:?}", call_text(&call)));
    }
    lent.check()?;
    let end = MARGIN + reply.count as usize * call.path_bytes();
    if report[..MARGIN] != came[..MARGIN] || report[end..] != came[end..] {
        return Err(format!("{}: bytes beyond the page were written", call_text(&call)));
    }
    Ok((reply, report[MARGIN..end].to_vec()))
}

// ---------------------------------------------------------------------------------------------
// Lists of calls.

/// The walk goes on, any page is asked for, or something is lent wrongly.
fn random_call(random: &mut Random, lent: &mut Lent, task: &mut Task) -> Result<u64, String> {
    if random.once_in(2) && task.next.is_some() {
        return next_page(random, lent, task).map(|_| 0);
    }
    let paths = task.listing.len();
    let near = random.below(paths + 3) as u64;
    let first = random.pick(&[0, near, near, paths as u64, PATH_NUMBERS - 1]);
    let mut call = task.call(lent, page_size(random, paths), first);
    if random.once_in(2) {
        let faults = random.pick(&[1, 1, 1, 2, 3, 5]);
        (0..faults).for_each(|_| put_fault(random, &mut call));
    }
    let refusal = call.refusal().unwrap_or(0);
    compare_call(random, lent, &call, &task.listing).map(|_| refusal)
}

/// Pages of all sizes; larger ones for a long listing, since every page explores from the start.
fn page_size(random: &mut Random, paths: usize) -> usize {
    paths / 16 + random.pick(&[1, 1, 1, 2, 2, 3, 4, 5, 7, 16, 64])
}

/// The page after the last one written; the joined pages of a whole walk are the listing.
fn next_page(random: &mut Random, lent: &mut Lent, task: &mut Task) -> Result<(), String> {
    let Some(first) = task.next else { return Ok(()) };
    let call = task.call(lent, page_size(random, task.listing.len()), first);
    let page = compare_call(random, lent, &call, &task.listing)?;
    let count = (page.len() / call.path_bytes()) as u64;
    task.joined.extend(page);
    task.next = Some(first + count).filter(|&next| next < task.listing.len() as u64);
    if task.next.is_none() && call.refusal().is_none() {
        return check_joined(task);
    }
    Ok(())
}

fn check_joined(task: &Task) -> Result<(), String> {
    let mut whole = vec![0; task.listing.len() * task.path_bytes()];
    oracle::write_page(&task.listing, &mut whole, 0);
    if task.joined != whole {
        return Err("the joined pages are not the whole listing".to_string());
    }
    Ok(())
}

/// A no to one of the questions; a later one may hide behind it.
fn put_fault(random: &mut Random, call: &mut Call) {
    let big = random.next() | 1 << 40;
    let most_intervals = 2 * MOST_INPUTS;
    match random.below(8) {
        0 => call
            .code
            .resize(random.pick(&[0, MOST_CODE_WORDS + 1, MOST_CODE_WORDS + 2, 4000]), 0x13),
        1 => {
            let odd = [1, 3, most_intervals - 1];
            let many = [most_intervals + 1, most_intervals + 2, 40];
            call.intervals.resize(random.pick(&[odd, many].concat()), 5)
        }
        2 => spoil_intervals(random, &mut call.intervals),
        3 => call.limit = random.pick(&[0, MOST_STEPS + 1, MOST_STEPS + 64, u64::MAX, big]),
        4 => call.table_words = random.pick(&[0, 1, ENTRY_WORDS - 1]).min(call.table_words),
        5 => {
            let words = [0, 1, 256, MEMORY_WORDS - 1, MEMORY_WORDS + 1, MEMORY_WORDS + 8];
            call.memory_words = random.pick(&words).min(call.memory_words + 8)
        }
        6 => {
            let path = call.path_bytes();
            let parts = [0, 1, path / 2, path - 1, path + 1, path + path / 2, 64 * path - 1];
            call.report_bytes = random.pick(&parts)
        }
        _ => call.first = random.pick(&[PATH_NUMBERS, PATH_NUMBERS + 1, u64::MAX, big]),
    }
}

/// One pair with its low above its high.
fn spoil_intervals(random: &mut Random, intervals: &mut Vec<u64>) {
    intervals.resize(intervals.len().clamp(2, 2 * MOST_INPUTS) & !1, 9);
    let pair = 2 * random.below(intervals.len() / 2);
    let wrong = [(1, 0), (u64::MAX, 0), (u64::MAX, u64::MAX - 1), (1 << 63, (1 << 63) - 1)];
    (intervals[pair], intervals[pair + 1]) = random.pick(&wrong);
}

// ---------------------------------------------------------------------------------------------
// The run.

struct Failure {
    fault: String,
    dump: String,
}

fn failure(lent: &Lent, job: &Job, fault: String) -> Failure {
    let constants = lent.memory().get(programs::CONSTANT_WORDS).unwrap_or(&[]);
    let lines = job.code.iter().zip(0..).map(|(&word, place)| code_line(4 * place, word));
    let dump = format!(
        "{}  intervals {:?}\n  limit {}, {} table words, {} memory words, the constants {:X?}\n",
        lines.collect::<String>(),
        job.intervals,
        job.limit,
        lent.table_words,
        lent.memory_words,
        constants
    );
    Failure { fault, dump }
}

/// How often each thing was seen; number 0 stands for none.
#[derive(Default)]
struct Tally {
    kinds: [u64; KINDS as usize + 1],
    reasons: [u64; REASONS as usize + 1],
    refusals: [u64; CALL_REFUSALS as usize + 1],
    /// Programs on small boxes that came to each of these: on a fixed value, and on an open one.
    met: [[u64; TO_MEET.len()]; 2],
    calls: u64,
    forks: u64,
    loops: u64,
    stores: u64,
    several_inputs: u64,
}

impl Tally {
    fn count_task(&mut self, task: &Task) {
        for path in &task.listing {
            self.kinds[path.kind as usize] += 1;
            self.reasons[path.reason as usize] += 1;
        }
        for met in &task.met {
            self.met[met.open as usize][met.place] += 1;
        }
        let paths = || task.listing.iter();
        let words = task.job.code.len() as u64;
        self.forks += (task.listing.len() > 1) as u64;
        self.loops += paths().any(|path| path.steps > words) as u64;
        self.several_inputs += paths().any(|path| path.reads > 1) as u64;
        // SD's opcode and funct3
        self.stores += task.job.code.iter().any(|word| word & 0x707F == 0x3023) as u64;
    }

    fn count_call(&mut self, refusal: u64) {
        self.calls += 1;
        self.refusals[refusal as usize] += 1;
    }

    fn is_complete(&self) -> bool {
        let seen = |counts: &[u64]| counts.iter().all(|&count| count > 0);
        // what does not occur must never have been seen
        let right = |counts: &[u64], occurs: fn(u64) -> bool| {
            (1..).zip(&counts[1..]).all(|(number, &count)| (count > 0) == occurs(number))
        };
        let ends = right(&self.kinds, kind_occurs) && right(&self.reasons, reason_occurs);
        let [fixed, open] = &self.met;
        ends && seen(&self.refusals[1..]) && seen(&fixed[..TO_MEET_FIXED]) && seen(open)
    }

    fn print(&self) {
        println!("kinds 1 to {KINDS}: {:?}", &self.kinds[1..]);
        println!("reasons 1 to {REASONS}: {:?}", &self.reasons[1..]);
        println!("refusals 1 to {CALL_REFUSALS}: {:?}", &self.refusals[1..]);
        let [fixed, open] = &self.met;
        for (operand, counts) in [("a fixed", &fixed[..TO_MEET_FIXED]), ("an open", open)] {
            let count = |(name, count)| format!("{name} {count}");
            let counts: Vec<String> = TO_MEET.iter().zip(counts).map(count).collect();
            println!("programs with {operand} operand in {}", counts.join(", "));
        }
        println!(
            "{} calls; programs with forks {}, loops {}, stores {}, several inputs {}",
            self.calls, self.forks, self.loops, self.stores, self.several_inputs
        );
    }
}

fn memory_lent(random: &mut Random, intervals: &[Interval], wrong: bool) -> Vec<u64> {
    let mut memory = memory_for(random, intervals);
    if wrong {
        let words = [0, 1, MEMORY_WORDS - 1, MEMORY_WORDS + 1, 2 * MEMORY_WORDS];
        memory.resize(random.pick(&words), 7);
    }
    memory
}

/// One job of the run: what is lent, some programs, and a list of calls.
fn run_job(seed: u64, tally: &mut Tally) -> Result<(), Failure> {
    let mut random = Random(seed.wrapping_mul(0xD1342543DE82EF95));
    let random = &mut random;
    let (large, inputs) = (random.once_in(4), input_count(random));
    let budget = random.pick(&[20, 60, 60, 100, 100, 200, 200, 1000]);
    let boxed = if large { large_box(random, inputs) } else { small_box(random, inputs, budget) };
    let wrong_memory = !large && random.once_in(50);
    let memory = memory_lent(random, &boxed, wrong_memory);
    let words = table_words(random);
    let mut lent = lent(random, &memory, if large { words.max(ENTRY_WORDS) } else { words });
    let mut tasks = Vec::new();
    for _ in 0..1 + random.below(2) {
        tasks.push(match large {
            true => large_task(random, &mut lent, &boxed)?,
            false => small_task(random, &lent, &boxed),
        });
    }
    tasks.iter().for_each(|task| tally.count_task(task));
    run_calls(random, &mut lent, &mut tasks, tally)
}

fn run_calls(
    random: &mut Random,
    lent: &mut Lent,
    tasks: &mut [Task],
    tally: &mut Tally,
) -> Result<(), Failure> {
    for _ in 0..2 + random.below(6) {
        let place = random.below(tasks.len());
        let task = &mut tasks[place];
        match random_call(random, lent, task) {
            Ok(refusal) => tally.count_call(refusal),
            Err(fault) => return Err(failure(lent, &task.job, fault)),
        }
    }
    for task in tasks {
        while task.next.is_some() {
            tally.calls += 1;
            next_page(random, lent, task).map_err(|fault| failure(lent, &task.job, fault))?;
        }
    }
    Ok(())
}

/// The job's whole listing by the brute force, page by page; tells how many paths it has.
fn run_whole(random: &mut Random, lent: &mut Lent, job: Job) -> Result<usize, Failure> {
    let (listing, met) = oracle::listing_and_met(&job);
    let paths = listing.len();
    let mut task = Task::new(job, listing, met);
    while task.next.is_some() {
        let page = next_page(random, lent, &mut task);
        page.map_err(|fault| failure(lent, &task.job, fault))?;
    }
    Ok(paths)
}

/// How many examples there were, and how many of them fork.
fn run_examples() -> Result<(u64, u64), Failure> {
    let random = &mut Random(FIRST_SEED);
    let (mut jobs, mut forks) = (0, 0);
    for example in examples::all() {
        let mut memory = example.job.memory.clone();
        memory.resize(MEMORY_WORDS, 0);
        let mut lent = lent(random, &memory, example.job.entries as usize * ENTRY_WORDS);
        let paths = run_whole(random, &mut lent, example.job).map_err(|failure| Failure {
            fault: format!("{}: {}", example.name, failure.fault),
            dump: failure.dump,
        })?;
        (jobs, forks) = (jobs + 1, forks + (paths > 1) as u64);
    }
    Ok((jobs, forks))
}

/// Powers of two with their neighbours, and others.
fn numbers() -> BTreeSet<u64> {
    let powers = (0..u64::BITS).map(|exponent| 1 << exponent);
    let near = powers.flat_map(|power: u64| [power - 1, power, power + 1]);
    let small = [7, 10, 60, 100, 1000, 3600, 86400];
    let large = [u64::MAX / 60, u64::MAX / 7, u64::MAX / 3, u64::MAX - 1, u64::MAX];
    near.chain(small).chain(large).collect()
}

/// An instruction on an input and a number, with a box and the value of it to compare at.
type Scaling = (u32, Interval, u64);

/// MUL from both sides on boxes around the first product that wraps, and DIVU on boxes around the
/// lowest and the highest multiple.
fn scalings(number: u64) -> Vec<Scaling> {
    // by 0 and by 1 there is no edge, and any box will do
    let wraps = (1_u128 << u64::BITS).div_ceil(number.max(2) as u128) as u64;
    let narrow = (wraps - 1, wraps);
    // by the highest numbers this one has more than two quotients
    let wide = (wraps.saturating_sub(4), wraps + 3);
    let highest = u64::MAX - u64::MAX % number.max(1);
    let around = |edge: u64| (edge.saturating_sub(3), edge.saturating_add(3));
    let product = |word| [(word, narrow, wraps), (word, wide, wraps - 2), (word, wide, wraps + 2)];
    let quotient = |edge| (divu(28, 5, 6), around(edge), edge);
    let products = [mul(28, 5, 6), mul(28, 6, 5)].into_iter().flat_map(product);
    products.chain([quotient(number), quotient(highest)]).collect()
}

/// How many jobs there were, and how many of them fork.
fn run_scalings() -> Result<(u64, u64), Failure> {
    let random = &mut Random(FIRST_SEED);
    let (mut jobs, mut forks) = (0, 0);
    for number in numbers() {
        for scaling in scalings(number) {
            for compare in [&[sltu(10, 28, 7)][..], &[beq(28, 7, 8), addi(10, 0, 1)]] {
                let paths = run_scaling(random, number, scaling, compare)?;
                (jobs, forks) = (jobs + 1, forks + (paths > 1) as u64);
            }
        }
    }
    Ok((jobs, forks))
}

/// Memory with two numbers among the constants, which a failure shows.
fn lent_numbers(random: &mut Random, numbers: [u64; 2]) -> Lent {
    let mut memory = vec![0; MEMORY_WORDS];
    memory[programs::CONSTANT_WORDS][..2].copy_from_slice(&numbers);
    lent(random, &memory, USUAL_TABLE_WORDS)
}

/// A job that loads the first of them into register 6 and the second into register 7.
fn numbers_job(lent: &Lent, work: &[u32], boxed: Interval) -> Job {
    let address = 8 * programs::CONSTANT_WORDS.start as i64;
    let code = reads(&[&[ld(6, address, 0), ld(7, address + 8, 0)], work].concat());
    let (memory, intervals) = (lent.memory().to_vec(), vec![boxed]);
    Job { code, memory, limit: 100, intervals, entries: lent.entries() }
}

/// What the instruction gives is compared with what it gives for one value; tells the paths.
fn run_scaling(
    random: &mut Random,
    number: u64,
    (word, boxed, value): Scaling,
    compare: &[u32],
) -> Result<usize, Failure> {
    let mut lent = lent_numbers(random, [number, value]);
    // the input is at address 0
    let on_value = [addi(5, 7, 0), word, addi(7, 28, 0), ld(5, 0, 0)];
    let job = numbers_job(&lent, &[&on_value[..], &[word], compare].concat(), boxed);
    run_whole(random, &mut lent, job)
}

/// MUL on boxes from 0 to the last value with two quotients, and to the next, which has reason 5.
fn run_wide_products() -> Result<u64, Failure> {
    let random = &mut Random(FIRST_SEED);
    let mut jobs = 0;
    // the product by 2 has two quotients at most
    for &number in numbers().range(3..) {
        let third = (2_u128 << u64::BITS).div_ceil(number as u128) as u64;
        run_wide_product(random, number, third - 1, &[0, 0])?;
        run_wide_product(random, number, third, &[oracle::QUOTIENTS])?;
        jobs += 2;
    }
    Ok(jobs)
}

/// The paths have these reasons.
fn run_wide_product(
    random: &mut Random,
    number: u64,
    high: u64,
    expected: &[u64],
) -> Result<(), Failure> {
    let mut lent = lent_numbers(random, [number, 0]);
    let job = numbers_job(&lent, &[mul(10, 5, 6)], (0, high));
    let mut task = Task::new(job, Vec::new(), BTreeSet::new());
    let listing = own_listing(random, &mut lent, &mut task);
    let listing = listing.map_err(|fault| failure(&lent, &task.job, fault))?;
    let reasons: Vec<u64> = listing.iter().map(|path| path.reason).collect();
    if reasons != expected {
        let fault = format!("paths with the reasons {reasons:?}, expected {expected:?}");
        return Err(failure(&lent, &task.job, fault));
    }
    Ok(())
}

fn show(which: &str, failure: &Failure) {
    println!("job {which} differs: {}", failure.fault);
    print!("{}", failure.dump);
}

fn arguments() -> (u64, u64) {
    let numbers: Vec<Option<u64>> =
        std::env::args().skip(1).map(|text| text.parse().ok()).collect();
    match numbers[..] {
        [] => (FIRST_SEED, JOBS),
        [Some(seed), Some(count)] => (seed, count),
        _ => {
            eprintln!("usage: explore_test [SEED COUNT]");
            std::process::exit(2)
        }
    }
}

fn main() {
    let (seed, count) = arguments();
    match run_examples() {
        Ok((jobs, forks)) => println!("{jobs} examples, {forks} fork, 0 differ"),
        Err(failure) => {
            show("of an example", &failure);
            std::process::exit(1)
        }
    }
    let scaled = run_scalings().and_then(|counts| Ok((counts, run_wide_products()?)));
    match scaled {
        Ok(((jobs, forks), wide)) => println!(
            "{jobs} products and quotients by numbers of all sizes, {forks} fork, and {wide} \
             products on large boxes, 0 differ"
        ),
        Err(failure) => {
            show("of a product or quotient", &failure);
            std::process::exit(1)
        }
    }
    let mut tally = Tally::default();
    let mut differ = 0;
    for job in seed..seed + count {
        if let Err(failure) = run_job(job, &mut tally) {
            differ += 1;
            if differ <= SHOWN_FAILURES {
                show(&format!("with seed {job}"), &failure);
                println!("repeat it with: explore_test {job} 1");
            }
        }
    }
    tally.print();
    let unseen = count >= ENOUGH_JOBS && !tally.is_complete();
    if unseen {
        println!("one of these was never seen, or a kind or reason that does not occur was");
    }
    println!("{count} jobs, {differ} differ");
    if differ > 0 || unseen {
        std::process::exit(1);
    }
}
