//! What the library costs: the numbers of docs/BENCHMARKS.md, as markdown tables.

#[allow(dead_code)] // jobs are written by the tests
#[path = "../tool/library.rs"]
mod library;

use formats::assembler::{self, *};
use formats::blocks::{flat, Interval, HIGHS, LOWS};
use formats::instruction::{bits, immediate, Form};
use formats::job::Job;
use formats::limits::{
    path_bytes, BLOCK_BYTES, ENTRY_WORDS, LINE_BYTES, MEMORY_WORDS, MOST_CODE_WORDS,
    MOST_COUNTED_PATHS, MOST_INPUTS, MOST_JOB_BYTES, MOST_ROWS, MOST_STEPS, PATH_NUMBERS,
    PAYLOAD_WORDS, REGISTERS, USUAL_PAGE_PATHS, USUAL_TABLE_WORDS,
};
use formats::numbers::{EXITED, KIND_PLACES};
use formats::random::Random;
use formats::report::read_pages;
use library::{Counts, Reply, Written};
use std::fmt::Write;
use std::hint::black_box;
use std::time::Instant;

const MAX: u64 = u64::MAX;
/// Timed runs; their median is printed.
const RUNS: usize = 15;

// ---------------------------------------------------------------------------------------------
// Measuring.

/// The median of the runs' nanoseconds, each run being `repeats` calls.
fn median_ns(repeats: u32, mut call: impl FnMut()) -> f64 {
    call();
    median((0..RUNS).map(|_| run_ns(repeats, &mut call)).collect())
}

/// The nanoseconds of a call in one run.
fn run_ns(repeats: u32, mut call: impl FnMut()) -> f64 {
    let start = Instant::now();
    (0..repeats).for_each(|_| call());
    start.elapsed().as_nanos() as f64 / repeats as f64
}

/// The medians of some sides, timed in turn in each run, so that a change of the machine's speed meets all of them.
fn medians_in_turn<const SIDES: usize>(
    repeats: u32,
    mut sides: [&mut dyn FnMut(); SIDES],
) -> [f64; SIDES] {
    let mut times = [(); SIDES].map(|()| Vec::new());
    for _ in 0..RUNS {
        for (side, times) in sides.iter_mut().zip(&mut times) {
            times.push(run_ns(repeats, side));
        }
    }
    times.map(median)
}

fn median(mut numbers: Vec<f64>) -> f64 {
    numbers.sort_by(f64::total_cmp);
    numbers[numbers.len() / 2]
}

/// What a call lends: a job, and room for so many entries and paths.
struct Call {
    job: Job,
    memory: Vec<u64>,
    intervals: Vec<u64>,
    entries: usize,
    paths: usize,
}

fn call_of(job: Job) -> Call {
    let (memory, intervals) = (job.whole_memory(), flat(&job.intervals));
    let entries = USUAL_TABLE_WORDS / ENTRY_WORDS;
    Call { job, memory, intervals, entries, paths: USUAL_PAGE_PATHS }
}

fn call(code: Vec<u32>, low: u64, high: u64, inputs: usize) -> Call {
    let (limit, intervals) = (MOST_STEPS, vec![(low, high); inputs]);
    call_of(Job { code, intervals, limit, first: 0, memory: Vec::new() })
}

/// A job's cost: the paths of its first page and the time of the call.
struct Cost {
    paths: u64,
    steps: u64,
    ns: f64,
}

impl Call {
    fn cost(&self, repeats: u32) -> Cost {
        let (mut table, mut report) = self.room();
        let (paths, steps) = self.listed(&mut table, &mut report);
        let ns = median_ns(repeats, || {
            black_box(self.make(&mut table, &mut report));
        });
        Cost { paths, steps, ns }
    }

    /// The cost, and the nanoseconds of a plain step, timed in turn. The step is one of the busy loop for every
    /// job, so that their ratios have one unit.
    fn cost_beside_plain(&self, repeats: u32) -> (Cost, f64) {
        let (mut table, mut report) = self.room();
        let (paths, steps) = self.listed(&mut table, &mut report);
        let mut own = || {
            black_box(self.make(&mut table, &mut report));
        };
        let plain_loop = busy_loop(LONG, 20, 20);
        // runs that take the time of the call: what else the machine does meets both alike
        let runs = (run_ns(1, &mut own) / run_ns(1, || run_on_20(&plain_loop))).ceil();
        let mut plain = || (0..runs as u32).for_each(|_| run_on_20(&plain_loop));
        let [ns, plain_ns] = medians_in_turn(repeats, [&mut own, &mut plain]);
        (Cost { paths, steps, ns }, plain_ns / (runs * run_plain(&plain_loop, &[20]) as f64))
    }

    /// The paths and the steps of all of them; one page has room for the listing.
    fn listed(&self, table: &mut [u64], report: &mut [u8]) -> (u64, u64) {
        let reply = self.make(table, report);
        assert!(reply.refused == 0 && reply.more == 0, "{reply:?}");
        let inputs = self.job.intervals.len();
        let page = &report[..reply.count as usize * path_bytes(inputs)];
        let records = read_pages(page, inputs).expect("a page of the library");
        (reply.count, records.iter().map(|record| record.steps).sum())
    }

    /// Table and report.
    fn room(&self) -> (Vec<u64>, Vec<u8>) {
        let size = path_bytes(self.job.intervals.len());
        (vec![0; self.entries * ENTRY_WORDS], vec![0; self.paths * size])
    }

    fn blocks(&self) -> Vec<u8> {
        let mut blocks = vec![0; MOST_JOB_BYTES];
        let written = self.write(&mut blocks);
        assert_eq!(written.refused, 0);
        blocks.truncate(written.bytes as usize);
        blocks
    }

    fn write(&self, blocks: &mut [u8]) -> Written {
        let Job { code, limit, first, .. } = &self.job;
        library::write(code, &self.memory, &self.intervals, *limit, *first, blocks)
    }

    fn make(&self, table: &mut [u64], report: &mut [u8]) -> Reply {
        let (memory, intervals) = (&self.memory, &self.intervals);
        library::explore(&self.job.code, memory, intervals, self.job.limit, table, report, 0)
    }
}

// ---------------------------------------------------------------------------------------------
// A plain interpreter of the same machine: fetch, decode and execute one instruction at a time.

struct Plain<'a> {
    pc: u64,
    registers: [u64; REGISTERS],
    memory: [u64; MEMORY_WORDS],
    inputs: &'a [u64],
}

fn offset(form: Form, word: u32) -> u64 {
    immediate(form, word) as u64
}

impl Plain<'_> {
    /// The steps until it stops or the limit is reached.
    fn run(&mut self, code: &[u32], limit: u64) -> u64 {
        let mut steps = 0;
        while steps < limit && self.pc % 4 == 0 && self.pc / 4 < code.len() as u64 {
            if self.step(code[(self.pc / 4) as usize]).is_none() {
                break;
            }
            steps += 1;
        }
        steps
    }

    /// None where the machine stops.
    fn step(&mut self, word: u32) -> Option<()> {
        let (rs1, rs2) = (bits(word, 15, 5) as usize, bits(word, 20, 5) as usize);
        let (a, b) = (self.registers[rs1], self.registers[rs2]);
        let imm = offset(Form::Immediate, word);
        let next = self.pc.wrapping_add(4);
        match (bits(word, 0, 7), bits(word, 12, 3)) {
            (55, _) => self.put(word, offset(Form::Upper, word), next),
            (19, 0) => self.put(word, a.wrapping_add(imm), next),
            (51, funct3) => {
                let value = operate(funct3, bits(word, 25, 7), bits(word, 7, 5), a, b)?;
                self.put(word, value, next)
            }
            (3, 3) => self.put(word, self.memory[index(a.wrapping_add(imm))?], next),
            (35, 3) => {
                self.memory[index(a.wrapping_add(offset(Form::Store, word)))?] = b;
                self.pc = next;
            }
            (99, 0) if a == b => self.pc = self.pc.wrapping_add(offset(Form::Branch, word)),
            (99, 0) => self.pc = next,
            (111, _) => self.put(word, next, self.pc.wrapping_add(offset(Form::Jump, word))),
            (103, 0) => self.put(word, next, a.wrapping_add(imm) & !1),
            _ if word == 115 => self.read()?,
            _ => return None,
        }
        Some(())
    }

    fn put(&mut self, word: u32, value: u64, next: u64) {
        let rd = bits(word, 7, 5) as usize;
        if rd != 0 {
            self.registers[rd] = value;
        }
        self.pc = next;
    }

    fn read(&mut self) -> Option<()> {
        let called = |register: usize, value| (self.registers[register] == value).then_some(());
        called(17, 63)?;
        called(10, 0)?;
        called(12, 8)?;
        let place = index(self.registers[11])?;
        self.registers[10] = 0;
        if let [next, rest @ ..] = self.inputs {
            self.memory[place] = *next;
            self.registers[10] = 8;
            self.inputs = rest;
        }
        self.pc = self.pc.wrapping_add(4);
        Some(())
    }
}

fn operate(funct3: u32, funct7: u32, rd: u32, a: u64, b: u64) -> Option<u64> {
    match (funct3, funct7) {
        (0, 0) => Some(a.wrapping_add(b)),
        (0, 32) => Some(a.wrapping_sub(b)),
        (0, 1) => Some(a.wrapping_mul(b)),
        (5, 1) if rd != 0 => a.checked_div(b),
        (7, 1) if rd != 0 => a.checked_rem(b),
        (5 | 7, 1) => Some(0),
        (3, 0) => Some((a < b) as u64),
        _ => None,
    }
}

fn index(address: u64) -> Option<usize> {
    (address % 8 == 0 && address <= 4088).then_some(address as usize / 8)
}

fn run_plain(call: &Call, inputs: &[u64]) -> u64 {
    let mut memory = [0; MEMORY_WORDS];
    memory.copy_from_slice(&call.memory);
    let mut plain = Plain { pc: 0, registers: [0; REGISTERS], memory, inputs };
    plain.registers[2] = 4096;
    plain.run(&call.job.code, call.job.limit)
}

fn run_on_20(call: &Call) {
    black_box(run_plain(black_box(call), black_box(&[20])));
}

/// The plain interpreter's time on the input 20.
fn plain_ns(call: &Call) -> f64 {
    median_ns(3, || run_on_20(call))
}

// ---------------------------------------------------------------------------------------------
// Programs.

/// Turns of the busy loop that make 60,000 steps.
const LONG: u64 = 7_500;

/// Adds, compares, stores and loads in a loop of `turns` turns and eight steps each. One path, from 9 on.
fn busy_loop(turns: u64, low: u64, high: u64) -> Call {
    busy_call(reads(&busy_turns()), turns, low, high)
}

/// The long busy loop between some words, and then eight comparisons of the input in register 5.
fn compared_late(before: &[u32], after: &[u32], low: u64, high: u64) -> Call {
    let code = [before, &busy_turns(), after, &comparisons(8), &closing()].concat();
    let mut call = busy_call(code, LONG, low, high);
    // each comparison makes three writes and may fork
    call.entries += 8 * 4;
    call
}

/// The input goes through the loop, and is loaded again behind it.
fn forks_late(low: u64, high: u64) -> Call {
    compared_late(&opening(), &[ld(5, 0, 0)], low, high)
}

fn reads_late(low: u64, high: u64) -> Call {
    compared_late(&[], &read(0, 5), low, high)
}

/// As many turns as memory word 32 says.
fn busy_turns() -> Vec<u32> {
    let start = [ld(6, 256, 0), addi(7, 0, 9)];
    let turn = [add(5, 5, 7), sltu(28, 5, 7), sd(5, 64, 0), ld(29, 64, 0), sub(30, 29, 7)];
    let back = [addi(6, 6, -1), beq(6, 0, 8), jal(0, -28)];
    [&start[..], &turn, &back].concat()
}

/// A call of code with these turns.
fn busy_call(code: Vec<u32>, turns: u64, low: u64, high: u64) -> Call {
    let mut call = call(code, low, high, 1);
    call.memory[32] = turns;
    // six writes in each turn
    call.entries = 6 * turns as usize + 16;
    call
}

/// Multiplies and divides the input by `factor` in a loop of `turns` turns and seven steps each. One path
/// for a factor that leaves 20..30 in one class.
fn scaling_loop(turns: u64, factor: u64) -> Call {
    let start = [ld(6, 256, 0), ld(7, 264, 0)];
    let turn = [mul(28, 5, 7), divu(29, 28, 7), mul(30, 29, 7), divu(5, 30, 7)];
    let back = [addi(6, 6, -1), beq(6, 0, 8), jal(0, -24)];
    let mut call = call(reads(&[&start[..], &turn, &back].concat()), 20, 30, 1);
    call.memory[32] = turns;
    call.memory[33] = factor;
    // five writes in each turn
    call.entries = 5 * turns as usize + 16;
    call
}

fn job_a() -> Call {
    call_of(assembler::job_a())
}

fn ten_tests() -> Call {
    call(reads(&assembler::ten_tests()), 0, 255, 1)
}

/// A wait by a queue of trucks (memory word 32) with 256 seconds each: two haul times of up to an
/// hour; a truck that comes before the queue is done waits, and the second is marked by its lap.
fn waiting_time() -> Call {
    let queue = [ld(6, 256, 0), addi(7, 0, 256), mul(6, 6, 7), addi(10, 0, 0)];
    let first = [sltu(28, 5, 6), beq(28, 0, 8), sub(10, 6, 5)];
    let second = [sltu(28, 29, 6), beq(28, 0, 12), sub(30, 6, 29), sd(30, 72, 0)];
    let lap = [lui(7, 1), addi(7, 7, -1024), remu(31, 29, 7), sd(31, 80, 0)];
    let reads = [read(0, 5), read(1, 29)].concat();
    let code = [&reads[..], &queue, &first, &second, &lap, &closing()].concat();
    let mut call = call(code, 0, 3600, 2);
    call.memory[32] = 5;
    call
}

/// Each of some inputs of 0..MAX gets 5 added and is compared: three pieces for each.
fn compared_and_added(inputs: u32) -> Call {
    let mut code = vec![lui(6, 0x7FFFF)];
    for k in 0..inputs {
        code.extend(read(k, 5));
        code.extend([addi(7, 5, 5), sltu(28, 7, 6), sd(28, 64 + 8 * k as i64, 0)]);
    }
    code.extend(closing());
    let mut call = call(code, 0, MAX, inputs as usize);
    call.paths = 3usize.pow(inputs);
    call
}

/// One input of 0..MAX against `forks` constants.
fn compared_often(forks: u32) -> Call {
    let mut work = vec![lui(6, 1)];
    for _ in 0..forks {
        work.extend([addi(6, 6, 1000), sltu(10, 5, 6)]);
    }
    call(reads(&work), 0, MAX, 1)
}

/// A loop of `turns` turns, then one input against `forks` constants. The paths exit with falling values.
fn compared_and_exited(turns: u64, forks: u32) -> Call {
    let turn = [addi(6, 6, -1), beq(6, 0, 8), jal(0, -8)];
    let work = [&[ld(6, 256, 0)], &turn[..], &comparisons(forks)].concat();
    let mut call = call(reads(&work), 0, MAX - 1, 1);
    call.memory[32] = turns;
    call
}

/// Register 5 against constants from register 7 on; register 10 is how many are above it.
fn comparisons(forks: u32) -> Vec<u32> {
    let mut work = vec![addi(10, 0, 0)];
    for _ in 0..forks {
        work.extend([addi(7, 7, 1000), sltu(28, 5, 7), add(10, 10, 28)]);
    }
    work
}

/// Six inputs of 0..255, each compared once. The exit tells the six answers: a value for each path.
fn six_compared() -> Call {
    let mut code = vec![addi(6, 0, 100)];
    for k in 0..6 {
        code.extend(read(k, 5));
        code.extend([add(7, 7, 7), sltu(28, 5, 6), add(7, 7, 28)]);
    }
    code.push(addi(10, 7, 0));
    code.extend(closing());
    call(code, 0, 255, 6)
}

// ---------------------------------------------------------------------------------------------
// Runs of a cut. Each goes from the start to the fork: with a long way to it, they are counted by their time.

/// A value of the input v, by two numbers a and b: its name, its instructions (v is in register 5, a in 28,
/// b in 29, and the value in 7) and what they give.
type Value = (&'static str, fn() -> Vec<u32>, fn(u64, u64, u64) -> u64);

const VALUES: [Value; 5] = [
    ("v", || vec![addi(7, 5, 0)], |v, _, _| v),
    ("v * a", || vec![mul(7, 5, 28)], |v, a, _| v * a),
    ("v / a", || vec![divu(7, 5, 28)], |v, a, _| v / a),
    ("v * a / b", || vec![mul(7, 5, 28), divu(7, 7, 29)], |v, a, b| v * a / b),
    ("v / a * b", || vec![divu(7, 5, 28), mul(7, 7, 29)], |v, a, b| v / a * b),
];

/// 2,000 turns that only count, and then the work, with three numbers in the registers 28, 29 and 30.
fn far_work(work: &[u32], numbers: [u64; 3], ends: Interval) -> Call {
    let loads = [ld(6, 256, 0), ld(28, 264, 0), ld(29, 272, 0), ld(30, 280, 0)];
    let turn = [addi(6, 6, -1), beq(6, 0, 8), jal(0, -8)];
    let mut call = call(reads(&[&loads[..], &turn, work].concat()), ends.0, ends.1, 1);
    call.memory[32] = 2_000;
    call.memory[33..36].copy_from_slice(&numbers);
    call.entries = 2_032;
    call
}

/// The speed of a machine changes from run to run, so the boxes are timed side by side, and often.
const ROUNDS: usize = 101;

/// The last input of the first of two paths.
fn cut_of(call: &Call) -> u64 {
    let (mut table, mut report) = call.room();
    let reply = call.make(&mut table, &mut report);
    assert!(reply.refused == 0 && reply.count == 2, "{reply:?}");
    let records = read_pages(&report[..2 * path_bytes(1)], 1).expect("a page of the library");
    records[0].intervals[0].1
}

/// The runs of the plain machine that one cut of a box takes, its last one being the high corner below the cut: two
/// values around the cut need one, and with the next value two.
fn cut_runs(work: &[u32], numbers: [u64; 3], ends: Interval) -> u64 {
    let last = cut_of(&far_work(work, numbers, ends));
    let calls =
        [ends, (last, last + 1), (last, last + 2)].map(|ends| far_work(work, numbers, ends));
    let (mut table, mut report) = calls[0].room();
    let mut time = |call: &Call| {
        let start = Instant::now();
        black_box(call.make(&mut table, &mut report));
        start.elapsed().as_nanos() as f64
    };
    let mut count = || {
        let [whole, one, two] = calls.each_ref().map(&mut time);
        1.0 + (whole - one) / (two - one)
    };
    median((0..ROUNDS).map(|_| count()).collect()).round() as u64
}

/// Boxes of one input: an hour in seconds, without and with its last second; some hours, from any second on; and large ones.
type Boxes = (&'static str, fn(&mut Random) -> Interval);

const BOXES: [Boxes; 4] = [
    ("0..3599", |_| (0, 3599)),
    ("0..3600", |_| (0, 3600)),
    ("2 to 24 hours", |random| {
        let low = random.below(7200) as u64;
        (low, low + 7200 + random.below(79_201) as u64)
    }),
    ("up to 2^56", |random| {
        let low = random.below(1 << 40) as u64;
        (low, low + (1 << 55) + random.below(1 << 50) as u64)
    }),
];

/// Compared with the number that it is at some input.
fn compared_runs(random: &mut Random, value: &Value, boxes: &Boxes, a: u64, b: u64) -> u64 {
    let (_, work, given) = value;
    let (low, high) = boxes.1(random);
    let at = random.between((low + 200, high - 200));
    cut_runs(&[work(), vec![sltu(10, 7, 30)]].concat(), [a, b, given(at, a, b)], (low, high))
}

/// A product that passes a multiple of 2^64.
fn passing_runs(random: &mut Random, a: u64) -> u64 {
    let passed = 1 + random.below(a as usize - 1) as u128;
    let first = ((passed << 64).div_ceil(a as u128)) as u64;
    let (below, above) = (random.below(1 << 40) as u64, random.below(1 << 40) as u64);
    cut_runs(&[mul(7, 5, 28)], [a, 0, 0], (first - 2 - below, first + 1 + above))
}

// ---------------------------------------------------------------------------------------------
// Rows placed by a plain loop over the report's bytes, with the same questions.

fn place_plain(inputs: u64, report: &[u8], rows: &[u64], answers: &mut [u64]) -> u64 {
    if !is_report(inputs, report) {
        return 12;
    }
    let count = inputs as usize;
    let whole = rows.len() % count == 0 && rows.len() <= MOST_ROWS * count;
    if !whole || answers.len() != rows.len() / count {
        return 13;
    }
    for (row, answer) in rows.chunks_exact(count).zip(answers) {
        let first = records(inputs, report).find(|record| holds(record, row));
        *answer = first.map_or(MAX, |record| word(record, 0));
    }
    0
}

fn word(bytes: &[u8], place: usize) -> u64 {
    u64::from_le_bytes(bytes[8 * place..8 * place + 8].try_into().expect("eight bytes"))
}

fn records(inputs: u64, report: &[u8]) -> std::slice::ChunksExact<'_, u8> {
    report.chunks_exact(path_bytes(inputs as usize))
}

/// Question 12.
fn is_report(inputs: u64, report: &[u8]) -> bool {
    let countable = (1..=MOST_INPUTS as u64).contains(&inputs);
    let whole = countable && report.len() % path_bytes(inputs as usize) == 0;
    whole && records(inputs, report).all(|record| is_record(record, inputs))
}

fn is_record(bytes: &[u8], inputs: u64) -> bool {
    word(bytes, 4) == inputs && bytes.chunks_exact(BLOCK_BYTES).all(agrees)
}

fn agrees(block: &[u8]) -> bool {
    let turned = |sum: u64, place| sum.rotate_left(1).wrapping_add(word(block, place));
    (0..PAYLOAD_WORDS).fold(1, turned) == word(block, PAYLOAD_WORDS)
}

fn holds(record: &[u8], row: &[u64]) -> bool {
    let inside = |(input, &value)| {
        word(record, LOWS + input) <= value && value <= word(record, HIGHS + input)
    };
    row.iter().enumerate().all(inside)
}

/// The page of a call's first paths, and their boxes.
fn first_page(call: &Call) -> (Vec<u8>, Vec<Vec<Interval>>) {
    let (mut table, mut report) = call.room();
    let reply = call.make(&mut table, &mut report);
    assert!(reply.refused == 0 && reply.count == call.paths as u64, "{reply:?}");
    let records = read_pages(&report, call.job.intervals.len()).expect("a page of the library");
    (report, records.into_iter().map(|record| record.intervals).collect())
}

/// As many rows as a call takes, each in one of these paths: all have the same chance.
fn rows_in(boxes: &[Vec<Interval>]) -> Vec<u64> {
    let mut random = Random(1);
    let mut rows = Vec::new();
    for _ in 0..MOST_ROWS {
        let path = &boxes[random.below(boxes.len())];
        rows.extend(path.iter().map(|&ends| random.between(ends)));
    }
    rows
}

// ---------------------------------------------------------------------------------------------
// Sheets by Rust's own formatting and by a plain loop, with the same question on the report.

/// Its text grows as it must, so there is no question 14.
fn sheet_formatted(inputs: u64, report: &[u8], sheet: &mut String) -> u64 {
    if !is_report(inputs, report) {
        return 12;
    }
    sheet.clear();
    each_line(inputs, report, |[first, second, third]| {
        let written = writeln!(sheet, "{first:>20}   {second:>20}    {third:>20}     ");
        written.expect("a String takes any text");
    });
    0
}

fn sheet_plain(inputs: u64, report: &[u8], sheet: &mut [u8]) -> u64 {
    if !is_report(inputs, report) {
        return 12;
    }
    let lines = records(inputs, report).len() * (1 + inputs as usize);
    if sheet.len() < lines * LINE_BYTES {
        return 14;
    }
    let mut room = sheet.chunks_exact_mut(LINE_BYTES);
    each_line(inputs, report, |numbers| {
        let line = room.next().expect("room for the line");
        line.fill(b' ');
        line[LINE_BYTES - 1] = b'\n';
        for (number, end) in numbers.into_iter().zip([20, 43, 67]) {
            write_digits(&mut line[..end], number);
        }
    });
    0
}

/// The three numbers of each line.
fn each_line(inputs: u64, report: &[u8], mut write_line: impl FnMut([u64; 3])) {
    for record in records(inputs, report) {
        // number, kind and reason
        write_line([0, 1, 23].map(|place| word(record, place)));
        for input in 0..inputs as usize {
            write_line([input as u64, word(record, LOWS + input), word(record, HIGHS + input)]);
        }
    }
}

/// At the end of a field that has room for all digits.
fn write_digits(field: &mut [u8], number: u64) {
    let mut left = number;
    for byte in field.iter_mut().rev() {
        *byte = b'0' + (left % 10) as u8;
        left /= 10;
        if left == 0 {
            break;
        }
    }
}

// ---------------------------------------------------------------------------------------------
// Choices counted by a plain loop over the report of the server's call, with the same questions.

/// The job names path 0 as its first, and the report has room for as many paths as are counted.
fn count_plain(job: &[u8], report: &mut [u8]) -> Counts {
    let reply = library::serve(job, report);
    if reply.refused != 0 {
        return no_counts(reply.refused);
    }
    // the place of the input count in a header
    let inputs = word(job, 2);
    let Some(total) = choices_in(job, inputs) else { return no_counts(15) };
    if reply.more != 0 {
        return no_counts(16);
    }
    let mut counts = Counts { total, ..no_counts(0) };
    for record in records(inputs, report).take(reply.count as usize) {
        let choices = choices_in(record, inputs).expect("a part of the starting box");
        // kind, and low and high of the exit value
        match [1, 21, 22].map(|place| word(record, place)) {
            [EXITED, low, high] if low == high => add_value(&mut counts, low, choices),
            [EXITED, ..] => counts.varying += choices,
            [kind, ..] => counts.kinds[kind as usize] += choices,
        }
    }
    counts
}

fn no_counts(refused: u64) -> Counts {
    let values = [0; MOST_COUNTED_PATHS];
    let kinds = [0; KIND_PLACES];
    Counts { refused, used: 0, values, choices: values, varying: 0, kinds, total: 0 }
}

/// By the lows and highs of a job's header or a path's first block; none for 2^64 or more.
fn choices_in(block: &[u8], inputs: u64) -> Option<u64> {
    (0..inputs as usize).try_fold(1u64, |choices, input| {
        let width = (word(block, HIGHS + input) - word(block, LOWS + input)).checked_add(1)?;
        choices.checked_mul(width)
    })
}

fn add_value(counts: &mut Counts, value: u64, choices: u64) {
    let used = counts.used as usize;
    match counts.values[..used].binary_search(&value) {
        Ok(place) => counts.choices[place] += choices,
        Err(place) => {
            counts.values.copy_within(place..used, place + 1);
            counts.choices.copy_within(place..used, place + 1);
            (counts.values[place], counts.choices[place]) = (value, choices);
            counts.used += 1;
        }
    }
}

// ---------------------------------------------------------------------------------------------
// Job blocks by a plain loop, with the same questions.

fn write_plain(call: &Call, blocks: &mut [u8]) -> Written {
    let (code, memory) = (&call.job.code, &call.memory);
    let given = memory.iter().rposition(|&word| word != 0).map_or(0, |last| last + 1);
    let count = 1 + code.len().div_ceil(2 * PAYLOAD_WORDS) + given.div_ceil(PAYLOAD_WORDS);
    let bytes = count * BLOCK_BYTES;
    if let Some(refused) = write_refusal(call, blocks.len() >= bytes) {
        return Written { refused, bytes: 0 };
    }
    let (header, rest) = blocks.split_at_mut(BLOCK_BYTES);
    put_block(header, header_of(call, given).into_iter());
    let mut places = rest.chunks_exact_mut(BLOCK_BYTES);
    for (words, block) in code.chunks(2 * PAYLOAD_WORDS).zip(&mut places) {
        put_block(block, words.chunks(2).map(pair));
    }
    for (words, block) in memory[..given].chunks(PAYLOAD_WORDS).zip(places) {
        put_block(block, words.iter().copied());
    }
    Written { refused: 0, bytes: bytes as u64 }
}

fn write_refusal(call: &Call, fits: bool) -> Option<u64> {
    let Call { job, memory, intervals, .. } = call;
    let pairs = intervals.chunks_exact(2);
    let questions = [
        (1, (1..=MOST_CODE_WORDS).contains(&job.code.len())),
        (2, pairs.remainder().is_empty() && pairs.len() <= MOST_INPUTS),
        (3, pairs.clone().all(|ends| ends[0] <= ends[1])),
        (4, (1..=MOST_STEPS).contains(&job.limit)),
        (6, memory.len() == MEMORY_WORDS),
        (8, job.first < PATH_NUMBERS),
        (14, fits),
    ];
    questions.iter().find(|(_, yes)| !yes).map(|&(number, _)| number)
}

fn header_of(call: &Call, given: usize) -> [u64; PAYLOAD_WORDS] {
    let Call { job, intervals, .. } = call;
    let (words, inputs) = (job.code.len() as u64, (intervals.len() / 2) as u64);
    let mut header = [0; PAYLOAD_WORDS];
    header[..LOWS].copy_from_slice(&[1, words, inputs, job.limit, job.first]);
    for (input, ends) in intervals.chunks_exact(2).enumerate() {
        (header[LOWS + input], header[HIGHS + input]) = (ends[0], ends[1]);
    }
    // the place of the memory words given
    header[21] = given as u64;
    header
}

fn pair(words: &[u32]) -> u64 {
    let high = words.get(1).map_or(0, |&word| word as u64);
    high << 32 | words[0] as u64
}

/// These words, 0 where there are none, and their check, which is folded while they are written.
fn put_block(block: &mut [u8], mut words: impl Iterator<Item = u64>) {
    let (payload, check) = block.split_at_mut(8 * PAYLOAD_WORDS);
    let mut sum: u64 = 1;
    for place in payload.chunks_exact_mut(8) {
        let word = words.next().unwrap_or(0);
        place.copy_from_slice(&word.to_le_bytes());
        sum = sum.rotate_left(1).wrapping_add(word);
    }
    check.copy_from_slice(&sum.to_le_bytes());
}

// ---------------------------------------------------------------------------------------------
// The stack: painted below this frame, and looked at after the call.

const PAINTED: usize = 256 * 1024;
/// Left to the painting itself: a call that uses less shows as 0.
const UNPAINTED: usize = 512;
const PAINT: u8 = 0xA7;

#[inline(never)]
fn paint(top: usize) {
    for place in top - PAINTED..top - UNPAINTED {
        // SAFETY: below every frame in use, inside a thread's stack of four times this size
        unsafe { (place as *mut u8).write_volatile(PAINT) }
    }
}

#[inline(never)]
fn deepest_change(top: usize) -> usize {
    // SAFETY: as in `paint`
    let changed = |place: &usize| unsafe { (*place as *const u8).read_volatile() } != PAINT;
    (top - PAINTED..top - UNPAINTED).find(changed).map_or(0, |place| top - place)
}

/// Bytes below the caller's frame that a call writes.
fn stack_used(call: Call) -> usize {
    let measured = move || {
        let (mut table, mut report) = call.room();
        let mark = 0u8;
        let top = black_box(&mark) as *const u8 as usize;
        paint(top);
        black_box(call.make(&mut table, &mut report));
        deepest_change(top)
    };
    let thread = std::thread::Builder::new().stack_size(4 * PAINTED).spawn(measured);
    thread.expect("a thread").join().expect("a measured call")
}

// ---------------------------------------------------------------------------------------------
// The tables.

fn print_against_plain() {
    let call = busy_loop(LONG, 20, 20);
    let cost = call.cost(3);
    let open = busy_loop(LONG, 20, 30).cost(3);
    let plain_steps = run_plain(&call, &[20]);
    assert_eq!((cost.paths, cost.steps), (1, plain_steps), "the two run the same steps");
    assert_eq!((open.paths, open.steps), (1, plain_steps), "an open input runs them too");
    let plain = plain_ns(&call);
    // what the long table costs by itself
    let mut idle = busy_loop(LONG, 20, 20);
    idle.job.code = vec![0];
    let clearing = idle.cost(3).ns;
    let steps = plain_steps as f64;
    println!("## One path against a plain interpreter\n");
    println!("{plain_steps} steps; table of {} entries.\n", call.entries);
    println!("| | ns a step | ratio |\n|---|---|---|");
    println!("| plain interpreter | {:.1} | 1.0 |", plain / steps);
    println!("| engine, whole call | {:.1} | {:.1} |", cost.ns / steps, cost.ns / plain);
    println!(
        "| engine, whole call, input 20..30 | {:.1} | {:.1} |",
        open.ns / steps,
        open.ns / plain
    );
    let own = cost.ns - clearing;
    println!("| engine, without the table's clearing | {:.1} | {:.1} |", own / steps, own / plain);
}

fn print_scaling() {
    println!("\n## Products and quotients\n");
    println!("| factor | steps | plain interpreter, ns a step | engine, ns a step | ratio |");
    println!("|---|---|---|---|---|");
    for factor in [8, 60, 1 << 32, 1_000_000_007] {
        let call = scaling_loop(8_000, factor);
        let (cost, steps) = (call.cost(3), run_plain(&call, &[20]));
        assert_eq!((cost.paths, cost.steps), (1, steps), "the two run the same steps");
        let plain = plain_ns(&call);
        let (own, others, ratio) = (cost.ns / steps as f64, plain / steps as f64, cost.ns / plain);
        println!("| {factor} | {steps} | {others:.1} | {own:.1} | {ratio:.1} |");
    }
}

fn print_forks() {
    println!("\n## Forks against a plain interpreter\n");
    println!("| job | paths | steps of all paths | µs a call | plain interpreter, ns a step | ratio | aim | a fork, in plain runs from the start |");
    println!("|---|---|---|---|---|---|---|---|");
    let jobs = [
        ("eight inputs of 0..MAX, added and compared", compared_and_added(8), 1, "8"),
        ("one input, 32 forks", compared_often(32), 20, "6"),
        ("one path", busy_loop(LONG, 20, 30), 3, "2.6"),
    ];
    for (name, call, repeats, aim) in jobs {
        let (cost, plain) = call.cost_beside_plain(repeats);
        println!("| {name} | {} | {aim} | - |", ratio_text(&cost, plain));
    }
    print_late("long rule that forks late", forks_late);
    print_late("long rule that reads late", reads_late);
}

/// Where the forks stand at the end of long paths, the runs from the start are what they cost: they are counted by their time.
fn print_late(name: &str, job: fn(u64, u64) -> Call) {
    let (open, plain) = job(20, 10_000).cost_beside_plain(1);
    let (fixed, fixed_plain) = job(20, 20).cost_beside_plain(3);
    assert_eq!((open.paths, fixed.paths), (9, 1), "each comparison forks once");
    assert_eq!(open.steps, open.paths * fixed.steps, "the paths are of one length");
    let runs = (open.ns / plain - fixed.ns / fixed_plain) / fixed.steps as f64;
    let a_fork = runs / (open.paths - 1) as f64;
    println!("| {name} | {} | - | {a_fork:.2} |", ratio_text(&open, plain));
}

fn ratio_text(cost: &Cost, plain: f64) -> String {
    let (us, ratio) = (cost.ns / 1000.0, cost.ns / (cost.steps as f64 * plain));
    format!("{} | {} | {us:.1} | {plain:.1} | {ratio:.1}", cost.paths, cost.steps)
}

/// Cuts of one kind that are counted.
const CUTS: usize = 20;

fn print_cut_runs() {
    println!("\n## Runs of a cut\n");
    let boxes = BOXES.map(|boxes| boxes.0).join(" | ");
    println!("| value compared | a, b | {boxes} |\n|---|---|---|---|---|---|");
    let numbers: [&[(u64, u64)]; 5] = [
        &[(1, 1)],
        &[(64, 1), (60, 1)],
        &[(64, 1), (60, 1)],
        &[(64, 8), (60, 7)],
        &[(64, 64), (60, 60), (64, 8), (60, 25)],
    ];
    for (value, pairs) in VALUES.iter().zip(numbers) {
        for &(a, b) in pairs {
            let count = |boxes| counts(|random| compared_runs(random, value, boxes, a, b));
            println!("| {} | {a}, {b} | {} |", value.0, BOXES.each_ref().map(count).join(" | "));
        }
    }
    for a in [64, 60] {
        let counts = counts(|random| passing_runs(random, a));
        println!("\nA product by {a} that passes a multiple of 2^64: {counts}.");
    }
}

/// The mean, and in brackets the most.
fn counts(count: impl Fn(&mut Random) -> u64) -> String {
    let random = &mut Random(1);
    let counts: Vec<u64> = (0..CUTS).map(|_| count(random)).collect();
    let mean = counts.iter().sum::<u64>() as f64 / CUTS as f64;
    format!("{mean:.1} ({})", counts.iter().max().expect("a cut"))
}

fn print_typical_jobs() {
    println!("\n## Typical jobs\n");
    println!("| job | paths | steps of all paths | µs a call | paths a second |");
    println!("|---|---|---|---|---|");
    let jobs = [
        ("Job A", job_a(), 100),
        ("waiting time: two haul times and a queue", waiting_time(), 100),
        ("v < 5 tested ten times", ten_tests(), 100),
        ("eight inputs of 0..MAX, added and compared", compared_and_added(8), 1),
    ];
    for (name, call, repeats) in jobs {
        let cost = call.cost(repeats);
        println!("| {name} | {} |", cost_text(&cost));
    }
}

fn cost_text(cost: &Cost) -> String {
    let a_second = cost.paths as f64 * 1e9 / cost.ns;
    format!("{} | {} | {:.1} | {a_second:.0}", cost.paths, cost.steps, cost.ns / 1000.0)
}

fn print_growth() {
    println!("\n## Growth\n");
    println!("| | paths | steps of all paths | µs a call | paths a second |");
    println!("|---|---|---|---|---|");
    for turns in [500, 1_000, 2_000, 4_000, 8_000] {
        println!("| one path, {turns} turns | {} |", cost_text(&busy_loop(turns, 20, 30).cost(3)));
    }
    for forks in [1, 2, 4, 8, 16, 32] {
        let cost = compared_often(forks).cost(20);
        println!("| one input, {forks} forks | {} |", cost_text(&cost));
    }
    for inputs in 1..=7 {
        let cost = compared_and_added(inputs).cost(1);
        println!("| {inputs} inputs, two forks each | {} |", cost_text(&cost));
    }
}

/// As many blocks as a job has, and not one step.
fn largest() -> Call {
    let mut call = call(vec![0; MOST_CODE_WORDS], 0, 0, 0);
    call.memory.fill(1);
    call
}

/// A word of no row: the smallest job that is accepted.
fn smallest() -> Call {
    let mut call = call(vec![0], 0, 0, 0);
    (call.entries, call.paths) = (1, 1);
    call
}

fn print_single_calls() {
    let mut refused = smallest();
    refused.job.code.clear();
    let (mut table, mut report) = refused.room();
    assert_eq!(refused.make(&mut table, &mut report).refused, 1);
    let refused_ns = median_ns(10_000, || {
        black_box(black_box(&refused).make(&mut table, &mut report));
    });
    println!("\n## Single calls\n");
    println!("| call | ns | stack in bytes |\n|---|---|---|");
    println!(
        "| smallest accepted | {:.0} | {} |",
        smallest().cost(1_000).ns,
        stack_used(smallest())
    );
    println!("| refused with 1 | {refused_ns:.0} | {} |", stack_text(stack_used(refused)));
    println!("| Job A | {:.0} | {} |", job_a().cost(1_000).ns, stack_used(job_a()));
    let (cost, stack) = (compared_and_added(6).cost(1), stack_used(compared_and_added(6)));
    println!("| six inputs of 0..MAX, {} paths | {:.0} | {stack} |", cost.paths, cost.ns);
}

fn stack_text(bytes: usize) -> String {
    if bytes == 0 {
        format!("under {UNPAINTED}")
    } else {
        bytes.to_string()
    }
}

fn print_placing() {
    let whole = compared_and_added(8);
    let mut page = compared_and_added(8);
    page.paths = USUAL_PAGE_PATHS;
    let ((page, page_boxes), (whole, boxes)) = (first_page(&page), first_page(&whole));
    println!("\n## Placing rows\n");
    println!(
        "| rows | paths | rows in a path | plain loop, µs a call | library, µs a call | ratio |"
    );
    println!("|---|---|---|---|---|---|");
    print_placed(&page, &rows_in(&page_boxes), 20);
    print_placed(&page, &rows_in(&boxes), 20);
    print_placed(&whole, &rows_in(&boxes), 1);
}

/// Eight inputs, and an answer for each row.
fn print_placed(report: &[u8], rows: &[u64], repeats: u32) {
    let mut answers = vec![0; rows.len() / MOST_INPUTS];
    let mut plain_answers = answers.clone();
    let inputs = MOST_INPUTS as u64;
    assert_eq!(place_plain(inputs, report, rows, &mut plain_answers), 0);
    assert_eq!(library::place(inputs, report, rows, &mut answers), 0);
    assert_eq!(answers, plain_answers, "the two give the same answers");
    let plain = median_ns(repeats, || {
        black_box(place_plain(inputs, black_box(report), black_box(rows), &mut plain_answers));
    });
    let ns = median_ns(repeats, || {
        black_box(library::place(inputs, black_box(report), black_box(rows), &mut answers));
    });
    println!(
        "| {} | {} | {} | {:.1} | {:.1} | {:.1} |",
        answers.len(),
        report.len() / path_bytes(MOST_INPUTS),
        answers.iter().filter(|&&answer| answer != MAX).count(),
        plain / 1000.0,
        ns / 1000.0,
        ns / plain
    );
}

fn print_sheets() {
    let mut short = waiting_time();
    short.paths = 6;
    let mut page = compared_and_added(8);
    page.paths = USUAL_PAGE_PATHS;
    println!("\n## Sheets\n");
    println!("| inputs | paths | lines | `writeln!`, µs | plain loop, µs | library, µs | to `writeln!` | to the loop |");
    println!("|---|---|---|---|---|---|---|---|");
    print_sheet(&short, 200);
    print_sheet(&page, 20);
    print_sheet(&compared_and_added(8), 1);
}

/// The sheet of a call's page, which is full.
fn print_sheet(call: &Call, repeats: u32) {
    let (inputs, (report, _)) = (call.job.intervals.len() as u64, first_page(call));
    let mut sheet = vec![0; library::sheet_bytes(inputs, report.len())];
    let (mut plain_sheet, mut text) = (sheet.clone(), String::with_capacity(sheet.len()));
    assert_eq!(library::sheet(inputs, &report, &mut sheet), 0);
    assert_eq!(sheet_plain(inputs, &report, &mut plain_sheet), 0);
    assert_eq!(sheet_formatted(inputs, &report, &mut text), 0);
    assert!(sheet == plain_sheet && sheet == text.as_bytes(), "the three print the same sheet");
    let formatted = median_ns(repeats, || {
        black_box(sheet_formatted(inputs, black_box(&report), &mut text));
    });
    let plain = median_ns(repeats, || {
        black_box(sheet_plain(inputs, black_box(&report), &mut plain_sheet));
    });
    let ns = median_ns(repeats, || {
        black_box(library::sheet(inputs, black_box(&report), &mut sheet));
    });
    let times = [formatted, plain, ns].map(|ns| format!("{:.1}", ns / 1000.0)).join(" | ");
    let (paths, lines) = (call.paths, sheet.len() / LINE_BYTES);
    let (to_formatted, to_plain) = (ns / formatted, ns / plain);
    println!("| {inputs} | {paths} | {lines} | {times} | {to_formatted:.1} | {to_plain:.1} |");
}

fn print_counting() {
    let to_the_limit = call(reads(&[jal(0, 0)]), 0, 255, 1);
    println!("\n## Counting\n");
    println!("| job | paths | steps of all paths | exit values | exploration, µs | plain count, µs | library, µs | to the exploration | to the plain count |");
    println!("|---|---|---|---|---|---|---|---|---|");
    print_counted("smallest", &smallest(), 1_000);
    print_counted("largest, with no step", &largest(), 500);
    print_counted("Job A", &job_a(), 500);
    print_counted("waiting time: two haul times and a queue", &waiting_time(), 100);
    print_counted("six inputs, a fork each", &six_compared(), 10);
    print_counted("one input, 63 forks", &compared_and_exited(1, 63), 10);
    print_counted("one input, 700 turns and 1 fork", &compared_and_exited(700, 1), 10);
    print_counted("one input, 700 turns and 63 forks", &compared_and_exited(700, 63), 1);
    print_counted("one path to the step limit", &to_the_limit, 3);
}

fn print_counted(name: &str, call: &Call, repeats: u32) {
    let job = call.blocks();
    let size = path_bytes(call.job.intervals.len());
    let [mut report, mut plain_report] = [(); 2].map(|()| vec![0; MOST_COUNTED_PATHS * size]);
    let (counts, plain) = (library::count(&job), count_plain(&job, &mut plain_report));
    assert!(counts.refused == 0 && counts == plain, "the two give the same counts");
    let paths = library::serve(&job, &mut report).count;
    let page = &report[..paths as usize * size];
    let records = read_pages(page, call.job.intervals.len()).expect("a page of the library");
    let steps: u64 = records.iter().map(|record| record.steps).sum();
    let mut explore = || {
        black_box(library::serve(black_box(&job), &mut report));
    };
    let mut plain = || {
        black_box(count_plain(black_box(&job), &mut plain_report));
    };
    let mut own = || {
        black_box(library::count(black_box(&job)));
    };
    let [explored, plain, ns] = medians_in_turn(repeats, [&mut explore, &mut plain, &mut own]);
    let times = [explored, plain, ns].map(|ns| format!("{:.1}", ns / 1000.0)).join(" | ");
    let ratios = [ns / explored, ns / plain].map(|ratio| format!("{ratio:.2}")).join(" | ");
    println!("| {name} | {paths} | {steps} | {} | {times} | {ratios} |", counts.used);
}

/// So many words of each kind; a writer looks at none of them but for the zeros at the end of memory.
fn job_of(code_words: usize, memory_words: usize, inputs: usize) -> Call {
    let mut call = call(vec![ecall(); code_words], 3, MAX, inputs);
    call.memory[..memory_words].fill(MAX);
    call
}

fn print_writing() {
    println!("\n## Writing jobs\n");
    println!("| job | blocks | plain loop, ns | library, ns | ratio |");
    println!("|---|---|---|---|---|");
    print_written("Job A", &job_a(), 2_000);
    print_written("1 code word, memory all 0", &job_of(1, 0, 0), 2_000);
    print_written("126 code words, 63 memory words, 2 inputs", &job_of(126, 63, 2), 2_000);
    let largest = job_of(MOST_CODE_WORDS, MEMORY_WORDS, MOST_INPUTS);
    print_written("1,024 code words, 512 memory words, 8 inputs", &largest, 500);
}

fn print_written(name: &str, call: &Call, repeats: u32) {
    let [mut blocks, mut plain_blocks] = [(); 2].map(|()| vec![0; MOST_JOB_BYTES]);
    let (written, plain) = (call.write(&mut blocks), write_plain(call, &mut plain_blocks));
    assert!(written.refused == 0 && written == plain, "{written:?}, {plain:?}");
    assert_eq!(blocks, plain_blocks, "the two write the same job");
    let mut plain = || {
        black_box(write_plain(black_box(call), black_box(&mut plain_blocks)));
    };
    let mut own = || {
        black_box(black_box(call).write(black_box(&mut blocks)));
    };
    let [plain, ns] = medians_in_turn(repeats, [&mut plain, &mut own]);
    let count = written.bytes as usize / BLOCK_BYTES;
    println!("| {name} | {count} | {plain:.0} | {ns:.0} | {:.2} |", ns / plain);
}

fn main() {
    print_against_plain();
    print_scaling();
    print_forks();
    print_cut_runs();
    print_typical_jobs();
    print_growth();
    print_single_calls();
    print_placing();
    print_sheets();
    print_counting();
    print_writing();
}
