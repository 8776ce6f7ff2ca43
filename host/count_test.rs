//! Choices counted through the library's border, compared with the oracle: of random programs, of
//! programs whose counts are known, on boxes around 2^64 choices, and of damaged jobs.
//! `count_test [SEED]`: another seed brings other jobs.

#[allow(dead_code)] // other calls have tests of their own
#[path = "../tool/library.rs"]
mod library;
mod oracle;
mod programs;
mod runs;

use formats::assembler::{add, addi, beq, closing, ecall, jal, job_a, ld, read, sltu};
use formats::blocks::{to_bytes, word, Interval, HIGHS, LOWS};
use formats::job::{self, Job};
use formats::limits::{
    BLOCK_BYTES, BLOCK_WORDS, ENTRY_WORDS, MEMORY_WORDS, MOST_BLOCKS, MOST_CODE_WORDS,
    MOST_COUNTED_PATHS, MOST_INPUTS, MOST_STEPS, PATH_NUMBERS, PAYLOAD_WORDS, USUAL_TABLE_WORDS,
};
use formats::numbers::KIND_PLACES;
use formats::random::Random;
use formats::show::job_text;
use library::Counts;
use oracle::{
    Path, BAD_ADDRESS, BAD_BLOCKS, BAD_CALL, BAD_CHECK, BAD_FORM, BAD_PC, BAD_WORD, EXITED,
    MOST_TRIED, NOT_FOLLOWED, STEP_LIMIT, TOO_MANY_CHOICES, TOO_MANY_PATHS, TRACE_FULL,
};
use programs::{input_count, large_box, random_job, small_box};
use runs::{flip, with_margins, with_word, Seen, Test, FILL, MARGIN};
use std::collections::BTreeSet;
use std::fmt;

/// Random programs on boxes of few choices, and on others.
const SMALL_JOBS: usize = 2500;
const LARGE_JOBS: usize = 2500;
/// Rounds of programs whose counts are known, and of boxes near 2^64 choices.
const ROUNDS: usize = 3;
const NOISE: usize = 300;
const MAX: u64 = u64::MAX;
/// So many choices are refused.
const TOO_MANY: u128 = 1 << 64;

// ---------------------------------------------------------------------------------------------
// A call.

/// The counts, or the number of the refusal.
type Answer = Result<oracle::Counts, u64>;

struct Call<'a>(&'a [u8]);

impl Call<'_> {
    /// What the library does otherwise, in a word of its answer or in a byte lent or near it.
    fn difference(&self, expected: &Counts) -> Option<String> {
        let job = with_margins(self.0, FILL as u8);
        let found = library::count(&job[MARGIN..][..self.0.len()]);
        if found != *expected {
            return words(&found).into_iter().zip(words(expected)).find_map(|(found, expected)| {
                let (name, place, word) = found;
                let differs = found != expected;
                differs.then(|| format!("{name}[{place}] is {word}, expected {}", expected.2))
            });
        }
        let kept = job == with_margins(self.0, FILL as u8);
        (!kept).then(|| "the job was changed".to_string())
    }
}

/// Every word of an answer, with the name of its part and its place there.
fn words(counts: &Counts) -> Vec<(&'static str, usize, u64)> {
    let parts: [(&str, &[u64]); 7] = [
        ("refused", &[counts.refused]),
        ("used", &[counts.used]),
        ("values", &counts.values),
        ("choices", &counts.choices),
        ("varying", &[counts.varying]),
        ("kinds", &counts.kinds),
        ("total", &[counts.total]),
    ];
    let named = |(name, words): (&'static str, &[u64])| {
        let words = words.iter().enumerate();
        words.map(|(place, &word)| (name, place, word)).collect::<Vec<_>>()
    };
    parts.into_iter().flat_map(named).collect()
}

impl fmt::Display for Call<'_> {
    fn fmt(&self, f: &mut fmt::Formatter) -> fmt::Result {
        match job::read(self.0) {
            Ok(job) => write!(f, "inputs {:?}, limit {}", job.intervals, job.limit),
            Err(number) => write!(f, "{} bytes, no job by question {number}", self.0.len()),
        }
    }
}

const NOTHING: Counts = Counts {
    refused: 0,
    used: 0,
    values: [0; MOST_COUNTED_PATHS],
    choices: [0; MOST_COUNTED_PATHS],
    varying: 0,
    kinds: [0; KIND_PLACES],
    total: 0,
};

/// An answer as the struct has it: 0 in each place that is not used.
fn laid_out(answer: &Answer) -> Counts {
    let known = match answer {
        Ok(known) => known,
        Err(number) => return Counts { refused: *number, ..NOTHING },
    };
    let (used, varying) = (known.values.len() as u64, known.varying as u64);
    let mut counts = Counts { used, varying, total: known.total as u64, ..NOTHING };
    for (place, (&value, &choices)) in known.values.iter().enumerate() {
        (counts.values[place], counts.choices[place]) = (value, choices as u64);
    }
    known.kinds.iter().for_each(|(&kind, &choices)| counts.kinds[kind as usize] = choices as u64);
    counts
}

// ---------------------------------------------------------------------------------------------
// The run.

type Run = runs::Run<Tally>;

/// Exits that vary are seen at the number of a kind that no path has.
const VARYING: usize = 2;

/// How often each thing was seen; ends by their kinds.
#[derive(Default)]
struct Tally {
    inputs: [u64; MOST_INPUTS + 1],
    boxes: [u64; 3],
    paths: [u64; 3],
    ends: [u64; KIND_PLACES],
    values: [u64; 6],
    firsts: [u64; 4],
    random: [u64; 2],
    pieces: [u64; 5],
    known: [u64; 3],
    tables: [u64; 2],
    sizes: [u64; 5],
    both: u64,
    noes: [u64; 2],
    bits: [u64; 3],
    lengths: [u64; 3],
}

impl Test for Tally {
    const NUMBERS: &'static [u64] =
        &[0, BAD_BLOCKS, BAD_CHECK, 1, 2, 3, 4, 6, 8, BAD_FORM, TOO_MANY_CHOICES, TOO_MANY_PATHS];

    fn seen(&self) -> Vec<Seen<'_>> {
        vec![
            ("jobs counted with 0 to 8 inputs", &self.inputs),
            ("with one choice, with up to 2,000, with more", &self.boxes),
            ("with one path, with up to 63, with 64", &self.paths),
            ("with a fixed exit value, one that varies, kinds 3 to 9", &self.ends[1..]),
            ("a value on two paths, with others between, below an earlier one", &self.values[..3]),
            ("0 as a value, MAX, 64 values", &self.values[3..]),
            ("naming path 0, a later one, one behind the last, the last number", &self.firsts),
            ("random jobs counted and turned away", &self.random),
            ("known jobs of one piece, up to 63, 64, 65, more", &self.pieces),
            ("known jobs on narrow and wide boxes, and of 19 blocks", &self.known),
            ("jobs that take the whole table, and that need an entry more", &self.tables),
            ("boxes below 2^64 - 1, of it, of 2^64, above, small modulo 2^64", &self.sizes),
            ("boxes too large with 65 paths", std::slice::from_ref(&self.both)),
            ("sets of noes by a first cause and by a second", &self.noes),
            ("flipped bits, and with a right check counted and not", &self.bits),
            ("lengths cut to, longer ones, noise", &self.lengths),
        ]
    }
}

impl Run {
    /// The answer on which the library and the oracle must agree.
    fn compare(&mut self, case: &str, job: &[u8]) -> Answer {
        let (call, counted) = (Call(job), oracle::count_and_paths(job));
        if let Ok((counts, paths)) = &counted {
            self.count_paths(counts, paths);
        }
        let answer = counted.map(|(counts, _)| counts);
        if let Some(text) = call.difference(&laid_out(&answer)) {
            let shown = job::read(job).map_or(String::new(), |job| job_text(&job));
            self.fault(case, &call, &format!("{text}\n{shown}"));
        }
        self.count_call(answer.as_ref().err().copied().unwrap_or(0));
        answer
    }

    /// The answer is known without the oracle.
    fn expect(&mut self, case: &str, job: &[u8], known: &Answer) {
        let answer = self.compare(case, job);
        self.require(case, &Call(job), &answer, Some(known));
    }

    fn count_paths(&mut self, counts: &oracle::Counts, paths: &[Path]) {
        let tally = &mut self.tally;
        tally.inputs[paths[0].boxes.len()] += 1;
        tally.boxes[(counts.total > 1) as usize + (counts.total > MOST_TRIED) as usize] += 1;
        tally.paths[(paths.len() > 1) as usize + (paths.len() == MOST_COUNTED_PATHS) as usize] += 1;
        tally.ends[EXITED as usize] += !counts.values.is_empty() as u64;
        tally.ends[VARYING] += (counts.varying > 0) as u64;
        counts.kinds.keys().for_each(|&kind| tally.ends[kind as usize] += 1);
        let exits: Vec<Option<u64>> = paths.iter().map(fixed_exit).collect();
        let seen = [
            counts.values.len() < exits.iter().flatten().count(),
            come_back(&exits),
            !exits.iter().flatten().is_sorted(),
            counts.values.contains_key(&0),
            counts.values.contains_key(&MAX),
            counts.values.len() == MOST_COUNTED_PATHS,
        ];
        for (count, seen) in tally.values.iter_mut().zip(seen) {
            *count += seen as u64;
        }
    }
}

fn fixed_exit(path: &Path) -> Option<u64> {
    let (low, high) = path.registers[10];
    (path.kind == EXITED && low == high).then_some(low)
}

/// Is a value on two paths that have one with another end between them?
fn come_back(exits: &[Option<u64>]) -> bool {
    let mut runs = exits.to_vec();
    runs.dedup();
    let values: Vec<&u64> = runs.iter().flatten().collect();
    values.iter().collect::<BTreeSet<_>>().len() < values.len()
}

// ---------------------------------------------------------------------------------------------
// Random programs.

/// A box of fewer than 2^64 choices, often of nearly as many; one input has at least so many
/// values.
fn wide_box(random: &mut Random, inputs: usize, input: usize, least: u64) -> Vec<Interval> {
    let mut boxed = vec![(0, 0); inputs];
    let mut room = MAX;
    for place in (0..inputs).map(|place| (input + place) % inputs) {
        let least = if place == input { least } else { 1 };
        let width = (random.next() >> random.below(64)).clamp(least, room);
        room /= width;
        boxed[place] = interval(random, width as u128);
    }
    boxed
}

/// A box of some 2,000 choices at most; one input has at least so many values.
fn narrow_box(random: &mut Random, inputs: usize, input: usize, least: usize) -> Vec<Interval> {
    let mut boxed = small_box(random, inputs, 5);
    let width = least + random.below(3 * least);
    boxed[input] = interval(random, width as u128);
    boxed
}

/// An interval with so many values.
fn interval(random: &mut Random, width: u128) -> Interval {
    let more = (width - 1) as u64;
    let any = random.between((0, MAX - more));
    let low = random.pick(&[0, 0, MAX - more, any]);
    (low, low + more)
}

impl Run {
    fn small_jobs(&mut self) {
        for _ in 0..SMALL_JOBS {
            let inputs = input_count(&mut self.random);
            let budget = self.random.pick(&[20, 60, 60, 100, 200, 1000]);
            let boxed = small_box(&mut self.random, inputs, budget);
            self.count_random(boxed);
        }
    }

    fn large_jobs(&mut self) {
        for _ in 0..LARGE_JOBS {
            let inputs = 1 + self.random.below(MOST_INPUTS);
            let input = self.random.below(inputs);
            let boxed = match self.random.once_in(5) {
                true => large_box(&mut self.random, inputs),
                false => wide_box(&mut self.random, inputs, input, 1),
            };
            self.count_random(boxed);
        }
    }

    fn count_random(&mut self, boxed: Vec<Interval>) {
        let job = random_job(&mut self.random, boxed);
        let answer = self.compare("random job", &job.to_bytes());
        self.tally.random[answer.is_err() as usize] += 1;
    }
}

// ---------------------------------------------------------------------------------------------
// Programs whose counts are known.

/// How the choices of a piece end: by exit with a value or with the input, or by another kind.
#[derive(Clone, Copy)]
enum End {
    Value(u64),
    Input,
    Kind(u64),
}

/// A program that compares one input with the start of each piece but the first, in their order,
/// and ends each piece in its own way. Starts and exit values stand in memory behind the inputs.
struct Pieces {
    boxed: Vec<Interval>,
    input: usize,
    starts: Vec<u64>,
    ends: Vec<End>,
}

/// The table is full before so many steps are made.
const LIMIT: u64 = 3000;

/// So many pieces; the input has at least as many values.
fn pieces(random: &mut Random, boxed: Vec<Interval>, input: usize, count: usize) -> Pieces {
    let mut starts = BTreeSet::from([boxed[input].0]);
    while starts.len() < count {
        starts.insert(random.between(boxed[input]));
    }
    Pieces { boxed, input, starts: starts.into_iter().collect(), ends: ends(random, count) }
}

impl Pieces {
    fn start_address(place: usize) -> i64 {
        8 * (MOST_INPUTS + 2 * place) as i64
    }

    fn code(&self) -> Vec<u32> {
        let reads = (0..=self.input as u32).flat_map(|input| read(input, 5));
        let mut code: Vec<u32> = reads.collect();
        for (place, &end) in self.ends.iter().enumerate() {
            let words = end_words(end, Pieces::start_address(place) + 8);
            let past = 4 * (1 + words.len()) as i64;
            if place + 1 < self.ends.len() {
                let next = Pieces::start_address(place + 1);
                code.extend([ld(6, next, 0), sltu(7, 5, 6), beq(7, 0, past)]);
            }
            code.extend(words);
        }
        code
    }

    fn memory(&self) -> Vec<u64> {
        let pairs =
            self.starts.iter().zip(&self.ends).flat_map(|(&start, &end)| [start, value_of(end)]);
        [0; MOST_INPUTS].into_iter().chain(pairs).collect()
    }

    fn job(&self, first: u64) -> Job {
        let (code, intervals) = (self.code(), self.boxed.clone());
        Job { code, intervals, limit: LIMIT, first, memory: self.memory() }
    }

    fn answer(&self) -> Answer {
        let size = |&(low, high): &Interval| (high - low) as u128 + 1;
        let product = self.boxed.iter().try_fold(1, |all: u128, ends| all.checked_mul(size(ends)));
        let total = product.filter(|&total| total < TOO_MANY).ok_or(TOO_MANY_CHOICES)?;
        if self.ends.len() > MOST_COUNTED_PATHS {
            return Err(TOO_MANY_PATHS);
        }
        let mut counts = oracle::Counts { total, ..Default::default() };
        let others = total / size(&self.boxed[self.input]);
        let highs = self.starts[1..].iter().map(|next| next - 1);
        let highs = highs.chain([self.boxed[self.input].1]);
        for ((&low, high), &end) in self.starts.iter().zip(highs).zip(&self.ends) {
            *place_of(&mut counts, end, (low, high)) += size(&(low, high)) * others;
        }
        Ok(counts)
    }
}

/// What is in memory for an end.
fn value_of(end: End) -> u64 {
    match end {
        End::Value(value) => value,
        _ => 0,
    }
}

/// Words that end a piece; an exit value is loaded from its address.
fn end_words(end: End, value: i64) -> Vec<u32> {
    let exit = |word| [&[word][..], &closing()].concat();
    match end {
        End::Value(_) => exit(ld(10, value, 0)),
        End::Input => exit(addi(10, 5, 0)),
        End::Kind(BAD_PC) => vec![jal(0, 6)],
        End::Kind(BAD_WORD) => vec![0],
        End::Kind(BAD_ADDRESS) => vec![ld(10, 4, 0)],
        End::Kind(BAD_CALL) => vec![addi(17, 0, 64), ecall()],
        End::Kind(STEP_LIMIT) => vec![jal(0, 0)],
        End::Kind(NOT_FOLLOWED) => exit(add(10, 5, 5)),
        End::Kind(_) => vec![addi(8, 8, 1), jal(0, -4)],
    }
}

/// Where the choices of a piece are counted.
fn place_of(counts: &mut oracle::Counts, end: End, (low, high): Interval) -> &mut u128 {
    let alone = low == high;
    match end {
        End::Value(value) => counts.values.entry(value).or_default(),
        // of one value alone both the input and its double are fixed
        End::Input if alone => counts.values.entry(low).or_default(),
        End::Kind(NOT_FOLLOWED) if alone => counts.values.entry(low.wrapping_mul(2)).or_default(),
        End::Input => &mut counts.varying,
        End::Kind(kind) => counts.kinds.entry(kind).or_default(),
    }
}

const OTHER_KINDS: [u64; 7] =
    [BAD_PC, BAD_WORD, BAD_ADDRESS, BAD_CALL, STEP_LIMIT, NOT_FOLLOWED, TRACE_FULL];

fn any_end(random: &mut Random) -> End {
    let value = random.pick(&[0, 1, 2, 8, 1 << 32, 1 << 63, MAX - 1, MAX]);
    let kind = random.pick(&OTHER_KINDS);
    random.pick(&[End::Value(value), End::Value(value), End::Input, End::Kind(kind)])
}

/// Values that rise, fall, are one or two in turn; and any ends, most often.
fn ends(random: &mut Random, count: usize) -> Vec<End> {
    let (from, two) = (random.next() >> 8, [random.next(), random.next()]);
    let way = random.below(8);
    let end = |place: usize| match way {
        0 => End::Value(from + place as u64),
        1 => End::Value(from - place as u64),
        2 => End::Value(two[0]),
        3 => End::Value(two[place % 2]),
        _ => any_end(random),
    };
    (0..count).map(end).collect()
}

impl Run {
    fn known_jobs(&mut self) {
        for inputs in 1..=MOST_INPUTS {
            for count in [1, 2, 3, 10, 63, 64, 64, 65, 66, 100] {
                (0..ROUNDS).for_each(|_| self.count_known(inputs, count));
            }
        }
    }

    fn count_known(&mut self, inputs: usize, count: usize) {
        let (input, wide) = (self.random.below(inputs), self.random.once_in(2));
        let boxed = match wide {
            true => wide_box(&mut self.random, inputs, input, count as u64),
            false => narrow_box(&mut self.random, inputs, input, count),
        };
        self.tally.known[wide as usize] += 1;
        self.count_pieces("known job", boxed, input, count);
    }

    /// With any first path; at times with as many words of code and memory as there can be.
    fn count_pieces(&mut self, case: &str, boxed: Vec<Interval>, input: usize, count: usize) {
        let pieces = pieces(&mut self.random, boxed, input, count);
        let (answer, count) = (pieces.answer(), count as u64);
        let firsts = [0, count.min(2) - 1, count, PATH_NUMBERS - 1];
        let way = self.random.below(firsts.len());
        let mut job = pieces.job(firsts[way]);
        if self.random.once_in(8) {
            job.code.resize(MOST_CODE_WORDS, ecall());
            job.memory.resize(MEMORY_WORDS, MAX);
            self.tally.known[2] += 1;
        }
        self.tally.firsts[way] += (answer.is_ok() && count > 1) as u64;
        let several = [count > 1, count > 63, count > 64, count > 65];
        self.tally.pieces[several.iter().filter(|&&more| more).count()] += 1;
        self.expect(case, &job.to_bytes(), &answer);
    }

    fn no_inputs(&mut self) {
        let values = [0, 7, MAX].map(End::Value);
        for end in values.into_iter().chain(OTHER_KINDS.map(End::Kind)) {
            let (code, memory) = (end_words(end, 0), vec![value_of(end)]);
            let job = Job { code, intervals: Vec::new(), limit: LIMIT, first: 0, memory };
            let mut counts = oracle::Counts { total: 1, ..Default::default() };
            // the register that inputs are read into is 0
            *place_of(&mut counts, end, (0, 0)) += 1;
            self.expect("no input", &job.to_bytes(), &Ok(counts));
        }
    }

    /// A loop with an entry for each turn; two more are for the number of turns and of the call.
    fn full_tables(&mut self) {
        let entries = (USUAL_TABLE_WORDS / ENTRY_WORDS) as u64;
        let turn = [ld(9, 0, 0), addi(8, 8, 1), beq(8, 9, 8), jal(0, -8)];
        let code = [&turn[..], &closing()].concat();
        for (place, end) in [End::Value(0), End::Kind(TRACE_FULL)].into_iter().enumerate() {
            let (intervals, memory) = (vec![(0, 9)], vec![entries - 2 + place as u64]);
            let job = Job { code: code.clone(), intervals, limit: MOST_STEPS, first: 0, memory };
            let mut counts = oracle::Counts { total: 10, ..Default::default() };
            *place_of(&mut counts, end, (0, 9)) += 10;
            self.expect("a full table", &job.to_bytes(), &Ok(counts));
            self.tally.tables[place] += 1;
        }
    }
}

// ---------------------------------------------------------------------------------------------
// Boxes around 2^64 choices.

/// Widths whose product is 2^64 - 1, by its prime factors.
fn widths_below(random: &mut Random, inputs: usize) -> Vec<u128> {
    let mut widths = vec![1; inputs];
    for factor in [3, 5, 17, 257, 641, 65_537, 6_700_417] {
        widths[random.below(inputs)] *= factor;
    }
    widths
}

/// Widths whose product is 2^64.
fn widths_of_power(random: &mut Random, inputs: usize) -> Vec<u128> {
    let mut widths = vec![1; inputs];
    (0..64).for_each(|_| widths[random.below(inputs)] *= 2);
    widths
}

/// Pairs of widths whose product is 2^64 or more, and small modulo 2^64.
const WRAPPING: [[u128; 2]; 5] = [
    [(1 << 63) + 1, 2],
    [1 << 32, (1 << 32) + 1],
    [3, 6_148_914_691_236_517_206],
    [MAX as u128, MAX as u128],
    [1 << 64, 1 << 64],
];

fn widest(widths: &[u128]) -> usize {
    (0..widths.len()).max_by_key(|&place| widths[place]).expect("a box has an input")
}

impl Run {
    fn sizes(&mut self) {
        for inputs in (1..=MOST_INPUTS).flat_map(|inputs| [inputs; ROUNDS]) {
            let mut below = widths_below(&mut self.random, inputs);
            let mut power = widths_of_power(&mut self.random, inputs);
            self.count_size(&below, 3);
            self.count_size(&power, 3);
            self.count_size(&power, MOST_COUNTED_PATHS + 1);
            let (any, wide) = (self.random.below(inputs), widest(&power));
            below[any] += 1;
            power[wide] -= 1;
            self.count_size(&below, 3);
            self.count_size(&power, 3);
        }
    }

    /// With the other inputs of one value each, before and behind.
    fn wrapping_sizes(&mut self) {
        for (inputs, pair) in
            (2..=MOST_INPUTS).flat_map(|inputs| WRAPPING.map(|pair| (inputs, pair)))
        {
            let mut widths = vec![1; inputs];
            let place = self.random.below(inputs);
            widths[place] = pair[0];
            widths[(place + 1 + self.random.below(inputs - 1)) % inputs] = pair[1];
            self.count_size(&widths, 2);
            self.tally.sizes[4] += 1;
        }
    }

    fn count_size(&mut self, widths: &[u128], count: usize) {
        let boxed = widths.iter().map(|&width| interval(&mut self.random, width)).collect();
        let size = widths.iter().fold(1, |all: u128, &width| all.saturating_mul(width));
        let above = [size >= TOO_MANY - 1, size >= TOO_MANY, size > TOO_MANY];
        self.tally.sizes[above.iter().filter(|&&above| above).count()] += 1;
        self.tally.both += (size >= TOO_MANY && count > MOST_COUNTED_PATHS) as u64;
        self.count_pieces("a size", boxed, widest(widths), count);
    }
}

// ---------------------------------------------------------------------------------------------
// Damaged jobs.

/// The questions in their order, by their numbers; for one that a word of the header answers, the
/// word's place and two values that bring the no.
const QUESTIONS: [(u64, Option<(usize, [u64; 2])>); 11] = [
    (BAD_BLOCKS, None),
    (BAD_CHECK, None),
    (1, Some((1, [0, MOST_CODE_WORDS as u64 + 1]))),
    (2, Some((2, [MOST_INPUTS as u64 + 1, MAX]))),
    (3, Some((LOWS + 1, [SECOND.1 + 1, MAX]))),
    (4, Some((3, [0, MOST_STEPS + 1]))),
    (6, Some((21, [MEMORY_WORDS as u64 + 1, MAX]))),
    (8, Some((4, [PATH_NUMBERS, MAX]))),
    (BAD_FORM, Some((0, [0, 2]))),
    (TOO_MANY_CHOICES, Some((HIGHS, [1 << 63, MAX]))),
    (TOO_MANY_PATHS, None),
];
const BLOCKS: usize = 0;
const CHECK: usize = 1;
const PATHS: usize = 10;

/// The inputs of the jobs that get a set of noes.
const FIRST: Interval = (0, 999);
const SECOND: Interval = (3, 9);

/// One of two jobs, of 64 and of 65 paths, with the noes of a set; bit k is for question k.
fn with_noes(jobs: &[Vec<u8>; 2], noes: usize, cause: usize) -> Vec<u8> {
    let no = |question: usize| noes >> question & 1 == 1;
    let mut job = jobs[no(PATHS) as usize].clone();
    let words = (0..QUESTIONS.len()).filter(|&question| no(question));
    for (place, values) in words.filter_map(|question| QUESTIONS[question].1) {
        job = with_word(&job, place, values[cause]);
    }
    if no(CHECK) {
        flip(&mut job, 8 * (cause + 1) * BLOCK_BYTES - 1);
    }
    if no(BLOCKS) {
        job.resize([job.len() - 1, (MOST_BLOCKS + 1) * BLOCK_BYTES][cause], 0);
    }
    job
}

/// Job A on a smaller box, with some memory: three blocks.
fn small_job() -> Vec<u8> {
    Job { intervals: vec![(0, 40)], first: 1, memory: vec![5; 3], ..job_a() }.to_bytes()
}

impl Run {
    /// The first no decides.
    fn every_set_of_noes(&mut self) {
        let counts = [MOST_COUNTED_PATHS, MOST_COUNTED_PATHS + 1];
        let both = counts.map(|count| pieces(&mut self.random, vec![FIRST, SECOND], 0, count));
        let jobs = [0, 1].map(|place| both[place].job(0).to_bytes());
        let sets = 0..1 << QUESTIONS.len();
        for (noes, cause) in sets.flat_map(|noes| [(noes, 0), (noes, 1)]) {
            let first = (0..QUESTIONS.len()).find(|question| noes >> question & 1 == 1);
            let answer = first.map_or(both[0].answer(), |first| Err(QUESTIONS[first].0));
            self.expect("a set of noes", &with_noes(&jobs, noes, cause), &answer);
            self.tally.noes[cause] += 1;
        }
    }

    /// One word of a block is changed, so its check does not agree.
    fn every_flipped_bit(&mut self) {
        let mut job = small_job();
        for bit in 0..8 * job.len() {
            flip(&mut job, bit);
            self.expect("a flipped bit", &job, &Err(BAD_CHECK));
            flip(&mut job, bit);
            self.tally.bits[0] += 1;
        }
    }

    fn every_changed_bit(&mut self) {
        let job = small_job();
        for (place, bytes) in job.chunks(8).enumerate() {
            if place % BLOCK_WORDS < PAYLOAD_WORDS {
                (0..64).for_each(|bit| self.change_word(&job, place, word(bytes) ^ 1 << bit));
            }
        }
    }

    fn change_word(&mut self, job: &[u8], place: usize, value: u64) {
        let answer = self.compare("a changed bit", &with_word(job, place, value));
        self.tally.bits[1 + answer.is_err() as usize] += 1;
    }

    fn every_length(&mut self) {
        let job = small_job();
        for length in 0..job.len() {
            let whole = length > 0 && length % BLOCK_BYTES == 0;
            let number = if whole { BAD_FORM } else { BAD_BLOCKS };
            self.expect("cut to a length", &job[..length], &Err(number));
            self.tally.lengths[0] += 1;
        }
    }

    /// Blocks of zeros, with right checks.
    fn further_blocks(&mut self) {
        for more in 1..=MOST_BLOCKS {
            let longer = [small_job(), to_bytes(&vec![0; more * PAYLOAD_WORDS])].concat();
            let few = longer.len() <= MOST_BLOCKS * BLOCK_BYTES;
            let number = if few { BAD_FORM } else { BAD_BLOCKS };
            self.expect("further blocks", &longer, &Err(number));
            self.tally.lengths[1] += 1;
        }
    }

    fn noise(&mut self) {
        for _ in 0..NOISE {
            let (blocks, rest) = (1 + self.random.below(MOST_BLOCKS), self.random.below(2));
            let job = self.random.bytes(blocks * BLOCK_BYTES + rest);
            let number = if rest == 0 { BAD_CHECK } else { BAD_BLOCKS };
            self.expect("noise", &job, &Err(number));
            self.tally.lengths[2] += 1;
        }
    }
}

fn main() {
    let mut run = Run::start("count_test");
    run.small_jobs();
    run.large_jobs();
    run.known_jobs();
    run.no_inputs();
    run.full_tables();
    run.sizes();
    run.wrapping_sizes();
    run.every_set_of_noes();
    run.every_flipped_bit();
    run.every_changed_bit();
    run.every_length();
    run.further_blocks();
    run.noise();
    run.finish()
}
