//! Jobs written through the library's border, compared with the oracle and with the tool: of random
//! programs and of any values, of every size, to spaces that are too short, exact and too long, and
//! with every set of noes. Jobs are read and written again, in each form that means the same, and
//! served. `write_test [SEED]`: another seed brings other jobs.

#[allow(dead_code)] // other calls have tests of their own
#[path = "../tool/library.rs"]
mod library;
mod oracle;
#[allow(dead_code)] // programs come as jobs
mod programs;
mod runs;

use formats::assembler::job_a;
use formats::blocks::{flat, to_bytes, word, Interval, HIGHS, LOWS};
use formats::job::{self, Job};
use formats::limits::{
    path_bytes, BLOCK_BYTES, BLOCK_WORDS, MEMORY_WORDS, MOST_BLOCKS, MOST_CODE_WORDS, MOST_INPUTS,
    MOST_STEPS, PATH_NUMBERS, PAYLOAD_WORDS, USUAL_PAGE_PATHS, USUAL_TABLE_WORDS,
};
use formats::random::Random;
use library::Written;
use oracle::{Values, BAD_FORM, SHORT_SPACE};
use programs::{input_count, large_box, random_job, small_box};
use runs::{any_room, with_margins, with_word, Seen, Test, FILL, MARGIN};
use std::collections::BTreeMap;
use std::fmt;

/// Random programs, and jobs of any values.
const RANDOM_JOBS: usize = 1500;
const ANY_JOBS: usize = 1500;
const SERVED_JOBS: usize = 3000;
/// The longest spaces have up to so many bytes more than the job.
const MORE: usize = 10_000;
const MAX: u64 = u64::MAX;

// ---------------------------------------------------------------------------------------------
// A call.

struct Call<'a> {
    values: &'a Values,
    space_bytes: usize,
}

/// The answer, the space with its margins, and whether all else that is lent is as it came.
struct Made {
    written: Written,
    space: Vec<u8>,
    kept: bool,
}

impl Call<'_> {
    fn make(&self, came: &[u8]) -> Made {
        let Values { code, memory, intervals, limit, first } = self.values;
        let parts = || {
            let words = [memory, intervals].map(|words| with_margins(words, FILL));
            (with_margins(code, FILL as u32), words)
        };
        let (lent, mut space) = (parts(), came.to_vec());
        let (lent_code, [lent_memory, lent_intervals]) = &lent;
        let written = library::write(
            &lent_code[MARGIN..][..code.len()],
            &lent_memory[MARGIN..][..memory.len()],
            &lent_intervals[MARGIN..][..intervals.len()],
            *limit,
            *first,
            &mut space[MARGIN..][..self.space_bytes],
        );
        Made { written, space, kept: lent == parts() }
    }
}

impl Made {
    /// What is otherwise, in the answer or in a byte that is lent or near it.
    fn difference(&self, wanted: Written, expected: &[u8]) -> Option<String> {
        if self.written != wanted {
            return Some(format!("{:?}, expected {wanted:?}", self.written));
        }
        if let Some(at) = (0..expected.len()).find(|&at| self.space[at] != expected[at]) {
            let (place, block) = (at as i64 - MARGIN as i64, BLOCK_BYTES as i64);
            let (block, word) = (place.div_euclid(block), place.rem_euclid(block) / 8);
            let (found, expected) = (self.space[at], expected[at]);
            return Some(format!(
                "byte {place} (block {block}, word {word}) is {found}, expected {expected}"
            ));
        }
        (!self.kept).then(|| "code, memory or intervals were changed".to_string())
    }
}

impl fmt::Display for Call<'_> {
    fn fmt(&self, f: &mut fmt::Formatter) -> fmt::Result {
        let Values { code, memory, intervals, limit, first } = self.values;
        let (code, words, given) = (code.len(), memory.len(), given(memory));
        write!(f, "{code} code words, {given} of {words} memory words to give, ")?;
        write!(f, "intervals {intervals:?}, limit {limit}, first path {first}, ")?;
        write!(f, "{} bytes of space", self.space_bytes)
    }
}

// ---------------------------------------------------------------------------------------------
// Values and their jobs.

/// What a job gives, with the memory words that it leaves out.
fn values_of(job: &Job) -> Values {
    let (code, memory) = (job.code.clone(), job.whole_memory());
    let (intervals, limit, first) = (flat(&job.intervals), job.limit, job.first);
    Values { code, memory, intervals, limit, first }
}

/// The words up to the last that is not 0.
fn given(memory: &[u64]) -> usize {
    memory.iter().rposition(|&word| word != 0).map_or(0, |last| last + 1)
}

/// The job of accepted values with so many memory words, as the tool writes it.
fn tool_job(values: &Values, given: usize) -> Vec<u8> {
    let (code, memory) = (values.code.clone(), values.memory[..given].to_vec());
    let intervals = values.intervals.chunks_exact(2).map(|pair| (pair[0], pair[1])).collect();
    Job { code, intervals, limit: values.limit, first: values.first, memory }.to_bytes()
}

/// The writer's form: no memory word is given behind the last that is not 0.
fn form(values: &Values) -> Vec<u8> {
    tool_job(values, given(&values.memory))
}

/// A header with these values, where one can say them: with whole pairs and 512 memory words.
fn header_of(values: &Values) -> Option<Vec<u8>> {
    let Values { code, memory, intervals, limit, first } = values;
    if intervals.len() % 2 != 0 || memory.len() != MEMORY_WORDS {
        return None;
    }
    let counts = [code.len() as u64, intervals.len() as u64 / 2];
    let mut words = vec![0; PAYLOAD_WORDS];
    words[..5].copy_from_slice(&[1, counts[0], counts[1], *limit, *first]);
    for (input, pair) in intervals.chunks_exact(2).take(MOST_INPUTS).enumerate() {
        (words[LOWS + input], words[HIGHS + input]) = (pair[0], pair[1]);
    }
    words[21] = given(memory) as u64;
    Some(to_bytes(&words))
}

/// Is a job that can be read in the writer's form?
fn is_form(bytes: &[u8]) -> bool {
    job::read(bytes).expect("a job").memory.last() != Some(&0)
}

// ---------------------------------------------------------------------------------------------
// The run.

type Run = runs::Run<Tally>;

/// How often each thing was seen.
#[derive(Default)]
struct Tally {
    inputs: [u64; MOST_INPUTS + 1],
    halves: [u64; 2],
    blocks: [u64; MOST_BLOCKS - 1],
    memory: [u64; 4],
    bounds: [u64; 6],
    places: [u64; 2],
    sizes: u64,
    lengths: [u64; 2],
    spaces: [u64; 6],
    long: u64,
    noes: [u64; QUESTIONS.len() + 2],
    headers: [u64; ALIKE.len()],
    numbers: [u64; 2],
    falling: u64,
    read: [u64; 2],
    forms: [u64; 2],
    small: [u64; 2],
    bits: [u64; 3],
    served: [u64; 4],
}

impl Test for Tally {
    const NUMBERS: &'static [u64] = &[0, 1, 2, 3, 4, 6, 8, SHORT_SPACE];

    fn seen(&self) -> Vec<Seen<'_>> {
        vec![
            ("jobs written with 0 to 8 inputs", &self.inputs),
            ("with an even and an odd number of code words", &self.halves),
            ("of 2 to 19 blocks", &self.blocks),
            ("giving no memory word, some, all, with 0 between them", &self.memory),
            ("with limits 1 and 65,536, first paths 0 and 2^32 - 1", &self.bounds[..4]),
            ("with ends 0 and MAX", &self.bounds[4..]),
            ("one memory word at each place, in its low and in its high half", &self.places),
            ("sizes of code, memory and intervals", std::slice::from_ref(&self.sizes)),
            ("numbers of code words up to 512 and above", &self.lengths),
            ("spaces of 0 bytes, a block less, a byte less", &self.spaces[..3]),
            ("exact ones, a byte more, many more", &self.spaces[3..]),
            ("of 2^16 bytes and more", std::slice::from_ref(&self.long)),
            ("sets of 0 to 7 noes", &self.noes),
            ("headers refused as the values, with 1, 2, 3, 4, 8 and 11", &self.headers),
            ("numbers and lengths accepted and refused", &self.numbers),
            ("lows above their highs", std::slice::from_ref(&self.falling)),
            ("jobs of programs and of any values read and written again", &self.read),
            ("the writer's form and other forms of a job", &self.forms),
            ("small jobs: meanings, and jobs in another form", &self.small),
            ("changed bits: in the writer's form, in another, unreadable", &self.bits),
            ("jobs served with no path on the page, one, several, with more to come", &self.served),
        ]
    }
}

impl Run {
    /// The number on which the library and the oracle must agree, and the bytes that the library
    /// writes.
    fn compare(&mut self, case: &str, call: &Call) -> (u64, Vec<u8>) {
        let came = any_room(&mut self.random, call.space_bytes);
        let mut expected = came.clone();
        let space = &mut expected[MARGIN..][..call.space_bytes];
        let (refused, bytes) = oracle::write_job(call.values, space);
        let made = call.make(&came);
        if let Some(text) = made.difference(Written { refused, bytes }, &expected) {
            self.fault(case, call, &text);
        }
        self.count_call(refused);
        if refused == 0 {
            self.count_values(call.values, bytes as usize);
        }
        (refused, made.space[MARGIN..][..bytes as usize].to_vec())
    }

    /// The number is known without the oracle.
    fn expect_number(&mut self, case: &str, call: &Call, number: u64) {
        let (found, _) = self.compare(case, call);
        self.require(case, call, found, Some(number));
    }

    /// The job is known without the oracle; gives back the library's.
    fn expect_job(&mut self, case: &str, call: &Call, known: &[u8]) -> Vec<u8> {
        let (number, job) = self.compare(case, call);
        self.require(case, call, number, Some(0));
        if job != known {
            self.fault(case, call, "the tool writes another job");
        }
        job
    }

    /// To a space of the job's length.
    fn write(&mut self, case: &str, values: &Values) -> Vec<u8> {
        let known = form(values);
        self.expect_job(case, &Call { values, space_bytes: known.len() }, &known)
    }

    fn count_values(&mut self, values: &Values, bytes: usize) {
        let Values { code, memory, intervals, limit, first } = values;
        let tally = &mut self.tally;
        tally.inputs[intervals.len() / 2] += 1;
        tally.halves[code.len() % 2] += 1;
        tally.blocks[bytes / BLOCK_BYTES - 2] += 1;
        let given = given(memory);
        tally.memory[(given > 0) as usize + (given == MEMORY_WORDS) as usize] += 1;
        tally.memory[3] += memory[..given].contains(&0) as u64;
        let bounds = [*limit == 1, *limit == MOST_STEPS, *first == 0, *first == PATH_NUMBERS - 1];
        let ends = [0, MAX].map(|end| intervals.contains(&end));
        for (count, seen) in tally.bounds.iter_mut().zip(bounds.into_iter().chain(ends)) {
            *count += seen as u64;
        }
    }
}

// ---------------------------------------------------------------------------------------------
// Jobs of programs and of any values, read and written again.

/// Words of 0 at the end, in the middle, anywhere or everywhere.
fn put_zeros(random: &mut Random, memory: &mut [u64]) {
    let (a, b) = (random.below(memory.len() + 1), random.below(memory.len() + 1));
    match random.below(6) {
        0 => memory.fill(0),
        1 => memory[a..].fill(0),
        2 => memory[a.min(b)..a.max(b)].fill(0),
        3 => memory.iter_mut().for_each(|word| *word *= random.below(2) as u64),
        4 => memory.iter_mut().for_each(|word| *word *= random.once_in(100) as u64),
        _ => {}
    }
}

fn any_word(random: &mut Random) -> u64 {
    let any = random.next();
    random.pick(&[0, 1, 1 << 32, 1 << 63, MAX, any])
}

fn any_values(random: &mut Random) -> Values {
    let (few, any) = (1 + random.below(9), 1 + random.below(MOST_CODE_WORDS));
    let words = random.pick(&[few, any, MOST_CODE_WORDS]);
    let code = (0..words).map(|_| any_word(random) as u32).collect();
    let mut memory: Vec<u64> = (0..MEMORY_WORDS).map(|_| any_word(random)).collect();
    put_zeros(random, &mut memory);
    let inputs = random.below(MOST_INPUTS + 1);
    let intervals = flat(&large_box(random, inputs));
    let (limit, first) = (random.between((1, MOST_STEPS)), random.next() % PATH_NUMBERS);
    let limit = random.pick(&[1, limit, MOST_STEPS]);
    Values { code, memory, intervals, limit, first: random.pick(&[0, first, PATH_NUMBERS - 1]) }
}

fn any_box(random: &mut Random) -> Vec<Interval> {
    let inputs = input_count(random);
    match random.once_in(2) {
        true => large_box(random, inputs),
        false => small_box(random, inputs, 1000),
    }
}

impl Run {
    fn random_jobs(&mut self) {
        for _ in 0..RANDOM_JOBS {
            let boxed = any_box(&mut self.random);
            let mut job = random_job(&mut self.random, boxed);
            put_zeros(&mut self.random, &mut job.memory);
            self.write_and_read("random job", &values_of(&job));
            self.tally.read[0] += 1;
            self.rewrite("a random job in any form", &job.to_bytes());
        }
        for _ in 0..ANY_JOBS {
            let values = any_values(&mut self.random);
            self.write_and_read("any values", &values);
            self.tally.read[1] += 1;
            self.any_form(&values);
        }
    }

    /// Both readers get back the values, and writing them again changes no byte.
    fn write_and_read(&mut self, case: &str, values: &Values) -> Vec<u8> {
        let written = self.write(case, values);
        let call = Call { values, space_bytes: written.len() };
        let tool = job::read(&written).map(|job| values_of(&job));
        match oracle::read_values(&written) {
            Ok(read) if read == *values && tool == Ok(read.clone()) => {
                if self.write(case, &read) != written {
                    self.fault(case, &call, "writing the job again changes it");
                }
            }
            _ => self.fault(case, &call, "a reader does not get back the values"),
        }
        written
    }

    /// With some memory words of 0 at the end, as other code writes them.
    fn any_form(&mut self, values: &Values) {
        let least = given(&values.memory);
        let given = least + self.random.below(MEMORY_WORDS + 1 - least);
        self.rewrite("any form", &tool_job(values, given));
    }

    /// Writing what is read from a job changes no byte exactly if it is in the writer's form. Gives
    /// what it means, and whether it is; nothing for a job that is refused.
    fn rewrite(&mut self, case: &str, job: &[u8]) -> Option<(Values, bool)> {
        let values = oracle::read_values(job).ok()?;
        let written = self.write(case, &values);
        let kept = written == job;
        if kept != is_form(job) {
            let call = Call { values: &values, space_bytes: written.len() };
            self.fault(case, &call, &format!("the job is written as it was: {kept}"));
        }
        self.tally.forms[!kept as usize] += 1;
        Some((values, kept))
    }
}

// ---------------------------------------------------------------------------------------------
// Every size.

/// Words of code and of memory, and the blocks that hold them.
const CODE_SIZES: [(usize, usize); 7] =
    [(1, 1), (2, 1), (125, 1), (126, 1), (127, 2), (1023, 9), (1024, 9)];
const MEMORY_SIZES: [(usize, usize); 9] =
    [(0, 0), (1, 1), (62, 1), (63, 1), (64, 2), (126, 2), (127, 3), (511, 9), (512, 9)];

/// Values with so many words; the last memory word is not 0, and some before it are.
fn sized(random: &mut Random, code_words: usize, memory_words: usize, inputs: usize) -> Values {
    let code = (0..code_words).map(|_| random.next() as u32).collect();
    let mut memory: Vec<u64> = (0..memory_words).map(|_| any_word(random)).collect();
    if let Some(last) = memory.last_mut() {
        *last = random.pick(&[1, 1 << 32, 1 << 63, MAX]);
    }
    memory.resize(MEMORY_WORDS, 0);
    let (limit, first) = (random.pick(&[1, 100, MOST_STEPS]), random.next() % PATH_NUMBERS);
    Values { code, memory, intervals: flat(&large_box(random, inputs)), limit, first }
}

impl Run {
    fn every_size(&mut self) {
        for (code_words, code_blocks) in CODE_SIZES {
            for (memory_words, memory_blocks) in MEMORY_SIZES {
                let bytes = BLOCK_BYTES * (1 + code_blocks + memory_blocks);
                for inputs in 0..=MOST_INPUTS {
                    let values = sized(&mut self.random, code_words, memory_words, inputs);
                    let job = self.write_and_read("a size", &values);
                    let call = Call { values: &values, space_bytes: bytes };
                    self.require("a size", &call, job.len(), Some(bytes));
                    self.spaces(&values, bytes);
                    self.tally.sizes += 1;
                }
            }
        }
    }

    /// Each number of code words; among them each number of memory words.
    fn every_length(&mut self) {
        for words in 1..=MOST_CODE_WORDS {
            let (memory_words, inputs) = (words % (MEMORY_WORDS + 1), words % (MOST_INPUTS + 1));
            let values = sized(&mut self.random, words, memory_words, inputs);
            self.write_and_read("a length", &values);
            self.tally.lengths[(words > MEMORY_WORDS) as usize] += 1;
        }
    }

    fn spaces(&mut self, values: &Values, exact: usize) {
        let known = form(values);
        let many = exact + 2 + self.random.below(MORE - 1);
        let lengths = [0, exact - BLOCK_BYTES, exact - 1, exact, exact + 1, many];
        for (kind, space_bytes) in lengths.into_iter().enumerate() {
            let call = Call { values, space_bytes };
            match space_bytes < exact {
                true => self.expect_number("a short space", &call, SHORT_SPACE),
                false => drop(self.expect_job("a space", &call, &known)),
            }
            self.tally.spaces[kind] += 1;
        }
    }

    /// Longer than two bytes can count, and in these as long as or shorter than the job.
    fn long_spaces(&mut self) {
        let mut values = three_blocks();
        values.memory[MEMORY_WORDS - 1] = 1;
        let known = form(&values);
        for more in [0, known.len() - 1, known.len(), 1 << 20] {
            let call = Call { values: &values, space_bytes: (1 << 16) + more };
            self.expect_job("a long space", &call, &known);
            self.tally.long += 1;
        }
    }

    fn every_place(&mut self) {
        let no_word = Values { memory: vec![0; MEMORY_WORDS], ..values_of(&job_a()) };
        self.write_and_read("no memory word", &no_word);
        for place in 0..MEMORY_WORDS {
            for (high, word) in [(0, 1), (0, 1 << 31), (1, 1 << 32), (1, 1 << 63)] {
                let mut values = no_word.clone();
                values.memory[place] = word;
                let job = self.write_and_read("one memory word", &values);
                let blocks = 2 + (place + 1).div_ceil(PAYLOAD_WORDS);
                let call = Call { values: &values, space_bytes: job.len() };
                self.require("one memory word", &call, job.len(), Some(BLOCK_BYTES * blocks));
                self.tally.places[high] += 1;
            }
        }
    }
}

// ---------------------------------------------------------------------------------------------
// Noes.

/// The numbers of the questions on the values, in their order.
const QUESTIONS: [u64; 6] = [1, 2, 3, 4, 6, 8];

/// The numbers that a header with such values is refused with; the last is of its form.
const ALIKE: [u64; 6] = [1, 2, 3, 4, 8, BAD_FORM];

/// The intervals of the job that gets a set of noes, and three with a low above its high.
const RISING: [u64; 6] = [0, 255, 3, 7, 4, 5];
const FALLING: [[u64; 6]; 3] = [[256, 255, 3, 7, 4, 5], [0, 255, 3, 7, 4, 3], [5, 4, 7, 3, 255, 0]];

/// A no to a question, by one of three causes.
fn put_no(values: &mut Values, question: u64, cause: usize) {
    match question {
        1 => values.code.resize([0, MOST_CODE_WORDS + 1, 4 * MOST_CODE_WORDS][cause], 7),
        2 => values.intervals.resize([5, 2 * MOST_INPUTS + 1, 2 * MOST_INPUTS + 2][cause], 9),
        3 => values.intervals = FALLING[cause].to_vec(),
        4 => values.limit = [0, MOST_STEPS + 1, MAX][cause],
        6 => values.memory.resize([0, MEMORY_WORDS - 1, MEMORY_WORDS + 1][cause], 0),
        _ => values.first = [PATH_NUMBERS, PATH_NUMBERS + 1, MAX][cause],
    }
}

/// Job A with two further inputs and two memory words: three blocks.
fn three_blocks() -> Values {
    let job = Job { memory: vec![0, 5], ..job_a() };
    Values { intervals: RISING.to_vec(), ..values_of(&job) }
}

/// With a number in place of the limit or the first path, or with so many words of a part.
fn with_number(part: u64, number: u64) -> Values {
    let (mut values, words) = (three_blocks(), number as usize);
    match part {
        1 => values.code.resize(words, 0xFFFF_FFFF),
        2 => values.intervals.resize(words, 9),
        4 => values.limit = number,
        6 => values.memory.resize(words, 0),
        _ => values.first = number,
    }
    values
}

/// Accepted and refused, by the number of the question; longer lists are short modulo 2^8 or 2^16.
const NUMBERS: [(u64, &[u64], &[u64]); 5] = [
    (1, &[1, 2, 1023, 1024], &[0, 1025, 1026, 4096, 65_537]),
    (2, &[0, 2, 4, 14, 16], &[1, 3, 15, 17, 18, 19, 20, 40, 256, 258, 65_538]),
    (4, &[1, 2, 65_535, 65_536], &[0, 65_537, 1 << 32, (1 << 32) + 1, 1 << 63, MAX - 1, MAX]),
    (6, &[512], &[0, 1, 2, 63, 256, 511, 513, 514, 576, 1024, 66_048]),
    (8, &[0, 1, (1 << 32) - 1], &[1 << 32, (1 << 32) + 1, 1 << 33, 1 << 63, MAX - 1, MAX]),
];

impl Run {
    /// Each question is answered by yes or by one of three noes; the first no decides.
    fn every_set_of_noes(&mut self) {
        let sets = 0..4_usize.pow(QUESTIONS.len() as u32);
        for (set, space) in sets.flat_map(|set| [0, 1, 2, 3].map(|space| (set, space))) {
            let cause = |place: usize| set >> (2 * place) & 3;
            let noes = (0..QUESTIONS.len()).filter(|&place| cause(place) > 0);
            let mut values = three_blocks();
            // a pair falls before the list is cut
            for place in noes.clone().rev() {
                put_no(&mut values, QUESTIONS[place], cause(place) - 1);
            }
            let short = (space > 0).then_some(SHORT_SPACE);
            let first = noes.clone().next().map(|place| QUESTIONS[place]).or(short);
            let exact = 3 * BLOCK_BYTES;
            let space_bytes = [exact, exact - 1, exact - BLOCK_BYTES, 0][space];
            let call = Call { values: &values, space_bytes };
            self.expect_number("a set of noes", &call, first.unwrap_or(0));
            if let Some(header) = header_of(&values).filter(|_| space == 0) {
                // with no block behind it, its form is wrong where no question refuses it
                self.expect_refusal(&call, &header, first.unwrap_or(BAD_FORM));
            }
            self.tally.noes[noes.count() + (space > 0) as usize] += 1;
        }
    }

    /// The reader's first no on a header must be the writer's on its values.
    fn expect_refusal(&mut self, call: &Call, header: &[u8], number: u64) {
        let reply = library::serve(header, &mut vec![0; path_bytes(MOST_INPUTS)]);
        let read = oracle::read_values(header).map(|_| ());
        self.require("a header", call, (reply.refused, read), Some((number, Err(number))));
        let place = ALIKE.iter().position(|&each| each == number).expect("a number of a header");
        self.tally.headers[place] += 1;
    }

    fn every_number(&mut self) {
        for (part, accepted, refused) in NUMBERS {
            for &number in accepted {
                self.write_and_read("a number", &with_number(part, number));
                self.tally.numbers[0] += 1;
            }
            for &number in refused {
                let values = with_number(part, number);
                let call = Call { values: &values, space_bytes: MOST_BLOCKS * BLOCK_BYTES };
                self.expect_number("a wrong number", &call, part);
                self.tally.numbers[1] += 1;
            }
        }
    }

    /// In each interval of each input count, by each of some distances.
    fn every_falling_interval(&mut self) {
        let wrong = [[1, 0], [MAX, 0], [MAX, MAX - 1], [1 << 63, (1 << 63) - 1], [1 << 32, 1]];
        for inputs in 1..=MOST_INPUTS {
            for (input, pair) in (0..inputs).flat_map(|input| wrong.map(|pair| (input, pair))) {
                let mut values = with_number(2, 2 * inputs as u64);
                let ends = values.intervals.chunks_exact_mut(2).nth(input).expect("an input");
                ends.copy_from_slice(&pair);
                let call = Call { values: &values, space_bytes: MOST_BLOCKS * BLOCK_BYTES };
                self.expect_number("a low above its high", &call, 3);
                values.intervals.chunks_exact_mut(2).for_each(|ends| ends[0] = ends[1]);
                self.write("lows at their highs", &values);
                self.tally.falling += 1;
            }
        }
    }
}

// ---------------------------------------------------------------------------------------------
// Jobs that mean the same.

/// Every job of few words, all of them 0 or 1, with some intervals, limits and first paths.
fn small_jobs() -> Vec<Job> {
    let boxes: [&[Interval]; 4] = [&[], &[(0, 0)], &[(0, 1)], &[(0, 0), (0, 0)]];
    let numbers = [[1, 0], [2, 0], [1, 1], [2, 1]];
    let mut jobs = Vec::new();
    for (code, memory) in small_words() {
        for (boxed, [limit, first]) in boxes.iter().flat_map(|each| numbers.map(|two| (each, two)))
        {
            let (code, intervals, memory) = (code.clone(), boxed.to_vec(), memory.clone());
            jobs.push(Job { code, intervals, limit, first, memory });
        }
    }
    jobs
}

/// One to three words of code with up to four of memory.
fn small_words() -> Vec<(Vec<u32>, Vec<u64>)> {
    let mut all = Vec::new();
    for (code, memory) in (1..=3).flat_map(|code| (0..=4).map(move |memory| (code, memory))) {
        for set in 0..1_u64 << (code + memory) {
            let bit = |place: usize| set >> place & 1;
            let words = (0..code).map(|place| bit(place) as u32).collect();
            all.push((words, (code..code + memory).map(bit).collect()));
        }
    }
    all
}

impl Run {
    /// From the writer's form to the one that gives all memory words.
    fn every_form(&mut self) {
        for words in [0, 1, 62, 63, 64, 300, 511, 512] {
            let values = sized(&mut self.random, 3, words, 2);
            for given in words..=MEMORY_WORDS {
                let found = self.rewrite("a form", &tool_job(&values, given));
                let call = Call { values: &values, space_bytes: 0 };
                self.require("a form", &call, found, Some(Some((values.clone(), given == words))));
            }
        }
    }

    /// Of all that mean the same, exactly one is in the writer's form.
    fn every_small_job(&mut self) {
        let mut meanings: BTreeMap<Values, [u64; 2]> = BTreeMap::new();
        for job in small_jobs() {
            let (values, kept) = self.rewrite("a small job", &job.to_bytes()).expect("a job");
            meanings.entry(values).or_default()[!kept as usize] += 1;
        }
        for (values, [forms, others]) in &meanings {
            if *forms != 1 {
                let call = Call { values, space_bytes: 0 };
                self.fault("small jobs", &call, &format!("{forms} are in the writer's form"));
            }
            self.tally.small[0] += 1;
            self.tally.small[1] += others;
        }
    }

    /// Of those that differ from a job in one bit, no two in the writer's form mean the same.
    fn every_changed_bit(&mut self) {
        for memory in [vec![5, 0, 6], vec![5, 0, 0]] {
            let job = Job { memory, ..job_a() }.to_bytes();
            let mut meanings = BTreeMap::new();
            for (place, bytes) in job.chunks(8).enumerate() {
                for bit in (0..64).filter(|_| place % BLOCK_WORDS < PAYLOAD_WORDS) {
                    self.change_bit(&with_word(&job, place, word(bytes) ^ 1 << bit), &mut meanings);
                }
            }
        }
    }

    fn change_bit(&mut self, job: &[u8], meanings: &mut BTreeMap<Values, Vec<u8>>) {
        let Some((values, kept)) = self.rewrite("a changed bit", job) else {
            self.tally.bits[2] += 1;
            return;
        };
        self.tally.bits[!kept as usize] += 1;
        if kept && meanings.insert(values.clone(), job.to_vec()).is_some() {
            let call = Call { values: &values, space_bytes: job.len() };
            self.fault("a changed bit", &call, "two jobs in the writer's form mean the same");
        }
    }
}

// ---------------------------------------------------------------------------------------------
// Written jobs served.

impl Run {
    fn served_jobs(&mut self) {
        for _ in 0..SERVED_JOBS {
            let boxed = any_box(&mut self.random);
            let values = values_of(&random_job(&mut self.random, boxed));
            let job = self.write("a job to serve", &values);
            let paths = self.random.pick(&[1, 2, 5, USUAL_PAGE_PATHS]);
            self.serve(&values, &job, paths * path_bytes(values.intervals.len() / 2));
        }
    }

    /// As the values are explored with the program's table, in the answer and in the report.
    fn serve(&mut self, values: &Values, job: &[u8], report_bytes: usize) {
        let Values { code, memory, intervals, limit, first } = values;
        let mut served = any_room(&mut self.random, report_bytes);
        let mut explored = served.clone();
        let reply = library::serve(job, &mut served[MARGIN..][..report_bytes]);
        let (table, report) =
            (&mut [0; USUAL_TABLE_WORDS], &mut explored[MARGIN..][..report_bytes]);
        let wanted = library::explore(code, memory, intervals, *limit, table, report, *first);
        if reply != wanted || served != explored {
            let call = Call { values, space_bytes: job.len() };
            self.fault("served", &call, &format!("{reply:?}, expected {wanted:?}"));
        }
        self.tally.served[wanted.count.min(2) as usize] += 1;
        self.tally.served[3] += wanted.more;
    }
}

fn main() {
    let mut run = Run::start("write_test");
    run.random_jobs();
    run.every_size();
    run.every_length();
    run.long_spaces();
    run.every_place();
    run.every_set_of_noes();
    run.every_number();
    run.every_falling_interval();
    run.every_form();
    run.every_small_job();
    run.every_changed_bit();
    run.served_jobs();
    run.finish()
}
