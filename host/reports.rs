//! What the tests of calls that read a report share: our own reports of random programs, foreign
//! reports, and reports damaged in each way that question 12 asks about.

use crate::library;
use crate::programs::{large_box, memory_for, program, small_box};
use crate::runs::{flip, Run, Seen, Test};
use formats::blocks::{flat, to_bytes, Interval, HIGHS, LOWS};
use formats::limits::{
    path_bytes, BLOCK_BYTES, MOST_INPUTS, PAYLOAD_WORDS, USUAL_PAGE_PATHS, USUAL_TABLE_WORDS,
};
use formats::random::Random;

/// Programs tried, on average, before one with a single path is taken.
const TRIES: usize = 50;
pub const MOST_PATHS: usize = 200;
const TWO_BITS: usize = 2000;
const NOISE: usize = 300;

// Words of a record, beside the lows and highs.
pub const NUMBER: usize = 0;
const INPUT_COUNT: usize = 4;

/// A test whose call reads a report.
pub trait ReportTest: Test {
    fn damage(&mut self) -> &mut Damage;

    /// Lends a report to the call; `readable` is the answer to question 12 where it is known without
    /// the oracle. Says whether the oracle finds the report readable.
    fn lend(
        run: &mut Run<Self>,
        case: &str,
        inputs: u64,
        report: &[u8],
        readable: Option<bool>,
    ) -> bool;
}

// ---------------------------------------------------------------------------------------------
// Own reports.

/// A starting box and the complete report of a random program on it, as a rule with several paths.
pub fn own_report(random: &mut Random, inputs: usize) -> (Vec<Interval>, Vec<u8>) {
    loop {
        let start = match random.once_in(2) {
            true => large_box(random, inputs),
            false => small_box(random, inputs, 1000),
        };
        let report = explored(random, &start);
        if report.len() > path_bytes(inputs) || random.once_in(TRIES) {
            return (start, report);
        }
    }
}

/// A random program explored whole; while its paths do not fit, it gets half of its steps.
fn explored(random: &mut Random, boxed: &[Interval]) -> Vec<u8> {
    let (code, memory) = (program(random, boxed.len()), memory_for(random, boxed));
    let (intervals, size) = (flat(boxed), path_bytes(boxed.len()));
    let mut table = vec![0; USUAL_TABLE_WORDS];
    let mut report = vec![0; MOST_PATHS * size];
    let mut limit = 400;
    loop {
        let reply = library::explore(&code, &memory, &intervals, limit, &mut table, &mut report, 0);
        assert_eq!(reply.refused, 0, "a random program is accepted");
        if reply.more == 0 {
            report.truncate(reply.count as usize * size);
            return report;
        }
        limit /= 2;
    }
}

// ---------------------------------------------------------------------------------------------
// Foreign reports.

/// Boxes, and records with them; the payloads of a record's two blocks stand in one list.
pub struct Foreign {
    pub inputs: usize,
    pub boxes: Vec<Vec<Interval>>,
    pub records: Vec<Vec<u64>>,
}

pub fn foreign(random: &mut Random, inputs: usize, count: usize) -> Foreign {
    let boxes: Vec<Vec<Interval>> = (0..count).map(|_| foreign_box(random, inputs)).collect();
    let mut records = Vec::new();
    for (place, boxed) in boxes.iter().enumerate() {
        let (place, wild) = (place as u64, random.next());
        let number = random.pick(&[place, place + 1, 0, u64::MAX, u64::MAX - 1, wild]);
        records.push(record(random, inputs as u64, number, boxed));
    }
    Foreign { inputs, boxes, records }
}

/// With more inputs more of them are open, so that boxes overlap.
fn foreign_box(random: &mut Random, inputs: usize) -> Vec<Interval> {
    let interval = |_| match random.once_in(1 + inputs / 2) {
        true => foreign_interval(random),
        false => (0, u64::MAX),
    };
    (0..inputs).map(interval).collect()
}

/// Ends that occur often; at times the low is above the high.
fn foreign_interval(random: &mut Random) -> Interval {
    let wild = random.next();
    let ends = [0, 0, 1, 9, 10, 11, 1 << 63, u64::MAX - 1, u64::MAX, u64::MAX, wild];
    let (a, b) = (random.pick(&ends), random.pick(&ends));
    match random.once_in(16) {
        true => (a.max(b), a.min(b)),
        false => (a.min(b), a.max(b)),
    }
}

/// The words that are not given hold anything.
pub fn record(random: &mut Random, inputs: u64, number: u64, boxed: &[Interval]) -> Vec<u64> {
    let mut words: Vec<u64> = (0..2 * PAYLOAD_WORDS).map(|_| random.next()).collect();
    (words[NUMBER], words[INPUT_COUNT]) = (number, inputs);
    for (input, &ends) in boxed.iter().enumerate() {
        (words[LOWS + input], words[HIGHS + input]) = ends;
    }
    words
}

pub fn report_of(records: &[Vec<u64>]) -> Vec<u8> {
    records.iter().flat_map(|words| to_bytes(words)).collect()
}

// ---------------------------------------------------------------------------------------------
// Damaged reports.

/// How often a report was lent that is damaged, or nearly.
#[derive(Default)]
pub struct Damage {
    bytes: [u64; 4],
    two_bits: [u64; 2],
    repaired: [u64; 2],
    counts: [u64; 3],
}

impl Damage {
    pub fn seen(&self) -> [Seen<'_>; 4] {
        [
            ("flipped bits, last checks, lengths cut to, noise", &self.bytes),
            ("reports with two flipped bits, unreadable and readable", &self.two_bits),
            ("changed and with a right check: word 4, any other", &self.repaired),
            ("input counts with no record, their own, another's", &self.counts),
        ]
    }
}

fn is_count(inputs: u64) -> bool {
    (1..=MOST_INPUTS as u64).contains(&inputs)
}

impl<T: ReportTest> Run<T> {
    pub fn damaged_reports(&mut self) {
        for (inputs, count) in [(1, 1), (2, 3), (8, 1), (5, 3)] {
            let foreign = foreign(&mut self.random, inputs, count);
            self.flip_each_bit(&foreign);
            self.flip_two_bits(&foreign);
            self.cut_to_each_length(&foreign);
            self.change_input_counts(&foreign);
            self.change_other_words(&foreign);
        }
        self.spoil_last_checks();
        self.noise();
        self.input_counts();
    }

    fn unreadable(&mut self, case: &str, inputs: u64, report: &[u8]) {
        T::lend(self, case, inputs, report, Some(false));
    }

    /// One word of a block is changed, so its check does not agree; not with the count that a
    /// flipped bit leaves in word 4 either.
    fn flip_each_bit(&mut self, foreign: &Foreign) {
        let mut report = report_of(&foreign.records);
        let counts = [foreign.inputs as u64, foreign.inputs as u64 ^ 2];
        for bit in 0..8 * report.len() {
            flip(&mut report, bit);
            for asked in counts {
                self.unreadable("a flipped bit", asked, &report);
                self.tally.damage().bytes[0] += 1;
            }
            flip(&mut report, bit);
        }
    }

    /// Anywhere, or with the next word's next bit: there the two changes of the check can cancel.
    fn flip_two_bits(&mut self, foreign: &Foreign) {
        let mut report = report_of(&foreign.records);
        for _ in 0..TWO_BITS {
            let first = self.random.below(8 * report.len() - 65);
            let anywhere = first + 1 + self.random.below(8 * report.len() - first - 1);
            let bits = [first, self.random.pick(&[first + 65, anywhere])];
            bits.iter().for_each(|&bit| flip(&mut report, bit));
            let readable = T::lend(self, "two flipped bits", foreign.inputs as u64, &report, None);
            bits.iter().for_each(|&bit| flip(&mut report, bit));
            self.tally.damage().two_bits[readable as usize] += 1;
        }
    }

    fn cut_to_each_length(&mut self, foreign: &Foreign) {
        let (report, inputs) = (report_of(&foreign.records), foreign.inputs as u64);
        for asked in [inputs - 1, inputs, inputs + 1] {
            for length in 0..=report.len() {
                let whole = length % path_bytes(foreign.inputs) == 0;
                let readable = is_count(asked) && whole && (asked == inputs || length == 0);
                T::lend(self, "cut to a length", asked, &report[..length], Some(readable));
                self.tally.damage().bytes[2] += 1;
            }
        }
    }

    /// Another count in word 4 of one record, which then is the count asked for or is not.
    fn change_input_counts(&mut self, foreign: &Foreign) {
        for place in 0..foreign.records.len() {
            for bit in 0..u64::BITS {
                let mut records = foreign.records.clone();
                records[place][INPUT_COUNT] ^= 1 << bit;
                let (report, count) = (report_of(&records), records[place][INPUT_COUNT]);
                self.unreadable("word 4", foreign.inputs as u64, &report);
                T::lend(self, "word 4", count, &report, None);
                self.tally.damage().repaired[0] += 1;
            }
        }
    }

    /// Nothing is asked of the other words.
    fn change_other_words(&mut self, foreign: &Foreign) {
        for place in 0..foreign.records.len() {
            for word in (0..2 * PAYLOAD_WORDS).filter(|&word| word != INPUT_COUNT) {
                let mut records = foreign.records.clone();
                records[place][word] ^= 1 << self.random.below(64);
                let report = report_of(&records);
                T::lend(self, "another word", foreign.inputs as u64, &report, Some(true));
                self.tally.damage().repaired[1] += 1;
            }
        }
    }

    /// Each bit of the last two checks of a page, the one block's and then the other's.
    fn spoil_last_checks(&mut self) {
        let foreign = foreign(&mut self.random, 3, USUAL_PAGE_PATHS);
        let mut report = report_of(&foreign.records);
        for end in [report.len() - BLOCK_BYTES, report.len()] {
            for bit in 8 * end - 64..8 * end {
                flip(&mut report, bit);
                self.unreadable("a last check", 3, &report);
                flip(&mut report, bit);
                self.tally.damage().bytes[1] += 1;
            }
        }
    }

    fn noise(&mut self) {
        for _ in 0..NOISE {
            let inputs = 1 + self.random.below(MOST_INPUTS);
            let rest = self.random.pick(&[0, 0, 1, BLOCK_BYTES]);
            let length = (1 + self.random.below(4)) * path_bytes(inputs) + rest;
            let report = self.random.bytes(length);
            self.unreadable("noise", inputs as u64, &report);
            self.tally.damage().bytes[3] += 1;
        }
    }

    /// With records of the count asked for, with records of each other count, and with none.
    fn input_counts(&mut self) {
        let half = 1 << 32;
        let large = [half, half + 1, half + 8, 1 << 63, (1 << 63) + 1, u64::MAX];
        for asked in (0..=10).chain(large) {
            let readable = Some(is_count(asked));
            T::lend(self, "no record", asked, &[], readable);
            self.tally.damage().counts[0] += 1;
            let whole = [(0, u64::MAX); MOST_INPUTS];
            let record = record(&mut self.random, asked, 7, &whole);
            let report = report_of(&[record.clone(), record]);
            T::lend(self, "its records", asked, &report, readable);
            self.tally.damage().counts[1] += 1;
            for inputs in (1..=MOST_INPUTS).filter(|&inputs| inputs as u64 != asked) {
                let report = report_of(&foreign(&mut self.random, inputs, 2).records);
                self.unreadable("another's records", asked, &report);
                self.tally.damage().counts[2] += 1;
            }
        }
    }
}
