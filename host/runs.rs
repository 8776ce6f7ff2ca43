//! What the tests of calls share: a run with its seed and counts, margins around what is lent, and
//! changed blocks.

#![allow(dead_code)] // a test uses a part of it

use formats::blocks::{payload, to_bytes};
use formats::limits::{BLOCK_BYTES, BLOCK_WORDS};
use formats::random::Random;
use std::fmt::{Debug, Display};

const FIRST_SEED: u64 = 1;
const SHOWN_FAILURES: u64 = 3;
/// Elements before and after each lent list, to see that nothing beyond it is written; an odd
/// number, so that bytes are aligned for no word.
pub const MARGIN: usize = 13;
pub const FILL: u64 = 0xA5A5_A5A5_A5A5_A5A5;

pub fn with_margins<T: Copy>(list: &[T], fill: T) -> Vec<T> {
    [&[fill; MARGIN][..], list, &[fill; MARGIN]].concat()
}

/// Room for so many bytes, with its margins, as it comes: any bytes, so that one that is written shows.
pub fn any_room(random: &mut Random, bytes: usize) -> Vec<u8> {
    let length = MARGIN + bytes + MARGIN;
    let mut room: Vec<u8> =
        (0..length.div_ceil(8)).flat_map(|_| random.next().to_le_bytes()).collect();
    room.truncate(length);
    room
}

/// The job with another word, and a right check.
pub fn with_word(job: &[u8], place: usize, value: u64) -> Vec<u8> {
    let block = place / BLOCK_WORDS * BLOCK_BYTES..(place / BLOCK_WORDS + 1) * BLOCK_BYTES;
    let mut words = payload(&job[block.clone()]).expect("a block of a job");
    words[place % BLOCK_WORDS] = value;
    let mut changed = job.to_vec();
    changed[block].copy_from_slice(&to_bytes(&words));
    changed
}

pub fn flip(bytes: &mut [u8], bit: usize) {
    bytes[bit / 8] ^= 1 << (bit % 8);
}

/// How often each of several things was seen, and what they are.
pub type Seen<'a> = (&'a str, &'a [u64]);

/// The counts that a test has of its own.
pub trait Test: Default {
    /// What a call answers: 0, and the numbers of its refusals.
    const NUMBERS: &'static [u64];

    fn seen(&self) -> Vec<Seen<'_>>;
}

pub struct Run<T> {
    pub random: Random,
    pub tally: T,
    numbers: Vec<u64>,
    seed: u64,
    differ: u64,
}

impl<T: Test> Run<T> {
    /// With the seed that the program is given, or with the first.
    pub fn start(program: &str) -> Run<T> {
        let arguments: Vec<String> = std::env::args().skip(1).collect();
        let seed = match &arguments[..] {
            [] => Some(FIRST_SEED),
            [seed] => seed.parse().ok(),
            _ => None,
        };
        let seed = seed.unwrap_or_else(|| {
            eprintln!("usage: {program} [SEED]");
            std::process::exit(2)
        });
        let numbers = vec![0; T::NUMBERS.len()];
        Run { random: Random(seed), tally: T::default(), numbers, seed, differ: 0 }
    }

    /// A call that the oracle answers by this number.
    pub fn count_call(&mut self, number: u64) {
        let place = T::NUMBERS.iter().position(|&each| each == number);
        self.numbers[place.expect("a number of the call")] += 1;
    }

    pub fn fault(&mut self, case: &str, call: &dyn Display, text: &str) {
        self.differ += 1;
        if self.differ <= SHOWN_FAILURES {
            println!("{case}: {call}: {text}");
        }
    }

    /// What the oracle found must be what is `known` without it, where that is.
    pub fn require<A>(&mut self, case: &str, call: &dyn Display, found: A, known: Option<A>)
    where
        A: Debug + PartialEq,
    {
        if let Some(known) = known.filter(|known| *known != found) {
            self.fault(case, call, &format!("the oracle gives {found:?}, expected {known:?}"));
        }
    }

    /// Ends the program, with 1 if a call differs or if something was never seen.
    pub fn finish(self) -> ! {
        let numbers: Vec<String> = T::NUMBERS.iter().map(u64::to_string).collect();
        let (last, others) = numbers.split_last().expect("a call has an answer");
        let answered = format!("calls answered by {} and {last}", others.join(", "));
        let calls: [Seen; 1] = [(&answered, &self.numbers)];
        let seen = [&calls[..], &self.tally.seen()].concat();
        seen.iter().for_each(|(name, counts)| println!("{name}: {counts:?}"));
        let unseen = seen.iter().any(|(_, counts)| counts.contains(&0));
        if unseen {
            println!("one of these was never seen");
        }
        let calls: u64 = self.numbers.iter().sum();
        println!("{calls} calls with seed {}, {} differ", self.seed, self.differ);
        std::process::exit((self.differ > 0 || unseen) as i32)
    }
}
