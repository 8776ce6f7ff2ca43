//! A job and its blocks: a header, the code with two words to a payload word, then memory words.

use crate::blocks::{intervals, payload, to_bytes, Interval, HIGHS, LOWS};
use crate::limits::{
    BLOCK_BYTES, MEMORY_WORDS, MOST_BLOCKS, MOST_CODE_WORDS, MOST_INPUTS, MOST_STEPS, PATH_NUMBERS,
    PAYLOAD_WORDS,
};

// Refusals that a job has beyond those of a call.
const NOT_WHOLE_BLOCKS: u64 = 9;
const WRONG_CHECK: u64 = 10;
const WRONG_FORM: u64 = 11;

/// What word 0 of a header holds.
const MARK: u64 = 1;

// The header's words, beside the lows and highs.
const CODE_COUNT: usize = 1;
const INPUT_COUNT: usize = 2;
const LIMIT: usize = 3;
const FIRST: usize = 4;
const MEMORY_COUNT: usize = 21;

#[derive(Clone, Debug, PartialEq, Eq)]
pub struct Job {
    pub code: Vec<u32>,
    pub intervals: Vec<Interval>,
    pub limit: u64,
    pub first: u64,
    /// The memory words given; the rest are 0.
    pub memory: Vec<u64>,
}

impl Job {
    /// With every memory word given: `read` compares with it, and tests make jobs that the library never writes.
    pub fn to_bytes(&self) -> Vec<u8> {
        [to_bytes(&self.header()), to_bytes(&self.code_pairs()), to_bytes(&self.memory)].concat()
    }

    fn header(&self) -> [u64; PAYLOAD_WORDS] {
        let mut header = [0; PAYLOAD_WORDS];
        header[0] = MARK;
        header[CODE_COUNT] = self.code.len() as u64;
        header[INPUT_COUNT] = self.intervals.len() as u64;
        header[LIMIT] = self.limit;
        header[FIRST] = self.first;
        for (input, &(low, high)) in self.intervals.iter().enumerate() {
            header[LOWS + input] = low;
            header[HIGHS + input] = high;
        }
        header[MEMORY_COUNT] = self.memory.len() as u64;
        header
    }

    fn code_pairs(&self) -> Vec<u64> {
        let pair = |words: &[u32]| words.iter().rev().fold(0, |all, &word| all << 32 | word as u64);
        self.code.chunks(2).map(pair).collect()
    }

    /// Without the words at the end of memory that are given as 0.
    pub fn without_zeros(&self) -> Job {
        let needed = self.memory.iter().rposition(|&word| word != 0).map_or(0, |last| last + 1);
        Job { memory: self.memory[..needed].to_vec(), ..self.clone() }
    }

    /// With the words that are not given.
    pub fn whole_memory(&self) -> Vec<u64> {
        let mut memory = self.memory.clone();
        memory.resize(MEMORY_WORDS, 0);
        memory
    }
}

/// Reads a job, or gives the number of the first question that is answered by no.
pub fn read(bytes: &[u8]) -> Result<Job, u64> {
    let payloads = payloads(bytes)?;
    let header = &payloads[0];
    if let Some(number) = header_refusal(header) {
        return Err(number);
    }
    let job = job_of(header, &payloads[1..]);
    // a `Job` has one set of bytes: where word 0, the block count or an unused word differs, so do they
    if job.to_bytes() == bytes {
        Ok(job)
    } else {
        Err(WRONG_FORM)
    }
}

/// One payload at least.
fn payloads(bytes: &[u8]) -> Result<Vec<Vec<u64>>, u64> {
    let count = bytes.len() / BLOCK_BYTES;
    if bytes.len() % BLOCK_BYTES != 0 || !(1..=MOST_BLOCKS).contains(&count) {
        return Err(NOT_WHOLE_BLOCKS);
    }
    let payloads: Option<Vec<Vec<u64>>> = bytes.chunks(BLOCK_BYTES).map(payload).collect();
    payloads.ok_or(WRONG_CHECK)
}

/// The call's questions that the header answers, in their order.
fn header_refusal(header: &[u64]) -> Option<u64> {
    let inputs = header[INPUT_COUNT].min(MOST_INPUTS as u64) as usize;
    let rises = |(low, high): Interval| low <= high;
    let questions = [
        (1, (1..=MOST_CODE_WORDS as u64).contains(&header[CODE_COUNT])),
        (2, header[INPUT_COUNT] <= MOST_INPUTS as u64),
        (3, intervals(header, inputs).into_iter().all(rises)),
        (4, (1..=MOST_STEPS).contains(&header[LIMIT])),
        (6, header[MEMORY_COUNT] <= MEMORY_WORDS as u64),
        (8, header[FIRST] < PATH_NUMBERS),
    ];
    questions.iter().find(|(_, yes)| !yes).map(|&(number, _)| number)
}

/// What the blocks say under an agreed header; words of missing blocks are left out.
fn job_of(header: &[u64], rest: &[Vec<u64>]) -> Job {
    let code_count = header[CODE_COUNT] as usize;
    let code_blocks = code_count.div_ceil(2 * PAYLOAD_WORDS);
    let (code, memory) = rest.split_at(code_blocks.min(rest.len()));
    let halves = |&word: &u64| [word as u32, (word >> 32) as u32];
    Job {
        code: code.iter().flatten().flat_map(halves).take(code_count).collect(),
        intervals: intervals(header, header[INPUT_COUNT] as usize),
        limit: header[LIMIT],
        first: header[FIRST],
        memory: memory.iter().flatten().copied().take(header[MEMORY_COUNT] as usize).collect(),
    }
}

/// Any job that is accepted.
#[cfg(test)]
pub fn random_job(random: &mut crate::random::Random) -> Job {
    let inputs = random.below(MOST_INPUTS + 1);
    Job {
        intervals: (0..inputs).map(|_| random.next()).map(|low| (low, low | 7)).collect(),
        code: (0..1 + random.below(MOST_CODE_WORDS)).map(|_| random.next() as u32).collect(),
        limit: 1 + random.below(MOST_STEPS as usize) as u64,
        first: random.next() % PATH_NUMBERS,
        memory: (0..random.below(MEMORY_WORDS + 1)).map(|_| random.next()).collect(),
    }
}

#[cfg(test)]
mod tests {
    use super::*;
    use crate::assembler::job_a;
    use crate::blocks::check;
    use crate::random::Random;

    /// Job A's payloads with every word put in its place by hand.
    fn payloads_of_a() -> [[u64; PAYLOAD_WORDS]; 2] {
        let mut payloads = [[0; PAYLOAD_WORDS]; 2];
        payloads[0][..5].copy_from_slice(&[1, 8, 1, 100, 0]);
        payloads[0][13] = 255;
        for (place, &word) in job_a().code.iter().enumerate() {
            payloads[1][place / 2] += (word as u64) << (32 * (place % 2));
        }
        payloads
    }

    fn bytes_of(payloads: &[[u64; PAYLOAD_WORDS]]) -> Vec<u8> {
        let words = payloads.iter().flat_map(|payload| [&payload[..], &[check(payload)]].concat());
        words.flat_map(|word| word.to_le_bytes()).collect()
    }

    fn header_with(word: usize, value: u64) -> Result<Job, u64> {
        let mut payloads = payloads_of_a();
        payloads[0][word] = value;
        read(&bytes_of(&payloads))
    }

    #[test]
    fn the_words_of_a_header_have_their_places() {
        let job = Job { intervals: vec![(7, 8), (9, 10)], first: 3, memory: vec![5; 4], ..job_a() };
        let mut header = [0; PAYLOAD_WORDS];
        header[..7].copy_from_slice(&[1, 8, 2, 100, 3, 7, 9]);
        header[13..15].copy_from_slice(&[8, 10]);
        header[21] = 4;
        assert_eq!(job.header(), header);
    }

    #[test]
    fn job_a_is_two_blocks() {
        assert_eq!(job_a().to_bytes(), bytes_of(&payloads_of_a()));
        assert_eq!(read(&bytes_of(&payloads_of_a())), Ok(job_a()));
    }

    #[test]
    fn jobs_come_back_from_their_blocks() {
        let mut random = Random(1);
        for _ in 0..200 {
            let job = random_job(&mut random);
            assert_eq!(read(&job.to_bytes()), Ok(job));
        }
    }

    #[test]
    fn zeros_at_the_end_of_memory_need_not_be_given() {
        let needed = |memory: &[u64]| {
            let job = Job { memory: memory.to_vec(), ..job_a() };
            assert_eq!(job.whole_memory(), job.without_zeros().whole_memory());
            job.without_zeros().memory
        };
        assert_eq!([needed(&[]), needed(&[0]), needed(&[0; 512])], [[0; 0]; 3]);
        assert_eq!([needed(&[0, 7]), needed(&[0, 7, 0, 0])], [[0, 7]; 2]);
    }

    #[test]
    fn the_largest_job_has_19_blocks() {
        let (code, memory) = (vec![115; 1024], vec![u64::MAX; 512]);
        let job = Job { code, intervals: vec![(0, u64::MAX); 8], limit: 65_536, first: 0, memory };
        assert_eq!(job.to_bytes().len(), 19 * 512);
        assert_eq!(read(&job.to_bytes()), Ok(job.clone()));
        // one block more is not asked about its form
        assert_eq!(read(&[job.to_bytes(), to_bytes(&[0])].concat()), Err(9));
    }

    #[test]
    fn each_flipped_bit_alone_is_refused_with_10() {
        let bytes = job_a().to_bytes();
        for bit in 0..8 * bytes.len() {
            let mut bytes = bytes.clone();
            bytes[bit / 8] ^= 1 << (bit % 8);
            assert_eq!(read(&bytes), Err(10), "bit {bit}");
        }
    }

    /// The number document 01 gives Job A with this bit of a header word flipped, 0 for a listing.
    fn number_of_flip(word: usize, bit: u32) -> u64 {
        let value = payloads_of_a()[0][word] ^ 1 << bit;
        match word {
            1 if !(1..=1024).contains(&value) => 1,
            2 if value > 8 => 2,
            5 if value > 255 => 3,
            3 if !(1..=65_536).contains(&value) => 4,
            21 if value > 512 => 6,
            4 if value >= 1 << 32 => 8,
            // a block has room for 126 code words
            1 if value > 126 => 11,
            // no input leaves the high 255 unused; further inputs are 0..0
            2 if value == 0 => 11,
            1..=5 | 13 => 0,
            // word 0, unused words, and memory words without their blocks
            _ => 11,
        }
    }

    #[test]
    fn each_flipped_bit_with_a_new_check_has_document_01s_number() {
        for (word, bit) in (0..PAYLOAD_WORDS).flat_map(|word| (0..64).map(move |bit| (word, bit))) {
            let mut payloads = payloads_of_a();
            payloads[0][word] ^= 1 << bit;
            let number = read(&bytes_of(&payloads)).err().unwrap_or(0);
            assert_eq!(number, number_of_flip(word, bit), "header word {word}, bit {bit}");
            let mut payloads = payloads_of_a();
            payloads[1][word] ^= 1 << bit;
            let number = read(&bytes_of(&payloads)).err().unwrap_or(0);
            assert_eq!(number, if word < 4 { 0 } else { 11 }, "code word {word}, bit {bit}");
        }
    }

    #[test]
    fn each_truncation_is_refused() {
        let bytes = job_a().to_bytes();
        for length in 0..bytes.len() {
            // the header alone is a whole block, whose form asks for another
            let number = if length == BLOCK_BYTES { 11 } else { 9 };
            assert_eq!(read(&bytes[..length]), Err(number), "{length} bytes");
        }
    }

    #[test]
    fn header_words_at_their_ends() {
        let numbers = |word: usize, values: &[u64]| -> Vec<u64> {
            values.iter().map(|&value| header_with(word, value).err().unwrap_or(0)).collect()
        };
        assert_eq!(numbers(CODE_COUNT, &[0, 1025, u64::MAX]), [1, 1, 1]);
        assert_eq!(numbers(CODE_COUNT, &[1, 7, 8, 126, 127, 1024]), [11, 11, 0, 0, 11, 11]);
        assert_eq!(numbers(INPUT_COUNT, &[0, 1, 8, 9, u64::MAX]), [11, 0, 0, 2, 2]);
        assert_eq!(numbers(LOWS, &[255, 256]), [0, 3]);
        assert_eq!(numbers(LOWS + 1, &[1]), [11]);
        assert_eq!(numbers(LIMIT, &[0, 1, 65_536, 65_537]), [4, 0, 0, 4]);
        assert_eq!(numbers(MEMORY_COUNT, &[1, 512, 513]), [11, 11, 6]);
        assert_eq!(numbers(FIRST, &[u32::MAX as u64, 1 << 32]), [0, 8]);
        assert_eq!(numbers(0, &[0, 2]), [11, 11]);
    }

    #[test]
    fn an_odd_code_count_leaves_a_half_unused() {
        let mut payloads = payloads_of_a();
        payloads[0][1] = 7;
        assert_eq!(read(&bytes_of(&payloads)), Err(11));
        payloads[1][3] %= 1 << 32;
        assert_eq!(read(&bytes_of(&payloads)).map(|job| job.code), Ok(job_a().code[..7].to_vec()));
    }

    #[test]
    fn faults_are_asked_about_in_order() {
        let places = [(1, 0), (2, 9), (5, 256), (3, 0), (21, 513), (4, 1 << 32), (0, 7)];
        let mut payloads = payloads_of_a();
        for (fault, number) in places.iter().zip([1, 2, 3, 4, 6, 8, 11]).rev() {
            let &(word, value) = fault;
            payloads[0][word] = value;
            assert_eq!(read(&bytes_of(&payloads)), Err(number));
        }
        let mut bytes = bytes_of(&payloads);
        bytes[600] ^= 1;
        assert_eq!(read(&bytes), Err(10));
        bytes.push(0);
        assert_eq!(read(&bytes), Err(9));
    }

    #[test]
    fn random_bytes_are_refused() {
        let mut random = Random(2);
        for round in 0..2000 {
            let whole = BLOCK_BYTES * random.below(41);
            let count = if round % 2 == 0 { whole } else { random.below(40 * BLOCK_BYTES) };
            let (blocks, rest) = (count / BLOCK_BYTES, count % BLOCK_BYTES);
            let number = if rest == 0 && (1..=MOST_BLOCKS).contains(&blocks) { 10 } else { 9 };
            assert_eq!(read(&random.bytes(count)), Err(number), "{count} bytes");
        }
    }

    #[test]
    fn random_words_with_right_checks_are_read_or_refused() {
        let mut random = Random(3);
        for _ in 0..2000 {
            let mut payloads = vec![[0; PAYLOAD_WORDS]; 1 + random.below(20)];
            for _ in 0..random.below(40) {
                let block = random.below(payloads.len());
                payloads[block][random.below(PAYLOAD_WORDS)] = random.next() >> random.below(64);
            }
            let _ = read(&bytes_of(&payloads));
        }
    }
}
