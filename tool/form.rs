//! The command `form`: brings a job into the writer's form, and says whether it was in it.

use crate::library::{self, Written};
use crate::{accepted, fault, is_source, output, read_job, read_source, Output, Result};
use formats::blocks::flat;
use formats::job::{self, Job};
use formats::limits::MOST_JOB_BYTES;

pub fn form(name: &str) -> Result<Output> {
    // of a source as of a job, the memory words that it gives are what may be too many
    let job = if is_source(name) { read_source(name)? } else { read_job(name)? };
    formed(name, &job)
}

/// A job's blocks, every byte of them written by the library.
pub fn written(job: &Job) -> Result<Vec<u8>> {
    let (memory, intervals) = (job.whole_memory(), flat(&job.intervals));
    let mut blocks = vec![0; MOST_JOB_BYTES];
    let Written { refused, bytes } =
        library::write(&job.code, &memory, &intervals, job.limit, job.first, &mut blocks);
    accepted(refused)?;
    blocks.truncate(bytes as usize);
    Ok(blocks)
}

fn formed(name: &str, job: &Job) -> Result<Output> {
    let blocks = written(job)?;
    let note = note(name, job, &blocks)?;
    Ok(Output { note, ..output(blocks) })
}

/// Says whether the job was in this form: whether writing it has changed no byte.
fn note(name: &str, job: &Job, blocks: &[u8]) -> Result<String> {
    let needed = job.without_zeros();
    let zeros = job.memory.len() - needed.memory.len();
    if job::read(blocks) != Ok(needed) {
        return Err(fault(name, "the library has written another job"));
    }
    if blocks == job.to_bytes() {
        return Ok(format!("mirokefa-job: {name} is in the writer's form\n"));
    }
    // jobs that mean the same differ in zeros at the end of memory alone
    let given = match zeros {
        1 => "its last memory word is 0 and need not be given".to_string(),
        _ => format!("its last {zeros} memory words are 0 and need not be given"),
    };
    Ok(format!("mirokefa-job: {name} is not in the writer's form: {given}\n"))
}

#[cfg(test)]
mod tests {
    use super::*;
    use crate::{stopped, Stop, FAULT};
    use formats::assembler::job_a;
    use formats::limits::{MEMORY_WORDS, MOST_CODE_WORDS, MOST_INPUTS, MOST_STEPS, PATH_NUMBERS};

    const IN_FORM: &str = "mirokefa-job: a.job is in the writer's form\n";

    /// So many words of each kind, none of them 0.
    fn job_of(code: usize, memory: usize, inputs: usize) -> Job {
        Job {
            code: (1..=code as u32).map(|word| word << 20).collect(),
            intervals: (1..=inputs as u64).map(|low| (low, u64::MAX - low)).collect(),
            limit: MOST_STEPS,
            first: PATH_NUMBERS - 1,
            memory: (1..=memory as u64).map(|word| word << 50).collect(),
        }
    }

    fn memory_of(words: &[u64]) -> Job {
        Job { memory: words.to_vec(), ..job_a() }
    }

    fn said(job: &Job) -> (Vec<u8>, String) {
        let Output { out, note, status } = formed("a.job", job).unwrap_or_else(stopped);
        assert_eq!(status, 0, "{note}");
        (out, note)
    }

    #[test]
    fn job_a_is_in_the_form() {
        assert_eq!(said(&job_a()), (job_a().to_bytes(), IN_FORM.to_string()));
    }

    #[test]
    fn jobs_of_all_sizes_have_one_form() {
        for code in [1, 2, 125, 126, 127, 252, 253, 1023, MOST_CODE_WORDS] {
            for memory in [0, 1, 62, 63, 64, 126, 127, 511, MEMORY_WORDS] {
                let job = job_of(code, memory, code % (MOST_INPUTS + 1));
                let (out, note) = said(&job);
                assert_eq!((&out, note.as_str()), (&job.to_bytes(), IN_FORM));
                assert_eq!(job::read(&out), Ok(job));
            }
        }
        assert_eq!(said(&job_of(1024, 512, 8)).0.len(), MOST_JOB_BYTES);
    }

    #[test]
    fn zeros_at_the_end_of_memory_are_left_out() {
        for needed in [0, 1, 62, 63, 64, 510] {
            let job = job_of(3, needed, 1);
            for given in [needed + 2, MEMORY_WORDS] {
                let mut longer = job.clone();
                longer.memory.resize(given, 0);
                assert_eq!(job::read(&longer.to_bytes()), Ok(longer.clone()));
                let zeros = given - needed;
                let what = format!("its last {zeros} memory words are 0 and need not be given");
                let note = format!("mirokefa-job: a.job is not in the writer's form: {what}\n");
                assert_eq!(said(&longer), (job.to_bytes(), note));
            }
        }
    }

    #[test]
    fn one_zero_is_said_in_words_of_its_own() {
        let (out, note) = said(&memory_of(&[5, 0]));
        assert_eq!(out, memory_of(&[5]).to_bytes());
        assert!(note.ends_with(": its last memory word is 0 and need not be given\n"), "{note}");
    }

    #[test]
    fn zeros_before_another_word_stay() {
        let job = memory_of(&[0, 0, 7, 0, 9]);
        assert_eq!(said(&job), (job.to_bytes(), IN_FORM.to_string()));
    }

    #[test]
    fn a_job_that_is_formed_again_changes_no_byte() {
        let (out, _) = said(&memory_of(&[0, 1, 0, 0]));
        assert_eq!(said(&job::read(&out).unwrap()), (out, IN_FORM.to_string()));
    }

    #[test]
    fn values_that_no_reader_accepts_are_turned_away() {
        let wrong = [
            (1, Job { code: Vec::new(), ..job_a() }),
            (2, job_of(1, 0, MOST_INPUTS + 1)),
            (3, Job { intervals: vec![(2, 1)], ..job_a() }),
            (4, Job { limit: 0, ..job_a() }),
            (8, Job { first: PATH_NUMBERS, ..job_a() }),
        ];
        for (number, job) in wrong {
            assert_eq!(written(&job), Err(Stop::Refused(number)));
        }
    }

    #[test]
    fn another_job_is_a_fault() {
        let stop = Stop::Fault("a.job: the library has written another job\n".to_string());
        let others = [memory_of(&[5]).to_bytes(), memory_of(&[7, 0]).to_bytes(), Vec::new()];
        for other in others {
            assert_eq!(note("a.job", &memory_of(&[7, 0]), &other).as_ref(), Err(&stop));
        }
    }

    #[test]
    fn a_missing_file_is_a_fault() {
        for name in ["no/such/file.s", "no/such/file.job"] {
            let Output { out, note, status } = form(name).unwrap_or_else(stopped);
            assert!(out.is_empty() && note.starts_with(&format!("{name}: ")) && status == FAULT);
        }
    }
}
