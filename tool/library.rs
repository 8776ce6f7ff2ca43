//! The proved library as a host lends to it: a slice passes as a pointer and its length in elements.

use formats::limits::MOST_COUNTED_PATHS;
use formats::numbers::KIND_PLACES;

/// `refused` is the number of the question that was answered by no, 0 for an accepted call.
#[repr(C)]
#[derive(Clone, Copy, Debug, PartialEq, Eq)]
pub struct Reply {
    pub refused: u64,
    pub count: u64,
    pub more: u64,
}

/// The choices of a job by what they lead to; every place but `refused` is 0 if the job was turned away.
#[repr(C)]
#[derive(Clone, Copy, Debug, PartialEq, Eq)]
pub struct Counts {
    pub refused: u64,
    pub used: u64,
    pub values: [u64; MOST_COUNTED_PATHS],
    pub choices: [u64; MOST_COUNTED_PATHS],
    pub varying: u64,
    pub kinds: [u64; KIND_PLACES],
    pub total: u64,
}

/// `bytes` is the length of the job that was written, 0 for a refused call.
#[repr(C)]
#[derive(Clone, Copy, Debug, PartialEq, Eq)]
pub struct Written {
    pub refused: u64,
    pub bytes: u64,
}

extern "C" {
    fn mirokefa_explore(
        code: *const u32,
        code_words: usize,
        memory: *const u64,
        memory_words: usize,
        intervals: *const u64,
        interval_words: usize,
        limit: u64,
        table: *mut u64,
        table_words: usize,
        report: *mut u8,
        report_bytes: usize,
        first: u64,
    ) -> Reply;

    fn mirokefa_serve(
        job: *const u8,
        job_bytes: usize,
        report: *mut u8,
        report_bytes: usize,
    ) -> Reply;

    fn mirokefa_place(
        inputs: u64,
        report: *const u8,
        report_bytes: usize,
        rows: *const u64,
        row_words: usize,
        answers: *mut u64,
        answer_words: usize,
    ) -> u64;

    fn mirokefa_sheet_bytes(inputs: u64, report_bytes: usize) -> usize;

    fn mirokefa_sheet(
        inputs: u64,
        report: *const u8,
        report_bytes: usize,
        sheet: *mut u8,
        sheet_bytes: usize,
    ) -> u64;

    fn mirokefa_count(job: *const u8, job_bytes: usize) -> Counts;

    fn mirokefa_write(
        code: *const u32,
        code_words: usize,
        memory: *const u64,
        memory_words: usize,
        intervals: *const u64,
        interval_words: usize,
        limit: u64,
        first: u64,
        job: *mut u8,
        job_bytes: usize,
    ) -> Written;
}

pub fn explore(
    code: &[u32],
    memory: &[u64],
    intervals: &[u64],
    limit: u64,
    table: &mut [u64],
    report: &mut [u8],
    first: u64,
) -> Reply {
    // SAFETY: each pointer comes with the length of its own slice, and they do not overlap
    unsafe {
        mirokefa_explore(
            code.as_ptr(),
            code.len(),
            memory.as_ptr(),
            memory.len(),
            intervals.as_ptr(),
            intervals.len(),
            limit,
            table.as_mut_ptr(),
            table.len(),
            report.as_mut_ptr(),
            report.len(),
            first,
        )
    }
}

/// A job in blocks, with the table of the course's program.
pub fn serve(job: &[u8], report: &mut [u8]) -> Reply {
    // SAFETY: as above
    unsafe { mirokefa_serve(job.as_ptr(), job.len(), report.as_mut_ptr(), report.len()) }
}

/// 0, or the number of a refusal.
pub fn place(inputs: u64, report: &[u8], rows: &[u64], answers: &mut [u64]) -> u64 {
    // SAFETY: as above
    unsafe {
        mirokefa_place(
            inputs,
            report.as_ptr(),
            report.len(),
            rows.as_ptr(),
            rows.len(),
            answers.as_mut_ptr(),
            answers.len(),
        )
    }
}

/// The bytes of a report's sheet, or `usize::MAX` if they are too many for a `usize`.
pub fn sheet_bytes(inputs: u64, report_bytes: usize) -> usize {
    // SAFETY: it is given numbers alone
    unsafe { mirokefa_sheet_bytes(inputs, report_bytes) }
}

/// 0, or the number of a refusal.
pub fn sheet(inputs: u64, report: &[u8], sheet: &mut [u8]) -> u64 {
    // SAFETY: as for explore
    unsafe {
        mirokefa_sheet(inputs, report.as_ptr(), report.len(), sheet.as_mut_ptr(), sheet.len())
    }
}

/// The choices of a job in blocks, counted from path 0.
pub fn count(job: &[u8]) -> Counts {
    // SAFETY: as for explore
    unsafe { mirokefa_count(job.as_ptr(), job.len()) }
}

/// The job's blocks at the start of `job`, whose other bytes stay.
pub fn write(
    code: &[u32],
    memory: &[u64],
    intervals: &[u64],
    limit: u64,
    first: u64,
    job: &mut [u8],
) -> Written {
    // SAFETY: as for explore
    unsafe {
        mirokefa_write(
            code.as_ptr(),
            code.len(),
            memory.as_ptr(),
            memory.len(),
            intervals.as_ptr(),
            intervals.len(),
            limit,
            first,
            job.as_mut_ptr(),
            job.len(),
        )
    }
}
