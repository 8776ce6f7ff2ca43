//! Document 01's formats as the tool and the host tests read and write them: instructions, jobs and
//! reports; and the text of rows. Not proved.

pub mod assembler;
pub mod blocks;
pub mod instruction;
pub mod job;
pub mod limits;
pub mod numbers;
pub mod random;
pub mod report;
pub mod rows;
pub mod show;
pub mod source;
#[cfg(test)]
mod source_tests;
