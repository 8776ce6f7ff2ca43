//! A rule with all of its paths, for the commands that need the whole listing.

use crate::{
    assembled, explore_page, fault, form, is_source, job_of, progress, read_job, read_text,
};
use crate::{Result, MOST_PAGE_PATHS};
use formats::job::Job;
use formats::limits::path_bytes;
use formats::report::{self, Record};

pub struct Rule {
    pub name: String,
    pub job: Job,
    /// The text of a source; a job in blocks has none.
    pub source: Option<String>,
}

pub fn read(name: &str) -> Result<Rule> {
    let source = if is_source(name) { Some(read_text(name)?) } else { None };
    let job = match &source {
        Some(text) => job_of(&form::written(&assembled(name, text)?)?)?,
        None => read_job(name)?,
    };
    Ok(Rule { name: name.to_string(), job, source })
}

impl Rule {
    /// Every path, whatever first path the job names.
    pub fn records(&self) -> Result<Vec<Record>> {
        let report = whole_report(&self.name, &self.job, MOST_PAGE_PATHS as usize)?;
        let records = report::read_pages(&report, self.job.intervals.len());
        records.map_err(|message| fault("the library's report", message))
    }
}

/// The records of every path; in one page, since each page explores from the start.
pub fn whole_report(name: &str, job: &Job, most: usize) -> Result<Vec<u8>> {
    let (mut report, reply) = progress::shown("exploring", 0, |_| explore_page(job, most, 0))?;
    if reply.more != 0 {
        return Err(fault(name, format!("the rule has more than {most} paths; narrow its inputs")));
    }
    report.truncate(reply.count as usize * path_bytes(job.intervals.len()));
    Ok(report)
}

/// Rules of tests.
#[cfg(test)]
impl Rule {
    pub fn of_job(job: Job) -> Rule {
        Rule { name: "rule.job".to_string(), job, source: None }
    }

    pub fn of_source(text: &str) -> Rule {
        let job = formats::source::assemble(text).expect("a source without faults");
        Rule { name: "rule.s".to_string(), job, source: Some(text.to_string()) }
    }
}
