//! The program of a rule, with the paths that pass each instruction and where paths end or fork.

use super::html::{escape, path_link, Ranges};
use super::Page;
use crate::plain;
use crate::progress;
use formats::job::Job;
use formats::report::Record;
use std::sync::atomic::Ordering;

/// Ranges of paths, and forks, that a line names.
const MOST_RANGES: usize = 6;

/// What the paths do at a code word.
#[derive(Clone, Default)]
pub struct Word {
    passed: Ranges,
    ended: Ranges,
    /// Paths that parted here from the path after them.
    parted: Vec<usize>,
}

/// Which instructions a path passes is found by running the plain machine at the path's lowest inputs, the
/// witness that the report gives: every choice of the path runs through the same ones. Two paths that follow
/// each other part at the first instruction whose fork rule sorts their witnesses differently.
pub fn words(job: &Job, records: &[Record]) -> Result<Vec<Word>, String> {
    progress::shown("plain runs of paths", records.len(), |done| {
        let mut words = vec![Word::default(); job.code.len()];
        let mut before: Option<Vec<plain::Step>> = None;
        for (path, record) in records.iter().enumerate() {
            let steps = plain::steps(job, record)?;
            steps.iter().for_each(|step| words[step.pc as usize / 4].passed.add(path));
            if let Some(word) = inside(job, record.pc) {
                words[word].ended.add(path);
            }
            if let Some(before) = before {
                let fork = plain::parting(&before, &steps);
                let fork = fork
                    .ok_or_else(|| format!("path {path} does not part from the one before it"))?;
                words[fork as usize / 4].parted.push(path - 1);
            }
            before = Some(steps);
            done.fetch_add(1, Ordering::Relaxed);
        }
        Ok(words)
    })
}

/// The code word at a pc, if there is one.
pub fn inside(job: &Job, pc: u64) -> Option<usize> {
    let inside = pc % 4 == 0 && pc / 4 < job.code.len() as u64;
    inside.then_some(pc as usize / 4)
}

// ---------------------------------------------------------------------------------------------
// The table.

pub fn html(page: &Page, words: &[Word]) -> String {
    let rows: String = match &page.rule.source {
        Some(source) => {
            let lines = source.lines().zip(1..);
            lines.map(|(text, line)| line_html(page, words, line, text)).collect()
        }
        None => {
            let shown = page.code.iter().enumerate();
            shown.map(|(word, text)| word_html(page, words, word, "", text)).collect()
        }
    };
    let heading = "<thead><tr><th>Line</th><th>Address</th><th>Instruction</th><th>Passed by</th>\
                   <th>Here</th></tr></thead>\n";
    format!("<div class=\"scroll\"><table class=\"program\">\n{heading}<tbody>\n{rows}</tbody>\n</table></div>\n")
}

/// A line of the source; one without a code word has its text alone.
fn line_html(page: &Page, words: &[Word], line: usize, text: &str) -> String {
    match page.lines.binary_search(&line) {
        Ok(word) => word_html(page, words, word, &line.to_string(), text),
        Err(_) => format!(
            "<tr class=\"text\"><td class=\"n\">{line}</td><td></td><td colspan=\"3\"><code>{}</code></td></tr>\n",
            escape(text)
        ),
    }
}

fn word_html(page: &Page, words: &[Word], word: usize, line: &str, text: &str) -> String {
    let Word { passed, ended, parted } = &words[word];
    let address = 4 * word;
    let all = page.records.len();
    let passes = match passed.count() {
        0 if ended.is_empty() => "no path".to_string(),
        0 => String::new(),
        count if count == all => "all paths".to_string(),
        count => format!("{count} of {all}: {}", passed.links(MOST_RANGES)),
    };
    let (ends, forks) = (ends_html(ended), forks_html(parted));
    let class = if passed.is_empty() && ended.is_empty() { "unused" } else { "code" };
    format!(
        "<tr id=\"at-{address}\" class=\"{class}\" data-passed=\"{}\" data-ended=\"{}\">\
         <td class=\"n\">{line}</td><td class=\"n\">{address}</td><td><code>{}</code></td>\
         <td>{passes}</td><td>{forks}{ends}</td></tr>\n",
        passed.attribute(),
        ended.attribute(),
        escape(text),
    )
}

fn ends_html(ended: &Ranges) -> String {
    match ended.is_empty() {
        true => String::new(),
        false => format!("<span class=\"ends\">end</span> of {} ", ended.links(MOST_RANGES)),
    }
}

/// Between which paths the rule forks here.
fn forks_html(parted: &[usize]) -> String {
    if parted.is_empty() {
        return String::new();
    }
    let pair = |&path: &usize| format!("{} | {}", path_link(path), path_link(path + 1));
    let pairs: Vec<String> = parted.iter().take(MOST_RANGES).map(pair).collect();
    let rest = if parted.len() > MOST_RANGES {
        format!(" … ({} cuts)", parted.len())
    } else {
        String::new()
    };
    format!("<span class=\"forks\">fork</span> {}{rest} ", pairs.join(", "))
}

#[cfg(test)]
mod tests {
    use super::*;
    use crate::rule::Rule;
    use formats::source::{assemble, notes};

    const JOBS: [&str; 11] = [
        include_str!("../../jobs/ends.s"),
        include_str!("../../jobs/job-a.s"),
        include_str!("../../jobs/jump.s"),
        include_str!("../../jobs/loads.s"),
        include_str!("../../jobs/loop.s"),
        include_str!("../../jobs/minutes.s"),
        include_str!("../../jobs/no-shovel.s"),
        include_str!("../../jobs/roads.s"),
        include_str!("../../jobs/unfollowed.s"),
        include_str!("../../jobs/waiting-time.s"),
        include_str!("../../jobs/wrap.s"),
    ];

    fn words_of(source: &str) -> Vec<Word> {
        let rule = Rule::of_source(source);
        words(&rule.job, &rule.records().unwrap()).unwrap()
    }

    #[test]
    fn rules_fork_where_their_comments_say_so() {
        for source in JOBS {
            let lines: Vec<&str> = source.lines().collect();
            for (word, line) in words_of(source).iter().zip(notes(source).code_lines) {
                let says = ["# a fork", "the path forks here"]
                    .iter()
                    .any(|it| lines[line - 1].contains(it));
                assert_eq!(!word.parted.is_empty(), says, "{}", lines[line - 1]);
            }
        }
    }

    #[test]
    fn every_path_parts_from_the_next_and_ends_once() {
        for source in JOBS {
            let words = words_of(source);
            let ended: usize = words.iter().map(|word| word.ended.count()).sum();
            // one path of ends.s ends outside the code
            let paths = ended + source.contains("4000") as usize;
            let mut parted: Vec<usize> =
                words.iter().flat_map(|word| word.parted.clone()).collect();
            parted.sort();
            assert_eq!(parted, (0..paths - 1).collect::<Vec<_>>());
        }
    }

    #[test]
    fn the_paths_of_the_waiting_time_rule() {
        let words = words_of(JOBS[9]);
        assert_eq!(words[0].passed.attribute(), "0-12");
        assert_eq!(
            (words[15].passed.attribute(), &words[14].parted),
            ("1-12".into(), &vec![0, 4, 8])
        );
        assert_eq!(words[24].passed.attribute(), "1,3,5,7,9,11");
        assert_eq!((words[26].passed.count(), words[26].ended.attribute()), (0, "0-12".into()));
    }

    #[test]
    fn a_path_may_end_outside_the_code() {
        let job = assemble("nop").unwrap();
        assert_eq!([0, 2, 4, u64::MAX - 3].map(|pc| inside(&job, pc)), [Some(0), None, None, None]);
        let words = words_of("nop");
        assert_eq!((words[0].passed.count(), words[0].ended.count()), (1, 0));
    }
}
