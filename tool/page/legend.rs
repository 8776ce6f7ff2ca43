//! What paths end with, as a page marks it: a fill, words, and what a rule writer can do.

use super::choices::Choices;
use super::html::{escape, marked, Ranges};
use formats::blocks::Interval;
use formats::numbers::{kind_advice, kind_text, reason_advice, reason_text, EXITED};
use formats::report::Record;
use std::collections::{BTreeMap, BTreeSet};

/// Fills for exit values, from light to dark: `v0` to `v9` in the style sheet. Of more values, those of one fill
/// share an entry.
pub const SHADES: usize = 10;
/// Ranges of paths that an entry names.
const MOST_RANGES: usize = 8;

/// What a path is coloured by: the place of its entry's values, a varying exit, or another kind.
#[derive(Clone, Copy, Debug, PartialEq, Eq, PartialOrd, Ord)]
enum End {
    Exit(usize),
    Varies,
    Other(u64),
}

pub struct Legend {
    /// The exit values of paths with a fixed exit, rising.
    values: Vec<u64>,
    entries: BTreeMap<End, Entry>,
    all: Choices,
}

struct Entry {
    paths: Ranges,
    choices: Choices,
    reasons: BTreeSet<u64>,
}

impl Legend {
    pub fn new(records: &[Record], start: &[Interval]) -> Legend {
        let fixed = records.iter().filter_map(fixed_exit);
        let values: Vec<u64> = fixed.collect::<BTreeSet<u64>>().into_iter().collect();
        let all = Choices::new(start, start);
        let mut legend = Legend { values, entries: BTreeMap::new(), all };
        for (path, record) in records.iter().enumerate() {
            let end = legend.end(record);
            let none = || Entry {
                paths: Ranges::default(),
                choices: Choices::NONE,
                reasons: BTreeSet::new(),
            };
            let entry = legend.entries.entry(end).or_insert_with(none);
            entry.paths.add(path);
            entry.choices = entry.choices.and(Choices::new(&record.intervals, start));
            entry.reasons.insert(record.reason);
        }
        legend
    }

    fn end(&self, record: &Record) -> End {
        match (fixed_exit(record), record.kind) {
            (Some(value), _) => End::Exit(self.group(value)),
            (None, EXITED) => End::Varies,
            (None, kind) => End::Other(kind),
        }
    }

    /// The place of a value's entry among those of exit values.
    fn group(&self, value: u64) -> usize {
        let place = self.values.partition_point(|&each| each < value);
        match self.values.len() <= SHADES {
            true => place,
            false => self.shade(place),
        }
    }

    /// The shade of the value at this place; few values are spread over all shades.
    fn shade(&self, place: usize) -> usize {
        (2 * place + 1) * SHADES / (2 * self.values.len())
    }

    /// The class of a path's fill.
    pub fn style(&self, record: &Record) -> String {
        self.end_style(self.end(record))
    }

    fn end_style(&self, end: End) -> String {
        match end {
            End::Exit(group) if self.values.len() > SHADES => format!("v{group}"),
            End::Exit(place) => format!("v{}", self.shade(place)),
            End::Varies => "vary".to_string(),
            End::Other(kind) => format!("k{kind}"),
        }
    }

    /// The id of a path's entry.
    pub fn anchor(&self, record: &Record) -> String {
        anchor(self.end(record))
    }

    /// The share and the number of choices of all.
    pub fn all(&self) -> Choices {
        self.all
    }

    /// In words, the ends of an entry.
    fn words(&self, end: End) -> String {
        let exit = kind_text(EXITED);
        match end {
            End::Exit(group) => {
                let mut values = self.values.iter().filter(|&&value| self.group(value) == group);
                let (first, last) = (values.next(), values.next_back());
                let first = first.map_or(0, |&value| value);
                match last {
                    None => format!("{exit} with {first}"),
                    Some(last) => format!("{exit} with one value from {first} to {last}"),
                }
            }
            End::Varies => format!("{exit} varies with an input"),
            End::Other(kind) => format!("{} (end {kind})", kind_text(kind)),
        }
    }

    pub fn html(&self) -> String {
        let heading = "<thead><tr><th>Fill</th><th>Leads to</th><th>Choices</th><th>Share</th>\
                       <th>Paths</th></tr></thead>\n";
        let rows: String = self.entries.iter().map(|(&end, entry)| self.row(end, entry)).collect();
        format!("<table class=\"legend\">\n{heading}<tbody>\n{rows}</tbody>\n</table>\n")
    }

    fn row(&self, end: End, entry: &Entry) -> String {
        let advice: String =
            advice(end, entry).iter().map(|text| format!("<p>{text}</p>")).collect();
        format!(
            "<tr id=\"{}\" data-paths=\"{}\"><td>{}</td><td><b>{}</b>{advice}</td>\
             <td class=\"choices\">{}</td><td class=\"share\">{}</td><td>{}</td></tr>\n",
            anchor(end),
            entry.paths.attribute(),
            swatch(&self.end_style(end)),
            escape(&self.words(end)),
            entry.choices.text(),
            entry.choices.share_text(self.all),
            entry.paths.links(MOST_RANGES),
        )
    }
}

fn fixed_exit(record: &Record) -> Option<u64> {
    let (low, high) = record.exit;
    (record.kind == EXITED && low == high).then_some(low)
}

fn anchor(end: End) -> String {
    match end {
        End::Exit(group) => format!("end-exit-{group}"),
        End::Varies => "end-varies".to_string(),
        End::Other(kind) => format!("end-{kind}"),
    }
}

/// What docs/NUMBERS.md says of an end that is no exit: of kind 8, for each reason that is met.
fn advice(end: End, entry: &Entry) -> Vec<String> {
    let End::Other(kind) = end else { return Vec::new() };
    let reasons = entry.reasons.iter().filter(|&&reason| reason != 0);
    let of_reason = |&reason: &u64| {
        format!("<b>{}</b>: {}", escape(reason_text(reason)), marked(reason_advice(reason)))
    };
    let of_reasons: Vec<String> = reasons.map(of_reason).collect();
    match of_reasons.is_empty() {
        true => vec![marked(kind_advice(kind))],
        false => of_reasons,
    }
}

pub fn swatch(style: &str) -> String {
    format!("<svg class=\"swatch\"><rect class=\"{style}\" width=\"100%\" height=\"100%\"/></svg>")
}

#[cfg(test)]
mod tests {
    use super::*;
    use crate::library;
    use crate::rule::Rule;
    use formats::source::assemble;

    const JOBS: [&str; 3] = [
        include_str!("../../jobs/loads.s"),
        include_str!("../../jobs/no-shovel.s"),
        include_str!("../../jobs/waiting-time.s"),
    ];

    fn legend(source: &str) -> Legend {
        let rule = Rule::of_source(source);
        Legend::new(&rule.records().unwrap(), &rule.job.intervals)
    }

    fn number(legend: &Legend, end: End) -> u64 {
        legend.entries.get(&end).map_or(0, |entry| entry.choices.number().unwrap())
    }

    #[test]
    fn choices_are_those_that_the_library_counts() {
        for source in JOBS {
            let legend = legend(source);
            let counts = library::count(&assemble(source).unwrap().to_bytes());
            assert_eq!(legend.values, counts.values[..counts.used as usize]);
            for (place, &choices) in counts.choices[..counts.used as usize].iter().enumerate() {
                assert_eq!(number(&legend, End::Exit(place)), choices);
            }
            assert_eq!(number(&legend, End::Varies), counts.varying);
            for (kind, &choices) in counts.kinds.iter().enumerate() {
                assert_eq!(number(&legend, End::Other(kind as u64)), choices);
            }
            assert_eq!(legend.all().number(), Some(counts.total));
        }
    }

    #[test]
    fn every_end_has_its_fill_and_its_words() {
        let legend = legend(JOBS[0]);
        let ends = legend.entries.keys().map(|&end| (legend.end_style(end), legend.words(end)));
        let ends: Vec<(String, String)> = ends.collect();
        let wanted = [
            ("v1", "exit with 0"),
            ("v3", "exit with 8"),
            ("v5", "exit with 16"),
            ("v7", "exit with 24"),
            ("v9", "exit with 32"),
            ("vary", "exit varies with an input"),
            ("k8", "not followed (end 8)"),
        ];
        assert_eq!(ends, wanted.map(|(style, words)| (style.to_string(), words.to_string())));
    }

    #[test]
    fn an_end_that_is_no_exit_says_what_to_do() {
        let html = legend(JOBS[0]).html();
        assert!(html.contains("<b>both operands vary</b>: Two varying values cannot be added,"));
        assert!(html.contains("count up to it with <code>beq</code>"), "{html}");
        let endless = legend(".limit 9\nj 0").html();
        assert!(endless.contains("<p>Look for a loop that does not end;"), "{endless}");
    }

    #[test]
    fn many_values_share_entries() {
        let source = ".input 0..49\nli a7, 63\nli a2, 8\necall\nld t0, 0(zero)\n\
                      next: beq t0, t1, done\naddi t1, t1, 1\nj next\ndone: mv a0, t1\nli a7, 93\necall";
        let legend = legend(source);
        assert_eq!((legend.values.len(), legend.entries.len()), (50, SHADES));
        assert_eq!(legend.words(End::Exit(1)), "exit with one value from 5 to 9");
        assert_eq!(legend.end_style(End::Exit(9)), "v9");
    }
}
