//! The command `count`: how many choices of a rule's inputs lead to each exit value, and to each other end?

use crate::library::{self, Counts};
use crate::{accepted, output, read_blocks, Output, Result};
use formats::numbers::{kind_text, EXITED};

/// Marks of the bar of all choices.
const BAR_MARKS: u64 = 20;

pub fn count(name: &str) -> Result<Output> {
    counted(&read_blocks(name)?)
}

/// The library asks every question, those on the job too.
pub fn counted(job: &[u8]) -> Result<Output> {
    let counts = library::count(job);
    accepted(counts.refused)?;
    Ok(output(table(&counts)))
}

// ---------------------------------------------------------------------------------------------
// The table.

/// An end of paths in words, and how many choices lead to it.
type Counted = (String, u64);

/// A line for each end; the bars stand last, so that no line ends in spaces.
fn table(counts: &Counts) -> String {
    let (ends, total) = (ends(counts), counts.total);
    let width = ends.iter().map(|(end, _)| end.len()).max().unwrap_or(0);
    let digits = total.to_string().len();
    let line = |(end, choices): &Counted| {
        let (share, bar) = (share(*choices, total), bar(*choices, total));
        format!("{end:<width$}  {choices:>digits$}  {share:>6} %  {bar}\n")
    };
    ends.iter().map(line).collect()
}

/// The exit values, varying exits, each other kind, and all; what no choice leads to is left out.
fn ends(counts: &Counts) -> Vec<Counted> {
    let exit = kind_text(EXITED);
    let values = &counts.values[..counts.used as usize];
    // they rise, so the last one has the most digits
    let width = values.last().map_or(0, |value| value.to_string().len());
    let fixed = values.iter().zip(counts.choices);
    let fixed = fixed.map(|(value, choices)| (format!("{exit} with {value:>width$}"), choices));
    let varying = (format!("{exit} varies"), counts.varying);
    let kinds = (0..).zip(counts.kinds);
    let kinds = kinds.map(|(kind, choices)| (kind_text(kind).to_string(), choices));
    let all = ("all choices".to_string(), counts.total);
    fixed.chain([varying]).chain(kinds).chain([all]).filter(|&(_, choices)| choices > 0).collect()
}

/// In per cent, with two decimals.
pub fn share(choices: u64, total: u64) -> String {
    let hundredths = units(choices, total, 100 * 100);
    format!("{}.{:02}", hundredths / 100, hundredths % 100)
}

/// As long as the share, but one mark at least.
fn bar(choices: u64, total: u64) -> String {
    let marks = units(choices, total, BAR_MARKS).max(1);
    "#".repeat(marks as usize)
}

/// The whole number nearest to choices * most / total, a half rounded up; no product comes near 2^128.
fn units(choices: u64, total: u64, most: u64) -> u64 {
    let [choices, total, most] = [choices, total, most].map(u128::from);
    ((2 * choices * most + total) / (2 * total)) as u64
}

#[cfg(test)]
mod tests {
    use super::*;
    use crate::{stopped, FAULT, TURNED_AWAY};
    use formats::assembler::job_a;
    use formats::job::Job;
    use formats::limits::{MOST_COUNTED_PATHS, MOST_INPUTS};
    use formats::numbers::{KINDS, KIND_PLACES};
    use formats::source::assemble;

    const MAX: u64 = u64::MAX;
    /// The bar of all choices.
    const FULL: &str = "####################";

    const JOB_A_COUNTS: &str = "exit with 0  246   96.09 %  ###################\n\
                                exit with 1   10    3.91 %  #\n\
                                all choices  256  100.00 %  ####################\n";

    fn said(job: &Job) -> String {
        let Output { out, .. } = counted(&job.to_bytes()).unwrap_or_else(stopped);
        String::from_utf8(out).unwrap()
    }

    fn wrap_up_to(high: u64) -> Job {
        let job = assemble(include_str!("../jobs/wrap.s")).unwrap();
        Job { intervals: vec![(0, high)], ..job }
    }

    /// Exits with its input: a path for each value.
    fn each_value(high: u64) -> Job {
        let text = "li a7, 63\nli a2, 8\necall\nld t0, 0(zero)\nli a0, 0\n\
                    next: beq t0, a0, done\naddi a0, a0, 1\nj next\n\
                    done: li a7, 93\necall";
        assemble(&format!(".input 0..{high}\n{text}")).unwrap()
    }

    /// Exit values with their choices, varying exits, and kinds with theirs.
    fn counts_of(fixed: &[(u64, u64)], varying: u64, others: &[(usize, u64)]) -> Counts {
        let (mut values, mut choices) = ([0; MOST_COUNTED_PATHS], [0; MOST_COUNTED_PATHS]);
        for (place, &pair) in fixed.iter().enumerate() {
            (values[place], choices[place]) = pair;
        }
        let mut kinds = [0; KIND_PLACES];
        others.iter().for_each(|&(kind, choices)| kinds[kind] = choices);
        let total = choices.iter().sum::<u64>() + varying + kinds.iter().sum::<u64>();
        Counts { refused: 0, used: fixed.len() as u64, values, choices, varying, kinds, total }
    }

    #[test]
    fn the_counts_of_job_a_whatever_first_path_it_names() {
        for first in [0, 1, 2, u32::MAX as u64] {
            assert_eq!(said(&Job { first, ..job_a() }), JOB_A_COUNTS);
        }
    }

    #[test]
    fn every_end_has_its_line() {
        let counts = counts_of(&[(0, 93), (7, 5), (120, 2)], 60, &[(8, 30), (3, 9), (7, 1)]);
        let lines = "exit with   0                                 93   46.50 %  #########\n\
                     exit with   7                                  5    2.50 %  #\n\
                     exit with 120                                  2    1.00 %  #\n\
                     exit varies                                   60   30.00 %  ######\n\
                     pc outside the code, or not a multiple of 4    9    4.50 %  #\n\
                     the step limit is reached                      1    0.50 %  #\n\
                     not followed                                  30   15.00 %  ###\n\
                     all choices                                  200  100.00 %  ####################\n";
        assert_eq!(table(&counts), lines);
    }

    #[test]
    fn ends_that_are_no_exit() {
        let unfollowed = assemble(include_str!("../jobs/unfollowed.s")).unwrap();
        let lines = ["not followed  65536  100.00 %  ", "all choices   65536  100.00 %  "];
        assert_eq!(said(&unfollowed), lines.map(|line| format!("{line}{FULL}\n")).concat());
        let short = Job { limit: 5, ..job_a() };
        assert!(said(&short).starts_with("the step limit is reached  256  100.00 %  #"));
    }

    #[test]
    fn the_widest_numbers() {
        let lines = "exit with                    0                     1    0.00 %  #\n\
                     exit with 18446744073709551615  18446744073709551614  100.00 %  ####################\n\
                     all choices                     18446744073709551615  100.00 %  ####################\n";
        assert_eq!(table(&counts_of(&[(0, 1), (MAX, MAX - 1)], 0, &[])), lines);
    }

    #[test]
    fn columns_are_aligned_and_no_line_ends_in_spaces() {
        let fixed: Vec<(u64, u64)> =
            (0..MOST_COUNTED_PATHS as u64).map(|place| (1 << place, 3 * place + 1)).collect();
        let others: Vec<(usize, u64)> =
            (3..=KINDS as usize).map(|kind| (kind, 1 << kind)).collect();
        let text = table(&counts_of(&fixed, 1 << 40, &others));
        assert_eq!(text.lines().count(), MOST_COUNTED_PATHS + 1 + others.len() + 1);
        let places: Vec<Option<usize>> = text.lines().map(|line| line.find(" %  #")).collect();
        assert!(places.iter().all(|place| place.is_some() && *place == places[0]), "{text}");
        assert!(text.lines().all(|line| line.trim_end() == line));
    }

    #[test]
    fn shares_are_rounded_to_the_nearest_hundredth() {
        let shares = [(1, 3), (2, 3), (1, 8), (1, 20_000), (1, 20_001), (19_999, 20_000), (7, 7)];
        let texts = ["33.33", "66.67", "12.50", "0.01", "0.00", "100.00", "100.00"];
        assert_eq!(shares.map(|(choices, total)| share(choices, total)), texts);
        assert_eq!([share(MAX, MAX), share(MAX / 2, MAX)], ["100.00", "50.00"]);
    }

    #[test]
    fn bars_have_a_mark_for_each_twentieth() {
        let marks = |choices| bar(choices, 200).len();
        assert_eq!([1, 14, 15, 24, 25, 194, 195, 200].map(marks), [1, 1, 2, 2, 3, 19, 20, 20]);
        assert_eq!([bar(1, MAX).len(), bar(MAX, MAX).len()], [1, 20]);
    }

    #[test]
    fn a_box_of_2_to_the_64_choices_is_turned_away() {
        let Output { out, note, status } =
            counted(&wrap_up_to(MAX).to_bytes()).unwrap_or_else(stopped);
        assert_eq!((out.as_slice(), status), (&b"turned away 15\n"[..], TURNED_AWAY));
        let words = "mirokefa-job: refusal 15: the starting box has 2^64 choices or more\n";
        assert_eq!(note, words);
        let line = format!("exit varies  18446744073709551615  100.00 %  {FULL}\n");
        assert!(said(&wrap_up_to(MAX - 1)).starts_with(&line));
        let mut eight = Job { intervals: vec![(0, 255); MOST_INPUTS], ..job_a() };
        assert_eq!(said(&eight), "turned away 15\n");
        eight.intervals[7] = (1, 255);
        let line = format!("all choices  18374686479671623680  100.00 %  {FULL}\n");
        assert!(said(&eight).ends_with(&line));
    }

    #[test]
    fn more_than_64_paths_are_turned_away() {
        let text = said(&each_value(63));
        let lines: Vec<&str> = text.lines().collect();
        assert_eq!(lines.len(), MOST_COUNTED_PATHS + 1);
        assert_eq!(lines[0], "exit with  0   1    1.56 %  #");
        assert_eq!(lines[63], "exit with 63   1    1.56 %  #");
        assert_eq!(lines[64], format!("all choices   64  100.00 %  {FULL}"));
        assert_eq!(said(&each_value(64)), "turned away 16\n");
        // 15 is asked first
        assert_eq!(said(&each_value(MAX)), "turned away 15\n");
    }

    #[test]
    fn a_rule_without_inputs_has_one_choice() {
        let job = assemble("li a7, 93\necall").unwrap();
        let lines = ["exit with 0  1  100.00 %  ", "all choices  1  100.00 %  "];
        assert_eq!(said(&job), lines.map(|line| format!("{line}{FULL}\n")).concat());
    }

    #[test]
    fn a_missing_file_is_a_fault() {
        for name in ["no/such/file.s", "no/such/file.job"] {
            let Output { out, note, status } = count(name).unwrap_or_else(stopped);
            assert!(out.is_empty() && note.starts_with(&format!("{name}: ")) && status == FAULT);
        }
    }
}
