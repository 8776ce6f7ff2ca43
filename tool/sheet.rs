//! What `explore --sheet` prints: the sheet of a page, every byte of it written by the library.

use crate::library::{self, Reply};
use crate::{accepted, output, Output, Result};

/// The sheet of the paths from `first` on, with a note where they are not the rest of the listing.
pub fn sheet_output(inputs: usize, page: &[u8], first: u64, reply: Reply) -> Result<Output> {
    let inputs = inputs as u64;
    let mut sheet = vec![0; library::sheet_bytes(inputs, page.len())];
    accepted(library::sheet(inputs, page, &mut sheet))?;
    Ok(Output { note: page_note(first, reply), ..output(sheet) })
}

/// What the listing's first line would tell, since a sheet has no such line.
fn page_note(first: u64, reply: Reply) -> String {
    match (reply.count, reply.more) {
        (0, _) => format!("mirokefa-job: there is no path {first}\n"),
        (_, 0) => String::new(),
        (count, _) => format!("mirokefa-job: more paths follow: --first {}\n", first + count),
    }
}

#[cfg(test)]
mod tests {
    use super::*;
    use crate::{explore_job, options, stopped, Stop, FAULT, TURNED_AWAY};
    use formats::assembler::job_a;
    use formats::job::Job;
    use formats::limits::LINE_BYTES;
    use formats::source::assemble;

    fn words(words: &[&str]) -> Vec<String> {
        words.iter().map(|word| word.to_string()).collect()
    }

    fn explored(job: &Job, more: &[&str]) -> Output {
        let options = options(&words(&[&["--sheet"], more].concat())).unwrap();
        explore_job(job, &options).unwrap_or_else(stopped)
    }

    /// The numbers of each line, from the columns of document 02, No. 6.
    fn numbers(sheet: &[u8]) -> Vec<[u64; 3]> {
        assert_eq!(sheet.len() % LINE_BYTES, 0);
        sheet.chunks(LINE_BYTES).map(line_numbers).collect()
    }

    fn line_numbers(line: &[u8]) -> [u64; 3] {
        let text = std::str::from_utf8(line).unwrap();
        assert_eq!([&text[20..23], &text[43..47], &text[67..]], ["   ", "    ", "     \n"]);
        [0, 23, 47].map(|from| {
            let field = &text[from..from + 20];
            let number = field.trim_start_matches(' ').parse().unwrap();
            assert_eq!(field, format!("{number:>20}"));
            number
        })
    }

    #[test]
    fn the_sheet_of_job_a() {
        let lines = [
            "                   0                      1                       0     \n",
            "                   0                      0                       9     \n",
            "                   1                      1                       0     \n",
            "                   0                     10                     255     \n",
        ];
        let Output { out, note, status } = explored(&job_a(), &[]);
        assert_eq!(String::from_utf8(out).unwrap(), lines.concat());
        assert_eq!((note.as_str(), status), ("", 0));
    }

    #[test]
    fn a_reason_and_the_widest_numbers() {
        let unfollowed = assemble(include_str!("../jobs/unfollowed.s")).unwrap();
        let lines = numbers(&explored(&unfollowed, &[]).out);
        assert_eq!(lines, [[0, 8, 1], [0, 0, 255], [1, 0, 255]]);
        let wrap = assemble(include_str!("../jobs/wrap.s")).unwrap();
        let lines = numbers(&explored(&wrap, &["--first", "1"]).out);
        assert_eq!(lines, [[1, 1, 0], [0, u64::MAX - 4, u64::MAX]]);
    }

    #[test]
    fn a_note_tells_what_a_page_leaves_out() {
        let page = |first| explored(&job_a(), &["--first", first, "--paths", "1"]);
        let (first, second, past) = (page("0"), page("1"), page("2"));
        let whole = explored(&job_a(), &[]).out;
        assert_eq!([first.out, second.out].concat(), whole);
        assert_eq!(first.note, "mirokefa-job: more paths follow: --first 1\n");
        assert_eq!(second.note, "");
        assert_eq!((past.out, past.status), (Vec::new(), 0));
        assert_eq!(past.note, "mirokefa-job: there is no path 2\n");
    }

    #[test]
    fn the_next_page_counts_from_the_jobs_first_path() {
        let job = assemble(include_str!("../jobs/waiting-time.s")).unwrap();
        let page = explored(&Job { first: 3, ..job }, &["--paths", "4"]);
        assert_eq!(numbers(&page.out)[0], [3, 1, 0]);
        assert_eq!(page.note, "mirokefa-job: more paths follow: --first 7\n");
    }

    #[test]
    fn a_rule_without_inputs_is_turned_away() {
        let job = assemble("li a7, 93\necall").unwrap();
        let Output { out, note, status } = explored(&job, &[]);
        assert_eq!((out.as_slice(), status), (&b"turned away 12\n"[..], TURNED_AWAY));
        assert!(note.starts_with("mirokefa-job: refusal 12: the input count is not 1 to 8"));
    }

    #[test]
    fn the_exploration_is_asked_before_the_sheet() {
        assert_eq!(explored(&job_a(), &["--paths", "0"]).out, b"turned away 7\n");
        let job = assemble("li a7, 93\necall").unwrap();
        assert_eq!(explored(&job, &["--first", "4294967296"]).out, b"turned away 8\n");
    }

    #[test]
    fn a_sheet_has_no_registers() {
        let fault = "--sheet: a sheet has no registers: leave out --sheet or --registers\n";
        for both in [["--sheet", "--registers"], ["--registers", "--sheet"]] {
            let stop = options(&words(&both)).unwrap_err();
            assert_eq!(stop, Stop::Fault(fault.to_string()));
            assert_eq!(stopped(stop).status, FAULT);
        }
    }
}
