//! The command `page`: a rule's paths as a page to look at. It shows what the library reports of the paths; of
//! its own it counts the choices of their intervals, and finds by plain runs which instructions they pass.

mod axis;
mod bands;
mod choices;
mod drawing;
mod html;
mod labels;
mod legend;
mod paths;
mod picture;
mod program;
mod shapes;

use crate::rule::{self, Rule};
use crate::{fault, output, Output, Result};
use drawing::Drawing;
use formats::blocks::Interval;
use formats::report::Record;
use formats::rows::counted;
use formats::{show, source};
use html::{cell_interval, escape};
use legend::Legend;

const STYLE: &str = include_str!("page/page.css");
const SCRIPT: &str = include_str!("page/page.js");
/// The fills that are patterns.
const PATTERNS: &str = include_str!("page/patterns.svg");
const ABOUT: &str = include_str!("page/about.html");

const READ_PROGRAM: &str =
    "<p class=\"note\">At a fork 4 | 5 the rule tells the inputs of path 4 from those of path 5. \
                            The instruction at which a path ends is not completed.</p>\n";

/// What all parts of a page are made of.
struct Page<'a> {
    rule: &'a Rule,
    records: &'a [Record],
    title: String,
    /// The inputs as the source's comments name them, or by their numbers.
    names: Vec<String>,
    /// The line of each code word, of a source.
    lines: Vec<usize>,
    /// Each code word in its place: as its line of the source has it, or as an instruction.
    code: Vec<String>,
    legend: Legend,
}

pub fn page(name: &str) -> Result<Output> {
    page_text(&rule::read(name)?).map(output)
}

/// The whole listing, whatever first path the job names.
pub fn page_text(rule: &Rule) -> Result<String> {
    let records = rule.records()?;
    let words = program::words(&rule.job, &records);
    let words = words.map_err(|message| fault(&rule.name, message))?;
    let page = Page::new(rule, &records);
    let title = escape(&page.title);
    let mut drawing = Drawing::new(&page);
    let picture = picture::html(&mut drawing);
    Ok(format!(
        "<!DOCTYPE html>\n<html lang=\"en\">\n<head>\n<meta charset=\"utf-8\"/>\n\
         <meta name=\"viewport\" content=\"width=device-width, initial-scale=1\"/>\n\
         <title>{title}</title>\n<style>\n{STYLE}</style>\n</head>\n<body>\n{PATTERNS}\
         <header><h1>{title}</h1>\n{}</header>\n<main>\n\
         <section><h2>Which inputs lead to what</h2>\n{picture}{}</section>\n\
         <section><h2>The paths</h2>\n{}</section>\n\
         <section><h2>The program</h2>\n{READ_PROGRAM}{}</section>\n\
         </main>\n{ABOUT}<script>\n{SCRIPT}</script>\n</body>\n</html>\n",
        page.facts(),
        page.legend.html(),
        paths::html(&drawing),
        program::html(&page, &words),
    ))
}

impl Page<'_> {
    fn new<'a>(rule: &'a Rule, records: &'a [Record]) -> Page<'a> {
        let start = &rule.job.intervals;
        let notes = rule.source.as_deref().map(source::notes).unwrap_or_default();
        let comment = |input: usize| notes.inputs.get(input).cloned().flatten();
        let name = |input: usize| comment(input).unwrap_or(format!("input {input}"));
        Page {
            rule,
            records,
            names: (0..start.len()).map(name).collect(),
            code: code_texts(rule, &notes.code_lines),
            title: notes.title.unwrap_or(rule.name.clone()),
            lines: notes.code_lines,
            legend: Legend::new(records, start),
        }
    }

    /// The starting box.
    fn start(&self) -> &[Interval] {
        &self.rule.job.intervals
    }

    fn name(&self, input: usize) -> &str {
        &self.names[input]
    }

    fn facts(&self) -> String {
        let input = |(input, &held): (usize, &Interval)| {
            let number = format!("input {input}");
            let comment = if self.name(input) == number { "" } else { self.name(input) };
            format!(
                "<tr><td>{number}</td><td>{}</td><td>{}</td></tr>\n",
                escape(comment),
                cell_interval(held)
            )
        };
        let inputs: String = self.start().iter().enumerate().map(input).collect();
        format!(
            "<p class=\"note\">{}, at most {} steps</p>\n\
             <p><b>{}</b> for {} of {}. A choice gives each input a value, and lies in exactly one path. \
             All choices of a path run through the same instructions to the same end, or to where the engine stops.</p>\n\
             <table class=\"inputs\"><tbody>\n{inputs}</tbody></table>\n",
            escape(&self.rule.name),
            self.rule.job.limit,
            counted(self.records.len(), "path"),
            self.legend.all().counted(),
            counted(self.start().len(), "input"),
        )
    }
}

fn code_texts(rule: &Rule, code_lines: &[usize]) -> Vec<String> {
    let Some(source) = &rule.source else {
        return rule.job.code.iter().map(|&word| show::word_text(word)).collect();
    };
    let lines: Vec<&str> = source.lines().collect();
    let text = |&line: &usize| format!("line {line}: {}", source::without_comment(lines[line - 1]));
    code_lines.iter().map(text).collect()
}

#[cfg(test)]
mod tests {
    use super::*;
    use formats::assembler::job_a;
    use formats::job::Job;
    use formats::numbers::{kind_occurs, KINDS};

    fn by_source(text: &str) -> String {
        page_text(&Rule::of_source(text)).unwrap()
    }

    fn by_job(job: Job) -> String {
        page_text(&Rule::of_job(job)).unwrap()
    }

    #[test]
    fn the_style_sheet_has_every_fill() {
        let values = (0..legend::SHADES).map(|shade| format!("v{shade}"));
        let kinds = (2..=KINDS).filter(|&kind| kind_occurs(kind)).map(|kind| format!("k{kind}"));
        let others = ["vary", drawing::SEVERAL].map(String::from);
        for style in values.chain(kinds).chain(others) {
            assert!(STYLE.contains(&format!(".{style} {{ fill: ")), "{style}");
        }
    }

    #[test]
    fn the_style_sheet_has_the_widths_of_labels() {
        for (pixels, class) in &labels::LEVELS[1..] {
            let (below, class) = (pixels - 1, class.trim());
            let rule = format!("(max-width: {below}px) {{ .{class} {{ display: none; }} }}");
            assert!(STYLE.contains(&rule), "{rule}");
        }
    }

    #[test]
    fn the_title_is_the_first_comment_and_markup_in_it_is_none() {
        let text = "# <script>alert('a & b')</script>\n.input 0..9 # <b>haul</b>\nnop # </code>\n";
        let page = by_source(text);
        assert!(page.contains("<h1>&lt;script&gt;alert('a &amp; b')&lt;/script&gt;</h1>"));
        assert!(page.contains("&lt;b&gt;haul&lt;/b&gt;") && !page.contains("<b>haul"));
        assert!(page.contains("nop # &lt;/code&gt;") && page.matches("<script>").count() == 1);
        assert!(by_source("nop").contains("<h1>rule.s</h1>"));
    }

    #[test]
    fn a_job_has_its_instructions_for_lines() {
        let page = by_job(job_a());
        assert!(
            page.contains("<h1>rule.job</h1>") && page.contains("<code>sltu a0, t0, t1</code>")
        );
        assert!(page.contains("<a href=\"#at-28\">28</a> <small>ecall</small>"));
        assert!(page.contains("input 0 →"), "an input without a name has its number");
    }

    #[test]
    fn a_page_has_the_whole_listing() {
        assert_eq!(by_job(Job { first: 1, ..job_a() }), by_job(job_a()));
    }

    #[test]
    fn a_path_leads_to_its_row_its_shape_and_its_end() {
        let page = by_source(include_str!("../jobs/job-a.s"));
        assert!(page.contains("<a id=\"shape-1\" href=\"#path-1\">"));
        let row =
            "<tr id=\"path-1\" data-path=\"1\"><td class=\"path\"><a href=\"#shape-1\">1</a></td>";
        assert!(page.contains(row));
        assert!(page.contains(
            "<td class=\"at\"><a href=\"#at-28\">28</a> <small>line 14: ecall</small></td>"
        ));
        let ends = "<span class=\"ends\">end</span> of <a href=\"#path-0\">0</a>, <a href=\"#path-1\">1</a>";
        assert!(page.contains(ends));
    }

    #[test]
    fn registers_are_there_on_request() {
        let page = by_job(job_a());
        assert!(page.contains("<details><summary>show</summary>\nsp 4096\nt0 0..9\n"), "{page}");
    }

    #[test]
    fn a_rule_without_inputs_has_one_choice_and_no_shape() {
        let page = by_source("li a7, 93\necall");
        assert!(page.contains("<b>1 path</b> for 1 choice of 0 inputs."));
        assert!(!page.contains("class=\"shape"));
    }

    #[test]
    fn a_path_that_ends_outside_the_code_has_no_instruction_to_lead_to() {
        let page = by_source("j 400");
        assert!(page.contains("<td class=\"at\">400, no instruction there</td>"));
        assert!(
            page.contains("<a href=\"#end-3\">what to do</a>") && page.contains("id=\"end-3\"")
        );
    }
}
