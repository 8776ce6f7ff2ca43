//! The table of paths.

use super::choices::Choices;
use super::drawing::Drawing;
use super::html::{cell_interval, escape, interval};
use super::legend::swatch;
use super::program::inside;
use super::Page;
use formats::instruction::register_name;
use formats::numbers::EXITED;
use formats::report::{end_text, Record};

/// Paths of a part of the table: a browser lays out the parts that are seen.
const PART: usize = 250;

/// A cell's class and its text as it is shown.
type Cell = (&'static str, String);

pub fn html(drawing: &Drawing) -> String {
    let parts = drawing.page.records.chunks(PART).zip((0..).step_by(PART));
    parts.map(|(records, first)| part(drawing, records, first)).collect()
}

fn part(drawing: &Drawing, records: &[Record], first: usize) -> String {
    let class = if drawing.page.records.len() > PART { "scroll part" } else { "scroll" };
    let rows: String =
        records.iter().zip(first..).map(|(record, path)| row(drawing, record, path)).collect();
    format!(
        "<div class=\"{class}\"><table class=\"paths\">\n{}<tbody>\n{rows}</tbody>\n</table></div>\n",
        heading(drawing.page)
    )
}

fn heading(page: &Page) -> String {
    let inputs = (0..page.start().len()).map(|input| page.name(input));
    let names = ["Path"].into_iter().chain(inputs);
    let names = names.chain(["Leads to", "Exit", "At", "Steps", "Choices", "Share", "Registers"]);
    let names: String = names.map(|name| format!("<th>{}</th>", escape(name))).collect();
    format!("<thead><tr>{names}</tr></thead>\n")
}

fn row(drawing: &Drawing, record: &Record, path: usize) -> String {
    let cells: String = cells(drawing.page, record)
        .iter()
        .map(|(class, text)| format!("<td class=\"{class}\">{text}</td>"))
        .collect();
    let number = drawing.link(path);
    format!(
        "<tr id=\"path-{path}\" data-path=\"{path}\"><td class=\"path\">{number}</td>{cells}</tr>\n"
    )
}

fn cells(page: &Page, record: &Record) -> Vec<Cell> {
    let choices = Choices::new(&record.intervals, page.start());
    let exit = if record.kind == EXITED { cell_interval(record.exit) } else { String::new() };
    let inputs = record.intervals.iter().map(|&held| ("in", cell_interval(held)));
    let after = [
        ("end", end(page, record)),
        ("exit", exit),
        ("at", at(page, record)),
        ("steps", record.steps.to_string()),
        ("choices", choices.text()),
        ("share", choices.share_text(page.legend.all())),
        ("registers", registers(record)),
    ];
    inputs.chain(after).collect()
}

/// In words; where something can be done about it, with a link to what that is.
fn end(page: &Page, record: &Record) -> String {
    let (swatch, words) = (swatch(&page.legend.style(record)), escape(&end_text(record)));
    match record.kind {
        EXITED => format!("{swatch} {words}"),
        _ => {
            let advice = page.legend.anchor(record);
            format!("{swatch} {words}; <a href=\"#{advice}\">what to do</a>")
        }
    }
}

/// The pc, with its line of the source or its instruction.
fn at(page: &Page, record: &Record) -> String {
    let pc = record.pc;
    match inside(&page.rule.job, pc) {
        None => format!("{pc}, no instruction there"),
        Some(word) => {
            format!("<a href=\"#at-{pc}\">{pc}</a> <small>{}</small>", escape(&page.code[word]))
        }
    }
}

/// On request: the registers that are not 0.
fn registers(record: &Record) -> String {
    let numbered = record.registers.iter().zip(0..);
    let shown = numbered.filter(|(held, _)| **held != (0, 0));
    let lines =
        shown.map(|(&held, register)| format!("\n{} {}", register_name(register), interval(held)));
    format!("<details><summary>show</summary>{}</details>", lines.collect::<String>())
}
