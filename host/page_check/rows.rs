//! The rows of a page's paths and of its program, compared with the listing.

use crate::listing::{
    choices, end_in_words, index, is_share, read_ranges, shown, shown_choices, shown_share,
    Listing, Path,
};
use crate::markup::{Element, Page};
use crate::picture::is_shape;
use std::collections::{BTreeMap, BTreeSet};

// ---------------------------------------------------------------------------------------------
// Paths.

/// One row for each path of the listing.
pub fn read_rows<'a>(page: &'a Page, listing: &Listing) -> Result<Vec<&'a Element>, String> {
    let mut rows: Vec<Vec<&Element>> = listing.paths.iter().map(|_| Vec::new()).collect();
    for row in page.named("tr") {
        let Some(path) = row.get("data-path") else { continue };
        let found = index(path).and_then(|path| rows.get_mut(path));
        found.ok_or(format!("a row is of path {path:?}, which the listing has not"))?.push(row);
        let id = row.get("id").unwrap_or_default();
        if id != format!("path-{path}") {
            return Err(format!("the row of path {path} has the id {id:?}"));
        }
    }
    if let Some(number) = rows.iter().position(|rows| rows.len() != 1) {
        return Err(format!("path {number} has {} rows", rows[number].len()));
    }
    Ok(rows.concat())
}

pub fn check_rows(page: &Page, listing: &Listing, rows: &[&Element]) -> Result<(), String> {
    let all = choices(&listing.start);
    for (number, (row, path)) in rows.iter().zip(&listing.paths).enumerate() {
        let named = |fault| format!("row of path {number}: {fault}");
        check_row(page, row, number, path).map_err(named)?;
        check_end(page, row, path).map_err(named)?;
        check_counts(page, row, choices(&path.inputs), all).map_err(named)?;
    }
    Ok(())
}

fn check_row(page: &Page, row: &Element, number: usize, path: &Path) -> Result<(), String> {
    let texts = |class: &str| -> Vec<String> {
        page.cells(row, class).iter().map(|cell| page.text(cell).to_string()).collect()
    };
    for (class, wanted) in [
        ("path", vec![number.to_string()]),
        ("in", path.inputs.iter().copied().map(shown).collect()),
        ("exit", vec![path.exit.map(shown).unwrap_or_default()]),
        ("steps", vec![path.steps.to_string()]),
    ] {
        let found = texts(class);
        if found != wanted {
            return Err(format!("{class} is {found:?}, and in the listing {wanted:?}"));
        }
    }
    let (found, pc) = (texts("at"), path.pc.to_string());
    let behind = |text: &String| text.strip_prefix(&pc).map(|text| text.chars().next());
    match found.iter().map(behind).collect::<Vec<_>>()[..] {
        [Some(next)] if !next.is_some_and(|letter| letter.is_ascii_digit()) => Ok(()),
        _ => Err(format!("at is {found:?}, and in the listing {pc}")),
    }
}

fn one_cell<'a>(page: &'a Page, row: &Element, class: &str) -> Result<&'a Element, String> {
    match page.cells(row, class)[..] {
        [cell] => Ok(cell),
        ref cells => Err(format!("there are {} cells {class}", cells.len())),
    }
}

/// Where the links in a row's cells of this class lead to, and their texts.
pub fn cell_links<'a>(page: &'a Page, row: &Element, class: &str) -> Vec<(&'a str, String)> {
    page.cells(row, class).into_iter().flat_map(|cell| page.links(cell)).collect()
}

/// Where the link leads to is for the legend to check.
fn check_end(page: &Page, row: &Element, path: &Path) -> Result<(), String> {
    let found = page.words(one_cell(page, row, "end")?);
    let (mut wanted, to_do) = end_in_words(path)?;
    let mut wanted_links = Vec::new();
    if to_do.is_some() {
        wanted += "; what to do";
        wanted_links.push("what to do".to_string());
    }
    if found != wanted {
        return Err(format!("end is {found:?}, and by the listing {wanted:?}"));
    }
    let links: Vec<String> =
        cell_links(page, row, "end").into_iter().map(|(_, text)| text).collect();
    match links == wanted_links {
        true => Ok(()),
        false => Err(format!("end has the links {links:?}")),
    }
}

/// The choices of a path, or of the paths of the legend's row, and their share of all.
pub fn check_counts(
    page: &Page,
    row: &Element,
    choices: Option<u64>,
    all: Option<u64>,
) -> Result<(), String> {
    let found = page.text(one_cell(page, row, "choices")?);
    let wanted = shown_choices(choices);
    if found != wanted {
        return Err(format!("choices is {found:?}, and by the listing {wanted:?}"));
    }
    let found = page.text(one_cell(page, row, "share")?);
    match choices.zip(all).map(|(choices, all)| shown_share(choices, all)) {
        Some(wanted) if found != wanted => {
            Err(format!("share is {found:?}, and by the listing {wanted:?}"))
        }
        None if !is_share(found) => Err(format!("share is {found:?}")),
        _ => Ok(()),
    }
}

/// A path's row leads to a shape of the path, unless nothing is drawn.
pub fn check_path_links(
    page: &Page,
    rows: &[&Element],
    shapes: &BTreeMap<&str, BTreeSet<usize>>,
) -> Result<(), String> {
    for (number, row) in rows.iter().enumerate() {
        let links = cell_links(page, row, "path");
        let leads = |to: &str| {
            let paths = to.strip_prefix('#').and_then(|id| shapes.get(id));
            paths.is_some_and(|paths| paths.contains(&number))
        };
        let agree = match &links[..] {
            [] => shapes.is_empty(),
            [(to, text)] => leads(to) && *text == number.to_string(),
            _ => false,
        };
        if !agree {
            return Err(format!("row of path {number}: path has the links {links:?}"));
        }
    }
    Ok(())
}

// ---------------------------------------------------------------------------------------------
// Fills.

/// The class of each path's fill.
pub fn read_styles<'a>(page: &'a Page, rows: &[&Element]) -> Result<Vec<&'a str>, String> {
    let read = |(number, row): (usize, &&Element)| {
        let style = one_cell(page, row, "end").and_then(|cell| read_style(page, cell));
        style.map_err(|fault| format!("row of path {number}: {fault}"))
    };
    rows.iter().enumerate().map(read).collect()
}

/// The fill that a row shows by its one small rectangle.
pub fn read_style<'a>(page: &'a Page, element: &Element) -> Result<&'a str, String> {
    let rects: Vec<&Element> =
        page.inside(element).iter().filter(|inner| inner.name == "rect").collect();
    let [rect] = rects[..] else {
        return Err(format!("there are {} swatches", rects.len()));
    };
    let mut outer = page.around(rect).take_while(|outer| outer.name != "tr");
    if is_shape(rect) || !outer.any(|outer| outer.name == "svg") {
        return Err("the swatch is a shape, or in no svg".to_string());
    }
    let style = rect.get("class").unwrap_or_default();
    match style.is_empty() || style.contains(char::is_whitespace) {
        true => Err(format!("the swatch has the class {style:?}")),
        false => Ok(style),
    }
}

// ---------------------------------------------------------------------------------------------
// The program.

/// One row of the program.
struct Instruction {
    at: u64,
    passed: BTreeSet<usize>,
    ended: BTreeSet<usize>,
}

pub fn check_program(page: &Page, listing: &Listing, rows: &[&Element]) -> Result<(), String> {
    let program = read_program(page, listing.paths.len())?;
    for (number, (row, path)) in rows.iter().zip(&listing.paths).enumerate() {
        check_way(&program, number, path).map_err(|fault| format!("path {number}: {fault}"))?;
        let is_there = program.iter().any(|instruction| instruction.at == path.pc);
        check_at(page, row, path.pc, is_there)
            .map_err(|fault| format!("row of path {number}: {fault}"))?;
    }
    Ok(())
}

fn read_program(page: &Page, known: usize) -> Result<Vec<Instruction>, String> {
    let is_one = |row: &&Element| {
        let of_program = row.get("data-passed").or(row.get("data-ended")).is_some();
        of_program || row.get("id").is_some_and(|id| id.starts_with("at-"))
    };
    let mut program = Vec::new();
    for (row, at) in page.named("tr").filter(is_one).zip((0..).step_by(4)) {
        let id = row.get("id").unwrap_or_default();
        if id != format!("at-{at}") {
            return Err(format!("the program has the row {id:?} in the place of at-{at}"));
        }
        let read = |name| read_members(row, name, known).map_err(|fault| format!("{id}: {fault}"));
        program.push(Instruction { at, passed: read("data-passed")?, ended: read("data-ended")? });
    }
    match program.is_empty() {
        true => Err("the page has no program".to_string()),
        false => Ok(program),
    }
}

fn read_members(row: &Element, name: &str, known: usize) -> Result<BTreeSet<usize>, String> {
    match row.get(name).ok_or(format!("{name} is missing"))? {
        "" => Ok(BTreeSet::new()),
        text => read_ranges(text, known).ok_or(format!("{name} is {text:?}")),
    }
}

/// A path's way through the program, as far as its steps and its end tell.
fn check_way(program: &[Instruction], number: usize, path: &Path) -> Result<(), String> {
    let rows = |of: fn(&Instruction) -> &BTreeSet<usize>| -> Vec<u64> {
        program.iter().filter(|row| of(row).contains(&number)).map(|row| row.at).collect()
    };
    let (pc, steps) = (path.pc, path.steps);
    let here: Vec<u64> = program.iter().map(|row| row.at).filter(|&at| at == pc).collect();
    // kind 3 is a pc outside of the code, and the step limit is asked before the pc
    if path.kind != 7 && here.is_empty() != (path.kind == 3) {
        return Err(format!("it ends with kind {} at {pc}, in {} rows", path.kind, here.len()));
    }
    let ended = rows(|row| &row.ended);
    if ended != here {
        return Err(format!("it ended at {ended:?}, and by the listing at {here:?}"));
    }
    let passed = rows(|row| &row.passed);
    match passed.contains(&0) == (steps > 0) && passed.len() as u64 <= steps {
        true => Ok(()),
        false => Err(format!("it passed {passed:?} in {steps} steps")),
    }
}

fn check_at(page: &Page, row: &Element, pc: u64, is_there: bool) -> Result<(), String> {
    let links = cell_links(page, row, "at");
    let agree = match &links[..] {
        [] => !is_there,
        [(to, text)] => is_there && *to == format!("#at-{pc}") && *text == pc.to_string(),
        _ => false,
    };
    match agree {
        true => Ok(()),
        false => Err(format!("at has the links {links:?}")),
    }
}

#[cfg(test)]
mod tests {
    use crate::samples::*;

    #[test]
    fn each_path_has_a_row() {
        line_refused("id=\"path-1\" data-path=\"1\"", "", "path 1 has 0 rows");
        let twice = "<tr id=\"path-0\" data-path=\"0\"></tr><tr id=\"path-0\"";
        line_refused("<tr id=\"path-0\"", twice, "path 0 has 2 rows");
        line_refused("<tr id=\"path-0\"", twice, "two elements have the id path-0");
        let other = "a row is of path \"3\", which the listing has not";
        line_refused("id=\"path-1\" data-path=\"1\"", "id=\"path-3\" data-path=\"3\"", other);
        let zero = "a row is of path \"01\", which the listing has not";
        line_refused("id=\"path-1\" data-path=\"1\"", "id=\"path-01\" data-path=\"01\"", zero);
        line_refused("id=\"path-1\"", "id=\"row-1\"", "the row of path 1 has the id \"row-1\"");
    }

    #[test]
    fn rows_agree_with_the_listing() {
        let steps = "row of path 0: steps is [\"11\"], and in the listing [\"10\"]";
        line_refused("\"steps\"> 10", "\"steps\"> 11", steps);
        let steps = "row of path 0: steps is [], and in the listing [\"10\"]";
        line_refused("\"steps\"", "\"step\"", steps);
        let exit = "row of path 0: exit is [\"1..2\"], and in the listing [\"1..20\"]";
        line_refused("1..20", "1..2", exit);
        let exit = "row of path 1: exit is [\"0\"], and in the listing [\"\"]";
        line_refused("\"exit num\"> </td>", "\"exit num\">0</td>", exit);
        let low = "row of path 1: in is [\"20..20\"], and in the listing [\"20\"]";
        line_refused("\"in\"> 20<", "\"in\"> 20..20<", low);
        let two = "row of path 1: in is [\"20\", \"1\"], and in the listing [\"20\"]";
        line_refused("\"in\"> 20</td>", "\"in\"> 20</td><td class=\"in\">1</td>", two);
        let swapped =
            "row of path 1: in is [\"0..1\", \"5..9\"], and in the listing [\"5..9\", \"0..1\"]";
        let (from, to) =
            ("> 5..9</td><td class=\"in\"> 0..1<", "> 0..1</td><td class=\"in\"> 5..9<");
        plane_refused(from, to, swapped);
        for at in ["640", "6", "", "x64"] {
            let message = format!("row of path 0: at is [{at:?}], and in the listing 64");
            line_refused("64</a>, <i>line 3</i>", &format!("{at}</a>"), &message);
        }
        let none = "row of path 0: at is [], and in the listing 64";
        line_refused("\"at\"", "\"end\"", none);
    }

    #[test]
    fn rows_have_one_cell_of_each_class() {
        let none = "row of path 0: path is [], and in the listing [\"0\"]";
        line_refused("\"path\"", "\"\"", none);
        let other = "row of path 0: path is [\"1\"], and in the listing [\"0\"]";
        line_refused("shape-0\">0</a>", "shape-0\">1</a>", other);
        for class in ["end", "choices", "share"] {
            let start = format!("<td class=\"{class}\">");
            let message = format!("row of path 0: there are 0 cells {class}");
            line_refused(&start, "<td>", &message);
            let message = format!("row of path 0: there are 2 cells {class}");
            line_refused(&start, &format!("{start}</td>{start}"), &message);
        }
    }

    #[test]
    fn rows_lead_to_shapes() {
        let link = "<a href=\"#shape-1\">1</a>";
        for (to, links) in [
            ("<a href=\"#shape-2\">1</a>", "(\"#shape-2\", \"1\")"),
            ("<a href=\"#path-1\">1</a>", "(\"#path-1\", \"1\")"),
            ("<a href=\"#shape-1\"></a>1", "(\"#shape-1\", \"\")"),
            ("1", ""),
        ] {
            line_refused(link, to, &format!("row of path 1: path has the links [{links}]"));
        }
        let two = "(\"#shape-1\", \"\"), (\"#shape-1\", \"1\")";
        let message = format!("row of path 1: path has the links [{two}]");
        line_refused(link, &format!("<a href=\"#shape-1\"></a>{link}"), &message);
        let none = "row of path 0: path has the links [(\"#path-0\", \"0\")]";
        let to = "\"path\"> <a href=\"#path-0\">0</a><";
        refused("", NONE_LISTING, ("\"path\"> 0<", to), none);
    }

    #[test]
    fn ends_are_those_of_the_listing() {
        let is = |path, found: &str, wanted: &str| {
            format!("row of path {path}: end is {found:?}, and by the listing {wanted:?}")
        };
        let wanted = "exit with 0 to 9";
        ends_refused("exit with 0 to 9", "exit with 0", &is(1, "exit with 0", wanted));
        ends_refused(" exit with 4", "", &is(0, "", "exit with 4"));
        let wanted = "not followed: both operands vary; what to do";
        let bare = "not followed; what to do";
        ends_refused(": both operands vary", "", &is(6, bare, wanted));
        let wanted = "the step limit is reached; what to do";
        let found = "the trace table is full; what to do";
        ends_refused("the step limit is reached", "the trace table is full", &is(4, found, wanted));
        let link = "; <a href=\"#end-kind-7\">what to do</a>";
        ends_refused(link, "", &is(4, "the step limit is reached", wanted));
        let message = "row of path 4: end has the links []";
        ends_refused(link, "; what to do", message);
        let message = "row of path 4: end has the links [\"to do\"]";
        ends_refused(link, "; what <a href=\"#end-kind-7\">to do</a>", message);
        let message = "row of path 0: end has the links [\"4\"]";
        ends_refused("exit with 4", "exit with <a href=\"#end-exit-4\">4</a>", message);
        let apart = page(ENDS_LISTING, &ends()).replace("exit with 4", "exit\n with 4 ");
        assert_eq!(faults(&apart, ENDS_LISTING), [""; 0]);
    }

    #[test]
    fn choices_and_shares_are_counted() {
        let right = page(PLANE_LISTING, PLANE);
        for (count, share) in [(40, "50.00"), (10, "12.50"), (30, "37.50")] {
            let cells = format!("\"choices\"> {count}</td><td class=\"share\"> {share} %</td>");
            assert!(right.contains(&cells));
        }
        let message = "row of path 1: choices is \"11\", and by the listing \"10\"";
        plane_refused("\"choices\"> 10<", "\"choices\"> 11<", message);
        let message = "row of path 1: share is \"12.51 %\", and by the listing \"12.50 %\"";
        plane_refused("12.50 %", "12.51 %", message);
        let message = "row of path 8: share is \"100.00 %\", and by the listing \"over 99.99 %\"";
        ends_refused("over 99.99 %", "100.00 %", message);
        line_refused("12.50 %", "12.5 %", "row of path 0: share is \"12.5 %\"");
        let wide = page(LINE_LISTING, LINE);
        assert!(wide.contains("\"choices\"> 18446744073709551595<"));
        assert_eq!(faults(&wide.replace("12.50 %", "under 0.01 %"), LINE_LISTING), [""; 0]);
    }

    #[test]
    fn rows_have_swatches() {
        let rect = "<rect class=\"varies\" width=\"9\" height=\"9\"/>";
        let svg = format!("<svg>{rect}</svg>");
        line_refused(&svg, "", "row of path 0: there are 0 swatches");
        line_refused(&svg, &svg.repeat(2), "row of path 0: there are 2 swatches");
        let message = "row of path 0: the swatch is a shape, or in no svg";
        line_refused(&svg, "<rect class=\"varies\"></rect>", message);
        line_refused(rect, "<rect data-path=\"0\" class=\"varies\"/>", message);
        for class in ["", "varies wide"] {
            let message = format!("row of path 0: the swatch has the class {class:?}");
            line_refused(rect, &format!("<rect class={class:?}/>"), &message);
        }
    }

    #[test]
    fn a_program_has_its_rows_in_order() {
        let right = page(ENDS_LISTING, &ends());
        let (before, program) = right.split_once("<table><tr id=\"at-0\"").unwrap_or_default();
        let (_, behind) = program.split_once("</table>").unwrap_or_default();
        let message = "the page has no program".to_string();
        assert!(faults(&(before.to_string() + behind), ENDS_LISTING).contains(&message));
        let message = "the program has the row \"at-16\" in the place of at-8";
        ends_refused("id=\"at-8\"", "id=\"at-16\"", message);
        let message = "the program has the row \"at-12\" in the place of at-8";
        let swapped = exchanged(&right, "<tr id=\"at-8\"", "<tr id=\"at-12\"");
        assert!(faults(&swapped, ENDS_LISTING).contains(&message.to_string()));
        let message = "the program has the row \"\" in the place of at-8";
        ends_refused("<tr id=\"at-8\"", "<tr", message);
        let first = "id=\"at-0\" data-passed=\"0,1,2,3,4,5,6,7,8\"";
        ends_refused(first, "id=\"at-0\"", "at-0: data-passed is missing");
        let message = "at-0: data-passed is \"0-9\"";
        ends_refused(first, "id=\"at-0\" data-passed=\"0-9\"", message);
        ends_refused("data-ended=\"\"", "", "at-0: data-ended is missing");
    }

    #[test]
    fn paths_end_and_pass_in_the_program() {
        let message = "path 3: it ended at [0], and by the listing at []";
        ends_refused("data-ended=\"\"", "data-ended=\"3\"", message);
        let message = "path 0: it ended at [0, 8], and by the listing at [8]";
        ends_refused("data-ended=\"\"", "data-ended=\"0\"", message);
        let message = "path 6: it passed [0, 4] in 1 steps";
        ends_refused("data-passed=\"0,1,2,3,4,5,8\"", "data-passed=\"0-6,8\"", message);
        let message = "path 8: it passed [4] in 4 steps";
        ends_refused("data-passed=\"0,1,2,3,4,5,6,7,8\"", "data-passed=\"0-7\"", message);
        let message = "path 0: it passed [0] in 0 steps";
        refused("", FIRST_LISTING, ("data-passed=\"\"", "data-passed=\"0\""), message);
        let last = "<tr id=\"at-12\" data-passed=\"\" data-ended=\"1,8\">";
        let row = format!("{last}<td>12</td><td>nop</td></tr>");
        ends_refused(&row, "", "path 1: it ends with kind 1 at 12, in 0 rows");
        let more = row.clone() + &row.replace("12", "16").replace("1,8", "3");
        ends_refused(&row, &more, "path 3: it ends with kind 3 at 16, in 1 rows");
    }

    #[test]
    fn ends_lead_to_the_program() {
        let link = "<a href=\"#at-8\">8</a>";
        for (to, links) in [
            ("<a href=\"#at-4\">8</a>", "(\"#at-4\", \"8\")"),
            ("8<a href=\"#at-8\"></a>", "(\"#at-8\", \"\")"),
            ("8", ""),
        ] {
            ends_refused(link, to, &format!("row of path 0: at has the links [{links}]"));
        }
        let message = "row of path 3: at has the links [(\"#at-12\", \"16\")]";
        ends_refused("\"at\"> 16", "\"at\"> <a href=\"#at-12\">16</a>", message);
    }
}
