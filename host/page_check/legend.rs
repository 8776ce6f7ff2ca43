//! A page's legend: which paths have which fill, how many choices they have, and what to do.

use crate::listing::{choices, end_in_words, read_ranges, Listing};
use crate::markup::{Element, Page};
use crate::rows::{cell_links, check_counts, read_style};
use std::collections::{BTreeMap, BTreeSet};

/// One row of the legend.
struct Entry<'a> {
    row: &'a Element,
    id: &'a str,
    style: &'a str,
    paths: BTreeSet<usize>,
}

/// The rows and fills are those of the paths.
pub fn check_legend(
    page: &Page,
    listing: &Listing,
    rows: &[&Element],
    styles: &[&str],
) -> Result<(), String> {
    let legend = read_legend(page, listing.paths.len())?;
    let places = read_places(&legend, listing.paths.len())?;
    for (number, &place) in places.iter().enumerate() {
        let (own, style) = (styles[number], legend[place].style);
        if own != style {
            return Err(format!("path {number} has the fill {own:?}, and in the legend {style:?}"));
        }
    }
    check_groups(listing, &places)?;
    for entry in &legend {
        let counts = check_counts(page, entry.row, sum(listing, entry), choices(&listing.start));
        counts.map_err(|fault| format!("legend {:?}: {fault}", entry.id))?;
    }
    for (number, &place) in places.iter().enumerate() {
        if let Some(to_do) = end_in_words(&listing.paths[number])?.1 {
            check_to_do(page, rows[number], &legend[place], &to_do)
                .map_err(|fault| format!("row of path {number}: {fault}"))?;
        }
    }
    Ok(())
}

fn read_legend<'a>(page: &'a Page, known: usize) -> Result<Vec<Entry<'a>>, String> {
    let tables: Vec<&Element> = page.elements.iter().filter(|e| e.is("table", "legend")).collect();
    let [table] = tables[..] else {
        return Err(format!("the page has {} legends", tables.len()));
    };
    let has_cells = |row: &&Element| page.inside(row).iter().any(|cell| cell.name == "td");
    // a row of headings alone is of no path
    let rows = page.inside(table).iter().filter(|inner| inner.name == "tr").filter(has_cells);
    let mut legend: Vec<Entry> = Vec::new();
    for (place, row) in rows.enumerate() {
        let entry = read_entry(page, row, known);
        let entry = entry.map_err(|fault| format!("row {place} of the legend: {fault}"))?;
        if legend.iter().any(|other| other.style == entry.style) {
            return Err(format!("two rows of the legend have the fill {:?}", entry.style));
        }
        legend.push(entry);
    }
    Ok(legend)
}

fn read_entry<'a>(page: &'a Page, row: &'a Element, known: usize) -> Result<Entry<'a>, String> {
    let id = row.get("id").ok_or("it has no id")?;
    let text = row.get("data-paths").ok_or("it has no data-paths")?;
    let paths = read_ranges(text, known).ok_or(format!("data-paths is {text:?}"))?;
    Ok(Entry { row, id, style: read_style(page, row)?, paths })
}

/// The one row that each path stands in.
fn read_places(legend: &[Entry], known: usize) -> Result<Vec<usize>, String> {
    let place = |path| {
        let mut places = (0..legend.len()).filter(|&place| legend[place].paths.contains(&path));
        match (places.next(), places.count()) {
            (Some(place), 0) => Ok(place),
            (None, _) => Err(format!("path {path} is not in the legend")),
            (_, more) => Err(format!("path {path} is in {} rows of the legend", more + 1)),
        }
    };
    (0..known).map(place).collect()
}

/// Each kind has rows of its own, each fixed exit has one row, and all that vary have another.
fn check_groups(listing: &Listing, places: &[usize]) -> Result<(), String> {
    let (mut of_rows, mut of_exits) = (BTreeMap::new(), BTreeMap::new());
    for (number, (path, &place)) in listing.paths.iter().zip(places).enumerate() {
        let sort = (path.kind, path.fixed_exit().is_some());
        let (first, wanted) = *of_rows.entry(place).or_insert((number, sort));
        if sort != wanted {
            return Err(format!("paths {first} and {number} are in one row of the legend"));
        }
        let exit = path.exit.map(|_| path.fixed_exit());
        let (first, wanted) = *of_exits.entry(exit).or_insert((number, place));
        if exit.is_some() && place != wanted {
            return Err(format!("paths {first} and {number} are in two rows of the legend"));
        }
    }
    Ok(())
}

/// The choices of all paths of a row, if they are below 2^64.
fn sum(listing: &Listing, entry: &Entry) -> Option<u64> {
    let mut counts = entry.paths.iter().map(|&path| choices(&listing.paths[path].inputs));
    counts.try_fold(0_u64, |sum, count| sum.checked_add(count?))
}

fn check_to_do(page: &Page, row: &Element, entry: &Entry, to_do: &str) -> Result<(), String> {
    let links: Vec<&str> = cell_links(page, row, "end").into_iter().map(|(to, _)| to).collect();
    if links != [format!("#{}", entry.id)] {
        return Err(format!("end leads to {links:?}, and it is in the legend's {:?}", entry.id));
    }
    match page.words(entry.row).contains(to_do) {
        true => Ok(()),
        false => Err(format!("the legend's {:?} does not say what to do", entry.id)),
    }
}

#[cfg(test)]
mod tests {
    use crate::samples::*;

    /// A page of one listing compared with another, in which one path ends otherwise.
    fn against(from: &str, to: &str) -> [Vec<String>; 2] {
        let other = ENDS_LISTING.replacen(from, to, 1);
        let other_page = page(&other, &ends());
        [faults(&page(ENDS_LISTING, &ends()), &other), faults(&other_page, ENDS_LISTING)]
    }

    #[test]
    fn a_page_has_one_legend() {
        let start = "<table class=\"legend\">";
        ends_refused(start, "<table>", "the page has 0 legends");
        ends_refused("<p>", &format!("{start}</table><p>"), "the page has 2 legends");
        ends_refused("id=\"end-exit-4\" ", "", "row 0 of the legend: it has no id");
        let none = "row 5 of the legend: it has no data-paths";
        ends_refused(" data-paths=\"1,8\"", "", none);
        for paths in ["", "1,9", "8-1", "1,,8"] {
            let message = format!("row 5 of the legend: data-paths is {paths:?}");
            ends_refused("\"1,8\"", &format!("{paths:?}"), &message);
        }
        let swatch = "\"fill\"> <svg><rect class=\"exit-4\"";
        let message = "row 0 of the legend: the swatch is a shape, or in no svg";
        ends_refused(swatch, &swatch.replace("rect", "rect data-path=\"0\""), message);
        let message = "row 0 of the legend: the swatch has the class \"\"";
        ends_refused(swatch, &swatch.replace("exit-4", ""), message);
    }

    #[test]
    fn each_path_is_in_one_row() {
        ends_refused("\"1,8\"", "\"1\"", "path 8 is not in the legend");
        ends_refused("\"1,8\"", "\"0-1,8\"", "path 0 is in 2 rows of the legend");
        let swatch = "\"fill\"> <svg><rect class=\"exit-4\"";
        let message = "path 0 has the fill \"exit-4\", and in the legend \"other\"";
        ends_refused(swatch, &swatch.replace("exit-4", "other"), message);
        let message = "two rows of the legend have the fill \"varies\"";
        ends_refused(swatch, &swatch.replace("exit-4", "varies"), message);
        let swapped = exchanged(
            &page(ENDS_LISTING, &ends()),
            "id=\"end-varies\" data-paths=\"1,8\"",
            "id=\"end-exit-4\" data-paths=\"0,2\"",
        );
        let message = "path 0 has the fill \"exit-4\", and in the legend \"varies\"".to_string();
        assert!(faults(&swapped, ENDS_LISTING).contains(&message));
    }

    #[test]
    fn rows_are_of_one_end() {
        let has = |faults: &[String], message: &str| {
            assert!(faults.iter().any(|fault| fault == message), "{message}: {faults:?}");
        };
        let [kinds, _] = against("path 5 end 7", "path 5 end 3");
        has(&kinds, "paths 4 and 5 are in one row of the legend");
        let [varying, _] = against("20..29 exit 4..4", "20..29 exit 4..5");
        has(&varying, "paths 0 and 2 are in one row of the legend");
        let [values, apart] = against("20..29 exit 4..4", "20..29 exit 5..5");
        has(&apart, "paths 0 and 2 are in two rows of the legend");
        // fixed exits of several values may share a row
        assert_eq!(values, ["row of path 2: exit is [\"4\"], and in the listing [\"5\"]"]);
        let [_, apart] = against("exit 10..11", "exit 10..10");
        has(&apart, "paths 1 and 8 are in two rows of the legend");
    }

    #[test]
    fn rows_have_sums() {
        let is = |class: &str, found: &str, wanted: &str| {
            format!("legend \"end-varies\": {class} is {found:?}, and by the listing {wanted:?}")
        };
        ends_refused("> 999975<", "> 999965<", &is("choices", "999965", "999975"));
        let (sum, share) = ("> 999975</td><td class=\"share\"> ", "over 99.99 %");
        let message = is("share", "100.00 %", share);
        ends_refused(&format!("{sum}{share}"), &format!("{sum}100.00 %"), &message);
        let message = "legend \"end-varies\": there are 0 cells choices";
        ends_refused("<td class=\"choices\"> 999975", "<td> 999975", message);
        let message = "legend \"end-exit-7\": choices is \"18446744073709551616\", \
                       and by the listing \"2^64 or more\"";
        let sum = ("2^64 or more", "18446744073709551616");
        refused(HALVES, HALVES_LISTING, sum, message);
    }

    #[test]
    fn rows_say_what_to_do() {
        let message = "row of path 7: end leads to [\"#end-reason-1\"], \
                       and it is in the legend's \"end-reason-6\"";
        ends_refused("#end-reason-6", "#end-reason-1", message);
        let message = "row of path 7: the legend's \"end-reason-6\" does not say what to do";
        ends_refused("An input cannot", "An input can", message);
        let message = "row of path 4: the legend's \"end-kind-7\" does not say what to do";
        ends_refused("up to 65,536", "up to 65,535", message);
        let message = "row of path 0: the legend's \"end-kind-4\" does not say what to do";
        refused("", FIRST_LISTING, ("bne, shifts", "shifts"), message);
    }
}
