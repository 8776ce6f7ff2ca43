//! Right pages for the tests of `page_check`, made by hand around a picture, and what damages them.

use crate::check;
use crate::listing::{
    choices, end_in_words, read_listing, read_ranges, shown, shown_choices, shown_share, Listing,
    Path,
};
use std::collections::{BTreeMap, BTreeSet};

pub const LINE_LISTING: &str = "paths 3 more 0
path 0 end 1 at 64 steps 10 in 0..19 exit 1..20
path 1 end 2 at 60 steps 13 in 20..20
path 2 end 8 at 56 steps 12 in 21..18446744073709551615 reason 1
";
pub const LINE: &str = r#"<svg class="plane wide" data-x="0">
<g><rect data-path="0" x="0%" y="0%" width="33.333%" height="100%"><title>0..19</title></rect></g>
<rect data-path="1" x="33.333%" y="0%" width="0.25%" height="100%"/>
<rect data-path="2" x="33.583%" y="0%" width="66.417%" height="100%"/>
</svg>"#;

pub const PLANE_LISTING: &str = "paths 3 more 0
path 0 end 1 at 8 steps 3 in 0..4 in 0..7 exit 0..0
path 1 end 1 at 8 steps 4 in 5..9 in 0..1 exit 1..2
path 2 end 1 at 8 steps 4 in 5..9 in 2..7 exit 2..2
";
pub const PLANE: &str = r#"<svg class="plane" data-x="0" data-y="1" data-rest="">
<rect data-path="0" x="0%" y="0%" width="50%" height="100%"/>
<rect data-path="1" x="50%" y="75%" width="50%" height="25%"/>
<rect data-path="2" x="50%" y="0%" width="50%" height="75%"/>
</svg>"#;
pub const BANDS: &str = r#"<svg class="bands" data-x="0">
<rect data-path="0" x="0%" y="0" width="50%" height="9"/>
<rect data-path="1" x="50%" y="10px" width="50%" height="9px"/>
<rect data-path="2" x="50%" y="20.5" width="50%" height="9"/>
</svg><svg class="bands" data-x="1">
<rect data-path="0" x="0%" y="0" width="100%" height="9"/>
<rect data-path="1" x="0%" y="10" width="25%" height="9"/>
<rect data-path="2" x="25%" y="20.5" width="75%" height="9"/>
</svg>"#;

/// Path 0 is in both planes; input 1 is cut by no path.
pub const RESTS_LISTING: &str = "paths 4 more 0
path 0 end 1 at 8 steps 3 in 0..4 in 0..7 in 0..3 exit 0..0
path 1 end 1 at 8 steps 4 in 5..9 in 0..7 in 0..0 exit 0..0
path 2 end 1 at 8 steps 5 in 5..7 in 0..7 in 1..3 exit 0..0
path 3 end 1 at 8 steps 5 in 8..9 in 0..7 in 1..3 exit 0..0
";
pub const RESTS: &str = r#"<svg class="plane" data-x="0" data-rest="2:0..0">
<rect data-path="0" x="0%" y="0%" width="50%" height="100%"/>
<rect data-path="1" x="50%" y="0%" width="50%" height="100%"/>
</svg><svg class="plane" data-x="0" data-rest="2:1..3">
<rect data-path="0" x="0%" y="0%" width="40%" height="100%"/>
<rect data-path="2" x="40%" y="0%" width="30%" height="100%"/>
<rect data-path="3" x="70%" y="0%" width="30%" height="100%"/>
</svg>"#;

/// The lower paths are cut at 3, the upper ones at 5.
pub const STEPS_LISTING: &str = "paths 4 more 0
path 0 end 1 at 8 steps 3 in 0..2 in 0..3 exit 0..0
path 1 end 1 at 8 steps 3 in 3..9 in 0..3 exit 0..0
path 2 end 1 at 8 steps 3 in 0..4 in 4..7 exit 0..0
path 3 end 1 at 8 steps 3 in 5..9 in 4..7 exit 0..0
";

/// With the place of 3 in percent, and what is left beside it.
pub fn steps(place: &str, beside: &str) -> String {
    format!(
        r#"<svg class="plane" data-x="0" data-y="1">
<rect data-path="0" x="0%" y="50%" width="{place}%" height="50%"/>
<rect data-path="1" x="{place}%" y="50%" width="{beside}%" height="50%"/>
<rect data-path="2" x="0%" y="0%" width="50%" height="50%"/>
<rect data-path="3" x="50%" y="0%" width="50%" height="50%"/>
</svg>"#
    )
}

pub const MERGED_LISTING: &str = "paths 4 more 0
path 0 end 1 at 8 steps 3 in 0..49 exit 0..0
path 1 end 1 at 8 steps 4 in 50..50 exit 0..0
path 2 end 1 at 8 steps 5 in 51..51 exit 0..0
path 3 end 1 at 8 steps 6 in 52..99 exit 0..0
";
pub const MERGED: &str = r#"<svg class="plane" data-x="0">
<rect data-path="0" x="0%" y="0%" width="49%" height="100%"/>
<rect data-paths="1-2" x="49%" y="0%" width="4%" height="100%"/>
<rect data-path="3" x="53%" y="0%" width="47%" height="100%"/>
</svg>"#;
pub const MERGED_BANDS: &str = r#"<svg class="bands" data-x="0">
<rect data-path="0" x="0%" y="0" width="50%" height="9"/>
<rect data-paths="1,2" x="50%" y="10" width="2%" height="9"/>
<rect data-path="3" x="52%" y="20" width="48%" height="9"/>
</svg>"#;

/// Several kinds of ends in a line; there is no instruction at 16 and at 20.
pub const ENDS_LISTING: &str = "paths 9 more 0
path 0 end 1 at 8 steps 3 in 0..9 exit 4..4
path 1 end 1 at 12 steps 4 in 10..19 exit 0..9
path 2 end 1 at 8 steps 3 in 20..29 exit 4..4
path 3 end 3 at 16 steps 4 in 30..30
path 4 end 7 at 4 steps 9 in 31..31
path 5 end 7 at 20 steps 9 in 32..32
path 6 end 8 at 4 steps 1 in 33..33 reason 1
path 7 end 8 at 4 steps 1 in 34..34 reason 6
path 8 end 1 at 12 steps 4 in 35..999999 exit 10..11
";

pub fn ends() -> String {
    let rect = |path: u32| {
        let width = if path == 8 { 20 } else { 10 };
        format!(
            "<rect data-path=\"{path}\" x=\"{}%\" y=\"0%\" width=\"{width}%\" height=\"100%\"/>\n",
            10 * path
        )
    };
    format!("<svg class=\"plane\" data-x=\"0\">\n{}</svg>", (0..9).map(rect).collect::<String>())
}

/// Each path has fewer than 2^64 choices, and both together have not.
pub const HALVES_LISTING: &str = "paths 2 more 0
path 0 end 1 at 8 steps 3 in 0..9223372036854775807 exit 7..7
path 1 end 1 at 8 steps 4 in 9223372036854775808..18446744073709551615 exit 7..7
";
pub const HALVES: &str = r#"<svg class="plane" data-x="0">
<rect data-path="0" x="0%" y="0%" width="50%" height="100%"/>
<rect data-path="1" x="50%" y="0%" width="50%" height="100%"/>
</svg>"#;

pub const NONE_LISTING: &str = "paths 1 more 0\npath 0 end 1 at 8 steps 3 exit 7..7\n";
/// Its first word is no instruction.
pub const FIRST_LISTING: &str = "paths 1 more 0\npath 0 end 4 at 0 steps 0\n";

// ---------------------------------------------------------------------------------------------
// Parts of a page.

/// A class for each end that has a row in the legend.
fn style(path: &Path) -> String {
    match (path.fixed_exit(), path.exit, path.reason) {
        (Some(value), ..) => format!("exit-{value}"),
        (_, Some(_), _) => "varies".to_string(),
        (.., Some(reason)) => format!("reason-{reason}"),
        _ => format!("kind-{}", path.kind),
    }
}

fn cell(class: &str, text: &str) -> String {
    format!("<td class=\"{class}\"> {text}</td>")
}

fn swatch(style: &str) -> String {
    format!("<svg><rect class=\"{style}\" width=\"9\" height=\"9\"/></svg>")
}

/// A share of choices that are not counted is any.
fn counts(choices: Option<u64>, all: Option<u64>) -> String {
    let share = choices.zip(all).map(|(choices, all)| shown_share(choices, all));
    let share = share.unwrap_or("12.50 %".to_string());
    cell("choices", &shown_choices(choices)) + &cell("share", &share)
}

fn list(paths: impl Iterator<Item = usize>) -> String {
    paths.map(|path| path.to_string()).collect::<Vec<String>>().join(",")
}

/// The picture with a link around each shape and a fill on it, and the paths of each shape.
fn linked(picture: &str, listing: &Listing) -> (String, Vec<BTreeSet<usize>>) {
    let mut parts = picture.split("<rect ");
    let (mut linked, mut shapes) = (parts.next().unwrap_or_default().to_string(), Vec::new());
    for (place, part) in parts.enumerate() {
        let end = part.find("</rect>").map(|end| end + "</rect>".len());
        let (rect, behind) = part.split_at(end.or(part.find("/>").map(|end| end + 2)).unwrap_or(0));
        let paths = part.split('"').nth(1).unwrap_or_default();
        let paths = read_ranges(paths, listing.paths.len()).unwrap_or_default();
        let first = paths.first().copied().unwrap_or_default();
        let fill =
            if paths.len() > 1 { "several".to_string() } else { style(&listing.paths[first]) };
        linked += &format!("<a id=\"shape-{place}\" href=\"#path-{first}\">");
        linked += &format!("<rect class=\"shape {fill}\" {rect}</a>{behind}");
        shapes.push(paths);
    }
    (linked, shapes)
}

/// The addresses of the program's rows.
fn addresses(listing: &Listing) -> impl Iterator<Item = u64> {
    let inside = listing.paths.iter().filter(|path| ![3, 7].contains(&path.kind));
    (0..=inside.map(|path| path.pc).max().unwrap_or(0)).step_by(4)
}

/// The first two instructions are passed as far as the steps go.
fn program(listing: &Listing) -> String {
    let row = |at: u64| {
        let of = |chosen: &dyn Fn(&Path) -> bool| {
            list((0..listing.paths.len()).filter(|&path| chosen(&listing.paths[path])))
        };
        let passed = of(&|path| at <= 4 && path.steps > at / 4);
        let ended = of(&|path| path.pc == at);
        let data = format!("data-passed=\"{passed}\" data-ended=\"{ended}\"");
        format!("<tr id=\"at-{at}\" {data}><td>{at}</td><td>nop</td></tr>")
    };
    format!("<table>{}</table>", addresses(listing).map(row).collect::<String>())
}

fn legend(listing: &Listing) -> String {
    let mut entries: BTreeMap<String, Vec<usize>> = BTreeMap::new();
    for (number, path) in listing.paths.iter().enumerate() {
        entries.entry(style(path)).or_default().push(number);
    }
    let row = |(style, paths): (&String, &Vec<usize>)| {
        let count = |&path: &usize| choices(&listing.paths[path].inputs);
        let sum = paths.iter().map(count).try_fold(0_u64, |sum, count| sum.checked_add(count?));
        let (words, to_do) = end_in_words(&listing.paths[paths[0]]).unwrap_or_default();
        let text = cell("what", &format!("{words}. {}", to_do.unwrap_or_default()));
        let cells = cell("fill", &swatch(style)) + &text + &counts(sum, choices(&listing.start));
        let paths = list(paths.iter().copied());
        format!("<tr id=\"end-{style}\" data-paths=\"{paths}\">{cells}</tr>")
    };
    let rows: String = entries.iter().map(row).collect();
    format!("<table class=\"legend\"><tr><th>end</th></tr>{rows}</table>")
}

fn path_row(listing: &Listing, shapes: &[BTreeSet<usize>], number: usize) -> String {
    let path = &listing.paths[number];
    let shape = shapes.iter().position(|paths| paths.contains(&number)).unwrap_or(0);
    let name = match shapes.is_empty() {
        true => number.to_string(),
        false => format!("<a href=\"#shape-{shape}\">{number}</a>"),
    };
    let (words, to_do) = end_in_words(path).unwrap_or_default();
    let link = to_do.map(|_| format!("; <a href=\"#end-{}\">what to do</a>", style(path)));
    let end = format!("{} {words}{}", swatch(&style(path)), link.unwrap_or_default());
    let at = match addresses(listing).any(|at| at == path.pc) {
        true => format!("<a href=\"#at-{0}\">{0}</a>, <i>line 3</i>", path.pc),
        false => path.pc.to_string(),
    };
    let inputs: String = path.inputs.iter().map(|&span| cell("in", &shown(span))).collect();
    let exit = cell("exit num", &path.exit.map(shown).unwrap_or_default());
    let cells = cell("path", &name) + &inputs + &cell("end", &end) + &exit + &cell("at", &at);
    let counts = counts(choices(&path.inputs), choices(&listing.start));
    let cells = cells + &cell("steps", &path.steps.to_string()) + &counts;
    format!("<tr id=\"path-{number}\" data-path=\"{number}\">{cells}</tr>\n")
}

// ---------------------------------------------------------------------------------------------
// Pages.

/// A page of the listing's paths with this picture.
pub fn page(listing: &str, picture: &str) -> String {
    let listing = read_listing(listing).unwrap_or_else(|fault| panic!("{fault}"));
    let (picture, shapes) = linked(picture, &listing);
    let rows: String =
        (0..listing.paths.len()).map(|number| path_row(&listing, &shapes, number)).collect();
    let tables = rows + "</table>" + &legend(&listing) + &program(&listing);
    format!(
        r##"<!DOCTYPE html>
<html lang="en"><head><meta charset="utf-8"/><style>td a {{ fill: url(#dots) }}</style>
<script>let one = 1;</script></head>
<body><!-- a page --><h1>Waits &amp; loads &#x3c; &#39;3&#39;</h1>{picture}
<svg class="legend"><pattern id="dots"/><rect fill="url(#dots)" stroke="#ccc"/></svg>
<table><tr><th>path</th></tr>{tables}<p><a href="#path-0">first</a><br/></p></body></html>
"##
    )
}

pub fn faults(page: &str, listing: &str) -> Vec<String> {
    check(page, listing, Some("Waits & loads < '3'")).err().unwrap_or_default()
}

pub fn agrees(picture: &str, listing: &str, counts: &str) {
    let title = "Waits & loads < '3'";
    assert_eq!(check(&page(listing, picture), listing, Some(title)), Ok(counts.to_string()));
    assert_eq!(check(&page(listing, picture), listing, None), Ok(counts.to_string()));
}

/// A page with this picture is refused if a text in it is replaced by another. A changed picture
/// has the links and fills that it should have.
pub fn refused(picture: &str, listing: &str, (from, to): (&str, &str), message: &str) {
    let damaged = match picture.contains(from) {
        true => page(listing, &picture.replacen(from, to, 1)),
        false => page(listing, picture).replacen(from, to, 1),
    };
    assert!(damaged != page(listing, picture), "{from} is not on the page");
    let faults = faults(&damaged, listing);
    assert!(faults.iter().any(|fault| fault == message), "{from} -> {to}: {faults:?}");
}

pub fn picture_refused(picture: &str, listing: &str, message: &str) {
    let faults = faults(&page(listing, picture), listing);
    assert!(faults.iter().any(|fault| fault == message), "{picture}: {faults:?}");
}

/// Two texts in each other's place.
pub fn exchanged(text: &str, a: &str, b: &str) -> String {
    let parts: Vec<String> = text.split(a).map(|part| part.replace(b, a)).collect();
    parts.join(b)
}

pub fn line_refused(from: &str, to: &str, message: &str) {
    refused(LINE, LINE_LISTING, (from, to), message);
}

pub fn plane_refused(from: &str, to: &str, message: &str) {
    refused(PLANE, PLANE_LISTING, (from, to), message);
}

pub fn ends_refused(from: &str, to: &str, message: &str) {
    refused(&ends(), ENDS_LISTING, (from, to), message);
}
