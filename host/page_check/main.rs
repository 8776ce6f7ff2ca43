//! A page of a rule compared with the rule's stored listing: its markup, links, rows and picture.
//! `page_check FILE.html FILE.out [TITLE]` prints one line if they agree, and otherwise what does
//! not on standard error, with exit status 1.

mod legend;
mod listing;
mod markup;
mod picture;
mod rows;
#[cfg(test)]
mod samples;

use legend::check_legend;
use listing::{check_listing, read_listing, Listing};
use markup::{is_called, read_page, Page};
use picture::{check_picture, counted, read_links, read_picture, Drawing};
use rows::{check_path_links, check_program, check_rows, read_rows, read_styles};
use std::collections::BTreeSet;
use std::fs::read_to_string;

// ---------------------------------------------------------------------------------------------
// What the markup may have.

/// Elements that HTML reads as closed at once.
const EMPTY: [&str; 8] = ["area", "br", "col", "hr", "input", "meta", "source", "wbr"];
const REFUSED: [&str; 7] = ["link", "iframe", "object", "embed", "img", "base", "form"];
const REFUSED_ATTRIBUTES: [&str; 3] = ["src", "srcset", "action"];

/// Browsers read a page as HTML, and it must not be another page than the one that is checked.
fn check_html(page: &Page) -> Result<(), String> {
    for element in &page.elements {
        let name = &element.name[..];
        let drawn = name == "svg" || page.around(element).any(|outer| outer.name == "svg");
        if !drawn && element.self_closed != EMPTY.contains(&name) {
            let other = if element.self_closed { "not closed" } else { "closed at once" };
            return Err(format!("HTML reads <{name}> as {other}"));
        }
        let plain = page.source[element.source.clone()] == page.text[element.text.clone()];
        if ["style", "script"].contains(&name) && !plain {
            return Err(format!("HTML reads no reference, comment or element in <{name}>"));
        }
    }
    Ok(())
}

fn check_contained(page: &Page) -> Result<(), String> {
    for element in &page.elements {
        if let Some(name) = REFUSED.iter().find(|name| is_called(&element.name, name)) {
            return Err(format!("the page has an element {name}"));
        }
        for (attribute, value) in &element.attributes {
            check_attribute(attribute, value)?;
        }
        if is_called(&element.name, "style") {
            check_style(page.text(element))?;
        }
    }
    let scripts = page.elements.iter().filter(|element| is_called(&element.name, "script"));
    match scripts.count() {
        0 | 1 => Ok(()),
        count => Err(format!("the page has {count} elements script")),
    }
}

fn check_attribute(attribute: &str, value: &str) -> Result<(), String> {
    let starts_script = |part: &str| part.to_ascii_lowercase().starts_with("on");
    let refused = REFUSED_ATTRIBUTES.iter().any(|name| is_called(attribute, name));
    if refused || attribute.split(':').any(starts_script) {
        return Err(format!("the page has an attribute {attribute}"));
    }
    if is_called(attribute, "href") && !value.starts_with('#') {
        return Err(format!("{attribute} leads to {value:?}"));
    }
    check_style(value)
}

fn check_style(text: &str) -> Result<(), String> {
    let text = text.to_ascii_lowercase();
    if text.contains("@import") {
        return Err("the page has an @import".to_string());
    }
    match text.matches("url(").count() == text.matches("url(#").count() {
        true => Ok(()),
        false => Err("url( leads out of the page".to_string()),
    }
}

fn check_links(page: &Page) -> Result<(), String> {
    let mut ids = BTreeSet::new();
    if let Some(id) = page.elements.iter().filter_map(|e| e.get("id")).find(|id| !ids.insert(*id)) {
        return Err(format!("two elements have the id {id}"));
    }
    for element in &page.elements {
        let is_style = is_called(&element.name, "style");
        let mut targets = url_targets(if is_style { page.text(element) } else { "" });
        for (attribute, value) in &element.attributes {
            targets.extend(url_targets(value));
            targets.extend(value.strip_prefix('#').filter(|_| is_called(attribute, "href")));
        }
        if let Some(target) = targets.into_iter().find(|target| !ids.contains(target)) {
            return Err(format!("no element has the id {target:?}, which a link leads to"));
        }
    }
    Ok(())
}

fn url_targets(text: &str) -> Vec<&str> {
    let lower = text.to_ascii_lowercase();
    let behind = lower.match_indices("url(#").map(|(place, found)| &text[place + found.len()..]);
    behind.map(|behind| behind.split(')').next().unwrap_or_default().trim()).collect()
}

fn check_title(page: &Page, title: Option<&str>) -> Result<(), String> {
    let titles: Vec<&str> = page.named("h1").map(|element| page.text(element)).collect();
    match (&titles[..], title) {
        ([""], _) => Err("h1 is empty".to_string()),
        ([found], Some(title)) if *found != title.trim() => {
            Err(format!("h1 is {found:?}, and the title {title:?}"))
        }
        ([_], _) => Ok(()),
        _ => Err(format!("the page has {} elements h1", titles.len())),
    }
}

// ---------------------------------------------------------------------------------------------
// All of it.

/// What is counted on a page that agrees with its listing.
fn check(page: &str, listing: &str, title: Option<&str>) -> Result<String, Vec<String>> {
    let listing = read_listing(listing).map_err(|fault| vec![fault])?;
    let page = read_page(page).map_err(|fault| vec![fault])?;
    let picture = read_picture(&page, &listing);
    let mut checks = vec![
        check_listing(&listing),
        check_html(&page),
        check_contained(&page),
        check_links(&page),
        check_title(&page, title),
        picture
            .as_ref()
            .map_err(String::clone)
            .and_then(|(form, drawings)| check_picture(&listing, *form, drawings)),
    ];
    let drawings = picture.as_ref().ok().map(|(_, drawings)| &drawings[..]);
    checks.extend(check_tables(&page, &listing, drawings));
    let faults: Vec<String> = checks.into_iter().filter_map(Result::err).collect();
    match picture {
        Ok((form, drawings)) if faults.is_empty() => Ok(counted(&listing, form, &drawings)),
        _ => Err(faults),
    }
}

/// The tables, and the picture's links to them if it can be read.
fn check_tables(
    page: &Page,
    listing: &Listing,
    drawings: Option<&[Drawing]>,
) -> Vec<Result<(), String>> {
    let rows = match read_rows(page, listing) {
        Ok(rows) => rows,
        Err(fault) => return vec![Err(fault)],
    };
    let mut checks = vec![check_rows(page, listing, &rows), check_program(page, listing, &rows)];
    match read_styles(page, &rows) {
        Ok(styles) => {
            checks.push(check_legend(page, listing, &rows, &styles));
            let links = drawings.map(|drawings| read_links(page, drawings, &styles));
            checks.extend(links.map(|links| check_path_links(page, &rows, &links?)));
        }
        Err(fault) => checks.push(Err(fault)),
    }
    checks
}

fn check_files(page: &str, listing: &str, title: Option<&str>) -> Result<String, Vec<String>> {
    let read = |file: &str| read_to_string(file).map_err(|error| vec![format!("{file}: {error}")]);
    check(&read(page)?, &read(listing)?, title)
}

fn main() {
    let words: Vec<String> = std::env::args().skip(1).collect();
    let words: Vec<&str> = words.iter().map(String::as_str).collect();
    let (page, listing, title) = match words[..] {
        [page, listing] => (page, listing, None),
        [page, listing, title] => (page, listing, Some(title)),
        _ => {
            eprintln!("page_check FILE.html FILE.out [TITLE]");
            std::process::exit(1);
        }
    };
    let name = std::path::Path::new(listing).file_stem().unwrap_or_default().to_string_lossy();
    match check_files(page, listing, title) {
        Ok(counts) => println!("{name}: {counts}"),
        Err(faults) => {
            for fault in faults {
                eprintln!("{name}: {fault}");
            }
            std::process::exit(1);
        }
    }
}

#[cfg(test)]
mod tests {
    use super::*;
    use crate::samples::*;

    #[test]
    fn right_pages_agree() {
        agrees(LINE, LINE_LISTING, "3 paths, 1 plane, 3 shapes agree");
        agrees(PLANE, PLANE_LISTING, "3 paths, 1 plane, 3 shapes agree");
        agrees(RESTS, RESTS_LISTING, "4 paths, 2 planes, 5 shapes agree");
        agrees(BANDS, PLANE_LISTING, "3 paths, 2 bands, 6 shapes agree");
        agrees(MERGED, MERGED_LISTING, "4 paths, 1 plane, 3 shapes agree");
        agrees(MERGED_BANDS, MERGED_LISTING, "4 paths, 1 bands, 3 shapes agree");
        agrees(&ends(), ENDS_LISTING, "9 paths, 1 plane, 9 shapes agree");
        agrees(HALVES, HALVES_LISTING, "2 paths, 1 plane, 2 shapes agree");
        agrees("", NONE_LISTING, "1 path, 0 planes, 0 shapes agree");
        agrees("", FIRST_LISTING, "1 path, 0 planes, 0 shapes agree");
    }

    /// What stands between two texts is this value, wherever they stand on the page.
    fn everywhere(page: &str, [before, behind]: [&str; 2], value: &str) -> String {
        let mut parts = page.split(before);
        let first = parts.next().unwrap_or_default().to_string();
        let changed = parts.filter_map(|part| part.split_once(behind)).map(|(_, rest)| rest);
        changed.fold(first, |page, rest| page + before + value + behind + rest)
    }

    #[test]
    fn a_page_has_not_the_same_everywhere() {
        let shape = "shape of path 1: it leads to \"#path-0\"";
        let row = "row of path 1: path has the links [(\"#shape-0\", \"1\")]";
        let at = "row of path 0: at has the links [(\"#at-0\", \"8\")]";
        let end = "row of path 0: end is \"exit with 9\", and by the listing \"exit with 4\"";
        let choices = "row of path 0: choices is \"1\", and by the listing \"10\"";
        let share = "row of path 0: share is \"1.00 %\", and by the listing \"under 0.01 %\"";
        let ended = "path 0: it ended at [], and by the listing at [8]";
        let fill = "shape of path 1: its class is \"shape exit-4\", and the fill {\"varies\"}";
        let swatch = "two rows of the legend have the fill \"exit-4\"";
        for (texts, value, message) in [
            (["\" href=\"#path-", "\""], "0", shape),
            (["<a href=\"#shape-", "\""], "0", row),
            (["<a href=\"#at-", "\""], "0", at),
            (["</svg> ", "</td>"], "exit with 9", end),
            (["\"choices\"> ", "<"], "1", choices),
            (["\"share\"> ", "<"], "1.00 %", share),
            (["data-passed=\"", "\""], "", "path 0: it passed [] in 3 steps"),
            (["data-ended=\"", "\""], "", ended),
            (["class=\"shape ", "\""], "exit-4", fill),
            (["<svg><rect class=\"", "\""], "exit-4", swatch),
            (["data-paths=\"", "\""], "0", "path 0 is in 6 rows of the legend"),
            (["<tr id=\"at-", "\" data-passed=\""], "0", "two elements have the id at-0"),
        ] {
            let right = page(ENDS_LISTING, &ends());
            let faults = faults(&everywhere(&right, texts, value), ENDS_LISTING);
            assert!(faults.iter().any(|fault| fault == message), "{texts:?}: {faults:?}");
        }
    }

    #[test]
    fn the_doctype_may_be_left_out() {
        let page = page(LINE_LISTING, LINE).replace("<!DOCTYPE html>\n", "");
        assert_eq!(faults(&page, LINE_LISTING), [""; 0]);
    }

    #[test]
    fn elements_are_nested_and_closed() {
        line_refused("</p>", "", "line 13: </body> stands where <p> is open");
        line_refused("</html>", "", "line 14: <html> is not closed");
        line_refused("</html>", "</html></html>", "line 13: </html> closes nothing");
        line_refused("</html>", "</html><p></p>", "line 13: <p> stands behind the root");
        line_refused("</html>", "</html>x", "line 13: \"x\" stands outside of the root");
        line_refused(
            "<i>line 3</i>",
            "<i>line</td></i>",
            "line 10: </td> stands where <i> is open",
        );
        line_refused("</p>", "</p", "line 13: no > after </p");
        line_refused("<p>", "<p", "line 13: <p is not closed by >");
        line_refused("<!DOCTYPE html>", "<!DOCTYPE svg>", "line 1: a raw <");
        assert_eq!(faults("<p></p>", NONE_LISTING), ["line 1: the root is p, not html"]);
        assert_eq!(faults("\n<!-- -->", NONE_LISTING), ["line 2: there is no element"]);
    }

    #[test]
    fn text_is_escaped() {
        line_refused("line 3", "a < b", "line 10: a raw <");
        line_refused("line 3", "<![CDATA[3]]>", "line 10: a raw <");
        line_refused("line 3", "a & b", "line 10: a raw &");
        line_refused("line 3", "a & b;", "line 10: a raw &");
        line_refused("line 3", "3]]>", "line 10: ]]> in a text");
        for name in ["&nbsp;", "&apos;", "&#;", "&#x;", "&#3a;", "&#0;", "&#13;", "&#xD800;"] {
            let message = format!("line 10: {name} is no reference of a page");
            line_refused("line 3", name, &message);
        }
        line_refused("line 3", "3\r", "line 10: a control character");
        line_refused("line 3", "\u{85}", "line 10: a control character");
        line_refused("a page", "a -- page", "line 4: no > after -- in a comment");
        line_refused("a page -->", "a page", "line 4: a comment is not closed");
    }

    #[test]
    fn attributes_are_quoted_and_unique() {
        line_refused("lang=\"en\"", "lang=en", "line 2: no \" after lang=");
        line_refused("lang=\"en\"", "lang", "line 2: no = after lang");
        line_refused("lang=\"en\"", "lang='en'", "line 2: no \" after lang=");
        line_refused("lang=\"en\"", "lang=\"<\"", "line 2: a raw < in the attribute lang");
        line_refused("lang=\"en\"", "lang=\"&\"", "line 2: a raw &");
        line_refused("lang=\"en\"", "lang=\"en\"id=\"x\"", "line 2: <html is not closed by >");
        let twice = "line 2: <html> has two attributes LANG";
        line_refused("lang=\"en\"", "lang=\"en\" LANG=\"en\"", twice);
        let cut = page(LINE_LISTING, LINE).split("\"utf-8").next().map(str::to_string);
        let message = "line 2: no \" after charset=";
        assert_eq!(faults(&cut.unwrap_or_default(), LINE_LISTING), [message]);
    }

    #[test]
    fn html_reads_the_same_page() {
        line_refused("<p>", "<p/><p>", "HTML reads <p> as not closed");
        line_refused("<br/>", "<br></br>", "HTML reads <br> as closed at once");
        let plain = "HTML reads no reference, comment or element in <";
        line_refused("let one", "1 &lt; 2; let one", &format!("{plain}script>"));
        line_refused("td a", "<!-- td --> a", &format!("{plain}style>"));
    }

    #[test]
    fn a_page_is_self_contained() {
        for name in REFUSED {
            let element = format!("<{name}></{name}><p>");
            line_refused("<p>", &element, &format!("the page has an element {name}"));
        }
        line_refused("<p>", "<IMG></IMG><p>", "the page has an element img");
        for name in ["src", "srcset", "action", "onclick", "ONLOAD", "xlink:src"] {
            let start = format!("<p {name}=\"#path-0\">");
            line_refused("<p>", &start, &format!("the page has an attribute {name}"));
        }
        for to in ["https://example.org/", "", "other.html#path-0"] {
            line_refused("\"#path-0\"", &format!("{to:?}"), &format!("href leads to {to:?}"));
        }
        line_refused("href=\"#", "xlink:href=\"a#", "xlink:href leads to \"a#path-0\"");
        line_refused("td a", "@IMPORT 'a'; td a", "the page has an @import");
        line_refused("url(#", "url(a#", "url( leads out of the page");
        line_refused("fill=\"url(#", "fill=\"URL( #", "url( leads out of the page");
        line_refused("<p>", "<script></script><p>", "the page has 2 elements script");
    }

    #[test]
    fn links_lead_to_one_element() {
        line_refused("<p>", "<p id=\"path-1\">", "two elements have the id path-1");
        let dead = |id: &str| format!("no element has the id {id:?}, which a link leads to");
        line_refused("href=\"#path-0\"", "href=\"#path-3\"", &dead("path-3"));
        line_refused("href=\"#path-0\"", "href=\"#\"", &dead(""));
        line_refused("fill: url(#dots)", "fill: url(#dot)", &dead("dot"));
        line_refused("fill=\"url(#dots)", "fill=\"url(#line)", &dead("line"));
    }

    #[test]
    fn h1_is_the_title() {
        let message = "h1 is \"Waits & load\", and the title \"Waits & loads < '3'\"";
        line_refused("loads &#x3c; &#39;3&#39;", "load", message);
        line_refused("<p>", "<h1>more</h1><p>", "the page has 2 elements h1");
        line_refused("<h1>Waits", "<h1></h1><h1>Waits", "the page has 2 elements h1");
        line_refused("Waits &amp; loads &#x3c; &#39;3&#39;", "", "h1 is empty");
    }
}
