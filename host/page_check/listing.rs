//! A rule's stored listing, and what a page says of its paths: intervals, choices, shares, words.

use std::collections::BTreeSet;

/// From the first value to the one behind the last, which may be 2^64.
pub type Span = (u128, u128);

// ---------------------------------------------------------------------------------------------
// Numbers and spans.

/// A decimal number as the listing writes it: no sign, no zero in front.
pub fn number(text: &str) -> Option<u64> {
    text.parse().ok().filter(|number: &u64| number.to_string() == text)
}

pub fn index(text: &str) -> Option<usize> {
    number(text)?.try_into().ok()
}

pub fn span(text: &str) -> Option<Span> {
    let (low, high) = text.split_once("..")?;
    let (low, high) = (number(low)?, number(high)?);
    (low <= high).then_some((low.into(), u128::from(high) + 1))
}

/// A span as rows show it.
pub fn shown((low, behind): Span) -> String {
    match behind - 1 {
        high if high == low => low.to_string(),
        high => format!("{low}..{high}"),
    }
}

pub fn overlap(a: Span, b: Span) -> bool {
    a.0 < b.1 && b.0 < a.1
}

pub fn holds(outer: Span, inner: Span) -> bool {
    outer.0 <= inner.0 && inner.1 <= outer.1
}

/// The boxes lie in the whole, no two overlap, and nothing is left over.
pub fn check_division(
    whole: &[Span],
    boxes: &[Vec<Span>],
    name: impl Fn(usize) -> String,
) -> Result<(), String> {
    for (place, part) in boxes.iter().enumerate() {
        if whole.iter().zip(part).any(|(&whole, &part)| !holds(whole, part)) {
            return Err(format!("{} reaches out of the whole", name(place)));
        }
        let meets = |other: &Vec<Span>| part.iter().zip(other).all(|(&a, &b)| overlap(a, b));
        if let Some(other) = boxes[..place].iter().position(meets) {
            return Err(format!("{} and {} overlap", name(other), name(place)));
        }
    }
    let cuts: Vec<Vec<u128>> = (0..whole.len()).map(|side| cuts(whole, boxes, side)).collect();
    // cells between cuts are counted and not their volumes, which have up to 512 bits
    let all = cells(&cuts, whole).ok_or("there are too many cells to count")?;
    let covered: u128 = boxes.iter().filter_map(|part| cells(&cuts, part)).sum();
    match covered == all {
        true => Ok(()),
        false => Err("a part of the whole is not covered".to_string()),
    }
}

/// All ends along one side, in order.
fn cuts(whole: &[Span], boxes: &[Vec<Span>], side: usize) -> Vec<u128> {
    let spans = boxes.iter().map(|part| part[side]).chain([whole[side]]);
    let ends: BTreeSet<u128> = spans.flat_map(|(low, behind)| [low, behind]).collect();
    ends.into_iter().collect()
}

fn cells(cuts: &[Vec<u128>], part: &[Span]) -> Option<u128> {
    cuts.iter().zip(part).try_fold(1_u128, |cells, (cuts, span)| {
        let place = |end: u128| cuts.partition_point(|&cut| cut < end);
        cells.checked_mul((place(span.1) - place(span.0)) as u128)
    })
}

// ---------------------------------------------------------------------------------------------
// The listing.

pub struct Path {
    pub kind: u64,
    pub reason: Option<u64>,
    pub pc: u64,
    pub steps: u64,
    pub inputs: Vec<Span>,
    pub exit: Option<Span>,
}

impl Path {
    /// The one value that it exits with, if there is one.
    pub fn fixed_exit(&self) -> Option<u128> {
        self.exit.filter(|exit| exit.0 + 1 == exit.1).map(|exit| exit.0)
    }
}

pub struct Listing {
    pub paths: Vec<Path>,
    /// The starting box.
    pub start: Vec<Span>,
}

pub fn read_listing(text: &str) -> Result<Listing, String> {
    let mut lines = text.lines();
    let header = lines.next().unwrap_or_default();
    let mut paths = Vec::new();
    for (number, line) in lines.enumerate() {
        let fault = || format!("the listing's line of path {number} is {line:?}");
        paths.push(read_path(line, number).ok_or_else(fault)?);
    }
    if paths.is_empty() || header != format!("paths {} more 0", paths.len()) {
        return Err(format!("the listing has {} paths under {header:?}", paths.len()));
    }
    let inputs = paths[0].inputs.len();
    if paths.iter().any(|path| path.inputs.len() != inputs) {
        return Err("the listing's paths differ in the number of inputs".to_string());
    }
    let start = (0..inputs).map(|input| hull(&paths, input)).collect();
    Ok(Listing { paths, start })
}

/// A line is names and values by turns.
fn read_path(line: &str, place: usize) -> Option<Path> {
    let words: Vec<&str> = line.split(' ').collect();
    let (fields, []) = words.as_chunks::<2>() else { return None };
    let [["path", path], ["end", kind], ["at", pc], ["steps", steps], fields @ ..] = fields else {
        return None;
    };
    let inputs = fields.iter().take_while(|field| field[0] == "in").count();
    let (inputs, tail) = fields.split_at(inputs);
    let kind = number(kind)?;
    let (exit, reason) = match (kind, tail) {
        (1, [["exit", exit]]) => (Some(span(exit)?), None),
        (8, [["reason", reason]]) => (None, Some(number(reason)?)),
        (kind, []) if kind != 1 && kind != 8 => (None, None),
        _ => return None,
    };
    let inputs = inputs.iter().map(|field| span(field[1])).collect::<Option<_>>()?;
    let read = Path { kind, reason, pc: number(pc)?, steps: number(steps)?, inputs, exit };
    (index(path)? == place).then_some(read)
}

/// The listing is complete, so the starting interval is from the least low to the greatest high.
fn hull(paths: &[Path], input: usize) -> Span {
    let join = |a: Span, b: Span| (a.0.min(b.0), a.1.max(b.1));
    paths.iter().map(|path| path.inputs[input]).fold(paths[0].inputs[input], join)
}

pub fn check_listing(listing: &Listing) -> Result<(), String> {
    let boxes: Vec<Vec<Span>> = listing.paths.iter().map(|path| path.inputs.clone()).collect();
    check_division(&listing.start, &boxes, |path| format!("path {path}"))
        .map_err(|fault| format!("listing: {fault}"))
}

/// Paths such as 0-2,5: none of them twice, and all of them known.
pub fn read_ranges(text: &str, known: usize) -> Option<BTreeSet<usize>> {
    let mut paths = BTreeSet::new();
    for part in text.split(',') {
        let (first, last) = part.split_once('-').unwrap_or((part, part));
        let (first, last) = (index(first)?, index(last).filter(|&last| last < known)?);
        if first > last || !(first..=last).all(|path| paths.insert(path)) {
            return None;
        }
    }
    Some(paths)
}

// ---------------------------------------------------------------------------------------------
// Choices and shares.

/// The product of the widths, if it is below 2^64.
pub fn choices(spans: &[Span]) -> Option<u64> {
    let widths = spans.iter().map(|span| span.1 - span.0);
    let product = widths.into_iter().try_fold(1_u128, |product, width| product.checked_mul(width));
    product?.try_into().ok()
}

pub fn shown_choices(choices: Option<u64>) -> String {
    choices.map_or("2^64 or more".to_string(), |choices| choices.to_string())
}

/// In per cent. Some are not none, and not all are not all, however it is rounded.
pub fn shown_share(choices: u64, all: u64) -> String {
    let (some, whole) = (u128::from(choices), u128::from(all));
    match (2 * some * 10_000 + whole) / (2 * whole) {
        0 if choices > 0 => "under 0.01 %".to_string(),
        10_000 if choices < all => "over 99.99 %".to_string(),
        hundredths => format!("{}.{:02} %", hundredths / 100, hundredths % 100),
    }
}

/// A share of choices that are not counted can be told by its form alone.
pub fn is_share(text: &str) -> bool {
    let digits = |text: &str| text.bytes().all(|byte| byte.is_ascii_digit());
    let number = text.strip_suffix(" %").and_then(|number| number.split_once('.'));
    match (text, number) {
        ("under 0.01 %" | "over 99.99 %", _) => true,
        (_, Some((whole, part))) => {
            !whole.is_empty() && digits(whole) && part.len() == 2 && digits(part)
        }
        _ => false,
    }
}

// ---------------------------------------------------------------------------------------------
// Ends in words.

const NUMBERS: &str = include_str!("../../docs/NUMBERS.md");

/// A number in words and what to do, as one part of the document has it.
fn said(part: usize, name: &str, number: u64) -> Result<[String; 2], String> {
    let mut rows = NUMBERS.split("\n## ").nth(part).unwrap_or_default().lines();
    let found = rows.find_map(|row| {
        let cells = row.strip_prefix("| ")?.strip_suffix(" |")?.split(" | ");
        match cells.collect::<Vec<&str>>()[..] {
            [found, words, to_do] if found == number.to_string() => {
                Some([words, to_do].map(|text| text.replace('`', "")))
            }
            _ => None,
        }
    });
    found.ok_or(format!("docs/NUMBERS.md has no {name} {number}"))
}

/// How a path ends, and what to do about it unless it exits.
pub fn end_in_words(path: &Path) -> Result<(String, Option<String>), String> {
    if let Some((low, behind)) = path.exit {
        let fixed = path.fixed_exit().is_some();
        let to = if fixed { String::new() } else { format!(" to {}", behind - 1) };
        return Ok((format!("exit with {low}{to}"), None));
    }
    let [words, to_do] = said(2, "kind", path.kind)?;
    let Some(reason) = path.reason else { return Ok((words, Some(to_do))) };
    let [reason, to_do] = said(3, "reason", reason)?;
    Ok((format!("{words}: {reason}"), Some(to_do)))
}

#[cfg(test)]
mod tests {
    use super::*;
    use crate::samples::*;

    #[test]
    fn listings_are_complete() {
        let with = |from: &str, to: &str| {
            let listing = PLANE_LISTING.replacen(from, to, 1);
            faults(&page(PLANE_LISTING, PLANE), &listing)
        };
        let has = |faults: Vec<String>, message: &str| {
            assert!(faults.iter().any(|fault| fault == message), "{message}: {faults:?}");
        };
        has(with("more 0", "more 1"), "the listing has 3 paths under \"paths 3 more 1\"");
        has(with("paths 3", "paths 4"), "the listing has 3 paths under \"paths 4 more 0\"");
        has(with("in 2..7", "in 1..7"), "listing: path 1 and path 2 overlap");
        has(with("in 2..7", "in 3..7"), "listing: a part of the whole is not covered");
        let fewer = "the listing's paths differ in the number of inputs";
        has(with("in 0..1 ", ""), fewer);
        let lines = ["path 2 end", "path 1 end 8", "path 1 end 2", "path 01 end", "path  1 end"];
        for line in lines {
            let faults = with("path 1 end", line);
            assert!(faults[0].starts_with("the listing's line of path 1 is"), "{faults:?}");
        }
        assert!(read_listing("").is_err() && read_listing("paths 0 more 0\n").is_err());
    }

    #[test]
    fn choices_are_products() {
        let wide = (0, 1 << 64);
        assert_eq!(choices(&[]), Some(1));
        assert_eq!(choices(&[(3, 10)]), Some(7));
        assert_eq!(choices(&[(0, 5), (9, 10), (2, 5)]), Some(15));
        assert_eq!(choices(&[(1, 1 << 64)]), Some(u64::MAX));
        assert_eq!(choices(&[wide]), None);
        assert_eq!(choices(&[(0, 1 << 32); 2]), None);
        assert_eq!(choices(&[wide; 8]), None);
        assert_eq!(shown_choices(Some(1000)), "1000");
        assert_eq!(shown_choices(None), "2^64 or more");
    }

    #[test]
    fn shares_are_rounded() {
        let most = u64::MAX;
        for (choices, all, share) in [
            (1, 1, "100.00 %"),
            (1, 3, "33.33 %"),
            (2, 3, "66.67 %"),
            (1, 8, "12.50 %"),
            (1, 800, "0.13 %"),
            (1, 20_000, "0.01 %"),
            (1, 20_001, "under 0.01 %"),
            (19_999, 20_000, "over 99.99 %"),
            (19_998, 20_000, "99.99 %"),
            (19_998, 20_001, "99.99 %"),
            (most / 2, most, "50.00 %"),
            (most, most, "100.00 %"),
            (most - 1, most, "over 99.99 %"),
        ] {
            assert_eq!(shown_share(choices, all), share, "{choices} of {all}");
            assert!(is_share(share));
        }
        for text in ["", " %", "1 %", "1.5 %", ".50 %", "1.500 %", "1.50", "-1.50 %", "1.5a %"] {
            assert!(!is_share(text), "{text}");
        }
    }

    #[test]
    fn ends_are_in_words() {
        let ended = |end: &str| {
            let [kind, more] = end.split('/').collect::<Vec<&str>>()[..] else { panic!("{end}") };
            let line = format!("path 0 end {kind} at 0 steps 1{more}");
            end_in_words(&read_path(&line, 0).unwrap_or_else(|| panic!("{line}")))
        };
        let words = |end| ended(end).map(|(words, to_do)| (words, to_do.unwrap_or_default()));
        let said = |words: &str, to_do: &str| Ok((words.to_string(), to_do.to_string()));
        assert_eq!(words("1/ exit 7..7"), said("exit with 7", ""));
        assert_eq!(words("1/ exit 0..9"), said("exit with 0 to 9", ""));
        let limit = "Look for a loop that does not end; otherwise raise the limit, up to 65,536.";
        assert_eq!(words("7/"), said("the step limit is reached", limit));
        let call = "Set a7, and for a read a0, a1 and a2, to known numbers just before ecall.";
        let reason = "not followed: the call number or an operand of read varies";
        assert_eq!(words("8/ reason 7"), said(reason, call));
        assert_eq!(words("10/"), Err("docs/NUMBERS.md has no kind 10".to_string()));
        let none = Err("docs/NUMBERS.md has no reason 8".to_string());
        assert_eq!(words("8/ reason 8"), none);
    }

    #[test]
    fn wide_boxes_are_counted() {
        let whole = (0, 1 << 64);
        let low = |side: usize| (0..8).map(|s| if s == side { (0, 1) } else { whole }).collect();
        let part = |side: usize| -> Vec<Span> {
            let below = (0..side).map(|_| (1, 1 << 64));
            below.chain([(0, 1)]).chain((side + 1..8).map(|_| whole)).collect()
        };
        let mut boxes: Vec<Vec<Span>> = (0..8).map(part).collect();
        let name = |place: usize| place.to_string();
        let gap = Err("a part of the whole is not covered".to_string());
        assert_eq!(check_division(&[whole; 8], &boxes, name), gap);
        boxes.push(vec![(1, 1 << 64); 8]);
        assert_eq!(check_division(&[whole; 8], &boxes, name), Ok(()));
        boxes[8] = low(7);
        let overlap = Err("0 and 8 overlap".to_string());
        assert_eq!(check_division(&[whole; 8], &boxes, name), overlap);
    }
}
