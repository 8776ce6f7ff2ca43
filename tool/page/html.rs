//! Text for a page that is HTML and XML alike.

use formats::rows::counted;
use std::ops::Range;

/// Text as it is shown: markup in it is none, and what no page may hold is replaced.
pub fn escape(text: &str) -> String {
    let mut escaped = String::new();
    for letter in text.chars() {
        match letter {
            '<' => escaped += "&lt;",
            '>' => escaped += "&gt;",
            '&' => escaped += "&amp;",
            '"' => escaped += "&quot;",
            '\t' | '\n' => escaped.push(letter),
            // no letters, and letters that turn the numbers beside them around
            '\u{FFFE}' | '\u{FFFF}' | '\u{202A}'..='\u{202E}' | '\u{2066}'..='\u{2069}' => {
                escaped.push(char::REPLACEMENT_CHARACTER)
            }
            _ if letter.is_control() => escaped.push(char::REPLACEMENT_CHARACTER),
            _ => escaped.push(letter),
        }
    }
    escaped
}

/// Text with the code spans of Markdown.
pub fn marked(text: &str) -> String {
    let parts = text.split('`').map(escape).enumerate();
    let part = |(place, part): (usize, String)| match place % 2 {
        0 => part,
        _ => format!("<code>{part}</code>"),
    };
    parts.map(part).collect()
}

/// Digits of both ends that stand on one line.
const MOST_DIGITS: usize = 20;

/// An interval for a cell, which may be broken between two long numbers.
pub fn cell_interval(held: (u64, u64)) -> String {
    let text = interval(held);
    match text.len() > MOST_DIGITS {
        true => text.replace("..", "..<wbr/>"),
        false => text,
    }
}

/// An interval as the listing has it, and a single value as a number.
pub fn interval((low, high): (u64, u64)) -> String {
    match low == high {
        true => low.to_string(),
        false => format!("{low}..{high}"),
    }
}

/// Numbers that rise, as the ranges of those that follow each other.
#[derive(Clone, Debug, Default, PartialEq, Eq)]
pub struct Ranges {
    ranges: Vec<Range<usize>>,
}

impl Ranges {
    /// Adds a number that is not below those before it.
    pub fn add(&mut self, number: usize) {
        match self.ranges.last_mut() {
            Some(last) if last.end > number => {}
            Some(last) if last.end == number => last.end += 1,
            _ => self.ranges.push(number..number + 1),
        }
    }

    pub fn of(numbers: &[usize]) -> Ranges {
        let mut ranges = Ranges::default();
        numbers.iter().for_each(|&number| ranges.add(number));
        ranges
    }

    pub fn count(&self) -> usize {
        self.ranges.iter().map(Range::len).sum()
    }

    pub fn is_empty(&self) -> bool {
        self.ranges.is_empty()
    }

    /// For an attribute, as `0-3,5`.
    pub fn attribute(&self) -> String {
        let range = |range: &Range<usize>| match range.len() {
            1 => range.start.to_string(),
            _ => format!("{}-{}", range.start, range.end - 1),
        };
        self.ranges.iter().map(range).collect::<Vec<_>>().join(",")
    }

    /// Links to the rows of paths with these numbers, of so many ranges at most.
    pub fn links(&self, most: usize) -> String {
        let shown: Vec<String> = self.ranges.iter().take(most).map(range_links).collect();
        let rest = if self.ranges.len() > most {
            format!(" … ({} in all)", counted(self.count(), "path"))
        } else {
            String::new()
        };
        shown.join(", ") + &rest
    }
}

fn range_links(range: &Range<usize>) -> String {
    let last = range.end - 1;
    match range.len() {
        1 => path_link(range.start),
        2 => format!("{}, {}", path_link(range.start), path_link(last)),
        _ => format!("{} to {}", path_link(range.start), path_link(last)),
    }
}

pub fn path_link(path: usize) -> String {
    format!("<a href=\"#path-{path}\">{path}</a>")
}

#[cfg(test)]
mod tests {
    use super::*;

    #[test]
    fn markup_in_text_is_none() {
        let text = "<script>alert(\"a & b\")</script>\u{1B}\0\u{202E}\u{FFFF}\tä";
        let shown = "&lt;script&gt;alert(&quot;a &amp; b&quot;)&lt;/script&gt;\u{FFFD}\u{FFFD}\u{FFFD}\u{FFFD}\tä";
        assert_eq!(escape(text), shown);
        assert_eq!(
            marked("use `a < b`, not `c`."),
            "use <code>a &lt; b</code>, not <code>c</code>."
        );
    }

    #[test]
    fn ranges_of_rising_numbers() {
        let ranges = Ranges::of(&[0, 1, 1, 2, 5, 7, 8]);
        assert_eq!((ranges.attribute().as_str(), ranges.count()), ("0-2,5,7-8", 6));
        let link = |path| path_link(path);
        let [zero, two, five] = [0, 2, 5].map(link);
        assert_eq!(ranges.links(2), format!("{zero} to {two}, {five} … (6 paths in all)"));
        assert!(ranges.links(3).ends_with(&format!("{five}, {}, {}", link(7), link(8))));
        assert!(Ranges::default().is_empty() && Ranges::default().links(3).is_empty());
    }
}
