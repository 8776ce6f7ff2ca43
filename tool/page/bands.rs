//! Bands: a row for each path, with a band for each input, where small planes would be too many.

use super::axis::{Axis, WHOLE};
use super::drawing::Drawing;
use super::html::escape;
use super::labels::{bottom_axis, end_label, thousandths};
use super::picture::{axis, pixels};
use super::Page;

/// With more paths than this, neighbours of the listing share a row.
const MOST_ROWS: usize = 400;
/// Pixels of all rows, of one row at least and at most, and of the columns together on a wide screen.
const HEIGHT: usize = 800;
const LOWEST_ROW: usize = 2;
const HIGHEST_ROW: usize = 18;
const WIDTH: u64 = 1000;
/// What a piece has at least, so that it can be seen.
const LEAST_WIDTH: u64 = 12;
/// What the band of several paths has at least, as one of tens of thousands of pieces may have no width at all.
const LEAST_SHARED: u64 = WHOLE / 200;
/// A text's height.
const TEXT_HEIGHT: usize = 14;
/// Between rows of this height and more stands an empty pixel.
const PARTED_ROW: usize = 5;

/// Do several of so many paths share a row?
pub fn are_shared(paths: usize) -> bool {
    paths > MOST_ROWS
}

pub fn html(drawing: &mut Drawing, inputs: &[usize]) -> String {
    let records = drawing.page.records;
    let paths: Vec<usize> = (0..records.len()).collect();
    let rows: Vec<&[usize]> = paths.chunks(paths.len().div_ceil(MOST_ROWS)).collect();
    let height = (HEIGHT / rows.len()).clamp(LOWEST_ROW, HIGHEST_ROW);
    let least = pixels(LEAST_WIDTH, WIDTH / inputs.len() as u64);
    let mut columns = numbers(&rows, height) + &ends(drawing.page, &rows, height);
    for &input in inputs {
        let axis = axis(records, input, least);
        drawing.widened |= axis.is_widened();
        let row = |(place, row): (usize, &&[usize])| {
            band(drawing, input, &axis, row, place * height, height)
        };
        let bands: String = rows.iter().enumerate().map(row).collect();
        columns += &format!(
            "<figure><figcaption>{}</figcaption><svg class=\"bands\" data-x=\"{input}\" height=\"{}\">\n{bands}</svg>{}</figure>\n",
            escape(drawing.page.name(input)),
            rows.len() * height,
            bottom_axis(&axis),
        );
    }
    format!("<div class=\"columns\">\n{columns}</div>\n")
}

/// The numbers of paths, as close as there is room for them.
fn numbers(rows: &[&[usize]], height: usize) -> String {
    let every = TEXT_HEIGHT.div_ceil(height);
    let numbered = rows.iter().enumerate().step_by(every);
    texts("path", rows.len(), height, numbered.map(|(row, paths)| (row, paths[0].to_string())))
}

/// What the path of each row ends with, if there is room for all.
fn ends(page: &Page, rows: &[&[usize]], height: usize) -> String {
    if height < TEXT_HEIGHT {
        return String::new();
    }
    let end = |(row, paths): (usize, &&[usize])| (row, end_label(&page.records[paths[0]], 0));
    texts("exit", rows.len(), height, rows.iter().enumerate().map(end))
}

/// A column of texts, each with its row.
fn texts(
    name: &str,
    rows: usize,
    height: usize,
    texts: impl Iterator<Item = (usize, String)>,
) -> String {
    let text = |(row, text): (usize, String)| {
        let y = row * height + height / 2;
        format!("<text class=\"tick last\" x=\"100%\" y=\"{y}\" dy=\"0.35em\">{text}</text>")
    };
    let (all, texts) = (rows * height, texts.map(text).collect::<String>());
    format!("<figure class=\"texts\"><figcaption>{name}</figcaption><svg height=\"{all}\">{texts}</svg></figure>\n")
}

/// From the lowest value of the row's paths to the highest.
fn band(
    drawing: &mut Drawing,
    input: usize,
    axis: &Axis,
    row: &[usize],
    y: usize,
    height: usize,
) -> String {
    let held = || row.iter().map(|&path| axis.span(drawing.page.records[path].intervals[input]));
    let start = held().map(|span| span.start).min().unwrap_or(0);
    let end = held().map(|span| span.end).max().unwrap_or(0);
    let (left, right) = (axis.places[start], axis.places[end]);
    let width = (right - left).max(if row.len() > 1 { LEAST_SHARED } else { 0 });
    let place = format!(
        "x=\"{}\" width=\"{}\" y=\"{y}\" height=\"{}\"",
        thousandths(left.min(WHOLE - width)),
        thousandths(width),
        height - (height >= PARTED_ROW) as usize,
    );
    drawing.shape(row, "", &place, "")
}
