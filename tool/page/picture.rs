//! The picture of a rule: a line, a plane, small planes or bands.

use super::axis::{Axis, WHOLE};
use super::bands;
use super::drawing::Drawing;
use super::html::{escape, interval};
use super::labels::{bottom_axis, left_axis, shape_label, thousandths};
use super::shapes::{shapes, Pixel, Shape, Tile};
use super::Page;
use formats::blocks::Interval;
use formats::report::Record;
use std::ops::Range;

/// With more small planes than this, bands read better.
const MOST_PLANES: usize = 24;

/// How large a plane is drawn, in pixels; its width is that on a wide screen.
#[derive(Clone, Copy)]
pub struct Size {
    pub width: u64,
    pub height: u64,
    /// What a piece has at least, so that it can be seen and labelled.
    least_width: u64,
}

const LINE: Size = Size { width: 1000, height: 76, least_width: 64 };
const PLANE: Size = Size { width: 640, height: 360, least_width: 64 };
const SMALL_PLANE: Size = Size { width: 260, height: 200, least_width: 22 };
const LEAST_HEIGHT: u64 = 18;
/// Shapes of fewer pixels have hardly an outline, which would hide them.
const THIN: u64 = 8;

const READ_SHAPES: &str = "Each shape is a path. In bold stands what it exits with or how it ends (1..8: some value from 1 to 8), \
                           and above that, where there is room, its number.";
const READ_BANDS: &str =
    "Each row is a path, with a band for each input, in the fill of what it leads to.";
const READ_SHARED_BANDS: &str =
    "Each row is several paths that follow each other, with a band for each input, \
                                 from their lowest value to their highest.";
const POINT: &str = "Point at a path, here or below: its shapes, its row and the instructions that it passes light up.";

/// So many pixels of a side that is so long.
pub fn pixels(count: u64, side: u64) -> u64 {
    count * WHOLE / side
}

pub fn html(drawing: &mut Drawing) -> String {
    let page = drawing.page;
    if page.start().is_empty() {
        return "<p>The rule has no input, so there is one choice and one path.</p>\n".to_string();
    }
    let (read, picture, shown) = match layout(page.start(), page.records) {
        Layout::Bands(inputs) if bands::are_shared(page.records.len()) => {
            (READ_SHARED_BANDS, bands::html(drawing, &inputs), inputs)
        }
        Layout::Bands(inputs) => (READ_BANDS, bands::html(drawing, &inputs), inputs),
        Layout::Planes(inputs) => (READ_SHAPES, planes(drawing, &inputs), inputs.all()),
    };
    format!("<p class=\"note\">{read} {POINT}</p>\n{picture}{}", drawing.note(&shown))
}

// ---------------------------------------------------------------------------------------------
// Which inputs.

#[derive(Clone, Debug, PartialEq, Eq)]
enum Layout {
    Planes(Inputs),
    /// A band for each of these inputs in the row of each path.
    Bands(Vec<usize>),
}

/// A plane for each piece of the rest; without a `y` it is a line.
#[derive(Clone, Debug, PartialEq, Eq)]
struct Inputs {
    x: usize,
    y: Option<usize>,
    rest: Vec<usize>,
}

impl Inputs {
    fn all(&self) -> Vec<usize> {
        [&[self.x], self.y.as_slice(), &self.rest].concat()
    }
}

/// All of one or two inputs are shown, and of more those that some path cuts.
fn layout(start: &[Interval], records: &[Record]) -> Layout {
    let is_cut =
        |input: usize| records.iter().any(|record| record.intervals[input] != start[input]);
    let mut shown: Vec<usize> =
        (0..start.len()).filter(|&input| start.len() < 3 || is_cut(input)).collect();
    if shown.is_empty() {
        shown.push(0);
    }
    let pieces = |input: usize| axis(records, input, 0).pieces();
    let mut by_pieces = shown.clone();
    by_pieces.sort_by_key(|&input| std::cmp::Reverse(pieces(input)));
    let (sides, rest) = by_pieces.split_at_mut(shown.len().min(2));
    let planes = rest.iter().try_fold(1_usize, |all, &input| all.checked_mul(pieces(input)));
    if planes.is_none_or(|planes| planes > MOST_PLANES) {
        return Layout::Bands(shown);
    }
    sides.sort();
    rest.sort();
    Layout::Planes(Inputs { x: sides[0], y: sides.get(1).copied(), rest: rest.to_vec() })
}

pub fn axis(records: &[Record], input: usize, least: u64) -> Axis {
    Axis::new(records.iter().map(|record| record.intervals[input]), least)
}

// ---------------------------------------------------------------------------------------------
// Planes.

/// What all planes of a picture share.
struct Sides {
    x: usize,
    x_axis: Axis,
    y: Option<usize>,
    y_axis: Axis,
    size: Size,
}

/// An interval for each input of the rest.
type Cell = Vec<(usize, Interval)>;

fn planes(drawing: &mut Drawing, inputs: &Inputs) -> String {
    let records = drawing.page.records;
    let Inputs { x, y, rest } = inputs;
    let (class, size) = match (y, &rest[..]) {
        (None, _) => ("line", LINE),
        (_, []) => ("one", PLANE),
        _ => ("small", SMALL_PLANE),
    };
    let x_axis = axis(records, *x, pixels(size.least_width, size.width));
    let least = pixels(LEAST_HEIGHT, size.height);
    let y_axis = y.map_or_else(Axis::blank, |y| axis(records, y, least));
    drawing.widened = x_axis.is_widened() || y_axis.is_widened();
    let sides = Sides { x: *x, x_axis, y: *y, y_axis, size };
    let figure = |cell: &Cell| {
        let shapes = cell_shapes(records, &sides, cell);
        let shapes: String = shapes.iter().map(|shape| shape_html(drawing, shape, size)).collect();
        figure(drawing.page, &sides, cell, &shapes)
    };
    let figures: String = cells(records, rest).iter().map(figure).collect();
    format!("<div class=\"planes {class}\">\n{figures}</div>\n")
}

/// Every way to take a piece of each input of the rest.
fn cells(records: &[Record], rest: &[usize]) -> Vec<Cell> {
    let mut all: Vec<Cell> = vec![Vec::new()];
    for &input in rest {
        let axis = axis(records, input, 0);
        let longer = |cell: &Cell| {
            let with = |piece| [cell.as_slice(), &[(input, axis.piece(piece))]].concat();
            (0..axis.pieces()).map(with).collect::<Vec<Cell>>()
        };
        all = all.iter().flat_map(longer).collect();
    }
    all
}

/// The shapes of the paths that hold a cell of the rest.
fn cell_shapes(records: &[Record], sides: &Sides, cell: &Cell) -> Vec<Shape> {
    let holds = |record: &Record| {
        cell.iter().all(|&(input, (low, high))| {
            let held = record.intervals[input];
            held.0 <= low && high <= held.1
        })
    };
    let tile = |(path, record): (usize, &Record)| Tile {
        path,
        x: sides.x_axis.span(record.intervals[sides.x]),
        y: sides.y.map_or(0..1, |y| sides.y_axis.span(record.intervals[y])),
    };
    let held = records.iter().enumerate().filter(|(_, record)| holds(record));
    let tiles: Vec<Tile> = held.map(tile).collect();
    let pixel = Pixel { x: pixels(1, sides.size.width), y: pixels(1, sides.size.height) };
    shapes(&sides.x_axis, &sides.y_axis, &tiles, pixel)
}

/// The shapes between their axes; y grows upwards.
fn figure(page: &Page, sides: &Sides, cell: &Cell, shapes: &str) -> String {
    let (x, height) = (sides.x, sides.size.height);
    let of_cell = |part: &dyn Fn(usize, Interval) -> String, between: &str| {
        let parts: Vec<String> = cell.iter().map(|&(input, piece)| part(input, piece)).collect();
        parts.join(between)
    };
    let caption =
        of_cell(&|input, piece| format!("{}: {}", page.name(input), interval(piece)), ", ");
    let rest = of_cell(&|input, (low, high)| format!("{input}:{low}..{high}"), " ");
    let (left, y_input, y_name) = match sides.y {
        None => Default::default(),
        Some(y) => (
            left_axis(&sides.y_axis, height),
            format!(" data-y=\"{y}\""),
            format!("<span class=\"name\">↑ {}</span>", escape(page.name(y))),
        ),
    };
    format!(
        "<figure><figcaption>{}</figcaption>{y_name}<div class=\"sides\">{left}<div class=\"plot\">\
         <svg class=\"plane\" data-x=\"{x}\"{y_input} data-rest=\"{rest}\" height=\"{height}\">\n{shapes}</svg>\
         {}</div></div><span class=\"name over\">{} →</span></figure>\n",
        escape(&caption),
        bottom_axis(&sides.x_axis),
        escape(page.name(x)),
    )
}

fn shape_html(drawing: &mut Drawing, shape: &Shape, size: Size) -> String {
    let (x, y) = (&shape.x, &shape.y);
    let place = [x.start, WHOLE - y.end, x.end - x.start, y.end - y.start].map(thousandths);
    let [left, top, width, height] = place;
    let place = format!("x=\"{left}\" y=\"{top}\" width=\"{width}\" height=\"{height}\"");
    let label = match shape.paths[..] {
        [path] => shape_label(&drawing.page.records[path], shape, size),
        _ => String::new(),
    };
    let is_thin = |side: &Range<u64>, whole: u64| side.end - side.start < pixels(THIN, whole);
    let class = if is_thin(x, size.width) || is_thin(y, size.height) { " thin" } else { "" };
    drawing.shape(&shape.paths, class, &place, &label)
}

#[cfg(test)]
mod tests {
    use super::*;
    use crate::rule::Rule;

    fn layout_of(source: &str) -> Layout {
        let rule = Rule::of_source(source);
        layout(&rule.job.intervals, &rule.records().unwrap())
    }

    /// Reads so many inputs of 0..60 and compares some of them with 10 and the numbers that follow.
    fn compares(inputs: usize, compared: &[(usize, usize)]) -> String {
        let mut source = ".input 0..60\n".repeat(inputs) + "li a7, 63\nli a2, 8\n";
        for input in 0..inputs {
            source += &format!("li a0, 0\nli a1, {}\necall\n", 8 * input);
        }
        for (input, times) in compared {
            source += &format!("ld t0, {}(zero)\n", 8 * input);
            for time in 0..*times {
                source += &format!("li t1, {}\nsltu t2, t0, t1\n", 10 + time);
            }
        }
        source + "li a7, 93\necall\n"
    }

    fn planes_of(x: usize, y: Option<usize>, rest: &[usize]) -> Layout {
        Layout::Planes(Inputs { x, y, rest: rest.to_vec() })
    }

    #[test]
    fn one_and_two_inputs_are_shown_whole() {
        assert_eq!(layout_of(&compares(1, &[])), planes_of(0, None, &[]));
        assert_eq!(layout_of(&compares(2, &[(1, 1)])), planes_of(0, Some(1), &[]));
        assert_eq!(layout_of(&compares(2, &[])), planes_of(0, Some(1), &[]));
    }

    #[test]
    fn of_more_inputs_those_that_are_cut_are_shown() {
        assert_eq!(layout_of(&compares(3, &[])), planes_of(0, None, &[]));
        assert_eq!(layout_of(&compares(3, &[(2, 1)])), planes_of(2, None, &[]));
        assert_eq!(layout_of(&compares(4, &[(3, 1), (1, 2)])), planes_of(1, Some(3), &[]));
    }

    #[test]
    fn the_inputs_with_the_most_pieces_are_the_sides() {
        let source = compares(4, &[(0, 1), (1, 3), (2, 2), (3, 3)]);
        assert_eq!(layout_of(&source), planes_of(1, Some(3), &[0, 2]));
    }

    #[test]
    fn bands_where_planes_would_be_too_many() {
        let all: Vec<(usize, usize)> = (0..6).map(|input| (input, 1)).collect();
        assert_eq!(layout_of(&compares(6, &all)), planes_of(0, Some(1), &[2, 3, 4, 5]));
        let all: Vec<(usize, usize)> = (0..7).map(|input| (input, 1)).collect();
        assert_eq!(layout_of(&compares(8, &all)), Layout::Bands((0..7).collect()));
    }
}
