//! Text on shapes and beside axes, where there is room for it.

use super::axis::{Axis, WHOLE};
use super::picture::Size;
use super::shapes::Shape;
use formats::numbers::{kind_text, EXITED};
use formats::report::Record;

/// Widths of a plane in pixels, and the class of what is shown from each of them on; the style sheet has them too.
pub const LEVELS: [(u64, &str); 4] = [(220, ""), (340, " w340"), (500, " w500"), (880, " w880")];

/// Pixels of a letter, of a line of text, and of one beside an axis; a little more than most fonts take.
const LETTER: u64 = 8;
const TEXT_LINE: u64 = 16;
const TICK_LINE: u64 = 13;

/// A long value that is nearer than this to MAX or to a power of two is written by its distance from it.
const NEAR: u64 = 1000;
/// Numbers with more digits than this are rounded beside an axis.
const MOST_DIGITS: usize = 9;

/// A number of thousandths of a per cent, for an attribute.
pub fn thousandths(number: u64) -> String {
    let (whole, rest) = (number / 1000, number % 1000);
    match rest {
        0 => format!("{whole}%"),
        _ => format!("{whole}.{}%", format!("{rest:03}").trim_end_matches('0')),
    }
}

/// A value where there is little room: exact if it is short or near MAX or a high power of two.
pub fn short(value: u64) -> String {
    let digits = value.to_string();
    if digits.len() <= MOST_DIGITS {
        return digits;
    }
    let below_max = u64::MAX - value;
    if below_max < NEAR {
        return beside("MAX", "-", below_max);
    }
    let power = 1 << value.ilog2();
    let next = (power as u128) << 1;
    if value - power < NEAR {
        return beside(&format!("2^{}", value.ilog2()), "+", value - power);
    }
    match (next - value as u128) as u64 {
        below if below < NEAR => beside(&format!("2^{}", value.ilog2() + 1), "-", below),
        _ => format!("{:.2e}", value as f64),
    }
}

fn beside(name: &str, sign: &str, distance: u64) -> String {
    match distance {
        0 => name.to_string(),
        _ => format!("{name}{sign}{distance}"),
    }
}

// ---------------------------------------------------------------------------------------------
// Shapes.

/// The path's number and, below it, what it ends with; where there is room for one line, the end alone.
pub fn shape_label(record: &Record, shape: &Shape, size: Size) -> String {
    let [width, height] = [&shape.x, &shape.y].map(|side| side.end - side.start);
    let (number, end) = (format!("path {}", record.number), end_label(record, width));
    let lines = height * size.height / WHOLE / TEXT_LINE;
    let x = thousandths((shape.x.start + shape.x.end) / 2);
    let y = thousandths(WHOLE - (shape.y.start + shape.y.end) / 2);
    let text = |text: &str, class: &str, down: &str| match level(width, text) {
        Some(level) => format!(
            "<text class=\"{class}{level}\" x=\"{x}\" y=\"{y}\" dy=\"{down}\">{text}</text>"
        ),
        None => String::new(),
    };
    match (lines, level(width, &number)) {
        (0, _) => String::new(),
        (1, _) | (_, None) => text(&end, "end", "0.35em"),
        _ => text(&number, "number", "-0.35em") + &text(&end, "end", "0.95em"),
    }
}

/// What a path exits with, or its kind: in words where there is room, and else as the listing has it.
pub fn end_label(record: &Record, width: u64) -> String {
    match (record.kind, record.exit) {
        (EXITED, (low, high)) if low == high => short(low),
        (EXITED, (low, high)) => format!("{}..{}", short(low), short(high)),
        (kind, _) if level(width, kind_text(kind)) == Some("") => kind_text(kind).to_string(),
        (kind, _) => format!("end {kind}"),
    }
}

fn letters(text: &str) -> u64 {
    LETTER * text.chars().count() as u64
}

/// The class of a text in a part of a picture, by the narrowest picture in which it has room.
fn level(width: u64, text: &str) -> Option<&'static str> {
    let fits = |&&(pixels, _): &&(u64, &str)| width * pixels / WHOLE >= letters(text);
    LEVELS.iter().find(fits).map(|(_, class)| *class)
}

// ---------------------------------------------------------------------------------------------
// Axes.

/// A value beside an axis, and where.
type Tick = (u64, String);

/// The first value of a piece at its beginning and a single value in its middle, and at the end the highest value.
fn ticks(axis: &Axis) -> Vec<Tick> {
    let mut ticks: Vec<Tick> = (0..axis.pieces()).map(|piece| piece_tick(axis, piece)).collect();
    let (low, high) = axis.piece(axis.pieces() - 1);
    if low < high {
        ticks.push((WHOLE, short(high)));
    }
    ticks
}

fn piece_tick(axis: &Axis, piece: usize) -> Tick {
    let ((low, high), start) = (axis.piece(piece), axis.places[piece]);
    match low == high {
        true => ((start + axis.places[piece + 1]) / 2, short(low)),
        false => (start, short(low)),
    }
}

/// Where text of this length stands along a side, in pixels; at the ends it is moved inside.
fn extent(place: u64, length: u64, side: u64) -> (u64, u64) {
    let start = (place * side / WHOLE).saturating_sub(length / 2).min(side.saturating_sub(length));
    (start, start + length)
}

/// Which ticks have room beside those that are shown already; the ends come first, and then every second of those
/// between, so that they are spread evenly.
fn fit(ticks: &[Tick], extent: impl Fn(&Tick) -> (u64, u64), shown: &mut Vec<usize>) {
    let last = ticks.len() - 1;
    let steps = (0..=last.next_power_of_two().ilog2()).rev();
    let spread = steps.flat_map(|step| (0..last).step_by(1 << step));
    for tick in [0, last].into_iter().chain(spread) {
        let (start, end) = extent(&ticks[tick]);
        let meets = |&other: &usize| {
            let (other_start, other_end) = extent(&ticks[other]);
            start < other_end && other_start < end
        };
        if !shown.iter().any(meets) {
            shown.push(tick);
        }
    }
}

pub fn bottom_axis(axis: &Axis) -> String {
    let ticks = ticks(axis);
    let (mut shown, mut texts) = (Vec::new(), String::new());
    for (pixels, class) in LEVELS {
        let before = shown.len();
        // with a letter between two of them
        let extent = |(place, text): &Tick| extent(*place, letters(text) + LETTER, pixels);
        fit(&ticks, extent, &mut shown);
        for (place, text) in shown[before..].iter().map(|&tick| &ticks[tick]) {
            let anchor = match *place {
                0 => " start",
                WHOLE => " last",
                _ => "",
            };
            texts += &format!(
                "<text class=\"tick{anchor}{class}\" x=\"{}\" y=\"15\">{text}</text>",
                thousandths(*place)
            );
        }
    }
    let lines = lines(axis, |ends| {
        let [from, to] = ends.map(thousandths);
        format!("x1=\"{from}\" x2=\"{to}\" y1=\"1\" y2=\"1\"")
    });
    format!("<svg class=\"axis bottom\" height=\"20\">{lines}{texts}</svg>")
}

pub fn left_axis(axis: &Axis, height: u64) -> String {
    let ticks = ticks(axis);
    let mut shown = Vec::new();
    fit(&ticks, |(place, _)| extent(*place, TICK_LINE, height), &mut shown);
    let longest = shown.iter().map(|&tick| letters(&ticks[tick].1)).max().unwrap_or(0);
    let width = longest + 6;
    let text = |&tick: &usize| {
        let (place, text) = &ticks[tick];
        let down = match *place {
            0 => "-0.1em",
            WHOLE => "0.8em",
            _ => "0.35em",
        };
        format!(
            "<text class=\"tick last\" x=\"{}\" y=\"{}\" dy=\"{down}\">{text}</text>",
            width - 6,
            thousandths(WHOLE - place)
        )
    };
    let texts: String = shown.iter().map(text).collect();
    let x = width - 1;
    let lines = lines(axis, |ends| {
        let [from, to] = ends.map(|place| thousandths(WHOLE - place));
        format!("x1=\"{x}\" x2=\"{x}\" y1=\"{to}\" y2=\"{from}\"")
    });
    format!("<svg class=\"axis left\" width=\"{width}\" height=\"{height}\">{lines}{texts}</svg>")
}

/// A line along neighbouring pieces that are all to scale, or all widened.
fn lines(axis: &Axis, place: impl Fn([u64; 2]) -> String) -> String {
    let mut lines = String::new();
    let mut from = 0;
    for run in axis.widened.chunk_by(|one, other| one == other) {
        let to = from + run.len();
        let ends = [from, to].map(|cut| axis.places[cut]);
        let class = if run[0] { " class=\"widened\"" } else { "" };
        lines += &format!("<line{class} {}/>", place(ends));
        from = to;
    }
    lines
}

#[cfg(test)]
mod tests {
    use super::*;

    const MAX: u64 = u64::MAX;

    #[test]
    fn long_values_in_few_letters() {
        assert_eq!([0, 999_999_999].map(short), ["0", "999999999"]);
        assert_eq!([MAX, MAX - 4, MAX - 999].map(short), ["MAX", "MAX-4", "MAX-999"]);
        let power = 1 << 63;
        assert_eq!([power, power + 1, power - 1].map(short), ["2^63", "2^63+1", "2^63-1"]);
        assert_eq!([MAX - 1000, 12_345_678_901].map(short), ["1.84e19", "1.23e10"]);
    }

    #[test]
    fn places_are_written_exactly() {
        let written = [0, 1, 50, 12_500, 99_999, WHOLE].map(thousandths);
        assert_eq!(written, ["0%", "0.001%", "0.05%", "12.5%", "99.999%", "100%"]);
    }

    #[test]
    fn a_text_is_shown_from_the_width_on_that_has_room_for_it() {
        assert_eq!(level(WHOLE, "0..60"), Some(""));
        assert_eq!(level(WHOLE / 8, "0..60"), Some(" w340"));
        assert_eq!(level(WHOLE / 12, "0..60"), Some(" w500"));
        assert_eq!(level(WHOLE / 20, "0..60"), Some(" w880"));
        assert_eq!(level(WHOLE / 30, "0..60"), None);
    }

    /// The ticks of an axis, with the widths that they are shown from on.
    fn shown(axis: &Axis) -> Vec<(String, &'static str)> {
        let svg = bottom_axis(axis);
        let texts = svg.split("<text class=\"tick").skip(1);
        let of = |text: &str| {
            let (class, rest) = text.split_once('"').unwrap();
            let level = LEVELS.iter().rev().find(|(_, level)| class.ends_with(level)).unwrap().1;
            (rest.split(['>', '<']).nth(1).unwrap().to_string(), level)
        };
        texts.map(of).collect()
    }

    #[test]
    fn ticks_that_have_room() {
        let axis = |cuts: &[u64]| Axis::new(cuts.windows(2).map(|pair| (pair[0], pair[1] - 1)), 0);
        let texts = |cuts: &[u64]| shown(&axis(cuts));
        let all =
            |texts: &[&str]| texts.iter().map(|text| (text.to_string(), "")).collect::<Vec<_>>();
        assert_eq!(texts(&[0, 8, 61]), all(&["0", "60", "8"]));
        // a single value has no second tick at its end
        assert_eq!(texts(&[0, 1, 2]), all(&["0", "1"]));
        assert_eq!(texts(&[7, 8]), all(&["7"]));
        let many = texts(&(0..=1000).collect::<Vec<_>>());
        assert_eq!(many[..2], all(&["0", "999"]));
        let of_level = |level: &str| many.iter().filter(|(_, each)| *each == level).count();
        let counts = LEVELS.map(|(_, level)| of_level(level));
        assert!(counts.iter().all(|&count| count >= 3), "{many:?}");
    }
}
