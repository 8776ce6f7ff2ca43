//! A page's picture: that its shapes divide the starting box, and lead to the rows of their paths.

use crate::listing::{
    check_division, holds, index, overlap, read_ranges, shown, span, Listing, Path, Span,
};
use crate::markup::{Element, Page};
use std::collections::{BTreeMap, BTreeSet};

/// 100 % in thousandths of a percent: the picture's numbers are exact in them.
const WHOLE: u128 = 100_000;

// ---------------------------------------------------------------------------------------------
// The picture.

#[derive(Clone, Copy, PartialEq)]
pub enum Form {
    Plane,
    Bands,
}

struct Shape<'a> {
    rect: &'a Element,
    /// As messages name it.
    name: String,
    /// In order; more than one if it is merged.
    paths: Vec<usize>,
    x: Span,
    /// From the bottom in a plane, from the top in bands.
    y: Span,
}

/// One svg of the picture.
pub struct Drawing<'a> {
    x: usize,
    y: Option<usize>,
    rest: BTreeMap<usize, Span>,
    shapes: Vec<Shape<'a>>,
}

impl<'a> Drawing<'a> {
    fn is_merged(&self) -> bool {
        self.shapes.iter().any(|shape| shape.paths.len() > 1)
    }

    fn shapes_of(&self, path: usize) -> Vec<&Shape<'a>> {
        self.shapes.iter().filter(|shape| shape.paths.contains(&path)).collect()
    }

    fn inputs(&self) -> Vec<usize> {
        [self.x].into_iter().chain(self.y).chain(self.rest.keys().copied()).collect()
    }
}

impl Form {
    fn class(self) -> &'static str {
        match self {
            Form::Plane => "plane",
            Form::Bands => "bands",
        }
    }
}

/// A number with up to three decimals, in thousandths.
fn thousandths(text: &str) -> Option<u128> {
    let (whole, part) = text.split_once('.').unwrap_or((text, "0"));
    let digits = |text: &str| !text.is_empty() && text.bytes().all(|byte| byte.is_ascii_digit());
    let read = digits(whole) && digits(part) && part.len() <= 3;
    let (whole, part): (u64, u64) = (whole.parse().ok()?, format!("{part:0<3}").parse().ok()?);
    read.then_some(u128::from(whole) * 1000 + u128::from(part))
}

pub fn is_shape(element: &Element) -> bool {
    let of_paths = element.get("data-path").or(element.get("data-paths"));
    element.name == "rect" && of_paths.is_some()
}

/// The form of the picture and its svgs; none for a rule without inputs.
pub fn read_picture<'a>(
    page: &'a Page,
    listing: &Listing,
) -> Result<(Form, Vec<Drawing<'a>>), String> {
    let (planes, bands) = (Form::Plane, Form::Bands);
    for shape in page.elements.iter().filter(|element| is_shape(element)) {
        let svg = page.around(shape).find(|outer| outer.name == "svg");
        if !svg.is_some_and(|svg| svg.is("svg", planes.class()) || svg.is("svg", bands.class())) {
            return Err("a shape stands outside of planes and bands".to_string());
        }
    }
    let planes = read_drawings(page, listing, planes)?;
    let bands = read_drawings(page, listing, bands)?;
    match (planes.is_empty(), bands.is_empty(), listing.start.is_empty()) {
        (true, true, false) => Err("the page has no picture".to_string()),
        (false, false, _) => Err("the page has planes and bands".to_string()),
        (false, _, true) | (_, false, true) => Err("there is no input to be drawn".to_string()),
        (_, true, _) => Ok((Form::Plane, planes)),
        (true, false, false) => Ok((Form::Bands, bands)),
    }
}

fn read_drawings<'a>(
    page: &'a Page,
    listing: &Listing,
    form: Form,
) -> Result<Vec<Drawing<'a>>, String> {
    let svgs = page.elements.iter().filter(|element| element.is("svg", form.class()));
    let read = |(place, svg)| {
        let drawing = read_drawing(page, svg, listing, form);
        drawing.map_err(|fault| format!("{} {place}: {fault}", form.class()))
    };
    svgs.enumerate().map(read).collect()
}

fn read_drawing<'a>(
    page: &'a Page,
    svg: &Element,
    listing: &Listing,
    form: Form,
) -> Result<Drawing<'a>, String> {
    let inputs = listing.start.len();
    let x = read_input(svg, "data-x", inputs)?.ok_or("data-x is missing")?;
    let (mut y, mut rest) = (None, BTreeMap::new());
    if form == Form::Plane {
        y = read_input(svg, "data-y", inputs)?;
        let text = svg.get("data-rest").unwrap_or_default();
        rest = read_rest(text, inputs).ok_or(format!("data-rest is {text:?}"))?;
    }
    let mut shapes = Vec::new();
    for rect in page.inside(svg).iter().filter(|element| is_shape(element)) {
        let shape = read_shape(rect, listing, form)?;
        let outer = page.around(rect).take_while(|outer| outer.name != "svg");
        // a moved shape is not where its numbers say
        if outer.chain([rect]).any(|element| element.get("transform").is_some()) {
            return Err(format!("{} is moved by a transform", shape.name));
        }
        if form == Form::Plane && y.is_none() && shape.y != (0, WHOLE) {
            return Err(format!("{} is not as high as the line", shape.name));
        }
        shapes.push(shape);
    }
    let drawing = Drawing { x, y, rest, shapes };
    let drawn: BTreeSet<usize> = drawing.inputs().into_iter().collect();
    match drawn.len() == drawing.inputs().len() {
        true => Ok(drawing),
        false => Err("an input is there twice".to_string()),
    }
}

/// The number of an input, from 0.
fn read_input(svg: &Element, name: &str, inputs: usize) -> Result<Option<usize>, String> {
    let Some(text) = svg.get(name) else { return Ok(None) };
    let input = index(text).filter(|&input| input < inputs);
    input.map(Some).ok_or(format!("{name} is {text:?}, and the rule has {inputs} inputs"))
}

fn read_rest(text: &str, inputs: usize) -> Option<BTreeMap<usize, Span>> {
    let mut rest = BTreeMap::new();
    for part in text.split_whitespace() {
        let (input, interval) = part.split_once(':')?;
        let input = index(input).filter(|&input| input < inputs)?;
        if rest.insert(input, span(interval)?).is_some() {
            return None;
        }
    }
    Some(rest)
}

fn read_shape<'a>(rect: &'a Element, listing: &Listing, form: Form) -> Result<Shape<'a>, String> {
    let known = listing.paths.len();
    let (name, paths) = match (rect.get("data-path"), rect.get("data-paths")) {
        (Some(path), None) => {
            let read = index(path).filter(|&path| path < known);
            (format!("path {path}"), read.map(|path| vec![path]))
        }
        (None, Some(paths)) => (format!("paths {paths}"), read_merged(paths, known)),
        _ => return Err("a shape has both data-path and data-paths".to_string()),
    };
    let paths = paths.ok_or(format!("a shape of {name}, of {known} in the listing"))?;
    let named = |fault| format!("{name}: {fault}");
    let x = read_side(rect, "x", "width", Form::Plane).map_err(named)?;
    let mut y = read_side(rect, "y", "height", form).map_err(named)?;
    if form == Form::Plane {
        y = (WHOLE - y.1, WHOLE - y.0);
    }
    Ok(Shape { rect, name, paths, x, y })
}

/// The paths of a merged shape are more than one.
fn read_merged(text: &str, known: usize) -> Option<Vec<usize>> {
    let paths = read_ranges(text, known).filter(|paths| paths.len() > 1)?;
    Some(paths.into_iter().collect())
}

/// In percent of a plane, or in px of bands.
fn read_side(rect: &Element, start: &str, length: &str, form: Form) -> Result<Span, String> {
    let read = |name: &str| {
        let text = rect.get(name).unwrap_or_default();
        let digits = match form {
            Form::Plane => text.strip_suffix('%'),
            Form::Bands => Some(text.strip_suffix("px").unwrap_or(text)),
        };
        digits.and_then(thousandths).ok_or(format!("{name} is {text:?}"))
    };
    let (low, long) = (read(start)?, read(length)?);
    match low + long {
        _ if long == 0 => Err(format!("{length} is 0")),
        behind if form == Form::Plane && behind > WHOLE => {
            Err(format!("{start} and {length} are above 100%"))
        }
        behind => Ok((low, behind)),
    }
}

pub fn check_picture(listing: &Listing, form: Form, drawings: &[Drawing]) -> Result<(), String> {
    if drawings.is_empty() {
        return Ok(());
    }
    let is_drawn = |path| drawings.iter().any(|drawing| !drawing.shapes_of(path).is_empty());
    if let Some(path) = (0..listing.paths.len()).find(|&path| !is_drawn(path)) {
        return Err(format!("path {path} has no shape"));
    }
    let drawn: BTreeSet<usize> = drawings.iter().flat_map(Drawing::inputs).collect();
    let is_cut =
        |input: usize| listing.paths.iter().any(|path| path.inputs[input] != listing.start[input]);
    if let Some(input) = (0..listing.start.len()).find(|i| !drawn.contains(i) && is_cut(*i)) {
        return Err(format!("input {input} is cut, and it is not drawn"));
    }
    match form {
        Form::Plane => check_planes(listing, drawings),
        Form::Bands => check_bands(listing, drawings),
    }
}

pub fn counted(listing: &Listing, form: Form, drawings: &[Drawing]) -> String {
    let plural = |count: usize, what: &str| match count {
        1 => format!("1 {what}"),
        _ => format!("{count} {what}s"),
    };
    let svgs = match form {
        Form::Plane => plural(drawings.len(), "plane"),
        Form::Bands => format!("{} bands", drawings.len()),
    };
    let shapes = drawings.iter().map(|drawing| drawing.shapes.len()).sum();
    format!("{}, {svgs}, {} agree", plural(listing.paths.len(), "path"), plural(shapes, "shape"))
}

// ---------------------------------------------------------------------------------------------
// Scales.

/// Where the ends of paths' intervals stand along a side.
fn check_scale(
    listing: &Listing,
    drawing: &Drawing,
    input: usize,
    side: impl Fn(&Shape) -> Span,
) -> Result<(), String> {
    let single = drawing.shapes.iter().filter(|shape| shape.paths.len() == 1);
    let values = |shape: &Shape| listing.paths[shape.paths[0]].inputs[input];
    let sides: Vec<(Span, Span)> = single.map(|shape| (values(shape), side(shape))).collect();
    match drawing.is_merged() {
        true => check_order(&sides),
        false => check_ends(&sides, listing.start[input]),
    }
    .map_err(|fault| format!("input {input}: {fault}"))
}

/// Each end has one place, and a higher one stands further along.
fn check_ends(sides: &[(Span, Span)], start: Span) -> Result<(), String> {
    let both = |&(values, places): &(Span, Span)| [(values.0, places.0), (values.1, places.1)];
    let ends: BTreeSet<(u128, u128)> = sides.iter().flat_map(both).collect();
    for &(value, place) in &ends {
        if value == start.0 && place != 0 || value == start.1 && place != WHOLE {
            return Err(format!("{value} is an end of the whole, and stands at {place}"));
        }
    }
    for (a, b) in ends.iter().zip(ends.iter().skip(1)) {
        if a.0 == b.0 || a.1 >= b.1 {
            return Err(format!("{} stands at {}, and {} at {}", a.0, a.1, b.0, b.1));
        }
    }
    Ok(())
}

/// Merged shapes take edges of single ones, so only the order of the single ones is left.
fn check_order(sides: &[(Span, Span)]) -> Result<(), String> {
    for (values, places) in sides {
        let wrong = |other: &&(Span, Span)| values.1 <= other.0 .0 && places.1 > other.1 .0;
        if let Some((other, _)) = sides.iter().find(wrong) {
            return Err(format!("{} does not stand before {}", shown(*values), shown(*other)));
        }
    }
    Ok(())
}

// ---------------------------------------------------------------------------------------------
// Planes.

fn check_planes(listing: &Listing, planes: &[Drawing]) -> Result<(), String> {
    let inputs = planes[0].inputs();
    let differs = |plane: &Drawing| plane.inputs() != inputs || plane.y != planes[0].y;
    if let Some(place) = planes.iter().position(differs) {
        return Err(format!("plane {place} is of other inputs than plane 0"));
    }
    let whole: Vec<Span> = planes[0].rest.keys().map(|&input| listing.start[input]).collect();
    let rests: Vec<Vec<Span>> =
        planes.iter().map(|plane| plane.rest.values().copied().collect()).collect();
    check_division(&whole, &rests, |place| format!("plane {place}"))
        .map_err(|fault| format!("rests: {fault}"))?;
    for (place, plane) in planes.iter().enumerate() {
        check_plane(listing, plane).map_err(|fault| format!("plane {place}: {fault}"))?;
    }
    Ok(())
}

fn check_plane(listing: &Listing, plane: &Drawing) -> Result<(), String> {
    for (number, path) in listing.paths.iter().enumerate() {
        check_member(plane, number, path)?;
    }
    let areas: Vec<Vec<Span>> = plane.shapes.iter().map(|shape| vec![shape.x, shape.y]).collect();
    check_division(&[(0, WHOLE); 2], &areas, |shape| plane.shapes[shape].name.clone())?;
    check_scale(listing, plane, plane.x, |shape| shape.x)?;
    match plane.y {
        Some(input) => check_scale(listing, plane, input, |shape| shape.y),
        None => Ok(()),
    }
}

/// A path has a shape in a plane if it has a part there, and then it has all of the rest.
fn check_member(plane: &Drawing, number: usize, path: &Path) -> Result<(), String> {
    let held = plane.rest.iter().all(|(&input, &rest)| holds(path.inputs[input], rest));
    let met = plane.rest.iter().all(|(&input, &rest)| overlap(path.inputs[input], rest));
    match (held, met, plane.shapes_of(number).len()) {
        (false, true, _) => Err(format!("path {number} has a part of the rest alone")),
        (false, false, 1..) => Err(format!("path {number} has a shape, and nothing of the rest")),
        (true, _, 0) => Err(format!("path {number} has no shape")),
        (true, _, count @ 2..) if !plane.is_merged() => {
            Err(format!("path {number} has {count} shapes"))
        }
        _ => Ok(()),
    }
}

// ---------------------------------------------------------------------------------------------
// Bands.

fn check_bands(listing: &Listing, bands: &[Drawing]) -> Result<(), String> {
    let inputs: BTreeSet<usize> = bands.iter().map(|band| band.x).collect();
    if inputs.len() != bands.len() {
        return Err("two bands are of the same input".to_string());
    }
    for (place, band) in bands.iter().enumerate() {
        let named = |fault| format!("bands {place}: {fault}");
        check_band_rows(listing, band, &bands[0]).map_err(named)?;
        check_scale(listing, band, band.x, |shape| shape.x).map_err(named)?;
    }
    if bands.iter().any(Drawing::is_merged) {
        return Ok(());
    }
    let part = |path| -> Vec<Span> {
        bands.iter().flat_map(|band| band.shapes_of(path)).map(|shape| shape.x).collect()
    };
    let boxes: Vec<Vec<Span>> = (0..listing.paths.len()).map(part).collect();
    check_division(&vec![(0, WHOLE); bands.len()], &boxes, |path| format!("path {path}"))
        .map_err(|fault| format!("bands: {fault}"))
}

/// Each path has one row, the same as in the first svg, and no row lies on another.
fn check_band_rows(listing: &Listing, band: &Drawing, first: &Drawing) -> Result<(), String> {
    for path in 0..listing.paths.len() {
        let shapes = band.shapes_of(path);
        let [shape] = shapes[..] else {
            return Err(format!("path {path} has {} shapes", shapes.len()));
        };
        if first.shapes_of(path).iter().any(|other| other.y.0 != shape.y.0) {
            return Err(format!("path {path} is not in the row that it has in bands 0"));
        }
    }
    let mut rows: Vec<&Shape> = band.shapes.iter().collect();
    rows.sort_by_key(|shape| shape.y);
    match rows.windows(2).find(|pair| overlap(pair[0].y, pair[1].y)) {
        Some(pair) => Err(format!("the rows of {} and {} overlap", pair[0].name, pair[1].name)),
        None => Ok(()),
    }
}

// ---------------------------------------------------------------------------------------------
// Links and fills.

/// Each shape leads to its row and has the fill of its path; the paths that each link is of.
pub fn read_links<'a>(
    page: &'a Page,
    drawings: &[Drawing<'a>],
    styles: &[&str],
) -> Result<BTreeMap<&'a str, BTreeSet<usize>>, String> {
    let mut links: BTreeMap<&str, BTreeSet<usize>> = BTreeMap::new();
    for shape in drawings.iter().flat_map(|drawing| &drawing.shapes) {
        let named = |fault| format!("shape of {}: {fault}", shape.name);
        let id = read_link(page, shape).map_err(named)?;
        check_fill(shape, styles).map_err(named)?;
        links.entry(id).or_default().extend(&shape.paths);
    }
    Ok(links)
}

fn read_link<'a>(page: &'a Page, shape: &Shape<'a>) -> Result<&'a str, String> {
    let link = page.around(shape.rect).find(|outer| outer.name == "a").ok_or("it has no link")?;
    let (id, to) = (link.get("id").unwrap_or_default(), link.get("href").unwrap_or_default());
    if id.strip_prefix("shape-").and_then(index).is_none() {
        return Err(format!("its link has the id {id:?}"));
    }
    match to == format!("#path-{}", shape.paths[0]) {
        true => Ok(id),
        false => Err(format!("it leads to {to:?}")),
    }
}

/// A fill of another path would hide its own, so a shape has none.
fn check_fill(shape: &Shape, styles: &[&str]) -> Result<(), String> {
    let own: BTreeSet<&str> = shape.paths.iter().map(|&path| styles[path]).collect();
    let classes = shape.rect.get("class").unwrap_or_default();
    let found: Vec<&str> = classes.split_whitespace().collect();
    // one of several paths need not give a merged shape its fill
    let is_filled = shape.paths.len() > 1 || own.iter().all(|style| found.contains(style));
    let is_other = |class: &&str| styles.contains(class) && !own.contains(class);
    match found.contains(&"shape") && is_filled && !found.iter().any(is_other) {
        true => Ok(()),
        false => Err(format!("its class is {classes:?}, and the fill {own:?}")),
    }
}

#[cfg(test)]
mod tests {
    use crate::samples::*;

    fn rests_refused(from: &str, to: &str, message: &str) {
        refused(RESTS, RESTS_LISTING, (from, to), message);
    }

    fn bands_refused(from: &str, to: &str, message: &str) {
        refused(BANDS, PLANE_LISTING, (from, to), message);
    }

    fn merged_refused(from: &str, to: &str, message: &str) {
        refused(MERGED, MERGED_LISTING, (from, to), message);
    }

    #[test]
    fn a_picture_is_of_one_form() {
        picture_refused("", LINE_LISTING, "the page has no picture");
        let both = PLANE.to_string() + BANDS;
        picture_refused(&both, PLANE_LISTING, "the page has planes and bands");
        let more = "<svg class=\"plane\" data-x=\"0\"></svg>";
        let message = "plane 0: data-x is \"0\", and the rule has 0 inputs";
        picture_refused(more, NONE_LISTING, message);
        let outside = "a shape stands outside of planes and bands";
        line_refused("<p>", "<rect data-path=\"0\"></rect><p>", outside);
        line_refused("<pattern", "<rect data-paths=\"0-1\"/><pattern", outside);
        line_refused("<g>", "<svg><rect data-path=\"0\"/></svg><g>", outside);
    }

    #[test]
    fn drawings_name_inputs() {
        line_refused("data-x=\"0\"", "", "plane 0: data-x is missing");
        let one = "plane 0: data-x is \"1\", and the rule has 1 inputs";
        line_refused("data-x=\"0\"", "data-x=\"1\"", one);
        plane_refused("data-y=\"1\"", "data-y=\"0\"", "plane 0: an input is there twice");
        rests_refused("\"2:0..0\"", "\"0:0..0\"", "plane 0: an input is there twice");
        for rest in ["2", "2:0", "2:1..0", "3:0..0", "2:0..0 2:0..0", "2:0..0,1:0..7"] {
            let message = format!("plane 0: data-rest is {rest:?}");
            rests_refused("2:0..0", rest, &message);
        }
        let undrawn = "input 1 is cut, and it is not drawn";
        let line = r#"<svg class="plane" data-x="0">
<rect data-path="0" x="0%" y="0%" width="50%" height="100%"/>
<rect data-paths="1-2" x="50%" y="0%" width="50%" height="100%"/></svg>"#;
        picture_refused(line, PLANE_LISTING, undrawn);
    }

    #[test]
    fn shapes_have_paths_and_sides() {
        let both = "plane 0: a shape has both data-path and data-paths";
        line_refused("<rect data-path=\"1\"", "<rect data-path=\"1\" data-paths=\"1-2\"", both);
        let other = "plane 0: a shape of path 3, of 3 in the listing";
        line_refused("<rect data-path=\"1\"", "<rect data-path=\"3\"", other);
        line_refused("<rect data-path=\"1\"", "<rect data-path=\"0\"", "path 1 has no shape");
        for width in ["0.25", "0.2505%", ".25%", "0.%", "-1%", "+1%", "0,25%", "1e1%", ""] {
            let message = format!("plane 0: path 1: width is {width:?}");
            line_refused("width=\"0.25%\"", &format!("width={width:?}"), &message);
        }
        line_refused("width=\"0.25%\"", "", "plane 0: path 1: width is \"\"");
        line_refused("width=\"0.25%\"", "width=\"0.0%\"", "plane 0: path 1: width is 0");
        let above = "plane 0: path 2: x and width are above 100%";
        line_refused("width=\"66.417%\"", "width=\"66.418%\"", above);
        let above = "plane 0: path 1: y and height are above 100%";
        plane_refused("height=\"25%\"", "height=\"25.001%\"", above);
        let low = "plane 0: path 1 is not as high as the line";
        line_refused("0.25%\" height=\"100%", "0.25%\" height=\"50%", low);
        let moved = "plane 0: path 0 is moved by a transform";
        line_refused("<g>", "<g transform=\"scale(1,-1)\">", moved);
    }

    #[test]
    fn shapes_divide_a_plane() {
        let gap = "plane 0: a part of the whole is not covered";
        line_refused("width=\"0.25%\"", "width=\"0.249%\"", gap);
        plane_refused("height=\"75%\"", "height=\"74.999%\"", gap);
        let overlap = "plane 0: path 0 and path 1 overlap";
        line_refused("x=\"33.333%\"", "x=\"33.332%\"", overlap);
        let overlap = "plane 0: path 1 and path 2 overlap";
        plane_refused("height=\"75%\"", "height=\"75.001%\"", overlap);
        let twice = r#"<rect data-path="1" x="33.333%" y="0%" width="0.25%" height="100%"/>"#;
        line_refused(twice, &twice.repeat(2), "plane 0: path 1 has 2 shapes");
        line_refused(twice, "", "path 1 has no shape");
    }

    #[test]
    fn scales_rise() {
        let low = "x=\"50%\" y=\"75%\" width=\"50%\" height=\"25%\"";
        let unflipped = PLANE.replace(
            "y=\"0%\" width=\"50%\" height=\"75%\"",
            "y=\"25%\" width=\"50%\" height=\"75%\"",
        );
        let unflipped = unflipped.replace(low, "x=\"50%\" y=\"0%\" width=\"50%\" height=\"25%\"");
        let message = "plane 0: input 1: 0 is an end of the whole, and stands at 75000";
        picture_refused(&unflipped, PLANE_LISTING, message);
        let mirrored = exchanged(PLANE, "x=\"0%\"", "x=\"50%\"");
        let message = "plane 0: input 0: 0 is an end of the whole, and stands at 50000";
        picture_refused(&mirrored, PLANE_LISTING, message);
        agrees(&steps("30", "70"), STEPS_LISTING, "4 paths, 1 plane, 4 shapes agree");
        let message = "plane 0: input 0: 3 stands at 60000, and 5 at 50000";
        picture_refused(&steps("60", "40"), STEPS_LISTING, message);
        let message = "plane 0: input 0: 3 stands at 50000, and 5 at 50000";
        picture_refused(&steps("50", "50"), STEPS_LISTING, message);
        let unmerged = r#"<rect data-path="1" x="49%" y="0%" width="3%" height="100%"/>
<rect data-path="2" x="52%" y="0%" width="1%" height="100%"/>"#;
        let merged = r#"<rect data-paths="1-2" x="49%" y="0%" width="4%" height="100%"/>"#;
        let line = MERGED.replace(merged, unmerged);
        agrees(&line, MERGED_LISTING, "4 paths, 1 plane, 4 shapes agree");
        let line = exchanged(&line, "rect data-path=\"1\"", "rect data-path=\"2\"");
        let message = "plane 0: input 0: 50 stands at 49000, and 50 at 52000";
        picture_refused(&line, MERGED_LISTING, message);
    }

    #[test]
    fn planes_divide_the_rest() {
        let overlap = "rests: plane 0 and plane 1 overlap";
        rests_refused("2:0..0", "2:0..1", overlap);
        rests_refused("2:1..3", "2:1..2", "rests: a part of the whole is not covered");
        rests_refused("2:1..3", "2:1..4", "rests: plane 1 reaches out of the whole");
        let other = "plane 1 is of other inputs than plane 0";
        rests_refused("2:1..3", "1:0..7 2:1..3", other);
        rests_refused(
            "data-x=\"0\" data-rest=\"2:1..3\"",
            "data-x=\"1\" data-rest=\"2:1..3\"",
            other,
        );
        picture_refused(&PLANE.repeat(2), PLANE_LISTING, overlap);
        let lines =
            PLANE.to_string() + "<svg class=\"plane\" data-x=\"0\" data-rest=\"1:0..7\"></svg>";
        picture_refused(&lines, PLANE_LISTING, other);
        let cut = RESTS.replace("2:0..0", "2:0..1").replace("2:1..3", "2:2..3");
        let message = "plane 0: path 1 has a part of the rest alone";
        picture_refused(&cut, RESTS_LISTING, message);
    }

    #[test]
    fn a_plane_has_the_paths_of_its_rest() {
        let shape = "<rect data-path=\"0\" x=\"0%\" y=\"0%\" width=\"40%\" height=\"100%\"/>";
        rests_refused(shape, "", "plane 1: path 0 has no shape");
        let shape = "<rect data-path=\"1\" x=\"50%\"";
        let other = "<rect data-path=\"2\" x=\"50%\"";
        rests_refused(shape, other, "path 1 has no shape");
        let more = "plane 0: path 2 has a shape, and nothing of the rest";
        rests_refused(shape, "<rect data-paths=\"1-2\" x=\"50%\"", more);
        let swapped = RESTS
            .replace(shape, other)
            .replace("<rect data-path=\"2\" x=\"40%\"", "<rect data-path=\"1\" x=\"40%\"");
        picture_refused(&swapped, RESTS_LISTING, "plane 0: path 1 has no shape");
    }

    #[test]
    fn merged_shapes_name_their_paths() {
        for paths in
            ["1", "1-1", "1-2,2", "2-1", "1-4", "1-18446744073709551615", "1,,2", "1..2", ""]
        {
            let message = format!("plane 0: a shape of paths {paths}, of 4 in the listing");
            merged_refused("\"1-2\"", &format!("{paths:?}"), &message);
        }
        agrees(&MERGED.replace("1-2", "2,1"), MERGED_LISTING, "4 paths, 1 plane, 3 shapes agree");
        agrees(&MERGED.replace("1-2", "0,1-3"), MERGED_LISTING, "4 paths, 1 plane, 3 shapes agree");
        merged_refused("\"1-2\"", "\"2-3\"", "path 1 has no shape");
    }

    #[test]
    fn merged_shapes_divide_a_plane_too() {
        merged_refused(
            "width=\"4%\"",
            "width=\"3%\"",
            "plane 0: a part of the whole is not covered",
        );
        merged_refused("width=\"4%\"", "width=\"5%\"", "plane 0: paths 1-2 and path 3 overlap");
        let swapped = exchanged(MERGED, "data-path=\"0\"", "data-path=\"3\"");
        let message = "plane 0: input 0: 0..49 does not stand before 52..99";
        picture_refused(&swapped, MERGED_LISTING, message);
    }

    #[test]
    fn bands_have_a_row_for_each_path() {
        let shape = "<rect data-path=\"1\" x=\"50%\" y=\"10px\" width=\"50%\" height=\"9px\"/>";
        bands_refused(shape, "", "bands 0: path 1 has 0 shapes");
        bands_refused(shape, &shape.repeat(2), "bands 0: path 1 has 2 shapes");
        bands_refused(
            "height=\"9px\"",
            "height=\"10.501px\"",
            "bands 0: the rows of path 1 and path 2 overlap",
        );
        bands_refused("height=\"9px\"", "height=\"10%\"", "bands 0: path 1: height is \"10%\"");
        bands_refused(
            "y=\"10px\"",
            "y=\"10.5px\"",
            "bands 1: path 1 is not in the row that it has in bands 0",
        );
        picture_refused(&BANDS.repeat(2), PLANE_LISTING, "two bands are of the same input");
        let missing = BANDS.split("<svg class=\"bands\" data-x=\"1\"").next().unwrap_or_default();
        picture_refused(missing, PLANE_LISTING, "input 1 is cut, and it is not drawn");
    }

    #[test]
    fn bands_have_scales_and_divide_the_whole() {
        let message = "bands 0: input 0: 5 stands at 50000, and 5 at 50001";
        bands_refused(
            "x=\"50%\" y=\"10px\" width=\"50%\"",
            "x=\"50.001%\" y=\"10px\" width=\"49.999%\"",
            message,
        );
        let message = "bands 1: input 1: 2 stands at 24000, and 2 at 25000";
        bands_refused("width=\"25%\"", "width=\"24%\"", message);
        let message = "bands 0: input 0: 10 is an end of the whole, and stands at 99000";
        bands_refused("y=\"10px\" width=\"50%\"", "y=\"10px\" width=\"49%\"", message);
        let listing = PLANE_LISTING.replace("in 2..7", "in 3..7");
        let gap =
            BANDS.replace("\"25%\" y=\"20.5\" width=\"75%\"", "\"30%\" y=\"20.5\" width=\"70%\"");
        picture_refused(&gap, &listing, "bands: a part of the whole is not covered");
        let listing = PLANE_LISTING.replace("in 2..7", "in 1..7");
        let overlap =
            gap.replace("\"30%\" y=\"20.5\" width=\"70%\"", "\"20%\" y=\"20.5\" width=\"80%\"");
        picture_refused(&overlap, &listing, "bands: path 1 and path 2 overlap");
        let merged = |from, to, message| refused(MERGED_BANDS, MERGED_LISTING, (from, to), message);
        merged("\"1,2\"", "\"1-3\"", "bands 0: path 3 has 2 shapes");
        merged("x=\"52%\"", "x=\"0%\"", "bands 0: input 0: 0..49 does not stand before 52..99");
    }

    #[test]
    fn shapes_lead_to_rows() {
        let shape = "<a id=\"shape-1\" href=\"#path-1\">";
        let message = "shape of path 1: it leads to \"#path-2\"";
        line_refused(shape, "<a id=\"shape-1\" href=\"#path-2\">", message);
        let message = "shape of path 1: it leads to \"\"";
        line_refused(shape, "<a id=\"shape-1\" xlink:href=\"#path-1\">", message);
        for id in ["shape", "shape-x", "shape-01", ""] {
            let message = format!("shape of path 1: its link has the id {id:?}");
            line_refused(shape, &format!("<a id={id:?} href=\"#path-1\">"), &message);
        }
        let right = page(LINE_LISTING, LINE);
        let (before, behind) = right.split_once(shape).unwrap_or_default();
        let unlinked = before.to_string() + &behind.replacen("</a>", "", 1);
        let message = "shape of path 1: it has no link".to_string();
        assert!(faults(&unlinked, LINE_LISTING).contains(&message));
        let message = "shape of paths 1-2: it leads to \"#path-2\"";
        merged_refused("href=\"#path-1\"", "href=\"#path-2\"", message);
    }

    #[test]
    fn shapes_have_fills() {
        for class in ["", "kind-2", "shape", "shape varies", "shape kind-2 varies"] {
            let message =
                format!("shape of path 1: its class is {class:?}, and the fill {{\"kind-2\"}}");
            line_refused("\"shape kind-2\"", &format!("{class:?}"), &message);
        }
        let several = page(MERGED_LISTING, MERGED).replacen("shape several", "shape exit-0", 1);
        assert_eq!(faults(&several, MERGED_LISTING), [""; 0]);
        let message = "shape of paths 1-2: its class is \"several\", and the fill {\"exit-0\"}";
        merged_refused("shape several", "several", message);
    }
}
