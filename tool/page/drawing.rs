//! Shapes as a picture has them: filled by what their paths lead to, with a link to the row of the path.

use super::html::{escape, interval, Ranges};
use super::legend::swatch;
use super::Page;
use formats::blocks::Interval;
use formats::report::end_text;
use formats::rows::counted;
use std::collections::BTreeSet;

/// The fill of paths that are drawn together and lead to different ends.
pub const SEVERAL: &str = "several";

/// A picture in the making.
pub struct Drawing<'a> {
    pub page: &'a Page<'a>,
    /// The number of the first shape of each path.
    first_shapes: Vec<Option<usize>>,
    /// Shapes so far.
    count: usize,
    /// Paths that share a shape.
    merged: BTreeSet<usize>,
    /// Is a piece of some axis drawn wider than it is?
    pub widened: bool,
}

impl<'a> Drawing<'a> {
    pub fn new(page: &'a Page) -> Drawing<'a> {
        let first_shapes = vec![None; page.records.len()];
        Drawing { page, first_shapes, count: 0, merged: BTreeSet::new(), widened: false }
    }

    /// A shape of these paths, with the attributes of its place; `label` is text on it.
    pub fn shape(&mut self, paths: &[usize], class: &str, place: &str, label: &str) -> String {
        let (style, data) = match paths {
            [path] => (self.style(*path), format!("data-path=\"{path}\"")),
            _ => {
                self.merged.extend(paths);
                let data = format!("data-paths=\"{}\"", Ranges::of(paths).attribute());
                (self.shared_style(paths), data)
            }
        };
        let (id, first, tip) = (self.next(paths), paths[0], escape(&self.tip(paths)));
        format!(
            "<a id=\"shape-{id}\" href=\"#path-{first}\"><title>{tip}</title>\
             <rect class=\"shape {style}{class}\" {data} {place}/>{label}</a>\n"
        )
    }

    /// The number of the shape.
    fn next(&mut self, paths: &[usize]) -> usize {
        for &path in paths {
            self.first_shapes[path].get_or_insert(self.count);
        }
        self.count += 1;
        self.count - 1
    }

    fn style(&self, path: usize) -> String {
        self.page.legend.style(&self.page.records[path])
    }

    fn shared_style(&self, paths: &[usize]) -> String {
        let first = self.style(paths[0]);
        match paths.iter().all(|&path| self.style(path) == first) {
            true => first,
            false => SEVERAL.to_string(),
        }
    }

    /// What a shape stands for.
    fn tip(&self, paths: &[usize]) -> String {
        let [path] = paths else {
            let (count, last) = (counted(paths.len(), "path"), paths[paths.len() - 1]);
            return format!("{count} from {} to {last}, too small to be drawn apart", paths[0]);
        };
        let record = &self.page.records[*path];
        let input = |(input, &held): (usize, &Interval)| {
            format!("\n{}: {}", self.page.name(input), interval(held))
        };
        let inputs: String = record.intervals.iter().enumerate().map(input).collect();
        format!("path {path}: {}{inputs}", end_text(record))
    }

    /// A path's number with a link to its first shape, if it has one.
    pub fn link(&self, path: usize) -> String {
        match self.first_shapes[path] {
            Some(shape) => format!("<a href=\"#shape-{shape}\">{path}</a>"),
            None => path.to_string(),
        }
    }

    /// What is not drawn as it is, once all is drawn; of these inputs something is shown.
    pub fn note(&self, shown: &[usize]) -> String {
        let mut notes = Vec::new();
        if self.widened {
            notes.push(
                "Where an axis is dashed, a piece is drawn wider than it is, so that it can be seen."
                    .to_string(),
            );
        }
        if !self.merged.is_empty() {
            let (merged, all) = (self.merged.len(), counted(self.page.records.len(), "path"));
            notes.push(format!(
                "{merged} of {all} are too small in places and are drawn together there, as {} where they lead to \
                 different ends; the table has each of them.",
                swatch(SEVERAL)
            ));
        }
        let unshown = (0..self.page.start().len()).filter(|input| !shown.contains(input));
        let unshown: Vec<String> = unshown.map(|input| escape(self.page.name(input))).collect();
        if !unshown.is_empty() {
            notes.push(format!("Not shown, since no path cuts it: {}.", unshown.join(", ")));
        }
        notes.iter().map(|note| format!("<p class=\"note\">{note}</p>\n")).collect()
    }
}
