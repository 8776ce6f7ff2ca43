//! The shapes of a plane: a rectangle for each path, and for paths that are too small one that they share.

use super::axis::{Axis, WHOLE};
use std::ops::Range;

/// A path in a plane, by the pieces of both sides.
#[derive(Clone, Debug, PartialEq, Eq)]
pub struct Tile {
    pub path: usize,
    pub x: Range<usize>,
    pub y: Range<usize>,
}

/// A rectangle by its edges from 0 to `WHOLE`, for one path or for several.
#[derive(Clone, Debug, PartialEq, Eq)]
pub struct Shape {
    pub x: Range<u64>,
    pub y: Range<u64>,
    pub paths: Vec<usize>,
}

/// The size of a plane's pixel on both sides.
#[derive(Clone, Copy)]
pub struct Pixel {
    pub x: u64,
    pub y: u64,
}

/// Tiles that cover the plane as shapes that cover it: cells of a pixel or more that are all of one path make
/// its shape, and cells that several paths share are shapes by themselves.
pub fn shapes(x: &Axis, y: &Axis, tiles: &[Tile], pixel: Pixel) -> Vec<Shape> {
    let (columns, rows) = (Cells::new(x, pixel.x), Cells::new(y, pixel.y));
    let mut shared = vec![Vec::new(); columns.count() * rows.count()];
    let mut shapes = Vec::new();
    for tile in tiles {
        let (own_x, own_y) = (columns.inside(&tile.x), rows.inside(&tile.y));
        if !own_x.is_empty() && !own_y.is_empty() {
            let (x, y) = (columns.places(&own_x), rows.places(&own_y));
            shapes.push(Shape { x, y, paths: vec![tile.path] });
        }
        for row in rows.touched(&tile.y) {
            let is_own = |column: &usize| own_x.contains(column) && own_y.contains(&row);
            for column in columns.touched(&tile.x).filter(|column| !is_own(column)) {
                shared[row * columns.count() + column].push(tile.path);
            }
        }
    }
    for (cell, paths) in shared.into_iter().enumerate().filter(|(_, paths)| !paths.is_empty()) {
        let (column, row) = (cell % columns.count(), cell / columns.count());
        let (x, y) = (columns.places(&(column..column + 1)), rows.places(&(row..row + 1)));
        add_shared(&mut shapes, Shape { x, y, paths });
    }
    shapes
}

/// A cell that goes on to the right with the same paths makes the shape before it longer.
fn add_shared(shapes: &mut Vec<Shape>, cell: Shape) {
    match shapes.last_mut() {
        Some(last)
            if last.paths == cell.paths && last.y == cell.y && last.x.end == cell.x.start =>
        {
            last.x.end = cell.x.end;
        }
        _ => shapes.push(cell),
    }
}

/// A side in cells of a pixel or more, each of whole pieces.
struct Cells<'a> {
    axis: &'a Axis,
    /// The cuts at which cells begin, and the last cut.
    kept: Vec<usize>,
}

impl Cells<'_> {
    fn new(axis: &Axis, pixel: u64) -> Cells<'_> {
        let last = axis.pieces();
        let mut kept = vec![0];
        for (cut, &place) in axis.places.iter().enumerate().take(last).skip(1) {
            let before = axis.places[kept[kept.len() - 1]];
            if place - before >= pixel && WHOLE - place >= pixel {
                kept.push(cut);
            }
        }
        kept.push(last);
        Cells { axis, kept }
    }

    fn count(&self) -> usize {
        self.kept.len() - 1
    }

    /// The cells that are wholly in these pieces.
    fn inside(&self, pieces: &Range<usize>) -> Range<usize> {
        let start = self.kept.partition_point(|&cut| cut < pieces.start);
        let end = self.kept.partition_point(|&cut| cut <= pieces.end);
        start..end.saturating_sub(1).max(start)
    }

    /// The cells that have some of these pieces.
    fn touched(&self, pieces: &Range<usize>) -> Range<usize> {
        let start = self.kept.partition_point(|&cut| cut <= pieces.start) - 1;
        start..self.kept.partition_point(|&cut| cut < pieces.end)
    }

    fn places(&self, cells: &Range<usize>) -> Range<u64> {
        let place = |cell: usize| self.axis.places[self.kept[cell]];
        place(cells.start)..place(cells.end)
    }
}

#[cfg(test)]
mod tests {
    use super::*;
    use formats::blocks::Interval;
    use formats::random::Random;

    type Rectangle = [Interval; 2];

    /// The rectangles that random cuts make of one, as forks do.
    fn cut(random: &mut Random, whole: Rectangle, cuts: usize) -> Vec<Rectangle> {
        let mut all = vec![whole];
        for _ in 0..cuts {
            let (place, side) = (random.below(all.len()), random.below(2));
            let (low, high) = all[place][side];
            if low == high {
                continue;
            }
            let at = random.between((low, high - 1));
            let mut above = all[place];
            above[side].0 = at + 1;
            all[place][side].1 = at;
            all.push(above);
        }
        all
    }

    fn drawn(all: &[Rectangle], pixel: u64) -> Vec<Shape> {
        let axis = |side: usize| Axis::new(all.iter().map(|each| each[side]), 2 * pixel);
        let (x, y) = (axis(0), axis(1));
        let tile = |(path, &[over, up]): (usize, &Rectangle)| Tile {
            path,
            x: x.span(over),
            y: y.span(up),
        };
        let tiles: Vec<Tile> = all.iter().enumerate().map(tile).collect();
        shapes(&x, &y, &tiles, Pixel { x: pixel, y: pixel })
    }

    fn length(side: &Range<u64>) -> u64 {
        side.end - side.start
    }

    fn meet(one: &Range<u64>, other: &Range<u64>) -> bool {
        one.start < other.end && other.start < one.end
    }

    /// Shapes cover the plane, and no two of them meet.
    fn check(shapes: &[Shape]) {
        let area: u64 = shapes.iter().map(|shape| length(&shape.x) * length(&shape.y)).sum();
        assert_eq!(area, WHOLE * WHOLE);
        for (place, one) in shapes.iter().enumerate() {
            let met = |other: &Shape| meet(&one.x, &other.x) && meet(&one.y, &other.y);
            assert!(!shapes[..place].iter().any(met), "{one:?}");
        }
    }

    fn paths_shown(shapes: &[Shape]) -> Vec<usize> {
        let mut paths: Vec<usize> = shapes.iter().flat_map(|shape| shape.paths.clone()).collect();
        paths.sort();
        paths.dedup();
        paths
    }

    #[test]
    fn a_shape_for_each_path_that_is_large_enough() {
        let shapes = drawn(&[[(0, 9), (0, 3)], [(10, 255), (0, 1)], [(10, 255), (2, 3)]], 100);
        check(&shapes);
        assert_eq!(shapes.iter().map(|shape| shape.paths[0]).collect::<Vec<_>>(), [0, 1, 2]);
        assert_eq!((&shapes[0].x, &shapes[0].y), (&(0..3906), &(0..WHOLE)));
        assert_eq!((&shapes[2].x, &shapes[2].y), (&(3906..WHOLE), &(50_000..WHOLE)));
    }

    #[test]
    fn random_planes_are_covered_and_show_every_path() {
        let mut random = Random(19);
        let highs = [3, 60, 255, 100_000, u64::MAX];
        let mut merged = 0;
        for _ in 0..300 {
            let whole = [(0, random.pick(&highs)), (0, random.pick(&highs))];
            let cuts = random.pick(&[0, 1, 5, 30, 150]);
            let all = cut(&mut random, whole, cuts);
            let shapes = drawn(&all, random.pick(&[100, 500, 5_000]));
            check(&shapes);
            assert_eq!(paths_shown(&shapes), (0..all.len()).collect::<Vec<_>>());
            merged += shapes.iter().filter(|shape| shape.paths.len() > 1).count();
        }
        assert!(merged > 1_000, "{merged}");
    }

    #[test]
    fn paths_below_a_pixel_share_shapes() {
        let all: Vec<Rectangle> = (0..60_000).map(|low| [(low, low), (0, 0)]).collect();
        let shapes = drawn(&all, 100);
        check(&shapes);
        assert!((900..=1_000).contains(&shapes.len()), "{}", shapes.len());
        assert_eq!(paths_shown(&shapes).len(), all.len());
    }
}
