//! The scale of one input: true to the values, but for pieces that would be too narrow to be seen.

use formats::blocks::Interval;
use std::collections::BTreeSet;
use std::ops::Range;

/// The whole of a side in thousandths of a per cent: edges are whole numbers, so shapes that meet share one.
pub const WHOLE: u64 = 100_000;

/// The whole of a side while widths are shared out.
const FINE: u128 = 1_000_000_000_000_000;

#[derive(Clone, Debug, PartialEq, Eq)]
pub struct Axis {
    /// The values at which a piece begins, and one past the highest.
    pub cuts: Vec<u128>,
    /// Where each cut stands, from 0 to `WHOLE`.
    pub places: Vec<u64>,
    /// Of each piece: is it drawn wider than it is?
    pub widened: Vec<bool>,
}

impl Axis {
    /// Cut at both ends of each interval; no piece is narrower than `least`, if that leaves room for all.
    pub fn new(intervals: impl Iterator<Item = Interval>, least: u64) -> Axis {
        let ends = intervals.flat_map(|(low, high)| [low as u128, high as u128 + 1]);
        let cuts: Vec<u128> = ends.collect::<BTreeSet<u128>>().into_iter().collect();
        let sizes: Vec<u128> = cuts.windows(2).map(|pair| pair[1] - pair[0]).collect();
        let least = (least as u128 * FINE / WHOLE as u128).min(FINE / (2 * sizes.len() as u128));
        let (widths, widened) = widths(&sizes, least);
        Axis { cuts, places: places(&widths), widened }
    }

    /// A side with nothing on it, as a line has one.
    pub fn blank() -> Axis {
        Axis::new([(0, 0)].into_iter(), 0)
    }

    pub fn is_widened(&self) -> bool {
        self.widened.contains(&true)
    }

    pub fn pieces(&self) -> usize {
        self.widened.len()
    }

    pub fn piece(&self, piece: usize) -> Interval {
        (self.cuts[piece] as u64, (self.cuts[piece + 1] - 1) as u64)
    }

    /// The pieces of an interval that begins and ends at cuts.
    pub fn span(&self, (low, high): Interval) -> Range<usize> {
        let index = |cut: u128| self.cuts.partition_point(|&each| each < cut);
        index(low as u128)..index(high as u128 + 1)
    }
}

/// The width of each piece: `least` where it would be less, and of what is left a share by its size.
fn widths(sizes: &[u128], least: u128) -> (Vec<u128>, Vec<bool>) {
    let mut rising: Vec<usize> = (0..sizes.len()).collect();
    rising.sort_by_key(|&piece| sizes[piece]);
    let (mut width_left, mut size_left) = (FINE, sizes.iter().sum::<u128>());
    let mut widened = vec![false; sizes.len()];
    for piece in rising {
        if sizes[piece] * width_left >= least * size_left {
            break;
        }
        widened[piece] = true;
        width_left -= least;
        size_left -= sizes[piece];
    }
    let share = |(size, widened): (&u128, &bool)| match widened {
        true => least,
        false => size * width_left / size_left,
    };
    (sizes.iter().zip(&widened).map(share).collect(), widened)
}

/// The sums of the widths so far, with the last one at the end of the side.
fn places(widths: &[u128]) -> Vec<u64> {
    let all: u128 = widths.iter().sum();
    let mut sum = 0;
    let mut places = vec![0];
    for width in widths {
        sum += width;
        places.push((sum * WHOLE as u128 / all) as u64);
    }
    places
}

#[cfg(test)]
mod tests {
    use super::*;

    const MAX: u64 = u64::MAX;

    fn axis(intervals: &[Interval], least: u64) -> Axis {
        Axis::new(intervals.iter().copied(), least)
    }

    #[test]
    fn pieces_that_can_be_seen_are_to_scale() {
        let axis = axis(&[(0, 24), (25, 99), (0, 49), (50, 99)], 1_000);
        assert_eq!(axis.cuts, [0, 25, 50, 100]);
        assert_eq!(axis.places, [0, 25_000, 50_000, WHOLE]);
        assert_eq!(axis.widened, [false; 3]);
        assert_eq!([axis.span((0, 49)), axis.span((25, 99))], [0..2, 1..3]);
        assert_eq!(axis.piece(1), (25, 49));
    }

    #[test]
    fn narrow_pieces_are_widened_wherever_they_are() {
        let axis = axis(&[(0, 4), (5, MAX - 5), (MAX - 4, MAX)], 2_000);
        assert_eq!(axis.places, [0, 2_000, 98_000, WHOLE]);
        assert_eq!(axis.widened, [true, false, true]);
    }

    #[test]
    fn a_piece_that_widening_others_makes_narrow_is_widened_too() {
        let axis = axis(&[(0, 0), (1, 1), (2, 211), (212, 9_999)], 2_100);
        assert_eq!(axis.widened, [true, true, true, false]);
        assert_eq!(axis.places, [0, 2_100, 4_200, 6_300, WHOLE]);
    }

    #[test]
    fn many_pieces_share_half_of_the_side() {
        let pieces: Vec<Interval> =
            (0..70_000).map(|low| (low, low)).chain([(70_000, MAX)]).collect();
        let axis = axis(&pieces, 2_000);
        assert!(axis.places.windows(2).all(|pair| pair[0] <= pair[1]));
        assert_eq!((axis.places[0], axis.places[70_001]), (0, WHOLE));
        assert!((49_900..=50_100).contains(&axis.places[70_000]), "{}", axis.places[70_000]);
    }

    #[test]
    fn one_value_is_the_whole_side() {
        assert_eq!(Axis::blank().places, [0, WHOLE]);
        assert_eq!(axis(&[(0, MAX)], 50).widened, [false]);
    }
}
