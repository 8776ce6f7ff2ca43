//! How many choices a box holds, and its share of the starting box; worked out from the intervals alone.

use crate::count;
use formats::blocks::Interval;

/// Choices of a box or of several; no exact number where it passes 2^128.
#[derive(Clone, Copy, Debug, PartialEq)]
pub struct Choices {
    exact: Option<u128>,
    /// Of the starting box, rounded.
    share: f64,
}

impl Choices {
    pub const NONE: Choices = Choices { exact: Some(0), share: 0.0 };

    pub fn new(held: &[Interval], start: &[Interval]) -> Choices {
        let width = |&(low, high): &Interval| (high - low) as u128 + 1;
        let exact = held.iter().map(width).try_fold(1_u128, |all, width| all.checked_mul(width));
        let shares =
            held.iter().zip(start).map(|(held, start)| width(held) as f64 / width(start) as f64);
        Choices { exact, share: shares.product() }
    }

    pub fn and(self, other: Choices) -> Choices {
        let exact = self.exact.zip(other.exact).and_then(|(one, other)| one.checked_add(other));
        Choices { exact, share: self.share + other.share }
    }

    /// The number where it is below 2^64.
    pub fn number(self) -> Option<u64> {
        self.exact.and_then(|exact| u64::try_from(exact).ok())
    }

    pub fn text(self) -> String {
        self.number().map_or("2^64 or more".to_string(), |number| number.to_string())
    }

    /// With its word.
    pub fn counted(self) -> String {
        format!("{} choice{}", self.text(), if self.exact == Some(1) { "" } else { "s" })
    }

    /// In per cent of all choices, as `count` has it where it counts.
    pub fn share_text(self, all: Choices) -> String {
        let share = match (self.number(), all.number()) {
            (Some(number), Some(all)) => count::share(number, all),
            _ => format!("{:.2}", 100.0 * self.share),
        };
        match share.as_str() {
            "0.00" => "under 0.01 %".to_string(),
            "100.00" if self.exact.is_some() && self.exact != all.exact => {
                "over 99.99 %".to_string()
            }
            _ => format!("{share} %"),
        }
    }
}

#[cfg(test)]
mod tests {
    use super::*;

    const MAX: u64 = u64::MAX;

    #[test]
    fn choices_of_a_part() {
        let start = [(0, 60), (0, 60), (0, 3)];
        let all = Choices::new(&start, &start);
        let part = Choices::new(&[(0, 7), (0, 15), (1, 1)], &start);
        assert_eq!((all.text().as_str(), part.text().as_str()), ("14884", "128"));
        assert_eq!(part.share_text(all), "0.86 %");
        assert_eq!(part.and(part).number(), Some(256));
        assert_eq!(all.share_text(all), "100.00 %");
    }

    #[test]
    fn choices_without_inputs() {
        let one = Choices::new(&[], &[]);
        assert_eq!((one.text().as_str(), one.share_text(one).as_str()), ("1", "100.00 %"));
    }

    #[test]
    fn boxes_of_2_to_the_64_and_more() {
        let start = [(0, MAX)];
        let all = Choices::new(&start, &start);
        assert_eq!(all.text(), "2^64 or more");
        let (most, least) =
            (Choices::new(&[(0, MAX - 5)], &start), Choices::new(&[(3, 7)], &start));
        assert_eq!(
            (most.text(), most.share_text(all)),
            ((MAX - 4).to_string(), "over 99.99 %".into())
        );
        assert_eq!((least.text().as_str(), least.share_text(all).as_str()), ("5", "under 0.01 %"));
        let start = [(0, MAX); 8];
        let mut half = start;
        half[3] = (0, MAX / 2);
        let (all, half) = (Choices::new(&start, &start), Choices::new(&half, &start));
        assert_eq!(
            (half.text().as_str(), half.share_text(all).as_str()),
            ("2^64 or more", "50.00 %")
        );
        assert_eq!(half.and(half).share_text(all), "100.00 %");
    }
}
