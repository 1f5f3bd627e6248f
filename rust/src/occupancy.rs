//! How many pages a compaction can give back: as a bound, and as can be expected.

use crate::core::MOST_GROUPS;

/// A plan that folds one of so many groups of its smaller side is worth another one.
const WORTH: usize = 16;

/// How many groups a round has in the pool at least.
const LEAST_ROUND: usize = 64;

/// Of fewer pages a round gathers if any can be expected to go.
const LEAST_PART: usize = 8;

/// How many pages there are, how many values are live on them, and how many slots a page has.
#[derive(Clone, Copy, Debug, PartialEq, Eq)]
pub(crate) struct Occupancy {
    pub pages: usize,
    pub live: usize,
    pub slots: usize,
}

impl Occupancy {
    /// How many pages can go at most: what is live needs the others, be each of these full.
    pub fn most_folds(self) -> usize {
        let needed = self.live / self.slots + usize::from(self.live % self.slots != 0);
        self.pages.saturating_sub(needed)
    }

    /// Whether so many percent of the pages can go, without as many as are known to stay.
    pub fn pays(self, least_percent: usize, stay: usize) -> bool {
        pays(
            self.pages,
            self.most_folds().saturating_sub(stay),
            least_percent,
        )
    }

    /// How many values are live on a page in the mean.
    fn mean(self) -> f64 {
        real(self.live) / real(self.pages.max(1))
    }

    /// The chance that so many values at random slots of a page meet none of those that are taken.
    fn chance(self, values: f64, taken: f64) -> f64 {
        let slots = real(self.slots);
        let free = (slots - taken).max(0.0);
        let mut chance = 1.0;
        let mut placed = 0.0;
        while placed < values.max(1.0).round() {
            chance *= ((free - placed) / (slots - placed)).max(0.0);
            placed += 1.0;
        }
        chance
    }

    /// How many values a page can be expected to have in the end, if pages of the mean are folded
    /// onto it one after another, as long as one of those that are left can be expected to fit.
    fn reachable(self) -> f64 {
        let mean = self.mean();
        if mean <= 0.0 {
            return 0.0;
        }
        let mut reached = mean;
        while reached + mean <= real(self.slots) {
            // So many pages would stay, and the others are folded but for the last of each.
            let stay = real(self.live) / (reached + mean);
            let left = (real(self.pages) - stay * reached / mean).clamp(1.0, real(MOST_GROUPS));
            if self.chance(mean, reached) * left < 1.0 {
                break;
            }
            reached += mean;
        }
        reached
    }

    /// How many pages can be expected to go if the others are filled one fold after another.
    fn expected_folds(self) -> usize {
        let reachable = self.reachable();
        if reachable <= 0.0 {
            return 0;
        }
        self.pages
            .saturating_sub(count(real(self.live) / reachable))
    }

    /// How many pages a round retires that has several folded onto each that stays, if so many can
    /// be expected to go that halves could not give them; of few pages, if any can.
    pub fn gathered(self) -> Option<usize> {
        let expected = self.expected_folds();
        let is_more = self.pages < LEAST_PART || expected * 5 >= self.pages * 3;
        (expected > 0 && is_more).then_some(expected)
    }

    /// How many pages a round retires of which nothing of the kind can be expected: half of a few,
    /// and of many some.
    pub fn some_or_half(self) -> usize {
        if self.pages > 8 * LEAST_ROUND {
            LEAST_ROUND
        } else {
            self.pages / 2
        }
    }
}

/// Whether a compaction pays of so many pages of which so many may go, where so many percent must.
pub(crate) fn pays(pages: usize, may_go: usize, least_percent: usize) -> bool {
    may_go > 0 && may_go.saturating_mul(100) >= pages.saturating_mul(least_percent)
}

// Counts of pages and values are far below 2^52.
#[allow(clippy::cast_precision_loss)]
fn real(count: usize) -> f64 {
    count as f64
}

/// The number, which is not negative, rounded up.
#[allow(clippy::cast_sign_loss)]
fn count(number: f64) -> usize {
    number.ceil() as usize
}

/// Whether what folded so many groups, of so many of the smaller side, is worth doing again.
pub(crate) fn is_worth(folded: usize, smaller: usize) -> bool {
    folded > 0 && folded * WORTH >= smaller
}

#[cfg(test)]
mod tests {
    use super::Occupancy;

    const FULL: Occupancy = Occupancy {
        pages: 8192,
        live: 8192 * 256,
        slots: 256,
    };

    /// Pages of 16 slots with so many values of 100.
    fn thinned(pages: usize, percent: usize) -> Occupancy {
        let live = pages * 16 * percent / 100;
        Occupancy {
            pages,
            live,
            slots: 16,
        }
    }

    #[test]
    fn expects_what_chance_gives() {
        // Of pages that were drawn these stay in the mean: 497 of 1,945, and 666 of 1,976.
        assert!((480..520).contains(&(1945 - thinned(1945, 20).expected_folds())));
        assert!((640..700).contains(&(1976 - thinned(1976, 25).expected_folds())));
        assert_eq!((FULL.most_folds(), FULL.expected_folds()), (0, 0));
        // Of half full pages none can be expected to fit another that is chosen.
        assert_eq!(thinned(2000, 50).expected_folds(), 0);
        // A round gathers if halves could not give as much, or of few pages.
        let gathered = |percent| thinned(2000, percent).gathered().is_some();
        assert_eq!(
            [10, 20, 25, 40, 50].map(gathered),
            [true, true, true, false, false]
        );
        let few = Occupancy {
            pages: 3,
            live: 5,
            slots: 256,
        };
        assert_eq!(few.gathered(), Some(1));
        let none = Occupancy {
            pages: 9,
            live: 0,
            slots: 64,
        };
        assert_eq!((none.most_folds(), none.expected_folds()), (9, 0));
    }
}
