//! Small pages that are brought together, at once and in parts.

use super::{done, Core, Plan};
use crate::compact::Compacted;
use crate::raw;
use crate::refused::Refused;

/// A gathering pays once as many pages went as a part of those that are left: this many times as
/// many as went.
const PAYS: usize = 16;

/// What of a core's small pages is to be brought together.
#[derive(Clone, Copy)]
pub(super) enum Gathering {
    /// Nothing is under way, and so many pages went since pages were brought together.
    Waiting { went: u32 },
    /// The shard and the group that come next.
    UnderWay { shard: u8, group: u32 },
}

impl Gathering {
    /// Counts pages that went, unless a gathering is under way.
    pub fn count(&mut self, pages: usize) {
        if let Gathering::Waiting { went } = self {
            *went = went.saturating_add(pages as u32);
        }
    }
}

impl Default for Gathering {
    fn default() -> Gathering {
        Gathering::Waiting { went: 0 }
    }
}

impl Core {
    /// Moves each page of the shard to a block of memory that it asks for now. Pages of less than
    /// 4,096 bytes share pages of the system, and those that this empties leave the process. No key
    /// changes. If there are such pages by [`Limits::slots`](super::Limits::slots),
    /// [`Core::compact`] and [`Core::compact_within`] do so behind their folds.
    ///
    /// # Errors
    ///
    /// - [`Refused::Config`]: there is no such shard;
    /// - [`Refused::OutOfMemory`]: a block was refused. Some pages have moved then.
    pub fn gather(&mut self, shard: u32) -> Result<(), Refused> {
        self.gather_some(shard, 0, usize::MAX).map(drop)
    }

    /// Does so with up to `most` groups of the shard, from this one on, and says how many these
    /// are: fewer than `most` if there are no more.
    fn gather_some(&mut self, shard: u32, from: usize, most: usize) -> Result<usize, Refused> {
        if !self.is_open() {
            return self.has_shard(shard).map(|()| 0);
        }
        // SAFETY: as in `insert`.
        let raw::GatherReply { status, count } =
            unsafe { raw::teurlaks_gather(&mut self.handle, shard, from, most) };
        done(status).map(|()| count)
    }

    /// Begins to bring pages together that share pages of the system, if inserts take so few slots
    /// that there are such, and if so many pages went that it pays.
    pub(super) fn begin_gathering(&mut self) {
        let Gathering::Waiting { went } = self.gathering else {
            return;
        };
        let has_small = self
            .limits()
            .has_small_pages(self.numbers.least_words.into());
        if has_small && went > 0 && (went as usize).saturating_mul(PAYS) >= self.pages() {
            self.gathering = Gathering::UnderWay { shard: 0, group: 0 };
        }
    }

    /// Whether a gathering is under way, behind a compaction that is done.
    pub(super) fn is_gathering(&self) -> bool {
        self.plan == Plan::None && matches!(self.gathering, Gathering::UnderWay { .. })
    }

    /// Ends a gathering where it is: the other pages stay where they are.
    pub(super) fn end_gathering(&mut self) {
        self.gathering = Gathering::default();
    }

    /// Takes up to so many pages further, at least one. If memory is refused, it ends there.
    pub(super) fn gather_within(&mut self, budget: usize) -> Compacted {
        let mut left = budget.max(1);
        while let (Gathering::UnderWay { shard, group }, 1..) = (self.gathering, left) {
            self.gathering = match self.gather_some(shard.into(), group as usize, left) {
                Ok(count) => {
                    let is_at_end = count < left;
                    left -= count;
                    self.behind(shard, group + count as u32, is_at_end)
                }
                Err(_) => Gathering::default(),
            };
        }
        Compacted {
            pages: 0,
            more: matches!(self.gathering, Gathering::UnderWay { .. }),
        }
    }

    /// What comes next where the gathering has come to this group of the shard.
    fn behind(&self, shard: u8, group: u32, is_at_end: bool) -> Gathering {
        match is_at_end {
            false => Gathering::UnderWay { shard, group },
            true if u32::from(shard) + 1 < self.shards() => Gathering::UnderWay {
                shard: shard + 1,
                group: 0,
            },
            true => Gathering::default(),
        }
    }
}
