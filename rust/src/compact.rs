//! Compaction in parts: of a core, and of a core beside whose pages values stand that follow its
//! folds. What is done next is the library's choice.

use crate::core::Core;
use crate::names::Group;
use crate::refused::Refused;

/// What a compaction within a budget did: of [`Core::compact_within`].
#[derive(Clone, Copy, Debug, Default, PartialEq, Eq, Hash)]
#[must_use = "it says whether a further call has something to do"]
pub struct Compacted {
    /// How many pages went.
    pub pages: usize,
    /// Whether a further call has something to do.
    pub more: bool,
}

/// What one step of a compaction did.
pub(crate) struct Advanced {
    /// How much of a budget it took.
    pub cost: usize,
    /// The group that is on the page of the other one now, if it was a fold.
    pub folded: Option<(Group, Group)>,
    /// Whether a further step has something to do.
    pub more: bool,
}

/// What has a core, and something beside its pages that follows each fold.
pub(crate) trait Compact {
    fn core(&mut self) -> &mut Core;

    /// Makes room, so that a fold can be followed without memory.
    fn make_room(&mut self) -> Result<(), Refused>;

    /// Follows a fold of the first group onto the page of the second.
    fn follow(&mut self, abandoned: Group, owned: Group);

    /// Compacts until nothing is left to do. If that is refused, no plan of the compaction is open,
    /// and the shards have the groups of the pool as far as they may.
    fn compact_all(&mut self) -> Result<usize, Refused> {
        if let Some(gone) = self.core().compact_full()? {
            return Ok(gone);
        }
        let done = self.compact_some(usize::MAX);
        if done.is_err() {
            self.core().give_up_compaction();
        }
        done.map(|done| done.pages)
    }

    /// Takes at most so many steps of a compaction, at least one.
    fn compact_some(&mut self, budget: usize) -> Result<Compacted, Refused> {
        self.core().begin_part()?;
        let before = self.core().pages();
        let done = self.take_steps(budget);
        self.core().end_part(before, done)
    }

    /// Takes so many steps, and says whether there are more.
    fn take_steps(&mut self, budget: usize) -> Result<bool, Refused> {
        let mut left = budget.max(1);
        while left > 0 {
            self.make_room()?;
            let advanced = self.core().advance(left, budget)?;
            if let Some((abandoned, owned)) = advanced.folded {
                self.follow(abandoned, owned);
            }
            if !advanced.more {
                return Ok(false);
            }
            left -= advanced.cost;
        }
        Ok(true)
    }
}
