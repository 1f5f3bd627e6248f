//! Compactions of a core, at once and in parts.

use super::{done, Core, Plan};
use crate::compact::{Advanced, Compacted};
use crate::names::Group;
use crate::raw;
use crate::refused::Refused;

impl Core {
    /// Gives back the pages on which no key is live, folds sparse pages onto others until that
    /// hardly gives any back, and says how many pages went. Every key stays valid, and all groups
    /// are in shards afterwards, also those that an end or a retirement had left to the pool.
    ///
    /// It goes by rounds. In each some pages, of each shard those with the fewest live keys, go to
    /// the pool; as many as can be are folded onto the others, by one plan after another as long as
    /// one folds a sixteenth of its smaller side; and the shards adopt the rest. If several pages
    /// can be expected to fit on each that stays, by the numbers of pages and of live keys, the
    /// first round leaves that few in the shards. The others look at the 8 sparsest pages, at 16,
    /// 32 and so on, each part once with all of it in the pool and once with half of it, up to as
    /// many as can be half empty. If an eighth of all pages could go, a round after the first ones
    /// has all that every second shard has in the pool, up to half of the pages. Three rounds in a
    /// row that fold less than a sixteenth are the last ones, or four if few pages can be half
    /// empty.
    ///
    /// If what is live needs all pages even if these were full, nothing is retired, and after the
    /// trims it only forgets. What can be expected takes live keys to stand at slots at random, and
    /// all objects to be as small as the smallest that the last plan saw.
    ///
    /// A page that is folded takes no object of its own any more, so each fold uses up one of the
    /// 4,294,967,295 pages that a shard may open in its life.
    ///
    /// [`Core::compact_within`] does the same in parts, and where it has stopped this goes on.
    ///
    /// # Errors
    ///
    /// - [`Refused::PlanOpen`]: a mark has opened a plan; then nothing has changed;
    /// - [`Refused::OutOfMemory`]: memory was refused; it stops where it is, every key has its
    ///   object, no plan is open, and it may be tried again.
    ///
    /// ```
    /// # use teurlaks::{Core, Limits};
    /// let mut core = Core::new(Limits { shards: 2, ..Limits::default() })?;
    /// let keys = (0..1024).map(|i| core.insert(i % 2, i.into()));
    /// let keys = keys.collect::<Result<Vec<_>, _>>()?;
    /// for (i, key) in keys.iter().enumerate().filter(|(i, _)| i % 23 != 0) {
    ///     core.free(*key);
    /// }
    /// assert_eq!((core.pages(), core.compact()?, core.pages()), (8, 7, 1));
    /// assert_eq!(core.get(keys[46]), Some(46));
    /// # Ok::<(), teurlaks::Refused>(())
    /// ```
    pub fn compact(&mut self) -> Result<usize, Refused> {
        if self.is_gathering() {
            // All of it comes again behind the folds.
            self.end_gathering();
            self.gathering.count(self.pages());
        }
        let done = match self.compact_full()? {
            Some(gone) => Ok(gone),
            None => self.compact_folding(usize::MAX).map(|done| done.pages),
        };
        if done.is_err() {
            self.give_up_compaction();
        }
        let gone = done?;
        self.begin_gathering();
        // Only what is refused is left.
        let _ = self.gather_within(usize::MAX);
        Ok(gone)
    }

    /// Gives back the pages on which no key is live, and says how many went, if what is live needs
    /// all others even if these were full: then there is nothing to fold. It leaves a compaction
    /// that is under way, and groups in the pool, to others.
    pub(crate) fn compact_full(&mut self) -> Result<Option<usize>, Refused> {
        self.no_plan_of_caller()?;
        if self.plan != Plan::None || !self.pool_is_empty() {
            return Ok(None);
        }
        self.gone += self.trim_all() as u32;
        if self.occupancy().most_folds() > 0 {
            return Ok(None);
        }
        self.forget()?;
        self.stay = 0;
        Ok(Some(std::mem::take(&mut self.gone) as usize))
    }

    /// [Compacts](Core::compact) if at least so many percent of the pages could go, and says how
    /// many went: so one may ask as often as one likes. If not, it gives back the pages on which no
    /// key is live, and touches nothing else. Of more than 4,096 pages it looks at so many, for
    /// pages to give back at the next ones each time, so that it takes no longer if there are more.
    ///
    /// How many could go is told by counts alone: the pages without those that the live keys would
    /// need if these were full, and without as many as the last compaction has left that
    /// could have gone by this count. So a store whose pages do not fit each other is compacted
    /// again only once so much was freed since. If a compaction is under way, it goes on.
    ///
    /// # Errors
    ///
    /// As of [`Core::compact`].
    ///
    /// ```
    /// # use teurlaks::{Core, Limits};
    /// let mut core = Core::new(Limits::default())?;
    /// let keys: Vec<_> = (0..12_800).map(|i| core.insert(0, i)).collect::<Result<_, _>>()?;
    /// let mut gone = Vec::new();
    /// for (i, key) in keys.iter().enumerate().filter(|(i, _)| i % 23 != 0) {
    ///     core.free(*key);
    ///     if i % 128 == 0 {
    ///         gone.push(core.compact_if_pays(50)?);
    ///     }
    /// }
    /// assert_eq!(gone[..49], [0; 49]);
    /// assert!(gone[49..].iter().sum::<usize>() > 40);
    /// # Ok::<(), teurlaks::Refused>(())
    /// ```
    pub fn compact_if_pays(&mut self, least_percent: usize) -> Result<usize, Refused> {
        match self.pass_over(least_percent) {
            Some(trimmed) => Ok(trimmed),
            None => self.compact(),
        }
    }

    /// Gives back pages on which no key is live, and says how many went, if then fewer than so many
    /// percent of the pages could go. What is under way is for a compaction, and so is a plan.
    pub(crate) fn pass_over(&mut self, least_percent: usize) -> Option<usize> {
        if self.plan != Plan::None {
            return None;
        }
        let trimmed = self.trim_in_turn();
        let pages = self.estimate();
        // What was filled since may fold once it is sparse again.
        self.stay = self.stay.min(pages.most_folds() as u32);
        if !pages.pays(least_percent, self.stay as usize) {
            return Some(trimmed);
        }
        self.gone += trimmed as u32;
        None
    }

    /// Takes at most so many steps of a [compaction](Core::compact), at least one, and says how
    /// many pages went and whether there is more to do. The next call goes on where this one
    /// stopped, and once there is no more to do, the next one begins anew. The steps are proved:
    /// no key changes, and it is done only after a mark of it that is not worth another one.
    ///
    /// A step trims one shard, retires one group, plans, folds one pair, adopts one group, forgets,
    /// or [brings](Core::gather) one small page to others. A plan compares at most 4,096 times
    /// `budget` pairs of groups, where a budget below 64 counts as 64, and one above 4,096 as that:
    /// so of more than some thousand pages a round takes those with the fewest live keys alone. If
    /// more groups were left in the pool before, by an end or by retirements, it compares up to
    /// 4,096 of these with as many of the shards. To
    /// choose groups, and for each adoption, it also looks once at each page of a shard.
    ///
    /// Between two calls every key stays valid: it is found, set and freed as ever. A plan may be
    /// open then, so [`Core::mark`], [`Core::mark_some`], [`Core::mesh`], [`Core::adopt`] and
    /// [`Core::forget`] may be refused with [`Refused::PlanOpen`], and so may [`Core::end`] and
    /// [`Core::retire`] for a shard that has a group of the plan. The groups of the plan, and up to
    /// as many in the pool, take no object meanwhile: what is inserted goes to other pages.
    /// [`Core::step`] takes a step of that plan, and [`Core::close`] ends it: the compaction then
    /// goes on with what comes after its folds.
    ///
    /// # Errors
    ///
    /// - [`Refused::PlanOpen`]: a mark of the caller's has opened a plan;
    /// - [`Refused::OutOfMemory`]: memory was refused. Every key has its object, and the next call
    ///   goes on from there. It also counts the pages that went in this one.
    ///
    /// ```
    /// # use teurlaks::{Core, Limits};
    /// let mut core = Core::new(Limits::default())?;
    /// let keys: Vec<_> = (0..12_800).map(|i| core.insert(0, i)).collect::<Result<_, _>>()?;
    /// for (i, key) in keys.iter().enumerate().filter(|(i, _)| i % 23 != 0) {
    ///     core.free(*key);
    /// }
    /// let mut gone = 0;
    /// loop {
    ///     let done = core.compact_within(16)?; // between other work
    ///     gone += done.pages;
    ///     assert_eq!(core.get(keys[46]), Some(46));
    ///     if !done.more {
    ///         break;
    ///     }
    /// }
    /// assert_eq!(core.pages(), 100 - gone);
    /// assert!(gone > 80);
    /// # Ok::<(), teurlaks::Refused>(())
    /// ```
    pub fn compact_within(&mut self, budget: usize) -> Result<Compacted, Refused> {
        if self.is_gathering() {
            return Ok(self.gather_within(budget));
        }
        let done = self.compact_folding(budget)?;
        Ok(self.then_gathering(done))
    }

    // A part of a compaction; once that is done, small pages are to be brought together behind it.
    fn then_gathering(&mut self, mut done: Compacted) -> Compacted {
        if !done.more {
            self.begin_gathering();
            done.more = self.is_gathering();
        }
        done
    }

    /// The same up to the last of the folds.
    fn compact_folding(&mut self, budget: usize) -> Result<Compacted, Refused> {
        self.begin_part()?;
        if !self.is_open() {
            return Ok(Compacted::default());
        }
        // SAFETY: as in `insert`.
        let raw::CompactReply {
            status,
            more,
            pages,
        } = unsafe { raw::teurlaks_compact_within(&mut self.handle, budget) };
        self.gone += pages as u32;
        self.gathering.count(pages);
        self.counted(done(status).map(|()| more == 1))
    }

    /// Takes steps of a [compaction](Core::compact), at least one, until so many are taken or the
    /// caller has had enough, and takes them off what is left. A part that begins a compaction has
    /// its forgetting and its trims, and nothing else. Pages are counted by folds then, without a
    /// walk of all. The rounds are those of the budget. Behind the folds a part brings up to
    /// `budget` small pages together.
    pub(crate) fn compact_until(
        &mut self,
        left: &mut usize,
        budget: usize,
        is_enough: impl Fn() -> bool,
    ) -> Result<Compacted, Refused> {
        if self.is_gathering() {
            let pages = budget.min(*left);
            *left -= pages;
            return Ok(self.gather_within(pages));
        }
        if self.plan != Plan::Compaction {
            // A forgetting, the trims, and one that finds that there is no such shard.
            let steps = self.shards() as usize + 2;
            *left = left.saturating_sub(steps);
            return self.compact_within(steps);
        }
        let mut more = true;
        while more && *left > 0 {
            let advanced = self.advance(budget.min(*left), budget)?;
            self.gone += u32::from(advanced.folded.is_some());
            self.gathering.count(advanced.folded.is_some().into());
            *left -= advanced.cost;
            more = advanced.more;
            if is_enough() {
                break;
            }
        }
        let done = self.counted(Ok(more))?;
        Ok(self.then_gathering(done))
    }

    /// Begins a part of a compaction.
    pub(crate) fn begin_part(&mut self) -> Result<(), Refused> {
        self.no_plan_of_caller()?;
        if self.is_open() {
            (self.plan, self.pool, self.emptied) = (Plan::Compaction, true, u64::MAX);
        }
        Ok(())
    }

    /// Takes one step of a compaction.
    pub(crate) fn advance(&mut self, left: usize, budget: usize) -> Result<Advanced, Refused> {
        if !self.is_open() {
            return Ok(Advanced {
                cost: 1,
                folded: None,
                more: false,
            });
        }
        // SAFETY: as in `insert`.
        let raw::AdvanceReply {
            status,
            more,
            cost,
            folded,
            abandoned,
            owned,
        } = unsafe { raw::teurlaks_compaction_step(&mut self.handle, left, budget) };
        done(status).map(|()| Advanced {
            cost,
            folded: (folded == 1).then_some((Group(abandoned), Group(owned))),
            more: more == 1,
        })
    }

    /// Ends a part that began with so many pages, after which there is more to do or not.
    pub(crate) fn end_part(
        &mut self,
        before: usize,
        more: Result<bool, Refused>,
    ) -> Result<Compacted, Refused> {
        self.gone += (before - self.pages()) as u32;
        self.counted(more)
    }

    /// The pages that went, if the part was not refused.
    fn counted(&mut self, more: Result<bool, Refused>) -> Result<Compacted, Refused> {
        let more = more?;
        if !more {
            self.end_compaction();
        }
        let pages = std::mem::take(&mut self.gone) as usize;
        Ok(Compacted { pages, more })
    }

    /// Ends a compaction that is done.
    fn end_compaction(&mut self) {
        self.plan = Plan::None;
        // What no shard may adopt stays in the pool.
        self.adopt_pooled();
        self.give_up_worn();
        self.stay = self.estimate().most_folds() as u32;
    }

    /// Ends a compaction where it is: no plan of it is open, and the shards have the groups of the
    /// pool as far as they may.
    pub(crate) fn give_up_compaction(&mut self) {
        self.end_gathering();
        if self.plan != Plan::Compaction {
            return;
        }
        // SAFETY: as in `insert`. It is not refused.
        unsafe { raw::teurlaks_compaction_give_up(&mut self.handle) };
        (self.plan, self.gone) = (Plan::None, 0);
        self.adopt_pooled();
    }

    /// Has the shards adopt the groups of the pool as far as they may.
    fn adopt_pooled(&mut self) {
        for shard in 0..self.shards() {
            // What is refused stays in the pool, under the keys that it had.
            while self.pool && self.adopt(shard).is_ok() {}
        }
    }
}

#[cfg(test)]
mod tests {
    use crate::core::{Core, Limits};
    use crate::refused::Refused;

    /// A core whose pages have one object each, each at another slot.
    fn sparse() -> Result<Core, Refused> {
        let mut core = Core::new(Limits::default())?;
        let keys: Vec<_> = (0..40 * 256)
            .map(|word| core.insert(0, word))
            .collect::<Result<_, _>>()?;
        for key in keys.iter().filter(|key| key.slot() != key.serial()) {
            assert!(core.free(*key));
        }
        Ok(core)
    }

    /// Nothing is known to be in the pool once a compaction is over, or given up.
    #[test]
    fn the_pool_is_empty_afterwards() -> Result<(), Refused> {
        let mut core = sparse()?;
        assert!(core.compact()? > 20 && core.pool_is_empty());
        for parts in 1..60 {
            let mut core = sparse()?;
            for _ in 0..parts {
                let _ = core.compact_within(1)?;
            }
            let pages = core.pages();
            core.give_up_compaction();
            assert!(core.pool_is_empty() && core.close() == Err(Refused::NoPlan));
            // What went before is not counted again.
            let gone = core.compact()?;
            assert_eq!(core.pages(), pages - gone);
        }
        Ok(())
    }
}
