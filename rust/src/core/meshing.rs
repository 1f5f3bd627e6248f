//! What a core does with whole groups: ends, begins, retirements, trims and adoptions, marks and
//! their steps.

use super::{Core, Order, Plan};
use crate::names::Group;
use crate::occupancy::is_worth;
use crate::raw;
use crate::refused::Refused;

/// How many groups a plan may have on a side.
pub(crate) const MOST_GROUPS: usize = 4096;

/// What a mark saw and planned.
#[derive(Clone, Copy, Debug, PartialEq, Eq, Hash)]
pub struct Marked {
    /// How many groups of the pool it saw.
    pub abandoned: usize,
    /// How many groups of the shards it saw.
    pub owned: usize,
    /// How many folds are planned: no plan has more.
    pub folds: usize,
    /// How many groups are in the short set, which shows that.
    pub short_set: usize,
}

impl Marked {
    /// Whether another mark is worth its time: this one may not have seen all groups, and folds at
    /// least a sixteenth of those that it saw of the pool, and at least one.
    pub(crate) fn wants_another(&self) -> bool {
        let sees_all = self.abandoned.max(self.owned) < MOST_GROUPS;
        !sees_all && self.folds > 0 && self.folds * 16 >= self.abandoned
    }

    /// Whether a compaction plans once more with what this plan leaves in the pool: it leaves
    /// some, and folds enough of its smaller side.
    pub(crate) fn is_worth_repeating(&self) -> bool {
        let leaves_some = self.folds < self.abandoned || self.abandoned >= MOST_GROUPS;
        leaves_some && is_worth(self.folds, self.abandoned.min(self.owned))
    }
}

/// What a step did.
#[derive(Clone, Copy, Debug, PartialEq, Eq, Hash)]
pub enum Stepped {
    /// The first group is now on the page of the second, and its own page is gone.
    Folded(Group, Group),
    /// The first group had no live key left, and so no page to give back.
    Emptied(Group, Group),
    /// Each pair of the plan is done with.
    NoPairLeft,
}

impl Core {
    /// Ends a shard: its groups go to the pool, with their pages, and it takes no object until it
    /// [begins](Core::begin) again.
    ///
    /// # Errors
    ///
    /// - [`Refused::Ended`]: it has ended before;
    /// - [`Refused::PlanOpen`]: one of its groups is in the open plan;
    /// - [`Refused::Config`]: there is no such shard;
    /// - [`Refused::OutOfMemory`]: none of these holds, and memory was refused.
    pub fn end(&mut self, shard: u32) -> Result<(), Refused> {
        self.has_shard(shard)?;
        self.open()?;
        // SAFETY: as in `insert`.
        done(unsafe { raw::teurlaks_end(&mut self.handle, shard) })?;
        self.ended |= 1 << shard;
        self.pool = true;
        self.note_regrouped();
        Ok(())
    }

    /// Lets a shard that has ended run again, for a new thread: it takes objects and groups as
    /// before. All keys stay what they are, and none that it gives out was given out before. It
    /// takes no memory.
    ///
    /// # Errors
    ///
    /// - [`Refused::Running`]: it has not ended;
    /// - [`Refused::Config`]: there is no such shard.
    ///
    /// ```
    /// # use teurlaks::{Core, Limits, Refused};
    /// let mut core = Core::new(Limits::default())?;
    /// let before = core.insert(0, 7)?;
    /// assert_eq!(core.begin(0), Err(Refused::Running));
    /// core.end(0)?; // the thread of the shard is gone
    /// assert_eq!(core.insert(0, 8), Err(Refused::Ended));
    /// core.begin(0)?; // and another one takes its place
    /// let after = core.insert(0, 8)?;
    /// assert_eq!((core.get(before), core.get(after)), (Some(7), Some(8)));
    /// # Ok::<(), Refused>(())
    /// ```
    pub fn begin(&mut self, shard: u32) -> Result<(), Refused> {
        if !self.is_open() {
            return self.has_shard(shard).and(Err(Refused::Running));
        }
        // SAFETY: as in `insert`.
        done(unsafe { raw::teurlaks_begin(&mut self.handle, shard) })?;
        self.ended &= !(1 << shard);
        Ok(())
    }

    /// Moves up to `most` groups of a shard to the pool, with their pages, and says how many went:
    /// those with the fewest live keys, of those that have one. The shard goes on, so a program of
    /// one shard folds too: the pool's pages are folded onto those that stay. Fewer than `most` go
    /// only where no group with a live key is left. Groups with no live key stay: [`Core::trim`]
    /// gives their pages back.
    ///
    /// # Errors
    ///
    /// - [`Refused::Ended`]: the shard has ended;
    /// - [`Refused::PlanOpen`]: one of its groups is in the open plan;
    /// - [`Refused::Config`]: there is no such shard;
    /// - [`Refused::OutOfMemory`]: none of these holds, and memory was refused.
    ///
    /// ```
    /// # use teurlaks::{Core, Limits};
    /// let mut core = Core::new(Limits::default())?;
    /// let keys: Vec<_> = (0..256).map(|word| core.insert(0, word)).collect::<Result<_, _>>()?;
    /// for (place, key) in keys.iter().enumerate() {
    ///     if place != 0 && place != 129 {
    ///         core.free(*key); // one word is left on each of two pages
    ///     }
    /// }
    /// assert_eq!(core.retire(0, 1)?, 1);
    /// assert_eq!(core.mesh()?, 1);
    /// assert_eq!((core.pages(), core.get(keys[0]), core.get(keys[129])), (1, Some(0), Some(129)));
    /// # Ok::<(), teurlaks::Refused>(())
    /// ```
    pub fn retire(&mut self, shard: u32, most: usize) -> Result<usize, Refused> {
        if !self.is_open() {
            return self.has_shard(shard).map(|()| 0);
        }
        // SAFETY: as in `insert`.
        let raw::RetireReply { status, count } =
            unsafe { raw::teurlaks_retire(&mut self.handle, shard, most) };
        if count > 0 {
            self.pool = true;
            self.note_regrouped();
        }
        done(status).map(|()| count)
    }

    /// Gives back the pages of a shard's groups in which nothing is live, and says how many went.
    /// The groups stay, and with them the generations of their keys: a later insert takes a slot of
    /// one again, on a new page. A group of the open plan keeps its page.
    ///
    /// # Errors
    ///
    /// [`Refused::Config`] alone, where there is no such shard. It takes no memory.
    ///
    /// ```
    /// # use teurlaks::{Core, Limits};
    /// let mut core = Core::new(Limits::default())?;
    /// let keys: Vec<_> = (0..256).map(|word| core.insert(0, word)).collect::<Result<_, _>>()?;
    /// for key in &keys[..128] {
    ///     core.free(*key);
    /// }
    /// assert_eq!((core.trim(0)?, core.pages()), (1, 1));
    /// let again = core.insert(0, 7)?; // a slot of the first group, on a new page
    /// assert_eq!((core.pages(), core.get(again), core.get(keys[0])), (2, Some(7), None));
    /// # Ok::<(), teurlaks::Refused>(())
    /// ```
    pub fn trim(&mut self, shard: u32) -> Result<usize, Refused> {
        if !self.is_open() {
            return self.has_shard(shard).map(|()| 0);
        }
        // SAFETY: as in `insert`.
        let raw::TrimReply { status, count } =
            unsafe { raw::teurlaks_trim(&mut self.handle, shard) };
        done(status)?;
        self.emptied |= u64::from(count > 0) << shard;
        self.gathering.count(count);
        Ok(count)
    }

    /// Trims as [`Core::trim`] does up to `most` groups of the shard, from this one on, and says
    /// how many groups these are, and how many pages went. There are fewer than `most` only if no
    /// more follow.
    pub(crate) fn trim_some(
        &mut self,
        shard: u32,
        from: usize,
        most: usize,
    ) -> Result<(usize, usize), Refused> {
        if !self.is_open() {
            return self.has_shard(shard).map(|()| (0, 0));
        }
        // SAFETY: as in `insert`.
        let raw::TrimPartReply {
            status,
            groups,
            pages,
        } = unsafe { raw::teurlaks_trim_some(&mut self.handle, shard, from, most) };
        done(status)?;
        self.emptied |= u64::from(pages > 0) << shard;
        self.gathering.count(pages);
        Ok((groups, pages))
    }

    /// Trims up to 4,096 groups, or all of fewer, and says how many pages went. It begins where the
    /// last such call stopped, so each group has its turn.
    pub(crate) fn trim_in_turn(&mut self) -> usize {
        let (mut left, mut went) = (MOST_GROUPS, 0);
        // The shard that is first is last again, up to where the call began.
        for _ in 0..=self.shards() {
            let (shard, group) = (self.next_trimmed, self.next_group);
            let Ok((groups, pages)) = self.trim_some(shard.into(), group as usize, left) else {
                break;
            };
            went += pages;
            left -= groups;
            if left == 0 {
                self.next_group = group + groups as u32;
                break;
            }
            (self.next_trimmed, self.next_group) = ((shard + 1) % self.shards() as u8, 0);
        }
        went
    }

    /// Forgets the pages whose keys are all gone and that were folded onto others, or left to the
    /// pool, with the generations that are kept of them, and says how many. A page that its shard
    /// has opened stays known there, since it takes values again. Nothing else changes: keys of
    /// what was forgotten find nothing, as before, and are never given out again. [`Core::compact`]
    /// does so at its end.
    ///
    /// # Errors
    ///
    /// [`Refused::PlanOpen`] alone, while a plan is open. It takes no memory.
    ///
    /// ```
    /// # use teurlaks::{Core, Limits};
    /// let mut core = Core::new(Limits { shards: 2, ..Limits::default() })?;
    /// let keys = (0..256).map(|i| core.insert(i % 2, i.into()));
    /// let keys = keys.collect::<Result<Vec<_>, _>>()?;
    /// for (i, key) in keys.iter().enumerate().filter(|(i, _)| i % 23 != 0) {
    ///     core.free(*key);
    /// }
    /// assert_eq!((core.compact()?, core.pages(), core.forget()?), (1, 1, 0));
    /// for key in &keys {
    ///     core.free(*key);
    /// }
    /// assert_eq!((core.forget()?, core.forget()?, core.get(keys[0])), (1, 0, None));
    /// core.end(0)?;
    /// core.end(1)?;
    /// assert_eq!((core.forget()?, core.forget()?), (1, 0)); // and nothing is left
    /// # Ok::<(), teurlaks::Refused>(())
    /// ```
    pub fn forget(&mut self) -> Result<usize, Refused> {
        if !self.is_open() {
            return Ok(0);
        }
        Ok(self.forget_pooled()? + self.give_up_worn())
    }

    /// Forgets what the library does by itself.
    pub(super) fn forget_pooled(&mut self) -> Result<usize, Refused> {
        // SAFETY: as in `insert`.
        let raw::ForgetReply { status, count } = unsafe { raw::teurlaks_forget(&mut self.handle) };
        done(status).map(|()| count)
    }

    /// Moves the pool's group of lowest head that has a page to a shard, and gives its name.
    ///
    /// # Errors
    ///
    /// - [`Refused::PagesSpent`]: the shard has as many groups as it may have pages;
    /// - [`Refused::Ended`]: it has ended;
    /// - [`Refused::PlanOpen`]: a plan is open;
    /// - [`Refused::NothingToAdopt`]: no group of the pool has a page;
    /// - [`Refused::Config`]: there is no such shard;
    /// - [`Refused::OutOfMemory`]: none of these holds, and memory was refused.
    pub fn adopt(&mut self, shard: u32) -> Result<Group, Refused> {
        if !self.is_open() {
            return Err(Refused::NothingToAdopt);
        }
        // SAFETY: as in `insert`.
        let adopted = unsafe { raw::teurlaks_adopt(&mut self.handle, shard) };
        self.pool &= adopted.status != raw::NOTHING_TO_ADOPT;
        if adopted.status == raw::OK && shard > 0 {
            self.note_regrouped();
        }
        done(adopted.status).map(|()| Group(adopted.head))
    }

    /// Plans as many folds as can be, and opens the plan. Until it is closed, the groups that it
    /// folds onto take no object.
    ///
    /// # Errors
    ///
    /// - [`Refused::PlanOpen`]: a plan is open;
    /// - [`Refused::TooMany`]: a side has more than 4,096 groups that have a page;
    /// - [`Refused::OutOfMemory`]: none of these holds, and memory was refused.
    pub fn mark(&mut self) -> Result<Marked, Refused> {
        self.open()?;
        // SAFETY: as in `insert`.
        let marked = marked(unsafe { raw::teurlaks_mark(&mut self.handle) })?;
        self.plan = Plan::Caller;
        Ok(marked)
    }

    /// Marks as [`Core::mark`] does, but sees of each side the 4,096 groups with the fewest live
    /// keys, or all where there are no more. So its plan and its certificate are of what it saw,
    /// and a further mark may find more.
    ///
    /// # Errors
    ///
    /// - [`Refused::PlanOpen`]: a plan is open;
    /// - [`Refused::OutOfMemory`]: none is, and memory was refused.
    pub fn mark_some(&mut self) -> Result<Marked, Refused> {
        self.open()?;
        // SAFETY: as in `insert`.
        let marked = marked(unsafe { raw::teurlaks_mark_some(&mut self.handle) })?;
        self.plan = Plan::Caller;
        Ok(marked)
    }

    /// That a caller has no plan open.
    pub(crate) fn no_plan_of_caller(&self) -> Result<(), Refused> {
        match self.plan {
            Plan::Caller => Err(Refused::PlanOpen),
            _ => Ok(()),
        }
    }

    /// Whether no group is in the pool, or none that has a page.
    pub(crate) fn pool_is_empty(&self) -> bool {
        !self.pool
    }

    /// Whether the first shard fills one page after another, each from its lowest free slot on: no
    /// group is in a pool or a plan, or has gone to another shard, and no slot has got all its
    /// generations. It is so again after a compaction.
    pub(crate) fn fills_in_order(&self) -> bool {
        self.order == Order::Kept && self.plan == Plan::None && self.pool_is_empty()
    }

    /// Notes that a group may be elsewhere than in the shard that has opened it.
    fn note_regrouped(&mut self) {
        self.order = self.order.max(Order::Regrouped);
    }

    /// Carries out the next pair of the open plan.
    ///
    /// # Errors
    ///
    /// - [`Refused::NoPlan`]: no plan is open;
    /// - [`Refused::OutOfMemory`]: memory was refused; the pair is then still the next.
    pub fn step(&mut self) -> Result<Stepped, Refused> {
        if !self.is_open() {
            return Err(Refused::NoPlan);
        }
        // SAFETY: as in `insert`.
        stepped(unsafe { raw::teurlaks_step(&mut self.handle) })
    }

    /// Closes the open plan; pairs that are left are dropped. It takes no memory.
    ///
    /// # Errors
    ///
    /// [`Refused::NoPlan`] alone, where no plan is open.
    pub fn close(&mut self) -> Result<(), Refused> {
        if !self.is_open() {
            return Err(Refused::NoPlan);
        }
        // SAFETY: as in `insert`.
        let closed = done(unsafe { raw::teurlaks_close(&mut self.handle) });
        self.plan = Plan::None;
        closed
    }

    /// Marks, takes all steps and closes, and says how many pages came back. The mark is that of
    /// [`Core::mark_some`]; where it may not have seen all groups, and folds at least a sixteenth
    /// of those that it saw of the pool, there is another.
    ///
    /// # Errors
    ///
    /// - [`Refused::PlanOpen`]: a plan is open;
    /// - [`Refused::OutOfMemory`]: memory was refused to a mark or to a step; what was folded
    ///   before stays so, and no plan is open.
    pub fn mesh(&mut self) -> Result<usize, Refused> {
        self.mesh_with(Core::step)
    }

    /// How many shards there are, with those that have ended.
    pub(crate) fn shards(&self) -> u32 {
        self.limits().shards
    }

    /// How many shards have not ended.
    pub(crate) fn running_shards(&self) -> usize {
        (self.shards() - self.ended.count_ones()) as usize
    }

    /// Trims each shard, and says how many pages went.
    pub(crate) fn trim_all(&mut self) -> usize {
        // A shard that there is may be trimmed.
        (0..self.shards())
            .filter_map(|shard| self.trim(shard).ok())
            .sum()
    }

    /// As `mesh`, by that step.
    pub(crate) fn mesh_with(
        &mut self,
        mut step: impl FnMut(&mut Core) -> Result<Stepped, Refused>,
    ) -> Result<usize, Refused> {
        let before = self.pages();
        loop {
            let marked = self.mark_some()?;
            let taken = self.take_steps(&mut step);
            self.close()?;
            taken?;
            if !marked.wants_another() {
                return Ok(before - self.pages());
            }
        }
    }

    fn take_steps(
        &mut self,
        step: &mut impl FnMut(&mut Core) -> Result<Stepped, Refused>,
    ) -> Result<(), Refused> {
        while step(self)? != Stepped::NoPairLeft {}
        Ok(())
    }

    /// The text of the last mark's certificate, which shows that no plan has more folds, or `None`
    /// before the first mark. `meshrun check` checks such a text without trusting who made it.
    ///
    /// # Errors
    ///
    /// [`Refused::OutOfMemory`] where memory was refused for the text.
    pub fn certificate(&self) -> Result<Option<String>, Refused> {
        if !self.is_open() {
            return Ok(None);
        }
        // SAFETY: as in `get`, and so many bytes stand there.
        certificate_text(|text, len| unsafe { raw::teurlaks_certificate(&self.handle, text, len) })
    }
}

/// The text that the call writes where there is room for so many bytes; it tells how many there are
/// where there is not.
pub(crate) fn certificate_text(
    mut write: impl FnMut(*mut u8, usize) -> raw::CertificateReply,
) -> Result<Option<String>, Refused> {
    let mut text = Vec::new();
    loop {
        let told = write(text.as_mut_ptr(), text.len());
        match told.status {
            raw::OK => return Ok(Some(String::from_utf8_lossy(&text).into_owned())),
            raw::NONE => return Ok(None),
            raw::TOO_SMALL => {
                text.try_reserve_exact(told.len)
                    .map_err(|_| Refused::OutOfMemory)?;
                text.resize(told.len, 0);
            }
            other => return Err(Refused::of(other)),
        }
    }
}

/// What the mark says, where it was not refused.
pub(crate) fn marked(reply: raw::MarkReply) -> Result<Marked, Refused> {
    let raw::MarkReply {
        status,
        abandoned,
        owned,
        folds,
        short_set,
    } = reply;
    done(status).map(|()| Marked {
        abandoned,
        owned,
        folds,
        short_set,
    })
}

/// What the step did, where it was not refused.
pub(crate) fn stepped(reply: raw::StepReply) -> Result<Stepped, Refused> {
    let raw::StepReply {
        status,
        abandoned,
        owned,
    } = reply;
    match status {
        raw::OK => Ok(Stepped::Folded(Group(abandoned), Group(owned))),
        raw::EMPTIED => Ok(Stepped::Emptied(Group(abandoned), Group(owned))),
        raw::NO_PAIR_LEFT => Ok(Stepped::NoPairLeft),
        other => Err(Refused::of(other)),
    }
}

/// What such a status says.
pub(crate) fn done(status: u32) -> Result<(), Refused> {
    match status {
        raw::OK => Ok(()),
        other => Err(Refused::of(other)),
    }
}
