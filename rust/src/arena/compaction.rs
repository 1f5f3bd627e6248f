//! Compaction of an arena: by its steward in parts, and by its seats where that asks them.

use super::{Arena, Seat};
use crate::background::{Background, Compacts, Policy};
use crate::bytes::{slots_for, words_for};
use crate::compact::Compacted;
use crate::core::{done, Stepped};
use crate::occupancy::Occupancy;
use crate::raw;
use crate::refused::Refused;
use std::io;
use std::mem::size_of;
use std::sync::atomic::{AtomicBool, AtomicU32, Ordering};
use std::sync::{Arc, Mutex, MutexGuard, PoisonError};

/// What of a compaction in parts comes next.
#[derive(Clone, Copy, Default)]
pub(super) enum Part {
    #[default]
    Mark,
    /// The folds of the plan, and whether there is another one then.
    Fold {
        again: bool,
    },
    Forget,
    /// The small pages of the pool, from this group on.
    Gather {
        from: usize,
    },
}

/// How many pages of the pool a step brings to others.
const GATHERED: usize = 16;

impl<T> Arena<T> {
    /// Takes at most so many steps of a compaction, at least one, and says how many pages went and
    /// whether there is more to do. The next call goes on where this one stopped; once there is no
    /// more to do, the next one begins anew.
    ///
    /// The arena folds what seats have left to the pool ([`Seat::retire`], [`Seat::end`],
    /// [`Seat::help_compact`]): a step is a mark, a pair of its plan, a forgetting, or, if there
    /// are pages of less than 4,096 bytes by [`Limits::slots`](crate::Limits::slots), 16 of the
    /// pool that are brought together. A mark is that of [`Arena::mark_some`], so it holds all
    /// locks for as long as it plans: the fewer groups there are in the pool, the shorter. What is
    /// not folded stays in the pool until a seat adopts it.
    ///
    /// Between two calls a plan may be open, so [`Arena::mark`], [`Arena::mark_some`],
    /// [`Arena::mesh`], [`Arena::forget`] and [`Seat::adopt`] may be refused with
    /// [`Refused::PlanOpen`], and so may [`Seat::end`] and [`Seat::retire`] of a seat with a group
    /// of the plan. [`Arena::close`] ends it, and the compaction goes on with what comes after its
    /// folds.
    ///
    /// # Errors
    ///
    /// - [`Refused::PlanOpen`]: a mark of the caller's has opened a plan;
    /// - [`Refused::OutOfMemory`]: memory was refused. Every key has its value, and the next call
    ///   goes on from there. It also counts the pages that went in this one;
    /// - [`Refused::Busy`]: as of [`Arena::mark`], and then as above.
    ///
    /// ```
    /// use teurlaks::{Arena, Limits};
    ///
    /// let mut arena = Arena::open(Limits { shards: 2, ..Limits::default() })?;
    /// let mut seat = arena.seat()?;
    /// let keys: Vec<_> = (0..12_800).map(|n| seat.insert(n)).collect::<Result<_, _>>()?;
    /// for (n, key) in keys.iter().enumerate().filter(|(n, _)| n % 23 != 0) {
    ///     seat.free(*key);
    /// }
    /// assert_eq!(seat.retire(50)?, 50);
    /// let mut gone = 0;
    /// loop {
    ///     let done = arena.compact_within(8)?; // between other work
    ///     gone += done.pages;
    ///     assert_eq!(seat.get(keys[46]), Some(46));
    ///     if !done.more {
    ///         break;
    ///     }
    /// }
    /// assert_eq!((gone, arena.totals().pages), (50, 50));
    /// # Ok::<(), teurlaks::Refused>(())
    /// ```
    pub fn compact_within(&mut self, budget: usize) -> Result<Compacted, Refused> {
        let mut more = self.standing.get().is_some();
        if !more {
            return Ok(Compacted::default());
        }
        for _ in 0..budget.max(1) {
            more = self.compact_step()?;
            if !more {
                break;
            }
        }
        let pages = std::mem::take(&mut self.gone);
        Ok(Compacted { pages, more })
    }

    /// Takes the next step, and says whether there is another one.
    fn compact_step(&mut self) -> Result<bool, Refused> {
        match self.part {
            Part::Mark => {
                let again = self.mark_some()?.is_worth_repeating();
                self.part = Part::Fold { again };
            }
            Part::Fold { again } => match self.step()? {
                Stepped::Folded(..) => self.gone += 1,
                Stepped::Emptied(..) => {}
                Stepped::NoPairLeft => {
                    self.close()?;
                    if again {
                        self.part = Part::Mark;
                    }
                }
            },
            Part::Forget => {
                match self.forget() {
                    Ok(_) | Err(Refused::Recorded) => {}
                    Err(refused) => return Err(refused),
                }
                self.part = Part::Gather { from: 0 };
                if !self.has_small_pages() {
                    self.part = Part::Mark;
                    return Ok(false);
                }
            }
            Part::Gather { from } => {
                self.part = Part::Mark;
                // What is refused stays where it is.
                if self.gather_some(from) != Ok(GATHERED) {
                    return Ok(false);
                }
                self.part = Part::Gather {
                    from: from + GATHERED,
                };
            }
        }
        Ok(true)
    }

    /// Moves the pages of some groups of the pool, from this one on, to lower blocks, and says how
    /// many these are: fewer than `GATHERED` if there are no more.
    fn gather_some(&mut self, from: usize) -> Result<usize, Refused> {
        // SAFETY: as in `Arena::mark`.
        let gathered = self
            .standing()?
            .call(|share| unsafe { raw::teurlaks_steward_gather(share, from, GATHERED) });
        done(gathered.status).map(|()| gathered.count)
    }

    /// Notes that the plan was closed, which is one of a compaction if folds come next there.
    pub(super) fn note_closed(&mut self) {
        if let Part::Fold { .. } = self.part {
            self.part = Part::Forget;
        }
    }

    /// Asks each seat to retire up to so many groups, and to adopt before what the pool has: it
    /// does so when it next calls [`Seat::help_compact`].
    pub fn ask_to_retire(&mut self, most: u32) {
        // Before that it has no seat.
        if let Some(standing) = self.standing.get() {
            standing.turn.ask(most);
        }
    }

    /// How many seats have done what was asked last.
    fn helpers(&self) -> u32 {
        self.standing
            .get()
            .map_or(0, |standing| standing.turn.helpers())
    }

    /// Whether it has asked for something that no seat has done.
    fn waits_for_help(&self) -> bool {
        let asked = self.standing.get().map(|standing| standing.turn.asked());
        asked.is_some_and(|asked| asked.most > 0) && self.helpers() == 0
    }
}

impl<T: Copy + Send + 'static> Arena<T> {
    /// How many values share a page.
    const SLOTS: usize = slots_for(words_for(size_of::<T>()));

    fn occupancy(&mut self) -> Occupancy {
        let totals = self.totals();
        Occupancy {
            pages: totals.pages,
            live: totals.live,
            slots: self.limits().slots_of(Self::SLOTS),
        }
    }

    /// Compacts the arena on a thread of its own for as long as the guard lives that is returned.
    /// The thread looks now and then how many pages could go. If that pays, it asks the seats to
    /// retire groups, which they do when they call [`Seat::help_compact`]; a while later it folds
    /// what they have left to the pool, as [`Arena::compact_within`] does; and then has them adopt
    /// the rest. A drop of the guard ends the thread, and waits for that: for a part at most.
    ///
    /// It has the lock of the arena for one part at a time, and the arena's own locks as
    /// [`Arena::compact_within`] and [`Arena::totals`] say. Who has that lock hands out seats,
    /// takes them back and makes all other calls as ever.
    ///
    /// # Errors
    ///
    /// The system's, if it refuses a thread.
    ///
    /// ```
    /// use std::sync::{Arc, Mutex};
    /// use std::time::Duration;
    /// use teurlaks::{Arena, Limits, Policy};
    ///
    /// let arena = Arena::open(Limits { shards: 2, ..Limits::default() })?;
    /// let arena = Arc::new(Mutex::new(arena));
    /// let mut seat = arena.lock().unwrap().seat()?;
    /// let policy = Policy { interval: Duration::from_millis(1), ..Policy::default() };
    /// let compacts = Arena::compact_in_background(&arena, policy)?;
    /// let keys: Vec<_> = (0..12_800).map(|n| seat.insert(n)).collect::<Result<_, _>>()?;
    /// for (n, key) in keys.iter().enumerate().filter(|(n, _)| n % 23 != 0) {
    ///     seat.free(*key);
    /// }
    /// while arena.lock().unwrap().totals().pages > 20 {
    ///     seat.help_compact()?; // now and then, between other calls
    ///     std::thread::yield_now();
    /// }
    /// drop(compacts);
    /// assert_eq!(seat.get(keys[46]), Some(46));
    /// # Ok::<(), Box<dyn std::error::Error>>(())
    /// ```
    pub fn compact_in_background(
        arena: &Arc<Mutex<Arena<T>>>,
        policy: Policy,
    ) -> io::Result<Background> {
        let steward = Steward {
            arena: Arc::clone(arena),
            helpers: AtomicU32::new(0),
            has_gathered: AtomicBool::new(false),
        };
        Background::begin(policy, steward)
    }
}

/// What compacts an arena in the background.
struct Steward<T> {
    arena: Arc<Mutex<Arena<T>>>,
    // How many seats had helped when that was last asked.
    helpers: AtomicU32,
    // Whether the last round was one that gathers, which comes in turn with one of fewer.
    has_gathered: AtomicBool,
}

impl<T> Steward<T> {
    /// The arena, whose calls leave it sound also if one panics.
    fn lock(&self) -> MutexGuard<'_, Arena<T>> {
        self.arena.lock().unwrap_or_else(PoisonError::into_inner)
    }
}

impl<T: Copy + Send + 'static> Compacts for Steward<T> {
    fn pages_and_most_folds(&self) -> (usize, usize) {
        let pages = self.lock().occupancy();
        (pages.pages, pages.most_folds())
    }

    /// Asks each seat for its part of what a store would retire, in turn by what can be expected to
    /// stay and by halves; unless they were asked before and none has helped yet.
    fn prepare(&self) {
        let mut arena = self.lock();
        if arena.waits_for_help() {
            return;
        }
        let pages = arena.occupancy();
        let gathers = !self.has_gathered.swap(true, Ordering::Relaxed);
        let retired = pages.gathered().filter(|_| gathers).unwrap_or_else(|| {
            self.has_gathered.store(false, Ordering::Relaxed);
            pages.some_or_half()
        });
        let most = retired / arena.limits().shards as usize;
        arena.ask_to_retire(u32::try_from(most).unwrap_or(u32::MAX));
        self.helpers.store(0, Ordering::Relaxed);
    }

    /// Whether some seat has helped, and no other one since this was last asked.
    fn is_prepared(&self) -> bool {
        let helpers = self.lock().helpers();
        self.helpers.swap(helpers, Ordering::Relaxed) == helpers && helpers > 0
    }

    fn compact_part(&self, budget: usize) -> Result<Compacted, Refused> {
        let mut arena = self.lock();
        let done = arena.compact_within(budget)?;
        if !done.more && arena.helpers() > 0 {
            arena.ask_to_retire(0);
        }
        Ok(done)
    }

    fn give_up(&self) {
        let mut arena = self.lock();
        if let Part::Fold { .. } = arena.part {
            // A plan is open, and this thread is in no session, so that it is not refused.
            let _ = arena.close();
        }
        arena.part = Part::Mark;
    }
}

impl<T> Seat<T> {
    /// Does what the arena has asked its seats for a compaction ([`Arena::ask_to_retire`],
    /// [`Arena::compact_in_background`]), once for each time that it has: adopts what the pool has,
    /// up to as many groups as this seat retired before, and retires as many as were asked for. It
    /// says how many went to the pool. Once a compaction is over, and none is to be retired, it
    /// [brings small pages together](Seat::gather). If nothing was asked, it costs a look at a
    /// number that threads share.
    ///
    /// While a plan is open it does nothing, and a later call does what was asked.
    ///
    /// # Errors
    ///
    /// [`Refused::OutOfMemory`]: memory was refused. A later call does the rest.
    pub fn help_compact(&mut self) -> Result<usize, Refused> {
        let asked = self.turn().asked();
        if asked.round == self.helped {
            return Ok(0);
        }
        while self.retired > 0 {
            match self.adopt() {
                Ok(_) => self.retired -= 1,
                Err(Refused::NothingToAdopt | Refused::PagesSpent | Refused::Ended) => {
                    self.retired = 0;
                }
                Err(Refused::PlanOpen) => return Ok(0),
                Err(refused) => return Err(refused),
            }
        }
        let retired = match self.retire(asked.most as usize) {
            Ok(retired) => retired,
            Err(Refused::Ended) => 0,
            Err(Refused::PlanOpen) => return Ok(0),
            Err(refused) => return Err(refused),
        };
        if asked.most == 0 && self.has_small_pages {
            self.gather()?;
        }
        (self.helped, self.retired) = (asked.round, retired);
        self.turn().note_helped();
        Ok(retired)
    }
}

#[cfg(test)]
mod tests {
    use super::{Arena, Seat, Steward};
    use crate::background::Compacts;
    use crate::core::Limits;
    use crate::refused::Refused;
    use std::sync::atomic::{AtomicBool, AtomicU32};
    use std::sync::{Arc, Mutex};

    /// The steward and the seat of 64 pages with one value each, no two at one slot: 20 of them are
    /// in the pool.
    fn steward() -> Result<(Steward<u64>, Seat<u64>), Refused> {
        let mut arena = Arena::open(Limits {
            slots: 128,
            ..Limits::default()
        })?;
        let mut seat = arena.seat()?;
        let keys: Vec<_> = (0..64 * 128)
            .map(|number| seat.insert(number))
            .collect::<Result<_, _>>()?;
        for key in keys.iter().filter(|key| key.slot() != key.serial()) {
            assert!(seat.free(*key));
        }
        assert_eq!(seat.retire(20)?, 20);
        let steward = Steward {
            arena: Arc::new(Mutex::new(arena)),
            helpers: AtomicU32::new(0),
            has_gathered: AtomicBool::new(false),
        };
        Ok((steward, seat))
    }

    /// Seats are waited for until none has helped since the last look.
    #[test]
    fn waits_for_seats() -> Result<(), Refused> {
        let (steward, mut seat) = steward()?;
        assert!(!steward.is_prepared());
        steward.lock().ask_to_retire(3);
        assert!(!steward.is_prepared() && steward.lock().waits_for_help());
        assert_eq!((seat.help_compact()?, seat.help_compact()?), (3, 0));
        assert!(!steward.lock().waits_for_help());
        assert!(!steward.is_prepared() && steward.is_prepared());
        Ok(())
    }

    /// The next compaction begins with a plan, wherever one was given up.
    #[test]
    fn begins_anew_once_given_up() -> Result<(), Refused> {
        for steps in 1..30 {
            let (steward, _seat) = steward()?;
            let mut gone = steward.compact_part(steps)?.pages;
            steward.give_up();
            loop {
                let done = steward.compact_part(7)?;
                gone += done.pages;
                if !done.more {
                    break;
                }
            }
            assert_eq!((gone, steward.lock().totals().pages), (20, 44));
        }
        Ok(())
    }
}
