//! Folds, which the values follow, and compactions.

use super::Slab;
use crate::compact::{Compact, Compacted};
use crate::core::{Core, Stepped};
use crate::names::Group;
use crate::refused::Refused;

impl<T> Slab<T> {
    crate::core::letting_go!(self => self.regrouped());

    /// The core, for a call after which a put may open a page though the first one has room.
    fn regrouped(&mut self) -> &mut Core {
        self.values.forget_room();
        &mut self.core
    }

    /// How many pages of up to 4,096 bytes there are.
    #[must_use]
    pub fn pages(&self) -> usize {
        self.core.pages()
    }

    /// The last mark's certificate, as [`Core::certificate`].
    ///
    /// # Errors
    ///
    /// [`Refused::OutOfMemory`] where memory was refused for the text.
    pub fn certificate(&self) -> Result<Option<String>, Refused> {
        self.core.certificate()
    }

    /// Moves a group of the pool to a shard, as [`Core::adopt`].
    ///
    /// # Errors
    ///
    /// As of [`Core::adopt`].
    pub fn adopt(&mut self, shard: u32) -> Result<Group, Refused> {
        let group = self.regrouped().adopt(shard)?;
        self.values.note_adopted(group, shard);
        self.first = self.first.min(shard as u8);
        Ok(group)
    }

    /// Carries out the next fold, as [`Core::step`]. The values move with it, and their page goes
    /// back.
    ///
    /// # Errors
    ///
    /// As of [`Core::step`].
    pub fn step(&mut self) -> Result<Stepped, Refused> {
        self.values.step(&mut self.core)
    }

    /// Closes the plan, as [`Core::close`].
    ///
    /// # Errors
    ///
    /// [`Refused::NoPlan`] alone, where no plan is open.
    pub fn close(&mut self) -> Result<(), Refused> {
        self.first = 0;
        self.regrouped().close()
    }

    /// Marks, takes all steps and closes, as [`Core::mesh`]. The values move with the folds, and
    /// their pages go back.
    ///
    /// # Errors
    ///
    /// As of [`Core::mesh`].
    pub fn mesh(&mut self) -> Result<usize, Refused> {
        self.values.forget_room();
        let values = &mut self.values;
        let meshed = self.core.mesh_with(|core| values.step(core));
        self.first = 0;
        meshed
    }

    /// Gives back the pages on which no value is, folds sparse pages onto others until that hardly
    /// gives any back, and says how many pages went; each that is folded takes its page of values
    /// with it. Every key stays valid, and all groups are in shards afterwards, also those that an
    /// end or a retirement had left to the pool.
    ///
    /// It takes the steps of [`Core::compact`].
    ///
    /// Each fold copies the values of a page, and a plan looks at each pair of up to 4,096 pages on
    /// each side, those with the fewest values. A page that is folded takes no value of its own any
    /// more, so each fold uses up one of the 4,294,967,295 pages that a shard may open in its life;
    /// what can never have a value again is forgotten. [`Slab::compact_within`] does the same in
    /// parts. At the end pages of values move together, each once at most, so that the memory
    /// between them goes to the system too.
    ///
    /// # Errors
    ///
    /// - [`Refused::PlanOpen`]: a mark has opened a plan; then nothing has changed;
    /// - [`Refused::OutOfMemory`]: memory was refused; it stops where it is, every key has its
    ///   value, and it may be tried again.
    ///
    /// ```
    /// # use teurlaks::Slab;
    /// let mut slab = Slab::new()?;
    /// let keys: Vec<_> = (0..512).map(|i| slab.insert(i)).collect::<Result<_, _>>()?;
    /// slab.retain(|_, i| *i % 19 == 0); // 27 of 512 are left, on four pages
    /// assert_eq!(slab.compact()?, 3);
    /// assert_eq!((slab.pages(), slab.len(), slab.get(keys[38])), (1, 27, Some(&38)));
    /// # Ok::<(), teurlaks::Refused>(())
    /// ```
    pub fn compact(&mut self) -> Result<usize, Refused> {
        self.give_up_vacant();
        let went = self.compact_all();
        self.first = 0;
        self.is_packing = self.values.pack(usize::MAX);
        went
    }

    /// [Compacts](Slab::compact) if at least so many percent of the pages could go, by counts alone
    /// and without what the last compaction has left, as [`Core::compact_if_pays`] does. If not, it
    /// gives back the pages on which no value is.
    ///
    /// # Errors
    ///
    /// As of [`Slab::compact`].
    ///
    /// ```
    /// # use teurlaks::Slab;
    /// let mut slab = Slab::try_from_iter(0..12_800)?;
    /// slab.retain(|_, i| *i % 3 > 0);
    /// assert_eq!(slab.compact_if_pays(50)?, 0);
    /// slab.retain(|_, i| *i % 19 == 0);
    /// assert!(slab.compact_if_pays(50)? > 80);
    /// # Ok::<(), teurlaks::Refused>(())
    /// ```
    pub fn compact_if_pays(&mut self, least_percent: usize) -> Result<usize, Refused> {
        self.give_up_vacant();
        match self.regrouped().pass_over(least_percent) {
            Some(trimmed) => {
                self.values.cool();
                Ok(trimmed)
            }
            None => self.compact(),
        }
    }

    /// Takes at most so many steps of a [compaction](Slab::compact), at least one, and says how
    /// many pages went and whether there is more to do. The next call goes on where this one
    /// stopped. After the last step each call moves at most so many pages of values together,
    /// until none is left to move.
    ///
    /// What a step is, what a plan looks at, and which calls may be refused with
    /// [`Refused::PlanOpen`] between two calls, is as of [`Core::compact_within`].
    ///
    /// # Errors
    ///
    /// As of [`Core::compact_within`].
    ///
    /// ```
    /// # use teurlaks::Slab;
    /// let mut slab = Slab::try_from_iter(0..12_800)?;
    /// slab.retain(|_, i| *i % 19 == 0);
    /// let mut gone = 0;
    /// while slab.len() > 0 {
    ///     let done = slab.compact_within(16)?; // between other work
    ///     gone += done.pages;
    ///     if !done.more {
    ///         break;
    ///     }
    /// }
    /// assert!(slab.pages() + gone == 100 && gone > 80);
    /// # Ok::<(), teurlaks::Refused>(())
    /// ```
    pub fn compact_within(&mut self, budget: usize) -> Result<Compacted, Refused> {
        self.give_up_vacant();
        let done = if self.is_packing {
            Ok(Compacted::default())
        } else {
            self.compact_some(budget)
        };
        self.first = 0;
        self.values.cool();
        let mut done = done?;
        if !done.more {
            self.is_packing = self.values.pack(budget.max(1));
            done.more = self.is_packing;
        }
        Ok(done)
    }
}

impl<T> Compact for Slab<T> {
    fn core(&mut self) -> &mut Core {
        self.regrouped()
    }

    fn make_room(&mut self) -> Result<(), Refused> {
        self.values.make_room()
    }

    fn follow(&mut self, abandoned: Group, owned: Group) {
        self.values.follow(abandoned, owned);
    }
}
