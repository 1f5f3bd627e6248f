//! The calls of a core that a type with one has too.

/// The calls of a type with a core that are the core's and do not move a value: its ends, begins,
/// retirements and trims, and its marks.
macro_rules! letting_go {
    ($this:ident => $core:expr) => {
        /// The numbers with which it was made.
        #[must_use]
        pub fn limits(&$this) -> crate::Limits {
            $this.core.limits()
        }

        /// Whether there is such a shard and it has ended.
        #[must_use]
        pub fn is_ended(&$this, shard: u32) -> bool {
            $this.core.is_ended(shard)
        }

        /// Ends a shard, as [`Core::end`](crate::Core::end).
        ///
        /// # Errors
        ///
        /// As of [`Core::end`](crate::Core::end).
        pub fn end(&mut $this, shard: u32) -> Result<(), crate::Refused> {
            $core.end(shard)
        }

        /// Lets a shard that has ended run again, as [`Core::begin`](crate::Core::begin).
        ///
        /// # Errors
        ///
        /// As of [`Core::begin`](crate::Core::begin).
        pub fn begin(&mut $this, shard: u32) -> Result<(), crate::Refused> {
            $core.begin(shard)
        }

        /// Moves the sparsest groups of a shard to the pool, as
        /// [`Core::retire`](crate::Core::retire), whose shard goes on.
        ///
        /// # Errors
        ///
        /// As of [`Core::retire`](crate::Core::retire).
        pub fn retire(&mut $this, shard: u32, most: usize) -> Result<usize, crate::Refused> {
            $core.retire(shard, most)
        }

        /// Gives back the pages of a shard on which nothing is live, as
        /// [`Core::trim`](crate::Core::trim).
        ///
        /// # Errors
        ///
        /// [`Refused::Config`](crate::Refused::Config) alone, where there is no such shard. It
        /// takes no memory.
        pub fn trim(&mut $this, shard: u32) -> Result<usize, crate::Refused> {
            $core.trim(shard)
        }

        /// Forgets pages whose keys are all gone and that were folded onto others, or left to the
        /// pool, as [`Core::forget`](crate::Core::forget), and says how many. `compact` does so at
        /// its end; who retires and meshes by hand asks for it now and then, since else the memory
        /// for what was folded grows.
        ///
        /// # Errors
        ///
        /// [`Refused::PlanOpen`](crate::Refused::PlanOpen) alone, while a plan is open. It takes no
        /// memory.
        pub fn forget(&mut $this) -> Result<usize, crate::Refused> {
            $core.forget()
        }

        /// Plans as many folds as can be, as [`Core::mark`](crate::Core::mark).
        ///
        /// # Errors
        ///
        /// As of [`Core::mark`](crate::Core::mark).
        pub fn mark(&mut $this) -> Result<crate::Marked, crate::Refused> {
            $core.mark()
        }

        /// Plans folds of the sparsest groups, as [`Core::mark_some`](crate::Core::mark_some).
        ///
        /// # Errors
        ///
        /// As of [`Core::mark_some`](crate::Core::mark_some).
        pub fn mark_some(&mut $this) -> Result<crate::Marked, crate::Refused> {
            $core.mark_some()
        }
    };
}
pub(crate) use letting_go;

/// The other calls of a type whose values are all in its core, and which asks the shards for room
/// from its first one on.
macro_rules! meshing {
    () => {
        crate::core::letting_go!(self => self.core);

        /// How many pages of up to 4,096 bytes there are.
        #[must_use]
        pub fn pages(&self) -> usize {
            self.core.pages()
        }

        /// The last mark's certificate, as [`Core::certificate`](crate::Core::certificate).
        ///
        /// # Errors
        ///
        /// [`Refused::OutOfMemory`](crate::Refused::OutOfMemory) where memory was refused for the
        /// text.
        pub fn certificate(&self) -> Result<Option<String>, crate::Refused> {
            self.core.certificate()
        }

        /// Moves a group of the pool to a shard, as [`Core::adopt`](crate::Core::adopt).
        ///
        /// # Errors
        ///
        /// As of [`Core::adopt`](crate::Core::adopt).
        pub fn adopt(&mut self, shard: u32) -> Result<crate::Group, crate::Refused> {
            self.first = 0;
            self.core.adopt(shard)
        }

        /// Carries out the next fold, as [`Core::step`](crate::Core::step).
        ///
        /// # Errors
        ///
        /// As of [`Core::step`](crate::Core::step).
        pub fn step(&mut self) -> Result<crate::Stepped, crate::Refused> {
            self.core.step()
        }

        /// Closes the plan, as [`Core::close`](crate::Core::close).
        ///
        /// # Errors
        ///
        /// [`Refused::NoPlan`](crate::Refused::NoPlan) alone, where no plan is open.
        pub fn close(&mut self) -> Result<(), crate::Refused> {
            self.first = 0;
            self.core.close()
        }

        /// Moves each page of a shard to others, as [`Core::gather`](crate::Core::gather).
        ///
        /// # Errors
        ///
        /// As of [`Core::gather`](crate::Core::gather).
        pub fn gather(&mut self, shard: u32) -> Result<(), crate::Refused> {
            self.core.gather(shard)
        }

        /// Marks, takes all steps and closes, as [`Core::mesh`](crate::Core::mesh).
        ///
        /// # Errors
        ///
        /// As of [`Core::mesh`](crate::Core::mesh).
        pub fn mesh(&mut self) -> Result<usize, crate::Refused> {
            self.first = 0;
            self.core.mesh()
        }

        /// Folds sparse pages onto others until that hardly gives any back, as
        /// [`Core::compact`](crate::Core::compact).
        ///
        /// # Errors
        ///
        /// As of [`Core::compact`](crate::Core::compact).
        pub fn compact(&mut self) -> Result<usize, crate::Refused> {
            self.first = 0;
            self.core.compact()
        }

        /// Compacts if at least so many percent of the pages could go, as
        /// [`Core::compact_if_pays`](crate::Core::compact_if_pays).
        ///
        /// # Errors
        ///
        /// As of [`Core::compact`](crate::Core::compact).
        pub fn compact_if_pays(&mut self, least_percent: usize) -> Result<usize, crate::Refused> {
            self.first = 0;
            self.core.compact_if_pays(least_percent)
        }

        /// Takes at most so many steps of a compaction, as
        /// [`Core::compact_within`](crate::Core::compact_within).
        ///
        /// # Errors
        ///
        /// As of [`Core::compact_within`](crate::Core::compact_within).
        pub fn compact_within(
            &mut self,
            budget: usize,
        ) -> Result<crate::Compacted, crate::Refused> {
            self.first = 0;
            self.core.compact_within(budget)
        }
    };
}
pub(crate) use meshing;
