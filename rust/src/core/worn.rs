//! Groups that take no object any more, and make way for others.

use super::{Core, Order, Plan};
use crate::raw;
use crate::refused::Refused;

impl Core {
    /// Does what lets a put of so many words be made again that got this status: `OK`, or the
    /// status of why that is in vain.
    #[cold]
    pub(super) fn make_way(&mut self, status: u32, shard: u32, len: usize) -> u32 {
        match status {
            raw::NO_CORE => self.open_for(shard, len),
            raw::PAGES_SPENT => match self.give_up_empty(shard) {
                Ok(count) if count > 0 => raw::OK,
                Err(Refused::OutOfMemory) => raw::OUT_OF_MEMORY,
                _ => raw::PAGES_SPENT,
            },
            refused => refused,
        }
    }

    /// Gives up the groups of each shard on which nothing is live, if a slot has got all its
    /// generations, and says how many went. If memory is refused, the others stay.
    pub(super) fn give_up_worn(&mut self) -> usize {
        if self.order != Order::Worn {
            return 0;
        }
        let mut count = 0;
        for shard in 0..self.shards() {
            if !self.is_ended(shard) {
                count += self.give_up_empty(shard).unwrap_or(0);
            }
        }
        count
    }

    /// Gives up the groups of a running shard on which nothing is live, and says how many went:
    /// none while a plan is open or the pool has groups. All keys stay what they are.
    ///
    /// The shard ends, so that the pool has its groups and can forget those that are empty; and
    /// begins again, and adopts the others.
    fn give_up_empty(&mut self, shard: u32) -> Result<usize, Refused> {
        if self.plan != Plan::None || !self.pool_is_empty() {
            return Ok(0);
        }
        self.trim(shard)?;
        if self.emptied >> shard & 1 == 0 {
            return Ok(0);
        }
        self.end(shard)?;
        let forgotten = self.forget_pooled();
        // It has ended just now, and this takes no memory.
        self.begin(shard)?;
        let adopted = self.adopt_all(shard);
        let count = forgotten?;
        self.emptied &= !(1 << shard);
        // What is left stays in the pool, under the keys that it has.
        if count == 0 {
            adopted?;
        }
        Ok(count)
    }

    /// Adopts each group of the pool that has a page.
    fn adopt_all(&mut self, shard: u32) -> Result<(), Refused> {
        loop {
            match self.adopt(shard) {
                Ok(_) => {}
                Err(Refused::NothingToAdopt) => return Ok(()),
                Err(refused) => return Err(refused),
            }
        }
    }
}
