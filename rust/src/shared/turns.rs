//! Compactions by a budget, which go from shard to shard.

use crate::compact::Compacted;
use crate::refused::Refused;
use std::sync::{Mutex, MutexGuard, PoisonError};

/// Where a compaction by a budget is. Whoever compacts by one has it locked.
#[derive(Default)]
pub(crate) struct Turns(Mutex<Turn>);

/// Whose turn it is.
#[derive(Default)]
struct Turn {
    shard: usize,
    // The pages that went in calls that were refused.
    pages: usize,
}

impl Turns {
    /// Takes at most so many steps, at least one, of one of so many shards after the other. The
    /// closure takes steps of a shard, and takes them off what is left.
    pub fn compact_within(
        &self,
        shards: usize,
        budget: usize,
        mut compact: impl FnMut(usize, &mut usize) -> Result<Compacted, Refused>,
    ) -> Result<Compacted, Refused> {
        let mut turn = self.lock();
        let (mut left, mut more) = (budget.max(1), true);
        while left > 0 && more {
            let done = compact(turn.shard, &mut left)?;
            turn.pages += done.pages;
            if !done.more {
                turn.shard = (turn.shard + 1) % shards;
                more = turn.shard > 0;
            }
        }
        let pages = std::mem::take(&mut turn.pages);
        Ok(Compacted { pages, more })
    }

    /// Begins anew next time, once the closure has ended the compaction of the shard whose turn it
    /// is.
    pub fn give_up(&self, give_up: impl FnOnce(usize)) {
        let mut turn = self.lock();
        give_up(turn.shard);
        *turn = Turn::default();
    }

    fn lock(&self) -> MutexGuard<'_, Turn> {
        self.0.lock().unwrap_or_else(PoisonError::into_inner)
    }
}

#[cfg(test)]
mod tests {
    use super::Turns;
    use crate::compact::Compacted;
    use crate::refused::Refused;

    /// Each call takes one step of each shard, which gives a page back, until the steps are spent.
    fn parts(turns: &Turns, budget: usize) -> (Vec<usize>, Compacted) {
        let mut shards = Vec::new();
        let done = turns.compact_within(3, budget, |shard, left| {
            *left -= 1;
            shards.push(shard);
            let done = Compacted {
                pages: 1,
                more: false,
            };
            Ok(done)
        });
        (shards, done.unwrap())
    }

    #[test]
    fn each_shard_has_its_turn() {
        let turns = Turns::default();
        let part = |pages, more| Compacted { pages, more };
        assert_eq!(parts(&turns, 2), (vec![0, 1], part(2, true)));
        assert_eq!(parts(&turns, 0), (vec![2], part(1, false)));
        assert_eq!(parts(&turns, 9), (vec![0, 1, 2], part(3, false)));
    }

    /// What went before a refusal is counted by the next call, unless the compaction is given up.
    #[test]
    fn begins_anew_once_given_up() {
        let turns = Turns::default();
        let refuse_last = || {
            turns.compact_within(3, 9, |shard, _| match shard {
                2 => Err(Refused::OutOfMemory),
                _ => Ok(Compacted {
                    pages: 1,
                    more: false,
                }),
            })
        };
        assert_eq!(refuse_last(), Err(Refused::OutOfMemory));
        assert_eq!(parts(&turns, 9).1.pages, 3);
        assert_eq!(refuse_last(), Err(Refused::OutOfMemory));
        let mut given_up = Vec::new();
        turns.give_up(|shard| given_up.push(shard));
        assert_eq!((given_up, parts(&turns, 1).0), (vec![2], vec![0]));
        assert_eq!(parts(&turns, 9).1.pages, 2);
    }
}
