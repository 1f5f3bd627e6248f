//! Which shard a thread's next value goes to.

use std::array;
use std::cell::Cell;
use std::sync::atomic::{AtomicU8, AtomicUsize, Ordering};
use std::thread;

/// How many homes a thread has at most. Its values go to these in turn, so that those who look up
/// what it keeps hardly meet at one lock.
const TURNS: usize = 4;

/// How many threads have homes of their own. One beyond that has those of an earlier one too.
const THREADS: usize = 64;

/// The homes of all threads: of each the shard that took its last value.
pub(crate) struct Homes {
    // By the thread's number, and then by turns.
    of: Box<[AtomicU8; TURNS * THREADS]>,
    // How many shards there are, and how many from a home on to the next.
    shards: usize,
    apart: usize,
}

/// One home of the thread that asked for it.
#[derive(Clone, Copy)]
pub(crate) struct Home<'h> {
    homes: &'h Homes,
    at: &'h AtomicU8,
}

impl Homes {
    /// Homes in so many shards, 1 to 64: as far apart as they can be where as many threads as twice
    /// the processors have some of their own.
    pub fn new(shards: usize) -> Homes {
        let processors = thread::available_parallelism().map_or(1, usize::from);
        Homes::of_threads(shards, 2 * processors)
    }

    /// The same where so many threads have some of their own.
    fn of_threads(shards: usize, threads: usize) -> Homes {
        let turns = (shards / threads).clamp(1, TURNS);
        let all = shards.min(threads * turns);
        let apart = shards / all;
        let home = |thread, turn| (thread * turns + turn % turns) % all * apart;
        Homes {
            of: Box::new(array::from_fn(|at| {
                AtomicU8::new(home(at / TURNS, at % TURNS) as u8)
            })),
            shards,
            apart,
        }
    }

    /// The home of this thread whose turn it is.
    #[inline]
    pub fn next(&self) -> Home<'_> {
        thread_local! {
            // Where its last home stands: not among them at first.
            static LAST: Cell<usize> = const { Cell::new(usize::MAX) };
        }
        let last = LAST.with(|last| {
            let at = match last.get() {
                usize::MAX => first_home(),
                at => at / TURNS * TURNS + (at + 1) % TURNS,
            };
            last.set(at);
            at
        });
        let at = &self.of[last % (TURNS * THREADS)];
        Home { homes: self, at }
    }
}

/// Where the first home of a thread stands that had none yet.
#[cold]
fn first_home() -> usize {
    /// The threads that asked for a home so far.
    static THREADS_SO_FAR: AtomicUsize = AtomicUsize::new(0);
    THREADS_SO_FAR.fetch_add(1, Ordering::Relaxed) % THREADS * TURNS
}

impl Home<'_> {
    #[inline]
    pub fn shard(self) -> u8 {
        self.at.load(Ordering::Relaxed)
    }

    pub fn move_to(self, shard: u8) {
        self.at.store(shard, Ordering::Relaxed);
    }

    /// Leaves this shard, which has many pages, for the next one before the next home, or of all
    /// where there is none.
    #[cold]
    pub fn move_on(self) {
        let next = self.beside().next().or_else(|| self.all().next());
        self.move_to(next.unwrap_or(self.shard()));
    }

    /// The shards from this one up to the next home, which come before all others where this one is
    /// full, from the one after this on.
    pub fn beside(self) -> impl Iterator<Item = u8> + Clone {
        let Homes { shards, apart, .. } = *self.homes;
        let here = usize::from(self.shard());
        let first = here / apart * apart;
        // Behind the last home there may be fewer.
        let count = apart.min(shards - first);
        (1..count).map(move |more| (first + (here - first + more) % count) as u8)
    }

    /// All shards, from the next home on.
    pub fn all(self) -> impl Iterator<Item = u8> + Clone {
        let Homes { shards, apart, .. } = *self.homes;
        let first = usize::from(self.shard()) / apart * apart;
        (0..shards).map(move |more| ((first + apart + more) % shards) as u8)
    }
}

#[cfg(test)]
mod tests {
    use super::{Home, Homes};
    use std::collections::BTreeSet;
    use std::sync::atomic::{AtomicU8, Ordering};

    /// A thread at any shard comes to all others, and to none that there is not.
    #[test]
    fn each_shard_is_there() {
        for (shards, threads) in (1..=64).flat_map(|shards| [2, 6, 8].map(|it| (shards, it))) {
            let homes = Homes::of_threads(shards, threads);
            let is_there = |shard: u8| usize::from(shard) < shards;
            assert!(homes
                .of
                .iter()
                .all(|at| is_there(at.load(Ordering::Relaxed))));
            for here in 0..shards as u8 {
                let at = AtomicU8::new(here);
                let home = Home {
                    homes: &homes,
                    at: &at,
                };
                let beside: Vec<_> = home.beside().chain([here]).collect();
                assert!(beside.iter().all(|shard| is_there(*shard)));
                assert_eq!(BTreeSet::from_iter(&beside).len(), beside.len());
                let all = BTreeSet::from_iter(home.all());
                assert!(all.into_iter().eq(0..shards as u8));
                home.move_on();
                assert!(is_there(home.shard()) && (home.shard() != here || shards == 1));
            }
        }
    }
}
