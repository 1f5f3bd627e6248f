//! Mixes of puts, gets and frees: the same calls, in the same order, for every store and for the
//! traces.

use crate::random::Random;

/// What keeps values under keys.
pub trait Store {
    type Key: Copy;
    fn put(&mut self, value: u128) -> Self::Key;
    fn get(&mut self, key: Self::Key) -> Option<u128>;
    fn free(&mut self, key: Self::Key) -> bool;

    /// Puts so many at once.
    fn fill(&mut self, count: usize) -> Vec<Self::Key> {
        (0..count).map(|i| self.put(i as u128)).collect()
    }

    /// Frees what one `fill` has put, in order.
    fn sweep(&mut self, keys: &[Self::Key]) -> usize {
        keys.iter().filter(|key| self.free(**key)).count()
    }
}

#[derive(Clone, Copy, Debug, PartialEq, Eq)]
pub enum Kind {
    /// A value at random is freed, and another one put.
    Churn,
    /// A value at random is read.
    LookUps,
    /// All are put, and all are freed in order, again and again.
    Bursts,
}

/// A mix over so many live values.
#[derive(Clone, Copy, Debug)]
pub struct Mix {
    pub name: &'static str,
    pub kind: Kind,
    pub places: usize,
    pub calls: usize,
}

pub const MIXES: [Mix; 5] = [
    Mix {
        name: "churn-1k",
        kind: Kind::Churn,
        places: 1024,
        calls: 400_000,
    },
    Mix {
        name: "churn-256k",
        kind: Kind::Churn,
        places: 262_144,
        calls: 400_000,
    },
    Mix {
        name: "look-ups-1k",
        kind: Kind::LookUps,
        places: 1024,
        calls: 400_000,
    },
    Mix {
        name: "look-ups-256k",
        kind: Kind::LookUps,
        places: 262_144,
        calls: 400_000,
    },
    Mix {
        name: "bursts",
        kind: Kind::Bursts,
        places: 16_384,
        calls: 16 * 2 * 16_384,
    },
];

impl Mix {
    /// What stands before the calls that are counted. Bursts begin with nothing.
    pub fn prepare<S: Store>(&self, store: &mut S) -> Vec<S::Key> {
        match self.kind {
            Kind::Bursts => Vec::new(),
            _ => store.fill(self.places),
        }
    }

    /// Makes the calls. The answer depends on all of them, so that none is left out by a compiler.
    pub fn run<S: Store>(&self, store: &mut S, mut keys: Vec<S::Key>) -> u64 {
        let mut random = Random::new(7);
        let mut sum = 0;
        match self.kind {
            Kind::Churn => {
                for i in 0..self.calls / 2 {
                    let at = random.below(keys.len());
                    sum += u64::from(store.free(keys[at]));
                    keys[at] = store.put(i as u128);
                }
            }
            Kind::LookUps => {
                for _ in 0..self.calls {
                    let at = random.below(keys.len());
                    sum += store.get(keys[at]).unwrap_or(0) as u64;
                }
            }
            Kind::Bursts => {
                for _ in 0..self.calls / self.places / 2 {
                    let keys = store.fill(self.places);
                    sum += store.sweep(&keys) as u64;
                }
            }
        }
        sum
    }
}
