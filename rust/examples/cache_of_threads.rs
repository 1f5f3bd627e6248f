//! `cache_of_threads CALLS`: a cache that four threads use, with a steward beside them who folds
//! its sparse pages. 200,000 calls a thread where no number is given.
//!
//! Each thread has a seat, keeps what it has worked out in the shard of that seat, and finds what
//! the others keep through an index of names. Who lets an entry go frees its key and leaves the
//! index as it is: a key that is stale finds nothing, and the next one who asks works the value out
//! and puts a new key in its place. By day each thread keeps up to 20,000 values, by night 1,000,
//! and then its sparse pages go to the steward.

use std::collections::HashMap;
use std::process::ExitCode;
use std::sync::atomic::{AtomicUsize, Ordering};
use std::sync::Mutex;
use std::thread;
use std::time::Duration;
use teurlaks::arena::{Arena, Seat, Totals};
use teurlaks::{Key, Limits, Refused};

const THREADS: usize = 4;
const NAMES: u64 = 100_000;
const BY_DAY: usize = 20_000;
const BY_NIGHT: usize = 1_000;

/// What is worked out of a name.
type Value = [u64; 8];

fn worked_out(name: u64) -> Value {
    std::array::from_fn(|place| name.wrapping_mul(place as u64 + 1))
}

/// Under which key a name's value was last kept, in parts with a lock each, so that threads hardly
/// meet.
struct Index(Vec<Mutex<HashMap<u64, Key>>>);

impl Index {
    fn part(&self, name: u64) -> &Mutex<HashMap<u64, Key>> {
        &self.0[name as usize % self.0.len()]
    }

    fn key(&self, name: u64) -> Option<Key> {
        self.part(name)
            .lock()
            .expect("nobody panics")
            .get(&name)
            .copied()
    }

    fn put(&self, name: u64, key: Key) {
        self.part(name)
            .lock()
            .expect("nobody panics")
            .insert(name, key);
    }
}

/// One thread of the cache.
struct Cache<'c> {
    seat: Seat<Value>,
    index: &'c Index,
    own: Vec<Key>,
    found: usize,
    // Marsaglia's xorshift.
    random: u64,
}

impl Cache<'_> {
    fn below(&mut self, bound: u64) -> u64 {
        self.random ^= self.random << 13;
        self.random ^= self.random >> 7;
        self.random ^= self.random << 17;
        (self.random >> 11) % bound
    }

    /// The value of the name, from whoever keeps it, or worked out anew.
    fn get(&mut self, name: u64) -> Result<Value, Refused> {
        if let Some(value) = self.index.key(name).and_then(|key| self.seat.get(key)) {
            self.found += 1;
            return Ok(value);
        }
        let value = worked_out(name);
        let key = self.seat.insert(value)?;
        self.index.put(name, key);
        self.own.push(key);
        self.keep(BY_DAY);
        Ok(value)
    }

    /// Lets go of what it has above so many, at random.
    fn keep(&mut self, most: usize) {
        while self.own.len() > most {
            let any = self.below(self.own.len() as u64) as usize;
            let key = self.own.swap_remove(any);
            assert!(self.seat.free(key), "nobody else frees it");
        }
    }

    fn work(&mut self, calls: usize) -> Result<(), Refused> {
        for _ in 0..calls {
            let name = self.below(NAMES);
            assert_eq!(self.get(name)?, worked_out(name));
        }
        self.keep(BY_NIGHT);
        self.seat.trim();
        // Half of what is left goes to the pool. A plan that is open keeps the groups that it folds
        // onto.
        while self.seat.retire(BY_NIGHT / 2) == Err(Refused::PlanOpen) {
            thread::yield_now();
        }
        Ok(())
    }
}

fn run(calls: usize) -> Result<(), Refused> {
    let mut arena = Arena::open(Limits {
        shards: THREADS as u32,
        ..Limits::default()
    })?;
    let index = Index((0..64).map(|_| Mutex::default()).collect());
    let seats: Vec<_> = (0..THREADS)
        .map(|_| arena.seat())
        .collect::<Result<_, _>>()?;
    let working = AtomicUsize::new(THREADS);
    let (mut folds, mut most) = (0, Totals { pages: 0, live: 0 });
    let found = thread::scope(|scope| {
        let (index, working) = (&index, &working);
        let start = |(here, seat)| {
            scope.spawn(move || {
                let random = here as u64 + 88_172_645_463_325_252;
                let (own, found) = (Vec::new(), 0);
                let mut cache = Cache {
                    seat,
                    index,
                    own,
                    found,
                    random,
                };
                let done = cache.work(calls);
                working.fetch_sub(1, Ordering::Relaxed);
                done.map(|()| cache.found)
            })
        };
        let threads: Vec<_> = seats.into_iter().enumerate().map(start).collect();
        // The steward looks in now and then.
        while working.load(Ordering::Relaxed) > 0 {
            folds += arena.mesh()?;
            let now = arena.totals();
            if now.live > most.live {
                most = now;
            }
            thread::sleep(Duration::from_millis(2));
        }
        threads
            .into_iter()
            .map(|thread| thread.join().expect("it does not panic"))
            .sum::<Result<usize, Refused>>()
    })?;
    folds += arena.mesh()?;
    let Totals { pages, live } = arena.totals();
    println!("{} of {} calls found their value", found, THREADS * calls);
    println!(
        "at most {} values on {} pages; {live} on {pages} after {folds} folds",
        most.live, most.pages
    );
    Ok(())
}

fn main() -> ExitCode {
    let calls = std::env::args()
        .nth(1)
        .map_or(Ok(200_000), |word| word.parse());
    match calls.map(run) {
        Ok(Ok(())) => ExitCode::SUCCESS,
        Ok(Err(refused)) => {
            eprintln!("refused: {refused}");
            ExitCode::FAILURE
        }
        Err(_) => {
            eprintln!("cache_of_threads CALLS");
            ExitCode::FAILURE
        }
    }
}
