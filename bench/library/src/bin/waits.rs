//! `waits shared|mutex`: how long a look-up waits beside a compaction. A store that threads share,
//! or a store of four shards behind one mutex, has 64,000 values of 240 bytes on 4,000 pages, of
//! which one in ten stays at random. One thread compacts, and one looks up what stays. It tells the
//! medians of 15 rounds: milliseconds of the compaction, and of the longest look-up.

use beside::random::Random;
use std::process::ExitCode;
use std::sync::atomic::{AtomicBool, AtomicU32, Ordering};
use std::sync::Mutex;
use std::thread;
use std::time::{Duration, Instant};
use teurlaks::{Key, Limits, SharedStore, Store};

const VALUES: usize = 64_000;
const SHARDS: u32 = 4;
const ROUNDS: usize = 15;

type Value = [u64; 30];

trait Shared: Sync {
    fn put(&self, value: Value) -> Key;
    fn get(&self, key: Key) -> Option<Value>;
    fn free(&self, key: Key) -> bool;
    /// How many pages went.
    fn compact(&self) -> usize;
}

impl Shared for SharedStore<Value> {
    fn put(&self, value: Value) -> Key {
        self.insert(value).expect("it fits the shards")
    }
    fn get(&self, key: Key) -> Option<Value> {
        self.get(key)
    }
    fn free(&self, key: Key) -> bool {
        self.free(key)
    }
    fn compact(&self) -> usize {
        self.compact().expect("there is memory")
    }
}

struct Locked {
    store: Mutex<Store<Value>>,
    // Values go to the shards in turn.
    turn: AtomicU32,
}

impl Shared for Locked {
    fn put(&self, value: Value) -> Key {
        let shard = self.turn.fetch_add(1, Ordering::Relaxed) % SHARDS;
        let put = self.store.lock().unwrap().insert_in(shard, value);
        put.expect("it fits the shards")
    }
    fn get(&self, key: Key) -> Option<Value> {
        self.store.lock().unwrap().get(key)
    }
    fn free(&self, key: Key) -> bool {
        self.store.lock().unwrap().free(key)
    }
    fn compact(&self) -> usize {
        self.store
            .lock()
            .unwrap()
            .compact()
            .expect("there is memory")
    }
}

/// One in ten of the values, at random, under their keys.
fn thinned(store: &dyn Shared) -> Vec<Key> {
    let mut random = Random::new(7);
    let all: Vec<Key> = (0..VALUES).map(|at| store.put([at as u64; 30])).collect();
    let (stay, go): (Vec<Key>, Vec<Key>) = all.into_iter().partition(|_| random.one_in(10));
    assert!(go.iter().all(|key| store.free(*key)));
    stay
}

/// The compaction, and the longest look-up beside it.
fn round(store: &dyn Shared) -> (Duration, Duration) {
    let stay = thinned(store);
    let compacting = AtomicBool::new(true);
    thread::scope(|scope| {
        let (stay, compacting) = (&stay, &compacting);
        let looks_up = scope.spawn(move || {
            let mut longest = Duration::ZERO;
            for key in stay
                .iter()
                .cycle()
                .take_while(|_| compacting.load(Ordering::Relaxed))
            {
                let begun = Instant::now();
                assert!(store.get(*key).is_some());
                longest = longest.max(begun.elapsed());
            }
            longest
        });
        // It has begun by then.
        thread::sleep(Duration::from_millis(2));
        let begun = Instant::now();
        assert!(store.compact() > VALUES / 32);
        let took = begun.elapsed();
        compacting.store(false, Ordering::Relaxed);
        (took, looks_up.join().expect("it does not panic"))
    })
}

fn of(who: &str) -> Option<Box<dyn Shared>> {
    let limits = Limits {
        shards: SHARDS,
        ..Limits::default()
    };
    match who {
        "shared" => Some(Box::new(SharedStore::new().ok()?)),
        "mutex" => Some(Box::new(Locked {
            store: Mutex::new(Store::with_limits(limits).ok()?),
            turn: AtomicU32::new(0),
        })),
        _ => None,
    }
}

fn median(mut times: Vec<Duration>) -> f64 {
    times.sort_unstable();
    1000.0 * times[times.len() / 2].as_secs_f64()
}

fn main() -> ExitCode {
    let who = std::env::args().nth(1).unwrap_or_default();
    let rounds: Option<Vec<_>> = (0..ROUNDS)
        .map(|_| of(&who).map(|store| round(&*store)))
        .collect();
    let Some(rounds) = rounds else {
        eprintln!("waits shared|mutex");
        return ExitCode::from(2);
    };
    let (took, longest) = rounds.into_iter().unzip();
    println!("{:.1} {:.1}", median(took), median(longest));
    ExitCode::SUCCESS
}
