//! `background INTERVAL BUDGET PERCENT`: what a compaction in the background takes and gives, by
//! its policy, in milliseconds, steps and percent; an interval of 0 is for none.
//!
//! Three threads put 100,000 values of 240 bytes each into a shared store, take all but a fifth out
//! at random, and then look values up and, one time in ten, take one out and put another. It prints
//! the pages: full, and at the end; the milliseconds of a processor that the background took; and
//! in nanoseconds by the clock the 99.9th percentile and the longest of all look-ups and of all
//! puts of the last part.

use beside::random::Random;
use std::process::ExitCode;
use std::sync::{Arc, Barrier};
use std::thread;
use std::time::{Duration, Instant};
use teurlaks::{Key, Policy, SharedStore};

const THREADS: usize = 3;
const VALUES: usize = 100_000;
const CALLS: usize = 1_000_000;

type Value = [u64; 30];

/// How long the calls of a kind took, in nanoseconds.
#[derive(Default)]
struct Taken {
    look_ups: Vec<u64>,
    puts: Vec<u64>,
}

fn timed<R>(taken: &mut Vec<u64>, call: impl FnOnce() -> R) -> R {
    let start = Instant::now();
    let answer = call();
    taken.push(start.elapsed().as_nanos() as u64);
    answer
}

fn put(store: &SharedStore<Value>, number: u64) -> (Key, u64) {
    let key = store.insert([number; 30]).expect("there is memory");
    (key, number)
}

fn work(store: &SharedStore<Value>, thread: usize, full: &Barrier) -> Taken {
    let mut random = Random::new(thread as u64 + 1);
    let mut keys: Vec<_> = (0..VALUES as u64)
        .map(|number| put(store, number))
        .collect();
    full.wait();
    full.wait();
    while keys.len() > VALUES / 5 {
        let (key, number) = keys.swap_remove(random.below(keys.len()));
        assert_eq!(store.remove(key), Some([number; 30]));
    }
    let mut taken = Taken::default();
    for call in 0..CALLS as u64 {
        let at = random.below(keys.len());
        if call % 10 == 0 {
            store.free(keys[at].0);
            keys[at] = timed(&mut taken.puts, || put(store, call));
        } else {
            let (key, number) = keys[at];
            let found = timed(&mut taken.look_ups, || store.get(key));
            assert_eq!(found, Some([number; 30]));
        }
    }
    taken
}

/// How many milliseconds of a processor the thread took that compacts.
fn compacting_millis() -> u64 {
    let tasks = std::fs::read_dir("/proc/self/task").expect("the system tells its threads");
    let stats = tasks
        .flatten()
        .filter_map(|task| std::fs::read_to_string(task.path().join("stat")).ok());
    let ticks = stats
        .filter(|stat| stat.contains("(teurlaks)"))
        .map(|stat| {
            let fields = stat.rsplit(") ").next().unwrap_or_default().split(' ');
            fields
                .skip(11)
                .take(2)
                .filter_map(|field| field.parse::<u64>().ok())
                .sum::<u64>()
        });
    ticks.sum::<u64>() * 10
}

/// The 99.9th percentile and the longest.
fn told(mut taken: Vec<u64>) -> String {
    taken.sort_unstable();
    format!(
        "{} {}",
        taken[taken.len() * 999 / 1000],
        taken[taken.len() - 1]
    )
}

fn measure(policy: Option<Policy>) {
    let store = Arc::new(SharedStore::new().expect("there is memory"));
    let background = policy.map(|policy| {
        store
            .compact_in_background(policy)
            .expect("the system has a thread")
    });
    let full = Barrier::new(THREADS + 1);
    let (pages, taken) = thread::scope(|scope| {
        let workers: Vec<_> = (0..THREADS)
            .map(|thread| {
                let (store, full) = (&store, &full);
                scope.spawn(move || work(store, thread, full))
            })
            .collect();
        full.wait();
        let pages = store.pages();
        full.wait();
        let taken: Vec<Taken> = workers
            .into_iter()
            .map(|worker| worker.join().unwrap())
            .collect();
        (pages, taken)
    });
    let millis = compacting_millis();
    let left = store.pages();
    drop(background);
    let (mut look_ups, mut puts) = (Vec::new(), Vec::new());
    for mut of_thread in taken {
        look_ups.append(&mut of_thread.look_ups);
        puts.append(&mut of_thread.puts);
    }
    println!("{pages} {left} {millis} {} {}", told(look_ups), told(puts));
}

fn main() -> ExitCode {
    let words: Vec<u64> = std::env::args()
        .skip(1)
        .filter_map(|word| word.parse().ok())
        .collect();
    let [interval, budget, percent] = words[..] else {
        eprintln!("background INTERVAL BUDGET PERCENT");
        return ExitCode::from(2);
    };
    measure((interval > 0).then_some(Policy {
        interval: Duration::from_millis(interval),
        budget: budget as usize,
        least_percent: percent as usize,
    }));
    ExitCode::SUCCESS
}
