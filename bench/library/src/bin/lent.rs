//! `lent WHO WORK THREADS CALLS`: values of 104 bytes with a `Drop` that so many threads share by
//! reference, in a process of its own. WHO is `shared-slab` (`teurlaks::SharedSlab`) or
//! `sharded-slab`. Each thread has 1,000 values of its own, and WORK is `churn` (each call removes
//! one and puts another), `own` (each looks one up) or `other` (each looks up one of another
//! thread's, of all others in turn). It tells nanoseconds a call of the slowest thread, by the
//! clock, the least of 10 rounds in which all threads began at once.

use beside::random::Random;
use std::env;
use std::hint::black_box;
use std::process::ExitCode;
use std::sync::Barrier;
use std::thread;
use std::time::Instant;

const VALUES: usize = 1000;
const ROUNDS: usize = 10;

/// A value whose drop is seen.
struct Wide {
    number: u64,
    words: [u64; 12],
}

impl Wide {
    fn new(number: u64) -> Wide {
        Wide {
            number,
            words: [number; 12],
        }
    }
}

impl Drop for Wide {
    fn drop(&mut self) {
        black_box(self.words[11] ^ self.number);
    }
}

/// What threads share.
trait Store: Sync {
    type Key: Copy + Send + Sync;
    fn put(&self, value: Wide) -> Self::Key;
    fn remove(&self, key: Self::Key) -> bool;
    fn number(&self, key: Self::Key) -> Option<u64>;
}

impl Store for teurlaks::SharedSlab<Wide> {
    type Key = teurlaks::Key;
    fn put(&self, value: Wide) -> Self::Key {
        self.insert(value).expect("there is memory")
    }
    fn remove(&self, key: Self::Key) -> bool {
        teurlaks::SharedSlab::remove(self, key)
    }
    fn number(&self, key: Self::Key) -> Option<u64> {
        self.get(key).map(|value| value.number)
    }
}

impl Store for sharded_slab::Slab<Wide> {
    type Key = usize;
    fn put(&self, value: Wide) -> usize {
        self.insert(value).expect("there is memory")
    }
    fn remove(&self, key: usize) -> bool {
        sharded_slab::Slab::remove(self, key)
    }
    fn number(&self, key: usize) -> Option<u64> {
        self.get(key).map(|value| value.number)
    }
}

#[derive(Clone, Copy)]
enum Work {
    Churn,
    Own,
    Other,
}

/// The calls of one thread in one round, in nanoseconds each.
fn calls<S: Store>(
    store: &S,
    work: Work,
    all: &[Vec<S::Key>],
    own: &mut [S::Key],
    thread: usize,
    count: usize,
) -> f64 {
    let mut random = Random::new(thread as u64 + 1);
    let began = Instant::now();
    for call in 0..count {
        let place = random.below(VALUES);
        match work {
            Work::Churn => {
                assert!(store.remove(own[place]));
                own[place] = store.put(Wide::new(place as u64));
            }
            Work::Own => assert_eq!(store.number(own[place]), Some(place as u64)),
            Work::Other => {
                let other = (thread + 1 + call % (all.len() - 1)) % all.len();
                assert_eq!(store.number(all[other][place]), Some(place as u64));
            }
        }
    }
    began.elapsed().as_nanos() as f64 / count as f64
}

/// The least over rounds of what the slowest thread takes.
fn measure<S: Store>(store: &S, work: Work, threads: usize, count: usize) -> f64 {
    // Each thread's, by itself: a thread keeps its values where it is.
    let put_all = |_| -> Vec<S::Key> {
        (0..VALUES)
            .map(|number| store.put(Wide::new(number as u64)))
            .collect()
    };
    let begin = Barrier::new(threads);
    let (begin, store) = (&begin, &store);
    thread::scope(|scope| {
        let all: Vec<Vec<S::Key>> = thread::scope(|putters| {
            let putting: Vec<_> = (0..threads)
                .map(|thread| putters.spawn(move || put_all(thread)))
                .collect();
            putting
                .into_iter()
                .map(|keys| keys.join().expect("it puts"))
                .collect()
        });
        let all = std::sync::Arc::new(all);
        let working: Vec<_> = (0..threads)
            .map(|thread| {
                let all = std::sync::Arc::clone(&all);
                scope.spawn(move || {
                    let mut own: Vec<S::Key> = match work {
                        Work::Churn => (0..VALUES)
                            .map(|number| store.put(Wide::new(number as u64)))
                            .collect(),
                        _ => all[thread].clone(),
                    };
                    (0..ROUNDS)
                        .map(|_| {
                            begin.wait();
                            calls(*store, work, &all, &mut own, thread, count)
                        })
                        .collect::<Vec<f64>>()
                })
            })
            .collect();
        let times: Vec<Vec<f64>> = working
            .into_iter()
            .map(|times| times.join().expect("it works"))
            .collect();
        (0..ROUNDS)
            .map(|round| {
                times
                    .iter()
                    .map(|of_thread| of_thread[round])
                    .fold(0.0, f64::max)
            })
            .fold(f64::INFINITY, f64::min)
    })
}

fn main() -> ExitCode {
    let words: Vec<String> = env::args().skip(1).collect();
    let [who, work, threads, count] = &words[..] else {
        eprintln!("lent shared-slab|sharded-slab churn|own|other THREADS CALLS");
        return ExitCode::FAILURE;
    };
    let work = match work.as_str() {
        "churn" => Work::Churn,
        "own" => Work::Own,
        _ => Work::Other,
    };
    let (threads, count) = (threads.parse().unwrap_or(1), count.parse().unwrap_or(1000));
    let nanoseconds = match who.as_str() {
        "shared-slab" => measure(
            &teurlaks::SharedSlab::<Wide>::default(),
            work,
            threads,
            count,
        ),
        _ => measure(&sharded_slab::Slab::<Wide>::new(), work, threads, count),
    };
    println!("{nanoseconds:.1}");
    ExitCode::SUCCESS
}
