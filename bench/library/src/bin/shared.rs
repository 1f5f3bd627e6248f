//! `shared WHO WORK THREADS CALLS`: a store that so many threads share, in a process of its own.
//! WHO is `shared` (`teurlaks::SharedStore`), `arena` (a seat of a `teurlaks::Arena` for each
//! thread), `arena-N` (the same, where each seat has N shards), `session` (a seat of one shard,
//! with the calls of a round in one session of each), `mutex` (a `teurlaks::Store` behind one
//! mutex) or `sharded-slab`. Each thread has 1,000 words of 128 bits of its own, and WORK is
//! `churn` (each call frees one and puts another), `own` (each reads one) or `other` (each reads
//! one of another thread's, of all others in turn); or each has as many as it has calls, and WORK
//! is `later`: it frees those of the next thread, by `free_later` at a seat, which tends after each
//! 64 calls, and then goes on to tend until all threads have called and what they left to it is
//! freed. It tells nanoseconds a call of the slowest thread, by the clock, the least of 10 rounds
//! in which all threads began at once.

use beside::random::Random;
use std::hint;
use std::process::ExitCode;
use std::sync::atomic::{AtomicUsize, Ordering};
use std::sync::{Mutex, OnceLock};
use std::thread;
use std::time::{Duration, Instant};

const VALUES: usize = 1000;
const ROUNDS: usize = 10;
const MOST_TRIES: usize = 3000;

/// What threads share.
trait Store: Sync {
    type Key: Copy + Send + Sync;
    type Place<'s>: Place<Key = Self::Key>
    where
        Self: 's;
    /// What a thread calls.
    fn place(&self) -> Self::Place<'_>;
}

/// What one thread has of a store.
trait Place {
    type Key: Copy;
    /// The calls of one thread of a round.
    fn calls(&mut self, work: Work, thread: usize, count: usize, round: &Round<Self::Key>)
    where
        Self: Sized,
    {
        calls(self, work, thread, count, round);
    }
    fn put(&mut self, value: u128) -> Self::Key;
    fn get(&self, key: Self::Key) -> Option<u128>;
    fn free(&mut self, key: Self::Key) -> bool;
    /// Frees another thread's, now or once that thread rests.
    fn free_later(&mut self, key: Self::Key) {
        assert!(self.free(key));
    }
    fn rest(&mut self) {}
    /// Rests until all threads have made their calls and nothing is left for this one.
    fn settle(&mut self, _calling: &Countdown) {}
}

impl Store for teurlaks::SharedStore<u128> {
    type Key = teurlaks::Key;
    type Place<'s> = &'s Self;
    fn place(&self) -> &Self {
        self
    }
}

impl Place for &teurlaks::SharedStore<u128> {
    type Key = teurlaks::Key;
    fn put(&mut self, value: u128) -> Self::Key {
        self.insert(value).expect("it fits the shards")
    }
    fn get(&self, key: Self::Key) -> Option<u128> {
        teurlaks::SharedStore::get(self, key)
    }
    fn free(&mut self, key: Self::Key) -> bool {
        teurlaks::SharedStore::free(self, key)
    }
}

struct Seats(Mutex<teurlaks::Arena<u128>>);
impl Seats {
    fn new(seats: usize, lanes: u32) -> Option<Seats> {
        let limits = teurlaks::Limits {
            shards: u32::try_from(seats).ok()?,
            ..teurlaks::Limits::default()
        };
        Some(Seats(Mutex::new(
            teurlaks::Arena::with_lanes(limits, 256, lanes).ok()?,
        )))
    }
}
impl Store for Seats {
    type Key = teurlaks::Key;
    type Place<'s> = teurlaks::arena::Seat<u128>;
    fn place(&self) -> Self::Place<'_> {
        self.0
            .lock()
            .unwrap()
            .seat()
            .expect("there is one for each thread")
    }
}

impl Place for teurlaks::arena::Seat<u128> {
    type Key = teurlaks::Key;
    fn put(&mut self, value: u128) -> Self::Key {
        self.insert(value).expect("it fits the shard")
    }
    fn get(&self, key: Self::Key) -> Option<u128> {
        teurlaks::arena::Seat::get(self, key)
    }
    fn free(&mut self, key: Self::Key) -> bool {
        teurlaks::arena::Seat::free(self, key)
    }
    fn free_later(&mut self, key: Self::Key) {
        if teurlaks::arena::Seat::free_later(self, key).is_err() {
            assert!(self.free(key));
        }
    }
    fn rest(&mut self) {
        self.tend().expect("it takes no memory");
    }
    fn settle(&mut self, calling: &Countdown) {
        settle(self, calling);
    }
}

/// Hands over, says so, and rests until all have, and once more for what came last.
fn settle<P: Place>(place: &mut P, calling: &Countdown) {
    place.rest();
    calling.is_done();
    while !calling.are_all_done() {
        place.rest();
        hint::spin_loop();
    }
    place.rest();
}

struct Sessions(Seats);
impl Store for Sessions {
    type Key = teurlaks::Key;
    type Place<'s> = InSession;
    fn place(&self) -> InSession {
        InSession(self.0.place())
    }
}

struct InSession(teurlaks::arena::Seat<u128>);
impl Place for InSession {
    type Key = teurlaks::Key;
    fn calls(&mut self, work: Work, thread: usize, count: usize, round: &Round<Self::Key>) {
        calls(&mut self.0.session(), work, thread, count, round);
    }
    fn put(&mut self, value: u128) -> Self::Key {
        self.0.put(value)
    }
    fn get(&self, key: Self::Key) -> Option<u128> {
        self.0.get(key)
    }
    fn free(&mut self, key: Self::Key) -> bool {
        self.0.free(key)
    }
}

impl Place for teurlaks::arena::Session<'_, u128> {
    type Key = teurlaks::Key;
    fn put(&mut self, value: u128) -> Self::Key {
        self.insert(value).expect("it fits the shard")
    }
    fn get(&self, key: Self::Key) -> Option<u128> {
        teurlaks::arena::Session::get(self, key)
    }
    fn free(&mut self, key: Self::Key) -> bool {
        teurlaks::arena::Session::free(self, key)
    }
    fn free_later(&mut self, key: Self::Key) {
        if teurlaks::arena::Session::free_later(self, key).is_err() {
            assert!(self.free(key));
        }
    }
    fn rest(&mut self) {
        self.tend().expect("it takes no memory");
    }
    fn settle(&mut self, calling: &Countdown) {
        settle(self, calling);
    }
}

struct Locked(Mutex<teurlaks::Store<u128>>);
impl Store for Locked {
    type Key = teurlaks::Key;
    type Place<'s> = &'s Self;
    fn place(&self) -> &Self {
        self
    }
}

impl Place for &Locked {
    type Key = teurlaks::Key;
    fn put(&mut self, value: u128) -> Self::Key {
        self.0
            .lock()
            .unwrap()
            .insert(value)
            .expect("it fits the shards")
    }
    fn get(&self, key: Self::Key) -> Option<u128> {
        self.0.lock().unwrap().get(key)
    }
    fn free(&mut self, key: Self::Key) -> bool {
        self.0.lock().unwrap().free(key)
    }
}

impl Store for sharded_slab::Slab<u128> {
    type Key = usize;
    type Place<'s> = &'s Self;
    fn place(&self) -> &Self {
        self
    }
}

impl Place for &sharded_slab::Slab<u128> {
    type Key = usize;
    fn put(&mut self, value: u128) -> usize {
        self.insert(value).expect("its limit is far above this")
    }
    fn get(&self, key: usize) -> Option<u128> {
        sharded_slab::Slab::get(self, key).map(|entry| *entry)
    }
    fn free(&mut self, key: usize) -> bool {
        self.remove(key)
    }
}

#[derive(Clone, Copy, PartialEq)]
enum Work {
    Churn,
    Own,
    Other,
    Later,
}

/// What the threads of a round know of each other.
struct Round<K> {
    /// The keys of each thread's own values.
    keys: Vec<OnceLock<Vec<K>>>,
    calling: Countdown,
}

/// How many threads of a round still make calls.
struct Countdown(AtomicUsize);

impl Countdown {
    fn is_done(&self) {
        self.0.fetch_sub(1, Ordering::AcqRel);
    }
    fn are_all_done(&self) -> bool {
        self.0.load(Ordering::Acquire) == 0
    }
}

/// What the threads of a round wait for: that all have come. Nobody sleeps, and hardly anybody lets
/// another program run, so that all begin at once.
struct Gate {
    come: AtomicUsize,
    threads: usize,
}

impl Gate {
    fn wait(&self) {
        let come = self.come.fetch_add(1, Ordering::AcqRel) + 1;
        let all = come.div_ceil(self.threads) * self.threads;
        for spins in 1_u32.. {
            if self.come.load(Ordering::Acquire) >= all {
                return;
            }
            if spins % 10_000 == 0 {
                thread::yield_now();
            }
            hint::spin_loop();
        }
    }
}

/// The calls of one thread of a round.
fn calls<P: Place>(place: &mut P, work: Work, thread: usize, calls: usize, round: &Round<P::Key>) {
    let threads = round.keys.len();
    let others = threads - 1;
    let mut random = Random::new(thread as u64 + 1);
    let of = |thread: usize| {
        round.keys[thread % threads]
            .get()
            .map_or(&[][..], Vec::as_slice)
    };
    match work {
        Work::Churn => {
            let mut own = of(thread).to_vec();
            for call in 0..calls {
                let key = &mut own[random.below(VALUES)];
                assert!(place.free(*key));
                *key = place.put(call as u128);
            }
        }
        Work::Own => {
            let own = of(thread);
            for _ in 0..calls {
                assert!(hint::black_box(place.get(own[random.below(VALUES)])).is_some());
            }
        }
        Work::Other => {
            for call in 0..calls {
                let key = of(thread + 1 + call % others)[random.below(VALUES)];
                assert!(hint::black_box(place.get(key)).is_some());
            }
        }
        Work::Later => {
            for keys in of(thread + 1).chunks(64) {
                keys.iter().for_each(|key| place.free_later(*key));
                place.rest();
            }
            place.settle(&round.calling);
        }
    }
}

/// Nanoseconds a call that the slowest thread takes, where all began at about the same time: on a
/// machine that others use a thread may wait for a processor at first, and nobody is beside the
/// others then.
fn round<S: Store>(store: S, work: Work, threads: usize, count: usize) -> Option<f64> {
    let gate = Gate {
        come: AtomicUsize::new(0),
        threads,
    };
    let round = Round {
        keys: (0..threads).map(|_| OnceLock::new()).collect(),
        calling: Countdown(AtomicUsize::new(threads)),
    };
    let values = if work == Work::Later { count } else { VALUES };
    let one = |thread: usize| {
        let mut place = store.place();
        let _ = round.keys[thread].set((0..values).map(|value| place.put(value as u128)).collect());
        gate.wait();
        let begun = Instant::now();
        place.calls(work, thread, count, &round);
        let took = begun.elapsed();
        // The threads stay until all are done: a shard of a thread that is gone may be another's.
        gate.wait();
        (begun, took)
    };
    let all: Option<Vec<(Instant, Duration)>> = thread::scope(|scope| {
        let one = &one;
        let all: Vec<_> = (0..threads)
            .map(|thread| scope.spawn(move || one(thread)))
            .collect();
        all.into_iter().map(|one| one.join().ok()).collect()
    });
    let all = all?;
    let begun = || all.iter().map(|(begun, _)| *begun);
    let apart = begun().max()? - begun().min()?;
    let took = all.iter().map(|(_, took)| *took).max()?;
    (apart * 10 < took).then(|| took.as_nanos() as f64 / count as f64)
}

fn of(who: &str, work: Work, threads: usize, calls: usize) -> Option<f64> {
    let rounds = (0..MOST_TRIES).filter_map(|_| match who {
        "shared" => round(teurlaks::SharedStore::new().ok()?, work, threads, calls),
        "arena" => round(Seats::new(threads, 1)?, work, threads, calls),
        "session" => round(Sessions(Seats::new(threads, 1)?), work, threads, calls),
        "mutex" => round(
            Locked(Mutex::new(teurlaks::Store::new().ok()?)),
            work,
            threads,
            calls,
        ),
        "sharded-slab" => round(sharded_slab::Slab::new(), work, threads, calls),
        _ => {
            let lanes = who.strip_prefix("arena-")?.parse().ok()?;
            round(Seats::new(threads, lanes)?, work, threads, calls)
        }
    });
    rounds.take(ROUNDS).reduce(f64::min)
}

fn asked(words: &[String]) -> Option<f64> {
    let [who, work, threads, calls] = words else {
        return None;
    };
    let (threads, calls) = (threads.parse().ok()?, calls.parse().ok()?);
    let work = match work.as_str() {
        "churn" => Work::Churn,
        "own" => Work::Own,
        "other" if threads > 1 => Work::Other,
        "later" if threads > 1 => Work::Later,
        _ => return None,
    };
    of(who, work, threads, calls)
}

fn main() -> ExitCode {
    let words: Vec<String> = std::env::args().skip(1).collect();
    match asked(&words) {
        Some(nanos) => {
            println!("{nanos:.1}");
            ExitCode::SUCCESS
        }
        None => {
            eprintln!("shared shared|arena|arena-N|session|mutex|sharded-slab churn|own|other|later THREADS CALLS, with 2 threads or more for other and later");
            ExitCode::from(2)
        }
    }
}
