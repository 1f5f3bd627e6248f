//! `threads WORK THREADS CALLS`: a slab that threads share, under so many of them. Each has 1,000
//! values of its own; WORK is `churn` (each call frees one and puts another) or `look-ups`; or each
//! has as many as it has calls, and WORK is `later`: it frees those of the next thread. It tells
//! nanoseconds a call of one thread, the least of several rounds.

use sharded_slab::Slab;
use std::process::ExitCode;
use std::sync::{Barrier, OnceLock};
use std::time::Instant;

const VALUES: usize = 1000;
const ROUNDS: usize = 7;

fn put(slab: &Slab<u128>, value: usize) -> usize {
    slab.insert(value as u128)
        .expect("its limit is far above this")
}

fn churn(slab: &Slab<u128>, keys: &mut [usize], calls: usize) {
    for call in 0..calls {
        let key = &mut keys[call % VALUES];
        assert!(slab.remove(*key));
        *key = put(slab, call);
    }
}

fn look_up(slab: &Slab<u128>, keys: &[usize], calls: usize) {
    for call in 0..calls {
        let found = slab.get(keys[call % VALUES]).map(|entry| *entry);
        assert!(std::hint::black_box(found).is_some());
    }
}

fn free_all(slab: &Slab<u128>, keys: &[usize]) {
    for key in keys {
        assert!(slab.remove(*key));
    }
}

/// Nanoseconds that the slowest thread takes to free what the next one put, a value.
fn round_of_remote_frees(threads: usize, calls: usize) -> f64 {
    let slab = Slab::new();
    let start = Barrier::new(threads);
    let all: Vec<OnceLock<Vec<usize>>> = (0..threads).map(|_| OnceLock::new()).collect();
    let work = |thread: usize| {
        let _ = all[thread].set((0..calls).map(|value| put(&slab, value)).collect());
        start.wait();
        let keys = all[(thread + 1) % threads]
            .get()
            .map_or(&[][..], Vec::as_slice);
        let begun = Instant::now();
        free_all(&slab, keys);
        let took = begun.elapsed().as_nanos() as f64 / calls as f64;
        // The threads stay until all are done: a shard of a thread that is gone may be another's.
        start.wait();
        took
    };
    std::thread::scope(|scope| {
        let work = &work;
        let all: Vec<_> = (0..threads)
            .map(|it| scope.spawn(move || work(it)))
            .collect();
        let took = all.into_iter().map(|one| one.join().unwrap_or(f64::NAN));
        took.fold(0.0, f64::max)
    })
}

/// Nanoseconds that the slowest thread takes for its calls, a call.
fn round(is_churn: bool, threads: usize, calls: usize) -> f64 {
    let slab = Slab::new();
    let start = Barrier::new(threads);
    let work = || {
        let mut keys: Vec<usize> = (0..VALUES).map(|value| put(&slab, value)).collect();
        start.wait();
        let begun = Instant::now();
        if is_churn {
            churn(&slab, &mut keys, calls);
        } else {
            look_up(&slab, &keys, calls);
        }
        begun.elapsed().as_nanos() as f64 / calls as f64
    };
    std::thread::scope(|scope| {
        let all: Vec<_> = (0..threads).map(|_| scope.spawn(work)).collect();
        let took = all.into_iter().map(|one| one.join().unwrap_or(f64::NAN));
        took.fold(0.0, f64::max)
    })
}

fn answer(words: &[String]) -> Option<f64> {
    let [work, threads, calls] = words else {
        return None;
    };
    let (threads, calls) = (threads.parse().ok()?, calls.parse().ok()?);
    let rounds = (0..ROUNDS).map(|_| match work.as_str() {
        "later" => round_of_remote_frees(threads, calls),
        _ => round(work == "churn", threads, calls),
    });
    rounds.reduce(f64::min)
}

fn main() -> ExitCode {
    let words: Vec<String> = std::env::args().skip(1).collect();
    match answer(&words) {
        Some(nanos) => {
            println!("{nanos:.1}");
            ExitCode::SUCCESS
        }
        None => {
            eprintln!("threads churn|look-ups|later THREADS CALLS");
            ExitCode::from(2)
        }
    }
}
