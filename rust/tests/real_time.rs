//! A real-time thread that asks for what a seat keeps, while that seat's thread waits for the same
//! processor, mostly within a call. Only a taker that sleeps lets the owner run there.
#![cfg(all(target_os = "linux", target_arch = "x86_64"))]

use std::sync::atomic::{AtomicBool, Ordering};
use std::thread;
use std::time::{Duration, Instant};
use teurlaks::arena::{Arena, Seat};
use teurlaks::{Key, Limits, Refused};

/// How often it asks.
const ROUNDS: usize = 20;

/// For how long it may have the processor in a call, but for some times. A thread that never sleeps
/// has it for nearly a second, until the system lets others run. How long a call takes by the clock
/// says less: other programs may have the processor meanwhile.
const LONGEST: Duration = Duration::from_millis(300);
const BUT_FOR: usize = 3;

extern "C" {
    fn clock_gettime(clock: i32, time: *mut [i64; 2]) -> i32;
    fn sched_getcpu() -> i32;
    fn sched_setaffinity(process: i32, bytes: usize, processors: *const u64) -> i32;
    fn sched_setscheduler(process: i32, policy: i32, priority: *const i32) -> i32;
}

/// Has this thread run on that processor alone, and says whether the system does so.
fn stay_on(processor: u32) -> bool {
    let processors = [1_u64.checked_shl(processor).unwrap_or(0)];
    // SAFETY: so many bytes stand there.
    unsafe { sched_setaffinity(0, 8, processors.as_ptr()) == 0 }
}

/// Makes this thread a real-time one, and says whether the system does so.
fn go_before_others() -> bool {
    const FIRST_IN_FIRST_OUT: i32 = 1;
    let priority = 1;
    // SAFETY: a priority stands there.
    unsafe { sched_setscheduler(0, FIRST_IN_FIRST_OUT, &priority) == 0 }
}

/// For how long this thread has had a processor so far.
fn processor_time() -> Duration {
    const OF_THIS_THREAD: i32 = 3;
    let mut time = [0, 0];
    // SAFETY: seconds and nanoseconds stand there.
    assert_eq!(unsafe { clock_gettime(OF_THIS_THREAD, &mut time) }, 0);
    let [seconds, nanoseconds] = time.map(|it| u64::try_from(it).expect("it began at 0"));
    Duration::from_secs(seconds) + Duration::from_nanos(nanoseconds)
}

/// Makes calls on its own shard, and says whether it keeps that, until it is told to stop.
fn own(seat: &Seat<u64>, keys: &[Key], is_kept: &AtomicBool, done: &AtomicBool) {
    while !done.load(Ordering::Relaxed) {
        for key in keys {
            assert!(seat.contains(*key));
        }
        is_kept.store(seat.keeps_its_shard(), Ordering::Relaxed);
    }
}

/// Asks for what the other seat keeps, again and again once it keeps that, and says for how long it
/// had the processor in each call.
fn ask(seat: &Seat<u64>, key: Key, is_kept: &AtomicBool) -> Vec<Duration> {
    let ask = |round| {
        let begun = Instant::now();
        while !is_kept.load(Ordering::Relaxed) && begun.elapsed() < Duration::from_secs(2) {
            thread::sleep(Duration::from_millis(1));
        }
        // The owner is in one of its calls when this thread is woken, and then waits for the
        // processor.
        thread::sleep(Duration::from_micros(500 + 37 * round));
        let before = processor_time();
        assert_eq!(seat.get(key), Some(7));
        is_kept.store(false, Ordering::Relaxed);
        processor_time() - before
    };
    (0..ROUNDS as u64).map(ask).collect()
}

#[test]
fn it_sleeps_while_it_waits() -> Result<(), Refused> {
    let limits = Limits {
        shards: 2,
        ..Limits::default()
    };
    let mut arena = Arena::open(limits)?;
    let (mut here, there) = (arena.seat()?, arena.seat()?);
    let keys: Vec<Key> = (0..100)
        .map(|value| here.insert(value))
        .collect::<Result<_, _>>()?;
    // SAFETY: it tells which processor this thread is on.
    let processor = u32::try_from(unsafe { sched_getcpu() }).expect("Linux tells it");
    let (is_kept, done) = (AtomicBool::new(false), AtomicBool::new(false));
    let times = thread::scope(|scope| {
        let (keys, is_kept, done) = (&keys, &is_kept, &done);
        let owner = scope.spawn(move || {
            stay_on(processor);
            own(&here, keys, is_kept, done);
        });
        let is_real_time = move || stay_on(processor) && go_before_others();
        let asker = scope.spawn(move || is_real_time().then(|| ask(&there, keys[7], is_kept)));
        let times = asker.join().unwrap();
        done.store(true, Ordering::Relaxed);
        owner.join().unwrap();
        times
    });
    match times {
        Some(mut times) => {
            times.sort_unstable();
            println!(
                "a real-time thread had the processor for {:?} at most, of {times:?}",
                times[ROUNDS - 1]
            );
            assert!(
                times[ROUNDS - 1 - BUT_FOR] < LONGEST,
                "it had it for {times:?}"
            );
        }
        None => println!("the system refuses a real-time thread: its times stay unknown"),
    }
    Ok(())
}
