//! Seats that keep their shards between calls, and whoever takes these back from them.

mod common;

use common::Random;
use std::process::{Command, Output};
use std::sync::atomic::{AtomicBool, Ordering};
use std::sync::mpsc::{channel, Receiver, Sender};
use std::sync::Mutex;
use std::time::Duration;
use std::{env, thread};
use teurlaks::arena::{Arena, Seat, Totals};
use teurlaks::{Key, Limits, Refused};

/// By which the crate goes without the fence that a taker needs (`src/arena/fence.rs`).
const SWITCH: &str = "TEURLAKS_FENCE";

/// A seat keeps its shard after so many calls there.
const SOON: u64 = 64;

/// And after so many once it was taken back for the first time, or by the steward.
const LATER: u64 = 4096;

fn limits(shards: u32) -> Limits {
    Limits {
        shards,
        pages: 1024,
        ..Limits::default()
    }
}

/// Whether seats keep their shards here: where the system has the fence, and nobody has switched it
/// off.
fn are_kept() -> bool {
    !matches!(env::var(SWITCH), Ok(told) if told == "missing") && has_fence()
}

#[cfg(all(target_os = "linux", target_arch = "x86_64"))]
fn has_fence() -> bool {
    const MEMBARRIER: i64 = 324;
    const QUERY: i32 = 0;
    const PRIVATE_EXPEDITED: i64 = 1 << 3;
    extern "C" {
        fn syscall(number: i64, ...) -> i64;
    }
    // SAFETY: the call takes these three numbers, and answers which fences there are.
    let fences = unsafe { syscall(MEMBARRIER, QUERY, 0_u32, 0_i32) };
    fences > 0 && fences & PRIVATE_EXPEDITED != 0
}

#[cfg(not(all(target_os = "linux", target_arch = "x86_64")))]
fn has_fence() -> bool {
    false
}

/// So many values under their keys.
fn fill(seat: &mut Seat<u64>, values: u64) -> Vec<Key> {
    (0..values)
        .map(|value| seat.insert(value).unwrap())
        .collect()
}

/// A seat with as many values as it takes to keep its shard.
fn keeping(arena: &mut Arena<u64>) -> (Seat<u64>, Vec<Key>) {
    let mut seat = arena.seat().unwrap();
    let keys = fill(&mut seat, SOON);
    assert_eq!(seat.keeps_its_shard(), are_kept());
    (seat, keys)
}

#[test]
fn a_seat_comes_to_keep_its_shard() -> Result<(), Refused> {
    let mut arena = Arena::open(limits(2))?;
    let (mut here, there) = (arena.seat()?, arena.seat()?);
    let key = here.insert(1)?;
    (2..SOON).for_each(|_| assert_eq!(here.get(key), Some(1)));
    // Calls on what is in another's shard do not count.
    (0..SOON).for_each(|_| assert!(there.contains(key)));
    assert!(!here.keeps_its_shard() && !there.keeps_its_shard());
    assert!(here.set(key, 2)?);
    assert_eq!(
        (here.keeps_its_shard(), there.keeps_its_shard()),
        (are_kept(), false)
    );
    assert_eq!(
        (here.get(key), here.free(key), here.free(key)),
        (Some(2), true, false)
    );
    // What needs more than its own shard lets it go.
    let keys = fill(&mut here, SOON);
    assert_eq!((here.tend()?, here.keeps_its_shard()), (0, false));
    (0..SOON).for_each(|_| assert!(here.contains(keys[0])));
    assert_eq!((here.keeps_its_shard(), here.trim()), (are_kept(), 0));
    assert_eq!((here.keeps_its_shard(), arena.totals().live), (false, 64));
    Ok(())
}

#[test]
fn whoever_asks_takes_it_back() -> Result<(), Refused> {
    let mut arena = Arena::open(limits(2))?;
    let (here, keys) = keeping(&mut arena);
    let mut there = arena.seat()?;
    assert_eq!(there.get(keys[7]), Some(7));
    assert!(!here.keeps_its_shard());
    (1..LATER).for_each(|_| assert!(here.contains(keys[0])));
    assert!(!here.keeps_its_shard());
    assert!(here.contains(keys[0]));
    assert_eq!(here.keeps_its_shard(), are_kept());
    // For longer each time.
    assert!(there.set(keys[7], 8)? && !here.keeps_its_shard());
    (0..LATER).for_each(|_| assert!(here.contains(keys[0])));
    assert!(!here.keeps_its_shard());
    (0..LATER).for_each(|_| assert!(here.contains(keys[0])));
    assert_eq!(here.keeps_its_shard(), are_kept());
    // The steward takes all of them.
    fill(&mut there, SOON);
    assert_eq!(
        (there.keeps_its_shard(), arena.totals().live),
        (are_kept(), 128)
    );
    assert!(!here.keeps_its_shard() && !there.keeps_its_shard());
    assert_eq!((here.get(keys[7]), here.get(keys[63])), (Some(8), Some(63)));
    Ok(())
}

/// A thread that keeps its shard and waits, and one that makes calls on what is there meanwhile.
#[test]
fn a_thread_that_sleeps_keeps_nobody_waiting() -> Result<(), Refused> {
    for lanes in [1, 4] {
        let mut arena = Arena::with_lanes(limits(3), 256, lanes)?;
        let (mut sleeps, mut asks) = (arena.seat()?, arena.seat()?);
        let (say, awake): (Sender<()>, Receiver<()>) = channel();
        let (give, keys) = channel();
        let sleeper = thread::spawn(move || {
            // As many values as have it keep each of its shards, and again once these were taken
            // back.
            for _ in 0..2 {
                let keys = fill(&mut sleeps, 8 * LATER);
                assert_eq!(sleeps.keeps_its_shard(), are_kept());
                give.send(keys).unwrap();
                awake.recv().unwrap();
            }
            sleeps
        });
        let first = keys.recv().unwrap();
        assert_eq!(
            (asks.get(first[1]), asks.set(first[1], 100)),
            (Some(1), Ok(true))
        );
        assert!(asks.free(first[2]) && !asks.contains(first[2]));
        say.send(()).unwrap();
        let second = keys.recv().unwrap();
        assert_eq!(arena.totals().live, first.len() + second.len() - 1);
        assert_eq!(arena.mark().map(|marked| marked.folds), Ok(0));
        arena.close()?;
        assert_eq!(
            (asks.remove(second[0]), asks.get(first[1])),
            (Some(0), Some(100))
        );
        say.send(()).unwrap();
        assert!(sleeper.join().unwrap().contains(second[1]));
    }
    Ok(())
}

#[test]
fn a_session_goes_on_with_what_was_kept() -> Result<(), Refused> {
    let mut arena = Arena::open(limits(2))?;
    let (mut here, keys) = keeping(&mut arena);
    let there = arena.seat()?;
    let session = here.session();
    let asks = thread::spawn({
        let key = keys[5];
        move || (there.get(key), there)
    });
    thread::sleep(Duration::from_millis(10));
    assert!(!asks.is_finished());
    (0..SOON).for_each(|_| assert!(session.contains(keys[5])));
    drop(session);
    assert_eq!(asks.join().unwrap().0, Some(5));
    (0..LATER).for_each(|_| assert!(here.contains(keys[5])));
    assert_eq!(here.keeps_its_shard(), are_kept());
    Ok(())
}

/// Each of a seat's shards is kept, and what was adopted from one by another is found there.
#[test]
fn a_seat_keeps_several_shards() -> Result<(), Refused> {
    let mut arena = Arena::with_lanes(limits(2), 256, 4)?;
    let mut here = arena.seat()?;
    let keys = fill(&mut here, 16 * SOON);
    for (key, value) in keys.iter().zip(0..) {
        assert_eq!(
            (here.get(*key), here.set(*key, value + 1)),
            (Some(value), Ok(true))
        );
    }
    let there = arena.seat()?;
    assert!(keys
        .iter()
        .zip(1..)
        .all(|(key, value)| there.get(*key) == Some(value)));
    assert_eq!(here.retire(2)?, 2);
    fill(&mut here, SOON);
    while here.adopt().is_ok() {}
    for _ in 0..SOON {
        assert!(keys
            .iter()
            .zip(1..)
            .all(|(key, value)| here.get(*key) == Some(value)));
    }
    assert_eq!(here.session().remove(keys[9]), Some(10));
    assert!(keys.iter().filter(|key| here.free(**key)).count() == keys.len() - 1);
    Ok(())
}

/// A key's own shard is not the one that is kept, where another seat has adopted what it names.
#[test]
fn what_another_adopted_is_taken_back_from_it() -> Result<(), Refused> {
    let mut arena = Arena::open(limits(3))?;
    let (mut first, keys) = keeping(&mut arena);
    assert_eq!(first.retire(1)?, 1);
    let mut adopts = arena.seat()?;
    assert_eq!(adopts.adopt()?.shard(), keys[0].shard());
    let more = fill(&mut adopts, SOON);
    assert_eq!(adopts.keeps_its_shard(), are_kept());
    let looks = arena.seat()?;
    assert_eq!((looks.get(keys[3]), looks.get(more[3])), (Some(3), Some(3)));
    assert!(!adopts.keeps_its_shard() && first.free(keys[3]) && !adopts.contains(keys[3]));
    Ok(())
}

#[test]
fn a_recorded_seat_keeps_no_shard() -> Result<(), Box<dyn std::error::Error>> {
    let mut arena = Arena::open_recorded(limits(1))?;
    let mut seat = arena.seat()?;
    let keys = fill(&mut seat, 4 * SOON);
    assert!(!seat.keeps_its_shard());
    assert!(keys.iter().all(|key| seat.free(*key)));
    arena.take_back(seat)?;
    Ok(arena.audit()?)
}

/// A seat is dropped, ended, sent on and taken back while another thread takes its shard from it.
#[test]
fn seats_go_while_others_take_from_them() -> Result<(), Refused> {
    let mut arena = Arena::open(limits(3))?;
    let (mut asks, mut here) = (arena.seat()?, arena.seat()?);
    let rounds = if calls() < 100_000 { 6 } else { 150 };
    let mut live = 0;
    for round in 0..rounds {
        let keys = fill(&mut here, 2 * LATER);
        let done = AtomicBool::new(false);
        let seat = thread::scope(|scope| {
            let (asks, keys, done) = (&mut asks, &keys, &done);
            let asker = scope.spawn(move || {
                while !done.load(Ordering::Relaxed) {
                    assert!(keys.iter().step_by(1000).all(|key| asks.contains(*key)));
                    thread::yield_now();
                }
            });
            // It keeps its shard in one thread after the other.
            let seat = (0..3).fold(here, |seat, _| {
                let calls = move || {
                    assert!(keys
                        .iter()
                        .zip(0..)
                        .all(|(key, value)| seat.get(*key) == Some(value)));
                    seat
                };
                scope.spawn(calls).join().unwrap()
            });
            done.store(true, Ordering::Relaxed);
            asker.join().unwrap();
            seat
        });
        here = leave(&mut arena, seat, &keys, round)?;
        assert!(keys[1..].iter().all(|key| here.contains(*key)));
        keys[1..].iter().for_each(|key| assert!(asks.free(*key)));
        asks.free(keys[0]);
        live += fill(&mut asks, 1).len();
        assert_eq!(arena.totals().live, live);
    }
    drop(here);
    assert_eq!(arena.totals().live, live);
    Ok(())
}

/// The seat ends and begins, or goes to the arena and comes back, beside a steward's or its own
/// calls.
fn leave(
    arena: &mut Arena<u64>,
    mut seat: Seat<u64>,
    keys: &[Key],
    round: u64,
) -> Result<Seat<u64>, Refused> {
    assert!(seat.contains(keys[0]));
    match round % 3 {
        0 => {
            seat.end()?;
            seat.begin()?;
            arena.mesh()?;
        }
        1 => {
            arena
                .take_back(seat)
                .map_err(|not_taken| not_taken.refused)?;
            seat = arena.seat()?;
        }
        _ => assert!(seat.free(keys[0])),
    }
    Ok(seat)
}

/// What threads show each other: keys that live all the while, of values that say which they are.
struct Board {
    shown: Vec<Mutex<Vec<Key>>>,
    handed: Vec<Mutex<Vec<(Key, u64)>>>,
}

/// How many keys each thread shows.
const SHOWN: u64 = 32;

/// Of which thread's shown keys the value is, and of which one.
fn of_shown(thread: usize, at: usize) -> u64 {
    (thread as u64) << 8 | at as u64
}

/// So many calls, nearly all on the thread's own values, so that it keeps its shards, and now and
/// then some on others'.
fn work(seat: &mut Seat<u64>, board: &Board, here: usize, calls: usize) {
    let mut random = Random(here as u64 + 88_172_645_463_325_252);
    let threads = board.shown.len();
    let mut own: Vec<(Key, u64)> = Vec::new();
    for number in 0..calls as u64 {
        if own.len() < 500 {
            own.push((seat.insert(number).unwrap(), number));
        } else {
            let (key, number) = own.swap_remove(random.below(500));
            assert_eq!(seat.remove(key), Some(number));
            assert!(!seat.contains(key));
        }
        let (key, value) = own[random.below(own.len())];
        assert_eq!(seat.get(key), Some(value));
        if random.below(200) == 0 {
            let other = random.below(threads);
            look_at(seat, board, other, &mut random);
            board.handed[other].lock().unwrap().extend(own.pop());
            take_in(seat, board, here);
        }
    }
    own.into_iter()
        .for_each(|(key, value)| assert_eq!(seat.remove(key), Some(value)));
}

/// Reads and sets one of those that the other thread shows.
fn look_at(seat: &mut Seat<u64>, board: &Board, other: usize, random: &mut Random) {
    let shown = board.shown[other].lock().unwrap().clone();
    if !shown.is_empty() {
        let at = random.below(shown.len());
        let value = seat.get(shown[at]).unwrap();
        assert_eq!(value & 0xffff, of_shown(other, at));
        assert_eq!(seat.set(shown[at], value + (1 << 16)), Ok(true));
    }
}

/// Takes out what others have handed to this thread.
fn take_in(seat: &mut Seat<u64>, board: &Board, here: usize) {
    let handed: Vec<_> = board.handed[here].lock().unwrap().drain(..).collect();
    for (key, value) in handed {
        assert_eq!(seat.remove(key), Some(value));
        assert!(!seat.free(key));
    }
}

/// Threads at seats of so many shards, beside a steward who marks, takes steps, closes and asks how
/// much there is.
fn beside_each_other(threads: usize, lanes: u32, calls: usize) {
    let mut arena = Arena::with_lanes(limits(threads as u32), 256, lanes).unwrap();
    let board = Board {
        shown: (0..threads).map(|_| Mutex::default()).collect(),
        handed: (0..threads).map(|_| Mutex::default()).collect(),
    };
    let seats: Vec<_> = (0..threads).map(|_| arena.seat().unwrap()).collect();
    let mut seats: Vec<Seat<u64>> = thread::scope(|scope| {
        let board = &board;
        let work = move |(here, mut seat): (usize, Seat<u64>)| {
            let shown = (0..SHOWN as usize).map(|at| seat.insert(of_shown(here, at)).unwrap());
            let shown = shown.collect();
            *board.shown[here].lock().unwrap() = shown;
            work(&mut seat, board, here, calls / threads);
            seat
        };
        let workers: Vec<_> = seats
            .into_iter()
            .enumerate()
            .map(|seat| scope.spawn(move || work(seat)))
            .collect();
        while !workers.iter().all(|worker| worker.is_finished()) {
            let totals = arena.totals();
            assert!(totals.pages > 0 || totals.live == 0);
            arena.mesh().unwrap();
            thread::sleep(Duration::from_millis(1));
        }
        workers
            .into_iter()
            .map(|worker| worker.join().unwrap())
            .collect()
    });
    for (here, seat) in seats.iter_mut().enumerate() {
        take_in(seat, &board, here);
    }
    let shown: Vec<Key> = board
        .shown
        .iter()
        .flat_map(|keys| keys.lock().unwrap().clone())
        .collect();
    assert_eq!(arena.totals().live, shown.len());
    assert!(shown.iter().all(|key| seats[0].free(*key)));
    for seat in &mut seats {
        seat.trim();
    }
    assert_eq!(arena.totals(), Totals { pages: 0, live: 0 });
}

/// A million rounds of calls are asked for, where no variable says how many.
fn calls() -> usize {
    let asked = env::var("CALLS").ok().and_then(|calls| calls.parse().ok());
    asked.unwrap_or(1_000_000)
}

#[test]
fn beside_each_other_by_four_threads() {
    beside_each_other(4, 1, calls());
}

#[test]
fn beside_each_other_by_four_threads_of_four_shards_each() {
    beside_each_other(4, 4, calls());
}

#[test]
fn beside_each_other_by_eight_threads() {
    beside_each_other(8, 1, calls());
}

/// What tests do, all or those of a name, in a process that is told so of its fence.
fn with_a_fence_that_is(told: &str, names: &[&str]) -> Output {
    let mut run = Command::new(env::current_exe().unwrap());
    run.args(names)
        .arg("--quiet")
        .env(SWITCH, told)
        .output()
        .unwrap()
}

#[test]
fn all_is_as_ever_where_there_is_no_fence() {
    if env::var_os(SWITCH).is_none() {
        let done = with_a_fence_that_is("missing", &[]);
        assert!(
            done.status.success(),
            "{}",
            String::from_utf8_lossy(&done.stdout)
        );
    }
}

/// What the steward takes back is of seats that are there: one that was dropped has let go of its
/// shard.
#[test]
fn a_seat_that_is_dropped_lets_go() -> Result<(), Refused> {
    let mut arena = Arena::open(limits(3))?;
    let (gone, keys) = keeping(&mut arena);
    let (stays, others) = keeping(&mut arena);
    drop(gone);
    assert_eq!(arena.totals().live, 128);
    assert!(!stays.keeps_its_shard());
    assert_eq!(
        (stays.get(keys[7]), stays.get(others[7])),
        (Some(7), Some(7))
    );
    Ok(())
}

/// A key that was left to another seat goes there when the turn of the shard is over in which it
/// waits.
#[test]
fn what_was_left_to_others_is_handed_over_at_a_turn() -> Result<(), Refused> {
    let mut arena = Arena::with_lanes(limits(2), 256, 2)?;
    let (mut here, mut there) = (arena.seat()?, arena.seat()?);
    let left = there.insert(7)?;
    // A shard takes 64 values in its turn.
    for rounds in [1, 300] {
        fill(&mut here, 64 * rounds - 1);
        assert_eq!((here.free_later(left), there.tend()), (Ok(()), Ok(0)));
        fill(&mut here, 1);
        assert_eq!(there.tend(), Ok(1));
    }
    Ok(())
}

/// Said by the test below to itself.
const FILTER: &str = "TEURLAKS_TEST_FILTER";

/// Has the system refuse this thread any `membarrier` from now on, and says whether it does so.
#[cfg(all(target_os = "linux", target_arch = "x86_64"))]
fn refuse_fences() -> bool {
    /// What is done with a call: a code, where to go if so and if not, and a number.
    #[repr(C)]
    struct Step(u16, u8, u8, u32);
    #[repr(C)]
    struct Filter {
        steps: u16,
        first: *const Step,
    }
    const NO_NEW_PRIVILEGES: i32 = 38;
    const SECCOMP: i32 = 22;
    const BY_FILTER: u64 = 2;
    extern "C" {
        fn prctl(option: i32, ...) -> i32;
    }
    let steps = [
        Step(0x20, 0, 0, 0),           // load the number of the call
        Step(0x15, 0, 1, 324),         // is it membarrier?
        Step(0x06, 0, 0, 0x0005_0001), // then it is refused
        Step(0x06, 0, 0, 0x7fff_0000), // else it is made
    ];
    let filter = Filter {
        steps: 4,
        first: steps.as_ptr(),
    };
    // SAFETY: so many steps stand there.
    unsafe {
        prctl(NO_NEW_PRIVILEGES, 1_u64, 0_u64, 0_u64, 0_u64) == 0
            && prctl(SECCOMP, BY_FILTER, &filter as *const Filter) == 0
    }
}

#[cfg(not(all(target_os = "linux", target_arch = "x86_64")))]
fn refuse_fences() -> bool {
    false
}

/// Who takes a shard back asks the system for a fence, which is seen by what comes of a refusal.
#[test]
fn the_system_is_asked_for_the_fence() -> Result<(), Refused> {
    if !are_kept() || env::var_os(SWITCH).is_some() {
        return Ok(());
    }
    if env::var_os(FILTER).is_some() {
        let mut arena = Arena::open(limits(2))?;
        let (there, (_here, keys)) = (arena.seat()?, keeping(&mut arena));
        if refuse_fences() {
            println!("the filter is there");
            assert_eq!(there.get(keys[7]), Some(7));
        }
        return Ok(());
    }
    let mut run = Command::new(env::current_exe().unwrap());
    let words = [
        "the_system_is_asked_for_the_fence",
        "--nocapture",
        "--quiet",
    ];
    let done = run.args(words).env(FILTER, "1").output().unwrap();
    let told = String::from_utf8_lossy(&done.stdout);
    let complains = String::from_utf8_lossy(&done.stderr).contains("membarrier");
    let is_refused = !done.status.success() && complains;
    assert!(
        is_refused || !told.contains("the filter is there"),
        "{told}"
    );
    Ok(())
}

/// Nobody waits for ever for a shard that can't be taken back.
#[test]
fn a_fence_that_is_refused_later_ends_the_process() {
    if are_kept() && env::var_os(SWITCH).is_none() {
        let done = with_a_fence_that_is("refused", &["whoever_asks_takes_it_back", "--nocapture"]);
        assert!(!done.status.success());
        assert!(String::from_utf8_lossy(&done.stderr).contains("membarrier"));
    }
}
