//! Recorded arenas: what threads were told beside folds is audited when their seats are back.

mod common;

use common::Random;
use std::collections::HashSet;
use std::mem;
use std::sync::atomic::{AtomicUsize, Ordering};
use std::sync::Mutex;
use std::thread;
use std::time::Duration;
use teurlaks::arena::{Arena, AuditCause, AuditError, Seat};
use teurlaks::{Key, Limits, Refused, Stepped};

const THREADS: u32 = 4;

fn limits() -> Limits {
    Limits {
        shards: THREADS,
        pages: 256,
        generations: u32::MAX,
        ..Limits::default()
    }
}

/// How many calls each thread makes in a run: CALLS, or so many.
fn calls() -> usize {
    std::env::var("CALLS").map_or(20_000, |text| text.parse().expect("a number"))
}

/// Calls on keys that all threads share, whatever another has made of them meanwhile.
fn work(
    seat: &mut Seat<u64>,
    shared: &Mutex<Vec<Key>>,
    random: &mut Random,
    calls: usize,
) -> Result<(), Refused> {
    let mut own = Vec::new();
    for turn in 0..calls {
        match random.below(8) {
            0..=2 => {
                let key = seat.insert(random.next())?;
                own.push(key);
                let mut shared = shared.lock().expect("no thread panics");
                if shared.len() < 64 {
                    shared.push(key);
                } else {
                    shared[random.below(64)] = key;
                }
            }
            3..=4 if !own.is_empty() => {
                let key = own.swap_remove(random.below(own.len()));
                match turn % 4 {
                    0 if seat.free_later(key).is_ok() => {}
                    _ => drop(seat.free(key)),
                }
            }
            kind => {
                let key = {
                    let shared = shared.lock().expect("no thread panics");
                    shared.get(random.below(64)).copied()
                };
                let Some(key) = key else { continue };
                match kind {
                    5 => drop(seat.set(key, random.next())?),
                    6 => drop(seat.free(key)),
                    _ => drop(seat.get(key)),
                }
            }
        }
        if turn % 512 == 511 {
            seat.tend()?;
            match seat.retire(8) {
                Ok(_) | Err(Refused::PlanOpen) => {}
                Err(refused) => return Err(refused),
            }
        }
    }
    seat.tend().map(drop)
}

/// Marks, takes all steps and closes, again and again until so many threads have ended; how many
/// folds there were.
fn fold_until(arena: &mut Arena<u64>, ended: &AtomicUsize) -> Result<usize, Refused> {
    let mut folds = 0;
    while ended.load(Ordering::SeqCst) < THREADS as usize {
        arena.mark()?;
        loop {
            match arena.step()? {
                Stepped::Folded(..) => folds += 1,
                Stepped::Emptied(..) => {}
                Stepped::NoPairLeft => break,
            }
        }
        arena.close()?;
        thread::sleep(Duration::from_millis(1));
    }
    Ok(folds)
}

#[test]
fn threads_beside_folds_have_one_history() {
    let mut arena = Arena::open_recorded(limits()).unwrap();
    let (shared, ended) = (Mutex::new(Vec::new()), AtomicUsize::new(0));
    // In the second run each seat is another thread's.
    for run in 0..2_u64 {
        ended.store(0, Ordering::SeqCst);
        let mut seats: Vec<Seat<u64>> = (0..THREADS).map(|_| arena.seat().unwrap()).collect();
        assert_eq!(arena.audit(), Err(AuditError::Unfinished));
        thread::scope(|scope| {
            for (at, seat) in seats.iter_mut().enumerate() {
                let (shared, ended) = (&shared, &ended);
                scope.spawn(move || {
                    let mut random = Random(88_172_645_463_325_252 + run * 64 + at as u64);
                    let worked = work(seat, shared, &mut random, calls());
                    ended.fetch_add(1, Ordering::SeqCst);
                    worked.unwrap();
                });
            }
            fold_until(&mut arena, &ended).unwrap();
        });
        for seat in seats {
            arena.take_back(seat).unwrap();
        }
    }
    assert_eq!(arena.audit(), Ok(()));
    assert_eq!(arena.audit(), Ok(()));
}

#[test]
fn a_seat_of_another_arena_is_not_taken_back() {
    let limits = Limits {
        shards: 2,
        ..limits()
    };
    let mut arenas = [
        Arena::<u64>::open(limits).unwrap(),
        Arena::open(limits).unwrap(),
        Arena::open_recorded(limits).unwrap(),
        Arena::open_recorded(limits).unwrap(),
    ];
    for of in 0..arenas.len() {
        let mut seat = arenas[of].seat().unwrap();
        let key = seat.insert(of as u64).unwrap();
        for to in (0..arenas.len()).filter(|to| *to != of) {
            let back = arenas[to].take_back(seat).unwrap_err();
            assert_eq!(back.refused, Refused::Config);
            assert!(back.to_string().ends_with("it is of another arena"));
            seat = back.seat;
        }
        assert_eq!(seat.get(key), Some(of as u64));
        arenas[of].take_back(seat).unwrap();
        let seats = [arenas[of].seat().unwrap(), arenas[of].seat().unwrap()];
        assert_eq!(arenas[of].seat().err(), Some(Refused::NoSeatLeft));
        assert_eq!(seats[0].get(key), Some(of as u64));
        for seat in seats {
            arenas[of].take_back(seat).unwrap();
        }
    }
    assert_eq!(
        arenas.map(|mut arena| arena.audit().is_ok()),
        [false, false, true, true]
    );
}

#[test]
fn a_seat_goes_from_thread_to_thread() {
    let mut arena = Arena::open(Limits {
        shards: 1,
        ..limits()
    })
    .unwrap();
    let mut keys = Vec::new();
    for n in 0..8_u64 {
        let mut seat = arena.seat().unwrap();
        let worker = thread::spawn(move || {
            seat.begin()
                .or_else(|refused| if n == 0 { Ok(()) } else { Err(refused) })
                .unwrap();
            let key = seat.insert(n).unwrap();
            seat.end().unwrap();
            (seat, key)
        });
        let (seat, key) = worker.join().unwrap();
        keys.push(key);
        arena.take_back(seat).unwrap();
    }
    let seat = arena.seat().unwrap();
    let found: Vec<_> = keys.iter().map(|key| seat.get(*key)).collect();
    assert_eq!(found, (0..8).map(Some).collect::<Vec<_>>());
}

#[test]
fn what_an_arena_answers_before_and_after_its_end() {
    let mut arena = Arena::<u64>::open(limits()).unwrap();
    assert_eq!(arena.audit(), Err(AuditError::NotRecorded));
    let mut arena = Arena::<[u128; 16]>::open_recorded(limits()).unwrap();
    let mut seat = arena.seat().unwrap();
    let key = seat.insert([7; 16]).unwrap();
    assert!(seat.set(key, [8; 16]).unwrap() && seat.contains(key));
    assert_eq!(seat.get(key), Some([8; 16]));
    assert!(seat.free(key) && !seat.free(key) && !seat.contains(key));
    assert_eq!(arena.forget(), Err(Refused::Recorded));
    assert_eq!(arena.audit(), Err(AuditError::Unfinished));
    assert_eq!(arena.totals().live, 0);
    arena.take_back(seat).unwrap();
    assert_eq!(arena.audit(), Ok(()));
    assert_eq!(arena.mark().map(drop), Err(Refused::Over));
    assert_eq!(arena.seat().err(), Some(Refused::Over));
    assert_eq!(arena.totals().pages, 0);
    assert_eq!(arena.audit(), Ok(()));
}

#[test]
fn what_a_lost_seat_leaves_is_not_audited() {
    let mut arena = Arena::<u64>::open_recorded(Limits {
        shards: 2,
        ..limits()
    })
    .unwrap();
    let (mut one, mut two) = (arena.seat().unwrap(), arena.seat().unwrap());
    one.insert(1).unwrap();
    two.insert(2).unwrap();
    drop(two); // and its receipts
    arena.take_back(one).unwrap();
    assert_eq!(arena.audit(), Err(AuditError::Unfinished));
}

#[test]
fn a_session_of_a_recorded_seat_keeps_no_shard() {
    let mut arena = Arena::<u64>::open_recorded(Limits {
        shards: 2,
        ..limits()
    })
    .unwrap();
    let (mut one, two) = (arena.seat().unwrap(), arena.seat().unwrap());
    let mut session = one.session();
    let key = session.insert(7).unwrap();
    // Else each of these would wait for the end of the session.
    assert_eq!((session.get(key), two.get(key)), (Some(7), Some(7)));
    assert_eq!(arena.totals().live, 1);
    assert!(arena.keys().eq([key]) && two.keys().eq([key]));
    assert!(session.set(key, 8).unwrap() && session.free(key) && !session.contains(key));
    drop(session);
    for seat in [one, two] {
        arena.take_back(seat).unwrap();
    }
    assert_eq!(arena.audit(), Ok(()));
    assert_eq!(arena.keys().next(), None);
}

#[test]
fn a_seat_goes_back_with_all_its_shards() {
    let mut arena = Arena::<u64>::with_lanes(
        Limits {
            shards: 2,
            ..limits()
        },
        8,
        3,
    )
    .unwrap();
    let shards = |seat: &mut Seat<u64>| -> HashSet<u32> {
        (0..200).map(|n| seat.insert(n).unwrap().shard()).collect()
    };
    let (mut one, two) = (arena.seat().unwrap(), arena.seat().unwrap());
    let key = one.insert(7).unwrap();
    let had = shards(&mut one);
    mem::forget(one.session()); // which is not paused, but by the arena
    arena.take_back(one).unwrap();
    assert_eq!((two.get(key), arena.totals().live), (Some(7), 201));
    let mut again = arena.seat().unwrap();
    assert_eq!(arena.seat().err(), Some(Refused::NoSeatLeft));
    assert_eq!((had.len(), shards(&mut again)), (3, had));
}

#[test]
fn faults_have_words() {
    assert_eq!(
        AuditError::Fault(AuditCause::Reply).to_string(),
        "audit: reply: a call was not answered as the changes before it say"
    );
    assert_eq!(
        AuditError::Unfinished.to_string(),
        "a seat is not back: have the arena take it back first"
    );
}
