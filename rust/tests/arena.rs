//! Seats of an arena by threads: each thread's values are what it expects of them, beside other
//! threads and a steward who folds.

mod common;

use common::numbered::{Handed, Value};
use common::Random;
use std::collections::{BTreeMap, BTreeSet};
use std::sync::atomic::{AtomicBool, Ordering};
use std::sync::Barrier;
use std::thread;
use std::time::Duration;
use teurlaks::arena::{Arena, Seat, Session, Totals};
use teurlaks::{Group, Key, Limits, Refused, Stepped};

/// What a thread does at its seat, in a session or without one.
trait Place<const WORDS: usize> {
    fn insert(&mut self, value: Value<WORDS>) -> Result<Key, Refused>;
    fn get(&self, key: Key) -> Option<Value<WORDS>>;
    fn contains(&self, key: Key) -> bool;
    fn set(&mut self, key: Key, value: Value<WORDS>) -> Result<bool, Refused>;
    fn remove(&mut self, key: Key) -> Option<Value<WORDS>>;
    fn free(&mut self, key: Key) -> bool;
    fn free_later(&mut self, key: Key) -> Result<(), Refused>;
    fn tend(&mut self) -> Result<usize, Refused>;
    fn trim(&mut self) -> usize;
    fn retire(&mut self, most: usize) -> Result<usize, Refused>;
    fn adopt(&mut self) -> Result<Group, Refused>;
}

macro_rules! place {
    ($type:ty) => {
        impl<const WORDS: usize> Place<WORDS> for $type {
            fn insert(&mut self, value: Value<WORDS>) -> Result<Key, Refused> {
                self.insert(value)
            }

            fn get(&self, key: Key) -> Option<Value<WORDS>> {
                self.get(key)
            }

            fn contains(&self, key: Key) -> bool {
                self.contains(key)
            }

            fn set(&mut self, key: Key, value: Value<WORDS>) -> Result<bool, Refused> {
                self.set(key, value)
            }

            fn remove(&mut self, key: Key) -> Option<Value<WORDS>> {
                self.remove(key)
            }

            fn free(&mut self, key: Key) -> bool {
                self.free(key)
            }

            fn free_later(&mut self, key: Key) -> Result<(), Refused> {
                self.free_later(key)
            }

            fn tend(&mut self) -> Result<usize, Refused> {
                self.tend()
            }

            fn trim(&mut self) -> usize {
                self.trim()
            }

            fn retire(&mut self, most: usize) -> Result<usize, Refused> {
                self.retire(most)
            }

            fn adopt(&mut self) -> Result<Group, Refused> {
                self.adopt()
            }
        }
    };
}

place!(Seat<Value<WORDS>>);
place!(Session<'_, Value<WORDS>>);

/// One thread with what it expects at its seat.
struct Worker<'i, const WORDS: usize> {
    inboxes: &'i [Handed],
    here: usize,
    random: Random,
    live: Vec<(Key, u64)>,
    stale: Vec<Key>,
    // Left to other seats, and so no more live once all have tended.
    left: Vec<Key>,
    // Whether it becomes more, and how many it becomes at most.
    grows: bool,
    aim: usize,
    // The number of its next value.
    number: u64,
}

impl<'i, const WORDS: usize> Worker<'i, WORDS> {
    fn new(inboxes: &'i [Handed], here: usize) -> Worker<'i, WORDS> {
        let number = here as u64 * 1_000_000_000;
        Worker {
            inboxes,
            here,
            random: Random(number + 88_172_645_463_325_252),
            live: Vec::new(),
            stale: Vec::new(),
            left: Vec::new(),
            grows: true,
            aim: 3000,
            number,
        }
    }

    /// Some calls, a quarter of them inserts or frees.
    fn work(&mut self, seat: &mut impl Place<WORDS>, most: usize) -> Result<(), Refused> {
        for turn in 0..most / 4 {
            self.insert_or_free(seat)?;
            self.look_up(seat);
            self.change(seat)?;
            self.hand_key_over();
            if turn % 256 == 0 {
                seat.tend()?;
            }
        }
        Ok(())
    }

    /// Grows to as many values as it aims at, and shrinks to a twentieth of that.
    fn insert_or_free(&mut self, seat: &mut impl Place<WORDS>) -> Result<(), Refused> {
        if self.grows || self.live.is_empty() {
            let key = seat.insert(Value::new(self.number))?;
            self.live.push((key, self.number));
            self.number += 1;
            self.grows = self.live.len() < self.aim;
            return Ok(());
        }
        let (key, number) = self.live.swap_remove(self.random.below(self.live.len()));
        self.free(seat, key, number)?;
        self.grows = self.live.len() * 20 < self.aim;
        if self.grows {
            self.aim = 500 + self.random.below(2500);
            self.stale.drain(..self.stale.len() / 2);
            self.give_back(seat)?;
        }
        Ok(())
    }

    /// Now, or later, where the ring takes it.
    fn free(&mut self, seat: &mut impl Place<WORDS>, key: Key, number: u64) -> Result<(), Refused> {
        match number % 3 {
            0 => assert_eq!(seat.remove(key), Some(Value::new(number))),
            1 => assert!(seat.free(key)),
            _ => match seat.free_later(key) {
                Ok(()) => {
                    self.left.push(key);
                    return Ok(());
                }
                Err(Refused::RingFull) => assert!(seat.free(key)),
                Err(refused) => return Err(refused),
            },
        }
        self.stale.push(key);
        Ok(())
    }

    /// Leaves the sparse half of its pages to the pool, or takes all that is there.
    fn give_back(&mut self, seat: &mut impl Place<WORDS>) -> Result<(), Refused> {
        seat.trim();
        match seat.retire(60) {
            Ok(_) | Err(Refused::PlanOpen) => {}
            Err(refused) => return Err(refused),
        }
        if self.number % 2 == 0 {
            return Ok(());
        }
        loop {
            match seat.adopt() {
                Ok(_) => {}
                Err(Refused::NothingToAdopt | Refused::PlanOpen | Refused::PagesSpent) => {
                    return Ok(())
                }
                Err(refused) => return Err(refused),
            }
        }
    }

    fn look_up(&mut self, seat: &mut impl Place<WORDS>) {
        if !self.live.is_empty() {
            let (key, number) = self.live[self.random.below(self.live.len())];
            assert_eq!(seat.get(key), Some(Value::new(number)));
            assert!(seat.contains(key));
        }
        if !self.stale.is_empty() {
            let key = self.stale[self.random.below(self.stale.len())];
            assert_eq!(seat.get(key), None);
            assert!(!seat.contains(key));
        }
    }

    fn change(&mut self, seat: &mut impl Place<WORDS>) -> Result<(), Refused> {
        if !self.live.is_empty() {
            let at = self.random.below(self.live.len());
            assert!(seat.set(self.live[at].0, Value::new(self.number))?);
            self.live[at].1 = self.number;
            self.number += 1;
        }
        if let Some(key) = self.stale.last() {
            assert!(!seat.set(*key, Value::new(0))? && !seat.free(*key));
            assert_eq!(seat.remove(*key), None);
        }
        Ok(())
    }

    /// Hands a key to another thread now and then, and takes what came in.
    fn hand_key_over(&mut self) {
        let to = self.random.below(16 * self.inboxes.len());
        if to < self.inboxes.len() && !self.live.is_empty() {
            let handed = self.live.swap_remove(self.random.below(self.live.len()));
            self.inboxes[to].lock().unwrap().push(handed);
            self.live
                .append(&mut self.inboxes[self.here].lock().unwrap());
        }
    }
}

/// How the threads call.
#[derive(Clone, Copy)]
enum Manner {
    /// Each call by itself.
    Calls,
    /// So many calls in a session, and then in another.
    Sessions,
    /// All calls in one session.
    OneSession,
}

/// How many calls one of many sessions has.
const BURST: usize = 1000;

/// What a thread leaves: its seat, its live keys with the numbers of their values, and the keys
/// that it left to others.
type Left<const WORDS: usize> = (Seat<Value<WORDS>>, Vec<(Key, u64)>, Vec<Key>);

/// So many threads make so many calls in all, each at a seat of so many shards, and a steward folds
/// beside them. Then all is taken out.
fn threads_find_what_they_expect<const WORDS: usize>(
    manner: Manner,
    threads: u32,
    lanes: u32,
    calls: usize,
) {
    let mut arena = Arena::with_lanes(limits(threads, 1024), 256, lanes).unwrap();
    let inboxes: Vec<Handed> = (0..threads).map(|_| Handed::default()).collect();
    let (done, folds) =
        beside_a_steward::<WORDS>(manner, &mut arena, &inboxes, calls / threads as usize);
    // A short run has no sparse page.
    assert!(folds > 0 || calls < 1_000_000);
    let mut seats = Vec::new();
    let mut live: BTreeMap<Key, u64> = BTreeMap::new();
    let mut left = Vec::new();
    for (seat, its_live, its_left) in done {
        seats.push(seat);
        live.extend(its_live);
        left.extend(its_left);
    }
    live.extend(
        inboxes
            .into_iter()
            .flat_map(|inbox| inbox.into_inner().unwrap()),
    );
    settle(&mut seats);
    assert_eq!(arena.totals().live, live.len());
    let seat = &mut seats[0];
    assert!(left.iter().all(|key| !seat.contains(*key)));
    for (key, number) in &live {
        assert_eq!(seat.remove(*key), Some(Value::new(*number)));
    }
    for seat in &mut seats {
        seat.trim();
    }
    assert_eq!(arena.totals(), Totals { pages: 0, live: 0 });
}

/// One thread for each inbox makes so many calls. It tells what each leaves, and how many folds
/// there were meanwhile.
fn beside_a_steward<const WORDS: usize>(
    manner: Manner,
    arena: &mut Arena<Value<WORDS>>,
    inboxes: &[Handed],
    calls: usize,
) -> (Vec<Left<WORDS>>, usize) {
    let seats: Vec<_> = inboxes.iter().map(|_| arena.seat().unwrap()).collect();
    thread::scope(|scope| {
        let workers: Vec<_> = seats
            .into_iter()
            .enumerate()
            .map(|(here, mut seat)| {
                scope.spawn(move || {
                    let mut worker = Worker::new(inboxes, here);
                    match manner {
                        Manner::Calls => worker.work(&mut seat, calls).unwrap(),
                        Manner::Sessions => {
                            for _ in 0..calls / BURST {
                                worker.work(&mut seat.session(), BURST).unwrap();
                            }
                        }
                        Manner::OneSession => worker.work(&mut seat.session(), calls).unwrap(),
                    }
                    (seat, worker.live, worker.left)
                })
            })
            .collect();
        let mut folds = 0;
        while !workers.iter().all(|worker| worker.is_finished()) {
            folds += arena.mesh().unwrap();
            arena.forget().unwrap();
            thread::sleep(Duration::from_millis(1));
        }
        (
            workers
                .into_iter()
                .map(|worker| worker.join().unwrap())
                .collect(),
            folds,
        )
    })
}

/// Frees all that was left to a seat.
fn settle<T>(seats: &mut [Seat<T>]) {
    seats.iter_mut().for_each(Seat::hand_over);
    for seat in seats {
        seat.tend().unwrap();
    }
}

/// A million calls are asked for, where no variable says how many.
fn calls() -> usize {
    let asked = std::env::var("CALLS")
        .ok()
        .and_then(|calls| calls.parse().ok());
    asked.unwrap_or(1_000_000)
}

#[test]
fn by_four_threads() {
    threads_find_what_they_expect::<29>(Manner::Calls, 4, 1, calls() / 2);
}

#[test]
fn by_four_threads_of_three_shards_each() {
    threads_find_what_they_expect::<29>(Manner::Calls, 4, 3, calls() / 4);
}

#[test]
fn by_eight_threads() {
    threads_find_what_they_expect::<7>(Manner::Calls, 8, 1, calls() / 2);
}

#[test]
fn by_four_threads_in_sessions() {
    threads_find_what_they_expect::<29>(Manner::Sessions, 4, 3, calls() / 4);
    threads_find_what_they_expect::<7>(Manner::OneSession, 4, 1, calls() / 4);
}

#[test]
fn by_eight_threads_in_sessions() {
    threads_find_what_they_expect::<7>(Manner::Sessions, 8, 1, calls() / 4);
    threads_find_what_they_expect::<29>(Manner::OneSession, 8, 2, calls() / 4);
}

#[test]
fn a_session_keeps_its_shard_and_lets_go_of_it() -> Result<(), Refused> {
    let mut arena = Arena::open(limits(2, 16))?;
    let (mut here, mut there) = (arena.seat()?, arena.seat()?);
    let elsewhere = there.insert(1_u64)?;
    let mut session = here.session();
    let key = session.insert(2)?;
    assert!(session.set(key, 3)? && session.contains(key));
    // What is in the other shard is found there, is set and freed.
    assert!(session.set(elsewhere, 4)?);
    assert_eq!(
        (session.get(key), session.get(elsewhere)),
        (Some(3), Some(4))
    );
    assert!(session.free(elsewhere) && !session.free(elsewhere));
    assert_eq!(session.get(elsewhere), None);
    // What its own shard has retired is found in the pool, and its thread is not kept from it.
    assert_eq!(session.retire(9), Ok(1));
    assert_eq!((session.get(key), session.set(key, 5)), (Some(3), Ok(true)));
    assert_eq!(session.adopt().map(|group| group.shard()), Ok(key.shard()));
    assert_eq!(session.remove(key), Some(5));
    let left = session.insert(6)?;
    assert_eq!(session.begin(), Err(Refused::Running));
    // Another thread that wants the shard waits until the session is dropped.
    let waits = thread::spawn(move || (there.get(left), there));
    thread::sleep(Duration::from_millis(10));
    assert!(!waits.is_finished());
    assert_eq!(session.get(left), Some(6));
    drop(session);
    let (found, mut there) = waits.join().unwrap();
    assert_eq!(found, Some(6));
    // Two sessions look into each other's shards, and neither waits for the other for ever.
    let mine = there.insert(7)?;
    thread::scope(|scope| {
        for (seat, own, other) in [(&mut here, left, mine), (&mut there, mine, left)] {
            scope.spawn(move || {
                let session = seat.session();
                for _ in 0..2000 {
                    assert!(session.contains(own) && session.contains(other));
                }
            });
        }
    });
    // A seat that is dropped in a session gives its shard back.
    std::mem::forget(here.session());
    assert_eq!(here.get(left), Some(6));
    drop(here);
    assert_eq!((there.get(left), arena.totals().live), (Some(6), 2));
    Ok(())
}

fn limits(shards: u32, pages: u32) -> Limits {
    Limits {
        shards,
        pages,
        slots: 256,
        ..Limits::default()
    }
}

/// So many pages of 16 values, of which each keeps one, at another slot than the next page does.
fn sparse(seat: &mut Seat<Value<31>>, pages: u64) -> Result<Vec<(Key, u64)>, Refused> {
    let all: Vec<(Key, u64)> = (0..16 * pages)
        .map(|number| Ok((seat.insert(Value::new(number))?, number)))
        .collect::<Result<_, Refused>>()?;
    let stays = |(key, _): &(Key, u64)| key.slot() == key.serial() % 16;
    let (stay, go): (Vec<_>, Vec<_>) = all.into_iter().partition(stays);
    for (key, _) in go {
        assert!(seat.free(key));
    }
    assert_eq!(stay.len() as u64, pages);
    Ok(stay)
}

#[test]
fn pages_fold_beside_those_who_look_up_and_change() -> Result<(), Refused> {
    let mut arena = Arena::open(limits(4, 1024))?;
    let mut first = arena.seat()?;
    let stay = sparse(&mut first, 1000)?;
    let folding = AtomicBool::new(true);
    let start = Barrier::new(4);
    let seats = [arena.seat()?, arena.seat()?, arena.seat()?];
    let folds = thread::scope(|scope| {
        let (stay, folding, start) = (&stay, &folding, &start);
        for (thread, mut seat) in seats.into_iter().enumerate() {
            scope.spawn(move || {
                let own = || stay.iter().skip(thread).step_by(3);
                let mut times = 0;
                start.wait();
                while folding.load(Ordering::Relaxed) || times < 3 {
                    times += 1;
                    for (key, number) in own() {
                        assert_eq!(seat.get(*key), Some(Value::new(number + times - 1)));
                        assert_eq!(seat.set(*key, Value::new(number + times)), Ok(true));
                        let other =
                            seat.get(stay[(*number as usize + times as usize) % stay.len()].0);
                        assert!(other.is_some_and(|value| value.is_whole()));
                    }
                }
                for (key, number) in own() {
                    assert_eq!(seat.set(*key, Value::new(*number)), Ok(true));
                }
            });
        }
        start.wait();
        assert_eq!(first.retire(500)?, 500);
        let folds = arena.mesh();
        folding.store(false, Ordering::Relaxed);
        folds
    })?;
    assert!(folds > 450, "{folds} of 500 pages went");
    assert_eq!(arena.totals().pages, 1000 - folds);
    assert!(stay
        .iter()
        .all(|(key, number)| first.get(*key) == Some(Value::new(*number))));
    Ok(())
}

/// Three hundred threads come and go at four seats, and each opens more pages than it leaves. Keys
/// of all shards are found, and freed ones are not, also once what they were of was forgotten.
#[test]
fn threads_come_and_go() -> Result<(), Refused> {
    let mut arena = Arena::open(limits(4, 64))?;
    let mut seats = (0..4)
        .map(|_| arena.seat())
        .collect::<Result<Vec<_>, _>>()?;
    let mut kept: Vec<(Key, u64)> = Vec::new();
    let mut gone: Vec<Key> = Vec::new();
    for round in 0..75_u64 {
        let threads: Vec<_> = seats
            .drain(..)
            .enumerate()
            .map(|(here, seat)| thread::spawn(move || come_and_go(seat, 4 * round + here as u64)))
            .collect();
        for thread in threads {
            let (seat, stays) = thread.join().unwrap()?;
            seats.push(seat);
            kept.extend(stays);
        }
        arena.mesh()?;
        let seat = &mut seats[0];
        for (key, number) in kept.drain(..kept.len() / 2) {
            assert_eq!(seat.remove(key), Some([number; 32]));
            gone.push(key);
        }
        arena.forget()?;
        assert!(kept
            .iter()
            .all(|(key, number)| seat.get(*key) == Some([*number; 32])));
        assert!(!gone
            .iter()
            .any(|key| seat.contains(*key) || seat.free(*key)));
        assert_eq!(arena.totals().live, kept.len());
    }
    // Each thread opened 25 pages.
    assert!(kept.iter().any(|(key, _)| key.serial() > 1024));
    Ok(())
}

/// A seat, and the keys and values that its thread leaves to those after it.
type HandedOn = (Seat<[u64; 32]>, Vec<(Key, u64)>);

/// A thread at the seat, whose shard may have ended with the thread before: of 400 values it leaves
/// each eighth.
fn come_and_go(mut seat: Seat<[u64; 32]>, number: u64) -> Result<HandedOn, Refused> {
    match seat.begin() {
        Ok(()) | Err(Refused::Running) => {}
        Err(refused) => return Err(refused),
    }
    let all: Vec<(Key, u64)> = (0..400)
        .map(|at| Ok((seat.insert([1000 * number + at; 32])?, 1000 * number + at)))
        .collect::<Result<_, Refused>>()?;
    let (stay, go): (Vec<_>, Vec<_>) = all
        .into_iter()
        .partition(|(_, value)| value % 8 == number % 8);
    assert!(go.iter().all(|(key, _)| seat.free(*key)));
    seat.end()?;
    Ok((seat, stay))
}

/// The shard of a thread that is gone goes on in another one, which frees what was left to it
/// meanwhile.
#[test]
fn a_shard_begins_again_in_another_thread() -> Result<(), Refused> {
    let mut arena = Arena::open(limits(2, 64))?;
    let (mut ends, mut stays) = (arena.seat()?, arena.seat()?);
    let gone = thread::spawn(move || {
        assert_eq!(ends.begin(), Err(Refused::Running));
        let keys: Vec<_> = (0..600_u64)
            .map(|n| ends.insert(n))
            .collect::<Result<_, _>>()?;
        ends.end()?;
        Ok::<_, Refused>((ends, keys))
    });
    let (mut seat, before) = gone.join().unwrap()?;
    stays.free_later(before[0])?;
    stays.hand_over();
    let begun = thread::spawn(move || {
        assert_eq!(seat.insert(0), Err(Refused::Ended));
        assert_eq!(
            (seat.begin(), seat.begin()),
            (Ok(()), Err(Refused::Running))
        );
        let keys: Vec<_> = (0..600_u64)
            .map(|n| seat.insert(n))
            .collect::<Result<_, _>>()?;
        assert_eq!(
            (seat.tend(), seat.get(before[0]), seat.get(before[599])),
            (Ok(1), None, Some(599))
        );
        Ok::<_, Refused>((before, keys))
    });
    let (before, after) = begun.join().unwrap()?;
    assert!(after
        .iter()
        .all(|key| !before.contains(key) && key.shard() == before[0].shard()));
    assert_eq!(
        (stays.get(after[7]), stays.get(before[7])),
        (Some(7), Some(7))
    );
    Ok(())
}

#[test]
fn a_thread_ends_while_others_hold_its_keys() -> Result<(), Refused> {
    let mut arena = Arena::open(limits(3, 64))?;
    let (mut ends, mut stays, mut looks) = (arena.seat()?, arena.seat()?, arena.seat()?);
    let keys = thread::spawn(move || {
        let keys: Vec<_> = (0..4000_u64)
            .map(|n| ends.insert(n))
            .collect::<Result<_, _>>()?;
        ends.end()?;
        assert_eq!(
            (ends.end(), ends.insert(0)),
            (Err(Refused::Ended), Err(Refused::Ended))
        );
        assert_eq!(ends.get(keys[7]), Some(7)); // it goes on to look up and free
        Ok::<_, Refused>(keys)
    });
    let keys = keys.join().unwrap()?;
    let of_it = keys[0].shard();
    let own: Vec<_> = (0..256)
        .map(|n| stays.insert(n))
        .collect::<Result<_, _>>()?;
    thread::scope(|scope| {
        let (keys, looks) = (&keys, &mut looks);
        scope.spawn(move || {
            for (n, key) in keys.iter().enumerate().filter(|(n, _)| n % 2 == 0) {
                assert_eq!(looks.remove(*key), Some(n as u64));
            }
        });
        for (n, key) in keys.iter().enumerate().filter(|(n, _)| n % 2 == 1) {
            assert_eq!(stays.set(*key, n as u64 + 1), Ok(true));
        }
        while stays.adopt().is_ok() {}
        arena.mesh()
    })?;
    for (n, key) in keys.iter().enumerate() {
        assert_eq!(stays.get(*key), (n % 2 == 1).then_some(n as u64 + 1));
    }
    assert_eq!(arena.totals().live, 2000 + own.len());
    // A key that is left to a seat which is gone stays live until it is freed.
    assert_eq!(looks.free_later(keys[1]), Ok(()));
    looks.hand_over();
    assert!(stays.contains(keys[1]) && stays.free(keys[1]) && keys[1].shard() == of_it);
    Ok(())
}

#[test]
fn frees_come_later() -> Result<(), Refused> {
    let mut arena = Arena::with_rings(limits(2, 4), 8)?;
    let (mut here, mut there) = (arena.seat()?, arena.seat()?);
    let keys: Vec<_> = (0..12_u128)
        .map(|n| there.insert(n))
        .collect::<Result<_, _>>()?;
    for key in &keys[..8] {
        assert_eq!(here.free_later(*key), Ok(()));
    }
    assert_eq!(here.free_later(keys[8]), Err(Refused::RingFull));
    assert_eq!(arena.totals().live, 12);
    assert_eq!(thread::spawn(move || there.tend()).join().unwrap(), Ok(8));
    assert_eq!(keys.iter().filter(|key| here.contains(**key)).count(), 4);
    let elsewhere = Key::from_bits(9 << 72 | 1).unwrap();
    assert_eq!(here.free_later(elsewhere), Err(Refused::Config));
    assert!(!here.free(elsewhere) && here.get(elsewhere).is_none());
    Ok(())
}

#[test]
fn a_key_that_waits_is_handed_over_by_its_seat() -> Result<(), Refused> {
    let mut arena = Arena::open(limits(2, 4))?;
    let (mut here, mut there) = (arena.seat()?, arena.seat()?);
    let keys: Vec<_> = (0..3_u128)
        .map(|n| there.insert(n))
        .collect::<Result<_, _>>()?;
    here.free_later(keys[0])?;
    here.hand_over();
    assert_eq!(there.tend(), Ok(1));
    here.free_later(keys[1])?;
    // The 64th further call hands it over.
    (0..64).for_each(|_| assert!(here.contains(keys[2])));
    assert_eq!(there.tend(), Ok(1));
    here.free_later(keys[2])?;
    drop(here);
    assert_eq!(there.tend(), Ok(1));
    assert_eq!(arena.totals().live, 0);
    Ok(())
}

#[test]
fn calls_are_refused_as_they_say() -> Result<(), Refused> {
    for wrong in [
        limits(0, 1),
        limits(65, 1),
        limits(1, 0),
        limits(1, 1_048_577),
    ] {
        assert_eq!(Arena::<u64>::open(wrong).err(), Some(Refused::Config));
    }
    for keys in [0, 1025] {
        assert_eq!(
            Arena::<u64>::with_rings(limits(1, 1), keys).err(),
            Some(Refused::Config)
        );
    }
    let mut arena = Arena::open(limits(2, 1))?;
    assert_eq!(arena.limits(), limits(2, 1));
    let (mut here, mut there) = (arena.seat()?, arena.seat()?);
    assert_eq!(arena.seat().err(), Some(Refused::NoSeatLeft));
    assert_eq!(
        (arena.step(), arena.close()),
        (Err(Refused::NoPlan), Err(Refused::NoPlan))
    );
    assert_eq!(here.adopt(), Err(Refused::NothingToAdopt));
    let keys: Vec<_> = (0..256_u64)
        .map(|n| here.insert(n))
        .collect::<Result<_, _>>()?;
    assert_eq!(here.insert(0), Err(Refused::PagesSpent));
    let other = there.insert(7)?;
    keys[..255].iter().for_each(|key| assert!(here.free(*key)));
    assert_eq!(here.retire(1), Ok(1));
    let marked = arena.mark_some()?;
    assert_eq!((marked.abandoned, marked.owned, marked.folds), (1, 1, 1));
    assert_eq!(arena.mark_some(), Err(Refused::PlanOpen));
    assert_eq!(
        (there.retire(1), there.end()),
        (Err(Refused::PlanOpen), Err(Refused::PlanOpen))
    );
    assert_eq!(here.adopt(), Err(Refused::PlanOpen));
    assert!(matches!(arena.step(), Ok(Stepped::Folded(..))));
    assert_eq!(arena.step(), Ok(Stepped::NoPairLeft));
    assert_eq!(arena.close(), Ok(()));
    assert_eq!(
        (arena.mesh(), arena.totals()),
        (Ok(0), Totals { pages: 1, live: 2 })
    );
    assert_eq!(
        (there.get(keys[255]), here.get(other)),
        (Some(255), Some(7))
    );
    assert!(format!("{arena:?} {here:?}").contains("Arena"));
    Ok(())
}

/// Values of a seat stand in all of its shards, and it ends, begins, retires and tends all of them.
#[test]
fn a_seat_has_several_shards() -> Result<(), Refused> {
    for (seats, lanes) in [(1, 0), (1, 65), (17, 4), (u32::MAX, u32::MAX)] {
        let arena = Arena::<u64>::with_lanes(limits(seats, 1), 8, lanes);
        assert_eq!(arena.err(), Some(Refused::Config));
    }
    let mut arena = Arena::with_lanes(limits(2, 1), 8, 3)?;
    let (mut here, mut there) = (arena.seat()?, arena.seat()?);
    assert_eq!(arena.seat().err(), Some(Refused::NoSeatLeft));
    let mut keys: Vec<_> = (0..768).map(|n| here.insert(n)).collect::<Result<_, _>>()?;
    let shards = keys.iter().map(|key| key.shard()).collect::<BTreeSet<_>>();
    assert_eq!(
        (shards.len(), here.insert(0)),
        (3, Err(Refused::PagesSpent))
    );
    // Whichever has room.
    for n in [100, 0, 64, 128, 0] {
        assert!(here.free(keys[n as usize]));
        keys[n as usize] = here.insert(n)?;
    }
    keys[..8]
        .iter()
        .try_for_each(|key| there.free_later(*key))?;
    assert_eq!(there.free_later(keys[9]), Err(Refused::RingFull));
    assert_eq!((here.tend(), here.tend()), (Ok(8), Ok(0)));
    // The last of each shard stays.
    let go = keys[8..].iter().filter(|key| key.slot() < 255);
    go.for_each(|key| assert!(there.free(*key)));
    assert_eq!(
        (here.retire(2), here.retire(2), here.retire(3)),
        (Ok(2), Ok(0), Ok(1))
    );
    let others: Vec<_> = (0..64).map(|n| there.insert(n)).collect::<Result<_, _>>()?;
    assert_eq!(arena.mark_some().map(|marked| marked.folds), Ok(1));
    // The first of its shards had its turn, and stands last: those before it go on.
    assert_eq!(there.end(), Err(Refused::PlanOpen));
    assert!((0..3).all(|n| there.insert(n).is_ok()));
    assert!(matches!(arena.step(), Ok(Stepped::Folded(..))));
    arena.close()?;
    there.end()?;
    assert_eq!(
        (there.end(), there.insert(0)),
        (Err(Refused::Ended), Err(Refused::Ended))
    );
    there.begin()?;
    assert_eq!(there.begin(), Err(Refused::Running));
    for _ in 0..3 {
        here.adopt()?;
    }
    assert_eq!(here.adopt(), Err(Refused::PagesSpent));
    assert!(keys
        .iter()
        .zip(0..)
        .all(|(key, n)| here.get(*key) == (key.slot() == 255).then_some(n)));
    assert!(others
        .iter()
        .zip(0..)
        .all(|(key, n)| here.get(*key) == Some(n)));
    Ok(())
}

#[test]
fn a_seat_trims_all_of_its_shards() -> Result<(), Refused> {
    let mut arena = Arena::with_lanes(limits(1, 4), 8, 3)?;
    let mut seat = arena.seat()?;
    let keys: Vec<_> = (0..192).map(|n| seat.insert(n)).collect::<Result<_, _>>()?;
    assert_eq!(arena.totals().pages, 3);
    assert!(keys.iter().all(|key| seat.free(*key)));
    assert_eq!((seat.trim(), seat.trim(), arena.totals().pages), (3, 0, 0));
    Ok(())
}

/// Of threads that take out the same keys, one has the value of each.
#[test]
fn one_of_all_who_remove_a_key_has_its_value() -> Result<(), Refused> {
    const KEYS: usize = 4000;
    let mut arena = Arena::open(limits(4, 64))?;
    let mut seats = (0..4)
        .map(|_| arena.seat())
        .collect::<Result<Vec<_>, _>>()?;
    let keys: Vec<Key> = (0..KEYS)
        .map(|n| seats[n % 4].insert(n))
        .collect::<Result<_, _>>()?;
    let begun = &Barrier::new(4);
    let take_all = |seat: &mut Seat<usize>| {
        begun.wait();
        keys.iter().filter_map(|key| seat.remove(*key)).count()
    };
    let taken: usize = thread::scope(|scope| {
        let work = |seat| scope.spawn(move || take_all(seat));
        let workers: Vec<_> = seats.iter_mut().map(work).collect();
        workers
            .into_iter()
            .map(|worker| worker.join().unwrap())
            .sum()
    });
    assert_eq!((taken, arena.totals().live), (KEYS, 0));
    Ok(())
}

/// As of a core (`tests/tour.rs`): a slot of its own on each side, in the text that
/// `docs/FORMATS.md` describes.
#[test]
fn a_mark_of_all_groups_leaves_its_certificate() -> Result<(), Refused> {
    let mut arena = Arena::open(limits(2, 4))?;
    let (mut here, mut there) = (arena.seat()?, arena.seat()?);
    assert_eq!(arena.certificate(), Ok(None));
    let keys = [
        here.insert(10_u128)?,
        here.insert(11)?,
        there.insert(7)?,
        there.insert(8)?,
    ];
    let (first, second) = (keys[0].shard(), keys[2].shard());
    here.end()?;
    assert!(here.free(keys[1]) && here.free(keys[2]));
    let marked = arena.mark()?;
    assert_eq!(
        (
            marked.abandoned,
            marked.owned,
            marked.folds,
            marked.short_set
        ),
        (1, 1, 1, 0)
    );
    assert_eq!(arena.mark(), Err(Refused::PlanOpen));
    // The first of the 64 digits' bytes has the slots 0 to 7.
    let (slot_0, slot_1) = (
        format!("01{}", "0".repeat(62)),
        format!("02{}", "0".repeat(62)),
    );
    let text = format!(
        "meshcert 2\nabandoned 1\n{first}.0 16 {slot_0}\nowned 1\n{second}.0 16 {slot_1}\nfolds 1\n{first}.0 {second}.0\nshort 0\nend\n"
    );
    assert_eq!(arena.certificate(), Ok(Some(text.clone())));
    assert!(matches!(arena.step(), Ok(Stepped::Folded(..))));
    assert_eq!(arena.close(), Ok(()));
    // That of the last mark stays until the next one.
    assert_eq!(arena.certificate(), Ok(Some(text)));
    assert_eq!((arena.mark()?.folds, arena.close()), (0, Ok(())));
    assert!(arena
        .certificate()?
        .is_some_and(|text| text.contains("folds 0\n")));
    assert_eq!((there.get(keys[0]), here.get(keys[3])), (Some(10), Some(8)));
    Ok(())
}

/// What is left when the handles of an arena go, in each order.
#[test]
fn handles_go_in_any_order() -> Result<(), Refused> {
    enum Handle {
        Arena(Arena<[u64; 8]>),
        Seat(Seat<[u64; 8]>),
    }
    let orders = (0..24).map(|order: usize| [order % 4, order / 4 % 3, order / 12 % 2, 0]);
    for order in orders {
        let mut arena = Arena::open(limits(4, 8))?;
        let mut seats = [arena.seat()?, arena.seat()?, arena.seat()?];
        let keys: Vec<_> = (0..100)
            .map(|n| seats[n % 3].insert([n as u64; 8]))
            .collect::<Result<_, _>>()?;
        seats[0].end()?;
        seats[1].free_later(keys[0])?;
        // A plan that is open is closed by the arena's drop.
        arena.mark_some()?;
        let mut handles: Vec<_> = seats.into_iter().map(Handle::Seat).collect();
        handles.push(Handle::Arena(arena));
        for next in order {
            drop(handles.swap_remove(next));
            for handle in &mut handles {
                match handle {
                    Handle::Arena(arena) => assert_eq!(arena.totals().live, 100),
                    Handle::Seat(seat) => assert_eq!(seat.get(keys[99]), Some([99; 8])),
                }
            }
        }
        assert!(handles.is_empty());
    }
    Ok(())
}

#[test]
fn a_plan_goes_with_the_arena() -> Result<(), Refused> {
    let mut arena = Arena::open(limits(2, 1))?;
    let (mut here, mut there) = (arena.seat()?, arena.seat()?);
    let (first, key) = (here.insert(1_u64)?, here.insert(2)?);
    assert!(here.free(first));
    here.end()?;
    there.insert(3)?;
    assert_eq!(arena.mark_some()?.folds, 1);
    assert_eq!(there.insert(4), Err(Refused::PagesSpent)); // its page is in the plan
    drop(arena);
    assert_eq!(there.insert(4).map(|_| there.get(key)), Ok(Some(2)));
    assert_eq!(there.end(), Ok(()));
    Ok(())
}

/// Where no group waits in the pool, a mark of as many groups as a plan takes is the last one.
#[test]
fn many_groups_and_an_empty_pool() -> Result<(), Refused> {
    let mut arena = Arena::open(limits(5, 1_024))?;
    let mut seats = (0..5)
        .map(|_| arena.seat())
        .collect::<Result<Vec<_>, _>>()?;
    for seat in &mut seats {
        let keys: Vec<Key> = (0..1_000 * 16)
            .map(|number| seat.insert([number as u64; 32]))
            .collect::<Result<_, _>>()?;
        assert!(keys.iter().step_by(2).all(|key| seat.free(*key)));
    }
    assert!(arena.mark_some()?.owned >= 4_096);
    arena.close()?;
    assert_eq!(arena.mesh(), Ok(0));
    Ok(())
}

/// Has a method for each type, and another one for each that is `Sync`: only where the type is not
/// is it known which is meant.
trait NotIfSync<Marker> {
    fn is_not_sync() {}
}

impl<T: ?Sized> NotIfSync<()> for T {}

struct OfSync;

impl<T: ?Sized + Sync> NotIfSync<OfSync> for T {}

#[test]
fn handles_may_go_to_another_thread_and_are_of_one() {
    fn is_send<T: Send + 'static>() {}
    is_send::<Arena<u64>>();
    is_send::<Seat<u64>>();
    <Arena<u64> as NotIfSync<_>>::is_not_sync();
    <Seat<u64> as NotIfSync<_>>::is_not_sync();
}

/// A walk meets each key once that is live all the while, beside threads that put and free others,
/// end, adopt and are folded.
#[test]
fn a_walk_meets_what_stays() -> Result<(), Refused> {
    let mut arena = Arena::open(limits(4, 1024))?;
    let mut here = arena.seat()?;
    let mut staying = Vec::new();
    let mut workers: Vec<Seat<u64>> = Vec::new();
    for number in 0..3 {
        let mut seat = arena.seat()?;
        for value in 0..2000 {
            let key = seat.insert(number)?;
            // Sparse pages, which fold.
            if value % 40 == number {
                staying.push(key);
            } else {
                seat.free(key);
            }
        }
        workers.push(seat);
    }
    staying.sort_unstable();
    let done = AtomicBool::new(false);
    thread::scope(|scope| {
        for mut seat in workers {
            let done = &done;
            scope.spawn(move || {
                while !done.load(Ordering::Relaxed) {
                    let keys: Vec<_> = (0..300).map(|value| seat.insert(value).unwrap()).collect();
                    for key in keys {
                        assert!(seat.free(key));
                    }
                    let _ = seat.retire(4);
                    let _ = seat.adopt();
                }
            });
        }
        let (seat, staying) = (&mut here, &staying);
        let walker = scope.spawn(move || {
            for _ in 0..20 {
                let met: Vec<_> = seat.keys().collect();
                assert!(
                    met.windows(2).all(|keys| keys[0] < keys[1]),
                    "none comes twice"
                );
                assert!(
                    staying.iter().all(|key| met.binary_search(key).is_ok()),
                    "each that stays is met"
                );
            }
        });
        while !walker.is_finished() {
            let _ = arena.mesh();
        }
        done.store(true, Ordering::Relaxed);
    });
    assert!(arena.keys().eq(staying.iter().copied()));
    assert_eq!(here.keys().count(), arena.totals().live);
    assert!(staying.iter().all(|key| here.free(*key)));
    assert_eq!(arena.keys().next(), None);
    Ok(())
}

/// A seat that helps adopts all that it had retired and that was not folded, and does nothing while
/// a plan is open.
#[test]
fn a_seat_that_helps_takes_back_what_is_left() -> Result<(), Refused> {
    let mut arena = Arena::<u64>::open(Limits {
        shards: 1,
        ..Limits::default()
    })?;
    let mut seat = arena.seat()?;
    let keys = (0..20 * 128)
        .map(|number| seat.insert(number))
        .collect::<Result<Vec<_>, _>>()?;
    // One value stays on each page: on all but two at the same slot.
    let stays = |key: &Key| key.slot() == 7 * u32::from(key.serial() < 2);
    assert!(keys.iter().all(|key| stays(key) || seat.free(*key)));
    arena.ask_to_retire(12);
    assert_eq!((seat.help_compact()?, seat.help_compact()?), (12, 0));
    let marked = arena.mark()?;
    assert!((1..=2).contains(&marked.folds));
    arena.ask_to_retire(3);
    assert_eq!(
        (seat.help_compact()?, seat.adopt()),
        (0, Err(Refused::PlanOpen))
    );
    arena.close()?;
    // It takes 12 back, and then three others go.
    assert_eq!((seat.help_compact()?, seat.help_compact()?), (3, 0));
    assert!((0..3).all(|_| seat.adopt().is_ok()));
    assert_eq!(seat.adopt(), Err(Refused::NothingToAdopt));
    // With nothing to take back it is the retirement that waits for the plan.
    arena.ask_to_retire(0);
    assert_eq!((seat.help_compact()?, seat.retire(5)?), (0, 5));
    arena.ask_to_retire(2);
    assert!(arena.mark()?.folds > 0);
    assert_eq!(seat.help_compact()?, 0);
    arena.close()?;
    while seat.adopt().is_ok() {}
    assert_eq!((seat.help_compact()?, arena.totals().pages), (2, 20));
    Ok(())
}

/// More groups than a plan has on a side are folded by several, at once and in parts.
#[test]
fn many_groups_take_several_plans() -> Result<(), Refused> {
    const PAGES: usize = 9000;
    for is_at_once in [true, false] {
        let mut arena = Arena::<u64>::open(Limits {
            shards: 1,
            slots: 4,
            ..Limits::default()
        })?;
        let mut seat = arena.seat()?;
        let keys = (0..PAGES as u64 * 4)
            .map(|number| seat.insert(number))
            .collect::<Result<Vec<_>, _>>()?;
        let stays = |key: &Key| key.slot() == key.serial() % 4;
        assert!(keys.iter().all(|key| stays(key) || seat.free(*key)));
        assert_eq!(seat.retire(PAGES / 2)?, PAGES / 2);
        let mut gone = 0;
        if is_at_once {
            gone = arena.mesh()?;
        } else {
            loop {
                let done = arena.compact_within(100)?;
                gone += done.pages;
                if !done.more {
                    break;
                }
            }
        }
        assert!(gone > 4096, "{gone} pages went");
        assert_eq!(arena.totals().pages, PAGES - gone);
        let is_there = |(key, number): (&Key, u64)| seat.get(*key) == Some(number);
        let left = keys.iter().zip(0..).filter(|(key, _)| stays(key));
        assert_eq!(left.filter(|it| is_there(*it)).count(), PAGES);
    }
    Ok(())
}
