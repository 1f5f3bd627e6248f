//! Small pages that are gathered leave the process, by each call that gathers. It is one test,
//! since what a process has resident is measured.

mod common;

use common::kilobytes;
use std::sync::{Arc, Mutex};
use std::thread;
use std::time::{Duration, Instant};
use teurlaks::arena::Seat;
use teurlaks::{Arena, Compacted, Core, Key, Limits, Policy, Refused, SharedStore};

/// How many values there are: on 5,000 pages of 1,024 bytes, of which four share one of the
/// system's.
const VALUES: usize = 320_000;
const SLOTS: usize = 64;

/// How many kilobytes these have.
const FULL: u64 = VALUES as u64 * 16 / 1024;

const LIMITS: Limits = Limits {
    shards: 1,
    pages: 1 << 20,
    spans: u32::MAX,
    slots: SLOTS as u32,
    generations: u32::MAX,
};

/// What keeps numbers.
trait Keeps {
    fn put(&mut self, number: u64) -> Result<Key, Refused>;
    fn find(&mut self, key: Key) -> Option<u64>;
    fn let_go(&mut self, key: Key) -> bool;
}

/// Fills pages, empties four of five, has the rest gathered, and says how many percent of the
/// memory are left.
fn left<S: Keeps>(
    mut store: S,
    gather: impl FnOnce(&mut S) -> Result<(), Refused>,
) -> Result<u64, Refused> {
    let mut keys = vec![Key::from_bits(1).expect("its generation is 1"); VALUES];
    let base = kilobytes("VmRSS:");
    for (key, number) in keys.iter_mut().zip(0..) {
        *key = store.put(number)?;
    }
    let full = kilobytes("VmRSS:") - base;
    // Some of it may be what was resident before and free.
    assert!(full >= FULL * 3 / 4, "{full} KB");
    let stays = |number: usize| number / SLOTS % 5 == 0;
    let mut gone = (0..VALUES).filter(|number| !stays(*number));
    assert!(gone.all(|number| store.let_go(keys[number])));
    gather(&mut store)?;
    let left = kilobytes("VmRSS:").saturating_sub(base);
    for (number, key) in keys.iter().enumerate() {
        let value = stays(number).then_some(number as u64);
        assert_eq!(store.find(*key), value);
    }
    Ok(100 * left / full)
}

impl Keeps for Core {
    fn put(&mut self, number: u64) -> Result<Key, Refused> {
        self.insert(0, number.into())
    }
    fn find(&mut self, key: Key) -> Option<u64> {
        self.get(key).map(|word| word as u64)
    }
    fn let_go(&mut self, key: Key) -> bool {
        self.free(key)
    }
}

impl Keeps for Arc<SharedStore<[u64; 2]>> {
    fn put(&mut self, number: u64) -> Result<Key, Refused> {
        self.insert([number; 2])
    }
    fn find(&mut self, key: Key) -> Option<u64> {
        self.get(key).map(|value| value[1])
    }
    fn let_go(&mut self, key: Key) -> bool {
        self.free(key)
    }
}

/// An arena with its one seat.
struct Seated {
    arena: Arc<Mutex<Arena<[u64; 2]>>>,
    seat: Seat<[u64; 2]>,
}

impl Keeps for Seated {
    fn put(&mut self, number: u64) -> Result<Key, Refused> {
        self.seat.insert([number; 2])
    }
    fn find(&mut self, key: Key) -> Option<u64> {
        self.seat.get(key).map(|value| value[1])
    }
    fn let_go(&mut self, key: Key) -> bool {
        self.seat.free(key)
    }
}

fn core() -> Result<Core, Refused> {
    Core::new(LIMITS)
}

fn shared() -> Result<Arc<SharedStore<[u64; 2]>>, Refused> {
    SharedStore::with_limits(LIMITS).map(Arc::new)
}

fn seated() -> Result<Seated, Refused> {
    let mut arena = Arena::open(LIMITS)?;
    let seat = arena.seat()?;
    let arena = Arc::new(Mutex::new(arena));
    Ok(Seated { arena, seat })
}

/// Takes all parts of a compaction.
fn in_parts(mut part: impl FnMut() -> Result<Compacted, Refused>) -> Result<(), Refused> {
    while part()?.more {}
    Ok(())
}

/// Waits until a thread in the background has given so much back, or a minute is over.
fn wait_until_less(mut work: impl FnMut() -> Result<(), Refused>) -> Result<(), Refused> {
    let (began, full) = (Instant::now(), kilobytes("VmRSS:"));
    while kilobytes("VmRSS:") + FULL / 2 > full && began.elapsed() < Duration::from_secs(60) {
        work()?;
        thread::sleep(Duration::from_millis(1));
    }
    Ok(())
}

const POLICY: Policy = Policy {
    interval: Duration::from_millis(1),
    budget: 64,
    least_percent: 25,
};

fn by_a_core() -> Result<[u64; 4], Refused> {
    Ok([
        left(core()?, |core| core.trim(0).and_then(|_| core.gather(0)))?,
        left(core()?, |core| core.compact().map(drop))?,
        left(core()?, |core| in_parts(|| core.compact_within(1)))?,
        left(core()?, |core| in_parts(|| core.compact_within(100)))?,
    ])
}

fn by_what_is_shared() -> Result<[u64; 2], Refused> {
    Ok([
        left(shared()?, |store| store.compact().map(drop))?,
        left(shared()?, |store| in_parts(|| store.compact_within(100)))?,
    ])
}

fn by_seats() -> Result<[u64; 4], Refused> {
    let trimmed = |seated: &mut Seated| assert!(seated.seat.trim() > VALUES / SLOTS / 2);
    Ok([
        left(seated()?, |seated| {
            trimmed(seated);
            seated.seat.gather()
        })?,
        left(seated()?, |seated| {
            trimmed(seated);
            seated.seat.session().gather()
        })?,
        left(seated()?, |seated| {
            trimmed(seated);
            seated.arena.lock().unwrap().ask_to_retire(0);
            seated.seat.help_compact().map(drop)
        })?,
        // The pool has all pages then.
        left(seated()?, |seated| {
            seated.seat.end()?;
            in_parts(|| seated.arena.lock().unwrap().compact_within(10))
        })?,
    ])
}

fn in_background() -> Result<[u64; 2], Refused> {
    Ok([
        left(shared()?, |store| {
            let _background = store
                .compact_in_background(POLICY)
                .expect("a thread begins");
            wait_until_less(|| Ok(()))
        })?,
        left(seated()?, |seated| {
            let _background = Arena::compact_in_background(&seated.arena, POLICY);
            wait_until_less(|| seated.seat.help_compact().map(drop))
        })?,
    ])
}

/// Of pages that are trimmed alone nearly all memory stays, and of those that are gathered less
/// than half; in the background no more is waited for than that half of it goes.
#[test]
fn each_gathering_gives_memory_back() -> Result<(), Refused> {
    let trimmed = left(core()?, |core| core.trim(0).map(drop))?;
    assert!(trimmed > 78, "{trimmed} % are left");
    let core = by_a_core()?;
    assert!(core.iter().all(|left| *left < 54), "{core:?} % are left");
    let shared = by_what_is_shared()?;
    assert!(
        shared.iter().all(|left| *left < 54),
        "{shared:?} % are left"
    );
    let seats = by_seats()?;
    assert!(seats.iter().all(|left| *left < 54), "{seats:?} % are left");
    let background = in_background()?;
    assert!(
        background.iter().all(|left| *left < 70),
        "{background:?} % are left"
    );
    Ok(())
}
